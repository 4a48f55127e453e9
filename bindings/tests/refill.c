/* What a refill does: by one thread that uses two members by turns, each step is told in advance. */
#include "check.h"

enum { K = 8, ITEMS = 100 };

static klsm_queue queue;

/* Opens a queue of two members, of which member 0 inserts the keys from 0, so the shared part has the
 * least of them. */
static void begin(size_t refill) {
    check_or_stop("open", klsm_open_with_refill(&queue, 2, K, KLSM_FIRST, 0, refill) == KLSM_OK);
    for (uint64_t i = 0; i < ITEMS; i++)
        check_or_stop("insert", klsm_insert(&queue.members[0], i, i) == KLSM_OK);
}

/* Whether the member's next deletion gives this key. */
static int gives(uint32_t member, uint64_t key) {
    klsm_item item;
    return klsm_try_delete_min(&queue.members[member], &item) == KLSM_OK && item.key == key;
}

static void without(void) {
    begin(0);
    check("no refill: member 1 gets the least", gives(1, 0));
    check("no refill: the next one is for member 0", gives(0, 1));
    check("no refill: and the next one for member 1", gives(1, 2));
    klsm_drop(&queue);
}

/* Member 1 takes 0, and so many more that member 0 passes over them. */
static void moves(size_t refill, uint64_t moved) {
    char name[64];
    snprintf(name, sizeof name, "refill %zu: %d items move", refill, (int)moved);
    begin(refill);
    int as_told = gives(1, 0) && klsm_left(&queue) == ITEMS - 1;
    as_told = as_told && gives(0, moved + 1);
    for (uint64_t key = 1; key <= moved; key++)
        as_told = as_told && gives(1, key);
    check(name, as_told);
    check("they count as neither insertions nor deletions of their member",
          klsm_inserted(&queue.members[1]) == 0 && klsm_deleted(&queue.members[1]) == moved + 1);
    klsm_drop(&queue);
}

/* The own part of member 1 has three items, so there is room for five, and half of that, rounded up, is
 * three. */
static void moves_into_half_the_room(void) {
    begin(K);
    for (uint64_t i = 0; i < 3; i++)
        check_or_stop("insert", klsm_insert(&queue.members[1], 1000 + i, i) == KLSM_OK);
    check("three own items: a shared one is deleted", gives(1, 0));
    check("three own items: three move", gives(0, 4) && gives(1, 1) && gives(1, 2) && gives(1, 3));
    klsm_drop(&queue);
}

/* What moved is found by a member that finds nothing else. */
static void what_moved_is_found(void) {
    klsm_account account;
    klsm_item item, left;
    check_or_stop("open", klsm_open_with_refill(&queue, 2, K, KLSM_FIRST, 0, K) == KLSM_OK);
    for (uint64_t i = 0; i <= K; i++) /* the own part has no room for the last one, so a block is shared */
        check_or_stop("insert", klsm_insert(&queue.members[0], i, i) == KLSM_OK);
    int ok = klsm_delete_min(&queue.members[1], &item) == KLSM_OK;
    for (uint64_t i = 0; i < K; i++)
        ok = ok && klsm_delete_min(&queue.members[0], &item) == KLSM_OK;
    check("each item is found by the other member", ok);
    check_code("and then nothing", klsm_delete_min(&queue.members[0], &item), KLSM_NOTHING);
    check_code("close", klsm_close(&queue, &account, &left, 0), KLSM_OK);
    check("the account", account.inserted == K + 1 && account.deleted == K + 1 && account.left == 0);
}

/* What moved is left where nobody deletes it. */
static void what_moved_is_left(void) {
    klsm_account account;
    klsm_item left[ITEMS];
    begin(4);
    check("a deletion", gives(1, 0));
    check_code("close", klsm_close(&queue, &account, left, ITEMS), KLSM_OK);
    int all = account.inserted == ITEMS && account.deleted == 1 && account.left == ITEMS - 1;
    for (uint64_t i = 0; i + 1 < ITEMS; i++)
        all = all && left[i].key == i + 1 && left[i].number == i + 1 && left[i].owner == 0;
    check("all others are left, ascending, as their owner inserted them", all);
}

/* An opening that is refused with this code. */
static void refused(const char *name, size_t threads, size_t k, uint32_t pick, size_t refill, int32_t expected) {
    check_code(name, klsm_open_with_refill(&queue, threads, k, pick, 0, refill), expected);
    klsm_options options = {threads, k, pick, 0, refill, 0};
    int32_t by_options = klsm_open_with(&queue, &options);
    check_code("the same by options, where it counts as k", by_options,
               expected == KLSM_BAD_REFILL ? KLSM_OK : expected);
    if (by_options == KLSM_OK)
        klsm_drop(&queue);
}

static void refusals(void) {
    refused("a refill above k", 2, 8, KLSM_FIRST, 9, KLSM_BAD_REFILL);
    refused("far above it", 2, 64, KLSM_FIRST, SIZE_MAX - 1, KLSM_BAD_REFILL);
    refused("k comes before the refill", 2, 1025, KLSM_FIRST, 1026, KLSM_BAD_K);
    refused("the count comes before k and the refill", 65, 1025, KLSM_FIRST, 1026, KLSM_BAD_COUNT);
    refused("the count comes before the refill", 65, 8, KLSM_FIRST, 9, KLSM_BAD_COUNT);
    refused("no count", 0, 8, KLSM_FIRST, 9, KLSM_BAD_COUNT);
    refused("the pick comes before all of them", 65, 1025, 3, 1026, KLSM_BAD_PICK);
    refused("the pick comes before the refill", 2, 8, 3, 9, KLSM_BAD_PICK);
    check_code("a refill of k", klsm_open_with_refill(&queue, 2, 8, KLSM_FIRST, 0, 8), KLSM_OK);
    refused("being open comes before all of them", 65, 1025, 3, 1026, KLSM_OPEN);
    refused("being open comes before the refill", 2, 8, KLSM_FIRST, 9, KLSM_OPEN);
    klsm_drop(&queue);
    check_code("k = 0 has no room", klsm_open_with_refill(&queue, 2, 0, KLSM_FIRST, 0, 1), KLSM_BAD_REFILL);
    klsm_options exact = {.threads = 2};
    check_code("k = 0 by options", klsm_open_with(&queue, &exact), KLSM_OK);
    klsm_drop(&queue);
    check_code("the greatest k and refill", klsm_open_with_refill(&queue, 2, 1024, KLSM_FIRST, 0, 1024), KLSM_OK);
    klsm_drop(&queue);
}

int main(void) {
    without();
    moves(1, 1);
    moves(2, 2);
    moves(4, 4);
    moves(5, 4);
    moves(8, 4);
    moves_into_half_the_room();
    what_moved_is_found();
    what_moved_is_left();
    refusals();
    return check_status();
}
