/* What the calls answer where they are not to be made, the order of the causes, and that a refused
 * call changes nothing. */
#include "check.h"
#include <string.h>

static klsm_queue queue, before;
static const klsm_queue closed;

static void save(void) { memcpy(&before, &queue, sizeof queue); }
static int is_same(void) { return memcmp(&before, &queue, sizeof queue) == 0; }
static int is_closed(void) {
    for (int t = 0; t < KLSM_MAX_THREADS; t++)
        if (queue.members[t].live != 0)
            return 0;
    return 1;
}

static void not_open(void) {
    klsm_item item, same;
    klsm_account account = {1, 2, 3};
    uint64_t moved = 7;
    klsm_dual_bound bound = {7, 8, 9};
    memset(&item, 0x5a, sizeof item);
    memcpy(&same, &item, sizeof item);
    check_code("try_insert, never opened", klsm_try_insert(&queue.members[0], 1, 2), KLSM_NOT_OPEN);
    check_code("insert, never opened", klsm_insert(&queue.members[KLSM_MAX_THREADS - 1], 1, 2), KLSM_NOT_OPEN);
    check_code("try_delete_min, never opened", klsm_try_delete_min(&queue.members[0], &item), KLSM_NOT_OPEN);
    check_code("delete_min, never opened", klsm_delete_min(&queue.members[KLSM_MAX_THREADS - 1], &item), KLSM_NOT_OPEN);
    check_code("the same alone", klsm_try_delete_min_alone(&queue.members[0], &item), KLSM_NOT_OPEN);
    check_code("and waiting", klsm_delete_min_alone(&queue.members[KLSM_MAX_THREADS - 1], &item), KLSM_NOT_OPEN);
    check_code("try_share, never opened", klsm_try_share(&queue.members[0], &moved), KLSM_NOT_OPEN);
    check_code("share, never opened", klsm_share(&queue.members[KLSM_MAX_THREADS - 1], &moved), KLSM_NOT_OPEN);
    check_code("try_bound, never opened", klsm_try_bound(&queue.members[0], &bound), KLSM_NOT_OPEN);
    check_code("bound, never opened", klsm_bound(&queue.members[KLSM_MAX_THREADS - 1], &bound), KLSM_NOT_OPEN);
    check("no bound is written", bound.queue == 7 && bound.work == 8 && bound.items == 9);
    check_code("try_rest, never opened", klsm_try_rest(&queue.members[0]), KLSM_NOT_OPEN);
    check_code("rest, never opened", klsm_rest(&queue.members[KLSM_MAX_THREADS - 1]), KLSM_NOT_OPEN);
    check("the item and the number are as they were", memcmp(&same, &item, sizeof item) == 0 && moved == 7);
    check("inserted, never opened", klsm_inserted(&queue.members[0]) == 0);
    check("deleted, never opened", klsm_deleted(&queue.members[0]) == 0);
    check("left, never opened", klsm_left(&queue) == 0);
    check_code("close, never opened", klsm_close(&queue, &account, &item, 1), KLSM_NOT_OPEN);
    check("the account is as it was", account.inserted == 1 && account.deleted == 2 && account.left == 3);
    check("the array is as it was", memcmp(&same, &item, sizeof item) == 0);
    klsm_drop(&queue);
    check("all bytes are 0 after it", memcmp(&queue, &closed, sizeof queue) == 0);
}

/* An opening that is refused with this code, over the queue as it is. */
static void refused(const char *name, size_t threads, size_t k, uint32_t pick, int32_t expected) {
    save();
    check_code(name, klsm_open(&queue, threads, k, pick, 7), expected);
    if (!is_same())
        check("a refused opening changes no byte", 0);
}

static void openings(void) {
    refused("open, 0 threads", 0, 64, KLSM_FIRST, KLSM_BAD_COUNT);
    refused("open, 65 threads", 65, 64, KLSM_FIRST, KLSM_BAD_COUNT);
    refused("open, as many threads as there are numbers", SIZE_MAX, 64, KLSM_FIRST, KLSM_BAD_COUNT);
    refused("open, 2^32 + 1 threads", ((size_t)1 << 32) + 1, 64, KLSM_FIRST, KLSM_BAD_COUNT);
    refused("open, k = 1025", 4, 1025, KLSM_FIRST, KLSM_BAD_K);
    refused("open, the greatest number as k", 4, SIZE_MAX, KLSM_FIRST, KLSM_BAD_K);
    refused("open, 2^32 as k", 4, (size_t)1 << 32, KLSM_FIRST, KLSM_BAD_K);
    refused("open, pick 3", 4, 64, 3, KLSM_BAD_PICK);
    refused("open, the greatest number as pick", 4, 64, UINT32_MAX, KLSM_BAD_PICK);
    refused("the pick comes before the count and k", 0, 1025, 3, KLSM_BAD_PICK);
    refused("the count comes before k", 0, 1025, KLSM_FIRST, KLSM_BAD_COUNT);
    refused("the pick comes before the count", 65, 64, 3, KLSM_BAD_PICK);
    refused("the pick comes before k", 4, 1025, 3, KLSM_BAD_PICK);
    check("all bytes are 0 after all of them", memcmp(&queue, &closed, sizeof queue) == 0);
}

static void opening_twice(void) {
    klsm_item item;
    uint64_t moved = 7;
    check_code("open", klsm_open(&queue, 2, 64, KLSM_FIRST, 0), KLSM_OK);
    check_code("insert", klsm_insert(&queue.members[1], 3, 30), KLSM_OK);
    refused("open what is open", 2, 64, KLSM_FIRST, KLSM_OPEN);
    refused("being open comes before all else", 0, 1025, 3, KLSM_OPEN);
    check("the items are still there", klsm_left(&queue) == 1);
    check_code("member 2 of two", klsm_try_insert(&queue.members[2], 1, 2), KLSM_NOT_OPEN);
    check_code("the last member of two", klsm_delete_min(&queue.members[KLSM_MAX_THREADS - 1], &item), KLSM_NOT_OPEN);
    check_code("alone", klsm_try_delete_min_alone(&queue.members[2], &item), KLSM_NOT_OPEN);
    check_code("nor does it share", klsm_try_share(&queue.members[2], &moved), KLSM_NOT_OPEN);
    check("and no number is written", moved == 7);
    check_code("nor does it rest", klsm_try_rest(&queue.members[2]), KLSM_NOT_OPEN);
    check_code("delete_min", klsm_delete_min(&queue.members[0], &item), KLSM_OK);
    check("it is the item", item.key == 3 && item.load == 30 && item.owner == 1 && item.number == 0);
}

static void closing_twice(void) {
    klsm_item item = {1, 2, 3, 4};
    klsm_account account = {9, 9, 9};
    check_code("close", klsm_close(&queue, &account, &item, 0), KLSM_OK);
    check("the account", account.inserted == 1 && account.deleted == 1 && account.left == 0);
    check("all members are closed", is_closed());
    account.left = 77;
    save();
    check_code("close a second time", klsm_close(&queue, &account, &item, 1), KLSM_NOT_OPEN);
    check("it changes nothing", is_same() && account.inserted == 1 && account.deleted == 1 &&
                                    account.left == 77 && item.key == 1 && item.owner == 4);
    check_code("insert after close", klsm_insert(&queue.members[0], 1, 2), KLSM_NOT_OPEN);
    check_code("delete_min after close", klsm_delete_min(&queue.members[1], &item), KLSM_NOT_OPEN);
    check_code("the same alone", klsm_delete_min_alone(&queue.members[1], &item), KLSM_NOT_OPEN);
    check_code("share after close", klsm_share(&queue.members[0], &account.left), KLSM_NOT_OPEN);
    klsm_dual_bound bound = {7, 8, 9};
    check_code("bound after close", klsm_bound(&queue.members[0], &bound), KLSM_NOT_OPEN);
    check_code("rest after close", klsm_rest(&queue.members[0]), KLSM_NOT_OPEN);
    check("they write nothing", bound.items == 9 && account.left == 77 && item.key == 1 && item.owner == 4);
    check("counts after close", klsm_inserted(&queue.members[1]) == 0 && klsm_deleted(&queue.members[0]) == 0);
}

static void opening_again(void) {
    klsm_item item;
    check_code("open again, with more threads", klsm_open(&queue, KLSM_MAX_THREADS, 0, KLSM_LAST, 1), KLSM_OK);
    check("it is empty", klsm_left(&queue) == 0);
    check_code("and finds nothing", klsm_delete_min(&queue.members[KLSM_MAX_THREADS - 1], &item), KLSM_NOTHING);
    check_code("insert", klsm_insert(&queue.members[KLSM_MAX_THREADS - 1], 5, 6), KLSM_OK);
    klsm_drop(&queue);
    check("drop closes all members", is_closed());
    check_code("insert after drop", klsm_insert(&queue.members[KLSM_MAX_THREADS - 1], 5, 6), KLSM_NOT_OPEN);
    save();
    klsm_drop(&queue);
    check("drop a second time changes nothing", is_same());
    check_code("open after drop", klsm_open(&queue, 1, 64, KLSM_RANDOM, 1), KLSM_OK);
    check_code("nothing of before is in it", klsm_delete_min(&queue.members[0], &item), KLSM_NOTHING);
    klsm_drop(&queue);
}

int main(void) {
    check("the library is of this header's interface", klsm_abi() == KLSM_ABI);
    not_open();
    openings();
    opening_twice();
    closing_twice();
    opening_again();
    return check_status();
}
