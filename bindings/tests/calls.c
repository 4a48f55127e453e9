/* What goes in comes out: each argument and each field, the counts, and closing with each room. */
#include "check.h"
#include <string.h>

static klsm_queue queue;

static void texts(void) {
    int distinct = 1;
    for (int32_t a = KLSM_OK; a <= KLSM_MISALIGNED; a++)
        for (int32_t b = KLSM_OK; b < a; b++)
            distinct = distinct && strcmp(klsm_text(a), klsm_text(b)) != 0;
    check("each code has a text of its own", distinct);
    check("no other code has one", strcmp(klsm_text(KLSM_MISALIGNED + 1), "unknown code") == 0 &&
                                       strcmp(klsm_text(-1), "unknown code") == 0);
    char version[32];
    snprintf(version, sizeof version, "%d.%d.%d", KLSM_VERSION_MAJOR, KLSM_VERSION_MINOR, KLSM_VERSION_PATCH);
    check("the version is that of its numbers", strcmp(version, KLSM_VERSION) == 0);
}

static void fields(void) {
    klsm_item item = {0, 0, 0, 0};
    check_code("open", klsm_open(&queue, 4, 64, KLSM_FIRST, 0), KLSM_OK);
    for (uint64_t i = 0; i < 5; i++)
        check_or_stop("insert", klsm_insert(&queue.members[2], 100 + i, 1000 + i) == KLSM_OK);
    const uint64_t key = UINT64_C(0x0123456789abcdef), load = UINT64_C(0xfedcba9876543210);
    check_code("insert", klsm_try_insert(&queue.members[2], key, load), KLSM_OK);
    for (uint64_t i = 0; i < 5; i++) {
        check_code("delete_min", klsm_delete_min(&queue.members[2], &item), KLSM_OK);
        check("its key and load", item.key == 100 + i && item.load == 1000 + i);
        check("its stamp", item.number == i && item.owner == 2);
    }
    check_code("try_delete_min", klsm_try_delete_min(&queue.members[2], &item), KLSM_OK);
    check("the key", item.key == key);
    check("the load", item.load == load);
    check("the number", item.number == 5);
    check("the owner", item.owner == 2);
    check_code("nothing is left", klsm_try_delete_min(&queue.members[2], &item), KLSM_NOTHING);
    check("the item is as it was", item.key == key && item.load == load && item.number == 5 && item.owner == 2);
    check_or_stop("insert", klsm_insert(&queue.members[3], UINT64_MAX, UINT64_MAX) == KLSM_OK);
    check_or_stop("insert", klsm_insert(&queue.members[3], 0, 0) == KLSM_OK);
    check_code("the least key", klsm_delete_min(&queue.members[3], &item), KLSM_OK);
    check("it is 0", item.key == 0 && item.load == 0 && item.number == 1 && item.owner == 3);
    check_code("the greatest key", klsm_delete_min(&queue.members[3], &item), KLSM_OK);
    check("it is 2^64 - 1", item.key == UINT64_MAX && item.load == UINT64_MAX && item.number == 0);
    klsm_drop(&queue);
}

/* Member t makes 10 * (t + 1) insertions and t deletions. */
static void counts(void) {
    klsm_item item;
    check_code("open", klsm_open(&queue, 16, 8, KLSM_RANDOM, 3), KLSM_OK);
    for (uint64_t t = 0; t < 16; t++)
        for (uint64_t i = 0; i < 10 * (t + 1); i++)
            check_or_stop("insert", klsm_insert(&queue.members[t], i, t) == KLSM_OK);
    for (uint64_t t = 0; t < 16; t++)
        for (uint64_t i = 0; i < t; i++)
            check_or_stop("delete", klsm_delete_min(&queue.members[t], &item) == KLSM_OK);
    int inserted = 1, deleted = 1;
    for (uint64_t t = 0; t < 16; t++) {
        inserted = inserted && klsm_inserted(&queue.members[t]) == 10 * (t + 1);
        deleted = deleted && klsm_deleted(&queue.members[t]) == t;
    }
    check("the insertions of each member", inserted);
    check("the deletions of each member", deleted);
    check("what is left", klsm_left(&queue) == 1360 - 120);
    klsm_account account = {0, 0, 0};
    check_code("close", klsm_close(&queue, &account, &item, 0), KLSM_OK);
    check("the account", account.inserted == 1360 && account.deleted == 120 && account.left == 1240);
}

/* A member that deletes what others inserted, so that it has more deletions than insertions. */
static void counts_below(void) {
    klsm_item item;
    check_code("open", klsm_open(&queue, 2, 0, KLSM_FIRST, 0), KLSM_OK);
    for (uint64_t i = 0; i < 5; i++)
        check_or_stop("insert", klsm_insert(&queue.members[0], i, i) == KLSM_OK);
    for (uint64_t i = 0; i < 3; i++)
        check_or_stop("delete", klsm_delete_min(&queue.members[1], &item) == KLSM_OK);
    check("deletions of what others inserted", klsm_deleted(&queue.members[1]) == 3);
    check("count as none of its insertions", klsm_inserted(&queue.members[1]) == 0);
    check("two are left", klsm_left(&queue) == 2);
    klsm_drop(&queue);
}

static int is_ascending(const klsm_item *a, const klsm_item *b) {
    if (a->key != b->key)
        return a->key < b->key;
    if (a->owner != b->owner)
        return a->owner < b->owner;
    return a->number < b->number;
}

enum { ITEMS = 300, PLACES = ITEMS + 10 };

/* Closes over so many places of the array. All members inserted the keys 0 to 9 in turn. */
static void closing(const char *name, size_t room) {
    static klsm_item left[PLACES];
    klsm_item untouched;
    klsm_account account = {0, 0, 0};
    memset(left, 0xa5, sizeof left);
    memcpy(&untouched, &left[0], sizeof untouched);
    check_or_stop("open", klsm_open(&queue, 3, 16, KLSM_LAST, 0) == KLSM_OK);
    for (uint64_t i = 0; i < ITEMS; i++)
        check_or_stop("insert", klsm_insert(&queue.members[i % 3], i / 3 % 10, i) == KLSM_OK);
    check_code(name, klsm_close(&queue, &account, left, room), KLSM_OK);
    check("the account", account.inserted == ITEMS && account.deleted == 0 && account.left == ITEMS);
    size_t copied = room < ITEMS ? room : ITEMS;
    int least = 1, ascending = 1, rest = 1;
    for (size_t i = 0; i < copied; i++) {
        /* 30 items have each key, 10 of these each owner */
        const klsm_item *item = &left[i];
        least = least && item->key == i / 30 && item->owner == i % 30 / 10;
        least = least && item->number == item->key + i % 10 * 10;
        least = least && item->load == item->number * 3 + item->owner;
        ascending = ascending && (i == 0 || is_ascending(&left[i - 1], item));
    }
    for (size_t i = copied; i < PLACES; i++)
        rest = rest && memcmp(&left[i], &untouched, sizeof untouched) == 0;
    check("the least items are copied", least);
    check("in ascending order", ascending);
    check("the rest of the array is as it was", rest);
}

/* What is in own parts is not at the front; once it is shared, its least key is. */
static void fronts(void) {
    klsm_item item;
    check("the front of a closed queue", klsm_front(&queue.members[0]) == UINT64_MAX);
    check_or_stop("open", klsm_open(&queue, 2, 4, KLSM_FIRST, 0) == KLSM_OK);
    check("of an empty one", klsm_front(&queue.members[1]) == UINT64_MAX);
    for (uint64_t key = 10; key < 14; key++)
        check_or_stop("insert", klsm_insert(&queue.members[0], key, 0) == KLSM_OK);
    check("four own items are not at the front", klsm_front(&queue.members[1]) == UINT64_MAX);
    check_or_stop("insert", klsm_insert(&queue.members[0], 5, 0) == KLSM_OK);
    check("the block that moved is", klsm_front(&queue.members[1]) == 10 && klsm_front(&queue.members[0]) == 10);
    check_or_stop("delete", klsm_delete_min(&queue.members[1], &item) == KLSM_OK && item.key == 10);
    check("and its next item then", klsm_front(&queue.members[0]) == 11);
    check("it counts as no call", klsm_inserted(&queue.members[1]) == 0 && klsm_deleted(&queue.members[1]) == 1);
    klsm_drop(&queue);
}

int main(void) {
    fronts();
    texts();
    fields();
    counts();
    counts_below();
    closing("close with no room", 0);
    closing("close with room for one", 1);
    closing("close with less room than items", ITEMS - 7);
    closing("close with room for all", ITEMS);
    closing("close with more room", PLACES);
    return check_status();
}
