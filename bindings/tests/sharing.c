/* What a sharing moves, and that a deletion alone brings nothing home: by one thread that uses two members by turns,
 * each step is told in advance. parked.c has what it is good for. */
#include "check.h"

enum { K = 8, REFILL = 4, ITEMS = 100 };

static klsm_queue queue;

/* Whether the member's next deletion gives this key. */
static int gives(uint32_t member, uint64_t key) {
    klsm_item item;
    return klsm_delete_min(&queue.members[member], &item) == KLSM_OK && item.key == key;
}

static int gives_alone(uint32_t member, uint64_t key) {
    klsm_item item;
    return klsm_delete_min_alone(&queue.members[member], &item) == KLSM_OK && item.key == key;
}

/* Whether the member's sharing moves so many. */
static int shares(uint32_t member, uint64_t count) {
    uint64_t moved = UINT64_MAX;
    return klsm_share(&queue.members[member], &moved) == KLSM_OK && moved == count;
}

/* Member 0 has so many items of its own, which it inserted in descending order. */
static void all_items_move(uint64_t count) {
    klsm_item item = {7, 7, 7, 7};
    char name[64];
    snprintf(name, sizeof name, "%d items move", (int)count);
    check_or_stop("open", klsm_open(&queue, 2, K, KLSM_FIRST, 0) == KLSM_OK);
    for (uint64_t i = 0; i < count; i++)
        check_or_stop("insert", klsm_insert(&queue.members[0], count - 1 - i, 100 + i) == KLSM_OK);
    check("none is shared so far", klsm_front(&queue.members[1]) == UINT64_MAX);
    check(name, shares(0, count));
    check("the front is the key of the smallest", klsm_front(&queue.members[1]) == (count > 0 ? 0 : UINT64_MAX));
    check("a second time there is none", shares(0, 0));
    check("it is neither an insertion nor a deletion", klsm_inserted(&queue.members[0]) == count &&
                                                           klsm_deleted(&queue.members[0]) == 0 &&
                                                           klsm_left(&queue) == count);
    int in_order = 1;
    for (uint64_t key = 0; key < count; key++) {
        in_order = in_order && klsm_try_delete_min(&queue.members[1], &item) == KLSM_OK && item.key == key;
        in_order = in_order && item.number == count - 1 - key && item.load == 100 + item.number && item.owner == 0;
    }
    check("the other member finds them in order, as they were inserted", in_order);
    check_code("and then nothing", klsm_try_delete_min(&queue.members[1], &item), KLSM_NOTHING);
    klsm_drop(&queue);
}

/* Opens a queue of two members whose items are all shared. */
static void begin(void) {
    check_or_stop("open", klsm_open_with_refill(&queue, 2, K, KLSM_FIRST, 0, REFILL) == KLSM_OK);
    for (uint64_t key = 0; key < ITEMS; key++)
        check_or_stop("insert", klsm_insert(&queue.members[0], key, key) == KLSM_OK);
    uint64_t moved = 0;
    check_code("share", klsm_share(&queue.members[0], &moved), KLSM_OK);
    check("some were kept so far", moved > 0 && moved <= K);
    check("all are shared", shares(0, 0) && klsm_front(&queue.members[0]) == 0);
}

/* Member 1 brings 1 to 4 home, which member 0 passes over until they are shared. */
static void what_came_home_goes_back(void) {
    begin();
    check("a deletion with a refill", gives(1, 0));
    check("what it brought home is passed over", klsm_front(&queue.members[0]) == 5 && gives(0, 5));
    check("it goes back", shares(1, REFILL) && klsm_front(&queue.members[1]) == 1);
    check("and is found first", gives(0, 1) && gives(0, 2) && gives(0, 3) && gives(0, 4));
    klsm_drop(&queue);
}

/* The same with items that a member inserted since, and one that another member inserted. */
static void what_was_inserted_goes_too(void) {
    begin();
    check("a deletion with a refill", gives(1, 0));
    check_or_stop("insert", klsm_insert(&queue.members[1], 2, 77) == KLSM_OK);
    check_or_stop("insert", klsm_insert(&queue.members[1], 0, 78) == KLSM_OK);
    check("both move with what came home", shares(1, REFILL + 2));
    klsm_item item;
    check("the other member finds its own one first of two with one key",
          gives(0, 0) && gives(0, 1) && klsm_delete_min(&queue.members[0], &item) == KLSM_OK && item.key == 2 &&
              item.owner == 0);
    check("and the other one then",
          klsm_delete_min(&queue.members[0], &item) == KLSM_OK && item.key == 2 && item.load == 77 && item.owner == 1);
    klsm_drop(&queue);
}

/* The next member finds what a deletion with a refill would have brought home. */
static void a_deletion_alone(int waits) {
    klsm_item item = {7, 7, 7, 7};
    begin();
    int32_t code = waits ? klsm_delete_min_alone(&queue.members[1], &item)
                         : klsm_try_delete_min_alone(&queue.members[1], &item);
    check_code(waits ? "a deletion alone" : "one that never blocks", code, KLSM_OK);
    check("gives the smallest item", item.key == 0 && item.load == 0 && item.number == 0 && item.owner == 0);
    check("brings nothing home", klsm_front(&queue.members[1]) == 1 && shares(1, 0));
    check("and counts as a deletion", klsm_deleted(&queue.members[1]) == 1 && klsm_left(&queue) == ITEMS - 1);
    check("so the next member finds the next item", gives_alone(0, 1) && gives_alone(1, 2) && gives_alone(0, 3));
    check("a deletion with a refill brings some home again", gives(1, 4) && gives_alone(0, 9) && gives_alone(1, 5));
    klsm_drop(&queue);
}

/* Of own items, of those that another member keeps, and where there is none. */
static void deletions_alone_of_kept_items(void) {
    klsm_item item = {7, 7, 7, 7};
    check_or_stop("open", klsm_open_with_refill(&queue, 2, K, KLSM_FIRST, 0, REFILL) == KLSM_OK);
    check_code("nothing", klsm_delete_min_alone(&queue.members[0], &item), KLSM_NOTHING);
    check("and no item is written", item.key == 7 && item.owner == 7);
    for (uint64_t key = 0; key < K; key++)
        check_or_stop("insert", klsm_insert(&queue.members[0], key, key) == KLSM_OK);
    check("an own item", gives_alone(0, 0));
    int ok = 1;
    for (uint64_t key = 1; key < K; key++)
        ok = ok && klsm_try_delete_min_alone(&queue.members[1], &item) == KLSM_OK && item.owner == 0;
    check("each that the other member keeps", ok);
    check_code("nothing is left", klsm_try_delete_min_alone(&queue.members[1], &item), KLSM_NOTHING);
    klsm_drop(&queue);
}

/* A member that has shared has room for k items again, and takes no shared lock for them. */
static void there_is_room_again(void) {
    check_or_stop("open", klsm_open(&queue, 2, K, KLSM_FIRST, 0) == KLSM_OK);
    for (uint64_t key = 0; key < K; key++)
        check_or_stop("insert", klsm_insert(&queue.members[0], 50 + key, key) == KLSM_OK);
    check("k items move", shares(0, K) && klsm_front(&queue.members[1]) == 50);
    for (uint64_t key = 0; key < K; key++)
        check_or_stop("insert", klsm_insert(&queue.members[0], key, key) == KLSM_OK);
    check("k others stay", klsm_front(&queue.members[1]) == 50);
    check("until they are shared, too", shares(0, K) && klsm_front(&queue.members[1]) == 0);
    klsm_drop(&queue);
}

int main(void) {
    all_items_move(0);
    all_items_move(1);
    all_items_move(5);
    all_items_move(K);
    what_came_home_goes_back();
    what_was_inserted_goes_too();
    a_deletion_alone(0);
    a_deletion_alone(1);
    deletions_alone_of_kept_items();
    there_is_room_again();
    return check_status();
}
