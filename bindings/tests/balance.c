/* What a balance does: by one thread that uses the members by turns, each step is told in advance. */
#include "check.h"

enum { K = 64 };

static klsm_queue queue;

static void begin(size_t threads, size_t k, uint32_t balance) {
    check_or_stop("open", klsm_open_with_balance(&queue, threads, k, KLSM_FIRST, 0, 0, balance) == KLSM_OK);
}

/* A member inserts so many keys, ascending from this one. */
static void insert(uint32_t member, uint64_t first, uint64_t count) {
    for (uint64_t i = 0; i < count; i++)
        check_or_stop("insert", klsm_insert(&queue.members[member], first + i, i) == KLSM_OK);
}

/* Whether the member's next deletions give so many keys, ascending from this one. */
static int gives(uint32_t member, uint64_t first, uint64_t count) {
    klsm_item item;
    int as_told = 1;
    for (uint64_t i = 0; i < count; i++)
        as_told = as_told && klsm_try_delete_min(&queue.members[member], &item) == KLSM_OK && item.key == first + i;
    return as_told;
}

/* Member 0 keeps ten small items, and member 1 greater ones. */
static void by_turns(uint32_t balance) {
    begin(2, K, balance);
    insert(0, 0, 10);
    insert(1, 100, 8);
}

static void without(void) {
    by_turns(0);
    check("no balance: a member deletes its own items", gives(1, 100, 8));
    klsm_drop(&queue);
}

static void each_time(void) {
    by_turns(1);
    check("balance 1: all in order", gives(1, 0, 10) && gives(1, 100, 8));
    klsm_drop(&queue);
}

static void each_second_time(void) {
    by_turns(2);
    check("balance 2: a deletion of an own item", gives(1, 100, 1));
    check("balance 2: the second one is of the smallest", gives(1, 0, 1));
    check("balance 2: four items have moved", gives(0, 4, 1));
    check("they count as neither insertions nor deletions", klsm_inserted(&queue.members[1]) == 8 &&
                                                                klsm_deleted(&queue.members[1]) == 2 &&
                                                                klsm_left(&queue) == 15);
    check("the others that moved come next", gives(1, 1, 3));
    klsm_drop(&queue);
}

static void each_third_time(void) {
    by_turns(3);
    check("balance 3: two deletions are of own items", gives(1, 100, 2));
    check("balance 3: the third one is of the smallest", gives(1, 0, 1));
    check("balance 3: the two behind it are of what moved", gives(1, 1, 2));
    check("balance 3: the sixth finds nothing smaller than that", gives(1, 3, 1));
    check("balance 3: two deletions of own items again", gives(1, 102, 2));
    check("balance 3: and the next four", gives(1, 4, 1));
    klsm_drop(&queue);
}

static void seldom(void) {
    by_turns(UINT32_MAX);
    check("a great balance: a member deletes its own items", gives(1, 100, 8));
    klsm_drop(&queue);
}

/* Half of what the other one has, rounded up. */
static void half(uint64_t has, uint64_t moved) {
    char name[64];
    begin(2, K, 1);
    insert(0, 0, has);
    insert(1, 100, 1);
    int as_told = gives(1, 0, moved) && gives(0, moved, has - moved);
    snprintf(name, sizeof name, "of %d items %d move", (int)has, (int)moved);
    check(name, as_told);
    klsm_drop(&queue);
}

/* A member whose own part has room for one more gets one; one that is full gets none. */
static void no_more_than_there_is_room_for(void) {
    begin(2, 8, 1);
    insert(0, 0, 8);
    insert(1, 100, 7);
    check("room for one: the smallest", gives(1, 0, 1) && gives(0, 1, 1));
    klsm_drop(&queue);
    begin(2, 8, 1);
    insert(0, 0, 8);
    insert(1, 100, 8);
    check("no room: an own item", gives(1, 100, 1));
    klsm_drop(&queue);
}

/* Nothing moves where the front is below all that the other one has. */
static void nothing_above_the_front(void) {
    begin(3, 4, 1);
    insert(2, 0, 40); /* the smallest of them are shared */
    insert(0, 50, 3);
    insert(1, 100, 3);
    int shared = gives(1, 0, 1) && gives(1, 1, 1);
    check("where the front is below, the smallest shared ones", shared);
    check("and what the others have stays with them", gives(0, 2, 1) && klsm_left(&queue) == 43);
    klsm_drop(&queue);
}

/* All members are looked at, one after another. */
static void all_in_turn(size_t threads) {
    char name[64];
    uint32_t last = (uint32_t)threads - 1;
    uint64_t sum = 0;
    begin(threads, K, 1);
    insert(last, 1000000, 1);
    for (uint32_t t = 0; t < last; t++)
        insert(t, t, 1);
    klsm_item item;
    int found = 1;
    for (uint32_t t = 0; t < last; t++) {
        found = found && klsm_try_delete_min(&queue.members[last], &item) == KLSM_OK && item.key < threads;
        sum += item.key;
    }
    snprintf(name, sizeof name, "%zu members: each is looked at once", threads);
    check(name, found && sum == (uint64_t)last * (last - 1) / 2);
    check("the own item is the last", gives(last, 1000000, 1));
    klsm_drop(&queue);
}

static void alone(void) {
    begin(1, K, 1);
    insert(0, 0, 100);
    check("one member has nobody to balance with", gives(0, 0, 100));
    klsm_drop(&queue);
}

static void with_no_own_parts(void) {
    begin(2, 0, 1);
    insert(0, 0, 50);
    insert(1, 50, 50);
    check("k = 0: all in order", gives(0, 0, 50) && gives(1, 50, 50));
    klsm_drop(&queue);
}

int main(void) {
    without();
    each_time();
    each_second_time();
    each_third_time();
    seldom();
    half(1, 1);
    half(2, 1);
    half(3, 2);
    half(7, 4);
    half(8, 4);
    half(50, 4);
    no_more_than_there_is_room_for();
    nothing_above_the_front();
    all_in_turn(2);
    all_in_turn(5);
    all_in_turn(KLSM_MAX_THREADS);
    alone();
    with_no_own_parts();
    return check_status();
}
