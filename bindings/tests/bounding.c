/* What a bound is: by one thread that uses three members by turns, each is told in advance; and by threads that insert
 * and delete, while one asks. */
#include "check.h"
#include <pthread.h>

enum { K = 8, REFILL = 4, ITEMS = 100, THREADS = 4, ROUNDS = 2000 };

static klsm_queue queue;

/* Whether the member's bound has this key and so many items, by either call. resting.c has what members work at. */
static int bound_is(uint32_t member, uint64_t key, uint64_t items) {
    klsm_dual_bound one = {7, 7, 7}, other = {7, 7, 7};
    return klsm_bound(&queue.members[member], &one) == KLSM_OK &&
           klsm_try_bound(&queue.members[member], &other) == KLSM_OK && one.queue == key && one.items == items &&
           other.queue == key && other.items == items;
}

static void insert(uint32_t member, uint64_t key) {
    check_or_stop("insert", klsm_insert(&queue.members[member], key, key) == KLSM_OK);
}

static void each_part_counts(void) {
    check_or_stop("open", klsm_open_with_refill(&queue, 3, K, KLSM_FIRST, 0, REFILL) == KLSM_OK);
    check("nothing lives", bound_is(0, UINT64_MAX, 0) && bound_is(2, UINT64_MAX, 0));
    insert(1, 50);
    check("an item that another member keeps", bound_is(0, 50, 1) && bound_is(1, 50, 1) && bound_is(2, 50, 1));
    insert(2, 40);
    check("that of a third one is less", bound_is(0, 40, 2) && bound_is(1, 40, 2));
    uint64_t moved = 0;
    check_code("share", klsm_share(&queue.members[2], &moved), KLSM_OK);
    check("a shared one counts, too", moved == 1 && bound_is(0, 40, 2));
    insert(0, 30);
    check("the least one is the own one", bound_is(0, 30, 3) && bound_is(2, 30, 3));
    check("a bound is neither an insertion nor a deletion",
          klsm_inserted(&queue.members[0]) == 1 && klsm_deleted(&queue.members[0]) == 0 && klsm_left(&queue) == 3);
    klsm_item item;
    check("and moves nothing", klsm_front(&queue.members[0]) == 40);
    check("the own one goes", klsm_delete_min(&queue.members[0], &item) == KLSM_OK && item.key == 30);
    check("and is in the bound no more", bound_is(1, 40, 2));
    insert(0, UINT64_MAX);
    check("the greatest key", bound_is(1, 40, 3));
    klsm_drop(&queue);
}

/* After each call of members that share, refill and flush it is the least key of a plain list. */
static void it_is_that_of_a_list(uint64_t seed) {
    enum { MEMBERS = 3, CALLS = 2000, KEYS = 400 };
    static uint64_t live[KEYS];
    uint64_t items = 0, moved = 0;
    int ok = 1;
    for (int key = 0; key < KEYS; key++)
        live[key] = 0;
    check_or_stop("open", klsm_open_with_balance(&queue, MEMBERS, K, KLSM_RANDOM, seed, REFILL, 3) == KLSM_OK);
    for (int call = 0; call < CALLS; call++) {
        klsm_member *member = &queue.members[check_random(&seed) % MEMBERS];
        klsm_item item;
        const uint64_t kind = check_random(&seed) % 16, key = check_random(&seed) % KEYS;
        if (kind < 9) {
            check_or_stop("insert", klsm_insert(member, key, 0) == KLSM_OK);
            live[key]++;
            items++;
        } else if (kind < 15) {
            if (klsm_delete_min(member, &item) == KLSM_OK) {
                live[item.key]--;
                items--;
            }
        } else {
            check_or_stop("share", klsm_share(member, &moved) == KLSM_OK);
        }
        uint64_t least = 0;
        while (least < KEYS && live[least] == 0)
            least++;
        ok = ok && bound_is((uint32_t)(check_random(&seed) % MEMBERS), least < KEYS ? least : UINT64_MAX, items);
    }
    check("it is the least key of a plain list, and how many it has", ok);
    klsm_drop(&queue);
}

/* How many threads work. Each inserts a greater key behind each that it deletes. */
static int working;

static void *work(void *at) {
    klsm_member *member = at;
    for (uint64_t round = 0; round < ROUNDS; round++) {
        klsm_item item;
        int32_t code = klsm_delete_min(member, &item);
        if (code == KLSM_OK)
            code = klsm_insert(member, item.key + 1 + round % 3, 0);
        if (code != KLSM_OK)
            return member;
    }
    __atomic_sub_fetch(&working, 1, __ATOMIC_SEQ_CST);
    return NULL;
}

/* Of the items each thread has at most one in its hand, which no bound counts. Enough are shared that a deletion always
 * finds one. */
static void while_threads_work(void) {
    pthread_t threads[THREADS];
    check_or_stop("open", klsm_open_with_balance(&queue, THREADS + 1, K, KLSM_FIRST, 0, REFILL, 16) == KLSM_OK);
    for (uint64_t key = 0; key < ITEMS; key++)
        insert(THREADS, key);
    uint64_t moved, last = 0;
    check_code("share", klsm_share(&queue.members[THREADS], &moved), KLSM_OK);
    working = THREADS;
    for (int t = 0; t < THREADS; t++)
        check_or_stop("a thread", pthread_create(&threads[t], NULL, work, &queue.members[t]) == 0);
    int whole = 1, rises = 1;
    klsm_dual_bound bound;
    do {
        check_or_stop("bound", klsm_bound(&queue.members[THREADS], &bound) == KLSM_OK);
        whole = whole && bound.items <= ITEMS && bound.items >= ITEMS - THREADS;
    } while (__atomic_load_n(&working, __ATOMIC_SEQ_CST) > 0);
    int done = 1;
    for (int t = 0; t < THREADS; t++) {
        void *failed;
        pthread_join(threads[t], &failed);
        done = done && failed == NULL;
    }
    check("all threads have done their work", done);
    check("while they worked as many lived as were in no hand", whole);
    check("at last all do", klsm_bound(&queue.members[THREADS], &bound) == KLSM_OK && bound.items == ITEMS);
    for (uint64_t left = ITEMS; left > 0; left--) {
        klsm_item item;
        check_or_stop("delete", klsm_delete_min(&queue.members[THREADS], &item) == KLSM_OK);
        rises = rises && item.key >= bound.queue && bound.queue >= last && bound.items == left;
        last = bound.queue;
        check_or_stop("bound", klsm_bound(&queue.members[THREADS], &bound) == KLSM_OK);
    }
    check("each that is deleted then is not below the bound, which never falls", rises && bound.items == 0);
    klsm_drop(&queue);
}

static void *drain(void *at) {
    klsm_item item;
    while (klsm_delete_min(at, &item) == KLSM_OK) {
    }
    __atomic_sub_fetch(&working, 1, __ATOMIC_SEQ_CST);
    return NULL;
}

/* Items only go. */
static void while_threads_drain(void) {
    enum { MANY = 20000 };
    pthread_t threads[THREADS];
    check_or_stop("open", klsm_open_with_balance(&queue, THREADS + 1, K, KLSM_FIRST, 0, REFILL, 16) == KLSM_OK);
    for (uint64_t key = 0; key < MANY; key++)
        check_or_stop("insert", klsm_insert(&queue.members[key % (THREADS + 1)], key * 7919 % MANY, 0) == KLSM_OK);
    working = THREADS;
    for (int t = 0; t < THREADS; t++)
        check_or_stop("a thread", pthread_create(&threads[t], NULL, drain, &queue.members[t]) == 0);
    klsm_dual_bound last = {0, 0, MANY}, bound;
    int rises = 1;
    do {
        check_or_stop("bound", klsm_bound(&queue.members[THREADS], &bound) == KLSM_OK);
        rises = rises && bound.queue >= last.queue && bound.items <= last.items;
        last = bound;
    } while (__atomic_load_n(&working, __ATOMIC_SEQ_CST) > 0);
    for (int t = 0; t < THREADS; t++)
        pthread_join(threads[t], NULL);
    check("while items only go, no bound is less than the one before, and none has more items", rises);
    klsm_drop(&queue);
}

int main(void) {
    each_part_counts();
    for (uint64_t seed = 1; seed <= 5; seed++)
        it_is_that_of_a_list(seed);
    while_threads_work();
    while_threads_drain();
    return check_status();
}
