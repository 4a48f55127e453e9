/* What a bound says of the items that members work at: by one thread that uses three members by turns, each is told in
 * advance; behind each call, that of a plain list of what each member deleted last; and by sixteen threads that insert
 * children with keys no less than those of their items, that no bound is below an earlier one, and no deletion below a
 * bound that was found before it. */
#include "check.h"
#include <pthread.h>

enum { K = 8, REFILL = 4, THREADS = 16, ROOTS = 400, ROUNDS = 1500, ROUNDS_OF_A_BOUND = 20, ROUNDS_OF_A_REST = 64 };

static const uint64_t none = UINT64_MAX;
static klsm_queue queue;

/* Whether the member's bound has these numbers, by either call. */
static int bound_is(uint32_t member, uint64_t key, uint64_t work, uint64_t items) {
    klsm_dual_bound one = {7, 7, 7}, other = {7, 7, 7};
    return klsm_bound(&queue.members[member], &one) == KLSM_OK &&
           klsm_try_bound(&queue.members[member], &other) == KLSM_OK && one.queue == key && one.work == work &&
           one.items == items && other.queue == key && other.work == work && other.items == items;
}

static void insert(uint32_t member, uint64_t key) {
    check_or_stop("insert", klsm_insert(&queue.members[member], key, key) == KLSM_OK);
}

/* Whether the member's next deletion gives this key. */
static int deletes(uint32_t member, uint64_t key) {
    klsm_item item;
    return klsm_delete_min(&queue.members[member], &item) == KLSM_OK && item.key == key;
}

static void work_is_told(void) {
    klsm_item item;
    uint64_t moved;
    check_or_stop("open", klsm_open_with_refill(&queue, 3, K, KLSM_FIRST, 0, REFILL) == KLSM_OK);
    check("at first nobody works", bound_is(0, none, none, 0));
    insert(1, 5);
    insert(1, 8);
    insert(2, 6);
    check("who inserts does not work", bound_is(0, 5, none, 3) && bound_is(1, 5, none, 3));
    check("who deletes works at that item", deletes(1, 5) && bound_is(0, 6, 5, 2) && bound_is(1, 6, 5, 2));
    insert(1, 7);
    check("also while it inserts", bound_is(0, 6, 5, 3) && bound_is(2, 6, 5, 3));
    check("of two the lesser key counts", deletes(2, 6) && bound_is(0, 7, 5, 2));
    check_code("share", klsm_share(&queue.members[1], &moved), KLSM_OK);
    check("a sharing and a look end no work", moved == 2 && klsm_front(&queue.members[1]) == 7 && bound_is(0, 7, 5, 2));
    check("its next deletion has the next key", deletes(1, 7) && bound_is(0, 8, 6, 1));
    check_code("a rest", klsm_rest(&queue.members[2]), KLSM_OK);
    check("ends the work of its member alone", bound_is(0, 8, 7, 1) && bound_is(2, 8, 7, 1));
    check_code("one that never blocks", klsm_try_rest(&queue.members[1]), KLSM_OK);
    check("and then nobody works", bound_is(0, 8, none, 1));
    check_code("a rest of who works at nothing", klsm_rest(&queue.members[1]), KLSM_OK);
    check("changes nothing", bound_is(1, 8, none, 1));
    check_code("a deletion alone", klsm_delete_min_alone(&queue.members[1], &item), KLSM_OK);
    check("is work, too", item.key == 8 && bound_is(0, none, 8, 0));
    check_code("who finds nothing", klsm_try_delete_min(&queue.members[1], &item), KLSM_NOTHING);
    check("works at nothing", bound_is(0, none, none, 0));
    insert(1, 9);
    check("who found it elsewhere works at it, and not who inserted it", deletes(0, 9) && bound_is(1, none, 9, 0));
    check_code("a rest of the other", klsm_rest(&queue.members[1]), KLSM_OK);
    check("leaves it", bound_is(1, none, 9, 0));
    insert(0, none);
    check("the greatest key is as good as none", deletes(0, none) && bound_is(1, none, none, 0));
    insert(2, 3);
    check("it goes on", deletes(2, 3) && bound_is(1, none, 3, 0));
    check("a rest is neither an insertion nor a deletion",
          klsm_inserted(&queue.members[2]) == 2 && klsm_deleted(&queue.members[2]) == 2 && klsm_left(&queue) == 0);
    klsm_drop(&queue);
    check_or_stop("open again", klsm_open(&queue, 3, K, KLSM_FIRST, 0) == KLSM_OK);
    check("nobody works in a queue that was just opened", bound_is(2, none, none, 0));
    klsm_drop(&queue);
}

/* Of eight calls so many insert, one rests, and the others delete. */
static void it_is_that_of_a_list(uint64_t seed, uint64_t inserting) {
    enum { MEMBERS = 3, CALLS = 2000, KEYS = 400 };
    uint64_t at[MEMBERS] = {none, none, none};
    int ok = 1;
    check_or_stop("open", klsm_open_with_balance(&queue, MEMBERS, K, KLSM_RANDOM, seed, REFILL, 3) == KLSM_OK);
    for (int call = 0; call < CALLS; call++) {
        const uint64_t number = check_random(&seed) % MEMBERS, kind = check_random(&seed) % 8;
        klsm_member *member = &queue.members[number];
        klsm_dual_bound bound;
        klsm_item item;
        if (kind == 7) {
            check_or_stop("rest", klsm_rest(member) == KLSM_OK);
            at[number] = none;
        } else if (kind < inserting) {
            check_or_stop("insert", klsm_insert(member, check_random(&seed) % KEYS, 0) == KLSM_OK);
        } else {
            const int32_t code = kind == 6 ? klsm_delete_min_alone(member, &item) : klsm_delete_min(member, &item);
            check_or_stop("delete", code == KLSM_OK || code == KLSM_NOTHING);
            at[number] = code == KLSM_OK ? item.key : none;
        }
        uint64_t least = none;
        for (int t = 0; t < MEMBERS; t++)
            least = at[t] < least ? at[t] : least;
        check_or_stop("bound", klsm_bound(&queue.members[check_random(&seed) % MEMBERS], &bound) == KLSM_OK);
        ok = ok && bound.work == least;
    }
    check("the work is the least key that a member deleted last, and has not done with", ok);
    klsm_drop(&queue);
}

/* The greatest bound that was found so far. */
static uint64_t greatest;

static uint64_t known(void) { return __atomic_load_n(&greatest, __ATOMIC_SEQ_CST); }

static void raise_to(uint64_t found) {
    uint64_t before = known();
    while (before < found &&
           !__atomic_compare_exchange_n(&greatest, &before, found, 0, __ATOMIC_SEQ_CST, __ATOMIC_SEQ_CST)) {
    }
}

/* Whether the member's bound is not below one that was found before. */
static int rises(klsm_member *member) {
    const uint64_t before = known();
    klsm_dual_bound bound;
    if (klsm_bound(member, &bound) != KLSM_OK)
        return 0;
    const uint64_t least = bound.work < bound.queue ? bound.work : bound.queue;
    raise_to(least);
    return least >= before;
}

/* Whether all children of an item are inserted: none, one or two, with its key or a greater one. */
static int inserts_children(klsm_member *member, const klsm_item *item, uint64_t round, uint64_t *seed) {
    const uint64_t children = round % 4 == 0 ? 2 : round % 4 == 2 ? 0 : 1;
    int ok = 1;
    for (uint64_t child = 0; child < children; child++)
        ok = ok && klsm_insert(member, item->key + check_random(seed) % 50, 0) == KLSM_OK;
    return ok;
}

/* Each lets others run while it has an item in hand, so that most bounds find some in work. */
static void *work(void *at) {
    klsm_member *member = at;
    uint64_t seed = (uint64_t)(member - queue.members);
    for (uint64_t round = 0; round < ROUNDS; round++) {
        const uint64_t before = known();
        klsm_item item;
        const int32_t code = klsm_delete_min(member, &item);
        sched_yield();
        if (code == KLSM_OK && (item.key < before || !inserts_children(member, &item, round, &seed)))
            return member;
        if (code != KLSM_OK && code != KLSM_NOTHING)
            return member;
        if (round % ROUNDS_OF_A_BOUND == 0 && !rises(member))
            return member;
        if (round % ROUNDS_OF_A_REST == 0 && klsm_rest(member) != KLSM_OK)
            return member;
    }
    return klsm_rest(member) == KLSM_OK ? NULL : member;
}

static void no_deletion_is_below_a_bound(void) {
    pthread_t threads[THREADS];
    check_or_stop("open", klsm_open_with_balance(&queue, THREADS, K, KLSM_FIRST, 0, REFILL, 16) == KLSM_OK);
    for (uint64_t root = 0; root < ROOTS; root++)
        insert((uint32_t)(root % THREADS), 1 + root * 7919 % 1009);
    for (int t = 0; t < THREADS; t++)
        check_or_stop("a thread", pthread_create(&threads[t], NULL, work, &queue.members[t]) == 0);
    int done = 1;
    for (int t = 0; t < THREADS; t++) {
        void *failed;
        pthread_join(threads[t], &failed);
        done = done && failed == NULL;
    }
    check("no bound falls, and no deletion is below one that was found before it", done && known() > 0);
    klsm_dual_bound bound;
    check_code("bound", klsm_bound(&queue.members[0], &bound), KLSM_OK);
    check("at last nobody works", bound.work == none && bound.queue >= known() && bound.items == klsm_left(&queue));
    klsm_item item;
    while (klsm_delete_min(&queue.members[0], &item) == KLSM_OK)
        done = done && item.key >= known() && klsm_bound(&queue.members[1], &bound) == KLSM_OK &&
               bound.work == item.key;
    check("nor is what was left below it", done && bound_is(1, none, none, 0));
    klsm_drop(&queue);
}

int main(void) {
    work_is_told();
    for (uint64_t seed = 1; seed <= 4; seed++)
        it_is_that_of_a_list(seed, 3 + seed % 2);
    no_deletion_is_below_a_bound();
    return check_status();
}
