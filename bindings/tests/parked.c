/* A crew of which one thread works on a piece for long. The others pass over the next pieces, which a refill brought
 * home with it, and over those that it has inserted, as long as they find greater ones. Once it has shared they find
 * them within milliseconds, while it still works, and see what it wrote; within one where they wait and find nothing
 * else. sharing.c has which items move. */
#include "check.h"
#include <pthread.h>
#include <string.h>

enum { THREADS = 4, REFILL = KLSM_DEFAULT_REFILL, CHILDREN = 4, ITEMS = 40000, BEFORE = 200, ROUNDS = 20 };

static klsm_queue queue;
static klsm_work work;

/* What the loads lead to: each has its own place, by which an item is known. */
static uint64_t messages[ITEMS + CHILDREN];

/* None of these gives an order that a tool knows. */
static int is_taken, is_shared;
static uint64_t done, found;

/* What was parked has keys up to this one, and there are so many of it. */
static uint64_t greatest, parked;

static int as_told; /* of the thread that works for long */
static double shared_at;

typedef struct thread {
    klsm_member *member;
    uint64_t early; /* parked pieces that it found before they were shared */
    double last;    /* when it found one later */
    int is_right;   /* each piece was as it was written */
    char apart[96];
} thread;

static thread crew[THREADS];

static void work_for_a_while(void) { klsm_sleep(50); }

static uint64_t value_of(const uint64_t *count) { return __atomic_load_n(count, __ATOMIC_RELAXED); }
static void count_in(uint64_t *count) { __atomic_fetch_add(count, 1, __ATOMIC_RELAXED); }

static int32_t insert(klsm_member *member, uint64_t key, uint64_t place) {
    messages[place] = place;
    return klsm_work_insert(&work, member, key, (uintptr_t)&messages[place]);
}

/* Its piece leads to some more, and then to a second of work at most, until the others have found what it shared. */
static void *work_for_long(void *takes) {
    klsm_member *member = crew[0].member;
    klsm_item item;
    uint64_t moved = 0;
    as_told = (takes != NULL ? klsm_delete_min_alone(member, &item) : klsm_work_next(&work, member, &item)) == KLSM_OK;
    as_told = as_told && item.key == 0;
    for (uint64_t child = 0; child < CHILDREN; child++)
        as_told = as_told && insert(member, 0, ITEMS + child) == KLSM_OK;
    __atomic_store_n(&is_taken, 1, __ATOMIC_RELAXED);
    while (value_of(&done) < BEFORE)
        work_for_a_while();
    shared_at = check_now();
    __atomic_store_n(&is_shared, 1, __ATOMIC_RELAXED);
    as_told = as_told && klsm_share(member, &moved) == KLSM_OK && moved == parked;
    while (value_of(&found) < parked && check_now() < shared_at + 1)
        work_for_a_while();
    klsm_work_stop(&work);
    klsm_work_done(&work);
    return NULL;
}

static void see(thread *mine, const klsm_item *item) {
    const uint64_t *message = (const uint64_t *)(uintptr_t)item->load;
    mine->is_right = mine->is_right && *message == (uint64_t)(message - messages);
    if (item->key > greatest)
        return;
    if (__atomic_load_n(&is_shared, __ATOMIC_RELAXED))
        mine->last = check_now();
    else
        mine->early++;
    count_in(&found);
}

static void *work_on_others(void *arg) {
    thread *mine = arg;
    klsm_item item;
    while (!__atomic_load_n(&is_taken, __ATOMIC_RELAXED))
        work_for_a_while();
    while (klsm_work_next(&work, mine->member, &item) == KLSM_OK) {
        see(mine, &item);
        work_for_a_while();
        count_in(&done);
        klsm_work_done(&work);
    }
    return NULL;
}

/* Its piece is in no part. The others wait until it has worked on it for a second; then it inserts what that led to, of
 * which they may steal some already, and shares what is left. */
static void *work_while_others_wait(void *unused) {
    klsm_member *member = crew[0].member;
    uint64_t moved = 0;
    __atomic_store_n(&is_taken, 1, __ATOMIC_RELAXED);
    for (int half = 0; half < 2; half++) /* a sleep is for less than a second */
        klsm_sleep(500000);
    as_told = 1;
    for (uint64_t child = 0; child < CHILDREN; child++)
        as_told = as_told && insert(member, 0, ITEMS + child) == KLSM_OK;
    shared_at = check_now();
    as_told = as_told && klsm_share(member, &moved) == KLSM_OK && moved <= CHILDREN;
    while (value_of(&found) < parked && check_now() < shared_at + 1)
        work_for_a_while();
    klsm_work_stop(&work);
    klsm_work_done(&work);
    return unused;
}

/* So many pieces are shared at first. A balance would let the others find some that are parked before they are shared. */
static void begin(uint64_t pieces) {
    uint64_t moved;
    memset(&work, 0, sizeof work);
    is_taken = is_shared = 0;
    done = found = 0;
    check_or_stop("open", klsm_open_with_refill(&queue, THREADS, KLSM_DEFAULT_K, KLSM_FIRST, 0, REFILL) == KLSM_OK);
    for (size_t t = 0; t < THREADS; t++)
        crew[t] = (thread){.member = &queue.members[t], .is_right = 1};
    for (uint64_t i = 0; i < pieces; i++)
        check_or_stop("insert", insert(crew[1].member, i, i) == KLSM_OK);
    check_or_stop("share", klsm_share(crew[1].member, &moved) == KLSM_OK);
}

/* The first thread does this, and the others work on what they find. */
static void run(void *(*busy)(void *), void *of) {
    pthread_t threads[THREADS];
    check_or_stop("a thread", pthread_create(&threads[0], NULL, busy, of) == 0);
    for (size_t t = 1; t < THREADS; t++)
        check_or_stop("a thread", pthread_create(&threads[t], NULL, work_on_others, &crew[t]) == 0);
    for (size_t t = 0; t < THREADS; t++)
        pthread_join(threads[t], NULL);
    klsm_drop(&queue);
}

/* When the last of the parked pieces was found, and whether each was as it was written. */
static double last_found(int *is_right, uint64_t *early) {
    double last = 0;
    for (size_t t = 1; t < THREADS; t++) {
        *early += crew[t].early;
        *is_right = *is_right && crew[t].is_right;
        last = crew[t].last > last ? crew[t].last : last;
    }
    return last;
}

/* Soon is within ten milliseconds in the best of some rounds, since other programs run too. */
static void finds(const char *name, int alone) {
    int is_soon = 0, all = 1, is_right = 1;
    uint64_t early = 0;
    greatest = alone ? 0 : REFILL;
    parked = greatest + CHILDREN;
    for (int round = 0; round < ROUNDS && all && !is_soon; round++) {
        begin(ITEMS);
        run(work_for_long, alone ? &work : NULL);
        const double last = last_found(&is_right, &early);
        all = as_told && found == parked;
        is_soon = all && last < shared_at + 0.01;
    }
    check(name, all);
    check("the others find none of that before it is shared", early == 0);
    check("and all of it within ten milliseconds then", is_soon);
    check("each as it was written", is_right);
}

static void finds_while_waiting(void) {
    int is_soon = 0, all = 1, is_right = 1;
    uint64_t early = 0;
    greatest = 0;
    parked = CHILDREN;
    for (int round = 0; round < ROUNDS && all && !is_soon; round++) {
        begin(0);
        is_shared = 1;
        klsm_work_open(&work, 1);
        run(work_while_others_wait, NULL);
        const double last = last_found(&is_right, &early);
        all = as_told && found == parked;
        is_soon = all && last < shared_at + 0.001;
    }
    check("a thread works for a second while the others wait: all that it shares is found", all);
    check("within a millisecond", is_soon);
    check("and is as it was written", is_right);
}

int main(void) {
    finds("a refill and some insertions: all that is kept is shared", 0);
    finds("a deletion alone: what was inserted is shared, and no more was kept", 1);
    finds_while_waiting();
    return check_status();
}
