/* What a bound costs: the thread that asks for it, and those that it keeps waiting.
 *
 *     bounds [SECONDS]
 *
 * First of a queue of 1, 4, 16 and 64 members with eight items each, all at rest but the one that asks: nanoseconds a
 * bound, the median of five rounds. Then beside three threads of such a queue, each of which takes an item, works for a
 * while, and inserts another: how long a bound takes that is asked for a hundred times a second, in microseconds, the
 * median and the greatest, and how many items a second the three take while nobody asks and while one does. */
#define _POSIX_C_SOURCE 200809L
#include "clock.h"
#include <klsm.h>
#include <pthread.h>
#include <stdio.h>
#include <stdlib.h>

enum { ROUNDS = 5, CALLS = 100000, ITEMS = 8, CREW = 3, MOST_ASKED = 10000 };

static klsm_queue queue = KLSM_QUEUE_CLOSED;
static volatile uint64_t result; /* keeps the calls from being left out */

static void must(int holds) {
    if (!holds)
        abort();
}

static void open_and_fill(size_t members) {
    must(klsm_open_default(&queue, members) == KLSM_OK);
    for (size_t t = 0; t < members; t++)
        for (uint64_t i = 0; i < ITEMS; i++)
            must(klsm_insert(&queue.members[t], i, i) == KLSM_OK);
}

static void ask_alone(size_t members) {
    uint64_t times[ROUNDS], sum = 0;
    open_and_fill(members);
    for (int round = 0; round < ROUNDS; round++) {
        const uint64_t start = now();
        for (int i = 0; i < CALLS; i++) {
            klsm_dual_bound found = {0, 0, 0};
            must(klsm_bound(&queue.members[0], &found) == KLSM_OK);
            sum += found.items;
        }
        times[round] = now() - start;
    }
    result = sum;
    qsort(times, ROUNDS, sizeof *times, order);
    printf("%zu members, alone: %.0f ns\n", members, (double)times[ROUNDS / 2] / CALLS);
    klsm_drop(&queue);
}

typedef struct worker {
    klsm_member *member;
    uint64_t taken;
    char apart[112];
} worker;

static int is_over;
static uint64_t piece; /* how long a piece of work takes, in nanoseconds */

static int still_goes(void) { return !__atomic_load_n(&is_over, __ATOMIC_RELAXED); }

static void work_until(uint64_t end) {
    while (now() < end)
        ;
}

static void *work(void *of) {
    worker *mine = of;
    klsm_item item;
    uint64_t taken = 0;
    while (still_goes()) {
        const int32_t code = klsm_delete_min(mine->member, &item);
        if (code == KLSM_NOTHING) /* others have what lives in their hands */
            continue;
        must(code == KLSM_OK);
        taken++;
        if (piece > 0)
            work_until(now() + piece);
        must(klsm_insert(mine->member, item.key + 1 + (taken * 2654435761u) % 64, item.load) == KLSM_OK);
    }
    mine->taken = taken;
    return NULL;
}

/* Bounds are asked for so long, or nothing is; how many there were. */
static size_t ask_beside(int asks, double seconds, uint64_t *times) {
    const uint64_t begin = now(), end = begin + (uint64_t)(seconds * 1e9);
    size_t asked = 0;
    while (now() < end) {
        klsm_sleep(10000);
        if (!asks || asked == MOST_ASKED)
            continue;
        klsm_dual_bound found = {0, 0, 0};
        const uint64_t start = now();
        must(klsm_bound(&queue.members[CREW], &found) == KLSM_OK);
        times[asked++] = now() - start;
    }
    return asked;
}

/* The items that the crew takes a second. */
static double crew_beside(size_t members, int asks, double seconds, uint64_t *times, size_t *asked) {
    pthread_t threads[CREW];
    worker crew[CREW];
    uint64_t taken = 0;
    open_and_fill(members);
    __atomic_store_n(&is_over, 0, __ATOMIC_RELAXED);
    for (int t = 0; t < CREW; t++) {
        crew[t] = (worker){.member = &queue.members[t]};
        must(pthread_create(&threads[t], NULL, work, &crew[t]) == 0);
    }
    const uint64_t begin = now();
    *asked = ask_beside(asks, seconds, times);
    __atomic_store_n(&is_over, 1, __ATOMIC_RELAXED);
    const double length = (double)(now() - begin) * 1e-9;
    for (int t = 0; t < CREW; t++) {
        pthread_join(threads[t], NULL);
        taken += crew[t].taken;
    }
    klsm_drop(&queue);
    return (double)taken / length;
}

static void measure(size_t members, double seconds) {
    static uint64_t times[MOST_ASKED];
    size_t asked;
    const double without = crew_beside(members, 0, seconds, times, &asked);
    const double with = crew_beside(members, 1, seconds, times, &asked);
    must(asked > 0);
    qsort(times, asked, sizeof *times, order);
    printf("%zu members, %.0f us of work: a bound %.1f us, at most %.1f; %.0f items a second without, %.0f with it\n",
           members, (double)piece * 1e-3, (double)times[asked / 2] * 1e-3, (double)times[asked - 1] * 1e-3, without,
           with);
}

int main(int count, char **words) {
    static const size_t members[] = {1, 4, 16, 64};
    static const uint64_t pieces[] = {0, 1000, 10000, 100000};
    const double seconds = count > 1 ? strtod(words[1], NULL) : 2;
    for (size_t i = 0; i < 4; i++)
        ask_alone(members[i]);
    for (size_t i = 1; i < 4; i++)
        for (size_t j = 0; j < 4; j++) {
            piece = pieces[j];
            measure(members[i], seconds);
        }
    return 0;
}
