/* How long others may wait for the insertion that finds its member's own part full: it moves a block of k items to the
 * shared part with the shared lock in hand. One thread inserts into a queue that has some items already; each k-th
 * insertion is timed. By k: the median, the slowest of a hundred and of all, in microseconds, and all of them together
 * in nanoseconds for each item that moved.
 *
 *     flush [ITEMS]      so many items at first, 100,000 where nothing is said */
#define _POSIX_C_SOURCE 200809L
#include "clock.h"
#include "klsm.h"
#include <stdio.h>
#include <stdlib.h>

enum { ITEMS_THAT_MOVE = 1 << 20 };

static klsm_queue queue = KLSM_QUEUE_CLOSED;
static uint64_t state = 1;

static uint64_t random_key(void) {
    state ^= state << 13;
    state ^= state >> 7;
    state ^= state << 17;
    return state;
}

static void insert(void) {
    if (klsm_insert(&queue.members[0], random_key(), 0) != KLSM_OK) abort();
}

static void measure(size_t k, uint64_t items) {
    static uint64_t times[ITEMS_THAT_MOVE];
    const size_t count = ITEMS_THAT_MOVE / k;
    uint64_t sum = 0;
    if (klsm_open(&queue, 1, k, KLSM_FIRST, 0) != KLSM_OK) abort();
    /* Behind so many insertions the own part has k items, as one block. */
    for (uint64_t i = 0; i < (items / k + 1) * k; i++)
        insert();
    for (size_t i = 0; i < count; i++) {
        uint64_t start = now();
        insert();
        times[i] = now() - start;
        sum += times[i];
        for (size_t j = 1; j < k; j++)
            insert();
    }
    qsort(times, count, sizeof *times, order);
    printf("k %zu: median %.1f, one in a hundred %.1f, greatest %.1f us; %.1f ns an item\n", k,
           (double)times[count / 2] / 1e3, (double)times[count - count / 100 - 1] / 1e3,
           (double)times[count - 1] / 1e3, (double)sum / ITEMS_THAT_MOVE);
    klsm_drop(&queue);
}

int main(int argc, char **argv) {
    const uint64_t items = argc > 1 ? strtoull(argv[1], NULL, 10) : 100000;
    const size_t ks[] = {16, 64, 256, 1024};
    for (size_t i = 0; i < sizeof ks / sizeof *ks; i++)
        measure(ks[i], items);
    return 0;
}
