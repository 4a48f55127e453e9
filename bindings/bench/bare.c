/* What single calls cost through klsm.h: medians of five rounds, in nanoseconds. One thread. */
#define _POSIX_C_SOURCE 200809L
#include "clock.h"
#include "klsm.h"
#include <stdio.h>
#include <stdlib.h>

enum { ROUNDS = 5, CALLS = 2000000 };

static klsm_queue queue = KLSM_QUEUE_CLOSED;
static volatile uint64_t result; /* keeps the calls from being left out */

static void count(void) {
    uint64_t sum = 0;
    for (uint64_t i = 0; i < CALLS; i++)
        sum += klsm_inserted(&queue.members[0]);
    result = sum;
}

static void delete_closed(void) {
    klsm_item item;
    uint64_t sum = 0;
    for (uint64_t i = 0; i < CALLS; i++)
        sum += (uint64_t)klsm_delete_min(&queue.members[1], &item);
    result = sum;
}

static void insert_closed(void) {
    uint64_t sum = 0;
    for (uint64_t i = 0; i < CALLS; i++)
        sum += (uint64_t)klsm_insert(&queue.members[1], i, i);
    result = sum;
}

static void delete_from_empty(void) {
    klsm_item item;
    uint64_t sum = 0;
    for (uint64_t i = 0; i < CALLS; i++)
        sum += (uint64_t)klsm_delete_min(&queue.members[0], &item);
    result = sum;
}

static void insert_and_delete(void) {
    klsm_item item = {0, 0, 0, 0};
    uint64_t sum = 0;
    for (uint64_t i = 0; i < CALLS; i++) {
        if (klsm_insert(&queue.members[0], i, i) != KLSM_OK || klsm_delete_min(&queue.members[0], &item) != KLSM_OK)
            abort();
        sum += item.load;
    }
    result = sum;
}

static void rest(void) {
    uint64_t sum = 0;
    for (uint64_t i = 0; i < CALLS; i++)
        sum += (uint64_t)klsm_rest(&queue.members[0]);
    result = sum;
}

static void print(const char *name, void (*calls)(void)) {
    uint64_t times[ROUNDS];
    calls();
    for (int round = 0; round < ROUNDS; round++) {
        uint64_t start = now();
        calls();
        times[round] = now() - start;
    }
    qsort(times, ROUNDS, sizeof *times, order);
    printf("%s %.1f\n", name, (double)times[ROUNDS / 2] / CALLS);
}

int main(void) {
    int32_t code = klsm_open(&queue, 1, 64, KLSM_FIRST, 0);
    if (code != KLSM_OK) {
        fprintf(stderr, "bare: %s\n", klsm_text(code));
        return 1;
    }
    puts("medians of five, in nanoseconds:");
    print("count", count);
    print("insertion-on-closed", insert_closed);
    print("deletion-on-closed", delete_closed);
    print("deletion-from-empty", delete_from_empty);
    print("insertion-and-deletion", insert_and_delete);
    print("rest", rest);
    klsm_drop(&queue);
    return 0;
}
