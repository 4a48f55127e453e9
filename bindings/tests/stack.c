/* How much of the stack the calls use, of 512 KB: threads run on stacks of the test's own, which are painted
 * before, and looked at after. */
#define _POSIX_C_SOURCE 200809L
#include "check.h"
#include <pthread.h>
#include <string.h>

enum { STACK = 512 << 10, PAINT = 0x5a, K = 1024, ITEMS = 1000, TRIES = 24, MOST_THREADS = 16 };

static klsm_queue queue;
static int failed;

/* What a function used of the stack when a thread ran it, with what a thread needs anyway. */
static size_t used_by(void *(*run)(void *)) {
    pthread_t thread;
    pthread_attr_t attributes;
    unsigned char *stack = aligned_alloc(1 << 16, STACK);
    check_or_stop("memory for the test", stack != NULL && pthread_attr_init(&attributes) == 0);
    memset(stack, PAINT, STACK);
    check_or_stop("a stack", pthread_attr_setstack(&attributes, stack, STACK) == 0);
    check_or_stop("a thread", pthread_create(&thread, &attributes, run, NULL) == 0);
    pthread_join(thread, NULL);
    pthread_attr_destroy(&attributes);
    size_t untouched = 0;
    while (untouched < STACK && stack[untouched] == PAINT)
        untouched++;
    free(stack);
    return STACK - untouched;
}

static void *count(void *none) {
    failed = failed || klsm_inserted(&queue.members[0]) == UINT64_MAX;
    return none;
}

static void *open_all(void *none) {
    failed = failed || klsm_open_with_balance(&queue, MOST_THREADS, K, KLSM_FIRST, 0, K, 1) != KLSM_OK;
    return none;
}

/* Into the own part, which has room for them. */
static void *insert_own(void *none) {
    for (uint64_t i = 0; i < ITEMS; i++)
        failed = failed || klsm_try_insert(&queue.members[0], i * 7919 % 1009, i) != KLSM_OK;
    return none;
}

static void *delete_own(void *none) {
    klsm_item item;
    for (uint64_t i = 0; i < ITEMS; i++)
        failed = failed || klsm_try_delete_min(&queue.members[0], &item) != KLSM_OK;
    return none;
}

static void *insert_one(void *none) {
    failed = failed || klsm_try_insert(&queue.members[0], 7, 7) != KLSM_OK;
    return none;
}

static void *delete_one(void *none) {
    klsm_item item;
    failed = failed || klsm_try_delete_min(&queue.members[0], &item) != KLSM_OK;
    return none;
}

/* So many that most are shared, by all members, and all of them again: with refills, balances and looks at others. */
static void *insert_and_delete_all(void *none) {
    klsm_item item;
    for (uint64_t i = 0; i < 4 * MOST_THREADS * K; i++)
        failed = failed || klsm_try_insert(&queue.members[i % MOST_THREADS], i * 7919 % 100003, i) != KLSM_OK;
    for (uint64_t i = 0; i < 4 * MOST_THREADS * K; i++)
        failed = failed || klsm_try_delete_min(&queue.members[i * i % MOST_THREADS], &item) != KLSM_OK;
    return none;
}

/* The same by deletions alone, each behind a sharing. */
static void *share_and_delete_all(void *none) {
    klsm_item item;
    uint64_t moved;
    klsm_dual_bound bound;
    for (uint64_t i = 0; i < MOST_THREADS * K; i++)
        failed = failed || klsm_try_insert(&queue.members[i % MOST_THREADS], i * 7919 % 100003, i) != KLSM_OK;
    for (uint64_t i = 0; i < MOST_THREADS * K; i++) {
        failed = failed || klsm_try_share(&queue.members[i % MOST_THREADS], &moved) != KLSM_OK;
        failed = failed || klsm_try_bound(&queue.members[i % MOST_THREADS], &bound) != KLSM_OK;
        failed = failed || klsm_try_rest(&queue.members[i % MOST_THREADS]) != KLSM_OK;
        failed = failed || klsm_try_delete_min_alone(&queue.members[i * i % MOST_THREADS], &item) != KLSM_OK;
    }
    return none;
}

static void *close_all(void *none) {
    klsm_account account;
    failed = failed || klsm_close(&queue, &account, NULL, 0) != KLSM_OK || account.left != 0;
    return none;
}

/* Whether a function uses at most so many bytes more than a count, the least of so many times. */
static void uses(const char *name, size_t count, void *(*run)(void *), int times, size_t most) {
    char line[128];
    size_t least = STACK;
    failed = 0;
    for (int i = 0; i < times; i++) {
        size_t used = used_by(run);
        used = used > count ? used - count : 0;
        least = used < least ? used : least;
    }
    snprintf(line, sizeof line, "%s: %zu bytes, at most %zu", name, least, most);
    check(line, !failed && least <= most);
}

int main(void) {
    size_t none = used_by(count);
    uses("an opening of 16 members", none, open_all, 1, STACK / 2);
    uses("insertions into an own part", none, insert_own, 1, STACK / 2);
    uses("one as a rule", none, insert_one, TRIES, 2048);
    uses("a deletion from it as a rule", none, delete_one, TRIES, 2048);
    uses("deletions from it", none, delete_own, 1, STACK / 2);
    uses("all other insertions and deletions", none, insert_and_delete_all, 1, STACK / 2);
    uses("sharings, and deletions alone", none, share_and_delete_all, 1, 4096);
    uses("a closing", none, close_all, 1, STACK / 2);
    return check_status();
}
