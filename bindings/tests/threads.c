/* Threads over one queue, by the waiting calls and by those that never block: each item is deleted once
 * or left once, and the account says so. threads [INSERTIONS OF EACH OF FOUR MEMBERS]; where there are more
 * members each makes fewer. With 250000 of them it takes some minutes.
 *
 * With -DKLSM_SERIAL each call has a mutex round it. The tools that look for data races, such as
 * helgrind and drd, do not know the queue's own locks, which are atomic words. */
#define _POSIX_C_SOURCE 200809L
#include "check.h"
#include <pthread.h>
#include <string.h>

#ifdef KLSM_SERIAL
static pthread_mutex_t serial = PTHREAD_MUTEX_INITIALIZER;
static void begin(void) { pthread_mutex_lock(&serial); }
static void end(void) { pthread_mutex_unlock(&serial); }
#else
static void begin(void) {}
static void end(void) {}
#endif

static klsm_queue queue;
static size_t threads;
static uint64_t insertions; /* of each member in each of the two rounds */

/* A member's share of a round, and what it deleted in all. */
typedef struct share {
    uint32_t member;
    int failed;
    uint64_t inserted, count;
    klsm_item *deleted;
    char apart[128]; /* no two shares on one line of the cache */
} share;

static share shares[KLSM_MAX_THREADS];

/* The key and the load of a member's insertion of a number: to be known again. */
static uint64_t key_of(uint64_t member, uint64_t number) {
    uint64_t state = number * threads + member;
    return check_random(&state) % 100000;
}
static uint64_t load_of(uint64_t member, uint64_t number) { return ~(number * threads + member); }

static int32_t insert(klsm_member *member, int waits, uint64_t key, uint64_t load) {
    int32_t code;
    do {
        begin();
        code = waits ? klsm_insert(member, key, load) : klsm_try_insert(member, key, load);
        end();
    } while (code == KLSM_BUSY && !waits);
    return code;
}

static int32_t delete_min(klsm_member *member, int waits, int alone, klsm_item *item) {
    int32_t code;
    do {
        begin();
        if (alone)
            code = waits ? klsm_delete_min_alone(member, item) : klsm_try_delete_min_alone(member, item);
        else
            code = waits ? klsm_delete_min(member, item) : klsm_try_delete_min(member, item);
        end();
    } while (code == KLSM_BUSY && !waits);
    return code;
}

static int32_t give_back(klsm_member *member, int waits) {
    uint64_t moved;
    int32_t code;
    do {
        begin();
        code = waits ? klsm_share(member, &moved) : klsm_try_share(member, &moved);
        end();
    } while (code == KLSM_BUSY && !waits);
    return code;
}

/* Two deletions for three insertions, by one form of the calls and then by the other. Some deletions are made alone,
 * and behind some the member shares. */
static void *work(void *arg) {
    share *mine = arg;
    klsm_member *member = &queue.members[mine->member];
    for (uint64_t i = 0; i < insertions; i++) {
        int waits = i % 8 < 4;
        uint64_t number = mine->inserted;
        if (insert(member, waits, key_of(mine->member, number), load_of(mine->member, number)) != KLSM_OK)
            mine->failed = 1;
        mine->inserted++;
        if (i % 3 == 0)
            continue;
        int32_t code = delete_min(member, waits, i % 5 == 0, &mine->deleted[mine->count]);
        if (code == KLSM_OK)
            mine->count++;
        else if (code != KLSM_NOTHING)
            mine->failed = 1;
        if (i % 29 < 2 && give_back(member, waits) != KLSM_OK)
            mine->failed = 1;
    }
    return NULL;
}

/* Each member is used by a thread of its own, and by another one in each round. */
static void run_round(size_t shift) {
    pthread_t running[KLSM_MAX_THREADS];
    for (size_t t = 0; t < threads; t++)
        check_or_stop("a thread", pthread_create(&running[t], NULL, work, &shares[(t + shift) % threads]) == 0);
    for (size_t t = 0; t < threads; t++)
        pthread_join(running[t], NULL);
}

/* Marks an item as seen. Whether it was inserted, and is seen for the first time. */
static int see(unsigned char *seen, const klsm_item *item) {
    if (item->owner >= threads || item->number >= 2 * insertions)
        return 0;
    unsigned char *mark = &seen[item->number * threads + item->owner];
    if (*mark)
        return 0;
    *mark = 1;
    return item->key == key_of(item->owner, item->number) && item->load == load_of(item->owner, item->number);
}

static char run_name[96];

static void check_run(const char *name, int holds) {
    char whole[160];
    snprintf(whole, sizeof whole, "%s: %s", run_name, name);
    check(whole, holds);
}

static void run(size_t k, uint32_t pick, size_t refill, uint32_t balance) {
    const uint64_t all = 2 * insertions * threads;
    snprintf(run_name, sizeof run_name, "%zu threads, k = %zu, pick %u, refill %zu, balance %u", threads, k, pick,
             refill, balance);
    unsigned char *seen = calloc(all + 1, 1);
    klsm_item *left = calloc(all + 1, sizeof *left);
    check_or_stop("memory for the test", seen != NULL && left != NULL);
    check_or_stop("open", klsm_open_with_balance(&queue, threads, k, pick, 9, refill, balance) == KLSM_OK);
    for (uint32_t t = 0; t < threads; t++) {
        klsm_item *deleted = calloc(2 * insertions + 1, sizeof *deleted);
        check_or_stop("memory for the test", deleted != NULL);
        shares[t] = (share){.member = t, .deleted = deleted};
    }
    run_round(0);
    run_round(1);

    uint64_t deleted = 0, sum = klsm_left(&queue);
    int counts = 1, once = 1, failed = 0, ascending = 1;
    for (size_t t = 0; t < threads; t++) {
        counts = counts && klsm_inserted(&queue.members[t]) == 2 * insertions;
        counts = counts && klsm_deleted(&queue.members[t]) == shares[t].count;
        deleted += shares[t].count;
        failed = failed || shares[t].failed;
        for (uint64_t i = 0; i < shares[t].count; i++)
            once = once && see(seen, &shares[t].deleted[i]);
        free(shares[t].deleted);
    }
    check_run("no call is refused", !failed);
    check_run("the counts of each member", counts);
    klsm_account account = {0, 0, 0};
    check_run("close", klsm_close(&queue, &account, left, all + 1) == KLSM_OK);
    check_run("the account", account.inserted == all && account.deleted == deleted && account.left == all - deleted);
    check_run("klsm_left before it", sum == account.left);
    for (uint64_t i = 0; i < account.left; i++) {
        once = once && see(seen, &left[i]);
        ascending = ascending && (i == 0 || left[i - 1].key <= left[i].key);
    }
    check_run("each item is deleted once or left once", once && memchr(seen, 0, all) == NULL);
    check_run("what is left is ascending", ascending);
    free(seen);
    free(left);
}

/* From now on there are so many threads, of which all together insert as many items as four would. */
static void have(size_t crew, uint64_t of_four) {
    threads = crew;
    insertions = (4 * of_four + crew - 1) / crew;
}

int main(int argc, char **argv) {
    const uint64_t of_four = argc > 1 ? strtoull(argv[1], NULL, 10) : 20000;
    const size_t ks[] = {0, 1, 64}, refills[] = {0, 1, 8, 16, 64}, great_ks[] = {256, 1024};
    const uint32_t balances[] = {0, 1, 16};
    have(4, of_four);
    for (size_t i = 0; i < 3; i++)
        for (size_t j = 0; j < 5 && refills[j] <= ks[i]; j++)
            for (uint32_t pick = KLSM_FIRST; pick <= KLSM_RANDOM; pick++)
                run(ks[i], pick, refills[j], 0);
    run(64, KLSM_RANDOM, 16, 1);
    have(16, of_four);
    for (size_t i = 0; i < 2; i++)
        for (size_t j = 0; j < 3; j++) {
            run(great_ks[i], KLSM_FIRST, 64, balances[j]);
            run(great_ks[i], KLSM_RANDOM, great_ks[i], balances[j]);
        }
    have(KLSM_MAX_THREADS, of_four);
    run(256, KLSM_FIRST, 64, 1);
    return check_status();
}
