/* Counts of open work by more threads than there are shares, all of which are there at once: those that find no share
 * for themselves have one in common. glue.c has what the calls answer. */
#include "check.h"
#include <pthread.h>
#include <string.h>

enum { THREADS = 4 * KLSM_MAX_THREADS, TIMES = 1000 };

static klsm_work work;
static uint64_t counted;
static pthread_mutex_t gate = PTHREAD_MUTEX_INITIALIZER;

/* A share's address stays this thread's until the gate is open. */
static void *count(void *unused) {
    for (int i = 0; i < TIMES; i++) {
        klsm_work_open(&work, 3);
        klsm_work_done(&work);
        klsm_work_give_up(&work);
    }
    __atomic_fetch_add(&counted, 1, __ATOMIC_RELEASE);
    pthread_mutex_lock(&gate);
    pthread_mutex_unlock(&gate);
    return unused;
}

static void run(size_t threads) {
    pthread_t crew[THREADS];
    counted = 0;
    pthread_mutex_lock(&gate);
    for (size_t t = 0; t < threads; t++)
        check_or_stop("a thread", pthread_create(&crew[t], NULL, count, NULL) == 0);
    while (__atomic_load_n(&counted, __ATOMIC_ACQUIRE) < threads)
        sched_yield();
    pthread_mutex_unlock(&gate);
    for (size_t t = 0; t < threads; t++)
        pthread_join(crew[t], NULL);
}

/* How many shares were taken by a thread. */
static size_t taken(void) {
    size_t taken = 0;
    for (size_t t = 0; t <= KLSM_MAX_THREADS; t++)
        taken += work.shares[t].by != NULL;
    return taken;
}

static int counts_are(uint64_t threads) {
    return klsm_work_left(&work) == threads * TIMES && klsm_work_given_up(&work) == threads * TIMES;
}

int main(void) {
    run(1);
    check("one thread has one share", taken() == 1 && counts_are(1));
    memset(&work, 0, sizeof work);
    run(16);
    check("sixteen threads count", counts_are(16));
    check("and most have a share", taken() >= 12 && taken() <= 16);
    run(THREADS);
    check("four times as many threads as shares", counts_are(16 + THREADS));
    check("no share is taken twice", taken() <= KLSM_MAX_THREADS && work.shares[KLSM_MAX_THREADS].by == NULL);
    check("and many have the last one in common",
          work.shares[KLSM_MAX_THREADS].opened >= (uint64_t)3 * TIMES * (THREADS - KLSM_MAX_THREADS));
    run(THREADS);
    check("and as many again", counts_are(16 + 2 * THREADS));
    return check_status();
}
