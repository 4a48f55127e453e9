/* What open work costs: to count it, and to wait for it.
 *
 *     work [THREADS] [SECONDS]
 *
 * First 1, 2 and 4 threads open and close a piece again and again, in nanoseconds for both: by one atomic number, and
 * by klsm_work. Then of a crew one thread works at one piece, and the others wait: their processor time as a share of
 * one processor, and how long after klsm_work_stop the last one has ended. A `steady` crew waits by klsm_wait, which
 * sleeps for 50 microseconds each time; the other one by klsm_work_next. */
#define _POSIX_C_SOURCE 200809L
#include <klsm.h>
#include <pthread.h>
#include <stdio.h>
#include <time.h>

static klsm_queue queue = KLSM_QUEUE_CLOSED;
static klsm_work work;
static int is_steady;

enum { PIECES = 10000000 };

/* As a program would count by hand. */
static struct {
    KLSM_ALIGNED uint64_t open;
    uint64_t rest[15];
} number;

typedef struct waiter {
    klsm_member *member;
    double processor; /* seconds */
    char apart[112];
} waiter;

static waiter waiters[KLSM_MAX_THREADS];

static double seconds(clockid_t of) {
    struct timespec now;
    clock_gettime(of, &now);
    return (double)now.tv_sec + (double)now.tv_nsec * 1e-9;
}

static void *count_by_number(void *unused) {
    for (int i = 0; i < PIECES; i++) {
        __atomic_fetch_add(&number.open, 1, __ATOMIC_RELAXED);
        __atomic_fetch_sub(&number.open, 1, __ATOMIC_ACQ_REL);
    }
    return unused;
}

static void *count_by_work(void *unused) {
    for (int i = 0; i < PIECES; i++) {
        klsm_work_open(&work, 1);
        klsm_work_done(&work);
    }
    return unused;
}

/* Nanoseconds for a piece, by so many threads at once. */
static double time_of(void *(*count)(void *), size_t threads) {
    pthread_t crew[KLSM_MAX_THREADS];
    const double begin = seconds(CLOCK_MONOTONIC);
    for (size_t t = 0; t < threads; t++)
        if (pthread_create(&crew[t], NULL, count, NULL) != 0)
            abort();
    for (size_t t = 0; t < threads; t++)
        pthread_join(crew[t], NULL);
    return (seconds(CLOCK_MONOTONIC) - begin) * 1e9 / PIECES;
}

/* klsm_work_next with other pauses. */
static int32_t next_by_steady_pauses(klsm_member *member, klsm_item *item) {
    klsm_pause pause = klsm_first_pause();
    int32_t code;
    while ((code = klsm_delete_min(member, item)) == KLSM_NOTHING && !klsm_work_is_stopped(&work) &&
           klsm_work_left(&work) > 0)
        klsm_wait(&pause);
    return code;
}

static void *wait_for_work(void *of) {
    waiter *mine = of;
    klsm_item item;
    int32_t code = is_steady ? next_by_steady_pauses(mine->member, &item) : klsm_work_next(&work, mine->member, &item);
    mine->processor = seconds(CLOCK_THREAD_CPUTIME_ID);
    return code == KLSM_OK ? of : NULL;
}

/* A piece of work of this length, which is open without being in the queue. */
static void work_for(double length) {
    for (double end = seconds(CLOCK_MONOTONIC) + length; seconds(CLOCK_MONOTONIC) < end;)
        klsm_look_away(1000);
}

static void measure(const char *name, size_t threads, double length) {
    pthread_t crew[KLSM_MAX_THREADS];
    if (klsm_open(&queue, threads, 64, KLSM_FIRST, 0) != KLSM_OK)
        return;
    work = (klsm_work){0};
    klsm_work_open(&work, 1);
    for (size_t t = 1; t < threads; t++) {
        waiters[t] = (waiter){.member = &queue.members[t]};
        if (pthread_create(&crew[t], NULL, wait_for_work, &waiters[t]) != 0)
            abort();
    }
    work_for(length);
    const double stopped = seconds(CLOCK_MONOTONIC);
    klsm_work_stop(&work);
    double processor = 0;
    for (size_t t = 1; t < threads; t++) {
        pthread_join(crew[t], NULL);
        processor += waiters[t].processor;
    }
    const double ended = seconds(CLOCK_MONOTONIC) - stopped;
    printf("%s: %zu wait, %.1f%% of a processor, %.0f microseconds to the end\n", name, threads - 1,
           100 * processor / length, 1e6 * ended);
    klsm_drop(&queue);
}

int main(int count, char **words) {
    const size_t threads = count > 1 ? strtoul(words[1], NULL, 10) : 16;
    const double length = count > 2 ? strtod(words[2], NULL) : 3;
    if (threads < 2 || threads > KLSM_MAX_THREADS)
        return 2;
    for (size_t t = 1; t <= 4; t *= 2)
        printf("%zu count: %.1f ns by a number, %.1f ns by klsm_work\n", t, time_of(count_by_number, t),
               time_of(count_by_work, t));
    for (is_steady = 1; is_steady >= 0; is_steady--)
        for (int round = 0; round < 3; round++)
            measure(is_steady ? "steady" : "klsm_work_next", threads, length);
}
