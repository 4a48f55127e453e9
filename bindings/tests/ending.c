/* A crew of sixteen, of which all but one wait, ends at once: by a stop of another thread, or in the handler of a
 * signal, by a flag that such a handler sets, and by an insertion that is refused. */
#include "check.h"
#include <pthread.h>
#include <signal.h>

enum { THREADS = 16, ROUNDS = 50 };

static klsm_queue queue;
static klsm_work work;
static volatile sig_atomic_t interrupted;

typedef struct thread {
    klsm_member *member;
    int32_t end; /* the last code */
    char apart[112];
} thread;

static thread crew[THREADS];

/* What the thread does that has the only piece: it leaves the piece at last. */
static void (*act)(void);
static double left_at;

/* The others wait by now, and sleep for as long as they ever do. */
static void wait_and_leave(void) {
    klsm_sleep(20000);
    left_at = check_now();
}

static void *run(void *arg) {
    thread *mine = arg;
    klsm_item item;
    while ((mine->end = klsm_work_next(&work, mine->member, &item)) == KLSM_OK)
        act();
    return NULL;
}

static void begin(void) {
    memset(&work, 0, sizeof work);
    check_or_stop("open", klsm_open_default(&queue, THREADS) == KLSM_OK);
    check_or_stop("insert", klsm_work_insert(&work, &queue.members[0], 1, 1) == KLSM_OK);
}

/* How long the last one takes from the time when the piece was left. */
static double run_all(void) {
    pthread_t threads[THREADS];
    for (size_t t = 0; t < THREADS; t++) {
        crew[t] = (thread){.member = &queue.members[t]};
        check_or_stop("a thread", pthread_create(&threads[t], NULL, run, &crew[t]) == 0);
    }
    for (size_t t = 0; t < THREADS; t++)
        pthread_join(threads[t], NULL);
    return check_now() - left_at;
}

/* All see this end, within ten milliseconds in the best of some rounds, since other programs run too. So many pieces
 * stay open and so many are given up. */
static void all_end(const char *name, void (*by)(void), int32_t end, uint64_t left, uint64_t given_up) {
    int is_soon = 0, all = 1;
    act = by;
    for (int round = 0; round < ROUNDS && all && !is_soon; round++) {
        begin();
        is_soon = run_all() < 0.01;
        for (size_t t = 0; t < THREADS; t++)
            all = all && crew[t].end == end;
        all = all && klsm_work_left(&work) == left && klsm_work_given_up(&work) == given_up;
        klsm_drop(&queue);
    }
    check(name, all);
    check("within ten milliseconds", is_soon);
}

static void *stop(void *unused) {
    wait_and_leave();
    klsm_work_stop(&work);
    return unused;
}

/* The piece stays open. */
static void stop_by_another_thread(void) {
    pthread_t other;
    check_or_stop("a thread", pthread_create(&other, NULL, stop, NULL) == 0);
    pthread_join(other, NULL);
}

static void stop_by_signal(int unused) {
    (void)unused;
    klsm_work_stop(&work);
}

static void stop_in_a_handler(void) {
    signal(SIGINT, stop_by_signal);
    wait_and_leave();
    raise(SIGINT);
}

static void set_flag(int unused) {
    (void)unused;
    interrupted = 1;
}

/* The thread looks at the flag between two steps of its piece, which it then gives up. */
static void stop_by_a_flag(void) {
    interrupted = 0;
    signal(SIGINT, set_flag);
    wait_and_leave();
    raise(SIGINT);
    if (interrupted)
        klsm_work_stop(&work);
    klsm_work_give_up(&work);
}

/* No member of this number is open, so none of its insertions is done. */
static void be_refused(void) {
    wait_and_leave();
    if (klsm_work_insert(&work, &queue.members[THREADS], 2, 2) != KLSM_OK)
        klsm_work_give_up(&work);
}

int main(void) {
    all_end("a stop of another thread", stop_by_another_thread, KLSM_STOPPED, 1, 0);
    all_end("a stop in the handler of a signal", stop_in_a_handler, KLSM_STOPPED, 1, 0);
    all_end("a flag that such a handler sets", stop_by_a_flag, KLSM_STOPPED, 0, 1);
    all_end("an insertion that is refused", be_refused, KLSM_NOTHING, 0, 1);
    return check_status();
}
