/* A scheduler: four threads share tasks, of which the one that is due first goes first. A task may
 * submit further tasks. Here they count primes: a task of a long range of numbers splits it in two.
 *
 *     cc scheduler.c -Iinclude libklsm.a -pthread
 */
#include "klsm.h"
#include <pthread.h>
#include <stdio.h>
#include <stdlib.h>

enum { THREADS = 4, BELOW = 400000, LONGEST = 1000 };

/* What a thread of the scheduler has: its member of the queue, and counts of its own. */
typedef struct worker {
    klsm_member *member;
    uint64_t tasks_run, at_once; /* at_once: those that found no room in the queue */
    uint64_t primes;
} worker;

/* A task belongs to whoever took it from the queue. */
typedef struct task {
    void (*run)(worker *, const struct task *);
    uint32_t from, to;
} task;

static klsm_queue queue = KLSM_QUEUE_CLOSED;

/* Tasks that were submitted and have not ended. */
static klsm_work open_tasks;

static void run_task(worker *self, task *it) {
    it->run(self, it);
    free(it);
    self->tasks_run++;
}

/* Submits a task that is due at a time. Where the queue has no room, the task is run at once, as a part of the one that
 * submits it. */
static void submit(worker *self, uint64_t due, task it) {
    task *copy = malloc(sizeof *copy);
    if (copy == NULL)
        abort();
    *copy = it;
    if (klsm_work_insert(&open_tasks, self->member, due, (uint64_t)(uintptr_t)copy) != KLSM_OK) {
        self->at_once++;
        run_task(self, copy);
    }
}

static void *work(void *arg) {
    worker *self = arg;
    klsm_item item;
    while (klsm_work_next(&open_tasks, self->member, &item) == KLSM_OK) {
        run_task(self, (task *)(uintptr_t)item.load);
        klsm_work_done(&open_tasks);
    }
    return NULL;
}

static int is_prime(uint32_t n) {
    for (uint32_t d = 2; d * d <= n; d++)
        if (n % d == 0)
            return 0;
    return n >= 2;
}

/* The numbers of a range. Its least number is the time at which it is due. */
static void count_primes(worker *self, const task *it) {
    if (it->to - it->from > LONGEST) {
        uint32_t middle = it->from + (it->to - it->from) / 2;
        submit(self, it->from, (task){count_primes, it->from, middle});
        submit(self, middle, (task){count_primes, middle, it->to});
        return;
    }
    for (uint32_t n = it->from; n < it->to; n++)
        self->primes += (uint64_t)is_prime(n);
}

int main(void) {
    /* Each worker on lines of the cache of its own. */
    static struct {
        _Alignas(128) worker of;
    } crew[THREADS];
    pthread_t threads[THREADS];
    int32_t code = klsm_open_default(&queue, THREADS);
    if (code != KLSM_OK) {
        fprintf(stderr, "scheduler: %s\n", klsm_text(code));
        return 1;
    }
    for (size_t t = 0; t < THREADS; t++)
        crew[t].of.member = &queue.members[t];
    submit(&crew[0].of, 0, (task){count_primes, 0, BELOW});
    for (size_t t = 0; t < THREADS; t++)
        if (pthread_create(&threads[t], NULL, work, &crew[t].of) != 0)
            abort();
    uint64_t tasks_run = 0, at_once = 0, primes = 0;
    for (size_t t = 0; t < THREADS; t++) {
        pthread_join(threads[t], NULL);
        tasks_run += crew[t].of.tasks_run;
        at_once += crew[t].of.at_once;
        primes += crew[t].of.primes;
    }

    /* All threads are done, so the account is exact: what was submitted was run. */
    klsm_account account;
    code = klsm_close(&queue, &account, NULL, 0);
    if (code != KLSM_OK) {
        fprintf(stderr, "scheduler: %s\n", klsm_text(code));
        klsm_drop(&queue);
        return 1;
    }
    printf("%llu primes below %d\n", (unsigned long long)primes, BELOW);
    printf("%llu tasks inserted, %llu deleted, %llu left\n", (unsigned long long)account.inserted,
           (unsigned long long)account.deleted, (unsigned long long)account.left);
    return account.left == 0 && account.inserted == account.deleted && tasks_run == account.deleted + at_once ? 0 : 1;
}
