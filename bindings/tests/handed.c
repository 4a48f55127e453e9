/* Loads that are pointers: what a thread wrote before an insertion is seen by the thread whose deletion gives the
 * item. handed [THREADS [ROUNDS OF EACH]]. ThreadSanitizer, which sees the plain reads and writes here, has nothing
 * to report. */
#include "check.h"
#include <pthread.h>

static klsm_queue queue;
static size_t threads = 4;
static uint64_t rounds = 20000;

/* A message belongs to the thread that has it: it is written without a lock. */
typedef struct message {
    uint64_t number, hops, sum;
} message;

typedef struct share {
    klsm_member *member;
    uint64_t number, received, hops;
    int failed;
    char apart[128];
} share;

static share shares[KLSM_MAX_THREADS];

static uint64_t sum_of(const message *it) {
    uint64_t state = it->number ^ it->hops << 40;
    return check_random(&state);
}

static void send(share *by, message *it) {
    it->sum = sum_of(it);
    uint64_t state = it->sum;
    if (klsm_insert(by->member, check_random(&state) % 1000, (uint64_t)(uintptr_t)it) != KLSM_OK)
        by->failed = 1;
}

/* Each round sends a new message, and receives one, which goes on or ends. */
static void *work(void *arg) {
    share *mine = arg;
    for (uint64_t i = 0; i < rounds; i++) {
        klsm_item item;
        message *fresh = malloc(sizeof *fresh);
        if (fresh == NULL)
            abort();
        *fresh = (message){mine->number << 32 | i, 0, 0};
        send(mine, fresh);
        if (klsm_delete_min(mine->member, &item) != KLSM_OK)
            continue;
        message *it = (message *)(uintptr_t)item.load;
        mine->failed = mine->failed || it->sum != sum_of(it);
        mine->received++;
        it->hops++;
        if (it->hops % 3 == 0)
            free(it);
        else
            send(mine, it);
    }
    return NULL;
}

static void end(void *context, const klsm_item *item) {
    message *it = (message *)(uintptr_t)item->load;
    int *as_sent = context;
    *as_sent = *as_sent && it->sum == sum_of(it);
    free(it);
}

int main(int argc, char **argv) {
    if (argc > 1)
        threads = strtoull(argv[1], NULL, 10);
    if (argc > 2)
        rounds = strtoull(argv[2], NULL, 10);
    check_or_stop("1 to 64 threads", threads >= 1 && threads <= KLSM_MAX_THREADS);
    pthread_t running[KLSM_MAX_THREADS];
    klsm_account account;
    check_or_stop("open", klsm_open_default(&queue, threads) == KLSM_OK);
    for (size_t t = 0; t < threads; t++) {
        shares[t] = (share){.member = &queue.members[t], .number = t};
        check_or_stop("a thread", pthread_create(&running[t], NULL, work, &shares[t]) == 0);
    }
    uint64_t received = 0;
    int failed = 0, as_sent = 1;
    for (size_t t = 0; t < threads; t++) {
        pthread_join(running[t], NULL);
        received += shares[t].received;
        failed = failed || shares[t].failed;
    }
    check("what was received is as it was sent", !failed && received > 0);
    check_code("close", klsm_close_each(&queue, &account, end, &as_sent), KLSM_OK);
    check("what was left too", as_sent && account.deleted == received);
    return check_status();
}
