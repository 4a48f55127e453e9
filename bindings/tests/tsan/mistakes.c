/* Two calls of two threads, of which one has to come before the other, over the library of stub.c: ThreadSanitizer
 * reports them, unless the first thread is joined before the second one begins.
 *
 *     mistakes CALL OTHER [joined]
 *
 * The second call comes after the first one in time, which the tool does not know. */
#include "klsm.h"
#include <pthread.h>
#include <stdio.h>

static klsm_queue queue;
static int turn;

static int32_t open(void) { return klsm_open(&queue, 2, 8, KLSM_FIRST, 0); }
static int32_t open_with_balance(void) { return klsm_open_with_balance(&queue, 2, 8, KLSM_FIRST, 0, 4, 1); }
static int32_t insert(void) { return klsm_try_insert(&queue.members[0], 1, 2); }
static int32_t delete_min(void) {
    klsm_item item;
    return klsm_try_delete_min(&queue.members[0], &item);
}
static int32_t delete_min_alone(void) {
    klsm_item item;
    return klsm_try_delete_min_alone(&queue.members[0], &item);
}
static int32_t share(void) {
    uint64_t moved;
    return klsm_try_share(&queue.members[0], &moved);
}
static int32_t bound(void) {
    klsm_dual_bound found;
    return klsm_try_bound(&queue.members[0], &found);
}
static int32_t rest(void) { return klsm_try_rest(&queue.members[0]); }
static int32_t front(void) { return klsm_front(&queue.members[0]) != 1; }
static int32_t inserted(void) { return klsm_inserted(&queue.members[0]) != 1; }
static int32_t deleted(void) { return klsm_deleted(&queue.members[0]) != 1; }
static int32_t close_into(void) {
    klsm_account account;
    klsm_item left;
    return klsm_close_into(&queue, &account, &left, 1);
}
static int32_t drop(void) {
    klsm_drop(&queue);
    return KLSM_OK;
}

static const struct {
    const char *name;
    int32_t (*call)(void);
} calls[] = {
    {"open", open},         {"open_with_balance", open_with_balance},
    {"insert", insert},     {"delete_min", delete_min},
    {"share", share},       {"delete_min_alone", delete_min_alone},
    {"bound", bound},       {"rest", rest},
    {"front", front},       {"close_into", close_into},
    {"inserted", inserted}, {"deleted", deleted},
    {"drop", drop},
};

typedef struct step {
    int32_t (*call)(void);
    int turn;
    int32_t code;
} step;

static void *make(void *arg) {
    step *mine = arg;
    while (__atomic_load_n(&turn, __ATOMIC_RELAXED) != mine->turn)
        sched_yield();
    mine->code = mine->call();
    __atomic_store_n(&turn, mine->turn + 1, __ATOMIC_RELAXED);
    return NULL;
}

static step step_of(const char *name, int of_turn) {
    for (size_t i = 0; i < sizeof calls / sizeof calls[0]; i++)
        if (strcmp(name, calls[i].name) == 0)
            return (step){calls[i].call, of_turn, KLSM_OK};
    fprintf(stderr, "mistakes: there is no call %s\n", name);
    exit(2);
}

int main(int argc, char **argv) {
    if (argc < 3)
        return 2;
    step one = step_of(argv[1], 0), other = step_of(argv[2], 1);
    pthread_t first, second;
    if (pthread_create(&first, NULL, make, &one) != 0)
        return 2;
    if (argc > 3)
        pthread_join(first, NULL);
    if (pthread_create(&second, NULL, make, &other) != 0)
        return 2;
    if (argc == 3)
        pthread_join(first, NULL);
    pthread_join(second, NULL);
    printf("%d %d\n", (int)one.code, (int)other.code);
    return 0;
}
