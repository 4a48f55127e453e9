/* A library with the exports of klsm.h and no queue behind them: see stub.h. */
#include "stub.h"
#include <string.h>

enum { PLACES = 7, PATIENCE = 1000 };

typedef struct arguments {
    uint64_t of[PLACES];
} arguments;

/* What it was told and asked of one export. */
typedef struct record {
    uint64_t answer, held, asked;
    arguments last;
    int repeats;
} record;

static _Thread_local record records[STUB_CALLS] = {
    [STUB_ABI] = {.answer = KLSM_ABI}, [STUB_VERSION] = {.answer = KLSM_VERSION_NUMBER}};
static _Thread_local klsm_account leaves;
static _Thread_local uint64_t queues;

void stub_begin(void) {
    memset(records, 0, sizeof records);
    memset(&leaves, 0, sizeof leaves);
    queues = 0;
    for (int call = 0; call < STUB_CALLS; call++)
        records[call].repeats = 1;
    records[STUB_ABI].answer = KLSM_ABI;
    records[STUB_VERSION].answer = KLSM_VERSION_NUMBER;
}

void stub_answer(uint32_t call, uint64_t answer) { records[call].answer = answer; }

void stub_hold(uint32_t call, uint64_t times) { records[call].held = times; }

void stub_leave(uint64_t inserted, uint64_t deleted, uint64_t left) {
    leaves = (klsm_account){inserted, deleted, left};
}

uint64_t stub_asked(uint32_t call) { return records[call].asked; }

int stub_repeats(uint32_t call) { return records[call].repeats; }

uint64_t stub_argument(uint32_t call, uint32_t place) { return records[call].last.of[place]; }

uint64_t stub_queues(void) { return queues; }

static uint64_t address(const void *at) { return (uint64_t)(uintptr_t)at; }

/* Keeps the arguments of a call, and gives its answer. One that is asked too often is that of a loop without
 * end, which KLSM_NOT_OPEN ends. */
static uint64_t answer(enum stub_call call, arguments with) {
    record *of = &records[call];
    if (of->asked++ > 0 && memcmp(&of->last, &with, sizeof with) != 0)
        of->repeats = 0;
    of->last = with;
    if (of->asked > PATIENCE)
        return KLSM_NOT_OPEN;
    if (of->held == 0)
        return of->answer;
    of->held--;
    return KLSM_BUSY;
}

static int32_t answer_code(enum stub_call call, arguments with) { return (int32_t)answer(call, with); }

static void open_members(klsm_queue *queue, size_t threads) {
    queues++;
    for (size_t t = 0; t < KLSM_MAX_THREADS && t < threads; t++)
        queue->members[t].live = 1;
}

static void close_members(klsm_queue *queue) {
    queues -= queue->members[0].live;
    for (size_t t = 0; t < KLSM_MAX_THREADS; t++)
        queue->members[t].live = 0;
}

uint32_t klsm_abi(void) { return (uint32_t)answer(STUB_ABI, (arguments){{0}}); }

uint32_t klsm_version(void) { return (uint32_t)answer(STUB_VERSION, (arguments){{0}}); }

int32_t klsm_open(klsm_queue *queue, size_t threads, size_t k, uint32_t pick, uint64_t seed) {
    int32_t code = answer_code(STUB_OPEN, (arguments){{address(queue), threads, k, pick, seed}});
    if (code == KLSM_OK)
        open_members(queue, threads);
    return code;
}

int32_t klsm_open_with_balance(klsm_queue *queue, size_t threads, size_t k, uint32_t pick, uint64_t seed,
                               size_t refill, uint32_t balance) {
    arguments with = {{address(queue), threads, k, pick, seed, refill, balance}};
    int32_t code = answer_code(STUB_OPEN_WITH_BALANCE, with);
    if (code == KLSM_OK)
        open_members(queue, threads);
    return code;
}

int32_t klsm_try_insert(klsm_member *member, uint64_t key, uint64_t load) {
    return answer_code(STUB_TRY_INSERT, (arguments){{address(member), key, load}});
}

static int32_t answer_deletion(enum stub_call call, klsm_member *member, klsm_item *item) {
    int32_t code = answer_code(call, (arguments){{address(member), address(item)}});
    if (code == KLSM_OK)
        *item = (klsm_item){101, 102, 103, 104};
    return code;
}

int32_t klsm_try_delete_min(klsm_member *member, klsm_item *item) {
    return answer_deletion(STUB_TRY_DELETE_MIN, member, item);
}

int32_t klsm_try_delete_min_alone(klsm_member *member, klsm_item *item) {
    return answer_deletion(STUB_TRY_DELETE_MIN_ALONE, member, item);
}

int32_t klsm_try_share(klsm_member *member, uint64_t *moved) {
    int32_t code = answer_code(STUB_TRY_SHARE, (arguments){{address(member), address(moved)}});
    if (code == KLSM_OK)
        *moved = 105;
    return code;
}

int32_t klsm_try_bound(klsm_member *member, klsm_dual_bound *bound) {
    int32_t code = answer_code(STUB_TRY_BOUND, (arguments){{address(member), address(bound)}});
    if (code == KLSM_OK)
        *bound = (klsm_dual_bound){106, 107, 108};
    return code;
}

int32_t klsm_try_rest(klsm_member *member) { return answer_code(STUB_TRY_REST, (arguments){{address(member)}}); }

uint64_t klsm_front(klsm_member *member) { return answer(STUB_FRONT, (arguments){{address(member)}}); }

uint64_t klsm_inserted(klsm_member *member) {
    return member->live * answer(STUB_INSERTED, (arguments){{address(member)}});
}

uint64_t klsm_deleted(klsm_member *member) {
    return member->live * answer(STUB_DELETED, (arguments){{address(member)}});
}

int32_t klsm_close_into(klsm_queue *queue, klsm_account *account, klsm_item *left, size_t room) {
    arguments with = {{address(queue), address(account), address(left), room}};
    int32_t code = answer_code(STUB_CLOSE, with);
    if (code == KLSM_OK || code == KLSM_SHARED)
        close_members(queue);
    if (code != KLSM_OK)
        return code;
    *account = leaves;
    for (uint64_t i = 0; i < leaves.left && i < room; i++)
        left[i] = (klsm_item){i, 10 + i, 20 + i, 1};
    return code;
}

void klsm_drop(klsm_queue *queue) {
    answer(STUB_DROP, (arguments){{address(queue)}});
    close_members(queue);
}
