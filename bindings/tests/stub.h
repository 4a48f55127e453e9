/* The library of stub.c: it has the exports of klsm.h, answers what a test tells it, and keeps what it was
 * asked. Each thread has one of its own. C11 and C++. */
#ifndef STUB_H
#define STUB_H

#include "klsm.h"

#ifdef __cplusplus
extern "C" {
#endif

/* Its exports. */
enum stub_call {
    STUB_ABI,
    STUB_OPEN,
    STUB_OPEN_WITH_BALANCE,
    STUB_TRY_INSERT,
    STUB_TRY_DELETE_MIN,
    STUB_INSERTED,
    STUB_DELETED,
    STUB_CLOSE,
    STUB_DROP,
    STUB_FRONT,
    STUB_TRY_DELETE_MIN_ALONE,
    STUB_TRY_SHARE,
    STUB_TRY_BOUND,
    STUB_TRY_REST,
    STUB_VERSION,
    STUB_CALLS
};

/* Forgets all it was told and asked. Its interface and version are then those of klsm.h, also before the first time,
 * and all other answers are 0. */
void stub_begin(void);

/* What a call answers from now on: a code, a count or a version. A count of a closed member stays 0. With
 * KLSM_OK an opening opens members, a deletion writes the item {101, 102, 103, 104}, a sharing the number 105, and a
 * bound {106, 107, 108}. */
void stub_answer(uint32_t call, uint64_t answer);

/* A lock is held for so many calls: they are KLSM_BUSY, and the next one has the answer above. From the 1001st
 * on all are KLSM_NOT_OPEN, so that a call that waits without end fails a test. */
void stub_hold(uint32_t call, uint64_t times);

/* What a closing that is KLSM_OK writes: this account, and as items {i, 10 + i, 20 + i, 1}. */
void stub_leave(uint64_t inserted, uint64_t deleted, uint64_t left);

/* How often a call was made, and whether each time with the same arguments. */
uint64_t stub_asked(uint32_t call);
int stub_repeats(uint32_t call);

/* An argument of the last such call, counted from 0, a pointer by its address. */
uint64_t stub_argument(uint32_t call, uint32_t place);

/* How many queues are open: those opened, less those that were open when they were closed or dropped. */
uint64_t stub_queues(void);

#ifdef __cplusplus
}
#endif
#endif
