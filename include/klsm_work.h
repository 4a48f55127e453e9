/* klsm_work.h: a count of open work, by which a crew of threads sees the end. klsm.h includes it. C11 and C++.
 *
 *     static klsm_work work;                                          // all bytes 0: none is open
 *     if (klsm_work_insert(&work, &queue.members[0], key, load) != KLSM_OK) ..   // before the crew begins
 *     // in thread t:
 *     while ((code = klsm_work_next(&work, &queue.members[t], &item)) == KLSM_OK) {
 *         for (each piece that follows from the item)
 *             if (klsm_work_insert(&work, &queue.members[t], ..) != KLSM_OK) klsm_work_stop(&work);
 *         klsm_work_done(&work);
 *     }                                                               // KLSM_NOTHING: no work is open
 *
 * That a deletion finds nothing is no end, since another thread may be about to insert what follows from the item
 * that it has. So pieces of work are counted: each is opened before its item is inserted, and closed once all that
 * follows from it was opened. It is closed as done, or as given up, where a thread leaves it unfinished; an open
 * piece that no thread closes keeps the crew waiting until klsm_work_stop.
 *
 * A deletion may have brought more items home than the one that it gave, and the others come to these last. So a thread
 * calls klsm_share before it works on a piece for long, and before it leaves the crew while work is open; where it
 * leaves since the crew was stopped, it need not. Where others ask for a bound, it calls klsm_rest before it leaves.
 *
 * A klsm_work is all bytes 0 at first and aligned to 128 bytes, as a klsm_queue is, and is neither copied nor written
 * otherwise while threads use it. Any thread may make these calls, at any time, but for klsm_work_insert and
 * klsm_work_next, which are calls of their member too. What a thread wrote before it closed a piece is seen by those
 * that see the end. Each thread counts in cache lines of its own, so that counting costs a nanosecond or two; only a
 * thread that finds nothing adds them all up. */
#ifndef KLSM_WORK_H
#define KLSM_WORK_H

#ifdef __cplusplus
#define KLSM_THREAD_LOCAL thread_local
#else
#define KLSM_THREAD_LOCAL _Thread_local
#endif

/* What one thread has counted. Its fields, and those of klsm_work, belong to the functions below. */
typedef struct klsm_work_share {
    KLSM_ALIGNED const void *by;
    uint64_t opened;
    uint64_t closed;
    uint64_t given_up;
    uint64_t room[12];
} klsm_work_share;

/* The last share is that of all threads that found no other. */
typedef struct klsm_work {
    klsm_work_share shares[KLSM_MAX_THREADS + 1];
    KLSM_ALIGNED uint32_t is_stopped;
    uint32_t rest[31];
} klsm_work;

KLSM_ASSERT(sizeof(klsm_work_share) == 128 && sizeof(klsm_work) == 128 * (KLSM_MAX_THREADS + 2));

/* The share that the calling thread counts in: one that it has taken, by the address of a variable that each thread
 * has. No two threads have one address at once, so nobody else writes that share. A thread that begins where another
 * one ended goes on with its share; one that finds eight taken counts in the last share. */
KLSM_INLINE klsm_work_share *klsm_work_mine(klsm_work *work) {
    static KLSM_THREAD_LOCAL char here;
    const void *const thread = &here;
    const size_t first = KLSM_ADDRESS(thread) * UINT64_C(0x9e3779b97f4a7c15) >> 58;
    for (size_t i = 0; i < 8; i++) {
        klsm_work_share *share = &work->shares[(first + i) % KLSM_MAX_THREADS];
        const void *by = __atomic_load_n(&share->by, __ATOMIC_RELAXED);
        if (by == thread)
            return share;
        if (by == NULL && __atomic_compare_exchange_n(&share->by, &by, thread, 0, __ATOMIC_RELAXED, __ATOMIC_RELAXED))
            return share;
    }
    return &work->shares[KLSM_MAX_THREADS];
}

/* Raises a count of a share, which only in the last one others may write too. The release is for who adds the counts
 * up: from a piece that it sees closed it sees all that came before. */
KLSM_INLINE void klsm_work_raise(const klsm_work_share *share, uint64_t *count, uint64_t pieces) {
    if (__atomic_load_n(&share->by, __ATOMIC_RELAXED) != NULL)
        __atomic_store_n(count, __atomic_load_n(count, __ATOMIC_RELAXED) + pieces, __ATOMIC_RELEASE);
    else
        __atomic_fetch_add(count, pieces, __ATOMIC_RELEASE);
}

/* So many pieces are open from now on: before their items are inserted. */
KLSM_NOT_NULL(1)
KLSM_INLINE void klsm_work_open(klsm_work *work, uint64_t pieces) {
    klsm_work_share *mine = klsm_work_mine(work);
    klsm_work_raise(mine, &mine->opened, pieces);
}

/* A piece is done: all that follows from it was opened before. */
KLSM_NOT_NULL(1)
KLSM_INLINE void klsm_work_done(klsm_work *work) {
    klsm_work_share *mine = klsm_work_mine(work);
    klsm_work_raise(mine, &mine->closed, 1);
}

/* A piece is closed that is not done: nobody waits for it, and klsm_work_given_up counts it. */
KLSM_NOT_NULL(1)
KLSM_INLINE void klsm_work_give_up(klsm_work *work) {
    klsm_work_share *mine = klsm_work_mine(work);
    klsm_work_raise(mine, &mine->given_up, 1);
    klsm_work_raise(mine, &mine->closed, 1);
}

/* The crew is to end, whatever is open: each thread that asks for work, or waits for some, gets KLSM_STOPPED from now
 * on, and sees what was written before. Also from a signal handler. */
KLSM_NOT_NULL(1)
KLSM_INLINE void klsm_work_stop(klsm_work *work) { __atomic_store_n(&work->is_stopped, 1, __ATOMIC_RELEASE); }

KLSM_NOT_NULL(1)
KLSM_INLINE int klsm_work_is_stopped(const klsm_work *work) {
    return __atomic_load_n(&work->is_stopped, __ATOMIC_ACQUIRE) != 0;
}

/* How many pieces were opened less how many were closed. The closed ones are added up first: whoever closed one had
 * opened all that follows before, and both is seen here. So where none is closed that was not open, this is never
 * below 0, and 0 only where all that was opened is closed. */
KLSM_NOT_NULL(1)
KLSM_INLINE int64_t klsm_work_difference(const klsm_work *work) {
    uint64_t closed = 0, opened = 0;
    for (size_t t = 0; t <= KLSM_MAX_THREADS; t++)
        closed += __atomic_load_n(&work->shares[t].closed, __ATOMIC_ACQUIRE);
    for (size_t t = 0; t <= KLSM_MAX_THREADS; t++)
        opened += __atomic_load_n(&work->shares[t].opened, __ATOMIC_ACQUIRE);
    return KLSM_CAST(int64_t, opened - closed);
}

/* How many pieces are open, and 0 where more were closed than opened. While threads count it may be the number of no
 * one moment, but it is 0 only where none is open. */
KLSM_NOT_NULL(1)
KLSM_INLINE uint64_t klsm_work_left(const klsm_work *work) {
    const int64_t difference = klsm_work_difference(work);
    return difference < 0 ? 0 : KLSM_CAST(uint64_t, difference);
}

/* How many pieces were given up. Where none is open and this is 0, all was done. */
KLSM_NOT_NULL(1)
KLSM_INLINE uint64_t klsm_work_given_up(const klsm_work *work) {
    uint64_t given_up = 0;
    for (size_t t = 0; t <= KLSM_MAX_THREADS; t++)
        given_up += __atomic_load_n(&work->shares[t].given_up, __ATOMIC_ACQUIRE);
    return given_up;
}

/* Opens a piece and inserts its item, by klsm_insert, whose codes it has. Where that is refused, no piece is opened. */
KLSM_MUST_USE KLSM_NOT_NULL(1, 2)
KLSM_INLINE int32_t klsm_work_insert(klsm_work *work, klsm_member *member, uint64_t key, uint64_t load) {
    klsm_work_open(work, 1);
    const int32_t code = klsm_insert(member, key, load);
    if (code != KLSM_OK)
        klsm_work_done(work);
    return code;
}

/* What a thread is to do that finds no item: KLSM_OK, wait; else it ends with KLSM_STOPPED, KLSM_NOTHING or
 * KLSM_MISCOUNTED. The pieces are counted first: where one stops the crew and then closes its piece, nobody who sees
 * the latter takes it for the end of the work. */
KLSM_NOT_NULL(1)
KLSM_INLINE int32_t klsm_work_end(const klsm_work *work) {
    const int64_t difference = klsm_work_difference(work);
    if (klsm_work_is_stopped(work))
        return KLSM_STOPPED;
    return difference > 0 ? KLSM_OK : difference == 0 ? KLSM_NOTHING : KLSM_MISCOUNTED;
}

/* What a thread does that finds no item while work is open: it pauses as after KLSM_BUSY, and after 200 pauses it
 * sleeps, for 50 microseconds at first, then twice as long each time, and at last for 400. So waiting costs little,
 * and who waits hears of work, or of the end, within a millisecond where it has a processor. */
KLSM_INLINE void klsm_work_wait(klsm_pause *pause) {
    if (pause->misses < 200) {
        klsm_wait(pause);
        return;
    }
    klsm_sleep(50L << (pause->misses - 200));
    pause->misses += pause->misses < 203;
}

/* Deletes a small item, whose piece is then in the caller's hands, and waits for one while work is open.
 * KLSM_OK            *item is written; klsm_work_done or klsm_work_give_up closes its piece
 * KLSM_NOTHING       nothing was found, and no work is open: all is done, or given up
 * KLSM_STOPPED       klsm_work_stop was called
 * KLSM_MISCOUNTED    nothing was found, and more pieces were closed than had been opened. Others may have seen
 *                    KLSM_NOTHING too early; who closes the last piece and asks again sees this
 * KLSM_NOT_OPEN      the member is not open
 * After all but KLSM_OK *item is unchanged. */
KLSM_MUST_USE KLSM_NOT_NULL(1, 2, 3)
KLSM_INLINE int32_t klsm_work_next(klsm_work *work, klsm_member *member, klsm_item *item) {
    klsm_pause pause = klsm_first_pause();
    for (;;) {
        if (klsm_work_is_stopped(work))
            return KLSM_STOPPED;
        const int32_t code = klsm_delete_min(member, item);
        if (code != KLSM_NOTHING)
            return code;
        const int32_t end = klsm_work_end(work);
        if (end != KLSM_OK)
            return end;
        klsm_work_wait(&pause);
    }
}

#endif
