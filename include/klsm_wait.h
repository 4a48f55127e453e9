/* klsm_wait.h: the calls that wait for a lock, and the pauses between their tries. klsm.h includes it. C11 and C++. */
#ifndef KLSM_WAIT_H
#define KLSM_WAIT_H

/* What a thread does after KLSM_BUSY: it backs off, longer each time, then lets other threads run too, and
 * after many misses sleeps, so that the thread that has the lock finds a processor also where there are
 * fewer of these than threads. For a waiting loop of one's own over the calls klsm_try_..; klsm_insert
 * and klsm_delete_min show how. */
typedef struct klsm_pause {
    uint32_t length; /* of the next pause, in nanoseconds */
    uint32_t misses; /* how many pauses came before, as far as it matters */
} klsm_pause;

KLSM_INLINE klsm_pause klsm_first_pause(void) {
    klsm_pause first = {50, 0};
    return first;
}

/* By time, since a pause instruction takes 5 nanoseconds on one processor and 60 on another. The time-stamp
 * counter makes two to four ticks a nanosecond, and three are taken for one here. */
KLSM_INLINE void klsm_look_away(uint32_t nanoseconds) {
    const uint64_t begin = __builtin_ia32_rdtsc();
    do
        __builtin_ia32_pause();
    while (__builtin_ia32_rdtsc() - begin < UINT64_C(3) * nanoseconds);
}

/* For less than a second. select is declared under each standard. */
KLSM_INLINE void klsm_sleep(long microseconds) {
    struct timeval length = {0, microseconds};
    select(0, NULL, NULL, NULL, &length);
}

KLSM_INLINE void klsm_wait(klsm_pause *pause) {
    if (pause->misses >= 200) {
        klsm_sleep(50);
        return;
    }
    klsm_look_away(pause->length);
    if (pause->misses >= 7)
        sched_yield();
    pause->misses++;
    pause->length = pause->length < 400 ? 2 * pause->length : 800;
}

/* The calls that come after a first one was KLSM_BUSY. */
KLSM_COLD int32_t klsm_insert_after_pauses(klsm_member *member, uint64_t key, uint64_t load) {
    klsm_pause pause = klsm_first_pause();
    int32_t code;
    do {
        klsm_wait(&pause);
        code = klsm_try_insert(member, key, load);
    } while (code == KLSM_BUSY);
    return code;
}

KLSM_COLD int32_t klsm_delete_after_pauses(int32_t (*delete_by)(klsm_member *, klsm_item *), klsm_member *member,
                                           klsm_item *item) {
    klsm_pause pause = klsm_first_pause();
    int32_t code;
    do {
        klsm_wait(&pause);
        code = delete_by(member, item);
    } while (code == KLSM_BUSY);
    return code;
}

KLSM_COLD int32_t klsm_share_after_pauses(klsm_member *member, uint64_t *moved) {
    klsm_pause pause = klsm_first_pause();
    int32_t code;
    do {
        klsm_wait(&pause);
        code = klsm_try_share(member, moved);
    } while (code == KLSM_BUSY);
    return code;
}

KLSM_COLD int32_t klsm_bound_after_pauses(klsm_member *member, klsm_dual_bound *bound) {
    klsm_pause pause = klsm_first_pause();
    int32_t code;
    do {
        klsm_wait(&pause);
        code = klsm_try_bound(member, bound);
    } while (code == KLSM_BUSY);
    return code;
}

KLSM_COLD int32_t klsm_rest_after_pauses(klsm_member *member) {
    klsm_pause pause = klsm_first_pause();
    int32_t code;
    do {
        klsm_wait(&pause);
        code = klsm_try_rest(member);
    } while (code == KLSM_BUSY);
    return code;
}

/* klsm_try_insert, again and again while it is KLSM_BUSY. How long it may wait is not promised. */
KLSM_MUST_USE KLSM_NOT_NULL(1)
KLSM_INLINE int32_t klsm_insert(klsm_member *member, uint64_t key, uint64_t load) {
    int32_t code = klsm_try_insert(member, key, load);
    return __builtin_expect(code == KLSM_BUSY, 0) ? klsm_insert_after_pauses(member, key, load) : code;
}

/* klsm_try_delete_min, again and again while it is KLSM_BUSY. It does not wait for an item. */
KLSM_MUST_USE KLSM_NOT_NULL(1, 2)
KLSM_INLINE int32_t klsm_delete_min(klsm_member *member, klsm_item *item) {
    int32_t code = klsm_try_delete_min(member, item);
    return __builtin_expect(code == KLSM_BUSY, 0) ? klsm_delete_after_pauses(klsm_try_delete_min, member, item) : code;
}

/* klsm_try_delete_min_alone, again and again while it is KLSM_BUSY. It does not wait for an item. */
KLSM_MUST_USE KLSM_NOT_NULL(1, 2)
KLSM_INLINE int32_t klsm_delete_min_alone(klsm_member *member, klsm_item *item) {
    int32_t code = klsm_try_delete_min_alone(member, item);
    return __builtin_expect(code == KLSM_BUSY, 0) ? klsm_delete_after_pauses(klsm_try_delete_min_alone, member, item)
                                                  : code;
}

/* klsm_try_share, again and again while it is KLSM_BUSY. How long it may wait is not promised. */
KLSM_MUST_USE KLSM_NOT_NULL(1, 2)
KLSM_INLINE int32_t klsm_share(klsm_member *member, uint64_t *moved) {
    int32_t code = klsm_try_share(member, moved);
    return __builtin_expect(code == KLSM_BUSY, 0) ? klsm_share_after_pauses(member, moved) : code;
}

/* klsm_try_bound, again and again while it is KLSM_BUSY. Each try needs all locks at once and keeps none for the next
 * one, so where many threads do little but insert and delete it may take long. How long is not promised. */
KLSM_MUST_USE KLSM_NOT_NULL(1, 2)
KLSM_INLINE int32_t klsm_bound(klsm_member *member, klsm_dual_bound *bound) {
    int32_t code = klsm_try_bound(member, bound);
    return __builtin_expect(code == KLSM_BUSY, 0) ? klsm_bound_after_pauses(member, bound) : code;
}

/* klsm_try_rest, again and again while it is KLSM_BUSY. How long it may wait is not promised. Its code may be dropped:
 * a member that is not open works at nothing. */
KLSM_NOT_NULL(1)
KLSM_INLINE int32_t klsm_rest(klsm_member *member) {
    int32_t code = klsm_try_rest(member);
    return __builtin_expect(code == KLSM_BUSY, 0) ? klsm_rest_after_pauses(member) : code;
}

#endif
