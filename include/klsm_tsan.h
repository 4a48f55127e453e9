/* klsm_tsan.h: what the calls of klsm.h tell ThreadSanitizer. klsm.h includes it where the tool is on.
 *
 * The tool sees only what it has compiled, and the archive it has not. So a call that it is not told of hides the
 * order that the queue makes, and looks like none. Here each call writes to its member, by which the tool finds two
 * threads with one member, or a call beside a closing; what the library does inside is left out; and what came
 * before an insertion is seen behind the deletion that gives its item, by a word that is found by key and load.
 * Items that share a word may hide a race of the program; no right program is reported. */
#ifndef KLSM_TSAN_H
#define KLSM_TSAN_H

void __tsan_acquire(void *word);
void __tsan_release(void *word);
void __tsan_ignore_thread_begin(void);
void __tsan_ignore_thread_end(void);

/* One array for the whole program, also where its parts were compiled apart or are shared objects. A part that
 * is opened by dlopen finds that of the program where the program was linked with -rdynamic. */
__attribute__((weak, visibility("default"))) char klsm_tsan_words[4096];

KLSM_BEGIN_INLINE

KLSM_INLINE void *klsm_tsan_word(uint64_t key, uint64_t load) {
    return &klsm_tsan_words[(key * UINT64_C(0x9e3779b97f4a7c15) ^ load * UINT64_C(0xbf58476d1ce4e5b9)) >> 52];
}

/* A write that leaves the bytes as they are. */
KLSM_INLINE void klsm_tsan_use(klsm_member *member) {
    volatile uint64_t *word = &member->room[13];
    *word = member->room[13];
}

KLSM_INLINE void klsm_tsan_use_all(klsm_queue *queue) {
    for (size_t t = 0; t < KLSM_MAX_THREADS; t++)
        klsm_tsan_use(&queue->members[t]);
}

#define KLSM_TSAN(use, call)              \
    use;                                  \
    __tsan_ignore_thread_begin();         \
    call;                                 \
    __tsan_ignore_thread_end()

KLSM_MUST_USE KLSM_NOT_NULL(1)
KLSM_INLINE int32_t klsm_tsan_open(klsm_queue *queue, size_t threads, size_t k, uint32_t pick, uint64_t seed) {
    KLSM_TSAN(klsm_tsan_use_all(queue), int32_t code = klsm_open(queue, threads, k, pick, seed));
    return code;
}

KLSM_MUST_USE KLSM_NOT_NULL(1)
KLSM_INLINE int32_t klsm_tsan_open_with_balance(klsm_queue *queue, size_t threads, size_t k, uint32_t pick,
                                                uint64_t seed, size_t refill, uint32_t balance) {
    KLSM_TSAN(klsm_tsan_use_all(queue),
              int32_t code = klsm_open_with_balance(queue, threads, k, pick, seed, refill, balance));
    return code;
}

KLSM_MUST_USE KLSM_NOT_NULL(1)
KLSM_INLINE int32_t klsm_tsan_try_insert(klsm_member *member, uint64_t key, uint64_t load) {
    __tsan_release(klsm_tsan_word(key, load));
    KLSM_TSAN(klsm_tsan_use(member), int32_t code = klsm_try_insert(member, key, load));
    return code;
}

/* Hands on what a deletion with this code gave. */
KLSM_INLINE int32_t klsm_tsan_give(int32_t code, const klsm_item *deleted, klsm_item *item) {
    if (code == KLSM_OK) {
        __tsan_acquire(klsm_tsan_word(deleted->key, deleted->load));
        *item = *deleted;
    }
    return code;
}

KLSM_MUST_USE KLSM_NOT_NULL(1, 2)
KLSM_INLINE int32_t klsm_tsan_try_delete_min(klsm_member *member, klsm_item *item) {
    klsm_item deleted = {0, 0, 0, 0};
    KLSM_TSAN(klsm_tsan_use(member), int32_t code = klsm_try_delete_min(member, &deleted));
    return klsm_tsan_give(code, &deleted, item);
}

KLSM_MUST_USE KLSM_NOT_NULL(1, 2)
KLSM_INLINE int32_t klsm_tsan_try_delete_min_alone(klsm_member *member, klsm_item *item) {
    klsm_item deleted = {0, 0, 0, 0};
    KLSM_TSAN(klsm_tsan_use(member), int32_t code = klsm_try_delete_min_alone(member, &deleted));
    return klsm_tsan_give(code, &deleted, item);
}

KLSM_MUST_USE KLSM_NOT_NULL(1, 2)
KLSM_INLINE int32_t klsm_tsan_try_share(klsm_member *member, uint64_t *moved) {
    uint64_t count = 0;
    KLSM_TSAN(klsm_tsan_use(member), int32_t code = klsm_try_share(member, &count));
    if (code == KLSM_OK)
        *moved = count;
    return code;
}

KLSM_MUST_USE KLSM_NOT_NULL(1, 2)
KLSM_INLINE int32_t klsm_tsan_try_bound(klsm_member *member, klsm_dual_bound *bound) {
    klsm_dual_bound found = {0, 0, 0};
    KLSM_TSAN(klsm_tsan_use(member), int32_t code = klsm_try_bound(member, &found));
    if (code == KLSM_OK)
        *bound = found;
    return code;
}

KLSM_MUST_USE KLSM_NOT_NULL(1)
KLSM_INLINE int32_t klsm_tsan_try_rest(klsm_member *member) {
    KLSM_TSAN(klsm_tsan_use(member), int32_t code = klsm_try_rest(member));
    return code;
}

KLSM_INLINE uint64_t klsm_tsan_front(klsm_member *member) {
    KLSM_TSAN(klsm_tsan_use(member), uint64_t front = klsm_front(member));
    return front;
}

KLSM_INLINE uint64_t klsm_tsan_inserted(klsm_member *member) {
    KLSM_TSAN(klsm_tsan_use(member), uint64_t count = klsm_inserted(member));
    return count;
}

KLSM_INLINE uint64_t klsm_tsan_deleted(klsm_member *member) {
    KLSM_TSAN(klsm_tsan_use(member), uint64_t count = klsm_deleted(member));
    return count;
}

KLSM_MUST_USE KLSM_NOT_NULL(1, 2, 3)
KLSM_INLINE int32_t klsm_tsan_close_into(klsm_queue *queue, klsm_account *account, klsm_item *left, size_t room) {
    KLSM_TSAN(klsm_tsan_use_all(queue), int32_t code = klsm_close_into(queue, account, left, room));
    return code;
}

KLSM_INLINE void klsm_tsan_drop(klsm_queue *queue) { KLSM_TSAN(klsm_tsan_use_all(queue), klsm_drop(queue)); }

KLSM_END_INLINE

#define klsm_open klsm_tsan_open
#define klsm_open_with_balance klsm_tsan_open_with_balance
#define klsm_try_insert klsm_tsan_try_insert
#define klsm_try_delete_min klsm_tsan_try_delete_min
#define klsm_try_delete_min_alone klsm_tsan_try_delete_min_alone
#define klsm_try_share klsm_tsan_try_share
#define klsm_try_bound klsm_tsan_try_bound
#define klsm_try_rest klsm_tsan_try_rest
#define klsm_front klsm_tsan_front
#define klsm_inserted klsm_tsan_inserted
#define klsm_deleted klsm_tsan_deleted
#define klsm_close_into klsm_tsan_close_into
#define klsm_drop klsm_tsan_drop

#endif
