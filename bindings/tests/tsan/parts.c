/* A right program of two parts, over the library of stub.c, whose item has key 101 and load 102: one part writes and
 * inserts, the other one deletes and reads, by each of the two deletions. ThreadSanitizer has nothing to report, also
 * where part.c is a shared object. And under that tool, too, a call writes with KLSM_OK alone. */
#include "check.h"
#include "stub.h"
#include <pthread.h>

int32_t write_and_insert(klsm_member *member, uint64_t *message);

static klsm_queue queue;
static uint64_t message;
static int is_inserted; /* gives no order that the tool knows */
static int32_t (*delete_by)(klsm_member *member, klsm_item *item);

static void *insert(void *unused) {
    check_or_stop("insert", write_and_insert(&queue.members[0], &message) == KLSM_OK);
    __atomic_store_n(&is_inserted, 1, __ATOMIC_RELAXED);
    return unused;
}

static void *delete_min(void *unused) {
    klsm_item item = {0, 0, 0, 0};
    while (!__atomic_load_n(&is_inserted, __ATOMIC_RELAXED))
        sched_yield();
    check_code("delete", delete_by(&queue.members[1], &item), KLSM_OK);
    check("what was written is seen", item.key == 101 && item.load == 102 && message == 7);
    return unused;
}

static void hands_on(int32_t (*by)(klsm_member *member, klsm_item *item)) {
    pthread_t threads[2];
    stub_begin();
    delete_by = by;
    message = 0;
    is_inserted = 0;
    check_or_stop("a thread", pthread_create(&threads[0], NULL, insert, NULL) == 0);
    check_or_stop("another thread", pthread_create(&threads[1], NULL, delete_min, NULL) == 0);
    pthread_join(threads[0], NULL);
    pthread_join(threads[1], NULL);
}

/* An item, a number and a bound that were written, or not. */
static int are(const klsm_item *item, uint64_t moved, klsm_dual_bound bound, int is_written) {
    const uint64_t by = is_written ? 100 : 0;
    return item->key == by + 1 && item->load == by + 2 && item->number == by + 3 && item->owner == by + 4 &&
           moved == by + 5 && bound.queue == by + 6 && bound.work == by + 7 && bound.items == by + 8;
}

static void calls_write_with_ok_alone(void) {
    const int32_t codes[] = {KLSM_OK, KLSM_NOTHING, KLSM_BUSY, KLSM_FULL, KLSM_NO_MEMORY, KLSM_NOT_OPEN};
    for (int i = 0; i < 6; i++) {
        klsm_item item = {1, 2, 3, 4}, alone = {1, 2, 3, 4};
        uint64_t moved = 5;
        klsm_dual_bound bound = {6, 7, 8};
        stub_answer(STUB_TRY_DELETE_MIN, (uint64_t)codes[i]);
        stub_answer(STUB_TRY_DELETE_MIN_ALONE, (uint64_t)codes[i]);
        stub_answer(STUB_TRY_SHARE, (uint64_t)codes[i]);
        stub_answer(STUB_TRY_BOUND, (uint64_t)codes[i]);
        stub_answer(STUB_TRY_REST, (uint64_t)codes[i]);
        check_code("delete", klsm_try_delete_min(&queue.members[0], &item), codes[i]);
        check_code("delete alone", klsm_try_delete_min_alone(&queue.members[0], &alone), codes[i]);
        check_code("share", klsm_try_share(&queue.members[0], &moved), codes[i]);
        check_code("bound", klsm_try_bound(&queue.members[0], &bound), codes[i]);
        check_code("rest", klsm_try_rest(&queue.members[0]), codes[i]);
        check("they write with KLSM_OK alone", are(&item, moved, bound, codes[i] == KLSM_OK));
        check("alone, too", are(&alone, moved, bound, codes[i] == KLSM_OK));
    }
    check("each by its export", stub_asked(STUB_TRY_DELETE_MIN) == 6 && stub_asked(STUB_TRY_DELETE_MIN_ALONE) == 6 &&
                                    stub_asked(STUB_TRY_SHARE) == 6 && stub_asked(STUB_TRY_BOUND) == 6 &&
                                    stub_asked(STUB_TRY_REST) == 6);
}

int main(void) {
    hands_on(klsm_try_delete_min);
    hands_on(klsm_try_delete_min_alone);
    stub_begin();
    calls_write_with_ok_alone();
    return check_status();
}
