/* The waiting calls of klsm.h over calls that are busy, or find nothing, for so many tries: those of stub.c. This
 * program has its own sched_yield and select. */
#include "check.h"
#include "stub.h"
#include <string.h>

static klsm_queue queue = KLSM_QUEUE_CLOSED;
static klsm_work work;
static int yields, sleeps, stopping_sleep;
static long lengths_of[32];
static uint64_t open_in_sleep;

int sched_yield(void) {
    yields++;
    return 0;
}

int select(int count, fd_set *reads, fd_set *writes, fd_set *excepts, struct timeval *length) {
    if (count != 0 || reads || writes || excepts || length->tv_sec != 0 || sleeps == 32)
        return -1;
    lengths_of[sleeps++] = length->tv_usec;
    open_in_sleep = klsm_work_left(&work);
    if (sleeps == stopping_sleep) {
        klsm_work_stop(&work);
        klsm_work_done(&work);
    }
    return 0;
}

static void begin(uint32_t call, int count, int32_t last) {
    stub_begin();
    stub_hold(call, (uint64_t)count);
    stub_answer(call, (uint64_t)last);
    yields = sleeps = stopping_sleep = 0;
}

/* Whether the call was made once more than it was busy, each time by member 3. */
static int has_tried(uint32_t call, int count) {
    return stub_asked(call) == (uint64_t)count + 1 && stub_repeats(call) &&
           stub_argument(call, 0) == (uintptr_t)&queue.members[3];
}

/* Of so many pauses, those from the eighth on let other threads run, and those from the 201st on sleep, each for so
 * many microseconds at most: at first for 50, and then for twice as long. */
static int has_waited(int count, long most) {
    int awake = count < 200 ? count : 200, as_told = 1;
    long length = 50;
    for (int i = 0; i < sleeps; i++, length = length < most ? 2 * length : most)
        as_told = as_told && lengths_of[i] == length;
    return as_told && yields == (awake > 7 ? awake - 7 : 0) && sleeps == count - awake;
}

/* Who waits for work, and is stopped in its sleep, asks so often before. */
static void is_stopped_in_its_sleep(int sleep) {
    klsm_item item = {7, 7, 7, 7};
    begin(STUB_TRY_DELETE_MIN, 0, KLSM_NOTHING);
    memset(&work, 0, sizeof work);
    klsm_work_open(&work, 1);
    stopping_sleep = sleep;
    check_code("a stop ends the waiting", klsm_work_next(&work, &queue.members[3], &item), KLSM_STOPPED);
    check("at once", sleeps == sleep && stub_asked(STUB_TRY_DELETE_MIN) == (uint64_t)(200 + sleep) && item.key == 7);
    check("and each sleep is longer, up to 400 microseconds", has_waited(200 + sleep, 400));
}

/* An insertion of work that waits for so long that it sleeps. */
static void opens_before_it_inserts(int32_t code, uint64_t left) {
    begin(STUB_TRY_INSERT, 202, code);
    memset(&work, 0, sizeof work);
    check_code("an insertion of work waits", klsm_work_insert(&work, &queue.members[3], 5, 6), code);
    check("and has opened its piece before", sleeps == 2 && open_in_sleep == 1 && has_tried(STUB_TRY_INSERT, 202));
    check("which is open where it was inserted", klsm_work_left(&work) == left && klsm_work_given_up(&work) == 0);
}

int main(void) {
    klsm_item item = {0, 0, 0, 0};
    uint64_t moved = 0;
    klsm_dual_bound bound = {0, 0, 0};
    int once = 1, waited = 1, told = 1;
    for (int count = 0; count < 220; count++) {
        begin(STUB_TRY_INSERT, count, KLSM_FULL);
        once = once && klsm_insert(&queue.members[3], 5, 6) == KLSM_FULL && has_tried(STUB_TRY_INSERT, count);
        waited = waited && has_waited(count, 50);
        told = told && stub_argument(STUB_TRY_INSERT, 1) == 5 && stub_argument(STUB_TRY_INSERT, 2) == 6;
        begin(STUB_TRY_DELETE_MIN, count, KLSM_OK);
        item.key = 0;
        once = once && klsm_delete_min(&queue.members[3], &item) == KLSM_OK &&
               has_tried(STUB_TRY_DELETE_MIN, count) && item.key == 101;
        waited = waited && has_waited(count, 50);
        begin(STUB_TRY_DELETE_MIN_ALONE, count, KLSM_OK);
        item.key = 0;
        once = once && klsm_delete_min_alone(&queue.members[3], &item) == KLSM_OK &&
               has_tried(STUB_TRY_DELETE_MIN_ALONE, count) && item.key == 101;
        waited = waited && has_waited(count, 50);
        begin(STUB_TRY_SHARE, count, KLSM_OK);
        moved = 0;
        once = once && klsm_share(&queue.members[3], &moved) == KLSM_OK && has_tried(STUB_TRY_SHARE, count) &&
               moved == 105;
        waited = waited && has_waited(count, 50);
        begin(STUB_TRY_BOUND, count, KLSM_OK);
        bound.queue = 0;
        once = once && klsm_bound(&queue.members[3], &bound) == KLSM_OK && has_tried(STUB_TRY_BOUND, count) &&
               bound.queue == 106;
        waited = waited && has_waited(count, 50);
        begin(STUB_TRY_REST, count, KLSM_OK);
        once = once && klsm_rest(&queue.members[3]) == KLSM_OK && has_tried(STUB_TRY_REST, count);
        waited = waited && has_waited(count, 50);
    }
    for (int sleep = 1; sleep < 10; sleep++)
        is_stopped_in_its_sleep(sleep);
    opens_before_it_inserts(KLSM_OK, 1);
    opens_before_it_inserts(KLSM_FULL, 0);
    check("a try after each pause, until one is not busy", once);
    check("each try has the arguments", told);
    check("other threads run from the eighth pause on, and the caller sleeps from the 201st on", waited);

    const uint32_t lengths[] = {50, 100, 200, 400, 800};
    klsm_pause pause = klsm_first_pause();
    int as_told = 1, lasted = 1;
    for (uint32_t i = 0; i < 20; i++) {
        as_told = as_told && pause.length == lengths[i < 4 ? i : 4] && pause.misses == i;
        uint64_t begin = __builtin_ia32_rdtsc();
        uint32_t length = pause.length;
        klsm_wait(&pause);
        lasted = lasted && __builtin_ia32_rdtsc() - begin >= UINT64_C(3) * length;
    }
    check("the lengths of the pauses", as_told);
    check("each lasts as long by the time-stamp counter", lasted);
    return check_status();
}
