/* The inline functions of klsm.h over the library of stub.c: what they hand on, and what they answer.
 * options.c and waiting.c have more of klsm_open_with and of the calls that wait. */
#include "check.h"
#include "stub.h"
#include <string.h>

static klsm_queue queue;
static klsm_item item;
static uint64_t moved;
static klsm_dual_bound bound;

static const struct {
    int32_t code;
    const char *text;
} codes[] = {
    {KLSM_OK, "done"},
    {KLSM_NOTHING, "no item was found"},
    {KLSM_BUSY, "another member holds a lock"},
    {KLSM_FULL, "the shared part has no room"},
    {KLSM_NO_MEMORY, "out of memory"},
    {KLSM_SPENT, "the member has made all its insertions"},
    {KLSM_NOT_OPEN, "not open"},
    {KLSM_OPEN, "open already"},
    {KLSM_BAD_COUNT, "not 1 to 64 threads"},
    {KLSM_BAD_K, "k is above 1024"},
    {KLSM_BAD_PICK, "no such pick"},
    {KLSM_SHARED, "the queue has another owner"},
    {KLSM_BAD_REFILL, "the refill is above k"},
    {KLSM_STOPPED, "the work was stopped"},
    {KLSM_MISCOUNTED, "more work was closed than was opened"},
    {KLSM_BAD_VERSION, "the library is of another version than klsm.h"},
    {KLSM_MISALIGNED, "the queue is not aligned to 128 bytes"},
    {KLSM_MISALIGNED + 1, "unknown code"},
    {-1, "unknown code"},
};

enum { CODES = sizeof codes / sizeof codes[0], MEMBER = 3 };

static klsm_member *member(void) { return &queue.members[MEMBER]; }
static uint64_t address(const void *at) { return (uint64_t)(uintptr_t)at; }

static void texts(void) {
    for (int i = 0; i < CODES; i++)
        check(codes[i].text, strcmp(klsm_text(codes[i].code), codes[i].text) == 0);
}

/* Whether a call was made so often, each time with these arguments. */
static int was_asked(enum stub_call call, uint64_t times, uint64_t first, uint64_t second, uint64_t third) {
    return stub_asked(call) == times && stub_repeats(call) && stub_argument(call, 0) == first &&
           stub_argument(call, 1) == second && stub_argument(call, 2) == third;
}

/* The calls of a member, of which each that waits is made again until a lock is free. */
static int32_t insert(void) { return klsm_insert(member(), 5, 6); }
static int32_t try_insert(void) { return klsm_try_insert(member(), 5, 6); }
static int32_t delete_min(void) { return klsm_delete_min(member(), &item); }
static int32_t try_delete_min(void) { return klsm_try_delete_min(member(), &item); }
static int32_t delete_min_alone(void) { return klsm_delete_min_alone(member(), &item); }
static int32_t try_delete_min_alone(void) { return klsm_try_delete_min_alone(member(), &item); }
static int32_t share(void) { return klsm_share(member(), &moved); }
static int32_t try_share(void) { return klsm_try_share(member(), &moved); }
static int32_t find_bound(void) { return klsm_bound(member(), &bound); }
static int32_t try_bound(void) { return klsm_try_bound(member(), &bound); }
static int32_t rest(void) { return klsm_rest(member()); }
static int32_t try_rest(void) { return klsm_try_rest(member()); }

/* Their exports. */
static const enum stub_call exports[] = {STUB_TRY_INSERT, STUB_TRY_DELETE_MIN, STUB_TRY_DELETE_MIN_ALONE,
                                         STUB_TRY_SHARE, STUB_TRY_BOUND, STUB_TRY_REST};
enum { EXPORTS = sizeof exports / sizeof exports[0] };

/* The answer of such a call where a lock is held for so many tries. */
static int32_t after(int32_t (*call)(void), uint64_t held, int32_t code) {
    stub_begin();
    for (int i = 0; i < EXPORTS; i++) {
        stub_hold(exports[i], held);
        stub_answer(exports[i], (uint64_t)code);
    }
    memset(&item, 0, sizeof item);
    moved = 7;
    bound = (klsm_dual_bound){7, 8, 9};
    return call();
}

/* Whether this export alone was called, so often, each time with the member and these arguments. */
static int calls_alone(enum stub_call call, uint64_t times, uint64_t second, uint64_t third) {
    uint64_t all = 0;
    for (int i = 0; i < EXPORTS; i++)
        all += stub_asked(exports[i]);
    return all == times && was_asked(call, times, address(member()), second, third);
}

static int inserts(uint64_t times) { return calls_alone(STUB_TRY_INSERT, times, 5, 6); }
static int deletes(uint64_t times) { return calls_alone(STUB_TRY_DELETE_MIN, times, address(&item), 0); }
static int deletes_alone(uint64_t times) { return calls_alone(STUB_TRY_DELETE_MIN_ALONE, times, address(&item), 0); }
static int shares(uint64_t times) { return calls_alone(STUB_TRY_SHARE, times, address(&moved), 0); }
static int bounds(uint64_t times) { return calls_alone(STUB_TRY_BOUND, times, address(&bound), 0); }
static int rests(uint64_t times) { return calls_alone(STUB_TRY_REST, times, 0, 0); }

/* Whether the bound has this number and the next two. */
static int bound_is(uint64_t first) {
    return bound.queue == first && bound.work == first + 1 && bound.items == first + 2;
}
static int has_item(int32_t code) {
    int is_written = item.key == 101 && item.load == 102 && item.number == 103 && item.owner == 104;
    return is_written == (code == KLSM_OK) && (is_written || item.key == 0) && moved == 7 && bound_is(7);
}
static int has_count(int32_t code) {
    return moved == (code == KLSM_OK ? 105 : 7) && item.key == 0 && bound_is(7);
}
static int has_bound(int32_t code) {
    return bound_is(code == KLSM_OK ? 106 : 7) && moved == 7 && item.key == 0;
}
static int has_none(int32_t code) {
    (void)code;
    return moved == 7 && item.key == 0 && bound_is(7);
}

/* What a call asks of the library, and what it writes with a code. */
static const struct {
    const char *name;
    int32_t (*waits)(void), (*tries)(void);
    int (*asks)(uint64_t times);
    int (*wrote)(int32_t code);
} calls[] = {
    {"insert", insert, try_insert, inserts, has_none},
    {"delete_min", delete_min, try_delete_min, deletes, has_item},
    {"delete_min_alone", delete_min_alone, try_delete_min_alone, deletes_alone, has_item},
    {"share", share, try_share, shares, has_count},
    {"bound", find_bound, try_bound, bounds, has_bound},
    {"rest", rest, try_rest, rests, has_none},
};

static void waiting_calls(void) {
    const uint64_t held[] = {0, 1, 2, 45};
    for (int call = 0; call < EXPORTS; call++)
        for (int i = 0; i < CODES; i++)
            for (int j = 0; j < 4 && codes[i].code != KLSM_BUSY; j++) {
                check_code(calls[call].name, after(calls[call].waits, held[j], codes[i].code), codes[i].code);
                check("waits for this code, by as many tries as it takes", calls[call].asks(held[j] + 1));
                check("and writes with KLSM_OK alone", calls[call].wrote(codes[i].code));
            }
}

static void calls_that_do_not_wait(void) {
    for (int call = 0; call < EXPORTS; call++) {
        for (int i = 0; i < CODES; i++) {
            if (codes[i].code == KLSM_BUSY)
                continue;
            check_code(calls[call].name, after(calls[call].tries, 0, codes[i].code), codes[i].code);
            check("has this code by one try", calls[call].asks(1) && calls[call].wrote(codes[i].code));
        }
        check_code(calls[call].name, after(calls[call].tries, 1, KLSM_OK), KLSM_BUSY);
        check("meets a held lock, once, and writes nothing", calls[call].asks(1) && calls[call].wrote(KLSM_BUSY));
    }
}

/* Whether the last opening that was made has these numbers behind the queue. */
static int has_opened(enum stub_call call, klsm_options numbers) {
    return was_asked(call, 1, address(&queue), numbers.threads, numbers.k) &&
           stub_argument(call, 3) == numbers.pick && stub_argument(call, 4) == numbers.seed &&
           stub_argument(call, 5) == numbers.refill && stub_argument(call, 6) == numbers.balance;
}

static void openings(void) {
    klsm_options numbers = {3, 40, KLSM_RANDOM, UINT64_C(7) << 40, 30, 20};
    stub_begin();
    check_code("open_with", klsm_open_with(&queue, &numbers), KLSM_OK);
    check("all numbers arrive", has_opened(STUB_OPEN_WITH_BALANCE, numbers) && stub_asked(STUB_OPEN) == 0);
    klsm_drop(&queue);
    check("one drop for one opening", stub_asked(STUB_DROP) == 1 && stub_queues() == 0);
    stub_begin();
    check_code("open_default", klsm_open_default(&queue, 4), KLSM_OK);
    klsm_options defaults = {4, KLSM_DEFAULT_K, KLSM_FIRST, 0, KLSM_DEFAULT_REFILL, KLSM_DEFAULT_BALANCE};
    check("the defaults arrive", has_opened(STUB_OPEN_WITH_BALANCE, defaults));
    klsm_drop(&queue);
    stub_begin();
    check_code("open_with_refill", klsm_open_with_refill(&queue, 3, 40, KLSM_RANDOM, UINT64_C(7) << 40, 30), KLSM_OK);
    numbers.balance = 0;
    check("it has no balance", has_opened(STUB_OPEN_WITH_BALANCE, numbers) && stub_asked(STUB_OPEN) == 0);
    klsm_drop(&queue);
    for (int i = 1; i < CODES; i++) {
        stub_begin();
        stub_answer(STUB_OPEN_WITH_BALANCE, (uint64_t)codes[i].code);
        check_code("open_with has this code", klsm_open_with(&queue, &numbers), codes[i].code);
        check("and opens and drops nothing", stub_asked(STUB_OPEN_WITH_BALANCE) == 1 && stub_queues() == 0 &&
                                                 stub_asked(STUB_DROP) == 0);
    }
}

/* The openings that compare are refused with this code before the library is asked. */
static void is_refused(klsm_queue *at, int32_t code) {
    const klsm_options options = klsm_defaults(4);
    check_code("open_with", klsm_open_with(at, &options), code);
    check_code("open_default", klsm_open_default(at, 4), code);
    check("the library is not asked", stub_asked(STUB_OPEN_WITH_BALANCE) + stub_asked(STUB_OPEN) == 0);
}

static void versions(void) {
    const uint32_t others[] = {0, KLSM_ABI - 1, KLSM_ABI + 1, UINT32_MAX};
    for (int i = 0; i < 4; i++) {
        stub_begin();
        stub_answer(STUB_ABI, others[i]);
        is_refused(&queue, KLSM_BAD_VERSION);
    }
    stub_begin();
    stub_answer(STUB_VERSION, KLSM_VERSION_NUMBER - 1);
    is_refused(&queue, KLSM_BAD_VERSION);
    stub_answer(STUB_VERSION, KLSM_VERSION_NUMBER + 1);
    check_code("a later library will do", klsm_open_default(&queue, 4), KLSM_OK);
    klsm_drop(&queue);
}

static void memory_of_queues(void) {
    static union {
        _Alignas(128) char bytes[sizeof(klsm_queue) + 128];
        klsm_queue queue;
    } room;
    for (size_t off = 8; off < 128; off *= 2) {
        stub_begin();
        is_refused((klsm_queue *)(void *)(room.bytes + off), KLSM_MISALIGNED);
    }
    klsm_queue *made[4]; /* so that they begin in different places */
    for (int i = 0; i < 4; i++) {
        made[i] = klsm_new();
        check_or_stop("a new queue", made[i] != NULL);
        check("is aligned", address(made[i]) % 128 == 0);
        check("and closed", memcmp(made[i], &room.queue, sizeof room.queue) == 0);
    }
    for (int i = 0; i < 4; i++) {
        stub_begin();
        check_code("it is opened", klsm_open_default(made[i], 4), KLSM_OK);
        uint64_t at = address(made[i]);
        klsm_free(made[i]);
        check("and dropped where it ends", stub_asked(STUB_DROP) == 1 && stub_argument(STUB_DROP, 0) == at);
    }
    klsm_free(NULL);
    check("none is not dropped", stub_asked(STUB_DROP) == 1);
}

/* Each member of an open queue has made 9 insertions and 4 deletions. */
static void counts(void) {
    stub_begin();
    stub_answer(STUB_INSERTED, 9);
    stub_answer(STUB_DELETED, 4);
    check("nothing is left in a closed queue", klsm_left(&queue) == 0);
    check_code("open", klsm_open(&queue, KLSM_MAX_THREADS, 40, KLSM_LAST, 7), KLSM_OK);
    klsm_options numbers = {KLSM_MAX_THREADS, 40, KLSM_LAST, 7, 0, 0};
    check("its numbers arrive", has_opened(STUB_OPEN, numbers));
    check("what is left is that of each member", klsm_left(&queue) == KLSM_MAX_THREADS * 5);
    check("each is asked", stub_asked(STUB_INSERTED) == 2 * KLSM_MAX_THREADS &&
                               stub_asked(STUB_DELETED) == 2 * KLSM_MAX_THREADS);
    klsm_account account = {0, 0, 0};
    check_code("close", klsm_close(&queue, &account, &item, 0), KLSM_OK);
    klsm_drop(&queue);
    check("a closed queue is not dropped a second time", stub_queues() == 0);
}

/* Counts the items that come in order, with what was handed on beside. */
static uint64_t seen;
static void see(void *context, const klsm_item *it) { seen += context == &queue && it->key == seen; }

/* Opens three members with five items each, and what a closing answers. */
static void begin_closing(int32_t code) {
    stub_begin();
    stub_answer(STUB_INSERTED, 9);
    stub_answer(STUB_DELETED, 4);
    stub_leave(27, 12, 15);
    check_or_stop("open", klsm_open(&queue, 3, 40, KLSM_FIRST, 0) == KLSM_OK);
    stub_answer(STUB_CLOSE, (uint64_t)code);
    seen = 0;
}

static int has_closed(uint64_t room) {
    return stub_asked(STUB_CLOSE) == 1 && stub_argument(STUB_CLOSE, 0) == address(&queue) &&
           stub_argument(STUB_CLOSE, 2) != 0 && stub_argument(STUB_CLOSE, 3) == room;
}

static void closings(void) {
    klsm_account account = {0, 0, 0};
    begin_closing(KLSM_OK);
    check_code("close into no array", klsm_close(&queue, &account, NULL, 0), KLSM_OK);
    check("the library gets one all the same", has_closed(0) && account.left == 15);
    begin_closing(KLSM_OK);
    check_code("close into an array", klsm_close(&queue, &account, &item, 1), KLSM_OK);
    check("the library gets it", has_closed(1) && stub_argument(STUB_CLOSE, 2) == address(&item));
    begin_closing(KLSM_OK);
    check_code("close, each by each", klsm_close_each(&queue, &account, see, &queue), KLSM_OK);
    check("each comes once, in order", has_closed(15) && seen == 15);
    for (int i = 1; i < CODES; i++) {
        begin_closing(codes[i].code);
        check_code("close, each by each, has this code", klsm_close_each(&queue, &account, see, &queue), codes[i].code);
        check("and hands nothing on", has_closed(15) && seen == 0);
        klsm_drop(&queue);
    }
}

/* The stub gives one item after another, all with one key, and at last says that the member is not open. */
static void see_any(void *context, const klsm_item *it) { seen += context == &queue && it->key == 101; }

static void drops(void) {
    begin_closing(KLSM_OK);
    klsm_drop_each(&queue, see_any, &queue);
    check("each that is deleted is handed on", seen > 0 && seen + 1 == stub_asked(STUB_TRY_DELETE_MIN));
    check("by member 0", stub_argument(STUB_TRY_DELETE_MIN, 0) == address(&queue.members[0]));
    check("and the queue is dropped, once", stub_asked(STUB_DROP) == 1 && stub_queues() == 0);
}

/* Whether so many pieces of work are open, and so many were given up. */
static klsm_work work;
static int counts_are(uint64_t left, uint64_t given_up) {
    return klsm_work_left(&work) == left && klsm_work_given_up(&work) == given_up;
}

/* What klsm_work_next answers where the queue is empty, and whether it asks once: else it waits as long as it takes. */
static void next_of_none(const char *name, int32_t expected, int asks_once) {
    stub_begin();
    stub_answer(STUB_TRY_DELETE_MIN, KLSM_NOTHING);
    memset(&item, 0, sizeof item);
    check_code(name, klsm_work_next(&work, member(), &item), expected);
    check("asked as often as it takes", asks_once ? deletes(1) : stub_asked(STUB_TRY_DELETE_MIN) > 100);
    check("and writes no item", item.key == 0);
}

static void ends_of_work(void) {
    memset(&work, 0, sizeof work);
    next_of_none("no work is open", KLSM_NOTHING, 1);
    klsm_work_open(&work, 5);
    check("five are open", counts_are(5, 0));
    klsm_work_done(&work);
    klsm_work_done(&work);
    klsm_work_give_up(&work);
    check("two are done, and one is given up", counts_are(2, 1));
    next_of_none("work is open, and is waited for", KLSM_NOT_OPEN, 0);
    klsm_work_done(&work);
    next_of_none("one is open", KLSM_NOT_OPEN, 0);
    klsm_work_done(&work);
    check("none is open", counts_are(0, 1));
    next_of_none("it is the end", KLSM_NOTHING, 1);
    klsm_work_done(&work);
    check("one too many is closed", counts_are(0, 1));
    next_of_none("the count is wrong", KLSM_MISCOUNTED, 1);
    klsm_work_open(&work, 3);
    check("not stopped so far", !klsm_work_is_stopped(&work));
    check_code("who finds nothing waits", klsm_work_end(&work), KLSM_OK);
    klsm_work_stop(&work);
    check("a stop leaves the counts", klsm_work_is_stopped(&work) && counts_are(2, 1));
    stub_begin();
    check_code("a stop", klsm_work_next(&work, member(), &item), KLSM_STOPPED);
    check("no item is asked for", stub_asked(STUB_TRY_DELETE_MIN) == 0);
    klsm_work_done(&work);
    klsm_work_done(&work);
    check_code("nor is it the end of the work where the last one is closed then", klsm_work_end(&work), KLSM_STOPPED);
}

static int32_t insert_work(void) { return klsm_work_insert(&work, member(), 5, 6); }
static int32_t next_work(void) { return klsm_work_next(&work, member(), &item); }

static void pieces_of_work(void) {
    memset(&work, 0, sizeof work);
    for (int i = 0; i < CODES; i++) {
        int32_t code = codes[i].code;
        if (code == KLSM_BUSY)
            continue;
        check_code("an insertion of work waits for this code", after(insert_work, 2, code), code);
        check("and opens a piece where it is done", inserts(3) && counts_are(code == KLSM_OK, 0));
        if (code == KLSM_OK)
            klsm_work_done(&work);
        klsm_work_open(&work, 1);
        if (code != KLSM_NOTHING) {
            check_code("the next piece waits for this code", after(next_work, 2, code), code);
            check("and stays open", deletes(3) && has_item(code) && counts_are(1, 0));
        }
        klsm_work_done(&work);
    }
}

int main(void) {
    stub_begin();
    check("the version is the library's", klsm_abi() == KLSM_ABI && klsm_version() == KLSM_VERSION_NUMBER);
    texts();
    waiting_calls();
    calls_that_do_not_wait();
    openings();
    versions();
    memory_of_queues();
    counts();
    closings();
    drops();
    ends_of_work();
    pieces_of_work();
    return check_status();
}
