/* A crew that ends by a count of open work: once all is done, where pieces are given up or refused, where it is stopped,
 * and where more is closed than was opened. ending.c has how soon it ends. */
#include "check.h"
#include <pthread.h>

enum { THREADS = 4, DEPTH = 14 };

static klsm_queue queue;
static klsm_work work;

/* What a thread did, which it wrote without a lock: seen by all once the work is done. */
typedef struct share {
    klsm_member *member, *into; /* what it deletes and inserts by */
    uint64_t done;
    uint64_t depth; /* pieces of this depth are given up, if it is not 0 */
    int32_t end;    /* the last code */
    char apart[128];
} share;

static share shares[THREADS];

/* The crew is stopped once so many pieces are done, if it is not 0. */
static uint64_t enough, done_by_all;

static void begin(size_t k, size_t refill, uint32_t balance) {
    memset(&work, 0, sizeof work);
    check_or_stop("open",
                  klsm_open_with_balance(&queue, THREADS, k, KLSM_FIRST, 0, refill, balance) == KLSM_OK);
    for (size_t t = 0; t < THREADS; t++)
        shares[t] = (share){.member = &queue.members[t], .into = &queue.members[t]};
}

/* Whether what follows from a piece is open, where the piece is to be done at all. */
static int follow(share *mine, const klsm_item *item) {
    if (mine->depth != 0 && item->load == mine->depth)
        return 0;
    for (int child = 0; child < 2 && item->load < DEPTH; child++)
        if (klsm_work_insert(&work, mine->into, item->load + 1, item->load + 1) != KLSM_OK)
            return 0;
    return 1;
}

static void *run(void *arg) {
    share *mine = arg;
    klsm_item item;
    while ((mine->end = klsm_work_next(&work, mine->member, &item)) == KLSM_OK) {
        if (!follow(mine, &item)) {
            klsm_work_give_up(&work);
            continue;
        }
        mine->done++;
        klsm_work_done(&work);
        if (enough != 0 && __atomic_add_fetch(&done_by_all, 1, __ATOMIC_RELAXED) == enough)
            klsm_work_stop(&work);
    }
    return NULL;
}

/* How many pieces are done. */
static uint64_t done(void) {
    uint64_t done = 0;
    for (size_t t = 0; t < THREADS; t++)
        done += shares[t].done;
    return done;
}

/* How many were done that this thread saw when it saw the end, without a join. */
static uint64_t seen;

static void run_from_root(void) {
    pthread_t crew[THREADS];
    check_or_stop("the root", klsm_work_insert(&work, shares[0].member, 0, 0) == KLSM_OK);
    for (size_t t = 1; t < THREADS; t++)
        check_or_stop("a thread", pthread_create(&crew[t], NULL, run, &shares[t]) == 0);
    run(&shares[0]);
    seen = shares[0].end == KLSM_NOTHING ? done() : 0;
    for (size_t t = 1; t < THREADS; t++)
        pthread_join(crew[t], NULL);
}

/* Whether all threads ended with this code. */
static int ended(int32_t code) {
    int all = 1;
    for (size_t t = 0; t < THREADS; t++)
        all = all && shares[t].end == code;
    return all;
}

static void ends(size_t k, size_t refill, uint32_t balance) {
    klsm_account account;
    begin(k, refill, balance);
    run_from_root();
    check_or_stop("close", klsm_close(&queue, &account, NULL, 0) == KLSM_OK);
    char name[96];
    snprintf(name, sizeof name, "k = %zu, refill %zu, balance %u: all work is done once", k, refill, balance);
    check(name, ended(KLSM_NOTHING) && done() == (UINT64_C(2) << DEPTH) - 1 && account.deleted == done() &&
                    account.left == 0);
    check("what the others counted is seen at the end", seen == done());
    check("none is open, and none was given up", klsm_work_left(&work) == 0 && klsm_work_given_up(&work) == 0);
}

static void ends_where_pieces_are_given_up(void) {
    begin(64, 16, 0);
    for (size_t t = 0; t < THREADS; t++)
        shares[t].depth = 3;
    run_from_root();
    klsm_drop(&queue);
    check("what is given up is waited for by nobody", ended(KLSM_NOTHING) && done() == 7);
    check("and is counted", seen == 7 && klsm_work_given_up(&work) == 8 && klsm_work_left(&work) == 0);
}

/* A thread that finds all children of a piece refused gives it up, and the others go on. */
static void ends_where_insertions_are_refused(void) {
    begin(64, 16, 0);
    for (size_t t = 0; t < THREADS; t++)
        shares[t].into = &queue.members[THREADS]; /* which is not open */
    run_from_root();
    klsm_drop(&queue);
    check("what is refused opens nothing", ended(KLSM_NOTHING) && done() == 0);
    check("and its parent is given up", klsm_work_given_up(&work) == 1 && klsm_work_left(&work) == 0);
}

static void ends_where_it_is_stopped(void) {
    klsm_item item;
    begin(64, 16, 0);
    enough = 1000;
    run_from_root();
    enough = 0;
    check("a crew is stopped in its work", ended(KLSM_STOPPED) && klsm_work_is_stopped(&work));
    check("what is open stays so", klsm_work_left(&work) == klsm_left(&queue));
    check_code("who asks later is told too", klsm_work_next(&work, shares[0].member, &item), KLSM_STOPPED);
    klsm_drop(&queue);
}

static void tells_a_wrong_count(void) {
    klsm_item item = {7, 7, 7, 7};
    begin(64, 16, 0);
    check_code("where no work was opened the end is seen at once", klsm_work_next(&work, shares[0].member, &item),
               KLSM_NOTHING);
    klsm_work_done(&work);
    check_code("more is closed than was opened", klsm_work_next(&work, shares[0].member, &item), KLSM_MISCOUNTED);
    check("and then none is left", klsm_work_left(&work) == 0 && item.key == 7);
    klsm_drop(&queue);
    check_code("a member that is not open", klsm_work_next(&work, shares[0].member, &item), KLSM_NOT_OPEN);
    check_code("an insertion that is refused", klsm_work_insert(&work, shares[0].member, 1, 1), KLSM_NOT_OPEN);
    klsm_work_open(&work, 3);
    check("opens no piece", klsm_work_left(&work) == 2);
}

int main(void) {
    ends(0, 0, 0);
    ends(1, 1, 0);
    ends(64, 0, 0);
    ends(64, 16, 0);
    ends(64, 16, 1);
    ends(1024, 64, 16);
    ends_where_pieces_are_given_up();
    ends_where_insertions_are_refused();
    ends_where_it_is_stopped();
    tells_a_wrong_count();
    return check_status();
}
