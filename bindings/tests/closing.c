/* Closings that hand on what is left: into no array, one by one in order, and one by one as it comes. */
#include "check.h"
#include <string.h>

enum { MEMBERS = 3, EACH = 50, ALL = MEMBERS * EACH };

static klsm_queue queue;
static klsm_account account;

/* What was handed on. */
typedef struct seen {
    size_t count;
    int ascends;
    uint64_t last;
    unsigned char of[ALL]; /* how often each load came */
} seen;

static void see(void *context, const klsm_item *item) {
    seen *all = context;
    all->ascends = all->ascends && (all->count == 0 || all->last <= item->key);
    all->last = item->key;
    all->count++;
    if (item->load < ALL)
        all->of[item->load]++;
}

/* Opens a queue whose members have inserted keys in no order, and of which the first has deleted one. */
static uint64_t begin(void) {
    klsm_item item;
    check_or_stop("open", klsm_open_with_refill(&queue, MEMBERS, 8, KLSM_FIRST, 0, 8) == KLSM_OK);
    for (uint64_t i = 0; i < ALL; i++)
        check_or_stop("insert", klsm_insert(&queue.members[i % MEMBERS], i * 7919 % 101, i) == KLSM_OK);
    check_or_stop("delete", klsm_delete_min(&queue.members[0], &item) == KLSM_OK);
    return item.load;
}

/* Whether each item but the deleted one was handed on, once. */
static int has_all(const seen *all, uint64_t deleted) {
    int once = all->count == ALL - 1;
    for (uint64_t i = 0; i < ALL; i++)
        once = once && all->of[i] == (i != deleted);
    return once;
}

static int is_closed(void) {
    for (size_t t = 0; t < KLSM_MAX_THREADS; t++)
        if (klsm_inserted(&queue.members[t]) > 0)
            return 0;
    return klsm_close(&queue, &account, NULL, 0) == KLSM_NOT_OPEN;
}

int main(void) {
    begin();
    check_code("close into no array", klsm_close(&queue, &account, NULL, 0), KLSM_OK);
    check("the account", account.inserted == ALL && account.deleted == 1 && account.left == ALL - 1);
    check("it is closed", is_closed());

    seen all = {.ascends = 1};
    uint64_t deleted = begin();
    check_code("close, each by each", klsm_close_each(&queue, &account, see, &all), KLSM_OK);
    check("the account", account.inserted == ALL && account.deleted == 1 && account.left == ALL - 1);
    check("all that was left comes once, ascending", has_all(&all, deleted) && all.ascends);
    check("it is closed", is_closed());
    memset(&account, 7, sizeof account);
    all = (seen){.ascends = 1};
    check_code("close a second time", klsm_close_each(&queue, &account, see, &all), KLSM_NOT_OPEN);
    check("nothing comes, and no account", all.count == 0 && account.left == UINT64_C(0x0707070707070707));

    deleted = begin();
    klsm_drop_each(&queue, see, &all);
    check("drop, each by each: all that was left comes once", has_all(&all, deleted));
    check("it is closed", is_closed());
    all = (seen){.ascends = 1};
    klsm_drop_each(&queue, see, &all);
    check("a closed queue has nothing to drop", all.count == 0);
    check_or_stop("open an empty one", klsm_open(&queue, 2, 8, KLSM_FIRST, 0) == KLSM_OK);
    check_code("close it", klsm_close_each(&queue, &account, see, &all), KLSM_OK);
    check("nothing comes", all.count == 0 && account.inserted == 0);
    return check_status();
}
