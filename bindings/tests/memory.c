/* What the calls answer where malloc gives nothing, and which of them take memory.
 * Linked with -Wl,--wrap=malloc,--wrap=realloc,--wrap=free. */
#include "check.h"
#include <limits.h>
#include <string.h>

void *__real_malloc(size_t size);
void *__real_realloc(void *at, size_t size);
void __real_free(void *at);
void *__wrap_malloc(size_t size);
void *__wrap_realloc(void *at, size_t size);
void __wrap_free(void *at);

static long fails_at = -1; /* the allocation of this number, from 0, is refused */
static long fails_from = LONG_MAX; /* and all from this one on */
static int refuses_all = 0;
static long allocations, blocks; /* since the last count, and now */

static int refuses(void) {
    long number = allocations++;
    return number == fails_at || number >= fails_from || refuses_all;
}

void *__wrap_malloc(size_t size) {
    if (refuses())
        return NULL;
    blocks++;
    return __real_malloc(size);
}

void *__wrap_realloc(void *at, size_t size) {
    if (refuses())
        return NULL;
    blocks += at == NULL;
    return __real_realloc(at, size);
}

void __wrap_free(void *at) {
    blocks -= at != NULL;
    __real_free(at);
}

enum { THREADS = 4, ITEMS = 3000 };
static klsm_queue queue, before;
static klsm_item left[ITEMS + 1], untouched;

static int is_same(void) { return memcmp(&before, &queue, sizeof queue) == 0; }

/* Opens with each allocation refused in turn. Answers how many there are. */
static long opening(size_t refill) {
    int32_t code = KLSM_NO_MEMORY;
    int codes = 1, bytes = 1, kept = 1;
    long tries = 0;
    memcpy(&before, &queue, sizeof queue);
    for (; code != KLSM_OK && tries < 1000; tries++) {
        long had = blocks;
        allocations = 0;
        fails_at = tries;
        code = klsm_open_with_refill(&queue, THREADS, 16, KLSM_RANDOM, 1, refill);
        fails_at = -1;
        if (code == KLSM_OK)
            break;
        codes = codes && code == KLSM_NO_MEMORY;
        bytes = bytes && is_same();
        kept = kept && blocks == had;
    }
    check("an opening takes memory", tries > 0);
    check("it is refused where one allocation is", codes && code == KLSM_OK);
    check("a refused opening changes no byte", bytes);
    check("and keeps no block", kept);
    return tries;
}

static uint64_t key_of(uint64_t i) { return i * 7919 % 1009; }

/* What refused insertions may keep for the next ones, in blocks: for each member a ring by which a union is handed over,
   and for the shared part its three lists. */
enum { RING = 2, LISTS = 3 };

/* Insertions, in each of which allocations are refused: for a third of them one alone, for the others all from one on. */
static void insertions(void) {
    int codes = 1, counts = 1;
    long refused = 0, kept = 0;
    for (uint64_t i = 0; i < ITEMS; i++) {
        klsm_member *member = &queue.members[i % THREADS];
        uint64_t number = i / THREADS;
        int is_alone = number % 3 == 0;
        int32_t code = KLSM_NO_MEMORY;
        for (long tries = is_alone ? number / 3 % 4 : 0; code == KLSM_NO_MEMORY && tries < 1000; tries++) {
            long had = blocks;
            allocations = 0;
            *(is_alone ? &fails_at : &fails_from) = tries;
            code = klsm_insert(member, key_of(i), i);
            fails_at = -1;
            fails_from = LONG_MAX;
            if (code != KLSM_NO_MEMORY)
                break;
            refused++;
            counts = counts && klsm_inserted(member) == number && klsm_left(&queue) == i;
            kept += blocks - had;
        }
        codes = codes && code == KLSM_OK;
    }
    check("some insertions are refused first", refused > 0);
    check("each is made once there is memory", codes);
    check("a refused insertion does not count", counts);
    check("all that are refused keep only a ring for each member and three lists", kept <= THREADS * RING + LISTS);
}

/* Sharings, in each of which allocations are refused from one on, each in turn: member 3 shares its own items, whichever
   they are. */
static void sharings(void) {
    klsm_member *member = &queue.members[3];
    uint64_t moved = UINT64_MAX, front = klsm_front(member);
    int codes = 1, unchanged = 1;
    int32_t code = KLSM_NO_MEMORY;
    long tries = 0, kept = 0;
    for (; code == KLSM_NO_MEMORY && tries < 1000; tries++) {
        long had = blocks;
        allocations = 0;
        fails_from = tries;
        code = tries % 2 == 0 ? klsm_share(member, &moved) : klsm_try_share(member, &moved);
        fails_from = LONG_MAX;
        if (code != KLSM_NO_MEMORY)
            break;
        kept += blocks - had;
        unchanged = unchanged && moved == UINT64_MAX && klsm_front(member) == front && klsm_left(&queue) == ITEMS;
    }
    codes = code == KLSM_OK && moved > 0 && moved <= 16;
    check("a sharing takes memory, and is made once there is some", tries > 0 && codes);
    check("those that are refused keep a ring at most", kept <= RING);
    check("and move and write nothing", unchanged);
    allocations = 0;
    check_code("a second one", klsm_share(member, &moved), KLSM_OK);
    check("finds nothing and takes none", moved == 0 && allocations == 0);
    check("what was shared is still there", klsm_left(&queue) == ITEMS);
}

/* Whether this holds, and nothing was asked of malloc since the last time. */
static int without(int holds) {
    holds = holds && allocations == 0;
    allocations = 0;
    return holds;
}

/* Calls that take no memory. Answers the loads of the two items that are deleted from the queue. */
static uint64_t calls_without(void) {
    klsm_item item;
    static klsm_queue closed, roomy;
    check_or_stop("open", klsm_open(&roomy, 2, 64, KLSM_FIRST, 0) == KLSM_OK);
    allocations = 0;
    refuses_all = 1;
    int codes = 1;
    for (uint64_t i = 0; i < 64; i++)
        codes = codes && klsm_try_insert(&roomy.members[1], i, i) == KLSM_OK;
    check("insertions into an own part with room", without(codes));
    for (uint64_t i = 0; i < 64; i++)
        codes = codes && klsm_try_delete_min(&roomy.members[1], &item) == KLSM_OK && item.key == i;
    check("deletions from it", without(codes));
    codes = klsm_insert(&roomy.members[1], 5, 5) == KLSM_OK && klsm_insert(&roomy.members[1], 4, 4) == KLSM_OK;
    codes = codes && klsm_delete_min(&roomy.members[0], &item) == KLSM_OK;
    check("a deletion of what another member keeps", without(codes));
    codes = klsm_delete_min(&queue.members[1], &item) == KLSM_OK;
    uint64_t gone = item.load;
    codes = codes && klsm_delete_min_alone(&queue.members[2], &item) == KLSM_OK;
    gone += item.load;
    check("deletions from the shared part", without(codes));
    codes = klsm_try_insert(&closed.members[0], 1, 1) == KLSM_NOT_OPEN;
    codes = codes && klsm_try_delete_min(&closed.members[0], &item) == KLSM_NOT_OPEN;
    codes = codes && klsm_open(&queue, 1, 1, KLSM_FIRST, 1) == KLSM_OPEN;
    codes = codes && klsm_open(&closed, KLSM_MAX_THREADS + 1, 1, KLSM_FIRST, 1) == KLSM_BAD_COUNT;
    check("calls that are refused for another reason", without(codes));
    klsm_dual_bound bound;
    codes = klsm_bound(&queue.members[1], &bound) == KLSM_OK && klsm_try_bound(&queue.members[2], &bound) == KLSM_OK;
    check("bounds", without(codes && bound.items == ITEMS - 2));
    codes = klsm_rest(&queue.members[1]) == KLSM_OK && klsm_try_rest(&queue.members[2]) == KLSM_OK;
    check("rests", without(codes));
    check("counts", without(klsm_left(&queue) == ITEMS - 2));
    klsm_drop(&roomy);
    check("drop", without(1));
    refuses_all = 0;
    return gone;
}

/* Closes with each allocation refused in turn, with what two deletions left. */
static void closing(uint64_t gone) {
    klsm_account account = {7, 8, 9};
    int codes = 1, bytes = 1, kept = 1, answers = 1;
    int32_t code = KLSM_NO_MEMORY;
    long tries = 0;
    memset(left, 0xa5, sizeof left);
    memcpy(&untouched, &left[0], sizeof untouched);
    memcpy(&before, &queue, sizeof queue);
    for (; code != KLSM_OK && tries < 1000; tries++) {
        long had = blocks;
        allocations = 0;
        fails_at = tries;
        code = klsm_close(&queue, &account, left, ITEMS + 1);
        fails_at = -1;
        if (code == KLSM_OK)
            break;
        codes = codes && code == KLSM_NO_MEMORY;
        bytes = bytes && is_same() && klsm_left(&queue) == ITEMS - 2;
        kept = kept && blocks == had;
        answers = answers && account.inserted == 7 && account.deleted == 8 && account.left == 9;
        for (size_t i = 0; i <= ITEMS; i++)
            answers = answers && memcmp(&left[i], &untouched, sizeof untouched) == 0;
    }
    check("a closing takes memory", tries > 0);
    check("it is refused where one allocation is", codes && code == KLSM_OK);
    check("a refused closing leaves the queue open", bytes);
    check("and keeps no block", kept);
    check("and leaves the account and the array", answers);
    check("the account", account.inserted == ITEMS && account.deleted == 2 && account.left == ITEMS - 2);
    uint64_t sum = gone;
    int each = 1;
    for (size_t i = 0; i < ITEMS - 2; i++) {
        sum += left[i].load;
        each = each && left[i].key == key_of(left[i].load) && left[i].owner == left[i].load % THREADS;
        each = each && left[i].number == left[i].load / THREADS;
        each = each && (i == 0 || left[i - 1].key <= left[i].key);
    }
    check("each item once, and ascending", each && sum == (uint64_t)ITEMS * (ITEMS - 1) / 2);
}

int main(void) {
    long first = opening(0);
    klsm_drop(&queue);
    check("no block is kept by drop", blocks == 0);
    check("a second opening, with a refill, takes as many allocations", opening(8) == first);
    insertions();
    sharings();
    closing(calls_without());
    check("no block is kept at the end", blocks == 0);
    return check_status();
}
