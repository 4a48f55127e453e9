/* Fills a queue until it is full, and deletes from it; and closes one with a million items. The full one takes
 * some four gigabytes: where fewer than eight are free, that part is left out, which is said. */
#include "check.h"

enum { SHARED = 1 << 26, K = 64, MOST = SHARED + 2 * K, MILLION = 1 << 20, WANTED = 8 << 20 /* kilobytes */ };

static klsm_queue queue;
static uint64_t state = 1;

/* Inserts so many items by this member, or until it is refused. Answers the last code. */
static int32_t fill(size_t t, uint64_t count) {
    int32_t code = KLSM_OK;
    for (uint64_t i = 0; i < count && code == KLSM_OK; i++) {
        uint64_t key = check_random(&state);
        code = klsm_insert(&queue.members[t], key, ~key);
    }
    return code;
}

/* Deletes until an insertion is taken again. */
static void make_room(void) {
    klsm_item item;
    uint64_t deleted = 0, greatest = 0;
    int is_known = 1;
    int32_t code = KLSM_FULL;
    while (code == KLSM_FULL && deleted < 1000) {
        check_or_stop("delete", klsm_delete_min(&queue.members[0], &item) == KLSM_OK);
        is_known = is_known && item.load == ~item.key;
        greatest = greatest > item.key ? greatest : item.key;
        deleted++;
        code = klsm_insert(&queue.members[0], UINT64_MAX, 0);
    }
    check_code("an insertion after deletions", code, KLSM_OK);
    check("after at most k of them", deleted <= K);
    check("each was an item that was inserted", is_known);
    check("each of them was small", greatest < UINT64_MAX / 1000);
    check("the count of what is left", klsm_left(&queue) == klsm_inserted(&queue.members[0]) + K - deleted);
}

static void fill_up(void) {
    uint64_t moved = 7;
    check_code("open", klsm_open(&queue, 2, K, KLSM_FIRST, 0), KLSM_OK);
    check_code("insert until it is refused", fill(0, MOST + 1), KLSM_FULL);
    uint64_t first = klsm_inserted(&queue.members[0]);
    check("2^26 items and more are in it", first >= SHARED && first <= SHARED + K);
    check_code("it stays full", klsm_try_insert(&queue.members[0], 0, 0), KLSM_FULL);
    check("a refused insertion does not count", klsm_inserted(&queue.members[0]) == first);
    check_code("the other member has a part of its own", fill(1, MOST + 1), KLSM_FULL);
    check("of at most k items", klsm_inserted(&queue.members[1]) == K);
    check_code("which there is no room to share", klsm_share(&queue.members[1], &moved), KLSM_FULL);
    check("so none moves, and no number is written", moved == 7 && klsm_left(&queue) == first + K);
    make_room();
    klsm_drop(&queue);
}

static void close_a_million(void) {
    klsm_account account = {0, 0, 0};
    klsm_item *left = calloc(MILLION, sizeof *left);
    check_or_stop("memory for the test", left != NULL);
    check_code("open", klsm_open(&queue, 2, K, KLSM_FIRST, 0), KLSM_OK);
    check_or_stop("insert", fill(0, MILLION / 2) == KLSM_OK && fill(1, MILLION / 2) == KLSM_OK);
    check_code("close", klsm_close(&queue, &account, left, MILLION), KLSM_OK);
    check("the account", account.inserted == MILLION && account.deleted == 0 && account.left == MILLION);
    int ascending = 1, whole = 1;
    for (size_t i = 0; i < MILLION; i++) {
        ascending = ascending && (i == 0 || left[i - 1].key <= left[i].key);
        whole = whole && left[i].load == ~left[i].key;
    }
    check("what is left is ascending", ascending);
    check("each load is at its key", whole);
    free(left);
}

/* The kilobytes that the system can give without swapping. */
static long free_memory(void) {
    char line[128];
    long kilobytes = 0;
    FILE *file = fopen("/proc/meminfo", "r");
    while (file != NULL && fgets(line, sizeof line, file) != NULL)
        if (sscanf(line, "MemAvailable: %ld", &kilobytes) == 1)
            break;
    if (file != NULL)
        fclose(file);
    return kilobytes;
}

int main(void) {
    close_a_million();
    if (free_memory() >= WANTED)
        fill_up();
    else
        puts("left out: fewer than eight gigabytes are free, so the queue is not filled");
    return check_status();
}
