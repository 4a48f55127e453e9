/* Behind the part of each member lie 128 bytes that nothing touches, so that what one member changes at
 * each call lies off what another one does, wherever malloc puts the two.
 * Linked with -Wl,--wrap=malloc. */
#include "check.h"
#include <string.h>

void *__real_malloc(size_t size);
void *__wrap_malloc(size_t size);

enum { THREADS = 4, ITEMS = 2000, ROOM = 128, LEAST = 16384, MOST = 32 };

/* The blocks of the members' parts, which are far greater than any other block of an opening. */
static struct {
    unsigned char *at;
    size_t size;
} parts[MOST];
static int count, watches;

void *__wrap_malloc(size_t size) {
    void *at = __real_malloc(size);
    if (watches && at != NULL && size >= LEAST && count < MOST) {
        parts[count].at = at;
        parts[count++].size = size;
    }
    return at;
}

static unsigned char *room_of(int part) { return parts[part].at + parts[part].size - ROOM; }

static int all_are(int byte) {
    for (int part = 0; part < count; part++)
        for (int i = 0; i < ROOM; i++)
            if (room_of(part)[i] != byte)
                return 0;
    return 1;
}

static klsm_queue queue;

/* Insertions and deletions that fill, flush, spy on and empty each part. */
static int calls(void) {
    klsm_item item;
    int found = 0;
    for (uint64_t i = 0; i < ITEMS; i++)
        if (klsm_insert(&queue.members[i % THREADS], i * 7919 % 1009, i) != KLSM_OK)
            return 0;
    for (uint64_t i = 0; i < ITEMS; i++)
        found += klsm_delete_min(&queue.members[i * i % THREADS], &item) == KLSM_OK;
    return found == ITEMS && klsm_left(&queue) == 0;
}

int main(void) {
    watches = 1;
    int32_t code = klsm_open(&queue, THREADS, 64, KLSM_FIRST, 0);
    watches = 0;
    check_or_stop("open", code == KLSM_OK);
    check_or_stop("each member has a part of its own", count == THREADS);
    for (int part = 0; part < count; part++)
        memset(room_of(part), 0xa5, ROOM);
    check("all items are inserted and deleted", calls());
    check("nothing touches the room behind a part", all_are(0xa5));
    klsm_drop(&queue);
    return check_status();
}
