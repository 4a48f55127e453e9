/* klsm.h: the k-LSM relaxed priority queue for up to 64 threads. C11 and C++.
 *
 *     #include <klsm.h>
 *     #include <stdio.h>
 *     static klsm_queue queue = KLSM_QUEUE_CLOSED;
 *     int main(void) {
 *         klsm_item item;
 *         if (klsm_open_default(&queue, 4) != KLSM_OK) return 1;           // four threads
 *         if (klsm_insert(&queue.members[0], 3, 30) != KLSM_OK) return 1;  // thread t: members[t]
 *         if (klsm_delete_min(&queue.members[0], &item) == KLSM_OK)
 *             printf("key %d load %d\n", (int)item.key, (int)item.load);
 *         klsm_drop(&queue);
 *     }
 *
 *     cc main.c -Iinclude libklsm.a -pthread
 *
 * An item has a key, of which the smallest is the most urgent, a load that the queue never reads, and a
 * stamp: the number of the member that inserted it, and how many insertions that member had made
 * before. No two items of one queue have one stamp. Items are ordered by key, then owner, then
 * number; "smaller", "smallest" and "ascending" mean this order.
 *
 * A queue has T members, one for each thread. Each keeps at most k items in a part of its own, and
 * all other items lie in one shared part. What lies in an own part others find late, as a rule only
 * once they find nothing else: so a thread shares it before it works for long, and before it leaves.
 * - A deletion gives an item to which at most T*k smaller ones live when it takes effect. With k = 0
 *   that is the smallest item. It passes over none that its own member inserted and that lies in its
 *   own or in the shared part. Such an item may also have moved to another member's part: seldom where the
 *   queue has no refill and no balance, and often where it has a balance.
 * - KLSM_NOTHING is returned only where at most (T-1)*k items live. So with one thread, or k = 0, it
 *   means that the queue is empty; otherwise it does not, and a program that ends by it has to count
 *   what is open: klsm_work does.
 * - No item is lost or duplicated: each one whose insertion returned KLSM_OK is given by one deletion,
 *   or is left when the queue is closed. A call that returned any other code has changed nothing but
 *   what its own lines say.
 * - What a thread wrote before an insertion is seen by the thread whose deletion gives the item, so
 *   a load may be a pointer. (This is tested; the rest of this list is proved.)
 *
 * Nothing checks the following, and what happens otherwise is undefined:
 * - One call at a time for each member. Different members may be used at the same time. The openings,
 *   the calls klsm_close.. and klsm_drop.., and klsm_left need exclusive access to the queue. Calls are
 *   ordered by happens-before: a thread's start or join, a lock, or a sequentially consistent atomic;
 *   so a member may change threads.
 * - A queue is all bytes 0 (KLSM_QUEUE_CLOSED, static storage, or memset), or as the last call left
 *   it. It is aligned to 128 bytes: malloc does not give that, klsm_new does. While it is open it is not
 *   copied, moved, written to or freed.
 * - No pointer is null, but `left` may be one where `room` is 0. `item`, `moved`, `bound`, `account`, `left` and
 *   `options` do not overlap each other or the queue. `left` points to `room` items.
 * - A member is one of a klsm_queue.
 * - No call comes from a signal handler but klsm_work_stop, nor from a forked child about a queue that was open.
 * - malloc, realloc and free keep the C standard's promises, also if they are the program's own.
 */
#ifndef KLSM_H
#define KLSM_H

#if !defined(__linux__) || !defined(__x86_64__) || !defined(__GNUC__)
#error "klsm.h: the library is for Linux on x86-64 (x86-64-v2), and the header for compilers like GCC and Clang"
#endif

#include <sched.h>
#include <stddef.h>
#include <stdint.h>
#include <stdlib.h>
#include <string.h>
#include <sys/select.h>

/* The version of this header, that of `klsm --version`. */
#define KLSM_VERSION "2.0.0"
#define KLSM_VERSION_MAJOR 2
#define KLSM_VERSION_MINOR 0
#define KLSM_VERSION_PATCH 0
#define KLSM_VERSION_NUMBER (10000 * KLSM_VERSION_MAJOR + 100 * KLSM_VERSION_MINOR + KLSM_VERSION_PATCH)

/* The binary interface that this header describes. The library's is klsm_abi(), which klsm_open_with compares. */
#define KLSM_ABI 2

/* The most threads of a queue, the greatest k, and the insertions that a member can make. */
#define KLSM_MAX_THREADS 64
#define KLSM_MAX_K 1024
#define KLSM_MAX_INSERTIONS (UINT64_C(1) << 48)

/* The numbers of a queue whose opening names none: those of klsm_defaults, of klsm::queue(threads) in C++, and of
 * Queue::new(threads) in Rust. */
#define KLSM_DEFAULT_K 1024
#define KLSM_DEFAULT_REFILL 16
#define KLSM_DEFAULT_BALANCE 16

/* What is inline here has the version in its name in C++, so that parts of one program that were compiled with headers
 * of two versions keep each their own. No program has to name it. */
#define KLSM_JOINED(name, major, minor, patch) name##major##_##minor##_##patch
#define KLSM_JOIN(name, major, minor, patch) KLSM_JOINED(name, major, minor, patch)
#define KLSM_VERSIONED(name) KLSM_JOIN(name, KLSM_VERSION_MAJOR, KLSM_VERSION_MINOR, KLSM_VERSION_PATCH)

/* A compiler warns where the code of such a call is dropped, and where a pointer is plainly null. */
#define KLSM_MUST_USE __attribute__((warn_unused_result))
#define KLSM_NOT_NULL(...) __attribute__((nonnull(__VA_ARGS__)))

#ifdef __cplusplus
#define KLSM_ASSERT(what) static_assert(what, #what)
#define KLSM_ALIGNED alignas(128)
#define KLSM_INLINE __attribute__((visibility("hidden"))) inline
#define KLSM_COLD __attribute__((visibility("hidden"), noinline, cold)) inline
#define KLSM_QUEUE_CLOSED {}
#define KLSM_CAST(type, value) static_cast<type>(value)
#define KLSM_ADDRESS(at) reinterpret_cast<uintptr_t>(at)
#define KLSM_BEGIN_INLINE extern "C++" { inline namespace KLSM_VERSIONED(klsm_) {
#define KLSM_END_INLINE }}
extern "C" {
#else
#define KLSM_ASSERT(what) _Static_assert(what, #what)
#define KLSM_ALIGNED _Alignas(128)
#define KLSM_INLINE static inline
#define KLSM_COLD __attribute__((noinline, cold, unused)) static
#define KLSM_QUEUE_CLOSED {{{0, 0, {0}}}}
#define KLSM_CAST(type, value) ((type)(value))
#define KLSM_ADDRESS(at) ((uintptr_t)(at))
#define KLSM_BEGIN_INLINE
#define KLSM_END_INLINE
#endif

/* One member: what one thread inserts and deletes by. Its fields belong to the library. It has two
 * cache lines, since processors fetch lines in pairs, so threads do not disturb each other. */
typedef struct klsm_member {
    KLSM_ALIGNED void *at;
    uint64_t live;
    uint64_t room[14];
} klsm_member;

/* A queue. Member t is &queue.members[t], for t below the number of threads that it was opened for.
 * The others stay closed. */
typedef struct klsm_queue {
    klsm_member members[KLSM_MAX_THREADS];
} klsm_queue;

/* What a deletion gives. */
typedef struct klsm_item {
    uint64_t key;
    uint64_t load;
    uint64_t number; /* how many insertions its owner had made before */
    uint32_t owner;  /* the number of the member that inserted it */
} klsm_item;

/* What is open in a queue at one moment: what lives in all parts together, and what members work at. */
typedef struct klsm_dual_bound {
    uint64_t queue; /* the smallest key of all items that live, and UINT64_MAX where none lives */
    uint64_t work;  /* that of the items that members work at, and UINT64_MAX where none works: see klsm_try_rest */
    uint64_t items; /* how many items live */
} klsm_dual_bound;

/* What a closed queue says of itself: inserted = deleted + left. */
typedef struct klsm_account {
    uint64_t inserted;
    uint64_t deleted;
    uint64_t left; /* how many items were left, however many of them were copied */
} klsm_account;

/* How klsm_open_with opens a queue: klsm_defaults gives one to begin with. Each number is itself, also 0. */
typedef struct klsm_options {
    size_t threads;   /* 1 to 64 */
    size_t k;         /* 0 to 1024 */
    uint32_t pick;    /* one of klsm_pick */
    uint64_t seed;    /* for KLSM_RANDOM */
    size_t refill;    /* any number; one above k counts as k */
    uint32_t balance; /* any number, 0 for never */
} klsm_options;

KLSM_ASSERT(sizeof(void *) == 8 && sizeof(size_t) == 8);
KLSM_ASSERT(sizeof(klsm_member) == 128);
KLSM_ASSERT(offsetof(klsm_member, at) == 0 && offsetof(klsm_member, live) == 8);
KLSM_ASSERT(offsetof(klsm_member, room) == 16);
KLSM_ASSERT(sizeof(klsm_queue) == 8192 && offsetof(klsm_queue, members) == 0);
KLSM_ASSERT(sizeof(klsm_item) == 32);
KLSM_ASSERT(offsetof(klsm_item, key) == 0 && offsetof(klsm_item, load) == 8);
KLSM_ASSERT(offsetof(klsm_item, number) == 16 && offsetof(klsm_item, owner) == 24);
KLSM_ASSERT(sizeof(klsm_dual_bound) == 24 && offsetof(klsm_dual_bound, queue) == 0);
KLSM_ASSERT(offsetof(klsm_dual_bound, work) == 8 && offsetof(klsm_dual_bound, items) == 16);
KLSM_ASSERT(sizeof(klsm_account) == 24 && offsetof(klsm_account, inserted) == 0);
KLSM_ASSERT(offsetof(klsm_account, deleted) == 8 && offsetof(klsm_account, left) == 16);
#ifdef __cplusplus
KLSM_ASSERT(alignof(klsm_member) == 128 && alignof(klsm_queue) == 128);
#else
KLSM_ASSERT(_Alignof(klsm_member) == 128 && _Alignof(klsm_queue) == 128);
#endif

/* What the calls return; the last four, inline functions alone. A later version may have more. */
enum klsm_code {
    KLSM_OK = 0,          /* done */
    KLSM_NOTHING = 1,     /* deletion: no item was found where it looked; klsm_work_next: and no work is open */
    KLSM_BUSY = 2,        /* klsm_try_..: another member holds a lock that is needed */
    KLSM_FULL = 3,        /* insertion, sharing: the shared part, of 2^26 items, has no room for what would move */
    KLSM_NO_MEMORY = 4,   /* malloc gave none */
    KLSM_SPENT = 5,       /* insertion: the member has made 2^48 insertions */
    KLSM_NOT_OPEN = 6,    /* the member, or the queue that is to be closed, is not open */
    KLSM_OPEN = 7,        /* opening: the queue is open already */
    KLSM_BAD_COUNT = 8,   /* opening: not 1 to 64 threads */
    KLSM_BAD_K = 9,       /* opening: k is above 1024 */
    KLSM_BAD_PICK = 10,   /* opening: no such pick */
    KLSM_SHARED = 11,     /* closing: another owner holds the queue's parts; see klsm_close */
    KLSM_BAD_REFILL = 12, /* opening: the refill is above k */
    KLSM_STOPPED = 13,    /* klsm_work_next: klsm_work_stop was called */
    KLSM_MISCOUNTED = 14, /* klsm_work_next: more pieces of work were closed than had been opened */
    KLSM_BAD_VERSION = 15, /* klsm_open_with: the library has another interface than this header, or is older */
    KLSM_MISALIGNED = 16   /* klsm_open_with: the queue is not aligned to 128 bytes; see klsm_new */
};

/* Which of the k + 1 smallest shared items a deletion takes where it takes a shared one. Of those up to
 * the one that is picked, the first that its own member inserted goes before it. */
enum klsm_pick {
    KLSM_FIRST = 0, /* the smallest */
    KLSM_LAST = 1,  /* the greatest: for tests, since the most items are passed over */
    KLSM_RANDOM = 2 /* any, by a generator of each member: PCG32, seeded with seed + t for member t */
};

/* The binary interface of the library. Any thread, at any time. */
uint32_t klsm_abi(void);

/* The version of the library, as KLSM_VERSION_NUMBER has that of this header. Any thread, at any time. */
uint32_t klsm_version(void);

/* The form whose answers are as exact as its k allows, and not the fast one, which is klsm_open_default. Opens a
 * closed queue for `threads` members, all empty, with no refill and no balance. A larger k means fewer meetings of
 * threads and less exact answers: up to 1024 where the speed of many threads matters most. `seed` is used by
 * KLSM_RANDOM alone. Needs exclusive access to the queue. Allocates some 400 KB for each member, which klsm_close and
 * klsm_drop free. Compares no versions: klsm_open_with does.
 * KLSM_OK, or the first of these that is true:
 *   KLSM_OPEN        it is open already
 *   KLSM_BAD_PICK    `pick` is none of the three
 *   KLSM_BAD_COUNT   `threads` is 0 or above 64
 *   KLSM_BAD_K       `k` is above 1024
 *   KLSM_NO_MEMORY   malloc gave none
 * After these the queue is as it was, byte by byte, and no memory is kept. */
KLSM_MUST_USE KLSM_NOT_NULL(1)
int32_t klsm_open(klsm_queue *queue, size_t threads, size_t k, uint32_t pick, uint64_t seed);

/* Opens a closed queue as klsm_open does, with a refill, 0 to k, and a balance, any number. Both move items
 * between parts, which is neither an insertion nor a deletion, and the bound stays T*k.
 *
 * The refill: a deletion that took its item from the shared part then moves the smallest shared items to its
 * member's own part, at most `refill` of them and at most half as many as there is room for, rounded up,
 * while it holds the shared lock; so the member's next deletions need its own lock alone. On average more
 * smaller items are passed over, since what moved, as a rule up to `refill` items for each member, waits in
 * own parts.
 *
 * The balance: before each `balance`-th deletion of a member, and never where it is 0, the next other member
 * in turn is looked at, unless its lock is held: where its smallest own item is smaller than the member's own
 * ones and its key is below the front, its smallest items move to the member's part, at most four, at most
 * half of them, rounded up, and at most as many as there is room for. So members whose own parts have drifted
 * apart come to the smaller items again: where nearly all items lie in own parts, as with a k above a
 * hundred and a few thousand items, far fewer smaller ones are passed over. 16 is a good number.
 * KLSM_OK, or the first of these that is true:
 *   KLSM_OPEN        it is open already
 *   KLSM_BAD_PICK    `pick` is none of the three
 *   KLSM_BAD_COUNT   `threads` is 0 or above 64
 *   KLSM_BAD_K       `k` is above 1024
 *   KLSM_BAD_REFILL  `refill` is above `k`
 *   KLSM_NO_MEMORY   malloc gave none
 * After these the queue is as it was, byte by byte, and no memory is kept. */
KLSM_MUST_USE KLSM_NOT_NULL(1)
int32_t klsm_open_with_balance(klsm_queue *queue, size_t threads, size_t k, uint32_t pick, uint64_t seed,
                               size_t refill, uint32_t balance);

/* Inserts an item. Never blocks. The member's thread, one call at a time.
 * Costs no lock but the member's own, which is free unless another member looks for items there
 * just then, and no memory, while the own part has fewer than k items. At k items its largest block
 * moves to the shared part: this takes the shared lock, and a block of memory.
 * KLSM_OK, or the first of these that is true:
 *   KLSM_NOT_OPEN    the member is not open
 *   KLSM_SPENT       the member has made 2^48 insertions
 *   KLSM_BUSY        the own lock, or the shared one if it is needed, is held by another member
 *   KLSM_FULL        the own part has k items, and the shared part no room for what would move, which is
 *                    at most k (proved is that it comes only where there is no room for k more)
 *   KLSM_NO_MEMORY   it has room, but malloc gave no memory for it
 * After these nothing is inserted and no part has changed: the same call may be made again, after
 * KLSM_FULL once items have been deleted. */
KLSM_MUST_USE KLSM_NOT_NULL(1)
int32_t klsm_try_insert(klsm_member *member, uint64_t key, uint64_t load);

/* Deletes a small item. Never blocks, and allocates nothing. The member's thread, one call at a
 * time. Costs no lock but the member's own where its smallest own key is below all shared ones;
 * otherwise the shared lock too, and where both parts are empty a look at the other members' parts. With a
 * balance each `balance`-th call first tries the lock of one other member, once.
 * KLSM_OK            *item is written
 * KLSM_NOTHING       the own part, the shared part, and each other part that was not held just then
 *                    were empty; so at most (T-1)*k items live
 * KLSM_BUSY          the own lock, or the shared one if it is needed, is held by another member
 * KLSM_NOT_OPEN      the member is not open
 * After all but KLSM_OK no part has changed, and *item is unchanged. */
KLSM_MUST_USE KLSM_NOT_NULL(1, 2)
int32_t klsm_try_delete_min(klsm_member *member, klsm_item *item);

/* Deletes a small item alone: as klsm_try_delete_min, whose costs and codes it has, but no items move to the own
 * part behind it, whatever the refill is. For items each of which is worked on for long. */
KLSM_MUST_USE KLSM_NOT_NULL(1, 2)
int32_t klsm_try_delete_min_alone(klsm_member *member, klsm_item *item);

/* Shares: moves all items of the own part to the shared one, where all find them. It inserts and deletes nothing. Never
 * blocks. The member's thread, one call at a time: before it works for long, and before it leaves.
 * Costs the own lock; where the own part has items, the shared lock too, a merge of these items, and a block of
 * memory.
 * KLSM_OK, with how many moved in *moved, 0 where the own part has none; or the first of these that is true:
 *   KLSM_NOT_OPEN    the member is not open
 *   KLSM_BUSY        the own lock, or the shared one if it is needed, is held by another member
 *   KLSM_FULL        the shared part has no room for all of them
 *   KLSM_NO_MEMORY   it has room, but malloc gave no memory for it
 * After these no item has moved, and *moved is unchanged. */
KLSM_MUST_USE KLSM_NOT_NULL(1, 2)
int32_t klsm_try_share(klsm_member *member, uint64_t *moved);

/* The bound: the smallest key of all items that live, in all parts together, how many live, and the smallest key of the
 * items that members work at. A member works at the item that it deleted last, until a deletion answers KLSM_NOTHING or
 * it rests (klsm_try_rest). It inserts and deletes nothing, and no item moves. Never blocks. The member's thread, one
 * call at a time: now and then, since it takes the lock of each member, in the order of their numbers, and then the
 * shared one, and while it has a part nobody else can use that. Allocates nothing.
 * There is a moment in the call when the member has all parts, and of that moment all three numbers are exact. Where
 * from then on each insertion is made by a member that works at an item, with a key that is not less than that item's,
 * no item that is deleted later has a key below the smaller one of `queue` and `work`: C-INTERFACE.md, "A search that
 * stops at a gap", says what a search does for that, and what it may conclude.
 * KLSM_OK            *bound is written
 * KLSM_BUSY          one of the locks is held by another member
 * KLSM_NOT_OPEN      the member is not open
 * After all but KLSM_OK *bound is unchanged. */
KLSM_MUST_USE KLSM_NOT_NULL(1, 2)
int32_t klsm_try_bound(klsm_member *member, klsm_dual_bound *bound);

/* Rests: the member has done with the item that it deleted last, and works at none until its next deletion. A bound
 * tells it, and nothing else changes. Never blocks, and allocates nothing. The member's thread, one call at a time:
 * once all is inserted that its item leads to, where it leaves, or where its next deletion will be long in coming.
 * Costs the member's own lock.
 * KLSM_OK            done
 * KLSM_BUSY          that lock is held by another member, and the member works at its item as before
 * KLSM_NOT_OPEN      the member is not open */
KLSM_MUST_USE KLSM_NOT_NULL(1)
int32_t klsm_try_rest(klsm_member *member);

/* The front: the key of the smallest shared item, and UINT64_MAX where no item is shared, or the member is not
 * open. Items in members' own parts may have smaller keys, of which others have at most (T-1)*k, and a smaller one
 * may be shared right after the call. So it is no bound of what is left: it is what the shared part had at the
 * moment of the call, of use to a thread that asks whether another deletion is worth its while. The member's
 * thread, one call at a time. Takes no lock and never blocks. */
KLSM_NOT_NULL(1) uint64_t klsm_front(klsm_member *member);

/* How many insertions and deletions of the member returned KLSM_OK since the queue was opened; 0
 * where it is not open. The member's thread, one call at a time: this call, too, writes to the member.
 * Costs no lock. */
KLSM_NOT_NULL(1) uint64_t klsm_inserted(klsm_member *member);
KLSM_NOT_NULL(1) uint64_t klsm_deleted(klsm_member *member);

/* Closes a queue as klsm_close does, which is below and says more. `left` points to some item also where
 * `room` is 0. */
KLSM_MUST_USE KLSM_NOT_NULL(1, 2, 3)
int32_t klsm_close_into(klsm_queue *queue, klsm_account *account, klsm_item *left, size_t room);

/* Closes a queue, with all that is left in it, and frees all memory. Allocates nothing, never blocks, and
 * cannot fail; a closed queue stays closed. Needs exclusive access to the queue. */
KLSM_NOT_NULL(1) void klsm_drop(klsm_queue *queue);

#if defined(__has_feature)
#if __has_feature(thread_sanitizer)
#define KLSM_UNDER_TSAN
#endif
#elif defined(__SANITIZE_THREAD__)
#define KLSM_UNDER_TSAN
#endif
#ifdef KLSM_UNDER_TSAN
#include "klsm_tsan.h"
#endif

/* ---- Inline functions over these ---- */

KLSM_BEGIN_INLINE

/* Opens a closed queue by klsm_open_with_balance with no balance, and has its codes. */
KLSM_MUST_USE KLSM_NOT_NULL(1)
KLSM_INLINE int32_t klsm_open_with_refill(klsm_queue *queue, size_t threads, size_t k, uint32_t pick,
                                          uint64_t seed, size_t refill) {
    return klsm_open_with_balance(queue, threads, k, pick, seed, refill, 0);
}

/* The options of a queue for so many threads, whose other numbers are the defaults:
 *
 *     klsm_options options = klsm_defaults(4);
 *     options.k = 256;
 *     if (klsm_open_with(&queue, &options) != KLSM_OK) .. */
KLSM_INLINE klsm_options klsm_defaults(size_t threads) {
    klsm_options options = {threads, KLSM_DEFAULT_K, KLSM_FIRST, 0, KLSM_DEFAULT_REFILL, KLSM_DEFAULT_BALANCE};
    return options;
}

/* Opens a closed queue by klsm_open_with_balance, whose codes it has in their order, but for KLSM_BAD_REFILL, since a
 * refill above k counts as k. Before all of them come
 *   KLSM_BAD_VERSION  the library has another binary interface than this header, or is of an older version
 *   KLSM_MISALIGNED   the queue is not aligned to 128 bytes
 * after which the queue is as it was, too. */
KLSM_MUST_USE KLSM_NOT_NULL(1, 2)
KLSM_INLINE int32_t klsm_open_with(klsm_queue *queue, const klsm_options *options) {
    if (klsm_abi() != KLSM_ABI || klsm_version() < KLSM_VERSION_NUMBER)
        return KLSM_BAD_VERSION;
    if (KLSM_ADDRESS(queue) % 128 != 0)
        return KLSM_MISALIGNED;
    return klsm_open_with_balance(queue, options->threads, options->k, options->pick, options->seed,
                                  options->refill < options->k ? options->refill : options->k, options->balance);
}

/* Opens a closed queue for so many threads with the defaults. Has the codes of klsm_open_with. */
KLSM_MUST_USE KLSM_NOT_NULL(1)
KLSM_INLINE int32_t klsm_open_default(klsm_queue *queue, size_t threads) {
    const klsm_options options = klsm_defaults(threads);
    return klsm_open_with(queue, &options);
}

/* A closed queue on the heap, aligned as it has to be, or NULL where there is no memory. */
KLSM_MUST_USE
KLSM_INLINE klsm_queue *klsm_new(void) {
    klsm_queue *queue = KLSM_CAST(klsm_queue *, aligned_alloc(128, sizeof *queue));
    if (queue != NULL)
        memset(KLSM_CAST(void *, queue), 0, sizeof *queue);
    return queue;
}

/* Drops a queue of klsm_new with all that is left in it, and gives its memory back. NULL is none. */
KLSM_INLINE void klsm_free(klsm_queue *queue) {
    if (queue != NULL)
        klsm_drop(queue);
    free(queue);
}

#include "klsm_keys.h"

/* How many items are in the queue: insertions less deletions, over all members. Needs exclusive access to
 * the queue, and is exact. 0 where the queue is closed. */
KLSM_NOT_NULL(1)
KLSM_INLINE uint64_t klsm_left(klsm_queue *queue) {
    uint64_t left = 0;
    for (size_t t = 0; t < KLSM_MAX_THREADS; t++)
        left += klsm_inserted(&queue->members[t]) - klsm_deleted(&queue->members[t]);
    return left;
}

/* Closes a queue: writes the account, copies the smallest `room` of the items that are left to `left`,
 * ascending, and frees all memory. The rest of that array is unchanged. The items that have no room
 * there are gone, so size it by klsm_left first where they matter. Needs exclusive access to the
 * queue, so no thread is left that uses a member. Never blocks. Costs a sort of the items that are
 * left, and 32 bytes of memory for each while it runs.
 * KLSM_OK            done: all members are closed, and the queue may be opened again
 * KLSM_NOT_OPEN      it is not open
 * KLSM_NO_MEMORY     malloc gave none. The queue is open as before, so items can be deleted, and
 *                    the call be made again; klsm_drop needs no memory
 * KLSM_SHARED        should not occur; not proved: all members are closed, the account and the array are
 *                    unchanged
 * After KLSM_NOT_OPEN and KLSM_NO_MEMORY nothing has changed. */
KLSM_MUST_USE KLSM_NOT_NULL(1, 2)
KLSM_INLINE int32_t klsm_close(klsm_queue *queue, klsm_account *account, klsm_item *left, size_t room) {
    klsm_item none;
    return klsm_close_into(queue, account, room == 0 ? &none : left, room);
}

/* Closes a queue as klsm_close does, and hands each item that is left to `each`, ascending, with `context`. The
 * queue is closed by then, and `account` is written. Takes 32 bytes of memory more for each item. */
KLSM_MUST_USE KLSM_NOT_NULL(1, 2, 3)
KLSM_INLINE int32_t klsm_close_each(klsm_queue *queue, klsm_account *account,
                                    void (*each)(void *context, const klsm_item *item), void *context) {
    size_t room = klsm_left(queue);
    klsm_item *left = KLSM_CAST(klsm_item *, calloc(room + 1, sizeof *left));
    if (left == NULL)
        return KLSM_NO_MEMORY;
    int32_t code = klsm_close_into(queue, account, left, room);
    for (size_t i = 0; code == KLSM_OK && i < room; i++)
        each(context, &left[i]);
    free(left);
    return code;
}

/* Closes a queue as klsm_drop does, and hands each item that is left to `each`, in no order, with `context`, while
 * the queue is still open: `each` makes no call about it. Takes no memory, and cannot fail. */
KLSM_NOT_NULL(1, 2)
KLSM_INLINE void klsm_drop_each(klsm_queue *queue, void (*each)(void *context, const klsm_item *item),
                                void *context) {
    klsm_item item;
    /* No lock is held, so member 0 finds what lies in each part. */
    while (klsm_try_delete_min(&queue->members[0], &item) == KLSM_OK)
        each(context, &item);
    klsm_drop(queue);
}

/* A short English text for a code. Any thread, at any time. */
KLSM_INLINE const char *klsm_text(int32_t code) {
    switch (code) {
    case KLSM_OK: return "done";
    case KLSM_NOTHING: return "no item was found";
    case KLSM_BUSY: return "another member holds a lock";
    case KLSM_FULL: return "the shared part has no room";
    case KLSM_NO_MEMORY: return "out of memory";
    case KLSM_SPENT: return "the member has made all its insertions";
    case KLSM_NOT_OPEN: return "not open";
    case KLSM_OPEN: return "open already";
    case KLSM_BAD_COUNT: return "not 1 to 64 threads";
    case KLSM_BAD_K: return "k is above 1024";
    case KLSM_BAD_PICK: return "no such pick";
    case KLSM_SHARED: return "the queue has another owner";
    case KLSM_BAD_REFILL: return "the refill is above k";
    case KLSM_STOPPED: return "the work was stopped";
    case KLSM_MISCOUNTED: return "more work was closed than was opened";
    case KLSM_BAD_VERSION: return "the library is of another version than klsm.h";
    case KLSM_MISALIGNED: return "the queue is not aligned to 128 bytes";
    default: return "unknown code";
    }
}

#include "klsm_wait.h"

#include "klsm_work.h"

KLSM_END_INLINE

#ifdef __cplusplus
}
#endif
#endif
