/* What threads take that insert and delete in turn, with keys at random and at a hold: a queue with k = 64 and
 * no refill through klsm.h, and a binary heap in C behind a mutex of pthreads. */
#define _POSIX_C_SOURCE 200809L
#include "clock.h"
#include "klsm.h"
#include <pthread.h>
#include <stdio.h>
#include <stdlib.h>
#include <string.h>

enum { ROUNDS = 5, PAIRS = 50000, FILLINGS = 1000, K = 64, MOST_THREADS = 4 };

/* ---- The generator: PCG32 (XSH RR 64/32), seeded as Rust's seed_from_u64 does ---- */

typedef struct pcg32 {
    uint64_t state, increment;
} pcg32;

static const uint64_t multiplier = UINT64_C(6364136223846793005);

static uint32_t output(uint64_t state) {
    uint32_t word = (uint32_t)((state >> 18 ^ state) >> 27), by = (uint32_t)(state >> 59);
    return word >> by | word << (-by & 31);
}

static pcg32 seeded(uint64_t seed) {
    uint64_t words[2] = {0, 0};
    for (int i = 0; i < 4; i++) {
        seed = seed * multiplier + UINT64_C(0xa17654e46fbe17f3);
        words[i / 2] |= (uint64_t)output(seed) << i % 2 * 32;
    }
    uint64_t increment = words[1] | 1;
    return (pcg32){(words[0] + increment) * multiplier + increment, increment};
}

static uint32_t next_word(pcg32 *draws) {
    uint32_t word = output(draws->state);
    draws->state = draws->state * multiplier + draws->increment;
    return word;
}

static uint64_t next(pcg32 *draws) {
    uint64_t low = next_word(draws);
    return (uint64_t)next_word(draws) << 32 | low;
}

/* ---- The two that are measured ---- */

static klsm_queue queue = KLSM_QUEUE_CLOSED;

static struct heap {
    pthread_mutex_t lock;
    klsm_item *items;
    size_t count, room;
    uint64_t inserted;
} heap = {.lock = PTHREAD_MUTEX_INITIALIZER};

static int is_smaller(const klsm_item *a, const klsm_item *b) {
    return a->key != b->key ? a->key < b->key : a->number < b->number;
}

static int heap_insert(uint64_t key) {
    pthread_mutex_lock(&heap.lock);
    if (heap.count == heap.room) {
        size_t room = heap.room == 0 ? 64 : 2 * heap.room;
        klsm_item *items = realloc(heap.items, room * sizeof *items);
        if (items == NULL)
            abort();
        heap.items = items;
        heap.room = room;
    }
    klsm_item item = {key, 0, heap.inserted++, 0};
    size_t at = heap.count++;
    while (at > 0 && is_smaller(&item, &heap.items[(at - 1) / 2])) {
        heap.items[at] = heap.items[(at - 1) / 2];
        at = (at - 1) / 2;
    }
    heap.items[at] = item;
    pthread_mutex_unlock(&heap.lock);
    return 1;
}

static int heap_delete(klsm_item *item) {
    pthread_mutex_lock(&heap.lock);
    int found = heap.count > 0;
    if (found) {
        *item = heap.items[0];
        const klsm_item last = heap.items[--heap.count];
        size_t at = 0;
        for (size_t child = 1; child < heap.count; child = 2 * at + 1) {
            child += child + 1 < heap.count && is_smaller(&heap.items[child + 1], &heap.items[child]);
            if (!is_smaller(&heap.items[child], &last))
                break;
            heap.items[at] = heap.items[child];
            at = child;
        }
        heap.items[at] = last;
    }
    pthread_mutex_unlock(&heap.lock);
    return found;
}

/* A thread's use of the heap, where its member is null, or of the queue, and its keys. */
typedef struct worker {
    _Alignas(128) klsm_member *member;
    pcg32 draws;
    uint64_t *keys;
    size_t count;
    int holds, is_done;
    uint64_t sum;
} worker;

static inline int insert(worker *self, uint64_t key) {
    return self->member == NULL ? heap_insert(key) : klsm_insert(self->member, key, 0) == KLSM_OK;
}

static inline int delete_min(worker *self, klsm_item *item) {
    return self->member == NULL ? heap_delete(item) : klsm_delete_min(self->member, item) == KLSM_OK;
}

/* ---- The workloads ---- */

static void draw(worker *self, size_t count) {
    self->count = count;
    for (size_t i = 0; i < count; i++)
        self->keys[i] = next(&self->draws) >> (self->holds ? 40 : 33);
}

/* An insertion and a deletion for each key, or a deletion and an insertion of a key so much greater. */
static void *work(void *arg) {
    worker *self = arg;
    klsm_item item;
    uint64_t sum = 0;
    int is_done = 1;
    for (size_t i = 0; i < self->count && is_done; i++) {
        if (self->holds)
            is_done = delete_min(self, &item) && insert(self, item.key + self->keys[i]);
        else
            is_done = insert(self, self->keys[i]) && delete_min(self, &item);
        if (is_done)
            sum = sum * 31 + item.key;
    }
    self->sum = sum;
    self->is_done = is_done;
    return NULL;
}

/* Nanoseconds of a round in which each worker has a thread of its own. (Where one of them was the
 * caller's, the others were slow to start.) */
static uint64_t time_round(worker *crew, size_t threads) {
    pthread_t handles[MOST_THREADS];
    for (size_t t = 0; t < threads; t++)
        draw(&crew[t], PAIRS);
    uint64_t start = now();
    for (size_t t = 0; t < threads; t++)
        if (pthread_create(&handles[t], NULL, work, &crew[t]) != 0)
            abort();
    for (size_t t = 0; t < threads; t++)
        pthread_join(handles[t], NULL);
    return now() - start;
}

/* Inserts so many keys by each. Whether there was room. */
static int fill(worker *crew, size_t threads, size_t share) {
    for (size_t t = 0; t < threads; t++) {
        draw(&crew[t], share);
        for (size_t i = 0; i < share; i++)
            if (!insert(&crew[t], crew[t].keys[i]))
                return 0;
    }
    return 1;
}

/* The median, in tenths of nanoseconds for each of so many operations. */
static unsigned long long per_operation(uint64_t times[ROUNDS], uint64_t operations) {
    qsort(times, ROUNDS, sizeof *times, order);
    return times[ROUNDS / 2] * 10 / operations;
}

static uint64_t *keys_of(size_t count) {
    uint64_t *keys = malloc(count * sizeof *keys);
    if (keys == NULL)
        abort();
    return keys;
}

static void print_threads(int holds, size_t items, size_t threads) {
    static worker in_turn[MOST_THREADS], on_board[MOST_THREADS];
    size_t share = items / threads, most = share > PAIRS ? share : PAIRS;
    uint64_t heap_times[ROUNDS], board_times[ROUNDS];
    if (klsm_open(&queue, threads, K, KLSM_FIRST, 0) != KLSM_OK)
        abort();
    heap.count = heap.inserted = 0;
    for (size_t t = 0; t < threads; t++) {
        in_turn[t] = (worker){.draws = seeded(t), .keys = keys_of(most), .holds = holds};
        on_board[t] = in_turn[t];
        on_board[t].keys = keys_of(most);
        on_board[t].member = &queue.members[threads - 1 - t];
    }
    int is_done = fill(in_turn, threads, share) && fill(on_board, threads, share);
    for (size_t round = 0; round < ROUNDS; round++) {
        heap_times[round] = time_round(in_turn, threads);
        board_times[round] = time_round(on_board, threads);
        for (size_t t = 0; t < threads; t++)
            is_done = is_done && in_turn[t].is_done && on_board[t].is_done;
    }
    printf("%s %zu %zu", holds ? "hold" : "uniform", items, threads);
    if (is_done)
        printf(" %llu %llu\n", per_operation(heap_times, 2 * PAIRS * threads),
               per_operation(board_times, 2 * PAIRS * threads));
    else
        printf(": no room\n");
    for (size_t t = 0; t < threads; t++) {
        free(in_turn[t].keys);
        free(on_board[t].keys);
    }
    klsm_drop(&queue);
}

/* Insertions into an own part that has room for them, and deletions of its items. */
static void print_own(void) {
    uint64_t filling[ROUNDS] = {0}, draining[ROUNDS] = {0}, keys[K];
    worker one = {.draws = seeded(42), .keys = keys, .member = &queue.members[0]};
    klsm_item item;
    if (klsm_open(&queue, 1, K, KLSM_FIRST, 0) != KLSM_OK)
        abort();
    for (size_t round = 0; round < ROUNDS; round++) {
        for (size_t i = 0; i < FILLINGS; i++) {
            draw(&one, K);
            uint64_t start = now();
            for (size_t j = 0; j < K; j++)
                one.is_done = insert(&one, keys[j]);
            uint64_t middle = now();
            for (size_t j = 0; j < K; j++)
                one.is_done = delete_min(&one, &item);
            filling[round] += middle - start;
            draining[round] += now() - middle;
        }
    }
    printf("calls k board\n");
    printf("own-insertions %d %llu\n", K, per_operation(filling, FILLINGS * K));
    printf("own-deletions %d %llu\n", K, per_operation(draining, FILLINGS * K));
    klsm_drop(&queue);
}

int main(void) {
    const size_t items[] = {1000, 100000}, threads[] = {1, 2, 4};
    printf("medians of five, in tenths of nanoseconds an operation of all threads together:\n");
    printf("workload items threads heap board\n");
    for (int holds = 0; holds < 2; holds++)
        for (size_t i = 0; i < 2; i++)
            for (size_t j = 0; j < 3; j++)
                print_threads(holds, items[i], threads[j]);
    print_own();
    free(heap.items);
    return 0;
}
