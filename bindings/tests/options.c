/* What klsm_defaults gives, and what klsm_open_with makes of its options, over the library of stub.c. */
#include "check.h"
#include "stub.h"

static klsm_queue queue = KLSM_QUEUE_CLOSED;

static uint64_t asked(uint32_t place) { return stub_argument(STUB_OPEN_WITH_BALANCE, place); }

/* What these options ask for: themselves, but for the refill. */
static void asks(const char *name, klsm_options options, size_t refill) {
    stub_begin();
    check_code(name, klsm_open_with(&queue, &options), KLSM_OK);
    check("of this queue", asked(0) == (uintptr_t)&queue);
    check("its threads", asked(1) == options.threads);
    check("its k", asked(2) == options.k);
    check("its pick and seed", asked(3) == options.pick && asked(4) == options.seed);
    check("its refill", asked(5) == refill);
    check("its balance", asked(6) == options.balance);
}

static void defaults(void) {
    klsm_options options = klsm_defaults(4);
    check("so many threads", options.threads == 4);
    check("the default k", options.k == KLSM_DEFAULT_K);
    check("the first pick", options.pick == KLSM_FIRST && options.seed == 0);
    check("the default refill", options.refill == KLSM_DEFAULT_REFILL);
    check("the default balance", options.balance == KLSM_DEFAULT_BALANCE);
    check("which fits", KLSM_DEFAULT_REFILL <= KLSM_DEFAULT_K && KLSM_DEFAULT_K <= KLSM_MAX_K);
    asks("they arrive", options, KLSM_DEFAULT_REFILL);
    options.k = KLSM_DEFAULT_REFILL - 1;
    asks("a smaller k has a smaller refill", options, KLSM_DEFAULT_REFILL - 1);
}

/* A number is itself, also 0. */
static void numbers(void) {
    asks("all named", (klsm_options){3, 40, KLSM_RANDOM, 7, 30, 5}, 30);
    asks("k is 0", (klsm_options){2, 0, KLSM_LAST, 5, 0, 0}, 0);
    asks("no refill", (klsm_options){2, 64, KLSM_FIRST, 0, 0, 3}, 0);
    asks("no balance", (klsm_options){2, 64, KLSM_FIRST, 0, 16, 0}, 16);
    asks("a refill of k", (klsm_options){2, 15, KLSM_FIRST, 0, 15, 0}, 15);
    asks("a refill above k", (klsm_options){2, 15, KLSM_FIRST, 0, 16, 0}, 15);
    asks("far above it", (klsm_options){2, 15, KLSM_FIRST, 0, SIZE_MAX, 0}, 15);
    asks("and above k = 0", (klsm_options){2, 0, KLSM_FIRST, 0, 1, 0}, 0);
}

/* Numbers out of range are passed on, so the library judges them. */
static void out_of_range(void) {
    asks("no threads", (klsm_options){0, 8, 3, 0, 8, 1}, 8);
    asks("k = 1025", (klsm_options){2, 1025, KLSM_FIRST, 0, 16, 0}, 16);
    asks("the greatest number as k", (klsm_options){2, SIZE_MAX, KLSM_FIRST, 0, 16, 0}, 16);
    asks("the greatest balance", (klsm_options){2, 8, 0, 0, 8, UINT32_MAX}, 8);
    stub_begin();
    stub_answer(STUB_OPEN_WITH_BALANCE, KLSM_BAD_K);
    klsm_options options = klsm_defaults(2);
    check_code("the code is handed on", klsm_open_with(&queue, &options), KLSM_BAD_K);
}

int main(void) {
    defaults();
    numbers();
    out_of_range();
    return check_status();
}
