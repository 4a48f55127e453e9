/* What the tests of the C interface share: a line on standard output for each check, and the status
 * at the end. C11 and C++. */
#ifndef CHECK_H
#define CHECK_H

#include "klsm.h"
#include <stdio.h>
#include <stdlib.h>
#include <time.h>

static int check_failures = 0;

/* Prints `ok NAME`, or `FAILED NAME`, and answers which. */
static inline int check(const char *name, int holds) {
    printf("%s %s\n", holds ? "ok" : "FAILED", name);
    check_failures += !holds;
    return holds;
}

/* The same of a call's code. */
static inline int check_code(const char *name, int32_t answer, int32_t expected) {
    if (answer == expected)
        return check(name, 1);
    printf("FAILED %s: \"%s\" in place of \"%s\"\n", name, klsm_text(answer), klsm_text(expected));
    check_failures++;
    return 0;
}

/* Ends the program where a test cannot go on. */
static inline void check_or_stop(const char *name, int holds) {
    if (!holds) {
        check(name, 0);
        exit(1);
    }
}

/* The status of the program. */
static inline int check_status(void) { return check_failures > 0; }

/* The time, in seconds. */
static inline double check_now(void) {
    struct timespec now;
    timespec_get(&now, TIME_UTC);
    return (double)now.tv_sec + (double)now.tv_nsec * 1e-9;
}

/* A generator of numbers for tests: splitmix64. */
static inline uint64_t check_random(uint64_t *state) {
    uint64_t z = *state += UINT64_C(0x9e3779b97f4a7c15);
    z = (z ^ z >> 30) * UINT64_C(0xbf58476d1ce4e5b9);
    z = (z ^ z >> 27) * UINT64_C(0x94d049bb133111eb);
    return z ^ z >> 31;
}

#endif
