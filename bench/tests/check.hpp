// A check that ends the test with the place where it fails.
#ifndef BENCH_TESTS_CHECK_HPP
#define BENCH_TESTS_CHECK_HPP

#include <cstdio>
#include <cstdlib>

#define check(condition)                                                                                              \
    do {                                                                                                              \
        if (!(condition)) {                                                                                           \
            std::fprintf(stderr, "%s:%d: failed: %s\n", __FILE__, __LINE__, #condition);                              \
            std::exit(1);                                                                                             \
        }                                                                                                             \
    } while (false)

#endif
