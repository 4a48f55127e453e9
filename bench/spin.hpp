// Work of a known length: steps that depend on each other. A thread that is stopped makes none.
#ifndef BENCH_SPIN_HPP
#define BENCH_SPIN_HPP

#include "threads.hpp"

#include <cstdint>

inline void spin(std::uint64_t steps) {
    std::uint64_t state = steps;
    for (std::uint64_t i = 0; i < steps; i++) {
        state = state * 6364136223846793005u + 1442695040888963407u;
        __asm__ volatile("" : "+r"(state));
    }
}

// How many steps take a microsecond, where nothing disturbs: by the least time of fifty.
inline double steps_in_a_microsecond() {
    const std::uint64_t steps = 500000;
    std::uint64_t least = UINT64_MAX;
    for (int i = 0; i < 50; i++) {
        const std::uint64_t begin = now();
        spin(steps);
        const std::uint64_t took = now() - begin;
        least = took < least ? took : least;
    }
    return double(steps) * 1000 / double(least);
}

#endif
