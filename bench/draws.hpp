// The numbers that all runs draw: the same for the same seed, on every machine.
#ifndef BENCH_DRAWS_HPP
#define BENCH_DRAWS_HPP

#include <cstddef>
#include <cstdint>

// SplitMix64.
class draws {
public:
    explicit draws(std::uint64_t seed) : state_(seed) {}

    // What the i-th call of next() gives, counted from 0.
    static std::uint64_t at(std::uint64_t seed, std::uint64_t i) { return mixed(seed + (i + 1) * step); }

    std::uint64_t next() { return mixed(state_ += step); }

    // Below `end`, which is at most 2^32.
    std::size_t below(std::size_t end) { return std::size_t((next() >> 32) * end >> 32); }

private:
    static constexpr std::uint64_t step = 0x9e3779b97f4a7c15;

    static std::uint64_t mixed(std::uint64_t word) {
        word = (word ^ word >> 30) * 0xbf58476d1ce4e5b9;
        word = (word ^ word >> 27) * 0x94d049bb133111eb;
        return word ^ word >> 31;
    }

    std::uint64_t state_;
};

#endif
