// How long single calls take: each call of a run is timed by the processor's clock, and its length is counted.
#ifndef BENCH_LATENCY_HPP
#define BENCH_LATENCY_HPP

#include "workloads.hpp"

#include <cstdint>
#include <memory>
#include <vector>
#include <x86intrin.h>

// How many calls had which length: by steps of 3 in a hundred, since each doubling has 32 of them.
class lengths {
public:
    void add(std::uint64_t length) {
        counts_[place_of(length)]++;
        greatest_ = std::max(greatest_, length);
    }

    void add_all(const lengths &others) {
        for (std::size_t i = 0; i < places; i++)
            counts_[i] += others.counts_[i];
        greatest_ = std::max(greatest_, others.greatest_);
    }

    std::uint64_t greatest() const { return greatest_; }

    // The least length that this share of the calls does not exceed, rounded up by at most 3 in a hundred.
    std::uint64_t at(double share) const {
        std::uint64_t all = 0, sum = 0;
        for (std::uint64_t count : counts_)
            all += count;
        for (std::size_t i = 0; i < places; i++)
            if ((sum += counts_[i]) >= share * double(all)) return std::min(last_of(i), greatest_);
        return greatest_;
    }

private:
    static constexpr std::size_t places = 60 * 32;

    // A length below 32 has a place of its own; of others the place tells the first six bits and how many follow.
    static std::size_t place_of(std::uint64_t length) {
        if (length < 32) return std::size_t(length);
        const std::size_t more = std::size_t(58 - __builtin_clzll(length));
        return more * 32 + std::size_t(length >> more);
    }

    static std::uint64_t last_of(std::size_t place) {
        if (place < 32) return place;
        const std::size_t more = place / 32 - 1;
        return ((std::uint64_t(place) - more * 32 + 1) << more) - 1;
    }

    std::vector<std::uint64_t> counts_ = std::vector<std::uint64_t>(places);
    std::uint64_t greatest_ = 0;
};

// Ticks of the processor's clock. What was begun before has ended.
inline std::uint64_t ticks() {
    unsigned processor;
    return __rdtscp(&processor);
}

// How many there are in a nanosecond.
inline double ticks_in_a_nanosecond() {
    const std::uint64_t begin = now(), first = ticks();
    while (now() - begin < 20000000) {
    }
    return double(ticks() - first) / double(now() - begin);
}

struct timed_calls {
    lengths insertions, deletions;

    template <class Handle> void insert(Handle &by, item given) {
        const std::uint64_t begin = ticks();
        by.insert(given);
        insertions.add(ticks() - begin);
    }

    template <class Handle> bool delete_min(Handle &by, item &out) {
        const std::uint64_t begin = ticks();
        const bool found = by.delete_min(out);
        deletions.add(ticks() - begin);
        return found;
    }
};

// The lengths of the calls of so many seconds, of all threads together, in ticks.
template <class Queue>
timed_calls timed_in_threads(const workload &given, double seconds, const placing &where,
                             typename Queue::setting setting) {
    timed_calls all;
    call_for<Queue, timed_calls>(
        given, seconds, where, setting, [](timed_calls &calls) { calls = timed_calls(); },
        [&](timed_calls &calls) {
            all.insertions.add_all(calls.insertions);
            all.deletions.add_all(calls.deletions);
        });
    return all;
}

#endif
