// Runs of a workload of which each call is recorded, with the moments before and after it.
#ifndef BENCH_RECORD_HPP
#define BENCH_RECORD_HPP

#include "stopping.hpp"
#include "workloads.hpp"

#include <atomic>
#include <immintrin.h>
#include <memory>
#include <vector>

struct call {
    std::uint64_t begin, end; // in a run by turns: the call's number, twice
    std::uint64_t key;
    std::uint64_t load; // tells which item it was
    bool is_insertion;
};

// Nanoseconds. What the call does comes after the one stamp and before the other for all threads to
// see: no later load comes before the first, and all stores are out before the second.
struct by_clock {
    std::uint64_t before() const {
        const std::uint64_t stamp = now();
        _mm_lfence();
        return stamp;
    }
    std::uint64_t after() const {
        std::atomic_thread_fence(std::memory_order_seq_cst);
        _mm_lfence();
        return now();
    }
};

// The number of the call, in the order of all of one thread.
struct by_number {
    std::uint64_t *calls;
    std::uint64_t before() const { return ++*calls; }
    std::uint64_t after() const { return *calls; }
};

template <class Clock> class recorded_calls {
public:
    explicit recorded_calls(Clock clock = Clock()) : clock_(clock) {}

    void reserve(std::size_t calls) { calls_.reserve(calls); }

    template <class Handle> void insert(Handle &by, item given) {
        const std::uint64_t begin = clock_.before();
        by.insert(given);
        calls_.push_back({begin, clock_.after(), given.key, given.load, true});
    }

    template <class Handle> bool delete_min(Handle &by, item &out) {
        const std::uint64_t begin = clock_.before();
        const bool found = by.delete_min(out);
        const std::uint64_t end = clock_.after();
        if (found) calls_.push_back({begin, end, out.key, out.load, false});
        return found;
    }

    const std::vector<call> &all() const { return calls_; }

private:
    Clock clock_;
    std::vector<call> calls_;
};

// One thread makes so many steps of all members by turns: the first half of each one's step, then the second.
template <class Queue>
std::vector<call> record_by_turns(const workload &given, std::size_t steps, typename Queue::setting setting) {
    using calls = recorded_calls<by_number>;
    std::uint64_t number = 0;
    Queue queue(given.threads, given.room(), setting);
    auto handles = handles_of(queue, given.threads);
    calls filling(by_number{&number});
    fill(given, handles, filling);
    std::vector<worker<typename Queue::handle, calls>> workers;
    for (std::size_t t = 0; t < given.threads; t++)
        workers.emplace_back(given, handles[t], calls(by_number{&number}));
    for (std::size_t step = 0; step + given.threads <= steps; step += given.threads) {
        for (std::size_t t = 0; t < given.threads; t++)
            workers[t].first_half(step + t);
        for (std::size_t t = 0; t < given.threads; t++)
            workers[t].second_half(step + t);
    }
    std::vector<call> all = filling.all();
    for (auto &one : workers)
        all.insert(all.end(), one.calls().all().begin(), one.calls().all().end());
    return all;
}

// Threads make so many steps together, as they take them up. Once a quarter of them is taken up, thread 0 is stopped for
// so many seconds, while the others go on.
template <class Queue>
std::vector<call> record_in_threads(const workload &given, std::size_t steps, const placing &where, double stop,
                                    typename Queue::setting setting) {
    using placed = placed_worker<Queue, recorded_calls<by_clock>>;
    Queue queue(given.threads, given.room(), setting);
    auto handles = handles_of(queue, given.threads);
    recorded_calls<by_clock> filling;
    fill(given, handles, filling);
    common_steps common;
    std::vector<std::unique_ptr<placed>> workers(given.threads);
    stopping first(stop);
    time_of(
        given.threads, where,
        [&](std::size_t t) {
            workers[t].reset(new placed{{given, handles[t]}, own_steps(common)});
            workers[t]->by.calls().reserve(2 * steps);
            if (t == 0) first.can_be_stopped();
        },
        [&](std::size_t t) {
            for (std::uint64_t step; (step = workers[t]->steps.next()) < steps;) {
                if (t != 0 && step >= steps / 4) first.stop_once();
                workers[t]->by.run(step);
            }
        });
    std::vector<call> all = filling.all();
    for (auto &one : workers)
        all.insert(all.end(), one->by.calls().all().begin(), one->by.calls().all().end());
    return all;
}

#endif
