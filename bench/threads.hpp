// Threads that begin together, and the time they take.
#ifndef BENCH_THREADS_HPP
#define BENCH_THREADS_HPP

#include <algorithm>
#include <atomic>
#include <chrono>
#include <cstddef>
#include <cstdint>
#include <numeric>
#include <pthread.h>
#include <sched.h>
#include <thread>
#include <vector>

// Nanoseconds of the steady clock, which is one for all threads.
inline std::uint64_t now() {
    return std::uint64_t(
        std::chrono::duration_cast<std::chrono::nanoseconds>(std::chrono::steady_clock::now().time_since_epoch())
            .count());
}

// The processors that this program may use, in order.
inline std::vector<int> processors() {
    cpu_set_t allowed;
    std::vector<int> found;
    if (sched_getaffinity(0, sizeof allowed, &allowed) == 0)
        for (int i = 0; i < CPU_SETSIZE; i++)
            if (CPU_ISSET(i, &allowed)) found.push_back(i);
    return found;
}

// Where the threads run: bound to one processor each, thread t to the t-th, or wherever they are put.
class placing {
public:
    explicit placing(bool is_bound) : processors_(is_bound ? processors() : std::vector<int>()) {}

    void bind(std::size_t thread) const {
        if (processors_.empty()) return;
        cpu_set_t one;
        CPU_ZERO(&one);
        CPU_SET(processors_[thread % processors_.size()], &one);
        pthread_setaffinity_np(pthread_self(), sizeof one, &one);
    }

private:
    std::vector<int> processors_;
};

// All threads wait until the last one has come.
class barrier {
public:
    explicit barrier(std::size_t threads) : missing_(threads) {}

    void wait() {
        missing_.fetch_sub(1);
        for (std::size_t i = 0; missing_.load() != 0; i++) {
            __builtin_ia32_pause();
            if (i % 4096 == 4095) std::this_thread::yield();
        }
    }

private:
    std::atomic<std::size_t> missing_;
};

// Runs work(t) in thread t, where that belongs, and meanwhile() in this one, until all have ended.
template <class Work, class Meanwhile>
void in_threads(std::size_t threads, const placing &where, Work work, Meanwhile meanwhile) {
    std::vector<std::thread> crew;
    for (std::size_t t = 0; t < threads; t++)
        crew.emplace_back([&, t] {
            where.bind(t);
            work(t);
        });
    meanwhile();
    for (std::thread &thread : crew)
        thread.join();
}

// Seconds from the first begin to the last end.
inline double seconds_between(const std::vector<std::uint64_t> &begins, const std::vector<std::uint64_t> &ends) {
    const std::uint64_t begin = *std::min_element(begins.begin(), begins.end());
    return double(*std::max_element(ends.begin(), ends.end()) - begin) / 1e9;
}

// Runs prepare(t) and then, begun together, work(t) in thread t. Seconds from the first that begins its
// work to the last that ends it.
template <class Prepare, class Work>
double time_of(std::size_t threads, const placing &where, Prepare prepare, Work work) {
    barrier start(threads);
    std::vector<std::uint64_t> begins(threads), ends(threads);
    in_threads(
        threads, where,
        [&](std::size_t t) {
            prepare(t);
            start.wait();
            const std::uint64_t begin = now();
            work(t);
            ends[t] = now();
            begins[t] = begin;
        },
        [] {});
    return seconds_between(begins, ends);
}

// How much was done, and in which time.
struct done {
    std::uint64_t count;
    double seconds;
};

// Runs prepare(t) and then, begun together, step(t) again and again in thread t, until so many seconds have passed. The
// time before, a tenth of that, is not counted; then begin(t) is run. A step gives how much it did. Counted are whole
// steps, in the time from the first thread's begin to the last one's end.
template <class Prepare, class Begin, class Step>
done repeat_for(double seconds, std::size_t threads, const placing &where, Prepare prepare, Begin begin, Step step) {
    enum { warms_up, counts, ends };
    alignas(128) std::atomic<int> phase{warms_up};
    barrier start(threads + 1);
    std::vector<std::uint64_t> begins(threads), finishes(threads), sums(threads);
    in_threads(
        threads, where,
        [&](std::size_t t) {
            prepare(t);
            start.wait();
            while (phase.load(std::memory_order_relaxed) == warms_up)
                step(t);
            begin(t);
            const std::uint64_t from = now();
            std::uint64_t sum = 0;
            while (phase.load(std::memory_order_relaxed) != ends)
                sum += step(t);
            finishes[t] = now();
            begins[t] = from;
            sums[t] = sum;
        },
        [&] {
            start.wait();
            std::this_thread::sleep_for(std::chrono::duration<double>(seconds / 10));
            phase.store(counts);
            std::this_thread::sleep_for(std::chrono::duration<double>(seconds));
            phase.store(ends);
        });
    return {std::accumulate(sums.begin(), sums.end(), std::uint64_t(0)), seconds_between(begins, finishes)};
}

#endif
