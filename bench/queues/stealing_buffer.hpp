// The stealing buffer of one thread of a Stealing MultiQueue, a re-implementation: see stealing_multiqueue.hpp. The
// owner fills it, and any thread takes all of it at once.
#ifndef BENCH_QUEUES_STEALING_BUFFER_HPP
#define BENCH_QUEUES_STEALING_BUFFER_HPP

#include "item.hpp"

#include <atomic>
#include <cstddef>
#include <cstdint>
#include <cstring>

template <class Kept> class stealing_buffer {
public:
    static constexpr std::size_t most = 64;

    bool is_taken() const { return (state_.load(std::memory_order_relaxed) & taken) != 0; }

    // The least key, and UINT64_MAX where the items are taken.
    std::uint64_t least_key() const {
        for (;;) {
            const std::uint64_t state = state_.load(std::memory_order_acquire);
            if ((state & taken) != 0) return UINT64_MAX;
            const std::uint64_t key = words_[0].load(std::memory_order_relaxed);
            std::atomic_thread_fence(std::memory_order_acquire);
            if (state_.load(std::memory_order_relaxed) == state) return key;
        }
    }

    // The owner puts in items, ascending and at least one, where all are taken.
    void fill(const Kept *items, std::size_t count) {
        std::uint64_t words[most * words_each];
        std::memcpy(words, items, count * sizeof(Kept));
        for (std::size_t i = 0; i < count * words_each; i++)
            words_[i].store(words[i], std::memory_order_relaxed);
        count_.store(count, std::memory_order_relaxed);
        // A filling has a number of its own, so that who read one does not take the next.
        state_.store((state_.load(std::memory_order_relaxed) | taken) + 1, std::memory_order_release);
    }

    // All items, into room for `most`. 0 where another thread has taken them, or takes them just now.
    std::size_t take(Kept *into) {
        std::uint64_t state = state_.load(std::memory_order_acquire);
        if ((state & taken) != 0) return 0;
        std::uint64_t words[most * words_each];
        const std::size_t count = count_.load(std::memory_order_relaxed);
        for (std::size_t i = 0; i < count * words_each; i++)
            words[i] = words_[i].load(std::memory_order_relaxed);
        if (!state_.compare_exchange_strong(state, state | taken, std::memory_order_acq_rel)) return 0;
        std::memcpy(static_cast<void *>(into), words, count * sizeof(Kept));
        return count;
    }

private:
    static constexpr std::uint64_t taken = 1;
    static constexpr std::size_t words_each = sizeof(Kept) / 8;

    alignas(128) std::atomic<std::uint64_t> state_{taken}; // how often it was filled, and whether it is taken
    std::atomic<std::size_t> count_{0};
    std::atomic<std::uint64_t> words_[most * words_each];
};

#endif
