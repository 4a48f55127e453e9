// One of the inner queues of a MultiQueue, a re-implementation: see multiqueue.hpp. An 8-ary heap, a
// deletion buffer of its least items, and an insertion buffer of items that the heap has yet to take.
#ifndef BENCH_QUEUES_BUFFERED_HEAP_HPP
#define BENCH_QUEUES_BUFFERED_HEAP_HPP

#include "item.hpp"
#include "octal_heap.hpp"

#include <algorithm>
#include <cstddef>

// The items of the deletion buffer are at most all others. It is empty only where all is.
template <class Kept> class buffered_heap {
public:
    explicit buffered_heap(std::size_t room) : heap_(room) {}

    bool is_empty() const { return least_count_ == 0; }
    std::uint64_t least_key() const { return is_empty() ? UINT64_MAX : least_[least_count_ - 1].key; }

    void push(const Kept &given) {
        const bool is_all = heap_.size() == 0 && new_count_ == 0;
        const bool is_among_least = is_empty() || given.key < least_[0].key || (is_all && least_count_ < buffer);
        if (!is_among_least)
            add_new(given);
        else if (least_count_ < buffer)
            add_least(given);
        else
            add_new(exchange_greatest(given));
    }

    // The least item leaves. There is one.
    Kept pop() {
        const Kept least = least_[--least_count_];
        if (least_count_ == 0) refill();
        return least;
    }

private:
    static constexpr std::size_t buffer = 16;

    void add_new(const Kept &given) {
        if (new_count_ == buffer) flush();
        new_[new_count_++] = given;
    }

    void add_least(const Kept &given) {
        std::size_t at = least_count_++;
        for (; at > 0 && least_[at - 1].key < given.key; at--)
            least_[at] = least_[at - 1];
        least_[at] = given;
    }

    // Puts an item into the full deletion buffer, from which the greatest one leaves.
    Kept exchange_greatest(const Kept &given) {
        const Kept greatest = least_[0];
        std::size_t at = 0;
        for (; at + 1 < buffer && least_[at + 1].key > given.key; at++)
            least_[at] = least_[at + 1];
        least_[at] = given;
        return greatest;
    }

    void flush() {
        for (std::size_t i = 0; i < new_count_; i++)
            heap_.push(new_[i]);
        new_count_ = 0;
    }

    void refill() {
        flush();
        const std::size_t count = std::min(buffer, heap_.size());
        for (std::size_t i = count; i > 0; i--)
            least_[i - 1] = heap_.pop();
        least_count_ = count;
    }

    Kept least_[buffer]; // descending
    Kept new_[buffer];
    std::size_t least_count_ = 0, new_count_ = 0;
    octal_heap<Kept> heap_;
};

#endif
