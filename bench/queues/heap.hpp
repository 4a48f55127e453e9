// std::priority_queue: by one thread without a lock, and by several behind a std::mutex.
#ifndef BENCH_QUEUES_HEAP_HPP
#define BENCH_QUEUES_HEAP_HPP

#include "item.hpp"

#include <cstddef>
#include <mutex>
#include <queue>
#include <vector>

template <class Kept> using standard_heap = std::priority_queue<Kept, std::vector<Kept>, is_later>;

// A heap whose storage has grown to its full size before anything is measured.
template <class Kept> standard_heap<Kept> heap_with_room(std::size_t room) {
    std::vector<Kept> storage;
    storage.reserve(room);
    return standard_heap<Kept>(is_later(), std::move(storage));
}

struct no_setting {};

// `Lock` is std::mutex, or no_lock where there is one thread alone.
template <class Lock, class Kept> class locked_heap {
public:
    using setting = no_setting;

    locked_heap(std::size_t, std::size_t room, setting) : heap_(heap_with_room<Kept>(room)) {}

    class handle {
    public:
        explicit handle(locked_heap &of) : of_(&of) {}

        void insert(item given) {
            std::lock_guard<Lock> guard(of_->lock_);
            of_->heap_.push(given);
        }

        bool delete_min(item &out) {
            std::lock_guard<Lock> guard(of_->lock_);
            if (of_->heap_.empty()) return false;
            out = of_->heap_.top();
            of_->heap_.pop();
            return true;
        }

    private:
        locked_heap *of_;
    };

    handle handle_of(std::size_t) { return handle(*this); }

private:
    alignas(128) Lock lock_;
    alignas(128) standard_heap<Kept> heap_;
};

struct no_lock {
    void lock() {}
    void unlock() {}
};

template <class Kept> using heap_alone = locked_heap<no_lock, Kept>;
template <class Kept> using heap_and_mutex = locked_heap<std::mutex, Kept>;

#endif
