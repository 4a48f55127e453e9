// concurrent_priority_queue of oneTBB (Debian: libtbb-dev): a binary heap on which one thread carries
// out the waiting calls of all.
#ifndef BENCH_QUEUES_TBB_HPP
#define BENCH_QUEUES_TBB_HPP

#include "heap.hpp"
#include "item.hpp"

#include <cstddef>
#include <tbb/concurrent_priority_queue.h>

template <class Kept> class tbb_queue {
public:
    using setting = no_setting;

    tbb_queue(std::size_t, std::size_t room, setting) : queue_(room) {}

    class handle {
    public:
        explicit handle(tbb_queue &of) : queue_(&of.queue_) {}

        void insert(item given) { queue_->push(given); }

        bool delete_min(item &out) {
            Kept found;
            if (!queue_->try_pop(found)) return false;
            out = found;
            return true;
        }

    private:
        tbb::concurrent_priority_queue<Kept, is_later> *queue_;
    };

    handle handle_of(std::size_t) { return handle(*this); }

private:
    alignas(128) tbb::concurrent_priority_queue<Kept, is_later> queue_;
};

#endif
