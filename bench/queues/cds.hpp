// Two queues of libcds (Debian: libcds-dev, with libboost-thread-dev): flat combining over
// std::priority_queue, in which a thread that waits sleeps for two milliseconds, as the library has it,
// or pauses; and an array heap with a lock for each place. Neither needs the library's garbage collectors.
#ifndef BENCH_QUEUES_CDS_HPP
#define BENCH_QUEUES_CDS_HPP

#include "heap.hpp"
#include "item.hpp"

#include <cds/container/fcpriority_queue.h>
#include <cds/container/mspriority_queue.h>
#include <cstddef>

// A queue of libcds as one of ours.
template <class Queue, class Kept> class cds_queue {
public:
    using setting = no_setting;

    template <class... Arguments> explicit cds_queue(Arguments... given) : queue_(given...) {}

    class handle {
    public:
        explicit handle(Queue &queue) : queue_(&queue) {}

        void insert(item given) {
            if (!queue_->push(given)) stop("a queue of libcds was full");
        }

        bool delete_min(item &out) {
            Kept found;
            if (!queue_->pop(found)) return false;
            out = found;
            return true;
        }

    private:
        Queue *queue_;
    };

    handle handle_of(std::size_t) { return handle(queue_); }

protected:
    alignas(128) Queue queue_;
};

// `Wait` is what a thread does while another one carries out its call.
template <class Wait> struct combining_traits : cds::container::fcpqueue::traits {
    using wait_strategy = cds::algo::flat_combining::wait_strategy::backoff<Wait>;
};

template <class Kept, class Wait>
using combining_queue = cds::container::FCPriorityQueue<Kept, standard_heap<Kept>, combining_traits<Wait>>;

template <class Kept, class Wait> struct flat_combining : cds_queue<combining_queue<Kept, Wait>, Kept> {
    flat_combining(std::size_t, std::size_t room, no_setting) {
        this->queue_.apply([room](standard_heap<Kept> &heap) { heap = heap_with_room<Kept>(room); });
    }
};

// The first is the library's own choice.
template <class Kept> using combining_and_sleep = flat_combining<Kept, cds::backoff::delay_of<2>>;
template <class Kept> using combining_and_pause = flat_combining<Kept, cds::backoff::pause>;

struct array_heap_traits : cds::container::mspriority_queue::traits {
    using less = is_later;
};

template <class Kept> using array_heap_queue = cds::container::MSPriorityQueue<Kept, array_heap_traits>;

// Its room is fixed: the least power of two, less one, that is enough.
template <class Kept> struct array_heap : cds_queue<array_heap_queue<Kept>, Kept> {
    array_heap(std::size_t, std::size_t room, no_setting) : cds_queue<array_heap_queue<Kept>, Kept>(room + 1) {}
};

#endif
