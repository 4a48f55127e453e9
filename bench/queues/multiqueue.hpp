// A MultiQueue: a re-implementation, written for this comparison from what these papers describe. It is
// not their authors' program, and its times are not theirs.
// - H. Rihani, P. Sanders, R. Dementiev, "MultiQueues: Simple Relaxed Concurrent Priority Queues",
//   SPAA 2015: c sequential queues for each thread, each behind a lock that is only tried. An insertion
//   goes to a queue that is drawn, a deletion to the better of two that are drawn.
// - M. Williams, P. Sanders, R. Dementiev, "Engineering MultiQueues: Fast Relaxed Concurrent Priority
//   Queues", ESA 2021: an insertion and a deletion buffer for each queue, the least key in a word that is
//   read without the lock, and stickiness: a thread stays with the queues it has drawn for s calls,
//   unless a lock is held.
// Taken is all that these lines say, with buffers of 16 items and 8-ary heaps. Not taken is what else the
// papers and their authors' programs have, such as other ways to choose queues, and a placing of them
// on machines of several memory nodes. Of its own: where four pairs of queues in turn seem empty, a
// deletion looks at each queue once. It was not compared with their authors' program.
#ifndef BENCH_QUEUES_MULTIQUEUE_HPP
#define BENCH_QUEUES_MULTIQUEUE_HPP

#include "buffered_heap.hpp"
#include "item.hpp"

#include <algorithm>
#include <atomic>
#include <cstddef>
#include <memory>
#include <vector>

template <class Kept> class multiqueue {
    struct alignas(128) inner {
        explicit inner(std::size_t room) : heap(room) {}

        bool try_lock() {
            return !is_held.load(std::memory_order_relaxed) && !is_held.exchange(true, std::memory_order_acquire);
        }

        // Tells the least key, and frees the lock.
        void unlock() {
            least.store(heap.least_key(), std::memory_order_relaxed);
            is_held.store(false, std::memory_order_release);
        }

        std::atomic<bool> is_held{false};
        std::atomic<std::uint64_t> least{UINT64_MAX};
        alignas(128) buffered_heap<Kept> heap;
    };

public:
    struct setting {
        std::size_t c, stickiness;
    };

    multiqueue(std::size_t threads, std::size_t room, setting given) : stickiness_(given.stickiness) {
        // Two at least, from which to choose. Each gets room for more than its share.
        const std::size_t count = std::max<std::size_t>(2, given.c * threads);
        for (std::size_t i = 0; i < count; i++)
            queues_.push_back(std::make_unique<inner>(room / count * 5 / 4 + 1024));
    }

    class handle {
    public:
        handle(multiqueue &of, std::uint64_t seed) : of_(&of), state_(seed * 0x9e3779b97f4a7c15 + 1) {}

        void insert(item given) {
            if (insertions_left_ == 0) draw_for_insertions();
            while (!of_->queues_[into_]->try_lock())
                draw_for_insertions();
            inner &queue = *of_->queues_[into_];
            queue.heap.push(given);
            queue.unlock();
            insertions_left_--;
        }

        bool delete_min(item &out) {
            for (std::size_t seen_empty = 0; seen_empty < 4;) {
                if (deletions_left_ == 0) draw_for_deletions();
                inner &queue = better();
                if (queue.least.load(std::memory_order_relaxed) == UINT64_MAX)
                    seen_empty++;
                else if (take(queue, out)) {
                    deletions_left_--;
                    return true;
                }
                deletions_left_ = 0;
            }
            return take_any(out);
        }

    private:
        // Xorshift of 64 bits, and the high bits of its product for the range.
        std::size_t below(std::size_t end) {
            state_ ^= state_ << 13;
            state_ ^= state_ >> 7;
            state_ ^= state_ << 17;
            return std::size_t((state_ >> 32) * end >> 32);
        }

        void draw_for_insertions() {
            into_ = below(of_->queues_.size());
            insertions_left_ = of_->stickiness_;
        }

        // Two queues, not the same.
        void draw_for_deletions() {
            const std::size_t count = of_->queues_.size();
            one_ = below(count);
            other_ = below(count - 1);
            other_ += other_ >= one_;
            deletions_left_ = of_->stickiness_;
        }

        inner &better() const {
            inner &one = *of_->queues_[one_], &other = *of_->queues_[other_];
            return one.least.load(std::memory_order_relaxed) <= other.least.load(std::memory_order_relaxed) ? one
                                                                                                            : other;
        }

        // Takes the queue's least item, unless its lock is held or it has become empty.
        bool take(inner &queue, item &out) {
            if (!queue.try_lock()) return false;
            const bool found = !queue.heap.is_empty();
            if (found) out = queue.heap.pop();
            queue.unlock();
            return found;
        }

        // Looks at each queue once, and waits for those that are not empty.
        bool take_any(item &out) {
            for (std::unique_ptr<inner> &queue : of_->queues_)
                while (queue->least.load(std::memory_order_relaxed) != UINT64_MAX)
                    if (take(*queue, out)) return true;
            return false;
        }

        multiqueue *of_;
        std::uint64_t state_;
        std::size_t into_ = 0, one_ = 0, other_ = 1;
        std::size_t insertions_left_ = 0, deletions_left_ = 0;
    };

    handle handle_of(std::size_t thread) { return handle(*this, thread + 1); }

private:
    std::vector<std::unique_ptr<inner>> queues_;
    std::size_t stickiness_;
};

#endif
