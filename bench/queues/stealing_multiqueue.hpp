// A Stealing MultiQueue: a re-implementation, written for this comparison from what this paper describes. It is not its
// authors' program, and its times are not theirs.
// - A. Postnikova, N. Koval, G. Nadiradze, D. Alistarh, "Multi-Queues Can Be State-of-the-Art Priority Schedulers",
//   PPoPP 2022: a sequential d-ary heap for each thread, into which it inserts, and a stealing buffer of the heap's
//   best items, which any thread takes all at once by one atomic step. With the probability p a deletion looks at
//   another thread's buffer, and takes it where its least item is less than the least of its own; what it took, its
//   next deletions give first. Otherwise a thread takes the least of its own.
// Taken is all of that, with 8-ary heaps. Not taken are the form over skip lists and the placing on machines of several
// memory nodes. Of its own: where a thread's own buffer has a lesser item than its heap, it takes that buffer; and
// where it has no item, it looks at each buffer once. It was not compared with its authors' program.
#ifndef BENCH_QUEUES_STEALING_MULTIQUEUE_HPP
#define BENCH_QUEUES_STEALING_MULTIQUEUE_HPP

#include "../draws.hpp"
#include "item.hpp"
#include "octal_heap.hpp"
#include "stealing_buffer.hpp"

#include <algorithm>
#include <cstddef>
#include <memory>
#include <vector>

template <class Kept> class stealing_multiqueue {
public:
    struct setting {
        std::size_t batch;  // how many items a buffer has, at most 64
        std::size_t one_in; // one deletion in so many looks at another thread's buffer
    };

private:
    using buffer = stealing_buffer<Kept>;

    // What belongs to one thread. Others look at the buffer alone.
    struct alignas(128) part {
        part(std::size_t room, std::size_t thread) : heap(room), drawn(thread) {}

        buffer shared;
        alignas(128) octal_heap<Kept> heap;
        draws drawn;
        Kept taken[buffer::most]; // of a buffer, ascending
        std::size_t taken_at = 0, taken_end = 0;
    };

public:
    stealing_multiqueue(std::size_t threads, std::size_t room, setting given) : given_(given) {
        if (given.batch > buffer::most) stop("a stealing buffer has at most 64 items");
        for (std::size_t t = 0; t < threads; t++)
            parts_.push_back(std::make_unique<part>(room / threads * 5 / 4 + 1024, t));
    }

    class handle {
    public:
        handle(stealing_multiqueue &of, std::size_t thread)
            : of_(&of), own_(of.parts_[thread].get()), thread_(thread) {}

        void insert(item given) {
            own_->heap.push(given);
            fill();
        }

        bool delete_min(item &out) {
            if (next_taken(out)) return true;
            const bool looks = of_->parts_.size() > 1 && own_->drawn.below(of_->given_.one_in) == 0;
            if (looks && take_from(drawn_victim()) && next_taken(out)) return true;
            return take_own(out) || take_any(out);
        }

    private:
        bool next_taken(item &out) {
            if (own_->taken_at == own_->taken_end) return false;
            out = own_->taken[own_->taken_at++];
            return true;
        }

        // Moves the least items of the heap to the buffer, where that is taken.
        void fill() {
            if (!own_->shared.is_taken() || own_->heap.is_empty()) return;
            Kept least[buffer::most];
            const std::size_t count = std::min(of_->given_.batch, own_->heap.size());
            for (std::size_t i = 0; i < count; i++)
                least[i] = own_->heap.pop();
            own_->shared.fill(least, count);
        }

        part &drawn_victim() {
            const std::size_t other = own_->drawn.below(of_->parts_.size() - 1);
            return *of_->parts_[other + (other >= thread_)];
        }

        std::uint64_t least_own_key() const {
            return std::min(own_->heap.least_key(), own_->shared.least_key());
        }

        // Takes a buffer whose least item is less than all of its own.
        bool take_from(part &victim) { return victim.shared.least_key() < least_own_key() && take_all_of(victim); }

        bool take_all_of(part &one) {
            own_->taken_at = 0;
            own_->taken_end = one.shared.take(own_->taken);
            return own_->taken_end > 0;
        }

        bool take_own(item &out) {
            fill();
            while (own_->shared.least_key() < own_->heap.least_key())
                if (take_all_of(*own_)) {
                    fill();
                    return next_taken(out);
                }
            if (own_->heap.is_empty()) return false;
            out = own_->heap.pop();
            return true;
        }

        bool take_any(item &out) {
            for (std::unique_ptr<part> &one : of_->parts_)
                if (take_all_of(*one)) return next_taken(out);
            return false;
        }

        stealing_multiqueue *of_;
        part *own_;
        std::size_t thread_;
    };

    handle handle_of(std::size_t thread) { return handle(*this, thread); }

private:
    const setting given_;
    std::vector<std::unique_ptr<part>> parts_;
};

#endif
