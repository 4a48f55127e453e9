// A priority queue by a skip list: a re-implementation, written for this comparison from what this paper describes. It
// is not its authors' program, and its times are not theirs.
// - J. Lindén, B. Jonsson, "A Skiplist-Based Concurrent Priority Queue with Minimal Memory Contention", OPODIS 2013:
//   exact and lock-free. The deleted nodes are the first ones of the lowest level; a node is deleted by a mark in the
//   pointer that leads to it, which is one atomic step. Only where a deletion has passed more than so many deleted
//   nodes, the bound offset, does it move the head's pointers behind them, all at once. A node whose insertion is
//   under way at the upper levels stays in the list.
// Taken is all of that, with a level more for each second node. Of its own: nodes may have equal keys, and one goes
// before those of its key. Memory is freed at the end, and none is used again before: where a thread is stopped while
// it moves the head's pointers, a live node may keep a pointer, at an upper level, to one that has left the list; a
// search that follows it comes back to the list by the deleted nodes. It was not compared with its authors' program.
#ifndef BENCH_QUEUES_SKIP_LIST_HPP
#define BENCH_QUEUES_SKIP_LIST_HPP

#include "item.hpp"
#include "skip_nodes.hpp"

#include <cstddef>
#include <memory>
#include <vector>

template <class Kept> class skip_list {
    using node = skip_node<Kept>;
    using nodes = skip_nodes<Kept>;
    static constexpr std::size_t levels = node::most_levels;

public:
    struct setting {
        std::size_t bound_offset;
    };

    skip_list(std::size_t threads, std::size_t, setting given) : bound_offset_(given.bound_offset) {
        for (std::size_t t = 0; t < threads; t++)
            nodes_.push_back(std::make_unique<nodes>(t));
        head_ = nodes_[0]->made({0, 0}, levels);
        end_ = nodes_[0]->made({UINT64_MAX, 0}, levels);
        for (std::size_t i = 0; i < levels; i++)
            head_->next(i).store(link_to(end_));
        head_->is_being_inserted.store(false);
        end_->is_being_inserted.store(false);
    }

    class handle {
    public:
        handle(skip_list &of, std::size_t thread) : of_(&of), nodes_(of.nodes_[thread].get()) {}

        void insert(item given) { of_->insert(*nodes_, given); }
        bool delete_min(item &out) { return of_->delete_min(out); }

    private:
        skip_list *of_;
        nodes *nodes_;
    };

    handle handle_of(std::size_t thread) { return handle(*this, thread); }

private:
    // The neighbours of a key at each level, and the last deleted node, which no mark of its own tells.
    struct place {
        node *before[levels], *after[levels];
        node *last_deleted = nullptr;
    };

    place place_of(std::uint64_t key) const {
        place found;
        node *at = head_;
        for (std::size_t i = levels; i-- > 0;) {
            link_word next = at->next(i).load(std::memory_order_acquire);
            while (is_before(next, key, i)) {
                if (i == 0 && is_marked<Kept>(next)) found.last_deleted = node_of<Kept>(next);
                at = node_of<Kept>(next);
                next = at->next(i).load(std::memory_order_acquire);
            }
            found.before[i] = at;
            found.after[i] = node_of<Kept>(next);
        }
        return found;
    }

    // Whether the way to a key leads past the node of a link: it has a lesser key or is deleted.
    static bool is_before(link_word next, std::uint64_t key, std::size_t level) {
        node *one = node_of<Kept>(next);
        return one->kept.key < key || is_deleted_with_next(one) || (level == 0 && is_marked<Kept>(next));
    }

    // Deleted nodes come first, so a node before a deleted one is deleted.
    static bool is_deleted_with_next(node *one) {
        return is_marked<Kept>(one->next(0).load(std::memory_order_acquire));
    }

    void insert(nodes &own, item given) {
        if (given.key == UINT64_MAX) stop("the skip list takes no key of UINT64_MAX");
        node *one = own.made(given, own.drawn_level());
        place at;
        link_word expected;
        do {
            at = place_of(given.key);
            one->next(0).store(link_to(at.after[0]), std::memory_order_relaxed);
            expected = link_to(at.after[0]);
        } while (!at.before[0]->next(0).compare_exchange_strong(expected, link_to(one)));
        raise(one, at);
        one->is_being_inserted.store(false, std::memory_order_release);
    }

    // Links a node at its upper levels, unless it, or what it would lead to, is deleted meanwhile.
    void raise(node *one, place &at) {
        for (std::size_t i = 1; i < one->levels;) {
            node *after = at.after[i];
            if (is_deleted_with_next(one) || is_deleted_with_next(after) || at.last_deleted == after) return;
            one->next(i).store(link_to(after), std::memory_order_relaxed);
            link_word expected = link_to(after);
            if (at.before[i]->next(i).compare_exchange_strong(expected, link_to(one)))
                i++;
            else {
                at = place_of(one->kept.key);
                if (at.after[0] != one) return; // it is deleted, or another of its key is before it
            }
        }
    }

    bool delete_min(item &out) {
        const link_word first = head_->next(0).load(std::memory_order_acquire);
        node *at = head_, *new_first = nullptr;
        std::size_t passed = 0;
        link_word next;
        do {
            passed++;
            next = at->next(0).load(std::memory_order_acquire);
            if (node_of<Kept>(next) == end_) return false;
            if (new_first == nullptr && at->is_being_inserted.load(std::memory_order_acquire)) new_first = at;
            if (!is_marked<Kept>(next)) next = at->next(0).fetch_or(1);
            at = node_of<Kept>(next);
        } while (is_marked<Kept>(next));
        out = at->kept;
        if (passed > bound_offset_) drop_deleted(first, new_first == nullptr ? at : new_first);
        return true;
    }

    // Takes the nodes before `new_first`, all of them deleted, out of the list, unless the head has moved.
    void drop_deleted(link_word first, node *new_first) {
        if (head_->next(0).load(std::memory_order_relaxed) != first) return;
        if (head_->next(0).compare_exchange_strong(first, marked_link_to(new_first))) restructure();
    }

    // Moves the head's pointers at the upper levels behind the deleted nodes.
    void restructure() {
        node *before = head_;
        for (std::size_t i = levels - 1; i > 0;) {
            link_word first = head_->next(i).load(std::memory_order_acquire); // before the next load
            node *at = node_of<Kept>(before->next(i).load(std::memory_order_acquire));
            if (!is_deleted_with_next(node_of<Kept>(first))) {
                i--;
                continue;
            }
            while (is_deleted_with_next(at)) {
                before = at;
                at = node_of<Kept>(before->next(i).load(std::memory_order_acquire));
            }
            if (head_->next(i).compare_exchange_strong(first, link_to(at))) i--;
        }
    }

    const std::size_t bound_offset_;
    std::vector<std::unique_ptr<nodes>> nodes_; // one for each thread
    node *head_, *end_;
};

#endif
