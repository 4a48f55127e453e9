// A branch-and-bound search by several threads that share the open nodes by one queue. A node's key is
// how far its bound lies below the root's, so the most promising nodes come first; of those with one bound the
// deepest, which are the nearest to a solution; and of those the newest of a thread. A child that takes a thing
// has the bound of its parent, so without this thousands of nodes would share a key.
#ifndef BENCH_SEARCH_HPP
#define BENCH_SEARCH_HPP

#include "klsm.h"
#include "knapsack.hpp"
#include "queues/item.hpp"
#include "spin.hpp"
#include "threads.hpp"

#include <atomic>
#include <numeric>
#include <vector>

struct search_result {
    double seconds;
    std::uint64_t nodes; // those that were examined: each cost the work of a node
    std::uint64_t best;
};

struct search_task {
    const instance *given;
    std::size_t threads;
    std::uint64_t steps; // of spin(), for each node that is examined
};

template <class Queue> class search {
    using handle = typename Queue::handle;

public:
    static constexpr std::size_t room = std::size_t(1) << 20;

    search(const search_task &task, typename Queue::setting setting)
        : task_(task), given_(*task.given), queue_(task.threads, room, setting), top_(given_.bound(0, {0, 0})) {}

    search_result run(const placing &where) {
        std::vector<handle> handles;
        std::vector<std::uint64_t> nodes(task_.threads);
        for (std::size_t t = 0; t < task_.threads; t++)
            handles.push_back(queue_.handle_of(t));
        klsm_work_open(&open_, 1);
        handles[0].insert({klsm_key_of_node(0, 0, 0), node{0, 0}.load()});
        const double seconds = time_of(
            task_.threads, where, [](std::size_t) {}, [&](std::size_t t) { nodes[t] = work(handles[t]); });
        return {seconds, std::accumulate(nodes.begin(), nodes.end(), std::uint64_t(0)), best_};
    }

private:
    // What a thread puts in: the children of one node, and how many it has made of all nodes.
    struct children {
        item of[2];
        int count = 0;
        std::uint64_t made = 0;
    };

    // How many nodes this thread has examined. That no node is found is not the end: another thread may
    // be about to open some.
    std::uint64_t work(handle by) {
        std::uint64_t examined = 0;
        children opened;
        klsm_pause pause = klsm_first_pause();
        for (item next;;)
            if (by.delete_min(next)) {
                if (bound_of(next) > best_.load(std::memory_order_relaxed)) {
                    examined++;
                    examine(by, node::of(next.load), bound_of(next), opened);
                }
                klsm_work_done(&open_);
                pause = klsm_first_pause();
            } else if (klsm_work_left(&open_) == 0)
                return examined;
            else
                klsm_work_wait(&pause);
    }

    // Puts in the children that may still be better than the best.
    void examine(handle &by, node at, std::uint64_t bounded, children &opened) {
        spin(task_.steps);
        opened.count = 0;
        if (at.level != given_.things.size()) branch(at, bounded, opened);
        klsm_work_open(&open_, std::uint64_t(opened.count));
        for (int i = 0; i < opened.count; i++)
            by.insert(opened.of[i]);
    }

    void branch(node at, std::uint64_t bounded, children &opened) {
        const sums without = given_.of(at);
        const thing &next = given_.things[at.level];
        const sums with{without.value + next.value, without.weight + next.weight};
        if (with.weight <= given_.capacity) {
            raise(with.value);
            // The bound does not change by a thing that fits.
            add(node{at.level + 1, at.picks | std::uint64_t(1) << at.level}, bounded, opened);
        }
        add(node{at.level + 1, at.picks}, given_.bound(at.level + 1, without), opened);
    }

    void add(node at, std::uint64_t bounded, children &opened) const {
        if (bounded <= best_.load(std::memory_order_relaxed)) return;
        const std::uint64_t key = klsm_key_of_node(top_ - bounded, std::uint32_t(at.level), opened.made++);
        opened.of[opened.count++] = {key, at.load()};
    }

    std::uint64_t bound_of(const item &one) const { return top_ - klsm_bound_of_node(one.key); }

    void raise(std::uint64_t value) {
        std::uint64_t best = best_.load(std::memory_order_relaxed);
        while (value > best && !best_.compare_exchange_weak(best, value, std::memory_order_relaxed)) {
        }
    }

    const search_task task_;
    const instance &given_;
    Queue queue_;
    const std::uint64_t top_; // the root's bound
    alignas(128) std::atomic<std::uint64_t> best_{0};
    klsm_work open_ = {};
};

#endif
