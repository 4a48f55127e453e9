// Shortest paths from one node to all, by several threads that share the open nodes by one queue: Dijkstra's algorithm,
// where a node may be taken up too early, and then again. An item is a distance and the node that was reached by it. A
// node whose distance has become less since is passed over when its old item comes.
#ifndef BENCH_PATHS_HPP
#define BENCH_PATHS_HPP

#include "graphs.hpp"
#include "klsm.h"
#include "queues/item.hpp"
#include "threads.hpp"

#include <atomic>
#include <numeric>
#include <vector>

struct paths_task {
    const graph *given;
    std::size_t threads;
};

struct paths_result {
    double seconds;
    std::uint64_t expansions; // how often a node's edges were looked at
    std::vector<std::uint64_t> distances;
};

template <class Queue> class paths {
    using handle = typename Queue::handle;

public:
    static constexpr std::size_t room = std::size_t(1) << 20;

    paths(const paths_task &task, typename Queue::setting setting)
        : threads_(task.threads), given_(*task.given), queue_(task.threads, room, setting), distances_(given_.nodes()) {
        for (std::atomic<std::uint64_t> &one : distances_)
            one.store(unreached, std::memory_order_relaxed);
    }

    paths_result run(const placing &where) {
        std::vector<handle> handles;
        std::vector<std::uint64_t> expansions(threads_);
        for (std::size_t t = 0; t < threads_; t++)
            handles.push_back(queue_.handle_of(t));
        reach(handles[0], given_.start, 0);
        const double seconds = time_of(
            threads_, where, [](std::size_t) {}, [&](std::size_t t) { expansions[t] = work(handles[t]); });
        std::vector<std::uint64_t> distances(distances_.begin(), distances_.end());
        return {seconds, std::accumulate(expansions.begin(), expansions.end(), std::uint64_t(0)),
                std::move(distances)};
    }

private:
    // How many nodes this thread has expanded. That no item is found is not the end: another thread may be about to
    // insert some.
    std::uint64_t work(handle by) {
        std::uint64_t expansions = 0;
        klsm_pause pause = klsm_first_pause();
        for (item next;;)
            if (by.delete_min(next)) {
                if (next.key == distances_[next.load].load(std::memory_order_relaxed)) {
                    expansions++;
                    expand(by, std::size_t(next.load), next.key);
                }
                klsm_work_done(&open_);
                pause = klsm_first_pause();
            } else if (klsm_work_left(&open_) == 0)
                return expansions;
            else
                klsm_work_wait(&pause);
    }

    void expand(handle &by, std::size_t at, std::uint64_t distance) {
        for (std::size_t i = given_.firsts[at]; i < given_.firsts[at + 1]; i++)
            reach(by, given_.edges[i].to, distance + given_.edges[i].length);
    }

    // A node is reached by a way of this length.
    void reach(handle &by, std::size_t node, std::uint64_t distance) {
        std::uint64_t known = distances_[node].load(std::memory_order_relaxed);
        do {
            if (distance >= known) return;
        } while (!distances_[node].compare_exchange_weak(known, distance, std::memory_order_relaxed));
        klsm_work_open(&open_, 1);
        by.insert({distance, node});
    }

    const std::size_t threads_;
    const graph &given_;
    Queue queue_;
    std::vector<std::atomic<std::uint64_t>> distances_;
    klsm_work open_ = {};
};

#endif
