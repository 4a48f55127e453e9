// The workloads: which keys are inserted, and in which order threads insert and delete.
// - uniform: for each call a coin says whether it is an insertion of a random key or a deletion.
// - pairs: an insertion of a random key, and a deletion, in turns.
// - hold: a deletion, and an insertion of its key plus a random step, in turns.
// - ascending: as pairs, with keys that are greater than those before.
// - work: hold, with work of a known length between the deletion and the insertion.
// Before these the queue is filled by one thread, which inserts by the handles of all in turns.
#ifndef BENCH_WORKLOADS_HPP
#define BENCH_WORKLOADS_HPP

#include "draws.hpp"
#include "queues/item.hpp"
#include "spin.hpp"
#include "threads.hpp"

#include <algorithm>
#include <atomic>
#include <cstddef>
#include <cstdint>
#include <memory>
#include <string>
#include <vector>

enum class pattern { uniform, pairs, hold, ascending };

inline std::string name_of(pattern one) {
    const char *names[] = {"uniform", "pairs", "hold", "ascending"};
    return names[int(one)];
}

struct workload {
    pattern what;
    std::size_t threads;
    std::size_t items; // live between two pairs; at uniform some more or fewer
    std::uint64_t seed;
    std::uint64_t spins = 0; // steps of spin(), between the two calls of a pair

    // A pair of calls, but at uniform one call.
    std::size_t calls_of_a_step() const { return what == pattern::uniform ? 1 : 2; }

    // All that may live at once. At uniform as many come more than are deleted as coins give: after n calls some
    // sqrt(n), and n is below 10^8.
    std::size_t room() const { return items + threads + (what == pattern::uniform ? 65536 : 0); }
};

// The keys of a workload. A step has the same key and the same coin whichever thread makes it and whichever queue it
// is made with.
class workload_keys {
public:
    explicit workload_keys(const workload &given) : given_(given) {}

    std::uint64_t of_filling(std::uint64_t i) const { return of(i); }
    std::uint64_t of_step(std::uint64_t i) const { return of(given_.items + i); }

    // Whether this step of uniform inserts.
    bool inserts(std::uint64_t step) const { return (draws::at(given_.seed, given_.items + step) & 1) != 0; }

private:
    std::uint64_t of(std::uint64_t i) const {
        return given_.what == pattern::ascending ? i : draws::at(given_.seed, i) >> 24;
    }

    const workload given_;
};

// Calls as they are. What records calls (record.hpp) or times them (latency.hpp) has the same two functions.
struct plain_calls {
    template <class Handle> void insert(Handle &by, item given) { by.insert(given); }
    template <class Handle> bool delete_min(Handle &by, item &out) { return by.delete_min(out); }
};

// What one thread does. Both halves of a step may be made apart, with others' calls between them. At uniform the
// second one is empty.
template <class Handle, class Calls> class worker {
public:
    worker(const workload &given, Handle by, Calls calls = Calls())
        : given_(given), keys_(given), by_(by), calls_(calls) {}

    void first_half(std::uint64_t step) {
        if (given_.what == pattern::hold)
            remove();
        else if (given_.what != pattern::uniform || keys_.inserts(step))
            insert(keys_.of_step(step), step);
        else
            calls_.delete_min(by_, last_); // where it finds nothing, it is a call all the same
    }

    void second_half(std::uint64_t step) {
        if (given_.what == pattern::hold)
            insert(last_.key + keys_.of_step(step), step);
        else if (given_.what != pattern::uniform)
            remove();
    }

    void run(std::uint64_t step) {
        first_half(step);
        spin(given_.spins);
        second_half(step);
    }

    Calls &calls() { return calls_; }

private:
    // No two items have one load.
    void insert(std::uint64_t key, std::uint64_t step) { calls_.insert(by_, {key, given_.items + step}); }

    // A deletion that finds no item is made again. There are as many items as the filling had.
    void remove() {
        for (std::size_t misses = 0; !calls_.delete_min(by_, last_); misses++)
            if (misses > 100000000) stop("an item cannot be found");
    }

    const workload given_;
    const workload_keys keys_;
    Handle by_;
    item last_;
    Calls calls_;
};

// Steps that threads take up by hundreds, so that none is ahead of the others by more, however unequally a queue or
// the machine serves them.
class common_steps {
public:
    static constexpr std::uint64_t most = 100;

    std::uint64_t take() { return next_.fetch_add(most, std::memory_order_relaxed); }

private:
    alignas(128) std::atomic<std::uint64_t> next_{0};
};

// The steps of one thread.
class own_steps {
public:
    explicit own_steps(common_steps &from) : from_(&from) {}

    std::uint64_t next() {
        if (left_ == 0) {
            at_ = from_->take();
            left_ = common_steps::most;
        }
        left_--;
        return at_++;
    }

private:
    common_steps *from_;
    std::uint64_t at_ = 0, left_ = 0;
};

// Fills a queue by the handles of all threads in turns.
template <class Handle, class Calls> void fill(const workload &given, std::vector<Handle> &handles, Calls &calls) {
    const workload_keys keys(given);
    for (std::uint64_t i = 0; i < given.items; i++)
        calls.insert(handles[i % handles.size()], {keys.of_filling(i), i});
}

template <class Queue> auto handles_of(Queue &queue, std::size_t threads) {
    std::vector<typename Queue::handle> handles;
    for (std::size_t t = 0; t < threads; t++)
        handles.push_back(queue.handle_of(t));
    return handles;
}

// A worker and its steps. It is made by its own thread, in whose pages it lies then.
template <class Queue, class Calls> struct alignas(128) placed_worker {
    worker<typename Queue::handle, Calls> by;
    own_steps steps;
};

// Fills a queue, and has each thread make calls for so many seconds. When they begin to count, begin(calls) is run for
// the calls of each thread, and end(calls) when all have ended.
template <class Queue, class Calls, class Begin, class End>
done call_for(const workload &given, double seconds, const placing &where, typename Queue::setting setting, Begin begin,
            End end) {
    using placed = placed_worker<Queue, Calls>;
    Queue queue(given.threads, given.room(), setting);
    auto handles = handles_of(queue, given.threads);
    plain_calls calls;
    fill(given, handles, calls);
    common_steps steps;
    std::vector<std::unique_ptr<placed>> workers(given.threads);
    const done all = repeat_for(
        seconds, given.threads, where,
        [&](std::size_t t) { workers[t].reset(new placed{{given, handles[t]}, own_steps(steps)}); },
        [&](std::size_t t) { begin(workers[t]->by.calls()); },
        [&](std::size_t t) {
            workers[t]->by.run(workers[t]->steps.next());
            return given.calls_of_a_step();
        });
    for (const auto &one : workers)
        end(one->by.calls());
    return all;
}

// Operations a second of all threads together.
template <class Queue>
double operations_per_second(const workload &given, double seconds, const placing &where,
                             typename Queue::setting setting) {
    const auto nothing = [](plain_calls &) {};
    const done all = call_for<Queue, plain_calls>(given, seconds, where, setting, nothing, nothing);
    return double(all.count) / all.seconds;
}

#endif
