#include "subjects.hpp"

#include "queues/heap.hpp"
#include "queues/klsm_board.hpp"
#include "queues/multiqueue.hpp"
#include "queues/skip_list.hpp"
#include "queues/stealing_multiqueue.hpp"
#if BENCH_TBB
#include "queues/tbb.hpp"
#include <tbb/version.h>
#endif
#if BENCH_CDS
#include "queues/cds.hpp"
#include <cds/version.h>
#endif

#include <memory>
#include <utility>

namespace {

template <class Queue>
subject subject_of(part takes, std::string queue, std::string parameter, typename Queue::setting setting) {
    subject made;
    made.queue = std::move(queue);
    made.parameter = std::move(parameter);
    made.takes = takes;
    made.throughput = [=](const workload &given, double seconds, const placing &where) {
        return operations_per_second<Queue>(given, seconds, where, setting);
    };
    made.latency = [=](const workload &given, double seconds, const placing &where) {
        return timed_in_threads<Queue>(given, seconds, where, setting);
    };
    made.by_turns = [=](const workload &given, std::size_t steps) {
        return record_by_turns<Queue>(given, steps, setting);
    };
    made.in_threads = [=](const workload &given, std::size_t steps, const placing &where, double stop) {
        return record_in_threads<Queue>(given, steps, where, stop, setting);
    };
    // On the heap, since these have parts that are aligned to lines of the cache.
    made.search_for = [=](const search_task &task, const placing &where) {
        return std::make_unique<search<Queue>>(task, setting)->run(where);
    };
    made.find_paths = [=](const paths_task &task, const placing &where) {
        return std::make_unique<paths<Queue>>(task, setting)->run(where);
    };
    return made;
}

std::string named(const char *name, std::size_t value) { return name + std::to_string(value); }

subject board(part takes, std::string queue, std::string parameter, klsm_board::setting setting) {
    subject made = subject_of<klsm_board>(takes, std::move(queue), std::move(parameter), setting);
    made.k = setting.k;
    return made;
}

void add_with_balance(std::vector<subject> &all, std::size_t k, std::size_t refill, std::uint32_t balance) {
    const bool is_shown = k == 1024 && refill == 16 && balance == 16;
    all.push_back(board(is_shown ? part::everywhere : part::as_setting, "k-LSM balance",
                        named("k=", k) + named("; refill=", refill) + named("; balance=", balance),
                        {k, KLSM_FIRST, refill, balance}));
}

void add_boards(std::vector<subject> &all) {
    for (std::size_t k : {4, 16, 64})
        all.push_back(board(k == 64 ? part::everywhere : part::as_setting, "k-LSM first", named("k=", k),
                            {k, KLSM_FIRST, 0, 0}));
    for (std::size_t k : {4, 16, 64})
        all.push_back(board(k == 64 ? part::everywhere : part::as_setting, "k-LSM random", named("k=", k),
                            {k, KLSM_RANDOM, 0, 0}));
    // With k = 64. A refill of 0 is the board with k = 64 above.
    for (std::size_t refill : {1, 4, 16, 64})
        all.push_back(board(refill == 16 ? part::everywhere : part::as_setting, "k-LSM refill",
                            named("refill=", refill), {64, KLSM_FIRST, refill, 0}));
    // With greater own parts, of which a balance keeps the members near to each other.
    for (std::size_t k : {256, 1024})
        for (std::size_t refill : {16, 64, 256})
            add_with_balance(all, k, refill, 16);
    for (std::uint32_t balance : {0, 1, 4, 64})
        add_with_balance(all, 1024, 16, balance);
}

// Queues whose deletions may pass over any number of items.
template <class Kept> void add_relaxed(std::vector<subject> &all, part as_shown, const std::string &width) {
    const bool is_wide = as_shown == part::as_wide;
    auto takes = [&](bool is_shown) { return is_shown ? as_shown : part::as_setting; };
    for (std::size_t stickiness : {1, 4, 16, 64})
        if (!is_wide || stickiness == 4)
            all.push_back(subject_of<multiqueue<Kept>>(takes(stickiness == 4), "MultiQueue c=2" + width,
                                                       named("s=", stickiness), {2, stickiness}));
    for (std::size_t stickiness : {1, 16})
        if (!is_wide)
            all.push_back(subject_of<multiqueue<Kept>>(part::as_setting, "MultiQueue c=4" + width,
                                                       named("s=", stickiness), {4, stickiness}));
    for (std::size_t batch : {1, 4, 16, 64})
        if (!is_wide || batch == 4)
            all.push_back(subject_of<stealing_multiqueue<Kept>>(takes(batch == 4), "Stealing MultiQueue p=1/8" + width,
                                                                named("b=", batch), {batch, 8}));
    for (std::size_t one_in : {2, 4, 16, 32, 64})
        if (!is_wide)
            all.push_back(subject_of<stealing_multiqueue<Kept>>(part::as_setting, "Stealing MultiQueue b=4",
                                                                named("p=1/", one_in), {4, one_in}));
}

// Queues that pass over no item. The calls of the array heap need not take effect at one moment, so that cannot be
// checked of it.
template <class Kept> void add_exact(std::vector<subject> &all, part takes, const std::string &width) {
    const std::size_t first = all.size();
    for (std::size_t offset : {8, 32, 128})
        if (takes != part::as_wide || offset == 8)
            all.push_back(subject_of<skip_list<Kept>>(offset == 8 ? takes : part::as_setting, "skip list" + width,
                                                      named("o=", offset), {offset}));
    all.push_back(subject_of<heap_and_mutex<Kept>>(takes, "heap and mutex" + width, "-", {}));
#if BENCH_TBB
    all.push_back(subject_of<tbb_queue<Kept>>(takes, "oneTBB" + width, "-", {}));
#endif
#if BENCH_CDS
    all.push_back(subject_of<combining_and_pause<Kept>>(takes, "flat combining pauses" + width, "-", {}));
    all.back().keeps_processors = true;
    all.push_back(subject_of<combining_and_sleep<Kept>>(takes, "flat combining sleeps" + width, "-", {}));
#endif
    for (std::size_t i = first; i < all.size(); i++)
        all[i].is_exact = true;
#if BENCH_CDS
    all.push_back(subject_of<array_heap<Kept>>(takes, "array heap" + width, "-", {}));
    all.back().has_fixed_room = true;
#endif
}

} // namespace

std::vector<subject> subjects() {
    std::vector<subject> all;
    add_boards(all);
    add_relaxed<item>(all, part::everywhere, "");
    add_exact<item>(all, part::everywhere, "");
    add_relaxed<wide_item>(all, part::as_wide, " 32 B");
    add_exact<wide_item>(all, part::as_wide, " 32 B");
    all.push_back(subject_of<heap_alone<item>>(part::everywhere, "heap alone", "-", {}));
    all.back().is_for_one_thread = true;
    all.back().is_exact = true;
    return all;
}

std::vector<std::string> versions() {
    std::vector<std::string> lines{
        "k-LSM: this repository's library " KLSM_VERSION,
        "MultiQueue: a re-implementation from the papers, queues/multiqueue.hpp",
        "Stealing MultiQueue: a re-implementation from the paper, queues/stealing_multiqueue.hpp",
        "skip list: a re-implementation from the paper of Linden and Jonsson, queues/skip_list.hpp"};
#if BENCH_TBB
    lines.push_back("oneTBB: " + std::to_string(TBB_VERSION_MAJOR) + "." + std::to_string(TBB_VERSION_MINOR));
#else
    lines.push_back("skipped oneTBB: it could not be compiled; Debian has it as libtbb-dev");
#endif
#if BENCH_CDS
    lines.push_back("flat combining and array heap: libcds " CDS_VERSION_STRING);
#else
    lines.push_back("skipped flat combining and array heap: libcds could not be compiled; Debian has it as "
                    "libcds-dev, with libboost-thread-dev");
#endif
    return lines;
}
