// The queues that are compared, each with one setting of its parameters, and what is measured of them.
#ifndef BENCH_SUBJECTS_HPP
#define BENCH_SUBJECTS_HPP

#include "latency.hpp"
#include "paths.hpp"
#include "record.hpp"
#include "search.hpp"
#include "workloads.hpp"

#include <functional>
#include <string>
#include <vector>

// Where a queue takes part.
enum class part {
    everywhere,
    as_setting, // another setting of a queue: only where settings are compared, with the most threads
    as_wide     // a queue once more, with items of 32 bytes: only with the most threads
};

struct subject {
    std::string queue, parameter;
    part takes;
    bool is_exact = false;          // passes over no item
    bool is_for_one_thread = false; // has no lock
    bool has_fixed_room = false;    // so it takes no part in searches
    bool keeps_processors = false;  // a thread that waits does, so there may not be more of them than processors
    std::size_t k = 0;              // of our queue; 0 for the others

    std::function<double(const workload &, double seconds, const placing &)> throughput; // operations a second
    std::function<timed_calls(const workload &, double seconds, const placing &)> latency;
    std::function<std::vector<call>(const workload &, std::size_t steps)> by_turns;
    std::function<std::vector<call>(const workload &, std::size_t steps, const placing &, double stop)> in_threads;
    std::function<search_result(const search_task &, const placing &)> search_for;
    std::function<paths_result(const paths_task &, const placing &)> find_paths;
};

std::vector<subject> subjects();

// Lines about the libraries that are compared: the version of each, or that it was skipped.
std::vector<std::string> versions();

#endif
