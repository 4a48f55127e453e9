// What a run measures, in full and as a trial.
#ifndef BENCH_PLAN_HPP
#define BENCH_PLAN_HPP

#include "workloads.hpp"

#include <string>
#include <vector>

// A search: its work for each node, and the knapsack, with the nodes that one thread examines.
struct planned_search {
    std::size_t microseconds, things;
    std::uint64_t seed;
    std::size_t nodes;
    std::string kind{}; // of Pisinger's classes; the harness's own where it is empty

    std::string name() const { return "search " + (kind.empty() ? "" : kind + " ") + std::to_string(microseconds) + " us"; }
};

struct plan {
    std::string csv;     // the file that is written
    std::string command; // for the comments in it
    std::string load;    // of the machine, when bench/run began
    std::string only;    // one of the parts; all where it is empty
    bool is_bound = true;
    std::size_t rounds = 5;
    double seconds = 1; // for which a figure is measured, in all rounds together
    std::vector<std::size_t> threads;

    std::vector<std::size_t> items{1000, 100000, 1000000};
    std::size_t setting_items = 100000; // with which settings, rank errors and latencies are compared

    std::vector<std::size_t> work_items{1000, 100000};
    std::vector<double> work{0.3, 1, 3}; // microseconds between the two calls of a pair

    std::size_t rank_calls = 120000;
    double stop = 1; // seconds for which a thread is stopped
    bool has_worst_settings = true;

    // Much work has a smaller knapsack, so that it does not take most of a run.
    std::vector<planned_search> searches{{0, 48, 7, 131000},
                                         {1, 48, 7, 131000},
                                         {10, 48, 7, 131000},
                                         {100, 48, 6, 13700},
                                         {1, 44, 3, 151000, "strong"},
                                         {1, 48, 4, 153000, "strong"},
                                         {1, 40, 4, 123000, "almost strong"},
                                         {1, 44, 3, 64000, "inverse"}};

    std::size_t graph_nodes = 250000;

    bool has(const char *part) const { return only.empty() || only == part; }
    std::size_t most_threads() const { return threads.back(); }
    double seconds_of_a_round() const { return seconds / double(rounds); }
};

// From the words of the command line. Stops the program where one is not known.
plan plan_of(int count, char **words);

#endif
