// What a run measures, as a list of jobs, so that its length is known before it begins.
#ifndef BENCH_MEASURES_HPP
#define BENCH_MEASURES_HPP

#include "plan.hpp"
#include "report.hpp"
#include "subjects.hpp"

#include <functional>
#include <string>
#include <vector>

// All queues at one place of the plan.
struct job {
    std::string name;
    double seconds; // that it takes, as far as can be told
    std::function<void()> run;
};

// What the jobs need. It outlives them.
struct bench {
    plan given;
    std::vector<subject> all;
    report &to;
    placing where;
    double steps_in_a_microsecond;
    double ticks_in_a_nanosecond;
};

std::vector<job> throughput_jobs(const bench &with);
std::vector<job> work_jobs(const bench &with);
std::vector<job> latency_jobs(const bench &with);
std::vector<job> rank_jobs(const bench &with);
std::vector<job> worst_jobs(const bench &with);
std::vector<job> search_jobs(const bench &with);
std::vector<job> paths_jobs(const bench &with);

#endif
