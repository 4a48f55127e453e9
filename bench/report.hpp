// The CSV: lines of comment about the run, and a row for each figure: its median, its least and its greatest round.
#ifndef BENCH_REPORT_HPP
#define BENCH_REPORT_HPP

#include "subjects.hpp"

#include <cstdio>
#include <functional>
#include <string>
#include <vector>

struct figure {
    std::string what, unit;
    double value;
};

// What the rows of one comparison have in common.
struct cell {
    std::size_t threads;
    std::string workload;
    std::size_t items;
};

class report {
public:
    // Stops the program where the file cannot be written.
    explicit report(const std::string &path);
    ~report();
    report(const report &) = delete;
    report &operator=(const report &) = delete;

    void comment(const std::string &line);

    // The names of the columns.
    void head();

    // A figure that is not measured.
    void add(const subject &of, const cell &in, const figure &one);

    // Measures each subject in each round, all subjects in turns, each round from another one on. `measured`
    // gives the same figures, in the same order, in each round of a subject.
    using measuring = std::function<std::vector<figure>(const subject &, std::size_t round)>;
    void compare(const std::vector<const subject *> &all, const cell &in, std::size_t rounds,
                 const measuring &measured);

private:
    // A figure with all its rounds, the least first.
    void row(const subject &of, const cell &in, const figure &one, const std::vector<double> &rounds);

    std::FILE *file_;
};

// Lines about the machine, the compiler and the moment.
std::vector<std::string> surroundings();

#endif
