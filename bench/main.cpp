// Measures the queue of this repository beside its peers, and writes a CSV. bench/run builds and calls it.
#include "measures.hpp"
#include "spin.hpp"

#include <cstdarg>
#include <cstdio>

namespace {

const std::uint64_t began = now();

// A line of progress, with the seconds since the program began.
__attribute__((format(printf, 1, 2))) void say(const char *format, ...) {
    std::printf("%5.0f s  ", double(now() - began) / 1e9);
    va_list arguments;
    va_start(arguments, format);
    std::vprintf(format, arguments);
    va_end(arguments);
    std::printf("\n");
    std::fflush(stdout);
}

void write_head(const bench &with) {
    const plan &given = with.given;
    if (!given.command.empty()) with.to.comment("command: " + given.command);
    for (const std::string &line : surroundings())
        with.to.comment(line);
    if (!given.load.empty()) with.to.comment("load when it began: " + given.load);
    for (const std::string &line : versions()) {
        with.to.comment(line);
        std::printf("%s\n", line.c_str());
    }
    char seconds[32];
    std::snprintf(seconds, sizeof seconds, "%g", given.seconds);
    with.to.comment("rounds: " + std::to_string(given.rounds) + ", of " + seconds + " s together; threads are " +
                    (given.is_bound ? "" : "not ") + "bound to processors");
    with.to.comment("a microsecond of work is " + std::to_string(std::uint64_t(with.steps_in_a_microsecond)) +
                    " steps");
}

std::vector<job> jobs_of(const bench &with) {
    std::vector<job> all;
    auto add = [&](const char *part, std::vector<job> (*jobs)(const bench &)) {
        if (with.given.has(part))
            for (job &one : jobs(with))
                all.push_back(std::move(one));
    };
    add("throughput", throughput_jobs);
    add("work", work_jobs);
    add("latency", latency_jobs);
    add("rank", rank_jobs);
    add("worst", worst_jobs);
    add("search", search_jobs);
    add("paths", paths_jobs);
    return all;
}

} // namespace

int main(int count, char **words) {
    const plan given = plan_of(count, words);
    report to(given.csv);
    const bench with{given, subjects(), to, placing(given.is_bound), steps_in_a_microsecond(), ticks_in_a_nanosecond()};
    write_head(with);
    const std::vector<job> jobs = jobs_of(with);
    to.head();
    double left = 0;
    for (const job &one : jobs)
        left += one.seconds;
    say("%zu comparisons, some %.0f minutes", jobs.size(), left / 60 + 0.5);
    for (const job &one : jobs) {
        say("%s; some %.0f s are left", one.name.c_str(), left);
        one.run();
        left -= one.seconds;
    }
    say("done");
}
