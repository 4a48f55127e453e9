#include "report.hpp"

#include "threads.hpp"

#include <algorithm>
#include <ctime>
#include <fstream>

namespace {

// What stands after the mark in the first line of a file that begins with the name, without quotes.
std::string field(const char *path, const std::string &name, char mark) {
    std::ifstream file(path);
    for (std::string line; std::getline(file, line);)
        if (line.compare(0, name.size(), name) == 0) {
            line.erase(0, line.find_first_not_of(" \t\"", line.find(mark) + 1));
            return line.substr(0, line.find('"'));
        }
    return "unknown";
}

} // namespace

report::report(const std::string &path) : file_(std::fopen(path.c_str(), "w")) {
    if (file_ == nullptr) stop(("cannot write " + path).c_str());
}

report::~report() { std::fclose(file_); }

void report::comment(const std::string &line) { std::fprintf(file_, "# %s\n", line.c_str()); }

void report::head() { std::fprintf(file_, "what,queue,parameter,threads,workload,items,value,least,greatest,unit\n"); }

// The median is, of an even number, the lower of the two in the middle.
void report::row(const subject &of, const cell &in, const figure &one, const std::vector<double> &rounds) {
    std::fprintf(file_, "%s,%s,%s,%zu,%s,%zu,%.6g,%.6g,%.6g,%s\n", one.what.c_str(), of.queue.c_str(),
                 of.parameter.c_str(), in.threads, in.workload.c_str(), in.items, rounds[(rounds.size() - 1) / 2],
                 rounds.front(), rounds.back(), one.unit.c_str());
}

void report::add(const subject &of, const cell &in, const figure &one) { row(of, in, one, {one.value}); }

void report::compare(const std::vector<const subject *> &all, const cell &in, std::size_t rounds,
                     const measuring &measured) {
    std::vector<std::vector<std::vector<figure>>> figures(all.size()); // by subject, then round
    for (std::size_t round = 0; round < rounds; round++)
        for (std::size_t turn = 0; turn < all.size(); turn++) {
            const std::size_t s = (turn + round * 7) % all.size();
            figures[s].push_back(measured(*all[s], round));
        }
    for (std::size_t s = 0; s < all.size(); s++)
        for (std::size_t i = 0; i < figures[s].front().size(); i++) {
            std::vector<double> values;
            for (const std::vector<figure> &one_round : figures[s])
                values.push_back(one_round[i].value);
            std::sort(values.begin(), values.end());
            row(*all[s], in, figures[s].front()[i], values);
        }
    std::fflush(file_);
}

std::vector<std::string> surroundings() {
    char date[64];
    const std::time_t moment = std::time(nullptr);
    std::strftime(date, sizeof date, "%Y-%m-%d %H:%M UTC", std::gmtime(&moment));
    return {std::string("date: ") + date,
            "processor: " + field("/proc/cpuinfo", "model name", ':'),
            "processors: " + std::to_string(processors().size()),
            "memory: " + field("/proc/meminfo", "MemTotal", ':'),
            "system: " + field("/etc/os-release", "PRETTY_NAME", '='),
#ifdef __clang__
            std::string("compiler: ") + __VERSION__
#else
            std::string("compiler: GCC ") + __VERSION__
#endif
    };
}
