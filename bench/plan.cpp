#include "plan.hpp"

#include "queues/klsm_board.hpp"
#include "threads.hpp"

#include <algorithm>
#include <cstdlib>
#include <cstring>

namespace {

void make_short(plan &one) {
    one.rounds = 3;
    one.seconds = 0.03;
    one.items = {1000, 10000};
    one.setting_items = 10000;
    one.work_items = {10000};
    one.rank_calls = 40000;
    one.stop = 0.1;
    one.has_worst_settings = false;
    one.searches = {{0, 36, 5, 17000},
                    {1, 36, 5, 17000},
                    {10, 36, 5, 17000},
                    {100, 30, 7, 1500},
                    {1, 36, 3, 12400, "strong"}};
    one.graph_nodes = 20000;
}

// 1, 2, 4 and so on, and as many as there are processors.
std::vector<std::size_t> numbers_of_threads() {
    const std::size_t most = std::min<std::size_t>(processors().size(), KLSM_MAX_THREADS);
    std::vector<std::size_t> numbers;
    for (std::size_t threads = 1; threads < most; threads *= 2)
        numbers.push_back(threads);
    numbers.push_back(most);
    return numbers;
}

double number_of(const char *word) {
    char *end;
    const double number = std::strtod(word, &end);
    if (*end != 0 || !(number > 0 && number < 1e6)) stop("a number above 0 was expected");
    return number;
}

} // namespace

plan plan_of(int count, char **words) {
    plan one;
    one.threads = numbers_of_threads();
    for (int i = 1; i < count; i++)
        if (std::strcmp(words[i], "--quick") == 0) make_short(one);
    for (int i = 1; i < count; i++) {
        const std::string word = words[i];
        auto value = [&] {
            if (++i == count) stop((word + " wants a value").c_str());
            return words[i];
        };
        if (word == "--csv")
            one.csv = value();
        else if (word == "--command")
            one.command = value();
        else if (word == "--only")
            one.only = value();
        else if (word == "--load")
            one.load = value();
        else if (word == "--rounds")
            one.rounds = std::max<std::size_t>(1, std::size_t(number_of(value())));
        else if (word == "--seconds")
            one.seconds = number_of(value());
        else if (word == "--no-bind")
            one.is_bound = false;
        else if (word != "--quick")
            stop(("unknown word " + word).c_str());
    }
    if (one.csv.empty()) stop("--csv FILE is missing");
    const std::vector<std::string> parts{"throughput", "work", "latency", "rank", "worst", "search", "paths"};
    if (!one.only.empty() && std::find(parts.begin(), parts.end(), one.only) == parts.end())
        stop("--only wants throughput, work, latency, rank, worst, search or paths");
    return one;
}
