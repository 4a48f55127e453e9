#include "measures.hpp"

#include "rank.hpp"

#include <cstdio>

namespace {

using chosen = std::vector<const subject *>;

// What things take, in seconds, on the machine that bench/README.md tells of. The length of a run is made of these.
namespace costs {
constexpr double queue = 0.003;         // a queue is made and dropped, threads begin and end
constexpr double filled_item = 0.35e-6; // it comes, and is freed at the end
constexpr double recorded_call = 1e-6;  // it is made, recorded and replayed
constexpr double queue_of_a_search = 0.01;
constexpr double searched_node = 2e-6;
constexpr double expanded_node = 1.2e-6;
} // namespace costs

std::string in_words(std::size_t threads) {
    return std::to_string(threads) + (threads == 1 ? " thread" : " threads");
}

// A length as the CSV names it: 0.3, 1, 3.
std::string in_microseconds(double length) {
    char text[32];
    std::snprintf(text, sizeof text, "%g us", length);
    return text;
}

// Those that take part with so many threads and items.
chosen those(const bench &with, std::size_t threads, std::size_t items) {
    const bool has_most_threads = threads == with.given.most_threads();
    chosen found;
    for (const subject &one : with.all) {
        if (one.is_for_one_thread && threads > 1) continue;
        if (one.takes == part::as_wide && !has_most_threads) continue;
        if (one.takes == part::as_setting && !(has_most_threads && items == with.given.setting_items)) continue;
        found.push_back(&one);
    }
    return found;
}

chosen those_everywhere(const bench &with, std::size_t threads) {
    chosen found;
    for (const subject &one : with.all)
        if (one.takes == part::everywhere && !(one.is_for_one_thread && threads > 1)) found.push_back(&one);
    return found;
}

// With the most threads all settings, too.
chosen those_that_search(const bench &with, std::size_t threads) {
    chosen found;
    for (const subject *one : those(with, threads, with.given.setting_items))
        if (!one->has_fixed_room && one->takes != part::as_wide) found.push_back(one);
    return found;
}

double seconds_of(const bench &with, const chosen &some, double seconds_of_a_round) {
    return double(some.size() * with.given.rounds) * seconds_of_a_round;
}

double seconds_of_a_timed_round(const bench &with, std::size_t items) {
    return costs::queue + double(items) * costs::filled_item + 1.1 * with.given.seconds_of_a_round();
}

job throughput_job(const bench &with, const std::string &name, const workload &load, const chosen &some) {
    auto measured = [&with, load](const subject &one, std::size_t round) {
        workload given = load;
        given.seed = round;
        const double speed = one.throughput(given, with.given.seconds_of_a_round(), with.where);
        return std::vector<figure>{{"throughput", "operations/s", speed}};
    };
    return {"throughput: " + name + ", " + std::to_string(load.items) + " items, " + in_words(load.threads),
            seconds_of(with, some, seconds_of_a_timed_round(with, load.items)), [=, &with] {
                with.to.compare(some, {load.threads, name, load.items}, with.given.rounds, measured);
            }};
}

std::vector<figure> figures_of(const std::string &kind, const lengths &of, double ticks_in_a_nanosecond) {
    auto figure_of = [&](const char *what, std::uint64_t ticks) {
        return figure{"latency_" + kind + "_" + what, "ns", double(ticks) / ticks_in_a_nanosecond};
    };
    return {figure_of("50", of.at(0.5)), figure_of("99", of.at(0.99)), figure_of("99.99", of.at(0.9999)),
            figure_of("max", of.greatest())};
}

std::vector<figure> figures_of(const std::string &name, const rank_errors &errors) {
    return {{name + "_mean", "items", errors.mean},
            {name + "_99", "items", double(errors.at_99_percent)},
            {name + "_max", "items", double(errors.greatest)}};
}

void check_bound(const subject &one, std::size_t threads, const rank_errors &errors) {
    if (one.k != 0 && errors.greatest > threads * one.k) stop("a deletion passed over more than T*k items");
    if (one.is_exact && errors.greatest > 0) stop((one.queue + " passed over an item").c_str());
}

std::vector<figure> ranks_by_turns(const subject &one, const workload &load, std::size_t steps) {
    const rank_errors exact = replayed(lives_of(one.by_turns(load, steps)));
    check_bound(one, load.threads, exact);
    return figures_of("rank_turns", exact);
}

std::vector<figure> ranks_in_threads(const subject &one, const workload &load, std::size_t steps,
                                     const placing &where, double stop) {
    const std::vector<life> lives = lives_of(one.in_threads(load, steps, where, stop));
    const rank_errors sure = certain(lives);
    check_bound(one, load.threads, sure);
    std::vector<figure> figures = figures_of("rank_threads", replayed(lives));
    for (const figure &other : figures_of("rank_certain", sure))
        figures.push_back(other);
    return figures;
}

void add_bounds(const bench &with, const chosen &some, const cell &in) {
    for (const subject *one : some)
        if (one->k != 0) with.to.add(*one, in, {"rank_bound", "items", double(in.threads * one->k)});
}

// Rank errors of threads, in all rounds, of which one is stopped for so many seconds.
void measure_ranks_in_threads(const bench &with, const workload &load, const chosen &some, const cell &in,
                              double stop) {
    const std::size_t steps = with.given.rank_calls / load.calls_of_a_step();
    with.to.compare(some, in, with.given.rounds, [&](const subject &one, std::size_t round) {
        workload other = load;
        other.seed = round;
        return ranks_in_threads(one, other, steps, with.where, stop);
    });
}

void measure_ranks(const bench &with, const workload &load, const chosen &some) {
    const cell in{load.threads, name_of(load.what), load.items};
    const std::size_t steps = with.given.rank_calls / load.calls_of_a_step();
    add_bounds(with, some, in);
    with.to.compare(some, in, 1,
                    [&](const subject &one, std::size_t) { return ranks_by_turns(one, load, steps); });
    measure_ranks_in_threads(with, load, some, in, 0);
}

// Those that are measured everywhere and, in a whole run, all settings of those that may pass over items.
chosen those_at_worst(const bench &with) {
    chosen found;
    for (const subject &one : with.all) {
        if (one.is_for_one_thread || one.keeps_processors) continue;
        const bool is_setting = one.takes == part::as_setting && !one.is_exact && with.given.has_worst_settings;
        if (one.takes == part::everywhere || is_setting) found.push_back(&one);
    }
    return found;
}

// A job that measures rank errors of threads, of which one is stopped for so many seconds.
job worst_ranks_job(const bench &with, const std::string &name, const workload &load, const chosen &some, double stop) {
    const cell in{load.threads, name, load.items};
    const double seconds = double(load.items + with.given.rank_calls) * costs::recorded_call + stop;
    return {"rank errors: " + name + ", " + in_words(load.threads), seconds_of(with, some, seconds), [=, &with] {
                add_bounds(with, some, in);
                measure_ranks_in_threads(with, load, some, in, stop);
            }};
}

const std::vector<pattern> all_patterns{pattern::uniform, pattern::pairs, pattern::hold, pattern::ascending};

} // namespace

std::vector<job> throughput_jobs(const bench &with) {
    std::vector<job> jobs;
    for (pattern what : all_patterns)
        for (std::size_t items : with.given.items) {
            // As a coin says, a thousand items would be none before long.
            if (what == pattern::uniform && items < 10000) continue;
            for (std::size_t threads : with.given.threads)
                jobs.push_back(throughput_job(with, name_of(what), {what, threads, items, 0},
                                              those(with, threads, items)));
        }
    return jobs;
}

std::vector<job> work_jobs(const bench &with) {
    std::vector<job> jobs;
    for (double length : with.given.work)
        for (std::size_t items : with.given.work_items)
            for (std::size_t threads : with.given.threads) {
                const std::uint64_t spins = std::uint64_t(with.steps_in_a_microsecond * length);
                jobs.push_back(throughput_job(with, "work " + in_microseconds(length),
                                              {pattern::hold, threads, items, 0, spins},
                                              those(with, threads, items)));
            }
    return jobs;
}

std::vector<job> latency_jobs(const bench &with) {
    std::vector<job> jobs;
    const std::size_t items = with.given.setting_items, threads = with.given.most_threads();
    for (pattern what : {pattern::uniform, pattern::hold}) {
        const chosen some = those_everywhere(with, threads);
        auto measured = [&with, what, items, threads](const subject &one, std::size_t round) {
            const workload load{what, threads, items, round};
            const timed_calls all = one.latency(load, with.given.seconds_of_a_round(), with.where);
            std::vector<figure> figures = figures_of("insert", all.insertions, with.ticks_in_a_nanosecond);
            for (const figure &other : figures_of("delete", all.deletions, with.ticks_in_a_nanosecond))
                figures.push_back(other);
            return figures;
        };
        jobs.push_back({"latency: " + name_of(what), seconds_of(with, some, seconds_of_a_timed_round(with, items)),
                        [=, &with] {
                            with.to.compare(some, {threads, name_of(what), items}, with.given.rounds, measured);
                        }});
    }
    return jobs;
}

std::vector<job> rank_jobs(const bench &with) {
    std::vector<job> jobs;
    const std::size_t items = with.given.setting_items;
    for (pattern what : all_patterns)
        for (std::size_t threads : with.given.threads) {
            const chosen some = those(with, threads, items);
            const double seconds = double(items + with.given.rank_calls) * costs::recorded_call;
            jobs.push_back({"rank errors: " + name_of(what) + ", " + in_words(threads),
                            seconds_of(with, some, seconds) + double(some.size()) * seconds,
                            [=, &with] { measure_ranks(with, {what, threads, items, 0}, some); }});
        }
    return jobs;
}

std::vector<job> worst_jobs(const bench &with) {
    const chosen some = those_at_worst(with);
    const std::size_t threads = with.given.most_threads();
    const workload load{pattern::hold, threads, with.given.setting_items, 0};
    std::vector<job> jobs;
    for (std::size_t times : {2, 4}) {
        if (threads * times > KLSM_MAX_THREADS) continue;
        workload crowded = load;
        crowded.threads *= times;
        jobs.push_back(worst_ranks_job(with, "crowded hold", crowded, some, 0));
        jobs.push_back(throughput_job(with, "crowded hold", crowded, some));
    }
    if (threads > 1) jobs.push_back(worst_ranks_job(with, "stopped hold", load, some, with.given.stop));
    return jobs;
}

namespace {

instance instance_of(const planned_search &planned) {
    if (planned.kind.empty()) return drawn_instance(planned.things, planned.seed);
    for (auto [name, how] : {std::pair("strong", correlation::strong),
                             std::pair("almost strong", correlation::almost_strong),
                             std::pair("inverse", correlation::inverse)})
        if (planned.kind == name) return pisinger_instance(how, planned.things, planned.seed);
    stop(("no instances are called " + planned.kind).c_str());
}

} // namespace

std::vector<job> search_jobs(const bench &with) {
    std::vector<job> jobs;
    for (const planned_search &planned : with.given.searches) {
        const instance drawn = instance_of(planned);
        const std::uint64_t best = drawn.by_table();
        const std::size_t microseconds = planned.microseconds, things = planned.things;
        const std::string name = planned.name();
        for (std::size_t threads : with.given.threads) {
            const chosen some = those_that_search(with, threads);
            auto run = [=, &with] {
                const std::uint64_t spins = std::uint64_t(with.steps_in_a_microsecond * double(microseconds));
                const search_task task{&drawn, threads, spins};
                const cell in{threads, name, things};
                with.to.compare(some, in, with.given.rounds, [&](const subject &one, std::size_t) {
                    const search_result found = one.search_for(task, with.where);
                    if (found.best != best) stop((one.queue + ": the search has not found the best").c_str());
                    return std::vector<figure>{{"search_time", "s", found.seconds},
                                               {"search_nodes", "nodes", double(found.nodes)}};
                });
            };
            const double nodes = double(planned.nodes) / double(threads);
            jobs.push_back({name + " a node, " + std::to_string(things) + " things, " + in_words(threads),
                            seconds_of(with, some,
                                       costs::queue_of_a_search +
                                           nodes * (costs::searched_node + double(microseconds) * 1e-6)),
                            run});
        }
    }
    return jobs;
}

namespace {

void measure_paths(const bench &with, const graph &of, const std::vector<std::uint64_t> &distances,
                   std::size_t threads) {
    std::size_t reached = 0;
    for (std::uint64_t one : distances)
        reached += one != unreached;
    const paths_task task{&of, threads};
    const cell in{threads, "paths " + of.name, of.nodes()};
    with.to.compare(those_that_search(with, threads), in, with.given.rounds, [&](const subject &one, std::size_t) {
        const paths_result found = one.find_paths(task, with.where);
        if (found.distances != distances) stop((one.queue + ": a path that was found is not a shortest one").c_str());
        return std::vector<figure>{{"paths_time", "s", found.seconds},
                                   {"paths_useless", "nodes", double(found.expansions - reached)}};
    });
}

std::vector<graph> drawn_graphs(std::size_t nodes) {
    std::size_t side = 1;
    while ((side + 1) * (side + 1) <= nodes)
        side++;
    return {random_graph(nodes, 1), grid_graph(side, 2), road_graph(side * 16 / 25, 3)};
}

} // namespace

std::vector<job> paths_jobs(const bench &with) {
    std::vector<job> jobs;
    for (graph &drawn : drawn_graphs(with.given.graph_nodes)) {
        const auto of = std::make_shared<const graph>(std::move(drawn));
        const auto distances = std::make_shared<const std::vector<std::uint64_t>>(dijkstra(*of));
        const std::vector<std::uint64_t> by_boost = boost_dijkstra(*of);
        if (!by_boost.empty() && by_boost != *distances) stop("Boost finds other shortest paths");
        with.to.comment("paths " + of->name + ": " + std::to_string(of->nodes()) + " nodes, " +
                        std::to_string(of->edges.size()) + " edges; the distances are " +
                        (by_boost.empty() ? "not checked by Boost" : "those of Boost"));
        for (std::size_t threads : with.given.threads)
            jobs.push_back({"paths: " + of->name + ", " + in_words(threads),
                            seconds_of(with, those_that_search(with, threads),
                                       costs::queue_of_a_search +
                                           double(of->nodes()) * costs::expanded_node / double(threads)),
                            [=, &with] { measure_paths(with, *of, *distances, threads); }});
    }
    return jobs;
}
