// Tests of what measures: lengths of calls, rank errors, graphs, shortest paths, and the end of a search.
#include "check.hpp"

#include "graphs.hpp"
#include "latency.hpp"
#include "paths.hpp"
#include "queues/heap.hpp"
#include "queues/skip_list.hpp"
#include "queues/stealing_multiqueue.hpp"
#include "rank.hpp"

namespace {

void counts_lengths() {
    lengths some;
    for (std::uint64_t length = 1; length <= 10000; length++)
        some.add(length);
    check(some.greatest() == 10000);
    for (double share : {0.5, 0.9, 0.99, 0.9999}) {
        const double wanted = share * 10000;
        check(double(some.at(share)) >= wanted && double(some.at(share)) <= wanted * 1.032);
    }
    lengths few;
    few.add(7);
    few.add(std::uint64_t(1) << 63);
    check(few.at(0.5) == 7 && few.at(0.99) == std::uint64_t(1) << 63);
    some.add_all(few);
    check(some.greatest() == std::uint64_t(1) << 63);
}

// Three items of keys 1, 2, 3 by turns; the deletions give 3, 1, 2, and pass over two, none and none.
void counts_rank_errors() {
    const std::vector<call> calls{{1, 1, 1, 0, true},  {2, 2, 2, 1, true},  {3, 3, 3, 5, true},
                                  {4, 4, 3, 5, false}, {5, 5, 1, 0, false}, {6, 6, 2, 1, false}};
    const std::vector<life> lives = lives_of(calls);
    check(lives.size() == 3);
    for (const rank_errors &errors : {replayed(lives), certain(lives)})
        check(errors.greatest == 2 && errors.mean > 0.66 && errors.mean < 0.67);
}

void finds_paths_by_hand() {
    const graph of("by hand", 5, 0, {{0, 1, 4}, {0, 2, 1}, {2, 1, 2}, {1, 3, 5}, {2, 3, 9}, {4, 0, 1}});
    check(dijkstra(of) == (std::vector<std::uint64_t>{0, 3, 1, 8, unreached}));
}

std::size_t reached(const std::vector<std::uint64_t> &distances) {
    return distances.size() - std::size_t(std::count(distances.begin(), distances.end(), unreached));
}

template <class Queue> paths_result found(const graph &of, std::size_t threads, typename Queue::setting setting) {
    return std::make_unique<paths<Queue>>(paths_task{&of, threads}, setting)->run(placing(false));
}

void finds_paths(const graph &of) {
    const std::vector<std::uint64_t> distances = dijkstra(of);
    const std::vector<std::uint64_t> by_boost = boost_dijkstra(of);
    check(by_boost.empty() || by_boost == distances);
    check(reached(distances) > of.nodes() * 9 / 10);
    const paths_result alone = found<heap_alone<item>>(of, 1, {});
    check(alone.distances == distances && alone.expansions == reached(distances));
    check(found<skip_list<item>>(of, 3, {8}).distances == distances);
    check(found<stealing_multiqueue<item>>(of, 3, {4, 8}).distances == distances);
    const double edges = double(of.edges.size()) / double(of.nodes());
    std::printf("%s: %zu nodes, %zu reached, %.2f edges a node\n", of.name.c_str(), of.nodes(), reached(distances),
                edges);
}

void repeats_for_a_time() {
    const done all = repeat_for(
        0.02, 2, placing(false), [](std::size_t) {}, [](std::size_t) {},
        [](std::size_t) {
            spin(100);
            return std::uint64_t(3);
        });
    check(all.count > 0 && all.count % 3 == 0 && all.seconds > 0.015);
}

} // namespace

int main() {
    counts_lengths();
    counts_rank_errors();
    finds_paths_by_hand();
    for (const graph &of : {random_graph(20000, 1), grid_graph(150, 2), road_graph(100, 3)})
        finds_paths(of);
    repeats_for_a_time();
    std::puts("the harness: passed");
}
