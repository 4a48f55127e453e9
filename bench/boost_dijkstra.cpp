// Shortest paths by the Boost Graph Library, by which those of dijkstra() are checked.
#include "graphs.hpp"

#if BENCH_BOOST

#include <boost/graph/compressed_sparse_row_graph.hpp>
#include <boost/graph/dijkstra_shortest_paths.hpp>
#include <utility>

namespace {

struct street {
    std::uint64_t length;
};

using boost_graph = boost::compressed_sparse_row_graph<boost::directedS, boost::no_property, street>;

} // namespace

std::vector<std::uint64_t> boost_dijkstra(const graph &given) {
    std::vector<std::pair<std::size_t, std::size_t>> ends;
    std::vector<street> streets;
    for (std::size_t from = 0; from < given.nodes(); from++)
        for (std::size_t i = given.firsts[from]; i < given.firsts[from + 1]; i++) {
            ends.push_back({from, given.edges[i].to});
            streets.push_back({given.edges[i].length});
        }
    const boost_graph of(boost::edges_are_sorted, ends.begin(), ends.end(), streets.begin(), given.nodes());
    std::vector<std::uint64_t> distances(given.nodes());
    boost::dijkstra_shortest_paths(
        of, given.start,
        boost::weight_map(boost::get(&street::length, of))
            .distance_map(boost::make_iterator_property_map(distances.begin(), boost::get(boost::vertex_index, of)))
            .distance_inf(unreached));
    return distances;
}

#else

std::vector<std::uint64_t> boost_dijkstra(const graph &) { return {}; }

#endif
