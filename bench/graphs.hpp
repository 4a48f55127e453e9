// Graphs in which shortest paths are sought, each drawn from a seed, and the distances that a search has to find.
#ifndef BENCH_GRAPHS_HPP
#define BENCH_GRAPHS_HPP

#include <cstddef>
#include <cstdint>
#include <string>
#include <vector>

struct edge {
    std::uint32_t to, length;
};

// Two ends and a length, in one direction.
struct drawn_edge {
    std::uint32_t from, to, length;
};

struct graph {
    std::string name;
    std::size_t start;                // from which paths are sought
    std::vector<std::size_t> firsts;  // of each node's edges, and the end of all
    std::vector<edge> edges;          // by the nodes that they lead from

    graph(std::string name, std::size_t nodes, std::size_t start, const std::vector<drawn_edge> &drawn);

    std::size_t nodes() const { return firsts.size() - 1; }
};

// Each node leads to eight that are drawn, by lengths of 1 to 100,000.
graph random_graph(std::size_t nodes, std::uint64_t seed);

// A square of so many nodes a side, each joined to its four neighbours, by lengths of 1 to 1,000.
graph grid_graph(std::size_t side, std::uint64_t seed);

// Like a road map: junctions some 100 metres apart, of whose streets a quarter is missing. Each eighth road is a main
// road, on which one is twice as fast, and each 64th a motorway, four times; of these nothing is missing. A street has
// up to two nodes between its junctions, as maps have them for bends. So a node has some 2.5 edges; lengths are times.
graph road_graph(std::size_t side, std::uint64_t seed);

constexpr std::uint64_t unreached = UINT64_MAX;

// The distances from the start, by Dijkstra's algorithm over std::priority_queue.
std::vector<std::uint64_t> dijkstra(const graph &given);

// The same by Boost's function; none where Boost was not compiled in.
std::vector<std::uint64_t> boost_dijkstra(const graph &given);

#endif
