#include "graphs.hpp"

#include "draws.hpp"

#include <cmath>
#include <functional>
#include <queue>
#include <utility>

graph::graph(std::string name, std::size_t nodes, std::size_t start, const std::vector<drawn_edge> &drawn)
    : name(std::move(name)), start(start), firsts(nodes + 1), edges(drawn.size()) {
    for (const drawn_edge &one : drawn)
        firsts[one.from + 1]++;
    for (std::size_t i = 0; i < nodes; i++)
        firsts[i + 1] += firsts[i];
    std::vector<std::size_t> next = firsts;
    for (const drawn_edge &one : drawn)
        edges[next[one.from]++] = {one.to, one.length};
}

graph random_graph(std::size_t nodes, std::uint64_t seed) {
    draws from(seed);
    std::vector<drawn_edge> drawn;
    for (std::uint32_t i = 0; i < nodes; i++)
        for (int j = 0; j < 8; j++)
            drawn.push_back({i, std::uint32_t(from.below(nodes)), std::uint32_t(1 + from.below(100000))});
    return graph("random", nodes, 0, drawn);
}

namespace {

void join(std::vector<drawn_edge> &all, std::size_t one, std::size_t other, std::size_t length) {
    all.push_back({std::uint32_t(one), std::uint32_t(other), std::uint32_t(length)});
    all.push_back({std::uint32_t(other), std::uint32_t(one), std::uint32_t(length)});
}

// The junctions and streets of a road map.
class road_map {
public:
    road_map(std::size_t side, std::uint64_t seed) : side_(side), nodes_(side * side), from_(seed) {
        for (std::size_t i = 0; i < nodes_; i++)
            moved_.push_back({from_.below(60), from_.below(60)});
        for (std::size_t y = 0; y < side; y++)
            for (std::size_t x = 0; x < side; x++) {
                if (x + 1 < side) lay(y, x, y, x + 1, y);
                if (y + 1 < side) lay(y, x, y + 1, x, x);
            }
    }

    graph made() const { return graph("road", nodes_, side_ / 2 * side_ + side_ / 2, drawn_); }

private:
    struct place {
        double x, y;
    };

    // In metres.
    place of(std::size_t y, std::size_t x) const {
        const auto &moved = moved_[y * side_ + x];
        return {double(100 * x + moved.first), double(100 * y + moved.second)};
    }

    // A street between two junctions, on the road of this number.
    void lay(std::size_t y, std::size_t x, std::size_t to_y, std::size_t to_x, std::size_t road) {
        const double speed = road % 64 == 0 ? 4 : road % 8 == 0 ? 2 : 1;
        if (speed == 1 && from_.below(4) == 0) return;
        const place begin = of(y, x), end = of(to_y, to_x);
        const double dx = end.x - begin.x, dy = end.y - begin.y;
        const std::size_t pieces = 1 + from_.below(3);
        const std::size_t length = std::size_t(std::sqrt(dx * dx + dy * dy) * 10 / speed) / pieces + 1;
        std::size_t last = y * side_ + x;
        for (std::size_t i = 1; i < pieces; i++) {
            join(drawn_, last, nodes_, length);
            last = nodes_++;
        }
        join(drawn_, last, to_y * side_ + to_x, length);
    }

    const std::size_t side_;
    std::size_t nodes_;
    draws from_;
    std::vector<std::pair<std::size_t, std::size_t>> moved_; // each junction, by so many metres
    std::vector<drawn_edge> drawn_;
};

} // namespace

graph grid_graph(std::size_t side, std::uint64_t seed) {
    draws from(seed);
    std::vector<drawn_edge> drawn;
    for (std::size_t y = 0; y < side; y++)
        for (std::size_t x = 0; x < side; x++) {
            const std::size_t at = y * side + x;
            if (x + 1 < side) join(drawn, at, at + 1, 1 + from.below(1000));
            if (y + 1 < side) join(drawn, at, at + side, 1 + from.below(1000));
        }
    return graph("grid", side * side, side / 2 * side + side / 2, drawn);
}

graph road_graph(std::size_t side, std::uint64_t seed) { return road_map(side, seed).made(); }

std::vector<std::uint64_t> dijkstra(const graph &given) {
    using open = std::pair<std::uint64_t, std::size_t>; // a distance and a node
    std::priority_queue<open, std::vector<open>, std::greater<open>> queue;
    std::vector<std::uint64_t> distances(given.nodes(), unreached);
    distances[given.start] = 0;
    queue.push({0, given.start});
    while (!queue.empty()) {
        const auto [distance, at] = queue.top();
        queue.pop();
        if (distance > distances[at]) continue;
        for (std::size_t i = given.firsts[at]; i < given.firsts[at + 1]; i++) {
            const edge &to = given.edges[i];
            if (distance + to.length >= distances[to.to]) continue;
            distances[to.to] = distance + to.length;
            queue.push({distances[to.to], to.to});
        }
    }
    return distances;
}
