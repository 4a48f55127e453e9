// README's first block, which bindings/check takes out as block.hpp, with what it names: a cheapest way through the
// rows of a table, of which each has a cheap column in the one before.
#include "klsm.hpp"

#include <algorithm>
#include <array>
#include <atomic>
#include <cstdio>
#include <thread>
#include <vector>

constexpr std::uint32_t ROWS = 10, COLUMNS = 3;

// The first `depth` rows are decided, which cost so much.
struct Node {
    std::uint64_t bound;
    std::uint32_t depth, last;
};

// A table that is as good as random, where to stay in a column costs more.
static std::uint64_t cost(std::uint32_t row, std::uint32_t column, std::uint32_t last) {
    return (row * 7919 + column * 104729 + 13) % 31 + (column == last ? 9 : 0);
}

static void lower(std::atomic<std::uint64_t> &best, std::uint64_t to) {
    std::uint64_t least = best;
    while (to < least && !best.compare_exchange_weak(least, to)) {
    }
}

static std::vector<Node> children_below(std::atomic<std::uint64_t> &best, const Node &node) {
    std::vector<Node> children;
    for (std::uint32_t column = 0; column < COLUMNS; column++) {
        Node child{node.bound + cost(node.depth, column, node.last), node.depth + 1, column};
        if (child.depth == ROWS) lower(best, child.bound);
        else if (child.bound < best) children.push_back(child);
    }
    return children;
}

static std::uint64_t by_table() {
    std::array<std::uint64_t, COLUMNS + 1> cheapest{};
    for (std::uint32_t row = ROWS; row-- > 0;) {
        std::array<std::uint64_t, COLUMNS + 1> next = cheapest;
        for (std::uint32_t last = 0; last <= COLUMNS; last++) {
            cheapest[last] = UINT64_MAX;
            for (std::uint32_t column = 0; column < COLUMNS; column++)
                cheapest[last] = std::min(cheapest[last], cost(row, column, last) + next[column]);
        }
    }
    return cheapest[COLUMNS];
}

int main() {
    std::atomic<std::uint64_t> best{UINT64_MAX};
#include "block.hpp"
    {
        auto member = queue.member(0).value();
        if (work.insert(member, 0, Node{0, 0, COLUMNS}) != klsm::code::ok) return 1;
    }
    std::vector<std::thread> crew;
    for (std::size_t t = 0; t < 4; t++) crew.emplace_back(search, queue.member(t).value());
    for (std::thread &thread : crew) thread.join();
    std::printf("least cost %d, by the table %d\n", static_cast<int>(best.load()), static_cast<int>(by_table()));
    return best == by_table() && work.left() == 0 && work.given_up() == 0 && !work.is_stopped() ? 0 : 1;
}
