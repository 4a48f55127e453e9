// Branch and bound for the 0-1 knapsack: the instances, their nodes, and the bound of a node.
#ifndef BENCH_KNAPSACK_HPP
#define BENCH_KNAPSACK_HPP

#include "draws.hpp"

#include <algorithm>
#include <cstddef>
#include <cstdint>
#include <vector>

struct thing {
    std::uint64_t value, weight;
};

// A node has decided on the first `level` things. All of it is in an item's load: at most 56 things.
struct node {
    std::size_t level;
    std::uint64_t picks; // bit i: thing i is in

    static node of(std::uint64_t load) { return {std::size_t(load >> 56), load & ((std::uint64_t(1) << 56) - 1)}; }
    std::uint64_t load() const { return std::uint64_t(level) << 56 | picks; }
};

struct sums {
    std::uint64_t value, weight;
};

struct instance {
    std::vector<thing> things; // once they are sorted: by value for weight, the greatest first
    std::uint64_t capacity;

    void sort() {
        std::sort(things.begin(), things.end(),
                  [](const thing &a, const thing &b) { return a.value * b.weight > b.value * a.weight; });
    }

    // The sums of what the node has picked.
    sums of(node at) const {
        sums all{0, 0};
        for (std::uint64_t left = at.picks; left != 0; left &= left - 1) {
            const thing &one = things[std::size_t(__builtin_ctzll(left))];
            all.value += one.value;
            all.weight += one.weight;
        }
        return all;
    }

    // No selection that agrees with a node of this level and these sums has a greater value: the rest is
    // filled up by the steepest things, the last of them in part.
    std::uint64_t bound(std::size_t level, sums at) const {
        std::uint64_t room = capacity - at.weight;
        for (std::size_t i = level; i < things.size(); i++) {
            if (things[i].weight > room) return at.value + things[i].value * room / things[i].weight;
            at.value += things[i].value;
            room -= things[i].weight;
        }
        return at.value;
    }

    // The greatest value of all selections, by dynamic programming.
    std::uint64_t by_table() const {
        std::vector<std::uint64_t> best(capacity + 1);
        for (const thing &one : things)
            for (std::uint64_t room = capacity; room >= one.weight; room--)
                best[room] = std::max(best[room], best[room - one.weight] + one.value);
        return best[capacity];
    }
};

// Weights of 1,000 to 9,999, and values that are nearly the weight and 500, which makes many nodes.
inline instance drawn_instance(std::size_t things, std::uint64_t seed) {
    draws from(seed);
    instance drawn{{}, 0};
    for (std::size_t i = 0; i < things; i++) {
        const std::uint64_t weight = 1000 + from.next() % 9000;
        drawn.things.push_back({weight + 500 + from.next() % 10, weight});
        drawn.capacity += weight;
    }
    drawn.capacity /= 2;
    drawn.sort();
    return drawn;
}

// Classes of instances by which Pisinger (2005, "Where are the hard knapsack problems?") compares solvers: how far a
// thing's value goes with its weight. Of his others some hundred nodes are enough here.
enum class correlation { almost_strong, strong, inverse };

// One number of 1 to 10,000 is the weight, or at `inverse` the value, and the other one is 1,000 more, or nearly so. The
// capacity is half of all weights.
inline instance pisinger_instance(correlation how, std::size_t things, std::uint64_t seed) {
    constexpr std::uint64_t most = 10000, tenth = most / 10, little = most / 500;
    draws from(seed);
    instance drawn{{}, 0};
    for (std::size_t i = 0; i < things; i++) {
        const std::uint64_t one = 1 + from.next() % most;
        std::uint64_t other = one + tenth;
        if (how == correlation::almost_strong) other += from.next() % (2 * little + 1) - little;
        drawn.things.push_back(how == correlation::inverse ? thing{one, other} : thing{other, one});
        drawn.capacity += drawn.things.back().weight;
    }
    drawn.capacity /= 2;
    drawn.sort();
    return drawn;
}

#endif
