// The exact queue of both programs.
#pragma once
#include <cstdint>
#include <queue>
#include <tuple>
#include <vector>

struct Item {
    uint64_t key;
    uint32_t owner;
    uint64_t number;
    uint64_t load;
};

// The least item is the first to come.
struct IsAfter {
    bool operator()(const Item& a, const Item& b) const {
        return std::tie(a.key, a.owner, a.number) > std::tie(b.key, b.owner, b.number);
    }
};

using Exact = std::priority_queue<Item, std::vector<Item>, IsAfter>;
