// A 0-1 knapsack by best-first branch and bound: all threads share the open nodes by one queue, in
// which a node's key is how far its bound lies below the root's. So the most promising nodes come first;
// of those of one bound the deepest, and of these the newest. The answer is compared with that of dynamic
// programming.
//
//     c++ -std=c++17 branch_and_bound.cpp -Iinclude libklsm.a -pthread
#include "klsm.hpp"

#include <algorithm>
#include <atomic>
#include <cstdio>
#include <random>
#include <thread>
#include <vector>

struct thing {
    std::uint64_t value, weight;
};

struct instance {
    std::vector<thing> things; // by value for weight, the greatest first
    std::uint64_t capacity;
};

// A node has decided on the first `level` things. All of it but the bound is in the item's load, so
// that no node needs memory of its own: at most 56 things.
struct node {
    std::size_t level;
    std::uint64_t picks; // bit i: thing i is in

    static node of(std::uint64_t load) { return {load >> 56, load & ((std::uint64_t(1) << 56) - 1)}; }
    std::uint64_t load() const { return std::uint64_t(level) << 56 | picks; }
};

class search {
public:
    explicit search(const instance &given) : given_(given) {}

    // The greatest value of all selections.
    std::uint64_t solve(std::size_t threads) {
        klsm::queue queue(threads);
        top_ = bound(node{0, 0});
        {
            klsm::member member = queue.member(0).value();
            open(member, node{0, 0}, top_);
        }
        std::vector<std::thread> crew;
        for (std::size_t t = 0; t < threads; t++)
            crew.emplace_back([this, member = queue.member(t).value()]() mutable { work(member); });
        for (std::thread &thread : crew) thread.join();
        if (nodes_.left() != 0 || nodes_.given_up() != 0) std::abort(); // not all was searched
        klsm::account account = queue.close();
        if (!account.left.empty() || account.inserted != account.deleted) std::abort();
        return best_;
    }

private:
    void work(klsm::member &member) {
        while (klsm::piece<klsm::item> item = nodes_.next(member)) {
            branch(member, node::of(item->load), top_ - klsm::bound_of_node(item->key));
            item.done();
        }
    }

    // Opens the children of a node, unless its bound shows that none of them is better than the best.
    void branch(klsm::member &member, node at, std::uint64_t bounded) {
        if (bounded <= best_ || at.level == given_.things.size()) return;
        node without{at.level + 1, at.picks}, with{at.level + 1, at.picks | std::uint64_t(1) << at.level};
        if (weight(with) <= given_.capacity) {
            raise(value(with));
            open(member, with, bounded); // the bound does not change by a thing that fits
        }
        open(member, without, bound(without));
    }

    // Puts a node in. One that finds no room is searched at once, as a part of its parent, so that none is lost.
    void open(klsm::member &member, node at, std::uint64_t bounded) {
        if (bounded <= best_) return;
        std::uint64_t key = klsm::key_of_node(top_ - bounded, std::uint32_t(at.level), member.inserted());
        if (nodes_.insert(member, key, at.load()) != klsm::code::ok) branch(member, at, bounded);
    }

    void raise(std::uint64_t value) {
        std::uint64_t best = best_;
        while (value > best && !best_.compare_exchange_weak(best, value)) {
        }
    }

    template <class Part> std::uint64_t sum(node at, Part part) const {
        std::uint64_t sum = 0;
        for (std::size_t i = 0; i < at.level; i++)
            if (at.picks >> i & 1) sum += given_.things[i].*part;
        return sum;
    }
    std::uint64_t value(node at) const { return sum(at, &thing::value); }
    std::uint64_t weight(node at) const { return sum(at, &thing::weight); }

    // No selection that agrees with the node has a greater value: the rest is filled up by the
    // steepest things, the last of them in part.
    std::uint64_t bound(node at) const {
        std::uint64_t bounded = value(at), room = given_.capacity - weight(at);
        for (std::size_t i = at.level; i < given_.things.size(); i++) {
            const thing &next = given_.things[i];
            if (next.weight > room) return bounded + next.value * room / next.weight;
            bounded += next.value;
            room -= next.weight;
        }
        return bounded;
    }

    const instance &given_;
    std::uint64_t top_ = 0;               // the root's bound
    std::atomic<std::uint64_t> best_{0};  // the greatest value found
    klsm::work nodes_;                    // nodes that are in the queue or in a thread's hands
};

static std::uint64_t by_table(const instance &given) {
    std::vector<std::uint64_t> best(given.capacity + 1);
    for (const thing &one : given.things)
        for (std::uint64_t room = given.capacity; room >= one.weight; room--)
            best[room] = std::max(best[room], best[room - one.weight] + one.value);
    return best[given.capacity];
}

int main() {
    std::mt19937_64 draw(1);
    instance given{{}, 0};
    for (int i = 0; i < 40; i++) {
        std::uint64_t weight = 1000 + draw() % 9000;
        given.things.push_back({weight + 500 + draw() % 10, weight});
        given.capacity += weight;
    }
    given.capacity /= 2;
    std::sort(given.things.begin(), given.things.end(),
              [](const thing &a, const thing &b) { return a.value * b.weight > b.value * a.weight; });
    std::uint64_t found = search(given).solve(4), expected = by_table(given);
    std::printf("best value %llu, by the table %llu\n", (unsigned long long)found, (unsigned long long)expected);
    return found == expected ? 0 : 1;
}
