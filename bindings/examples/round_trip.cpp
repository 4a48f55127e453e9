// A shortest round trip by best-first branch and bound, with nodes that carry data of their own: a part of a trip is a
// vector of cities, moved into the queue and out of it. All threads share the open nodes and the best trip. The answer
// is compared with that of dynamic programming.
//
//     c++ -std=c++17 round_trip.cpp -Iinclude libklsm.a -pthread
#include "klsm.hpp"

#include <algorithm>
#include <array>
#include <atomic>
#include <cstdio>
#include <cstdlib>
#include <limits>
#include <mutex>
#include <random>
#include <thread>
#include <vector>

constexpr std::size_t CITIES = 11;

using lengths = std::array<std::array<std::uint64_t, CITIES>, CITIES>;

// A part of a trip from city 0. No trip that begins so is shorter than `bound`.
struct node {
    std::vector<std::size_t> cities{0};
    std::uint64_t length = 0, bound = 0;
};

class search {
public:
    explicit search(const lengths &given) : given_(given) {}

    std::uint64_t solve(std::size_t threads) {
        klsm::typed_queue<node> queue(threads);
        {
            klsm::typed_member<node> first = queue.member(0).value();
            if (nodes_.insert(first, 0, node{}) != klsm::code::ok) std::abort();
        }
        std::vector<std::thread> crew;
        for (std::size_t t = 0; t < threads; t++)
            crew.emplace_back([this, member = queue.member(t).value()]() mutable { work(member); });
        for (std::thread &thread : crew) thread.join();
        if (nodes_.is_stopped()) std::abort(); // for want of memory
        return shortest_;
    }

    const std::vector<std::size_t> &trip() const { return trip_; }

private:
    void work(klsm::typed_member<node> &member) {
        while (auto piece = nodes_.next(member)) {
            node &at = piece->payload;
            if (at.bound < shortest_ && !branch(member, at)) return nodes_.stop();
            piece.done();
        }
    }

    // Opens what follows from a node and may still be shorter than the best. Whether there was room.
    bool branch(klsm::typed_member<node> &member, const node &at) {
        if (at.cities.size() == CITIES) {
            keep(at);
            return true;
        }
        for (std::size_t city = 1; city < CITIES; city++) {
            if (std::count(at.cities.begin(), at.cities.end(), city) > 0) continue;
            node next = at;
            next.length += given_[at.cities.back()][city];
            next.cities.push_back(city);
            next.bound = bound(next);
            if (next.bound >= shortest_) continue;
            auto key = klsm::key_of_node(next.bound, std::uint32_t(next.cities.size()), member.inserted());
            if (nodes_.insert(member, key, std::move(next)) != klsm::code::ok) return false;
        }
        return true;
    }

    // Each city that is left by the trip is left by its shortest way at least.
    std::uint64_t bound(const node &at) const {
        std::uint64_t bound = at.length;
        for (std::size_t city = 0; city < CITIES; city++) {
            bool is_left_already = city != at.cities.back() && std::count(at.cities.begin(), at.cities.end(), city) > 0;
            if (!is_left_already) bound += shortest_way(city);
        }
        return bound;
    }

    std::uint64_t shortest_way(std::size_t from) const {
        std::uint64_t shortest = std::numeric_limits<std::uint64_t>::max();
        for (std::size_t to = 0; to < CITIES; to++)
            if (to != from) shortest = std::min(shortest, given_[from][to]);
        return shortest;
    }

    void keep(const node &whole) {
        std::uint64_t length = whole.length + given_[whole.cities.back()][0];
        std::lock_guard<std::mutex> lock(mutex_);
        if (length >= shortest_) return;
        trip_ = whole.cities;
        shortest_ = length;
    }

    const lengths &given_;
    klsm::work nodes_; // that are in the queue or in a thread's hands
    std::atomic<std::uint64_t> shortest_{std::numeric_limits<std::uint64_t>::max()};
    std::mutex mutex_;
    std::vector<std::size_t> trip_;
};

// The shortest way from city 0 through a set of cities to the last one, for each set and each last one.
static std::uint64_t by_table(const lengths &given) {
    const std::uint64_t none = std::numeric_limits<std::uint64_t>::max() / 2;
    std::vector<std::array<std::uint64_t, CITIES>> shortest(std::size_t(1) << CITIES);
    for (auto &one : shortest) one.fill(none);
    shortest[1][0] = 0;
    for (std::size_t seen = 1; seen < shortest.size(); seen++)
        for (std::size_t last = 0; last < CITIES; last++)
            for (std::size_t city = 1; city < CITIES; city++) {
                if (seen >> city & 1) continue;
                std::uint64_t &to = shortest[seen | std::size_t(1) << city][city];
                to = std::min(to, shortest[seen][last] + given[last][city]);
            }
    std::uint64_t least = none;
    for (std::size_t last = 1; last < CITIES; last++)
        least = std::min(least, shortest.back()[last] + given[last][0]);
    return least;
}

int main() {
    std::mt19937_64 draw(1);
    lengths given{};
    for (auto &row : given)
        for (auto &length : row) length = 100 + draw() % 900;
    search by_bounds(given);
    std::uint64_t found = by_bounds.solve(4), expected = by_table(given), length = 0;
    std::vector<std::size_t> trip = by_bounds.trip();
    for (std::size_t i = 0; i < trip.size(); i++) length += given[trip[i]][trip[(i + 1) % trip.size()]];
    std::printf("shortest trip %llu, by the table %llu\n", static_cast<unsigned long long>(found),
                static_cast<unsigned long long>(expected));
    return found == expected && length == found && trip.size() == CITIES ? 0 : 1;
}
