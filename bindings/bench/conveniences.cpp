// What the conveniences of klsm.hpp cost beside the plain calls: an insertion and a deletion with sixteen items
// there, in nanoseconds, the medians of nine rounds that take turns. One thread.
#include <klsm.hpp>

#include <algorithm>
#include <array>
#include <chrono>
#include <cstdio>
#include <cstdlib>

enum { ROUNDS = 9, CALLS = 1000000, LIVE = 16 };

static volatile std::uint64_t result; // keeps the calls from being left out

using large = std::array<std::uint64_t, 8>;

// Calls that insert a number and delete one, made so often.
template <class Pair> static double time_of(Pair pair) {
    auto start = std::chrono::steady_clock::now();
    std::uint64_t sum = 0;
    for (std::uint64_t i = 0; i < CALLS; i++) sum += pair(i);
    result = sum;
    return std::chrono::duration<double, std::nano>(std::chrono::steady_clock::now() - start).count() / CALLS;
}

static void must(bool holds) {
    if (!holds) std::abort();
}

int main() {
    klsm::queue plain(1), counted(1);
    klsm::typed_queue<std::uint64_t> small(1);
    klsm::typed_queue<large> behind(1);
    klsm::member of_plain = plain.member(0).value(), of_counted = counted.member(0).value();
    auto of_small = small.member(0).value();
    auto of_behind = behind.member(0).value();
    klsm::work work;

    auto load = [&](std::uint64_t i) {
        must(of_plain.insert(i, i) == klsm::code::ok);
        return of_plain.delete_min()->load;
    };
    auto payload = [&](std::uint64_t i) {
        must(of_small.insert(i, std::uint64_t(i)) == klsm::code::ok);
        return of_small.delete_min()->payload;
    };
    // 64 bytes for each item, in a block that is taken by hand in the one, and that the member keeps in the other.
    auto pointer = [&](std::uint64_t i) {
        auto *moved = new large{i};
        must(of_plain.insert(i, reinterpret_cast<std::uintptr_t>(moved)) == klsm::code::ok);
        auto *found = reinterpret_cast<large *>(of_plain.delete_min()->load);
        std::uint64_t number = (*found)[0];
        delete found;
        return number;
    };
    auto owned = [&](std::uint64_t i) {
        must(of_behind.insert(i, large{i}) == klsm::code::ok);
        return of_behind.delete_min()->payload[0];
    };
    // A piece of work is opened, found and done, beside a count that the program keeps.
    auto next = [&](std::uint64_t i) {
        must(work.insert(of_counted, i, i) == klsm::code::ok);
        klsm::piece<klsm::item> found = work.next(of_counted);
        found.done();
        return found->load;
    };
    std::atomic<std::uint64_t> open{0};
    auto by_hand = [&](std::uint64_t i) {
        open++;
        must(of_plain.insert(i, i) == klsm::code::ok);
        std::uint64_t found = of_plain.delete_min()->load;
        open--;
        return found;
    };
    for (std::uint64_t i = 0; i < LIVE; i++) { // keys that stay behind
        must(of_plain.insert(UINT64_MAX, 0) == klsm::code::ok && of_counted.insert(UINT64_MAX, 0) == klsm::code::ok);
        must(of_small.insert(UINT64_MAX, 0) == klsm::code::ok);
        must(of_behind.insert(UINT64_MAX, large{}) == klsm::code::ok);
    }

    const char *const names[] = {"load", "payload-in-the-load", "64-bytes-by-hand", "64-bytes-as-payload",
                                 "count-by-hand", "count-by-klsm-work"};
    std::array<std::array<double, ROUNDS>, 6> times{};
    for (std::size_t round = 0; round < ROUNDS; round++) {
        times[0][round] = time_of(load);
        times[1][round] = time_of(payload);
        times[2][round] = time_of(pointer);
        times[3][round] = time_of(owned);
        times[4][round] = time_of(by_hand);
        times[5][round] = time_of(next);
    }
    std::puts("medians of nine, in nanoseconds:");
    for (std::size_t i = 0; i < 6; i++) {
        std::sort(times[i].begin(), times[i].end());
        std::printf("%s %.1f\n", names[i], times[i][ROUNDS / 2]);
    }
}
