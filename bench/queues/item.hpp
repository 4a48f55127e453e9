// What the queues of this folder keep, and the interface that each of them has:
//
//     struct some_queue {
//         some_queue(std::size_t threads, std::size_t room, /* a setting of its own */);
//         struct handle {                       // what one thread calls
//             void insert(item);                // always done: it stops the program where it cannot be
//             bool delete_min(item &);          // false: no item was found
//         };
//         handle handle_of(std::size_t thread); // each thread's own, made before the threads begin
//     };
//
// `room` is how many items live at once at most. All but ours are templates of what they keep: an item, or
// one that is as wide as ours.
#ifndef BENCH_QUEUES_ITEM_HPP
#define BENCH_QUEUES_ITEM_HPP

#include <cstdint>
#include <cstdio>
#include <cstdlib>

struct item {
    std::uint64_t key = 0;
    std::uint64_t load = 0; // no two items of one run have the same
};

// An item of 32 bytes, as many as ours has with its stamp.
struct wide_item {
    wide_item() = default;
    wide_item(item given) : key(given.key), load(given.load), stamp{given.load, 0} {}
    operator item() const { return {key, load}; }

    std::uint64_t key = 0;
    std::uint64_t load = 0;
    std::uint64_t stamp[2] = {}; // nothing reads it
};

static_assert(sizeof(item) == 16 && sizeof(wide_item) == 32);

// The order of all queues but ours, which compares stamps where keys are equal. It makes the standard
// heaps, whose greatest item comes first, give the least key first.
struct is_later {
    template <class Kept> bool operator()(const Kept &a, const Kept &b) const { return a.key > b.key; }
};

[[noreturn]] inline void stop(const char *why) {
    std::fprintf(stderr, "bench: %s\n", why);
    std::exit(1);
}

#endif
