// The rank errors of recorded calls: how many smaller live items each deletion passed over. Smaller is
// what has a lesser key.
#ifndef BENCH_RANK_HPP
#define BENCH_RANK_HPP

#include "record.hpp"

#include <vector>

struct rank_errors {
    double mean;
    std::uint64_t at_99_percent; // 99 in a hundred deletions passed over at most so many
    std::uint64_t greatest;
};

// From when to when a call ran. A deletion that never came has twice the greatest number.
struct span {
    std::uint64_t begin = UINT64_MAX, end = UINT64_MAX;
};

// One item's life.
struct life {
    std::uint64_t key;
    std::size_t rank; // how many lesser keys there are among all items
    span insertion, deletion;
};

// The lives of all items, by their loads. Stops the program where an item came twice or from nowhere.
std::vector<life> lives_of(const std::vector<call> &calls);

// Each insertion counts as made when it began, each deletion when it ended. For calls by turns this is
// their order, and the figures are exact. For calls of threads they are an estimate, mostly too great:
// an item counts as passed over that came while the deletion ran.
rank_errors replayed(const std::vector<life> &lives);

// Only the items count that were live for the whole of the deletion: their insertion had ended before it
// began, and their own deletion began after it had ended. So no figure is too great, whichever moments
// the calls took effect at; where a queue is exact and its calls take effect at one moment, each is 0.
rank_errors certain(const std::vector<life> &lives);

#endif
