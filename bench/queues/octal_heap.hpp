// A heap in which each item has up to eight children, so that those of one item lie in two or four lines of the
// cache, and a third of the levels of a binary heap is enough.
#ifndef BENCH_QUEUES_OCTAL_HEAP_HPP
#define BENCH_QUEUES_OCTAL_HEAP_HPP

#include "item.hpp"

#include <algorithm>
#include <cstddef>
#include <vector>

template <class Kept> class octal_heap {
public:
    explicit octal_heap(std::size_t room) { items_.reserve(room); }

    std::size_t size() const { return items_.size(); }
    bool is_empty() const { return items_.empty(); }
    std::uint64_t least_key() const { return is_empty() ? UINT64_MAX : items_.front().key; }

    void push(const Kept &given) {
        std::size_t at = items_.size();
        items_.push_back(given);
        for (; at > 0 && given.key < items_[(at - 1) / 8].key; at = (at - 1) / 8)
            items_[at] = items_[(at - 1) / 8];
        items_[at] = given;
    }

    // The least item leaves. There is one.
    Kept pop() {
        const Kept least = items_.front(), last = items_.back();
        items_.pop_back();
        if (!items_.empty()) sink(last);
        return least;
    }

private:
    // Puts an item where the least one was, or below.
    void sink(const Kept &given) {
        std::size_t at = 0;
        for (std::size_t first = 1; first < items_.size(); first = 8 * at + 1) {
            const std::size_t child = least_of(first, std::min(first + 8, items_.size()));
            if (items_[child].key >= given.key) break;
            items_[at] = items_[child];
            at = child;
        }
        items_[at] = given;
    }

    std::size_t least_of(std::size_t first, std::size_t end) const {
        std::size_t least = first;
        for (std::size_t i = first + 1; i < end; i++)
            least = items_[i].key < items_[least].key ? i : least;
        return least;
    }

    std::vector<Kept> items_;
};

#endif
