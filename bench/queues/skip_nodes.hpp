// The nodes of a skip list, see skip_list.hpp, and each thread's store of them.
#ifndef BENCH_QUEUES_SKIP_NODES_HPP
#define BENCH_QUEUES_SKIP_NODES_HPP

#include "../draws.hpp"
#include "item.hpp"

#include <atomic>
#include <cstddef>
#include <cstdint>
#include <memory>
#include <new>
#include <vector>

// The address of a node, and as its least bit the mark: the node that it leads to is deleted.
using link_word = std::uintptr_t;

template <class Kept> struct skip_node {
    static constexpr std::size_t most_levels = 24;

    skip_node(const Kept &given, std::size_t count) : kept(given), levels(std::uint32_t(count)) {
        for (std::size_t i = 0; i < count; i++)
            new (&next(i)) std::atomic<link_word>(0);
    }

    static std::size_t bytes(std::size_t levels) {
        const std::size_t all = sizeof(skip_node) + levels * sizeof(std::atomic<link_word>);
        return (all + 15) / 16 * 16;
    }

    // Its links stand behind it, as many as it has levels.
    std::atomic<link_word> &next(std::size_t level) {
        return reinterpret_cast<std::atomic<link_word> *>(this + 1)[level];
    }

    Kept kept;
    std::uint32_t levels;
    std::atomic<bool> is_being_inserted{true};
};

template <class Kept> skip_node<Kept> *node_of(link_word one) {
    return reinterpret_cast<skip_node<Kept> *>(one & ~link_word(1));
}
template <class Kept> bool is_marked(link_word one) { return (one & 1) != 0; }
template <class Kept> link_word link_to(skip_node<Kept> *one) { return reinterpret_cast<link_word>(one); }
template <class Kept> link_word marked_link_to(skip_node<Kept> *one) { return link_to(one) | 1; }

// What one thread makes nodes of. All are freed together, at the end.
template <class Kept> class skip_nodes {
    using node = skip_node<Kept>;

public:
    explicit skip_nodes(std::size_t thread) : draws_(thread) {}

    // Half of all nodes have one level, a quarter two, and so on.
    std::size_t drawn_level() {
        const std::uint64_t bits = draws_.next() | std::uint64_t(1) << (node::most_levels - 1);
        return std::size_t(__builtin_ctzll(bits)) + 1;
    }

    node *made(item given, std::size_t levels) {
        const std::size_t bytes = node::bytes(levels);
        if (left_ < bytes) {
            blocks_.emplace_back(new char[block]);
            left_ = block;
        }
        left_ -= bytes;
        return new (blocks_.back().get() + left_) node(given, levels);
    }

private:
    static constexpr std::size_t block = std::size_t(1) << 18;

    draws draws_;
    std::vector<std::unique_ptr<char[]>> blocks_;
    std::size_t left_ = 0;
};

#endif
