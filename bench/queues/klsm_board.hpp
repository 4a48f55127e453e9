// The queue of this repository, through include/klsm.h.
#ifndef BENCH_QUEUES_KLSM_BOARD_HPP
#define BENCH_QUEUES_KLSM_BOARD_HPP

#include "item.hpp"
#include "klsm.h"

#include <cstddef>
#include <cstdint>

class klsm_board {
public:
    struct setting {
        std::size_t k;
        klsm_pick pick;
        std::size_t refill;
        std::uint32_t balance;
    };

    klsm_board(std::size_t threads, std::size_t, setting given) {
        const std::int32_t code =
            klsm_open_with_balance(&queue_, threads, given.k, given.pick, 1, given.refill, given.balance);
        if (code != KLSM_OK) stop("klsm_open_with_balance was refused");
    }
    ~klsm_board() { klsm_drop(&queue_); }
    klsm_board(const klsm_board &) = delete;
    klsm_board &operator=(const klsm_board &) = delete;

    class handle {
    public:
        explicit handle(klsm_member *member) : member_(member) {}

        void insert(item given) {
            if (klsm_insert(member_, given.key, given.load) != KLSM_OK) stop("klsm_insert was refused");
        }

        bool delete_min(item &out) {
            klsm_item found;
            if (klsm_delete_min(member_, &found) != KLSM_OK) return false;
            out = {found.key, found.load};
            return true;
        }

    private:
        klsm_member *member_;
    };

    handle handle_of(std::size_t thread) { return handle(&queue_.members[thread]); }

private:
    klsm_queue queue_ = KLSM_QUEUE_CLOSED;
};

#endif
