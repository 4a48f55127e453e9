// klsm.hpp: the k-LSM relaxed priority queue of klsm.h as C++17 classes. Header only.
//
//     klsm::queue queue(4);                                // four threads; throws klsm::error
//     // in thread t:
//     klsm::member member = queue.member(t).value();
//     if (member.insert(key, load) != klsm::code::ok) ..
//     if (std::optional<klsm::item> item = member.delete_min()) ..   // none is no sign of the end
//     // once the members are gone:
//     klsm::account account = queue.close();               // the totals, and what is left, ascending
//
// klsm.h says what a deletion may pass over, and when each code comes. klsm_typed.hpp has queues whose items carry
// payloads of a type, and klsm_work.hpp a count of open work, which tells a crew of threads the end; both are
// included here.
//
// A klsm::queue owns a klsm_queue, which lies in a block of its own on the heap. So a queue may be
// moved, also while it is open and members of it are out: what the members point to stays where it is.
// A klsm::member is the right to use one member, and no two of one number exist at a time. It may be
// moved to another thread. It goes back where it is destroyed, and can then be taken again. One that
// is there after its queue was closed or destroyed returns code::not_open, and counts 0.
//
// Nothing checks the following, and what happens otherwise is undefined:
// - One call at a time for each klsm::member, also of those that are const, and for each klsm::queue, but that
//   several threads may call queue::member and queue::threads at once.
// - No call of a member runs during close(), left(), and the end of its queue, or an assignment to it.
// Several threads may use one klsm::work at once.
// No call but the constructors and the close() without an argument throws, and those that copy or make a payload
// where its own constructor does: then nothing is inserted. Each call that gives an optional has a form with a code,
// which says why there is none.
#ifndef KLSM_HPP
#define KLSM_HPP

#if __cplusplus < 201703L
#error "klsm.hpp: it is for C++17 and later"
#endif
#ifndef __cpp_exceptions
#error "klsm.hpp: it is for programs with exceptions; klsm.h is for the others"
#endif

#include "klsm.h"

#include <atomic>
#include <cstddef>
#include <cstdint>
#include <exception>
#include <memory>
#include <new>
#include <optional>
#include <utility>
#include <vector>

// A linker sees the inline namespace, such as v2_0_0, so parts of a program that were compiled with headers of two
// versions fail to link if one passes a queue to the other. No program has to name it.
namespace klsm {
inline namespace KLSM_VERSIONED(v) {

// The codes of klsm.h.
enum class code : std::int32_t {
    ok = KLSM_OK,
    nothing = KLSM_NOTHING,
    busy = KLSM_BUSY,
    full = KLSM_FULL,
    no_memory = KLSM_NO_MEMORY,
    spent = KLSM_SPENT,
    not_open = KLSM_NOT_OPEN,
    open = KLSM_OPEN,
    bad_count = KLSM_BAD_COUNT,
    bad_k = KLSM_BAD_K,
    bad_pick = KLSM_BAD_PICK,
    shared = KLSM_SHARED,
    bad_refill = KLSM_BAD_REFILL,
    stopped = KLSM_STOPPED,
    miscounted = KLSM_MISCOUNTED,
    bad_version = KLSM_BAD_VERSION,
    misaligned = KLSM_MISALIGNED
};

// A short English text.
[[nodiscard]] inline const char *text(code answer) noexcept {
    return klsm_text(static_cast<std::int32_t>(answer));
}

enum class pick : std::uint32_t { first = KLSM_FIRST, last = KLSM_LAST, random = KLSM_RANDOM };

using item = klsm_item;
using dual_bound = klsm_dual_bound;

// Keys for a search by bounds, and the bound of one: klsm.h says what they are good for. The turn is the
// inserted() of the member that inserts, or another count of its thread.
[[nodiscard]] inline std::uint64_t key_of_node(std::uint64_t bound, std::uint32_t depth, std::uint64_t turn) noexcept {
    return klsm_key_of_node(bound, depth, turn);
}
[[nodiscard]] inline std::uint64_t bound_of_node(std::uint64_t key) noexcept { return klsm_bound_of_node(key); }
[[nodiscard]] inline std::uint64_t key_of_bound(std::uint64_t bound, std::uint32_t depth) noexcept {
    return klsm_key_of_bound(bound, depth);
}
[[nodiscard]] inline std::uint64_t bound_of_key(std::uint64_t key) noexcept { return klsm_bound_of_key(key); }

// Keys of other numbers, in their order, and the number of one. The greatest comes first by ~key_of_double(..).
[[nodiscard]] inline std::uint64_t key_of_double(double number) noexcept { return klsm_key_of_double(number); }
[[nodiscard]] inline double double_of_key(std::uint64_t key) noexcept { return klsm_double_of_key(key); }
[[nodiscard]] inline std::uint64_t key_of_int64(std::int64_t number) noexcept { return klsm_key_of_int64(number); }
[[nodiscard]] inline std::int64_t int64_of_key(std::uint64_t key) noexcept { return klsm_int64_of_key(key); }

// How a queue is opened: klsm::options{4}, or in C++20 klsm::options{.threads = 4, .refill = 8}. A number
// here is itself, also 0. klsm.h says at klsm_open_with_balance what a refill and a balance do.
struct options {
    std::size_t threads = 0; // 1 to 64: it has to be named
    std::size_t k = KLSM_DEFAULT_K;
    pick how = pick::first;
    std::uint64_t seed = 0;
    std::size_t refill = KLSM_DEFAULT_REFILL; // one above k counts as k
    std::uint32_t balance = KLSM_DEFAULT_BALANCE;
};

// What the constructors and close() throw.
class error : public std::exception {
public:
    explicit error(klsm::code why) noexcept : why_(why) {}
    [[nodiscard]] klsm::code code() const noexcept { return why_; }
    [[nodiscard]] const char *what() const noexcept override { return text(why_); }

private:
    klsm::code why_;
};

// What a closed queue says of itself: inserted = deleted + left.size().
struct account {
    std::uint64_t inserted = 0;
    std::uint64_t deleted = 0;
    std::vector<item> left; // ascending
};

namespace detail {

// What a queue has in its block.
struct block {
    klsm_queue queue = KLSM_QUEUE_CLOSED;
    std::atomic<bool> is_out[KLSM_MAX_THREADS] = {};
    std::size_t threads = 0;
    bool is_open = false;
};

} // namespace detail

// What one thread inserts and deletes by.
class member {
public:
    using item_type = item;

    member(const member &) = delete;
    member &operator=(const member &) = delete;

    // The other one returns code::not_open afterwards.
    member(member &&other) noexcept
        : at_(std::exchange(other.at_, nullptr)), block_(std::move(other.block_)) {}
    // The number that this one had goes back.
    member &operator=(member &&other) noexcept {
        member moved(std::move(other));
        std::swap(at_, moved.at_);
        std::swap(block_, moved.block_);
        return *this;
    }
    ~member() {
        if (at_ != nullptr) block_->is_out[at_ - block_->queue.members].store(false, std::memory_order_release);
    }

    // Inserts, and waits while a lock is held: never code::busy.
    [[nodiscard]] klsm::code insert(std::uint64_t key, std::uint64_t load) noexcept {
        return at_ == nullptr ? code::not_open : code(klsm_insert(at_, key, load));
    }
    // Inserts, and never blocks.
    [[nodiscard]] klsm::code try_insert(std::uint64_t key, std::uint64_t load) noexcept {
        return at_ == nullptr ? code::not_open : code(klsm_try_insert(at_, key, load));
    }
    // Deletes a small item, and waits while a lock is held. None where it found nothing, and where
    // the queue is closed.
    [[nodiscard]] std::optional<item> delete_min() noexcept {
        item deleted;
        if (delete_min(deleted) != code::ok) return std::nullopt;
        return deleted;
    }
    // The same with a code, which tells a member that is not open from a queue where it found nothing. `deleted`
    // is written exactly with code::ok.
    [[nodiscard]] klsm::code delete_min(item &deleted) noexcept {
        return at_ == nullptr ? code::not_open : code(klsm_delete_min(at_, &deleted));
    }
    [[nodiscard]] klsm::code delete_min(std::optional<item> &deleted) noexcept {
        item found;
        return hand_on(delete_min(found), found, deleted);
    }
    // Deletes a small item, and never blocks. `deleted` is written exactly with code::ok.
    [[nodiscard]] klsm::code try_delete_min(item &deleted) noexcept {
        return at_ == nullptr ? code::not_open : code(klsm_try_delete_min(at_, &deleted));
    }
    // The same four for items each of which is worked on for long: no items move to the own part behind them.
    [[nodiscard]] std::optional<item> delete_min_alone() noexcept {
        item deleted;
        if (delete_min_alone(deleted) != code::ok) return std::nullopt;
        return deleted;
    }
    [[nodiscard]] klsm::code delete_min_alone(item &deleted) noexcept {
        return at_ == nullptr ? code::not_open : code(klsm_delete_min_alone(at_, &deleted));
    }
    [[nodiscard]] klsm::code delete_min_alone(std::optional<item> &deleted) noexcept {
        item found;
        return hand_on(delete_min_alone(found), found, deleted);
    }
    [[nodiscard]] klsm::code try_delete_min_alone(item &deleted) noexcept {
        return at_ == nullptr ? code::not_open : code(klsm_try_delete_min_alone(at_, &deleted));
    }
    // Moves all items of the own part to the part that all share, and waits while a lock is held: before its thread
    // works for long, and before it leaves. klsm.h says more at klsm_try_share.
    [[nodiscard]] klsm::code share() noexcept {
        std::uint64_t moved;
        return share(moved);
    }
    // The same, and says how many moved. `moved` is written exactly with code::ok.
    [[nodiscard]] klsm::code share(std::uint64_t &moved) noexcept {
        return at_ == nullptr ? code::not_open : code(klsm_share(at_, &moved));
    }
    // The same two, which never block.
    [[nodiscard]] klsm::code try_share() noexcept {
        std::uint64_t moved;
        return try_share(moved);
    }
    [[nodiscard]] klsm::code try_share(std::uint64_t &moved) noexcept {
        return at_ == nullptr ? code::not_open : code(klsm_try_share(at_, &moved));
    }
    // The bound: the smallest key of all items that live, in all parts together, that of the items that members work
    // at, and how many live. It waits while a lock is held, and needs all of them at once: now and then, and not at
    // each item. None where the queue is closed. klsm.h says more at klsm_try_bound.
    [[nodiscard]] std::optional<dual_bound> bound() noexcept {
        dual_bound found;
        if (bound(found) != code::ok) return std::nullopt;
        return found;
    }
    // The same with a code. `found` is written exactly with code::ok.
    [[nodiscard]] klsm::code bound(dual_bound &found) noexcept {
        return at_ == nullptr ? code::not_open : code(klsm_bound(at_, &found));
    }
    // The same, and never blocks.
    [[nodiscard]] klsm::code try_bound(dual_bound &found) noexcept {
        return at_ == nullptr ? code::not_open : code(klsm_try_bound(at_, &found));
    }
    // Rests: it has done with the item that it deleted last, and works at none until its next deletion. It waits while
    // its lock is held. For a thread that leaves, or will not delete for a while: klsm.h says more at klsm_try_rest.
    klsm::code rest() noexcept { return at_ == nullptr ? code::not_open : code(klsm_rest(at_)); }
    // The same, and never blocks.
    [[nodiscard]] klsm::code try_rest() noexcept {
        return at_ == nullptr ? code::not_open : code(klsm_try_rest(at_));
    }
    // The front: the key of the smallest shared item. klsm.h says more at klsm_front.
    [[nodiscard]] std::uint64_t front() const noexcept { return at_ == nullptr ? UINT64_MAX : klsm_front(at_); }
    // How many insertions and deletions were made by this number since the queue was opened.
    [[nodiscard]] std::uint64_t inserted() const noexcept { return at_ == nullptr ? 0 : klsm_inserted(at_); }
    [[nodiscard]] std::uint64_t deleted() const noexcept { return at_ == nullptr ? 0 : klsm_deleted(at_); }
    // Its number, the owner of what it inserts; UINT32_MAX where it was moved from.
    [[nodiscard]] std::uint32_t number() const noexcept {
        return at_ == nullptr ? UINT32_MAX : static_cast<std::uint32_t>(at_ - block_->queue.members);
    }

private:
    friend class queue;
    member(klsm_member *at, std::shared_ptr<detail::block> of) noexcept : at_(at), block_(std::move(of)) {}

    static klsm::code hand_on(klsm::code answer, const item &found, std::optional<item> &to) noexcept {
        if (answer == code::ok) to = found;
        return answer;
    }

    klsm_member *at_;
    std::shared_ptr<detail::block> block_;
};

class queue {
public:
    // Opens a queue with the defaults of klsm::options, and with k where it is named. Throws an error with
    // code::bad_version, bad_pick, bad_count, bad_k or no_memory, the first of these that is true.
    explicit queue(std::size_t threads, std::size_t k = KLSM_DEFAULT_K) : queue(options{threads, k}) {}

    // Opens a queue as the options say, and throws as the other one does.
    explicit queue(const options &by) {
        try {
            block_ = std::make_shared<detail::block>();
        } catch (const std::bad_alloc &) {
            throw error(code::no_memory);
        }
        const klsm_options numbers = {by.threads, by.k, static_cast<std::uint32_t>(by.how), by.seed, by.refill,
                                      by.balance};
        klsm::code answer = code(klsm_open_with(&block_->queue, &numbers));
        if (answer != code::ok) throw error(answer);
        block_->threads = by.threads;
        block_->is_open = true;
    }
    queue(const queue &) = delete;
    queue &operator=(const queue &) = delete;

    // The other one is closed, and has no members, afterwards.
    queue(queue &&) noexcept = default;
    // What is left in this one is dropped.
    queue &operator=(queue &&other) noexcept {
        queue moved(std::move(other));
        std::swap(block_, moved.block_);
        return *this;
    }

    // Drops what is left in it.
    ~queue() {
        if (block_ != nullptr) klsm_drop(&block_->queue);
    }

    // How many members it was opened for.
    [[nodiscard]] std::size_t threads() const noexcept {
        return block_ == nullptr ? 0 : block_->threads;
    }

    // The member of this number. None where there is none, and while it is out.
    [[nodiscard]] std::optional<klsm::member> member(std::size_t number) noexcept {
        std::optional<klsm::member> taken;
        static_cast<void>(member(number, taken));
        return taken;
    }
    // The same with a code: not_open where the queue was moved from, bad_count where there is none of this number, and
    // busy while it is out. `taken` has it exactly with code::ok.
    [[nodiscard]] klsm::code member(std::size_t number, std::optional<klsm::member> &taken) noexcept {
        if (block_ == nullptr) return code::not_open;
        if (number >= block_->threads) return code::bad_count;
        if (block_->is_out[number].exchange(true, std::memory_order_acquire)) return code::busy;
        taken = klsm::member(&block_->queue.members[number], block_);
        return code::ok;
    }

    // How many items are in it. No call of a member runs meanwhile.
    [[nodiscard]] std::uint64_t left() const noexcept { return block_ == nullptr ? 0 : klsm_left(&block_->queue); }

    // Closes it. Throws an error with code::no_memory, and then it is open as before and has all its
    // items, or with code::not_open where it is closed. code::shared should not occur.
    [[nodiscard]] account close() {
        account answer;
        if (klsm::code why = close(answer); why != code::ok) throw error(why);
        return answer;
    }

    // The same with a code. `answer` is written exactly with code::ok.
    [[nodiscard]] klsm::code close(account &answer) noexcept {
        if (block_ == nullptr) return code::not_open;
        std::vector<item> left;
        try {
            left.resize(this->left());
        } catch (...) {
            return code::no_memory;
        }
        klsm_account totals;
        std::int32_t closed = klsm_close(&block_->queue, &totals, left.data(), left.size());
        if (closed == KLSM_OK || closed == KLSM_SHARED) block_->is_open = false;
        if (closed != KLSM_OK) return klsm::code(closed);
        answer.inserted = totals.inserted;
        answer.deleted = totals.deleted;
        answer.left = std::move(left);
        return code::ok;
    }

private:
    template <class T> friend class typed_queue;

    // How many insertions and deletions all members made, and how many items are left.
    [[nodiscard]] klsm_account totals() const noexcept {
        klsm_account all = {0, 0, 0};
        for (klsm_member &one : block_->queue.members) {
            all.inserted += klsm_inserted(&one);
            all.deleted += klsm_deleted(&one);
        }
        all.left = all.inserted - all.deleted;
        return all;
    }

    std::shared_ptr<detail::block> block_; // aligned as klsm_queue is: C++17 sees to that
};

} // namespace KLSM_VERSIONED(v)
} // namespace klsm

#include "klsm_typed.hpp"
#include "klsm_work.hpp"

#endif
