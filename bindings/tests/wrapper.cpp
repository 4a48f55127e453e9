// The classes of klsm.hpp: opening, options, members, codes, moves, closing and want of memory.
#include "klsm.hpp"

#include "check.h"
#include <atomic>
#include <cstdlib>
#include <cstring>
#include <new>
#include <string>
#include <thread>
#include <type_traits>
#include <vector>

// What C++ allocates is refused on demand. The library itself does not allocate by it.
static bool refuses = false;

static void *take(std::size_t size, std::size_t alignment) {
    return refuses ? nullptr : std::aligned_alloc(alignment, (size + alignment - 1) / alignment * alignment);
}
static void *take_or_throw(std::size_t size, std::size_t alignment) {
    void *at = take(size, alignment);
    if (at == nullptr) throw std::bad_alloc();
    return at;
}
void *operator new(std::size_t size) { return take_or_throw(size, 16); }
void *operator new(std::size_t size, std::align_val_t by) { return take_or_throw(size, std::size_t(by)); }
void *operator new(std::size_t size, const std::nothrow_t &) noexcept { return take(size, 16); }
void *operator new(std::size_t size, std::align_val_t by, const std::nothrow_t &) noexcept {
    return take(size, std::size_t(by));
}
void operator delete(void *at) noexcept { std::free(at); }
void operator delete(void *at, std::size_t) noexcept { std::free(at); }
void operator delete(void *at, std::align_val_t) noexcept { std::free(at); }
void operator delete(void *at, std::size_t, std::align_val_t) noexcept { std::free(at); }

template <class T>
constexpr bool moves_only = !std::is_copy_constructible_v<T> && !std::is_copy_assignable_v<T> &&
                            std::is_nothrow_move_constructible_v<T> && std::is_nothrow_move_assignable_v<T>;
static_assert(moves_only<klsm::queue> && moves_only<klsm::member>);

static void opening_throws(const char *name, std::size_t threads, std::size_t k, klsm::pick how,
                           klsm::code expected) {
    try {
        klsm::queue queue(klsm::options{threads, k, how});
        check(name, 0);
    } catch (const klsm::error &why) {
        check(name, why.code() == expected && std::strcmp(why.what(), klsm::text(expected)) == 0);
    }
}

static void openings() {
    opening_throws("0 threads", 0, 64, klsm::pick::first, klsm::code::bad_count);
    opening_throws("65 threads", 65, 64, klsm::pick::first, klsm::code::bad_count);
    opening_throws("k = 1025", 4, 1025, klsm::pick::first, klsm::code::bad_k);
    opening_throws("no such pick", 4, 64, klsm::pick(3), klsm::code::bad_pick);
    refuses = true;
    opening_throws("no memory", 4, 64, klsm::pick::first, klsm::code::no_memory);
    refuses = false;
    klsm::queue queue(3);
    check("three members", queue.threads() == 3 && queue.left() == 0);
}

static void options_throw(const char *name, const klsm::options &by, klsm::code expected) {
    try {
        klsm::queue queue(by);
        check(name, 0);
    } catch (const klsm::error &why) {
        check(name, why.code() == expected && std::strcmp(why.what(), klsm::text(expected)) == 0);
    }
}

static void options() {
    const klsm::options standard;
    check("the defaults", standard.threads == 0 && standard.k == KLSM_DEFAULT_K && standard.how == klsm::pick::first &&
                              standard.seed == 0 && standard.refill == KLSM_DEFAULT_REFILL &&
                              standard.balance == KLSM_DEFAULT_BALANCE);
    options_throw("no threads are named", {}, klsm::code::bad_count);
    options_throw("k above 1024", {4, 1025, klsm::pick::first, 0, 1026}, klsm::code::bad_k);
    options_throw("the greatest number as k", {4, SIZE_MAX}, klsm::code::bad_k);
    options_throw("the count comes before k", {65, 1025, klsm::pick::first, 0, 1026}, klsm::code::bad_count);
    options_throw("the pick comes before the count", {65, 1025, klsm::pick(3), 0, 1026}, klsm::code::bad_pick);
    refuses = true;
    options_throw("no memory", {4}, klsm::code::no_memory);
    refuses = false;
    klsm::queue queue(klsm::options{3});
    check("three members by options", queue.threads() == 3 && queue.left() == 0);
}

// How many items move when member 1 takes the least of a thousand keys that member 0 inserted: the next
// deletion of member 0 gives the first that did not move.
static std::uint64_t moved_in(klsm::queue queue) {
    klsm::member first = queue.member(0).value(), second = queue.member(1).value();
    for (std::uint64_t i = 0; i < 1000; i++) check_or_stop("insert", first.insert(i, i) == klsm::code::ok);
    check_or_stop("the least", second.delete_min()->key == 0);
    std::uint64_t moved = first.delete_min()->key - 1;
    for (std::uint64_t i = 1; i <= moved; i++) check_or_stop("what moved", second.delete_min()->key == i);
    return moved;
}

static void refills() {
    const klsm::pick first = klsm::pick::first;
    check("a refill", moved_in(klsm::queue(klsm::options{2, 64, first, 0, 16, 0})) == 16);
    check("into half the room", moved_in(klsm::queue(klsm::options{2, 8, first, 0, 8, 0})) == 4);
    check("above k it counts as k", moved_in(klsm::queue(klsm::options{2, 8, first, 0, 9, 0})) == 4);
    check("none with k = 0", moved_in(klsm::queue(klsm::options{2, 0, first, 0, 16, 0})) == 0);
    check("a refill of 5", moved_in(klsm::queue(klsm::options{2, 64, first, 0, 5, 0})) == 5);
    check("0 is none", moved_in(klsm::queue(klsm::options{2, 64, first, 0, 0, 0})) == 0);
}

// The key of member 1's first deletion, where member 0 keeps the keys from 0 and it has one greater.
static std::uint64_t first_in(klsm::queue queue) {
    klsm::member first = queue.member(0).value(), second = queue.member(1).value();
    for (std::uint64_t i = 0; i < 10; i++) check_or_stop("insert", first.insert(i, i) == klsm::code::ok);
    check_or_stop("insert", second.insert(100, 100) == klsm::code::ok);
    return second.delete_min()->key;
}

static void balances() {
    const klsm::pick first = klsm::pick::first;
    check("no balance", first_in(klsm::queue(klsm::options{2, 64, first, 0, 0, 0})) == 100);
    check("a balance of 1", first_in(klsm::queue(klsm::options{2, 64, first, 0, 0, 1})) == 0);
    check("a balance of 2", first_in(klsm::queue(klsm::options{2, 64, first, 0, 0, 2})) == 100);
}

// The next member finds what a deletion with a refill would have brought home, or what was shared.
static void sharings() {
    klsm::queue queue(klsm::options{2, 8, klsm::pick::first, 0, 4});
    klsm::member first = queue.member(0).value(), second = queue.member(1).value();
    std::uint64_t moved = 77;
    klsm::item item{7, 7, 7, 7};
    for (std::uint64_t i = 0; i < 100; i++) check_or_stop("insert", first.insert(i, i) == klsm::code::ok);
    check("all are shared", first.share() == klsm::code::ok && first.share(moved) == klsm::code::ok && moved == 0);
    check("alone", second.delete_min_alone()->key == 0 && first.front() == 1);
    check("alone, by a code", first.delete_min_alone(item) == klsm::code::ok && item.key == 1);
    check("alone, waiting for nobody", second.try_delete_min_alone(item) == klsm::code::ok && item.key == 2);
    check("with a refill", second.delete_min()->key == 3 && first.front() == 8);
    check("what it brought home goes back", second.try_share(moved) == klsm::code::ok && moved == 4);
    check("once", second.try_share() == klsm::code::ok && first.front() == 4 && first.delete_min()->key == 4);
    check("nothing was inserted or deleted by that", queue.left() == 95 && second.deleted() == 3);
    static_cast<void>(queue.close());
    moved = 77;
    check("after the end nothing is shared", first.share(moved) == klsm::code::not_open && moved == 77);
    check("nor deleted", first.delete_min_alone(item) == klsm::code::not_open && item.key == 2);
}

static bool are(const klsm::dual_bound &found, std::uint64_t key, std::uint64_t work, std::uint64_t items) {
    return found.queue == key && found.work == work && found.items == items;
}

// Whether each form of a bound has these numbers.
static bool bound_is(klsm::member &member, std::uint64_t key, std::uint64_t work, std::uint64_t items) {
    klsm::dual_bound one{7, 7, 7}, other{7, 7, 7};
    const auto found = member.bound();
    const bool codes = member.bound(one) == klsm::code::ok && member.try_bound(other) == klsm::code::ok;
    return codes && found && are(*found, key, work, items) && are(one, key, work, items) &&
           are(other, key, work, items);
}

// Items of each part count, and those that members work at, whoever asks.
static void bounds() {
    const std::uint64_t none = UINT64_MAX;
    klsm::queue queue(klsm::options{2, 8, klsm::pick::first, 0, 4});
    klsm::member first = queue.member(0).value(), second = queue.member(1).value();
    check("nothing lives", bound_is(first, none, none, 0));
    check_or_stop("insert", first.insert(5, 50) == klsm::code::ok && second.insert(3, 30) == klsm::code::ok);
    check("what others keep counts", bound_is(first, 3, none, 2) && bound_is(second, 3, none, 2));
    check("what is shared, too", second.share() == klsm::code::ok && bound_is(first, 3, none, 2));
    check("what was deleted is work", first.delete_min()->key == 3 && bound_is(second, 5, 3, 1));
    check("until a rest", first.rest() == klsm::code::ok && bound_is(second, 5, none, 1));
    check("or another deletion", first.delete_min()->key == 5 && bound_is(second, none, 5, 0));
    check("or a rest that never blocks", first.try_rest() == klsm::code::ok && bound_is(second, none, none, 0));
    check_or_stop("insert", second.insert(7, 70) == klsm::code::ok && second.delete_min()->key == 7);
    check("and who finds nothing works at nothing",
          bound_is(first, none, 7, 0) && !second.delete_min() && bound_is(first, none, none, 0));
    static_cast<void>(queue.close());
    klsm::dual_bound bound{7, 8, 9};
    check("after the end there is none", !first.bound() && first.bound(bound) == klsm::code::not_open &&
                                             first.try_bound(bound) == klsm::code::not_open && bound.items == 9);
    check("nor a rest", first.rest() == klsm::code::not_open && first.try_rest() == klsm::code::not_open);
}

static void members() {
    klsm::queue queue(2);
    {
        auto first = queue.member(0);
        check("member 0", first.has_value());
        check("it is out", !queue.member(0).has_value());
        check("member 1", queue.member(1).has_value());
        check("there is no member 2", !queue.member(2).has_value() && !queue.member(SIZE_MAX).has_value());
        klsm::member moved = std::move(*first);
        check("it is out when moved", !queue.member(0).has_value());
        check("the one that was moved from is not open", first->insert(1, 2) == klsm::code::not_open);
        check("and counts nothing", first->inserted() == 0 && first->deleted() == 0 && !first->delete_min());
        first.reset();
        check("it is out when the other is gone", !queue.member(0).has_value());
        check("the moved one inserts", moved.insert(1, 2) == klsm::code::ok && moved.inserted() == 1);
        klsm::member other = queue.member(1).value();
        moved = std::move(other);
        check("what is assigned over goes back", queue.member(0).has_value());
        check("what is assigned stays out", !queue.member(1).has_value() && moved.inserted() == 0);
        klsm::member &same = moved;
        moved = std::move(same);
        check("a member assigned to itself stays", moved.insert(5, 6) == klsm::code::ok);
        check("and is still out", !queue.member(1).has_value());
    }
    check("both are back", queue.member(0).has_value() && queue.member(1).has_value());
    check("with their counts", queue.member(0)->inserted() == 1 && queue.member(1)->inserted() == 1);
    check("what is left", queue.left() == 2);
}

static void calls() {
    klsm::queue queue(klsm::options{2, 4, klsm::pick::last, 5});
    klsm::member member = queue.member(1).value();
    klsm::item item{};
    check("nothing", !member.delete_min() && member.try_delete_min(item) == klsm::code::nothing);
    check("insert", member.insert(10, 100) == klsm::code::ok);
    check("try_insert", member.try_insert(9, 90) == klsm::code::ok);
    std::optional<klsm::item> least = member.delete_min();
    check("delete_min", least && least->key == 9 && least->load == 90 && least->number == 1 && least->owner == 1);
    check("try_delete_min", member.try_delete_min(item) == klsm::code::ok && item.key == 10 && item.load == 100);
    check("counts", member.inserted() == 2 && member.deleted() == 2 && queue.left() == 0);
}

static void moves() {
    klsm::queue queue(2, 64);
    klsm::member member = queue.member(0).value();
    check("insert", member.insert(3, 30) == klsm::code::ok);
    klsm::queue moved = std::move(queue);
    check("what was moved from has no members", queue.threads() == 0 && queue.left() == 0 && !queue.member(1));
    klsm::account none;
    check("and is closed", queue.close(none) == klsm::code::not_open);
    check("a member stays as it was", member.insert(2, 20) == klsm::code::ok && moved.left() == 2);
    std::vector<klsm::queue> many;
    for (std::size_t i = 1; i <= 16; i++) many.emplace_back(i);
    many[3] = std::move(moved);
    check("it goes on in its new place", member.insert(1, 10) == klsm::code::ok && many[3].left() == 3);
    check("and knows that its member is out", !many[3].member(0) && many[3].member(1));
    klsm::account account = many[3].close();
    check("the account", account.inserted == 3 && account.deleted == 0 && account.left.size() == 3);
    check("ascending", account.left[0].load == 10 && account.left[1].load == 20 && account.left[2].load == 30);
}

// A member that is there when its queue is gone.
static void members_without() {
    std::optional<klsm::queue> queue(std::in_place, 2);
    klsm::member member = queue->member(1).value();
    check("insert", member.insert(1, 2) == klsm::code::ok);
    *queue = klsm::queue(3);
    check("a member of a queue that was assigned over", member.insert(1, 2) == klsm::code::not_open);
    check("the new queue has its members", queue->threads() == 3 && queue->member(1) && queue->left() == 0);
    member = queue->member(1).value();
    check("insert", member.insert(1, 2) == klsm::code::ok);
    queue.reset();
    check("a member of a queue that is gone", member.insert(1, 2) == klsm::code::not_open);
    klsm::item item{};
    check("its other calls", member.try_insert(1, 2) == klsm::code::not_open && !member.delete_min() &&
                                 member.try_delete_min(item) == klsm::code::not_open &&
                                 member.inserted() == 0 && member.deleted() == 0);
}

static void closing() {
    klsm::queue queue(4, 8);
    for (std::size_t t = 0; t < 4; t++) {
        klsm::member member = queue.member(t).value();
        for (std::uint64_t i = 0; i < 100; i++) check_or_stop("insert", member.insert(i, t) == klsm::code::ok);
    }
    klsm::member late = queue.member(2).value();
    klsm::account account;
    refuses = true;
    check("close without memory", queue.close(account) == klsm::code::no_memory && account.inserted == 0);
    bool threw = false;
    try {
        account = queue.close();
    } catch (const klsm::error &why) {
        threw = why.code() == klsm::code::no_memory;
    }
    refuses = false;
    check("the other form throws", threw);
    check("nothing is lost", queue.left() == 400 && late.delete_min().has_value() && queue.left() == 399);
    check("close", queue.close(account) == klsm::code::ok);
    bool ascending = true;
    for (std::size_t i = 1; i < account.left.size(); i++)
        ascending = ascending && account.left[i - 1].key <= account.left[i].key;
    check("the account", account.inserted == 400 && account.deleted == 1 && account.left.size() == 399);
    check("what is left is ascending", ascending);
    check("a member of a closed queue", late.insert(1, 1) == klsm::code::not_open && !late.delete_min());
    check("counts nothing", late.inserted() == 0 && late.deleted() == 0);
    threw = false;
    try {
        (void)queue.close();
    } catch (const klsm::error &why) {
        threw = why.code() == klsm::code::not_open;
    }
    check("close a second time", threw && queue.left() == 0);
    klsm::account empty = klsm::queue(1).close();
    check("close an empty one", empty.inserted == 0 && empty.left.empty());
}

// Each thread takes its own member, and they all race for one number more.
static void threads() {
    klsm::queue queue(klsm::options{4});
    std::atomic<std::uint64_t> deleted{0}, taken{0};
    std::vector<std::thread> crew;
    for (std::size_t t = 0; t < 4; t++)
        crew.emplace_back([&, t] {
            klsm::member member = queue.member(t).value();
            for (std::uint64_t i = 0; i < 20000; i++) {
                if (member.insert(i ^ 1234, i) != klsm::code::ok) return;
                if (i % 2 == 0 && member.delete_min()) deleted++;
            }
        });
    for (std::thread &thread : crew) thread.join();
    klsm::account account = queue.close();
    check("four threads: the account", account.inserted == 80000 && account.deleted == deleted &&
                                           account.left.size() == 80000 - deleted);
    crew.clear();
    for (std::size_t t = 0; t < 4; t++)
        crew.emplace_back([&] {
            for (int i = 0; i < 1000; i++)
                if (auto member = queue.member(0))
                    if (taken++ != 0 || --taken != 0) std::abort(); // two have it at once
        });
    for (std::thread &thread : crew) thread.join();
    check("four threads: one at a time has a member", queue.member(0).has_value());
}

int main() {
    openings();
    options();
    refills();
    balances();
    sharings();
    bounds();
    members();
    calls();
    moves();
    members_without();
    closing();
    threads();
    return check_status();
}
