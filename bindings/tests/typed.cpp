// Payloads of klsm.hpp: each is moved in and out, and destroyed once, wherever it ends.
#include "klsm.hpp"

#include "check.h"
#include <algorithm>
#include <atomic>
#include <memory>
#include <stdexcept>
#include <string>
#include <thread>
#include <tuple>
#include <type_traits>
#include <utility>
#include <vector>

static std::atomic<int> alive{0};

// A payload that counts how many of it are there.
struct counted {
    std::uint64_t number;
    std::unique_ptr<std::uint64_t> far; // so that it can only be moved

    explicit counted(std::uint64_t from) : number(from), far(new std::uint64_t(from)) { alive++; }
    counted(counted &&other) noexcept : number(other.number), far(std::move(other.far)) { alive++; }
    counted &operator=(counted &&other) noexcept {
        number = other.number;
        far = std::move(other.far);
        return *this;
    }
    ~counted() { alive--; }
    bool is_whole() const { return far != nullptr && *far == number; }
};

// Few plain bytes, and no constructor without arguments.
struct pair {
    std::uint32_t first, second;
    pair(std::uint32_t one, std::uint32_t other) : first(one), second(other) {}
};

// One that is copied only where there is something to copy.
struct shared {
    std::shared_ptr<int> of;
    explicit shared(std::shared_ptr<int> from) : of(std::move(from)) {}
    shared(const shared &other) : of(other.of) {
        if (of == nullptr) throw std::invalid_argument("there is nothing to copy");
    }
    shared(shared &&other) noexcept = default;
    shared &operator=(shared &&other) noexcept = default;
};

// One that sees, when it is destroyed, how much work is open.
struct seeing {
    klsm::work *work;
    std::uint64_t *seen;
    seeing(klsm::work *of, std::uint64_t *to) : work(of), seen(to) {}
    seeing(seeing &&other) noexcept : work(std::exchange(other.work, nullptr)), seen(other.seen) {}
    seeing &operator=(seeing &&other) noexcept {
        work = std::exchange(other.work, nullptr);
        seen = other.seen;
        return *this;
    }
    ~seeing() {
        if (work != nullptr) *seen += work->left();
    }
};

static_assert(!std::is_copy_constructible_v<klsm::typed_queue<int>>);
static_assert(std::is_nothrow_move_constructible_v<klsm::typed_queue<std::string>>);
static_assert(std::is_nothrow_move_assignable_v<klsm::typed_member<std::string>>);

static void calls() {
    klsm::typed_queue<counted> queue(klsm::options{2});
    auto member = queue.member(0).value();
    check("a member is out once", !queue.member(0) && queue.member(1) && !queue.member(2) && queue.threads() == 2);
    check("insert", member.insert(9, counted(90)) == klsm::code::ok);
    check("try_insert", member.try_insert(7, counted(70)) == klsm::code::ok);
    check("two are there", alive == 2 && queue.left() == 2);
    auto least = member.delete_min();
    check("delete_min", least && least->key == 7 && least->number == 1 && least->owner == 0 &&
                            least->payload.number == 70 && least->payload.is_whole());
    std::optional<klsm::typed_item<counted>> next;
    check("try_delete_min", member.try_delete_min(next) == klsm::code::ok && next->payload.number == 90);
    check("and nothing", member.try_delete_min(next) == klsm::code::nothing && next->payload.is_whole());
    check("nothing, by the other", !member.delete_min());
    check("counts", member.inserted() == 2 && member.deleted() == 2);
    check("both are ours", alive == 2);
}

static void ends() {
    check("none is there", alive == 0);
    {
        klsm::typed_queue<counted> queue(klsm::options{3, 4});
        for (std::size_t t = 0; t < 3; t++) {
            auto member = queue.member(t).value();
            for (std::uint64_t i = 0; i < 50; i++)
                check_or_stop("insert", member.insert(i * 31 % 17, counted(i)) == klsm::code::ok);
        }
        check_or_stop("delete", queue.member(1)->delete_min().has_value());
        check("what is left is there", alive == 149);
    }
    check("and goes with the queue", alive == 0);
    klsm::typed_queue<counted> queue(klsm::options{3, 4});
    for (std::uint64_t i = 0; i < 50; i++)
        check_or_stop("insert", queue.member(i % 3)->insert(i * 31 % 17, counted(i)) == klsm::code::ok);
    {
        klsm::typed_account<counted> account = queue.close();
        bool is_ascending = account.left.size() == 50;
        for (std::size_t i = 0; i < account.left.size(); i++)
            is_ascending = is_ascending && account.left[i].payload.is_whole() &&
                           (i == 0 || account.left[i - 1].key <= account.left[i].key);
        check("close hands back what is left", is_ascending && account.inserted == 50 && account.deleted == 0);
        check("once", alive == 50);
        klsm::typed_account<counted> none;
        check("a second time it is not open", queue.close(none) == klsm::code::not_open && none.left.empty());
    }
    check("then it is ours", alive == 0);
}

// A queue is moved, and assigned over, with payloads in it.
static void moves() {
    klsm::typed_queue<counted> queue(1), other(2);
    check_or_stop("insert", queue.member(0)->insert(1, counted(1)) == klsm::code::ok);
    check_or_stop("insert", other.member(1)->insert(2, counted(2)) == klsm::code::ok);
    klsm::typed_queue<counted> moved(std::move(queue));
    check("what was moved from has no members", queue.threads() == 0 && !queue.member(0) && alive == 2);
    moved = std::move(other);
    check("what is assigned over goes with its payloads", alive == 1 && moved.threads() == 2);
    check("what is assigned stays", moved.member(0)->delete_min()->payload.number == 2);
}

static void small_payloads() {
    klsm::typed_queue<pair> pairs(1);
    check("a small one", pairs.member(0)->insert(3, pair(4, 5)) == klsm::code::ok);
    auto found = pairs.member(0)->delete_min();
    check("comes back", found && found->payload.first == 4 && found->payload.second == 5);
    klsm::typed_queue<double> numbers(1);
    check("a double, by its own key", numbers.member(0)->insert(klsm::key_of_double(-2.5), -2.5) == klsm::code::ok);
    auto number = numbers.member(0)->delete_min();
    check("comes back", number && number->payload == -2.5 && klsm::double_of_key(number->key) == -2.5);
}

// Payloads that have no assignment, or a way of their own to take memory, or a wide alignment.
struct fixed {
    const std::uint64_t number;
    std::string text;
};
struct of_its_own {
    std::string text;
    static void *operator new(std::size_t) = delete;
    static void operator delete(void *) = delete;
};
struct alignas(64) wide {
    std::uint64_t numbers[8];
};

static void any_payloads() {
    std::uint64_t sum = 0;
    auto add = [words = std::string(40, 'x'), &sum] { sum += words.size(); };
    klsm::typed_queue<decltype(add)> jobs(1);
    auto member = jobs.member(0).value();
    check("lambdas", member.insert(2, add) == klsm::code::ok && member.insert(1, std::move(add)) == klsm::code::ok);
    member.delete_min()->payload();
    check("one is called", sum == 40);
    auto left = jobs.close().left;
    check("one is left", left.size() == 1 && left[0].key == 2);
    left[0].payload();
    check("and is called", sum == 80);
    klsm::typed_queue<fixed> fixed_ones(1);
    check("a const member", fixed_ones.member(0)->insert(1, fixed{7, "seven"}) == klsm::code::ok);
    auto fixed_one = fixed_ones.member(0)->delete_min();
    check("comes back", fixed_one && fixed_one->payload.number == 7 && fixed_one->payload.text == "seven");
    klsm::typed_queue<of_its_own> own(1);
    check("memory of its own", own.member(0)->insert(1, of_its_own{"seven"}) == klsm::code::ok);
    check("comes back", own.member(0)->delete_min()->payload.text == "seven");
    klsm::typed_queue<wide> wides(1);
    check("a wide one", wides.member(0)->insert(1, wide{{1, 2, 3}}) == klsm::code::ok);
    auto found = wides.member(0)->delete_min();
    check("comes back", found && found->payload.numbers[2] == 3);
    klsm::typed_queue<std::unique_ptr<counted>> owners(1);
    check("an owner", owners.member(0)->insert(1, std::make_unique<counted>(7)) == klsm::code::ok);
    check("two", owners.member(0)->emplace(2, new counted(8)) == klsm::code::ok && alive == 2);
    check("comes back", owners.member(0)->delete_min()->payload->is_whole());
    check("and is gone", alive == 1);
}

// What one thread inserts and another one deletes, in a steady flow, and at the end in an order.
static void ascending_left() {
    klsm::typed_queue<counted> queue(klsm::options{2, 8});
    auto one = queue.member(0).value(), other = queue.member(1).value();
    for (std::uint64_t i = 0; i < 1000; i++) {
        check_or_stop("insert", one.insert(i * 7919 % 101, counted(i)) == klsm::code::ok);
        if (i % 3 == 0) check_or_stop("delete", other.delete_min().has_value());
    }
    klsm::typed_account<counted> account;
    check("close", queue.close(account) == klsm::code::ok && queue.close(account) == klsm::code::not_open);
    check("the account", account.inserted == 1000 && account.deleted == 334 && account.left.size() == 666);
    bool is_ascending = true;
    for (std::size_t i = 1; i < account.left.size(); i++) {
        const auto &before = account.left[i - 1], &after = account.left[i];
        is_ascending = is_ascending && std::tie(before.key, before.number) < std::tie(after.key, after.number);
    }
    check("by key, owner and number", is_ascending && alive == 666);
    check("the members are closed", one.insert(1, counted(1)) == klsm::code::not_open && !other.delete_min());
}

// Each piece of work leads to two shorter ones, whose payloads are made by one thread and read by another.
static void a_crew() {
    klsm::typed_queue<std::string> queue(klsm::options{4});
    klsm::work work;
    std::atomic<std::uint64_t> done{0};
    {
        auto first = queue.member(0).value();
        check_or_stop("insert", work.emplace(first, 0) == klsm::code::ok);
    }
    std::vector<std::thread> crew;
    for (std::size_t t = 0; t < 4; t++)
        crew.emplace_back([&, member = queue.member(t).value()]() mutable {
            while (auto item = work.next(member)) {
                for (char letter : {'a', 'b'}) {
                    if (item->payload.size() == 12) continue;
                    check_or_stop("insert",
                                  work.insert(member, item->key + 1, item->payload + letter) == klsm::code::ok);
                }
                done++;
                item.done();
            }
        });
    for (std::thread &thread : crew) thread.join();
    check("a crew ends once all is done", done == 8191 && work.left() == 0 && queue.left() == 0);
    check("and none was given up", work.given_up() == 0);
}

// The greatest bound that was found so far, and whether one was below it.
struct best_bound {
    std::atomic<std::uint64_t> found{0};
    std::atomic<bool> fell{false};

    template <class Member> void ask(Member &member) {
        std::uint64_t known = found;
        const klsm::dual_bound now = member.bound().value();
        const std::uint64_t least = std::min(now.queue, now.work);
        if (least < known) fell = true;
        while (known < least && !found.compare_exchange_weak(known, least)) {
        }
    }
};

// Sixteen threads whose pieces lead to two of the same key or a greater one: no bound is below one that was found
// before, and no piece below one that was found before it was asked for.
static void bounds_of_a_crew() {
    klsm::typed_queue<std::string> queue(klsm::options{16, 8, klsm::pick::first, 0, 4});
    klsm::work work;
    best_bound best;
    {
        auto first = queue.member(0).value();
        for (std::uint64_t root = 0; root < 30; root++)
            check_or_stop("insert", work.insert(first, 1 + root * 7919 % 1009, std::string(6, 'x')) == klsm::code::ok);
    }
    std::vector<std::thread> crew;
    for (std::size_t t = 0; t < 16; t++)
        crew.emplace_back([&work, &best, member = queue.member(t).value()]() mutable {
            for (std::uint64_t pieces = 1;; pieces++) {
                const std::uint64_t known = best.found;
                auto piece = work.next(member);
                if (!piece) break;
                if (piece->key < known) best.fell = true;
                std::this_thread::yield(); // with an item in hand
                for (std::uint64_t child = 0; child < 2 && !piece->payload.empty(); child++)
                    check_or_stop("insert", work.insert(member, piece->key + (pieces + child) % 50,
                                                        piece->payload.substr(1)) == klsm::code::ok);
                piece.done();
                if (pieces % 20 == 0) best.ask(member);
            }
        });
    for (std::thread &thread : crew) thread.join();
    auto last = queue.member(1).value();
    best.ask(last);
    check("no bound of a crew falls, and no piece is below one", !best.fell && work.left() == 0);
    check("at last nothing is open", best.found == UINT64_MAX && queue.left() == 0);
}

// Copies: what is copied stays, and where that throws nothing is inserted.
static void copies() {
    klsm::typed_queue<shared> queue(1);
    auto member = queue.member(0).value();
    const shared payload(std::make_shared<int>(7));
    check("insert of a copy", member.insert(2, payload) == klsm::code::ok && payload.of.use_count() == 2);
    check("try_insert of a copy", member.try_insert(1, payload) == klsm::code::ok && payload.of.use_count() == 3);
    check("emplace", member.emplace(4, payload.of) == klsm::code::ok && payload.of.use_count() == 4);
    check("try_emplace", member.try_emplace(3, payload.of) == klsm::code::ok && payload.of.use_count() == 5);
    for (std::uint64_t key = 1; key <= 4; key++) {
        auto found = member.delete_min();
        check("it comes back", found && found->key == key && found->payload.of == payload.of);
    }
    check("and is ours", payload.of.use_count() == 1 && !member.delete_min());
    const shared none(nullptr);
    bool threw = false;
    try {
        (void)member.insert(1, none);
    } catch (const std::invalid_argument &) {
        threw = true;
    }
    check("a copy that throws is not inserted", threw && member.inserted() == 4 && queue.left() == 0);
}

// Items move from part to part, and their payloads stay where they are.
static void sharings() {
    klsm::typed_queue<counted> queue(klsm::options{2, 8, klsm::pick::first, 0, 4});
    auto one = queue.member(0).value(), other = queue.member(1).value();
    std::uint64_t moved = 77;
    check("none", one.share(moved) == klsm::code::ok && moved == 0);
    for (std::uint64_t i = 0; i < 8; i++)
        check_or_stop("insert", one.insert(7 - i, counted(7 - i)) == klsm::code::ok);
    klsm::dual_bound bound{};
    check("a bound of them", other.bound(bound) == klsm::code::ok && bound.queue == 0 && bound.items == 8 && alive == 8);
    check("all of an own part", one.try_share(moved) == klsm::code::ok && moved == 8 && alive == 8);
    auto item = other.delete_min_alone();
    check("a deletion alone", item && item->key == 0 && item->payload.is_whole() && other.front() == 1);
    check("is work", one.bound(bound) == klsm::code::ok && bound.queue == 1 && bound.work == 0 && bound.items == 7);
    check("until a rest", other.rest() == klsm::code::ok && one.bound()->work == UINT64_MAX && alive == 8);
    check("brings none home", other.share(moved) == klsm::code::ok && moved == 0);
    check("one that never blocks", one.try_delete_min_alone(item) == klsm::code::ok && item->key == 1);
    check("one with a code", other.delete_min_alone(item) == klsm::code::ok && item->key == 2 && one.front() == 3);
    check("a deletion with a refill", one.delete_min()->key == 3 && other.front() == UINT64_MAX);
    check("what it brought home goes back", one.share() == klsm::code::ok && other.front() == 4 && alive == 5);
    for (std::uint64_t key = 4; key < 8; key++) {
        item = other.delete_min();
        check("and is found in order, whole", item && item->key == key && item->payload.number == key &&
                                                  item->payload.is_whole());
    }
    check("nothing is left", one.try_share() == klsm::code::ok && !one.delete_min_alone() &&
                                 one.delete_min_alone(item) == klsm::code::nothing && item->key == 7);
}

// Who sees that a piece is closed sees that its item is gone.
static void items_go_before_their_pieces() {
    klsm::typed_queue<seeing> queue(1);
    auto member = queue.member(0).value();
    klsm::work work;
    std::uint64_t seen = 0;
    check_or_stop("insert", work.emplace(member, 1, &work, &seen) == klsm::code::ok);
    (void)work.next(member);
    check("an item goes before its piece is closed", seen == 1 && work.left() == 0 && work.given_up() == 1);
}

int main() {
    calls();
    ends();
    moves();
    small_payloads();
    any_payloads();
    ascending_left();
    copies();
    sharings();
    a_crew();
    bounds_of_a_crew();
    items_go_before_their_pieces();
    check("none is left over", alive == 0);
    return check_status();
}
