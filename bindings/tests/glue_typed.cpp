// Payloads and counts of work of klsm.hpp over the library of stub.c: what a refusal leaves, what waits, and when a
// piece of work is open. This program has its own select.
#include "klsm.hpp"

#include "check.h"
#include "deletions.hpp"
#include "stub.h"
#include <memory>
#include <optional>
#include <string>
#include <utility>

using klsm::code;

// A payload, and how many of them are there.
static int alive = 0;
struct counted {
    std::string words;

    explicit counted(const char *from) : words(from) { alive++; }
    counted(counted &&other) noexcept : words(std::move(other.words)) { alive++; }
    counted &operator=(counted &&other) noexcept = default;
    ~counted() { alive--; }
};

// One that can be copied.
struct copied {
    static inline int alive = 0;
    std::string text;

    explicit copied(const char *from) : text(from) { alive++; }
    copied(const copied &other) : text(other.text) { alive++; }
    copied(copied &&other) noexcept : text(std::move(other.text)) { alive++; }
    copied &operator=(copied &&other) noexcept = default;
    ~copied() { alive--; }
};

// One that cannot be made.
struct thrower {
    explicit thrower(int why) { throw why; }
};

// What is seen of a count of work while a call sleeps.
static klsm::work *watched = nullptr;
static std::uint64_t open_in_sleep = 0;
extern "C" int select(int, fd_set *, fd_set *, fd_set *, timeval *) {
    if (watched != nullptr) open_in_sleep = watched->left();
    return 0;
}

static const char *const words = "longer than what a string keeps in itself, so that it has a block of its own";

static void begin(stub_call call, std::uint64_t held, code answer) {
    stub_begin();
    stub_hold(call, held);
    stub_answer(call, static_cast<std::uint64_t>(answer));
}

// A refusal leaves the payload with its owner, and takes it for no longer than the call.
static void refusals() {
    for (code why : {code::full, code::no_memory, code::spent, code::not_open, code::busy}) {
        klsm::typed_queue<counted> queue(2);
        auto member = queue.member(1).value();
        counted payload(words);
        begin(STUB_TRY_INSERT, 0, why);
        check("try_insert has this code", member.try_insert(5, std::move(payload)) == why);
        check("by one try, with its key", stub_asked(STUB_TRY_INSERT) == 1 && stub_argument(STUB_TRY_INSERT, 1) == 5);
        check("the payload is as it was, and the only one", payload.words == words && alive == 1);
        if (why != code::busy) {
            begin(STUB_TRY_INSERT, 2, why);
            check("insert waits for it", member.insert(5, std::move(payload)) == why);
            check("by three tries", stub_asked(STUB_TRY_INSERT) == 3 && stub_repeats(STUB_TRY_INSERT));
            check("the payload is as it was, and the only one", payload.words == words && alive == 1);
        }
        begin(STUB_TRY_DELETE_MIN, 0, code::nothing); // by which the queue ends
    }
}

template <class Deletion> static void deletions() {
    klsm::typed_queue<std::uint32_t> queue(2);
    auto member = queue.member(1).value();
    std::optional<klsm::typed_item<std::uint32_t>> found;
    begin(Deletion::call, 1, code::ok);
    check("a call that does not wait meets a held lock", Deletion::tries(member, found) == code::busy && !found);
    check("and then has an item", Deletion::tries(member, found) == code::ok && found->key == 101 &&
                                      found->payload == 102 && found->number == 103 && found->owner == 104);
    begin(Deletion::call, 2, code::ok);
    check("a call that waits", Deletion::waits(member)->payload == 102 && stub_asked(Deletion::call) == 3);
    for (code why : {code::nothing, code::not_open}) {
        begin(Deletion::call, 1, why);
        check("tells it by a code", Deletion::waits(member, found) == why && found->key == 101);
        check("or by no item", !Deletion::waits(member));
    }
    begin(Deletion::call, 1, code::ok);
    found.reset();
    check("and has one with ok", Deletion::waits(member, found) == code::ok && found->key == 101 &&
                                     found->payload == 102 && stub_asked(Deletion::call) == 2);
    check("front, counts and number are those of the member",
          std::as_const(member).front() == 0 && std::as_const(member).inserted() == 0 && member.number() == 1);
    klsm::queue plain(1);
    klsm::member of_plain = plain.member(0).value();
    klsm::item item{7, 7, 7, 7};
    for (code why : {code::nothing, code::not_open}) {
        begin(Deletion::call, 1, why);
        check("a member without payloads tells it by a code", Deletion::waits(of_plain, item) == why && item.key == 7);
    }
    begin(Deletion::call, 1, code::ok);
    check("and writes with ok", Deletion::waits(of_plain, item) == code::ok && item.key == 101);
    klsm::member gone = std::move(of_plain);
    check("a member that was moved from is not open", Deletion::waits(of_plain, item) == code::not_open);
}

// A sharing is that of the member, and leaves the payloads where they are.
static void sharings() {
    klsm::typed_queue<counted> queue(2);
    auto member = queue.member(1).value();
    for (code why : {code::ok, code::full, code::no_memory, code::not_open}) {
        for (std::uint64_t held : {0u, 1u, 45u}) {
            const code tried = held == 0 ? why : code::busy;
            std::uint64_t moved = 7, also = 7;
            begin(STUB_TRY_SHARE, held, why);
            check("share waits for this code", member.share(moved) == why && stub_asked(STUB_TRY_SHARE) == held + 1);
            begin(STUB_TRY_SHARE, held, why);
            check("try_share has this code, or meets a held lock",
                  member.try_share(also) == tried && stub_asked(STUB_TRY_SHARE) == 1);
            check("they write with ok alone",
                  moved == (why == code::ok ? 105u : 7u) && also == (tried == code::ok ? 105u : 7u));
            begin(STUB_TRY_SHARE, held, why);
            check("share without a number", member.share() == why && stub_asked(STUB_TRY_SHARE) == held + 1);
            begin(STUB_TRY_SHARE, held, why);
            check("try_share without one", member.try_share() == tried && stub_asked(STUB_TRY_SHARE) == 1);
        }
    }
    begin(STUB_TRY_DELETE_MIN, 0, code::nothing); // by which the queue ends
}

// So are a bound and a rest.
static void bounds_and_rests() {
    klsm::typed_queue<counted> queue(2);
    auto member = queue.member(1).value();
    for (code why : {code::ok, code::not_open}) {
        for (std::uint64_t held : {0u, 1u, 45u}) {
            const code tried = held == 0 ? why : code::busy;
            klsm::dual_bound bound{7, 8, 9}, also{7, 8, 9};
            begin(STUB_TRY_BOUND, held, why);
            check("bound waits for this code", member.bound(bound) == why && stub_asked(STUB_TRY_BOUND) == held + 1);
            begin(STUB_TRY_BOUND, held, why);
            check("try_bound has this code, or meets a held lock",
                  member.try_bound(also) == tried && stub_asked(STUB_TRY_BOUND) == 1);
            check("they write with ok alone", bound.queue == (why == code::ok ? 106u : 7u) &&
                                                  also.queue == (tried == code::ok ? 106u : 7u));
            begin(STUB_TRY_BOUND, held, why);
            const auto found = member.bound();
            check("it has one with ok alone",
                  found.has_value() == (why == code::ok) && stub_asked(STUB_TRY_BOUND) == held + 1);
            check("which is that", !found || (found->queue == 106 && found->work == 107 && found->items == 108));
            begin(STUB_TRY_REST, held, why);
            check("rest waits for this code", member.rest() == why && stub_asked(STUB_TRY_REST) == held + 1);
            begin(STUB_TRY_REST, held, why);
            check("try_rest has this code, or meets a held lock",
                  member.try_rest() == tried && stub_asked(STUB_TRY_REST) == 1);
        }
    }
    begin(STUB_TRY_DELETE_MIN, 0, code::nothing); // by which the queue ends
}

// Whether it was tried so often, with its key. What is inserted is taken out of the stub, which forgets it.
static bool is_inserted(std::uint64_t times, code why) {
    bool is_told = stub_asked(STUB_TRY_INSERT) == times && stub_repeats(STUB_TRY_INSERT) != 0 &&
                   stub_argument(STUB_TRY_INSERT, 1) == 5 && copied::alive == (why == code::ok ? 2 : 1);
    if (why != code::ok) return is_told;
    auto *inserted = reinterpret_cast<copied *>(static_cast<std::uintptr_t>(stub_argument(STUB_TRY_INSERT, 2)));
    is_told = is_told && inserted->text == words;
    delete inserted;
    return is_told;
}

// An insertion of a copy, and of what is made of arguments, with each code: nothing stays of one that is refused.
static void copies() {
    const copied payload(words);
    for (code why : {code::ok, code::full, code::no_memory, code::spent, code::not_open, code::busy}) {
        klsm::typed_queue<copied> queue(2);
        auto member = queue.member(1).value();
        begin(STUB_TRY_INSERT, 0, why);
        check("try_insert of a copy", member.try_insert(5, payload) == why && is_inserted(1, why));
        begin(STUB_TRY_INSERT, 0, why);
        check("try_emplace", member.try_emplace(5, words) == why && is_inserted(1, why));
        if (why != code::busy) {
            begin(STUB_TRY_INSERT, 2, why);
            check("insert of a copy", member.insert(5, payload) == why && is_inserted(3, why));
            begin(STUB_TRY_INSERT, 2, why);
            check("emplace", member.emplace(5, words) == why && is_inserted(3, why));
        }
        begin(STUB_TRY_DELETE_MIN, 0, code::nothing); // by which the queue ends
    }
    check("the one that was copied is as it was", payload.text == words && copied::alive == 1);
}

// All numbers of an opening arrive.
static void openings() {
    stub_begin();
    {
        klsm::typed_queue<counted> named(klsm::options{3, 40, klsm::pick::random, 9, 30, 20});
        const std::uint64_t numbers[] = {3, 40, KLSM_RANDOM, 9, 30, 20};
        for (std::uint32_t i = 0; i < 6; i++)
            check("a number of the options", stub_argument(STUB_OPEN_WITH_BALANCE, i + 1) == numbers[i]);
        klsm::typed_queue<counted> defaults(5);
        const klsm_options expected = klsm_defaults(5);
        check("threads", stub_argument(STUB_OPEN_WITH_BALANCE, 1) == 5 && defaults.threads() == 5);
        check("the default k", stub_argument(STUB_OPEN_WITH_BALANCE, 2) == expected.k);
        check("the default refill", stub_argument(STUB_OPEN_WITH_BALANCE, 5) == expected.refill);
        klsm::typed_queue<counted> with_k(5, 7);
        check("a k that is named", stub_argument(STUB_OPEN_WITH_BALANCE, 2) == 7);
        std::optional<klsm::typed_member<counted>> first, other;
        check("a member", named.member(2, first) == code::ok && first->number() == 2 && !named.member(2));
        check("why there is none", named.member(2, other) == code::busy && named.member(3, other) == code::bad_count);
        stub_answer(STUB_TRY_DELETE_MIN, KLSM_NOTHING); // by which the queues end
    }
    check("each is dropped", stub_queues() == 0);
}

// A std::unique_ptr is in the load itself, and is one's own again where it is refused.
static void owners() {
    klsm::typed_queue<std::unique_ptr<counted>> queue(1);
    auto member = queue.member(0).value();
    auto owned = std::make_unique<counted>(words);
    counted *const at = owned.get();
    begin(STUB_TRY_INSERT, 0, code::full);
    check("refused", member.insert(5, std::move(owned)) == code::full && owned.get() == at && alive == 1);
    begin(STUB_TRY_INSERT, 0, code::ok);
    check("inserted", member.insert(5, std::move(owned)) == code::ok && owned == nullptr && alive == 1);
    check("as its address", stub_argument(STUB_TRY_INSERT, 2) == reinterpret_cast<std::uintptr_t>(at));
    owned.reset(at); // the stub forgets it
    check("none", member.emplace(5) == code::ok && stub_argument(STUB_TRY_INSERT, 2) == 0);
    begin(STUB_TRY_DELETE_MIN, 0, code::nothing); // by which the queue ends
}

// A lambda has no assignment, and is there all the same where it is refused.
static void lambdas() {
    std::size_t sum = 0;
    auto job = [text = std::string(words), &sum] { sum += text.size(); };
    klsm::typed_queue<decltype(job)> queue(1);
    auto member = queue.member(0).value();
    begin(STUB_TRY_INSERT, 0, code::full);
    check("a lambda is refused", member.insert(5, std::move(job)) == code::full);
    job();
    check("and is as it was", sum == std::string(words).size());
    klsm::typed_item<decltype(job)> one(1, 2, 3, std::move(job)), other(one);
    one.payload();
    other = std::move(one);
    other.payload();
    check("an item with one is moved", sum == 3 * std::string(words).size() && other.key == 1 && other.owner == 3);
    begin(STUB_TRY_DELETE_MIN, 0, code::nothing); // by which the queue ends
}

static void copies_in_the_load() {
    klsm::typed_queue<std::uint32_t> queue(2);
    auto member = queue.member(1).value();
    const std::uint32_t payload = 77;
    begin(STUB_TRY_INSERT, 0, code::ok);
    check("try_insert", member.try_insert(5, payload) == code::ok && stub_argument(STUB_TRY_INSERT, 2) == 77);
    check("try_emplace", member.try_emplace(5, 78u) == code::ok && stub_argument(STUB_TRY_INSERT, 2) == 78);
    begin(STUB_TRY_INSERT, 1, code::ok);
    check("insert", member.insert(5, payload) == code::ok && stub_argument(STUB_TRY_INSERT, 2) == 77);
    check("emplace", member.emplace(5, 78u) == code::ok && stub_argument(STUB_TRY_INSERT, 2) == 78);
    check("none", member.emplace(5) == code::ok && stub_argument(STUB_TRY_INSERT, 2) == 0);
    begin(STUB_TRY_DELETE_MIN, 0, code::nothing);
}

// Whether so many pieces of work are open, and so many were given up.
static bool counts_are(const klsm::work &work, std::uint64_t left, std::uint64_t given_up) {
    return work.left() == left && work.given_up() == given_up;
}

// The end is told as the cause has it, and then there is no item.
template <class Member> static void ends(Member &member) {
    klsm::work work;
    begin(STUB_TRY_DELETE_MIN, 0, code::nothing);
    auto none = work.next(member);
    check("where no work is open the end is seen at once",
          !none && none.why() == code::nothing && stub_asked(STUB_TRY_DELETE_MIN) == 1);
    work.open();
    check("where some is open it is waited for", work.next(member).why() == code::not_open);
    check("as long as it takes", stub_asked(STUB_TRY_DELETE_MIN) > 100);
    work.done();
    work.give_up();
    begin(STUB_TRY_DELETE_MIN, 0, code::nothing);
    check("more was closed than was open", work.next(member).why() == code::miscounted && counts_are(work, 0, 1));
    work.open(3);
    check("so many are open", counts_are(work, 2, 1) && !work.is_stopped());
    work.stop();
    begin(STUB_TRY_DELETE_MIN, 0, code::ok);
    check("a stop", work.next(member).why() == code::stopped && work.is_stopped());
    check("asks for no item", stub_asked(STUB_TRY_DELETE_MIN) == 0 && counts_are(work, 2, 1));
}

// A piece is closed once: as done where it says so, else as given up.
template <class Member> static void pieces(Member &member) {
    klsm::work work;
    work.open(7);
    begin(STUB_TRY_DELETE_MIN, 2, code::ok);
    {
        auto piece = work.next(member);
        check("an item ends the waiting", piece && piece->key == 101 && (*piece).owner == 104);
        check("and is open", piece.why() == code::ok && counts_are(work, 7, 0));
        piece.done();
        check("it is done", piece && counts_are(work, 6, 0));
        piece.done();
    }
    check("once", counts_are(work, 6, 0));
    (void)work.next(member);
    check("what goes out of scope is given up", counts_are(work, 5, 1));
    try {
        auto piece = work.next(member);
        throw piece->key;
    } catch (std::uint64_t) {
    }
    check("also by an exception", counts_are(work, 4, 2));
    auto moved_from = work.next(member), moved = std::move(moved_from);
    check("a piece that is moved", !moved_from && moved && counts_are(work, 4, 2));
    moved_from.done();
    check("is closed by the new one alone", counts_are(work, 4, 2));
    moved = work.next(member);
    check("one that is assigned over is given up", moved && counts_are(work, 3, 3));
    moved.done();
    moved = work.next(member);
    check("but not where it was done", moved && counts_are(work, 2, 3));
    moved.done();
    work.done();
    check("none is open", counts_are(work, 0, 3));
}

// What a program has around a member.
struct around {
    using item_type = std::uint64_t;
    klsm::member &of;

    klsm::code delete_min(std::optional<std::uint64_t> &key) noexcept {
        klsm::item found;
        klsm::code answer = of.delete_min(found);
        if (answer == code::ok) key = found.key;
        return answer;
    }
};

static void work() {
    klsm::queue queue(2);
    klsm::member plain = queue.member(1).value();
    klsm::typed_queue<std::uint32_t> typed(2);
    auto of_typed = typed.member(1).value();
    ends(plain);
    pieces(plain);
    ends(of_typed);
    pieces(of_typed);
    klsm::work work;
    work.open();
    around wrapped{plain};
    begin(STUB_TRY_DELETE_MIN, 1, code::ok);
    auto piece = work.next(wrapped);
    check("a piece by what a program has around a member", piece && *piece == 101);
    piece.done();
    klsm::member gone = std::move(plain);
    begin(STUB_TRY_DELETE_MIN, 0, code::ok);
    check("a member that was moved from is not open", work.next(plain).why() == code::not_open);
    check("and has none", stub_asked(STUB_TRY_DELETE_MIN) == 0);
    begin(STUB_TRY_DELETE_MIN, 0, code::nothing);
}

// An insertion with a lock held for so long that the caller sleeps opens the piece before, whatever its code, and
// leaves it open with code::ok alone.
template <class Insert> static void opens(Insert insert) {
    for (code why : {code::ok, code::full, code::no_memory, code::spent, code::not_open}) {
        klsm::work work;
        work.open();
        begin(STUB_TRY_INSERT, 202, why);
        watched = &work;
        open_in_sleep = 0;
        check("an insertion of work has this code", insert(work) == why && stub_asked(STUB_TRY_INSERT) == 203);
        check("its piece is opened before", open_in_sleep == 2 && stub_argument(STUB_TRY_INSERT, 1) == 5);
        check("and open with ok alone", counts_are(work, why == code::ok ? 2 : 1, 0));
        watched = nullptr;
    }
}

static void insertions_of_work() {
    klsm::queue queue(1);
    klsm::member plain = queue.member(0).value();
    klsm::typed_queue<std::uint32_t> numbers(1);
    auto of_numbers = numbers.member(0).value();
    const std::uint32_t number = 7;
    opens([&](klsm::work &work) { return work.insert(plain, 5, 6); });
    opens([&](klsm::work &work) { return work.insert(of_numbers, 5, 6u); });
    opens([&](klsm::work &work) { return work.insert(of_numbers, 5, number); });
    opens([&](klsm::work &work) { return work.emplace(of_numbers, 5, number); });
    klsm::typed_queue<counted> queue_of_counted(1);
    auto of_counted = queue_of_counted.member(0).value();
    klsm::work work;
    counted payload(words);
    begin(STUB_TRY_INSERT, 2, code::full);
    check("refused", work.insert(of_counted, 5, std::move(payload)) == code::full);
    check("the payload is as it was, and the only one", payload.words == words && alive == 1 && counts_are(work, 0, 0));
    klsm::typed_queue<thrower> queue_of_throwers(1);
    auto of_throwers = queue_of_throwers.member(0).value();
    bool threw = false;
    try {
        (void)work.emplace(of_throwers, 5, 1);
    } catch (int) {
        threw = true;
    }
    check("a payload that cannot be made opens nothing", threw && counts_are(work, 0, 0));
    check("and is not inserted", stub_asked(STUB_TRY_INSERT) == 3);
    begin(STUB_TRY_DELETE_MIN, 0, code::nothing);
}

static void fronts() {
    klsm::queue queue(2);
    klsm::typed_queue<std::uint32_t> typed(1);
    klsm::member member = queue.member(1).value();
    stub_begin();
    stub_answer(STUB_FRONT, 77);
    check("a front", member.front() == 77 && stub_asked(STUB_FRONT) == 1);
    check("a front of payloads", typed.member(0)->front() == 77 && stub_asked(STUB_FRONT) == 2);
    klsm::member gone = std::move(member);
    check("a member that was moved from sees none", member.front() == UINT64_MAX && stub_asked(STUB_FRONT) == 2);
    begin(STUB_TRY_DELETE_MIN, 0, code::nothing);
}

int main() {
    fronts();
    openings();
    refusals();
    owners();
    lambdas();
    copies();
    copies_in_the_load();
    deletions<refilling>();
    deletions<alone>();
    sharings();
    bounds_and_rests();
    work();
    insertions_of_work();
    return check_status();
}
