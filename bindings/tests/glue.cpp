// The classes of klsm.hpp over the library of stub.c: what they hand on, and what they answer.
#include "klsm.hpp"

#include "check.h"
#include "deletions.hpp"
#include "stub.h"
#include <algorithm>
#include <cstring>
#include <optional>
#include <type_traits>
#include <utility>

namespace named = klsm::KLSM_VERSIONED(v);
static_assert(std::is_same_v<klsm::queue, named::queue> && std::is_same_v<klsm::member, named::member>);
static_assert(std::is_same_v<klsm::code, named::code> && std::is_same_v<klsm::error, named::error>);
static_assert(std::is_same_v<klsm::options, named::options> && std::is_same_v<klsm::work, named::work>);
static_assert(std::is_same_v<klsm::typed_queue<int>, named::typed_queue<int>>);

static const struct {
    klsm::code code;
    std::int32_t number;
} codes[] = {
    {klsm::code::ok, KLSM_OK},
    {klsm::code::nothing, KLSM_NOTHING},
    {klsm::code::busy, KLSM_BUSY},
    {klsm::code::full, KLSM_FULL},
    {klsm::code::no_memory, KLSM_NO_MEMORY},
    {klsm::code::spent, KLSM_SPENT},
    {klsm::code::not_open, KLSM_NOT_OPEN},
    {klsm::code::open, KLSM_OPEN},
    {klsm::code::bad_count, KLSM_BAD_COUNT},
    {klsm::code::bad_k, KLSM_BAD_K},
    {klsm::code::bad_pick, KLSM_BAD_PICK},
    {klsm::code::shared, KLSM_SHARED},
    {klsm::code::bad_refill, KLSM_BAD_REFILL},
    {klsm::code::stopped, KLSM_STOPPED},
    {klsm::code::miscounted, KLSM_MISCOUNTED},
    {klsm::code::bad_version, KLSM_BAD_VERSION},
    {klsm::code::misaligned, KLSM_MISALIGNED},
    {klsm::code(KLSM_MISALIGNED + 1), KLSM_MISALIGNED + 1},
};

// What the stub answers where a lock is held for so many tries.
static void begin(stub_call call, std::uint64_t held, std::int32_t number) {
    stub_begin();
    stub_hold(call, held);
    stub_answer(call, static_cast<std::uint64_t>(number));
}

static bool is_named(klsm::code code, std::int32_t number) {
    return std::strcmp(klsm::text(code), klsm_text(number)) == 0;
}

static void names() {
    for (auto [code, number] : codes) {
        check(klsm_text(number), static_cast<std::int32_t>(code) == number && is_named(code, number));
        klsm::error error(code);
        check("an error has it", error.code() == code && std::strcmp(error.what(), klsm_text(number)) == 0);
    }
    check("the picks are those of klsm.h", static_cast<std::uint32_t>(klsm::pick::first) == KLSM_FIRST &&
                                               static_cast<std::uint32_t>(klsm::pick::last) == KLSM_LAST &&
                                               static_cast<std::uint32_t>(klsm::pick::random) == KLSM_RANDOM);
    check("a key of a node", klsm::key_of_node(7, 3, 5) == klsm_key_of_node(7, 3, 5));
    check("the bound of a node", klsm::bound_of_node(klsm_key_of_node(7, 3, 5)) == 7);
    check("a key of a bound", klsm::key_of_bound(7, 3) == klsm_key_of_bound(7, 3));
    check("the bound of a key", klsm::bound_of_key(klsm_key_of_bound(7, 3)) == 7);
    check("a key of a double", klsm::key_of_double(-2.5) == klsm_key_of_double(-2.5));
    check("the double of a key", klsm::double_of_key(klsm_key_of_double(-2.5)) == -2.5);
    check("a key of a number with a sign", klsm::key_of_int64(-3) == klsm_key_of_int64(-3));
    check("the number of a key", klsm::int64_of_key(klsm_key_of_int64(-3)) == -3);
}

// Whether a queue was opened once, by the opening that names all numbers, with these numbers.
static bool has_opened(klsm_options numbers) {
    const std::uint32_t call = STUB_OPEN_WITH_BALANCE;
    return stub_asked(call) == 1 && stub_asked(STUB_OPEN) == 0 && stub_argument(call, 0) != 0 &&
           stub_argument(call, 1) == numbers.threads && stub_argument(call, 2) == numbers.k &&
           stub_argument(call, 3) == numbers.pick && stub_argument(call, 4) == numbers.seed &&
           stub_argument(call, 5) == numbers.refill && stub_argument(call, 6) == numbers.balance;
}

// What a queue that is made of these asks for, and that it is dropped, once.
template <class... Arguments>
static void asks(const char *name, klsm_options expected, Arguments... arguments) {
    stub_begin();
    {
        klsm::queue queue(arguments...);
        check(name, has_opened(expected) && queue.threads() == expected.threads);
        check("it is open", stub_queues() == 1 && stub_asked(STUB_DROP) == 0);
    }
    check("one drop for one opening", stub_queues() == 0 && stub_asked(STUB_DROP) == 1);
    check("of the same queue", stub_argument(STUB_DROP, 0) == stub_argument(STUB_OPEN_WITH_BALANCE, 0));
}

static void openings() {
    const klsm::pick last = klsm::pick::last, random = klsm::pick::random;
    const std::uint64_t seed = std::uint64_t(7) << 40;
    const klsm_options defaults = klsm_defaults(3);
    asks("threads alone", defaults, 3u);
    asks("default options", defaults, klsm::options{3});
    klsm_options other = defaults;
    other.k = 40;
    other.refill = std::min<std::size_t>(40, KLSM_DEFAULT_REFILL);
    asks("threads and k", other, 3u, 40u);
    asks("the same by options", other, klsm::options{3, 40});
    asks("all options", {3, 40, KLSM_RANDOM, seed, 30, UINT32_MAX}, klsm::options{3, 40, random, seed, 30, UINT32_MAX});
    asks("no refill", {5, 40, KLSM_LAST, 9, 0, 5}, klsm::options{5, 40, last, 9, 0, 5});
    asks("a refill of k", {3, 15, KLSM_FIRST, 0, 15, 0}, klsm::options{3, 15, klsm::pick::first, 0, 15, 0});
    asks("a refill above k", {3, 15, KLSM_FIRST, 0, 15, 0}, klsm::options{3, 15, klsm::pick::first, 0, 16, 0});
    asks("k = 0", {3, 0, KLSM_FIRST, 0, 0, KLSM_DEFAULT_BALANCE}, klsm::options{3, 0});
}

// A library of another version is refused before it is asked.
static void versions() {
    stub_begin();
    stub_answer(STUB_ABI, KLSM_ABI + 1);
    bool threw = false;
    try {
        klsm::queue queue(2);
    } catch (const klsm::error &why) {
        threw = why.code() == klsm::code::bad_version;
    }
    check("another version throws", threw && stub_asked(STUB_OPEN_WITH_BALANCE) == 0 && stub_asked(STUB_DROP) == 0);
}

static void refused_openings() {
    for (auto [code, number] : codes) {
        if (number == KLSM_OK) continue;
        begin(STUB_OPEN_WITH_BALANCE, 0, number);
        bool threw = false;
        try {
            klsm::queue queue(2);
        } catch (const klsm::error &why) {
            threw = why.code() == code;
        }
        check("an opening throws this code", threw);
        check("and drops nothing", stub_asked(STUB_DROP) == 0 && stub_queues() == 0);
    }
}

// Each opening has one drop, wherever the queue was moved.
static void drops() {
    stub_begin();
    {
        klsm::queue first(1), second(2);
        klsm::queue third(std::move(first));
        check("a move drops nothing", stub_asked(STUB_DROP) == 0);
        third = std::move(second);
        check("what is assigned over is dropped", stub_asked(STUB_DROP) == 1 && stub_queues() == 1);
    }
    check("two drops for two openings", stub_asked(STUB_DROP) == 2 && stub_queues() == 0);
}

// A member of number 2, and whether a call of it was made so often, each time with its own slot.
struct opened {
    klsm::queue queue = klsm::queue(3);
    klsm::member member = queue.member(2).value();

    static bool asked(stub_call call, std::uint64_t times) {
        return stub_asked(call) == times && stub_repeats(call) &&
               stub_argument(call, 0) == stub_argument(STUB_OPEN_WITH_BALANCE, 0) + 2 * sizeof(klsm_member);
    }
    static bool inserts(std::uint64_t times) {
        return asked(STUB_TRY_INSERT, times) && stub_argument(STUB_TRY_INSERT, 1) == 5 &&
               stub_argument(STUB_TRY_INSERT, 2) == 6;
    }
};

static bool is_written(const klsm::item &item) {
    return item.key == 101 && item.load == 102 && item.number == 103 && item.owner == 104;
}

static void insertions() {
    for (auto [code, number] : codes) {
        for (unsigned held : {0u, 1u, 2u, 45u}) {
            if (number == KLSM_BUSY) continue;
            begin(STUB_TRY_INSERT, held, number);
            check("insert waits for this code", opened().member.insert(5, 6) == code);
            check("by as many tries as it takes", opened::inserts(held + 1));
            begin(STUB_TRY_INSERT, held, number);
            check("try_insert has this code, or meets a held lock",
                  opened().member.try_insert(5, 6) == (held == 0 ? code : klsm::code::busy));
            check("by one try", opened::inserts(1));
        }
    }
}

// A deletion in its four forms.
template <class Deletion> static void deletions() {
    for (auto [code, number] : codes) {
        for (unsigned held : {0u, 1u, 2u, 45u}) {
            if (number == KLSM_BUSY) continue;
            begin(Deletion::call, held, number);
            opened with;
            std::optional<klsm::item> item = Deletion::waits(with.member);
            check("a deletion waits, and has an item with ok alone",
                  number == KLSM_OK ? item && is_written(*item) : !item);
            check("by as many tries as it takes", opened::asked(Deletion::call, held + 1));
            begin(Deletion::call, held, number);
            item = klsm::item{1, 2, 3, 4};
            check("it has this code", Deletion::waits(with.member, item) == code);
            check("and writes with ok alone", number == KLSM_OK ? is_written(*item) : item->key == 1);
            check("by as many tries as it takes", stub_asked(Deletion::call) == held + 1);
            begin(Deletion::call, held, number);
            klsm::item plain{1, 2, 3, 4};
            check("the same with an item", Deletion::waits(with.member, plain) == code);
            check("and writes with ok alone", number == KLSM_OK ? is_written(plain) : plain.key == 1);
            check("by as many tries as it takes", stub_asked(Deletion::call) == held + 1);
            klsm::code tried = held == 0 ? code : klsm::code::busy;
            begin(Deletion::call, held, number);
            plain = klsm::item{1, 2, 3, 4};
            check("one that does not wait has this code, or meets a held lock",
                  Deletion::tries(with.member, plain) == tried);
            check("by one try", stub_asked(Deletion::call) == 1);
            check("it writes with ok alone", tried == klsm::code::ok ? is_written(plain) : plain.key == 1);
        }
    }
}

// Whether a sharing had its code by so many tries, and wrote how many moved with ok alone.
static bool has_shared(klsm::code answer, klsm::code expected, std::uint64_t times, std::uint64_t moved) {
    return answer == expected && opened::asked(STUB_TRY_SHARE, times) &&
           moved == (expected == klsm::code::ok ? 105u : 7u);
}

static void sharings() {
    for (auto [code, number] : codes) {
        for (unsigned held : {0u, 1u, 2u, 45u}) {
            if (number == KLSM_BUSY) continue;
            klsm::code tried = held == 0 ? code : klsm::code::busy, answer;
            std::uint64_t moved = 7;
            begin(STUB_TRY_SHARE, held, number);
            answer = opened().member.share(moved);
            check("share waits for this code", has_shared(answer, code, held + 1, moved));
            begin(STUB_TRY_SHARE, held, number);
            answer = opened().member.share();
            check("also without a number", answer == code && opened::asked(STUB_TRY_SHARE, held + 1));
            begin(STUB_TRY_SHARE, held, number);
            moved = 7;
            answer = opened().member.try_share(moved);
            check("try_share has this code, or meets a held lock", has_shared(answer, tried, 1, moved));
            begin(STUB_TRY_SHARE, held, number);
            answer = opened().member.try_share();
            check("also without a number", answer == tried && opened::asked(STUB_TRY_SHARE, 1));
        }
    }
}

// Whether a bound had its code by so many tries, and wrote with ok alone.
static bool has_bounded(klsm::code answer, klsm::code expected, std::uint64_t times, const klsm::dual_bound &bound) {
    const std::uint64_t first = expected == klsm::code::ok ? 106 : 7;
    return answer == expected && opened::asked(STUB_TRY_BOUND, times) && bound.queue == first &&
           bound.work == first + 1 && bound.items == first + 2;
}

static void bounds() {
    for (auto [code, number] : codes) {
        for (unsigned held : {0u, 1u, 2u, 45u}) {
            if (number == KLSM_BUSY) continue;
            klsm::code tried = held == 0 ? code : klsm::code::busy, answer;
            klsm::dual_bound bound{7, 8, 9};
            begin(STUB_TRY_BOUND, held, number);
            answer = opened().member.bound(bound);
            check("bound waits for this code", has_bounded(answer, code, held + 1, bound));
            begin(STUB_TRY_BOUND, held, number);
            std::optional<klsm::dual_bound> found = opened().member.bound();
            check("and has one with ok alone",
                  found.has_value() == (number == KLSM_OK) && opened::asked(STUB_TRY_BOUND, held + 1));
            check("which is that", !found || (found->queue == 106 && found->work == 107 && found->items == 108));
            begin(STUB_TRY_BOUND, held, number);
            bound = {7, 8, 9};
            answer = opened().member.try_bound(bound);
            check("try_bound has this code, or meets a held lock", has_bounded(answer, tried, 1, bound));
        }
    }
}

static void rests() {
    for (auto [code, number] : codes) {
        for (unsigned held : {0u, 1u, 2u, 45u}) {
            if (number == KLSM_BUSY) continue;
            begin(STUB_TRY_REST, held, number);
            klsm::code answer = opened().member.rest();
            check("rest waits for this code", answer == code && opened::asked(STUB_TRY_REST, held + 1));
            begin(STUB_TRY_REST, held, number);
            answer = opened().member.try_rest();
            check("try_rest has this code, or meets a held lock",
                  answer == (held == 0 ? code : klsm::code::busy) && opened::asked(STUB_TRY_REST, 1));
        }
    }
}

// None of its calls reaches the library.
static void moved_from() {
    stub_begin();
    opened with;
    klsm::member &member = with.member;
    klsm::member other = std::move(member);
    const klsm::code closed = klsm::code::not_open;
    std::uint64_t moved = 7;
    klsm::item item{1, 2, 3, 4};
    check("a member that was moved from shares nothing", member.share() == closed && member.try_share() == closed &&
                                                             member.share(moved) == closed &&
                                                             member.try_share(moved) == closed && moved == 7);
    klsm::dual_bound bound{7, 8, 9};
    check("and bounds nothing", member.bound(bound) == closed && member.try_bound(bound) == closed &&
                                    !member.bound() && bound.queue == 7 && bound.work == 8 && bound.items == 9);
    check("nor does it rest", member.rest() == closed && member.try_rest() == closed);
    check("and deletes nothing alone", member.delete_min_alone(item) == closed &&
                                           member.try_delete_min_alone(item) == closed &&
                                           !member.delete_min_alone() && item.key == 1);
    check("by no call", stub_asked(STUB_TRY_SHARE) + stub_asked(STUB_TRY_BOUND) + stub_asked(STUB_TRY_REST) +
                                stub_asked(STUB_TRY_DELETE_MIN_ALONE) ==
                            0);
}

static void counts() {
    stub_begin();
    stub_answer(STUB_INSERTED, 9);
    stub_answer(STUB_DELETED, 4);
    opened with;
    const klsm::member &member = with.member;
    const klsm::queue &queue = with.queue;
    check("insertions", member.inserted() == 9 && opened::asked(STUB_INSERTED, 1));
    check("deletions", member.deleted() == 4 && opened::asked(STUB_DELETED, 1));
    check("what is left is that of each member", queue.left() == 15);
    stub_answer(STUB_FRONT, 77);
    check("the front", member.front() == 77);
    check("the number", member.number() == 2);
}

// Why there is no member.
static void members() {
    stub_begin();
    klsm::queue queue(3);
    std::optional<klsm::member> first, other;
    check("a member", queue.member(2, first) == klsm::code::ok && first->number() == 2);
    check("while it is out", queue.member(2, other) == klsm::code::busy && !other);
    check("there are three", queue.member(3, other) == klsm::code::bad_count && !other);
    klsm::queue moved = std::move(queue);
    check("of a queue that was moved from", queue.member(1, other) == klsm::code::not_open && !other);
    klsm::member last = std::move(*first);
    check("a member that was moved from has no number", first->number() == UINT32_MAX && last.number() == 2);
}

// Whether a closing was made once, of the queue that was opened, into an array of so many items.
static bool has_closed(std::uint64_t room) {
    return stub_asked(STUB_CLOSE) == 1 &&
           stub_argument(STUB_CLOSE, 0) == stub_argument(STUB_OPEN_WITH_BALANCE, 0) &&
           stub_argument(STUB_CLOSE, 1) != 0 && stub_argument(STUB_CLOSE, 2) != 0 &&
           stub_argument(STUB_CLOSE, 3) == room;
}

// Three members with so many items each. The library gets an array also where it has no room.
static void closings(std::uint64_t each) {
    stub_begin();
    stub_answer(STUB_INSERTED, 4 + each);
    stub_answer(STUB_DELETED, 4);
    stub_leave(12 + 3 * each, 12, 3 * each);
    {
        klsm::queue queue(3);
        klsm::account account = queue.close();
        check("the array has room for each", has_closed(3 * each));
        check("the totals", account.inserted == 12 + 3 * each && account.deleted == 12);
        bool same = account.left.size() == 3 * each;
        for (std::uint64_t i = 0; i < 3 * each && same; i++)
            same = account.left[i].key == i && account.left[i].load == 10 + i &&
                   account.left[i].number == 20 + i && account.left[i].owner == 1;
        check("what is left", same);
        check("it is closed", stub_queues() == 0);
    }
    check("what is closed is not dropped a second time", stub_queues() == 0 && stub_asked(STUB_DROP) <= 1);
}

static klsm::code thrown_by_close() {
    try {
        (void)klsm::queue(3).close();
    } catch (const klsm::error &why) {
        return why.code();
    }
    return klsm::code::ok;
}

static void refused_closings() {
    for (auto [code, number] : codes) {
        if (number == KLSM_OK) continue;
        begin(STUB_CLOSE, 0, number);
        klsm::account account{7, 8, {klsm::item{1, 2, 3, 4}}};
        check("close has this code", klsm::queue(3).close(account) == code && has_closed(0));
        check("and writes nothing", account.inserted == 7 && account.deleted == 8 && account.left.size() == 1);
        check("the queue is dropped at its end", stub_queues() == 0 && stub_asked(STUB_DROP) == 1);
        begin(STUB_CLOSE, 0, number);
        check("the other form throws it", thrown_by_close() == code && has_closed(0));
        check("the queue is dropped at its end", stub_queues() == 0 && stub_asked(STUB_DROP) == 1);
    }
}

int main() {
    names();
    openings();
    versions();
    refused_openings();
    drops();
    insertions();
    deletions<refilling>();
    deletions<alone>();
    sharings();
    bounds();
    rests();
    moved_from();
    counts();
    members();
    closings(5);
    closings(0);
    refused_closings();
    return check_status();
}
