// The blocks of memory that payloads of klsm_typed.hpp lie in, over the library of stub.c: what is refused, or cannot be
// made, leaves its block to the next one; a member keeps few, and gives them back where it ends. This program counts
// the blocks that C++ has.
#include "klsm.hpp"

#include "check.h"
#include "stub.h"
#include <array>
#include <cstdlib>
#include <memory>
#include <new>
#include <utility>
#include <vector>

using klsm::code;

static long blocks = 0;
static void *take(std::size_t size) {
    void *at = std::malloc(size);
    blocks += at != nullptr;
    return at;
}
static void give_back(void *at) {
    blocks -= at != nullptr;
    std::free(at);
}
void *operator new(std::size_t size) {
    void *at = take(size);
    if (at == nullptr) throw std::bad_alloc();
    return at;
}
void *operator new(std::size_t size, const std::nothrow_t &) noexcept { return take(size); }
void operator delete(void *at) noexcept { give_back(at); }
void operator delete(void *at, std::size_t) noexcept { give_back(at); }

using large = std::array<std::uint64_t, 8>;

// One that cannot be made of some numbers.
struct thrower {
    large of{};
    explicit thrower(int why) {
        if (why > 0) throw why;
    }
};

static void begin(stub_call call, code answer) {
    stub_begin();
    stub_answer(call, static_cast<std::uint64_t>(answer));
}

static void refusals() {
    klsm::typed_queue<large> queue(2);
    const long before = blocks;
    {
        auto member = queue.member(1).value();
        large payload{1, 2, 3};
        begin(STUB_TRY_INSERT, code::full);
        for (int i = 0; i < 3; i++) {
            check("refused", member.try_insert(5, std::move(payload)) == code::full && payload[2] == 3);
            check("a copy", member.insert(5, std::as_const(payload)) == code::full);
            check("and what is made", member.emplace(5, payload) == code::full);
        }
        check("one block does", blocks == before + 1);
        auto moved = std::move(member);
        check("it moves with the member", moved.insert(5, std::move(payload)) == code::full && blocks == before + 1);
        member = std::move(moved);
        check("and back", member.insert(5, std::move(payload)) == code::full && blocks == before + 1);
    }
    check("and goes with it", blocks == before);
    begin(STUB_TRY_DELETE_MIN, code::nothing); // by which the queue ends
}

static void exceptions() {
    klsm::typed_queue<thrower> queue(1);
    const long before = blocks;
    int threw = 0;
    {
        auto member = queue.member(0).value();
        begin(STUB_TRY_INSERT, code::full);
        check("one that is made", member.emplace(5, 0) == code::full && blocks == before + 1);
        for (int i = 0; i < 3; i++) {
            try {
                (void)member.emplace(5, 1);
            } catch (int) {
                threw++;
            }
        }
        check("one that cannot be made leaves its block", threw == 3 && blocks == before + 1);
        check("and is not inserted", stub_asked(STUB_TRY_INSERT) == 1);
    }
    check("none is lost", blocks == before);
    begin(STUB_TRY_DELETE_MIN, code::nothing);
}

static void payloads_in_the_load() {
    klsm::typed_queue<std::unique_ptr<large>> owners(1);
    klsm::typed_queue<std::uint64_t> numbers(1);
    auto of_owners = owners.member(0).value();
    auto of_numbers = numbers.member(0).value();
    auto owned = std::make_unique<large>();
    large *const at = owned.get();
    const long before = blocks;
    begin(STUB_TRY_INSERT, code::ok);
    check("an owner", of_owners.insert(5, std::move(owned)) == code::ok && blocks == before);
    check("a number", of_numbers.insert(5, std::uint64_t(7)) == code::ok && blocks == before);
    owned.reset(at); // the stub forgets it
    begin(STUB_TRY_DELETE_MIN, code::nothing);
}

static void few_are_kept() {
    const long before = blocks;
    {
        std::vector<void *> taken(100);
        klsm::detail::pool<large> pool;
        const long without = blocks;
        for (void *&one : taken) one = pool.take();
        check("a block for each", blocks == without + 100);
        for (void *one : taken) pool.keep(one);
        check("few are kept", blocks == without + 64);
        for (std::size_t i = 0; i < 64; i++) taken[i] = pool.take();
        check("and taken first", blocks == without + 64);
        for (std::size_t i = 0; i < 64; i++) pool.keep(taken[i]);
        klsm::detail::pool<large> moved(std::move(pool)), other;
        other = std::move(moved);
        check("and moved", blocks == without + 64);
    }
    check("none is lost", blocks == before);
}

int main() {
    refusals();
    exceptions();
    payloads_in_the_load();
    few_are_kept();
    return check_status();
}
