// A crew of sixteen, of which all but one wait, ends at once: by a stop of another thread, and by an exception and a
// refused insertion, by which the only piece goes out of scope. ending.c has signals.
#include "klsm.hpp"

#include "check.h"
#include <algorithm>
#include <chrono>
#include <stdexcept>
#include <string>
#include <thread>
#include <vector>

using klsm::code;
using member = klsm::typed_member<std::string>;
using piece = klsm::piece<klsm::typed_item<std::string>>;
using clock_of = std::chrono::steady_clock;

enum { THREADS = 16, ROUNDS = 50 };

static const char *const words = "longer than what a string keeps in itself, so that it has a block of its own";

struct crew {
    klsm::typed_queue<std::string> queue{klsm::options{THREADS}};
    klsm::work work;
    std::vector<code> ends = std::vector<code>(THREADS, code::ok);
    clock_of::time_point left_at;

    // The others wait by now, and sleep for as long as they ever do.
    void wait() {
        std::this_thread::sleep_for(std::chrono::milliseconds(20));
        left_at = clock_of::now();
    }

    // How long the last one takes from the time when the piece was left.
    template <class Act> double run(Act act) {
        std::vector<std::thread> threads;
        {
            member first = queue.member(0).value();
            check_or_stop("insert", work.insert(first, 1, words) == code::ok);
        }
        for (std::size_t t = 0; t < THREADS; t++)
            threads.emplace_back([&, t, by = queue.member(t).value()]() mutable {
                for (;;) {
                    piece found = work.next(by);
                    ends[t] = found.why();
                    if (!found) return;
                    act(*this, by, std::move(found));
                }
            });
        for (std::thread &thread : threads) thread.join();
        return std::chrono::duration<double>(clock_of::now() - left_at).count();
    }
};

// All see this end, within ten milliseconds in the best of some rounds, since other programs run too. So many pieces
// stay open and so many are given up.
template <class Act>
static void all_end(const char *name, Act act, code end, std::uint64_t left, std::uint64_t given_up) {
    bool is_soon = false, all = true;
    for (int round = 0; round < ROUNDS && all && !is_soon; round++) {
        crew of;
        is_soon = of.run(act) < 0.01;
        all = std::count(of.ends.begin(), of.ends.end(), end) == THREADS && of.work.left() == left &&
              of.work.given_up() == given_up && of.queue.left() == 0;
    }
    check(name, all);
    check("within ten milliseconds", is_soon);
}

// The piece is done only after the stop.
static void be_stopped(crew &of, member &, piece found) {
    std::thread([&] {
        of.wait();
        of.work.stop();
    }).join();
    found.done();
}

static void fail(crew &of, member &, piece found) {
    of.wait();
    if (found->payload == words) throw std::runtime_error("what follows cannot be made");
    found.done();
}

static void throw_and_catch(crew &of, member &by, piece found) {
    try {
        fail(of, by, std::move(found));
    } catch (const std::runtime_error &) {
    }
}

// By a member that is not open, since it was moved from.
static void be_refused(crew &of, member &by, piece found) {
    member moved = std::move(by);
    of.wait();
    code answer = of.work.insert(by, 2, std::move(found->payload));
    by = std::move(moved);
    if (answer == code::not_open && found->payload == words) return;
    found.done();
}

int main() {
    all_end("a stop of another thread", be_stopped, code::stopped, 0, 0);
    all_end("an exception", throw_and_catch, code::nothing, 0, 1);
    all_end("an insertion that is refused", be_refused, code::nothing, 0, 1);
    return check_status();
}
