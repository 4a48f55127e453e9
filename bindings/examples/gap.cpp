// A search by branch and bound that ends once its best answer is known to be close to the best of all. Jobs are
// assigned to machines one by one; what a job costs depends on its machine and on the one before. Now and then a thread
// asks for a bound of all that is open, in the queue and in the hands of threads. Answer and bound are compared with
// dynamic programming.
//
//     c++ -std=c++17 gap.cpp -Iinclude libklsm.a -pthread
#include "klsm.hpp"

#include <algorithm>
#include <array>
#include <atomic>
#include <cstdio>
#include <thread>
#include <utility>
#include <vector>

constexpr std::uint32_t JOBS = 24, MACHINES = 4, CHEAPEST = 3;
constexpr std::uint64_t GAP = 10; // the answer is at most so much above the bound

static std::uint64_t cost(std::uint32_t job, std::uint32_t machine, std::uint32_t before) {
    return CHEAPEST + (job * 7919 + machine * 104729 + 13) % 31 + (machine == before ? 9 : 0);
}

// The first `jobs` jobs are assigned, for this cost.
struct node {
    std::uint64_t cost = 0;
    std::uint32_t jobs = 0, last = MACHINES;

    std::uint64_t bound() const { return cost + (JOBS - jobs) * CHEAPEST; } // no plan that begins so is cheaper
    node with(std::uint32_t machine) const { return {cost + ::cost(jobs, machine, last), jobs + 1, machine}; }
};

class search {
public:
    // The cost of a plan, and a number that no plan is below.
    std::pair<std::uint64_t, std::uint64_t> solve(std::size_t threads) {
        klsm::typed_queue<node> queue(threads);
        {
            auto member = queue.member(0).value();
            insert(member, node{}); // the root is there before anybody asks for a bound
        }
        std::vector<std::thread> crew;
        for (std::size_t t = 0; t < threads; t++)
            crew.emplace_back([this, member = queue.member(t).value()]() mutable { work(member); });
        for (std::thread &thread : crew) thread.join();
        const std::uint64_t best = best_;
        return {best, open_.is_stopped() ? least() : best}; // not stopped, it has searched all
    }

private:
    void work(klsm::typed_member<node> &member) {
        std::uint64_t pieces = 0;
        while (auto piece = open_.next(member)) {
            branch(member, piece->payload);
            piece.done();
            if (++pieces % 64 == 0) look(member);
        }
        member.rest(); // it leaves, and works at nothing
    }

    // The keys are bounds, and no child has a lesser one than its parent. So no item that is deleted from now on has a
    // key below the smaller of the two numbers.
    void look(klsm::typed_member<node> &member) {
        if (auto found = member.bound()) raise(std::min(found->queue, found->work));
        if (best_ <= least() + GAP) open_.stop();
    }

    // What was cut off is not cheaper than the best plan.
    std::uint64_t least() const { return std::min(bound_.load(), best_.load()); }

    // All children are inserted before the next deletion.
    void branch(klsm::typed_member<node> &member, const node &at) {
        lower(greedy(at).cost);
        for (std::uint32_t machine = 0; at.jobs < JOBS && machine < MACHINES; machine++)
            insert(member, at.with(machine));
    }

    // A node that finds no room is searched at once, as a part of its parent.
    void insert(klsm::typed_member<node> &member, const node &at) {
        if (at.bound() >= best_) return;
        if (open_.insert(member, at.bound(), at) != klsm::code::ok) branch(member, at);
    }

    // The plan that takes the cheapest machine for each further job.
    static node greedy(node at) {
        while (at.jobs < JOBS) {
            node cheapest = at.with(0);
            for (std::uint32_t machine = 1; machine < MACHINES; machine++)
                if (at.with(machine).cost < cheapest.cost) cheapest = at.with(machine);
            at = cheapest;
        }
        return at;
    }

    void lower(std::uint64_t total) {
        std::uint64_t known = best_;
        while (total < known && !best_.compare_exchange_weak(known, total)) {
        }
    }
    void raise(std::uint64_t found) {
        std::uint64_t known = bound_;
        while (found > known && !bound_.compare_exchange_weak(known, found)) {
        }
    }

    klsm::work open_;                             // counts unfinished nodes
    std::atomic<std::uint64_t> best_{UINT64_MAX}; // the cost of the best plan so far
    std::atomic<std::uint64_t> bound_{0};         // the greatest bound so far: it never falls
};

// The least cost of all plans: of the jobs from each one on, behind each machine.
static std::uint64_t by_table() {
    std::array<std::uint64_t, MACHINES + 1> behind{};
    for (std::uint32_t job = JOBS; job-- > 0;) {
        std::array<std::uint64_t, MACHINES + 1> from{};
        for (std::uint32_t last = 0; last <= MACHINES; last++) {
            from[last] = UINT64_MAX;
            for (std::uint32_t machine = 0; machine < MACHINES; machine++)
                from[last] = std::min(from[last], cost(job, machine, last) + behind[machine]);
        }
        behind = from;
    }
    return behind[MACHINES];
}

int main() {
    const auto [found, least] = search().solve(4);
    const std::uint64_t best = by_table();
    std::printf("a plan for %d, and none for less than %d; the best by the table is %d\n", static_cast<int>(found),
                static_cast<int>(least), static_cast<int>(best));
    return least <= best && best <= found && found <= least + GAP ? 0 : 1;
}
