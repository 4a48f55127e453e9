// Tests of the queues that were written here, and of those that hold their measure: each gives what a std::multiset
// gives, or what was inserted, once. bench/run --test calls them.
#include "check.hpp"

#include "draws.hpp"
#include "queues/heap.hpp"
#include "queues/multiqueue.hpp"
#include "queues/skip_list.hpp"
#include "queues/stealing_multiqueue.hpp"
#include "threads.hpp"

#include <set>
#include <vector>

namespace {

// Insertions and deletions as a coin says, by one thread through all handles, with keys of which many are equal.
template <class Queue> void gives_the_least(typename Queue::setting setting, std::uint64_t keys) {
    const std::size_t threads = 3;
    Queue queue(threads, 1 << 16, setting);
    std::vector<typename Queue::handle> handles;
    for (std::size_t t = 0; t < threads; t++)
        handles.push_back(queue.handle_of(t));
    std::multiset<std::uint64_t> live;
    draws from(keys);
    for (std::uint64_t i = 0; i < 300000; i++) {
        auto &by = handles[from.below(threads)];
        item out;
        if (from.below(100) < (i / 20000 % 2 == 0 ? 60u : 40u)) {
            const std::uint64_t key = from.next() % keys;
            live.insert(key);
            by.insert({key, i});
        } else if (live.empty())
            check(!by.delete_min(out));
        else {
            check(by.delete_min(out) && out.key == *live.begin());
            live.erase(live.begin());
        }
    }
}

// Threads insert and delete, and then one handle after the other takes out what is left: each item comes once.
template <class Queue> void gives_each_once(typename Queue::setting setting, std::uint64_t keys) {
    const std::size_t threads = 4, calls = 100000;
    Queue queue(threads, threads * calls, setting);
    std::vector<typename Queue::handle> handles;
    for (std::size_t t = 0; t < threads; t++)
        handles.push_back(queue.handle_of(t));
    std::vector<std::vector<item>> deleted(threads);
    auto key_of = [keys](std::uint64_t load) { return draws::at(7, load) % keys; };
    time_of(
        threads, placing(false), [](std::size_t) {},
        [&](std::size_t t) {
            draws from(t);
            for (std::uint64_t load = t * calls; load < (t + 1) * calls; load++) {
                handles[t].insert({key_of(load), load});
                item out;
                if (from.next() % 8 < 7 && handles[t].delete_min(out)) deleted[t].push_back(out);
            }
        });
    for (std::size_t misses = 0; misses < threads;)
        for (auto &by : handles) {
            item out;
            if (by.delete_min(out)) {
                deleted[0].push_back(out);
                misses = 0;
            } else
                misses++;
        }
    std::vector<bool> came(threads * calls);
    std::size_t count = 0;
    for (const std::vector<item> &some : deleted)
        for (const item &one : some) {
            check(one.load < threads * calls && !came[one.load] && one.key == key_of(one.load));
            came[one.load] = true;
            count++;
        }
    check(count == threads * calls);
}

// With one thread and batches of one the least item comes, of its buffer or of its heap.
void steals_from_itself() {
    stealing_multiqueue<item> queue(1, 0, {1, 8});
    auto by = queue.handle_of(0);
    for (std::uint64_t key : {5, 3, 9, 1})
        by.insert({key, key});
    item out;
    for (std::uint64_t key : {1, 3, 5, 9})
        check(by.delete_min(out) && out.key == key);
    check(!by.delete_min(out));
}

// A thread that has nothing takes the buffer of another one, as a whole.
void steals_a_batch() {
    stealing_multiqueue<item> queue(2, 0, {4, 8});
    auto one = queue.handle_of(0), other = queue.handle_of(1);
    for (std::uint64_t key = 0; key < 9; key++)
        one.insert({key, key});
    item out;
    check(other.delete_min(out) && out.key == 0); // the first to come made a batch alone
    one.insert({9, 9});
    for (std::uint64_t key : {1, 2, 3, 4})
        check(other.delete_min(out) && out.key == key);
    check(!other.delete_min(out));
    check(one.delete_min(out) && out.key == 5);
}

template <class Kept> void test_all() {
    for (std::uint64_t keys : {50, 1 << 30}) {
        gives_the_least<heap_and_mutex<Kept>>({}, keys);
        gives_the_least<skip_list<Kept>>({8}, keys);
        gives_the_least<skip_list<Kept>>({0}, keys);
        gives_each_once<heap_and_mutex<Kept>>({}, keys);
        gives_each_once<skip_list<Kept>>({8}, keys);
        gives_each_once<skip_list<Kept>>({64}, keys);
        gives_each_once<multiqueue<Kept>>({2, 4}, keys);
        gives_each_once<stealing_multiqueue<Kept>>({4, 2}, keys);
        gives_each_once<stealing_multiqueue<Kept>>({64, 8}, keys);
    }
}

} // namespace

int main() {
    test_all<item>();
    test_all<wide_item>();
    steals_from_itself();
    steals_a_batch();
    std::puts("the queues: passed");
}
