// Answers a script as `klsm replay` does, but by one exact priority queue, read and written by the
// streams of the standard library. It judges no row.
#include "exact.hpp"

#include <cstdint>
#include <cstdlib>
#include <iostream>
#include <string>

int main() {
    std::ios::sync_with_stdio(false);
    std::cin.tie(nullptr);
    Exact live;
    uint64_t inserted[16] = {};
    std::string row;
    while (std::getline(std::cin, row)) {
        char* at = row.data();
        uint32_t thread = strtoul(at, &at, 10);
        std::cout << thread;
        if (at[1] == 'i') {
            uint64_t key = strtoull(at + 3, &at, 10);
            Item item{key, thread, inserted[thread]++, strtoull(at + 1, nullptr, 10)};
            live.push(item);
            std::cout << " i " << key << ' ' << thread << '.' << item.number << '\n';
        } else if (live.empty()) {
            std::cout << " d none\n";
        } else {
            Item item = live.top();
            live.pop();
            std::cout << " d " << item.key << ' ' << item.owner << '.' << item.number;
            std::cout << " load " << item.load << " skip 0\n";
        }
    }
    std::cout << "max skip 0 bound 0\n";
}
