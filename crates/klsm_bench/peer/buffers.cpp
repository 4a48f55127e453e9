// Answers a script as `klsm replay` does, but by one exact priority queue, read and written by
// buffers of its own. It judges no row.
#include "exact.hpp"

#include <charconv>
#include <cstdint>
#include <cstdio>
#include <cstring>
#include <string>

static Exact live;
static uint64_t inserted[16];
static std::string text;

static void put(uint64_t number) {
    char digits[24];
    text.append(digits, std::to_chars(digits, digits + sizeof digits, number).ptr);
}

static void send() {
    fwrite(text.data(), 1, text.size(), stdout);
    text.clear();
}

static void answer(const char* row, const char* end) {
    uint32_t thread = 0;
    row = std::from_chars(row, end, thread).ptr + 1;
    put(thread);
    if (*row == 'i') {
        Item item{0, thread, inserted[thread]++, 0};
        row = std::from_chars(row + 2, end, item.key).ptr;
        std::from_chars(row + 1, end, item.load);
        live.push(item);
        text += " i ", put(item.key), text += ' ', put(thread), text += '.', put(item.number);
    } else if (live.empty()) {
        text += " d none";
    } else {
        Item item = live.top();
        live.pop();
        text += " d ", put(item.key), text += ' ', put(item.owner), text += '.', put(item.number);
        text += " load ", put(item.load), text += " skip 0";
    }
    text += '\n';
    if (text.size() >= 65536) send();
}

int main() {
    static char chunk[65536];
    std::string part;
    for (size_t n; (n = fread(chunk, 1, sizeof chunk, stdin)) > 0;) {
        const char* at = chunk;
        while (const char* end = static_cast<const char*>(memchr(at, '\n', chunk + n - at))) {
            if (part.empty()) {
                answer(at, end);
            } else {
                part.append(at, end - at);
                answer(part.data(), part.data() + part.size());
                part.clear();
            }
            at = end + 1;
        }
        part.append(at, chunk + n - at);
    }
    text += "max skip 0 bound 0\n";
    send();
}
