# shellcheck shell=sh
# What a compiler says of the headers: their warnings, what they warn of in a program, where they refuse to be compiled,
# what of them can be seen from outside, and how those of two versions go together. bindings/check reads this, and has
# what is used here: its variables, and the functions check_with, compile and compiler_of.
# shellcheck disable=SC2154 # the variables are those of bindings/check
# shellcheck disable=SC2317 # functions are called by `check` alone

# headers_without_warnings SOURCE HEADER..: by plain -I, as pkg-config gives it, in each version of the language that
# the compiler has, with warnings that programs turn on.
headers_without_warnings() {
    file=$work/$1
    shift
    printf '#include <%s>\n' "$@" >"$file"
    echo 'extern int none;' >>"$file"
    case $file in *.cpp) templates >>"$file" ;; esac
    case $file in
    *.cpp) versions="c++17 c++20 c++23" more="-Wold-style-cast -Wuseless-cast -Woverloaded-virtual" ;;
    *) versions="c11 c17 c2x" more=-Wstrict-prototypes ;;
    esac
    warnings=
    for warning in -Wall -Wextra -Wpedantic -Wconversion -Wsign-conversion -Wshadow -Wcast-qual -Wcast-align $more; do
        ! accepts "$file" "$warning" || warnings="$warnings $warning"
    done
    for version in $versions; do
        accepts "$file" "-std=$version" || continue
        # shellcheck disable=SC2086 # flags are words without blanks
        compile "$file" "$file.o" -Werror -c "-std=$version" $warnings || return 1
    done
}

# A payload of each kind, with all that is made of it.
templates() {
    cat <<'END'
#include <array>
#include <string>
template class klsm::typed_queue<std::string>;
template class klsm::typed_queue<unsigned char>;
template class klsm::typed_queue<std::unique_ptr<int>>;
template class klsm::typed_member<std::string>;
template class klsm::typed_member<unsigned char>;
template class klsm::typed_member<std::uint64_t>;
template class klsm::typed_member<int *>;
template class klsm::typed_member<std::array<std::uint64_t, 8>>;
template class klsm::piece<klsm::typed_item<std::string>>;
template class klsm::piece<klsm::item>;
klsm::code use(klsm::work &work, klsm::member &plain, klsm::typed_member<std::unique_ptr<int>> &typed);
klsm::code use(klsm::work &work, klsm::member &plain, klsm::typed_member<std::unique_ptr<int>> &typed) {
    if (auto piece = work.next(plain)) piece.done();
    if (auto piece = work.next(typed)) piece.done();
    if (klsm::code code = work.insert(plain, 1, 2); code != klsm::code::ok) return code;
    if (klsm::code code = work.insert(typed, 1, std::make_unique<int>(2)); code != klsm::code::ok) return code;
    return work.emplace(typed, 1, new int(2));
}
END
}

# accepts SOURCE FLAG: whether the compiler of this source has this flag.
accepts() {
    nothing=$work/none.${1##*.}
    echo 'extern int none;' >"$nothing"
    "$(compiler_of "$nothing")" -Werror "$2" -c "$nothing" -o "$nothing.o" >/dev/null 2>&1
}

# With another compiler than the usual one.
headers_without_warnings_by() {
    cc=$1
    cxx=$1
    shift
    headers_without_warnings "$@"
}

# A compiler warns of each opening, insertion, deletion, sharing, bound, closing and piece of work whose code is
# dropped, and of a rest that never blocks.
dropped_codes() {
    cat >"$work/$1" <<'END'
#include <klsm.h>
static klsm_queue queue;
static klsm_account account;
static klsm_item item;
static klsm_work work;
static uint64_t moved;
static klsm_dual_bound bound;
void each(void *context, const klsm_item *left);
void drop(const klsm_options *options);
void drop(const klsm_options *options) {
    klsm_open(&queue, 2, 8, KLSM_FIRST, 0);
    klsm_open_with_refill(&queue, 2, 8, KLSM_FIRST, 0, 4);
    klsm_open_with_balance(&queue, 2, 8, KLSM_FIRST, 0, 4, 1);
    klsm_open_with(&queue, options);
    klsm_open_default(&queue, 2);
    klsm_new();
    klsm_insert(&queue.members[0], 1, 1);
    klsm_try_insert(&queue.members[0], 1, 1);
    klsm_delete_min(&queue.members[0], &item);
    klsm_try_delete_min(&queue.members[0], &item);
    klsm_delete_min_alone(&queue.members[0], &item);
    klsm_try_delete_min_alone(&queue.members[0], &item);
    klsm_share(&queue.members[0], &moved);
    klsm_try_share(&queue.members[0], &moved);
    klsm_bound(&queue.members[0], &bound);
    klsm_try_bound(&queue.members[0], &bound);
    klsm_try_rest(&queue.members[0]);
    klsm_rest(&queue.members[0]);
    klsm_close(&queue, &account, &item, 1);
    klsm_close_into(&queue, &account, &item, 1);
    klsm_close_each(&queue, &account, each, NULL);
    klsm_work_insert(&work, &queue.members[0], 1, 1);
    klsm_work_next(&work, &queue.members[0], &item);
}
END
    warned_of "$1" unused-result 22
}

# warned_of SOURCE WARNING LINES: of so many lines of what lies in the temporary folder.
warned_of() {
    compile "$work/$1" "$work/$1.o" -c 2>"$work/warnings" || return 1
    cat "$work/warnings"
    [ "$(sed -n "s/^.*$1:\([0-9]*\):.*warning: .*-W$2\]\$/\1/p" "$work/warnings" | sort -u | wc -l)" -eq "$3" ]
}

# And of each pointer that is plainly null.
null_pointers() {
    cat >"$work/$1" <<'END'
#include <klsm.h>
static klsm_queue queue;
static klsm_account account;
static klsm_item item;
static klsm_work work;
static const klsm_options options = {1, 1, 0, 0, 0, 0};
void each(void *context, const klsm_item *left);
uint64_t null(void);
uint64_t null(void) {
    klsm_member *member = &queue.members[0];
    uint64_t moved;
    klsm_dual_bound bound;
    int32_t codes[44] = {
        klsm_open(NULL, 2, 8, KLSM_FIRST, 0),
        klsm_open_with_refill(NULL, 2, 8, KLSM_FIRST, 0, 4),
        klsm_open_with_balance(NULL, 2, 8, KLSM_FIRST, 0, 4, 1),
        klsm_open_with(NULL, &options),
        klsm_open_with(&queue, NULL),
        klsm_open_default(NULL, 1),
        klsm_insert(NULL, 1, 1),
        klsm_try_insert(NULL, 1, 1),
        klsm_delete_min(NULL, &item),
        klsm_delete_min(member, NULL),
        klsm_try_delete_min(NULL, &item),
        klsm_try_delete_min(member, NULL),
        klsm_delete_min_alone(NULL, &item),
        klsm_delete_min_alone(member, NULL),
        klsm_try_delete_min_alone(NULL, &item),
        klsm_try_delete_min_alone(member, NULL),
        klsm_share(NULL, &moved),
        klsm_share(member, NULL),
        klsm_try_share(NULL, &moved),
        klsm_try_share(member, NULL),
        klsm_bound(NULL, &bound),
        klsm_bound(member, NULL),
        klsm_try_bound(NULL, &bound),
        klsm_try_bound(member, NULL),
        klsm_rest(NULL),
        klsm_try_rest(NULL),
        klsm_close(NULL, &account, &item, 1),
        klsm_close(&queue, NULL, &item, 1),
        klsm_close_into(NULL, &account, &item, 1),
        klsm_close_into(&queue, NULL, &item, 1),
        klsm_close_into(&queue, &account, NULL, 1),
        klsm_close_each(NULL, &account, each, NULL),
        klsm_close_each(&queue, NULL, each, NULL),
        klsm_close_each(&queue, &account, NULL, NULL),
        klsm_work_insert(NULL, member, 1, 1),
        klsm_work_insert(&work, NULL, 1, 1),
        klsm_work_next(NULL, member, &item),
        klsm_work_next(&work, NULL, &item),
        klsm_work_next(&work, member, NULL),
        klsm_work_end(NULL),
        klsm_work_is_stopped(NULL),
    };
    klsm_drop(NULL);
    klsm_drop_each(NULL, each, NULL);
    klsm_drop_each(&queue, NULL, NULL);
    klsm_work_open(NULL, 1);
    klsm_work_done(NULL);
    klsm_work_give_up(NULL);
    klsm_work_stop(NULL);
    uint64_t counts[7] = {
        klsm_front(NULL),
        klsm_inserted(NULL),
        klsm_deleted(NULL),
        klsm_left(NULL),
        klsm_work_left(NULL),
        klsm_work_given_up(NULL),
    };
    return codes[0] == 0 ? counts[0] : counts[1];
}
END
    warned_of "$1" nonnull 54
}

# What a part of a program in C++ has of klsm.h it keeps for itself.
hidden_functions() {
    cat >"$work/hidden.cpp" <<'END'
#include <klsm.h>
extern "C" int32_t use(klsm_queue *queue, klsm_options options, klsm_item item) {
    klsm_work work = {};
    klsm_dual_bound bound;
    if (klsm_open_with(queue, &options) != KLSM_OK) return klsm_text(1)[0];
    if (klsm_work_insert(&work, &queue->members[0], klsm_key_of_double(2.5), 1) != KLSM_OK) return 1;
    if (klsm_share(&queue->members[0], &item.key) != KLSM_OK) return 1;
    if (klsm_bound(&queue->members[0], &bound) != KLSM_OK) return 1;
    if (klsm_rest(&queue->members[0]) != KLSM_OK) return 1;
    if (klsm_delete_min_alone(&queue->members[0], &item) != KLSM_OK) return 1;
    return klsm_work_next(&work, &queue->members[0], &item) + klsm_delete_min(&queue->members[0], &item);
}
END
    compile "$work/hidden.cpp" "$work/hidden.so" -O0 -fPIC -shared || return 1
    nm -D --defined-only "$work/hidden.so" | sed 's/^.* //' >"$work/seen"
    echo use | diff - "$work/seen"
}

# refused_for WORDS SOURCE FLAGS..: the compiler refuses what lies in the temporary folder, and says these words.
refused_for() {
    words=$1
    source=$2
    shift 2
    compile "$work/$source" "$work/$source.o" -c "$@" 2>"$work/errors" && return 1
    grep "$words" "$work/errors" || { cat "$work/errors" && return 1; }
}

# refused_elsewhere SOURCE HEADER WORDS FLAG: what the header says to a compiler with this flag.
refused_elsewhere() {
    printf '#include <%s>\n' "$2" >"$work/$1"
    refused_for "#error.*$3" "$1" "$4"
}

# A payload that cannot be moved without an exception is refused with a text.
refused_payload() {
    printf '#include <klsm.hpp>\n#include <deque>\nklsm::typed_queue<std::deque<int>> queue(1);\n' >"$work/payload.cpp"
    refused_for "put one of this type into a std::unique_ptr" payload.cpp
}

# Two parts of a program, compiled with headers of two versions: each has its own, and no queue passes between them.
two_versions() {
    mkdir -p "$work/other" && cp "$root"/include/* "$work/other" || return 1
    sed -i -e 's/^#define KLSM_VERSION_PATCH .*/#define KLSM_VERSION_PATCH 77/' \
        -e 's/return "done";/return "done by the other";/' "$work/other/klsm.h"
    cat >"$work/one_version.cpp" <<'END'
#include <klsm.hpp>
const char *text_here(int32_t code);
uint64_t left_in(klsm::queue &queue);
const char *text_here(int32_t code) { return klsm_text(code); }
uint64_t left_in(klsm::queue &queue) { return queue.left(); }
END
    cat >"$work/other_version.cpp" <<'END'
#include <klsm.hpp>
#include <cstdio>
const char *text_here(int32_t code);
uint64_t left_in(klsm::queue &queue);
int main() {
    std::printf("%s, %s\n", text_here(KLSM_OK), klsm_text(KLSM_OK));
#ifdef PASSES
    klsm::queue queue(1);
    return static_cast<int>(left_in(queue));
#endif
}
END
    compile "$work/one_version.cpp" "$work/one_version.o" -c -O0 || return 1
    set -- "$work/other_version.cpp" "$work/versions" -O0 "-I$work/other" "$work/one_version.o" "$work/stub.o"
    (root=$work/none && compile "$@") && "$work/versions" | grep -Fx "done, done by the other" || return 1
    ! (root=$work/none && compile "$@" -DPASSES) 2>"$work/errors" && grep "undefined reference" "$work/errors"
}

check_headers() {
    check_with "$cc" "a code that is dropped is a warning in C" dropped_codes dropped.c
    check_with "$cxx" "a code that is dropped is a warning in C++" dropped_codes dropped.cpp
    check_with "$cc" "a null pointer is a warning in C" null_pointers null.c
    check_with "$cxx" "a null pointer is a warning in C++" null_pointers null.cpp
    check_with "$cxx nm" "what is inline of klsm.h in C++ is hidden" hidden_functions
    check_with "$cxx" "headers of two versions in one program in C++" two_versions
    check_with "$cxx" "a payload that is refused in C++ is told why" refused_payload
    check_with "$cc" "klsm.h is for Linux" refused_elsewhere linux.c klsm.h "for Linux on x86-64" -U__linux__
    check_with "$cc" "klsm.h is for x86-64" refused_elsewhere x86.c klsm.h "for Linux on x86-64" -U__x86_64__
    check_with "$cxx" "klsm.hpp is for C++17" refused_elsewhere cpp14.cpp klsm.hpp "for C..17" -std=c++14
    check_with "$cxx" "klsm.hpp is for programs with exceptions" \
        refused_elsewhere exceptions.cpp klsm.hpp "exceptions" -fno-exceptions
    for compiler in gcc clang; do
        check_with "$compiler" "klsm.h has no warnings of $compiler" \
            headers_without_warnings_by "$compiler" headers.c klsm.h
    done
    for compiler in g++ clang++; do
        check_with "$compiler" "klsm.h and klsm.hpp have no warnings of $compiler" \
            headers_without_warnings_by "$compiler" headers.cpp klsm.h klsm.hpp
    done
}
