# shellcheck shell=sh
# The programs of README.md and docs/C-INTERFACE.md, as they stand there. bindings/check reads this, and has what is
# used here: its variables, the functions check_with, compile and limited, and what bindings/install has installed.
# shellcheck disable=SC2154 # the variables are those of bindings/check
# shellcheck disable=SC2317 # functions are called by `check` alone

# Takes README's section apart into a folder: a block of a language whose first line is a comment that names a
# file goes to that file, and the blocks `sh` and `text` behind it are its commands and its output. The block before all
# sections goes to block.hpp.
take_apart() {
    mkdir -p "$1"
    awk -v to="$1" '
        /^## / { headed = 1; inside = ($0 == "## From C, C++ and Rust") }
        !headed && /^```/ { first = ($0 == "```cpp"); next }
        first && !headed { print > (to "/block.hpp") }
        !inside { next }
        /^```/ {
            kind = fenced ? "" : substr($0, 4)
            fenced = !fenced
            fresh = fenced && kind != "sh" && kind != "text"
            next
        }
        fenced && fresh {
            fresh = 0
            file = match($0, /first[.](cpp|c|rs)/) ? substr($0, RSTART, RLENGTH) : ""
        }
        fenced && file != "" {
            print > (to "/" file (kind == "sh" ? ".commands" : kind == "text" ? ".output" : ""))
        }
    ' "$root/README.md"
}

# Takes the programs of docs/C-INTERFACE.md apart into a folder: a block whose first line is a comment that names a
# file.
take_programs_apart() {
    mkdir -p "$1"
    awk -v to="$1" '
        /^```/ { fenced = !fenced; fresh = fenced; file = ""; next }
        fresh { fresh = 0; if (match($0, /[a-z_]+[.](c|cpp|py|rs)/)) file = substr($0, RSTART, RLENGTH) }
        file != "" { print > (to "/" file) }
    ' "$root/docs/C-INTERFACE.md"
}

# The page's search from its root to its answer, without a warning.
solver() {
    compile "$work/programs/solver.cpp" "$work/solver" "$out/libklsm.a" -Werror -Wshadow &&
        limited "$work/solver" >"$work/solved" && cat "$work/solved" &&
        grep -F "It prints \`$(cat "$work/solved")\`." "$root/docs/C-INTERFACE.md"
}

# The program in a language that calls the shared object by itself.
foreign() {
    python3 "$work/programs/foreign.py" "$out/libklsm.so.$("$here/version")" >"$work/foreign" &&
        diff - "$work/foreign" <<END
key 3 load 30
END
}

# README's lines as they stand there, in a folder that has what they name of the repository, and with PREFIX
# as what was installed. What has no output of its own writes what the first one writes.
readme() {
    room=$work/readme
    export PREFIX="$installed"
    [ -s "$room/$1.output" ] || cp "$room/first.c.output" "$room/$1.output"
    for part in "$1" "$1.commands" "$1.output"; do
        [ -s "$room/$part" ] && continue
        echo "README.md's section 'From C, C++ and Rust' lacks $1, its command or its output"
        return 1
    done
    ln -sfn "$root/include" "$room/include"
    ln -sfn "$root/bindings" "$room/bindings"
    (cd "$room" && limited sh -eu "./$1.commands" >"$1.said") || return 1
    diff "$room/$1.output" "$room/$1.said"
}

# The program that bindings/tests/readme/search.cpp has around README's first block.
readme_block() {
    compile "$here/tests/readme/search.cpp" "$work/search" "$out/libklsm.a" -I"$work/readme" -Werror &&
        limited "$work/search"
}

check_pages() {
    take_programs_apart "$work/programs"
    check_with "$cxx" "the page's solver.cpp" solver
    check_with "python3 $cc" "the page's foreign.py" foreign

    take_apart "$work/readme"
    check_with "$cxx" "README's first block" readme_block
    check_with cc "README's first.c" readme first.c
    check_with g++ "README's first.cpp" readme first.cpp
    check_with "rustc $cargo" "README's first.rs" readme first.rs
}
