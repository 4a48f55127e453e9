# shellcheck shell=sh
# What is checked of bindings/install and bindings/package. bindings/check reads this, and has what is used here:
# its variables, and the functions check, check_with, skip, has, limited and declared.
#
# What is installed, the .tar.gz unpacked elsewhere, and the .deb are used as a user does, from a fresh folder
# with nothing of the repository but an example.
# shellcheck disable=SC2154 # the variables are those of bindings/check
# shellcheck disable=SC2317 # functions are called by `check` alone

version=$("$here/version")
abi=$("$here/version" --abi)
installed=$work/installed
unpacked=$work/elsewhere/klsm-$version
debian=$work/debian/usr
debs="$out/libklsm${abi}_${version}_amd64.deb $out/libklsm-dev_${version}_amd64.deb"

# From another folder, by a path from there, and in spite of what the user lets others read.
installs() {
    unset KLSM_LIBRARY
    cd "$work" && (umask 077 && "$here/install" installed) && has_all_files && has_right_modes && names_no_folder
}

# A copy of what bindings/install reads, with an `rt` that only says that it was called. What is there is installed as
# long as it is that of the sources, and no longer.
never_stale() {
    copy=$work/copy
    mkdir "$copy" "$work/no_kit" && (cd "$root" && tar --exclude=out --exclude=target -cf - bindings include crates \
        crates.txt docs NOTICE CHANGELOG.md) | tar -C "$copy" -xf - || return 1
    printf '#!/bin/sh\ntouch "%s"\nexit 1\n' "$work/asked" >"$work/no_kit/rt"
    chmod +x "$work/no_kit/rt"
    export PATH="$work/no_kit:$PATH" CC=none CXX=none CARGO=none
    KLSM_LIBRARY=$out/libklsm.a "$copy/bindings/install" "$work/fresh" || return 1
    unset KLSM_LIBRARY
    "$copy/bindings/install" "$work/fresh" && [ ! -e "$work/asked" ] || return 1
    echo '// another text' >>"$copy/crates/klsm_run/src/lib.rt"
    "$copy/bindings/install" "$work/stale" && return 1
    [ -e "$work/asked" ] && [ ! -e "$work/stale/lib" ]
}

# All files but the sources of the crate, sorted. There is no shared object where no compiler could link it.
files() {
    if [ -f "$out/libklsm.so.$version" ]; then cat; else grep -v '/libklsm[.]so'; fi <<END
./include/klsm.h
./include/klsm.hpp
./include/klsm_keys.h
./include/klsm_tsan.h
./include/klsm_typed.hpp
./include/klsm_wait.h
./include/klsm_work.h
./include/klsm_work.hpp
./lib/cmake/klsm/klsm-config-version.cmake
./lib/cmake/klsm/klsm-config.cmake
./lib/libklsm.a
./lib/libklsm.so
./lib/libklsm.so.$abi
./lib/libklsm.so.$version
./lib/pkgconfig/klsm.pc
./share/doc/klsm/C-INTERFACE.md
./share/doc/klsm/CHANGELOG.md
./share/doc/klsm/NOTICE
./share/klsm/rust/Cargo.lock
./share/klsm/rust/Cargo.toml
./share/klsm/rust/build.rs
END
}

# The crate has the sources of the repository, and no tests.
has_all_files() {
    (cd "$installed" && find . ! -type d ! -path "./share/klsm/rust/*/*") | LC_ALL=C sort >"$work/files"
    files | diff - "$work/files" &&
        diff -r "$here/rust/src" "$installed/share/klsm/rust/src" &&
        diff -r "$here/rust/examples" "$installed/share/klsm/rust/examples" &&
        ! grep -F '[[test]]' "$installed/share/klsm/rust/Cargo.toml"
}

has_right_modes() {
    find "$installed" -type d ! -perm 755 >"$work/modes"
    find "$installed" -type f ! -perm 644 >>"$work/modes"
    cat "$work/modes"
    [ ! -s "$work/modes" ]
}

# What is installed may be moved, and says nothing of where it was made.
names_no_folder() {
    ! grep -rlF -e "$root" -e "$work" "$installed"
}

# The shared objects that a program or a shared object needs.
needed() {
    LC_ALL=C readelf -dW "$1" | sed -n 's/.*(NEEDED).*\[\(.*\)\]$/\1/p'
}

# What the shared object exports, needs and is called, that nothing in it has to be run that can be written, and that it
# has no other names.
shared_object() {
    object=$installed/lib/libklsm.so.$version
    nm -D --defined-only "$object" | sed 's/^.* //' | LC_ALL=C sort >"$work/exported"
    declared | diff - "$work/exported" || return 1
    needed "$object"
    [ "$(needed "$object")" = libc.so.6 ] || return 1
    LC_ALL=C readelf -dW "$object" | grep -F "soname: [libklsm.so.$abi]" || return 1
    LC_ALL=C readelf -lW "$object" | grep -E 'GNU_STACK .* RW +0x' || return 1
    LC_ALL=C readelf -dW "$object" | grep TEXTREL && return 1
    ! LC_ALL=C readelf -SW "$object" | grep -F .symtab
}

# A fresh folder.
enter_folder() {
    folder=$(mktemp -d "$work/fresh.XXXXXX") || return 1
    cd "$folder" || return 1
}

by_paths() {
    enter_folder && cp "$here/examples/scheduler.c" . || return 1
    "$cc" scheduler.c -I"$1/include" "$1/lib/libklsm.a" -pthread -o one && limited ./one || return 1
    "$cc" scheduler.c -I"$1/include" -L"$1/lib" -lklsm -pthread -o other &&
        limited env LD_LIBRARY_PATH="$1/lib" ./other
}

# linked_by_pkg_config PREFIX WORDS..: its flags stand behind the words for the compiler, once it has found the
# library that is meant. Blanks in a path come escaped.
linked_by_pkg_config() {
    export PKG_CONFIG_PATH="$1/lib/pkgconfig"
    eval "found=$(pkg-config --variable=libdir klsm)" || return 1
    [ "$(readlink -f "$found")" = "$(readlink -f "$1/lib")" ] || { echo "$found" && return 1; }
    shift
    flags=$(pkg-config --cflags --libs klsm) || return 1
    echo "$flags"
    eval "\"\$cc\" scheduler.c \"\$@\" $flags -o program"
}

by_pkg_config_shared() {
    enter_folder && cp "$here/examples/scheduler.c" . && linked_by_pkg_config "$1" || return 1
    needed program | grep -Fx "libklsm.so.$abi" && limited env LD_LIBRARY_PATH="$1/lib" ./program
}

by_pkg_config_static() {
    enter_folder && cp "$here/examples/scheduler.c" . && linked_by_pkg_config "$1" -static || return 1
    [ -z "$(needed program)" ] && limited ./program
}

# Whether the compiler has a C library for that.
makes_static_programs() {
    echo 'int main(void) { return 0; }' >"$work/static.c"
    "$cc" -static "$work/static.c" -o "$work/static" 2>/dev/null
}

by_cmake() {
    enter_folder && cp "$here/examples/scheduler.c" "$here/examples/branch_and_bound.cpp" . || return 1
    cat >CMakeLists.txt <<'END'
cmake_minimum_required(VERSION 3.10)
project(user C CXX)
foreach(other 0.9 1.999 2.999 3.0)
    find_package(klsm ${other} QUIET)
    if(klsm_FOUND)
        message(FATAL_ERROR "klsm ${klsm_VERSION} is taken for ${other}")
    endif()
endforeach()
find_package(klsm 2.0 REQUIRED)
message(STATUS "klsm ${klsm_VERSION} in ${klsm_DIR}")
add_executable(scheduler scheduler.c)
target_link_libraries(scheduler klsm::klsm)
add_executable(scheduler_shared scheduler.c)
target_link_libraries(scheduler_shared klsm::shared)
add_executable(branch_and_bound branch_and_bound.cpp)
target_compile_features(branch_and_bound PRIVATE cxx_std_17)
target_link_libraries(branch_and_bound klsm::klsm)
END
    cmake -S . -B made -DCMAKE_PREFIX_PATH="$1" -DCMAKE_BUILD_TYPE=Release \
        -DCMAKE_C_COMPILER="$cc" -DCMAKE_CXX_COMPILER="$cxx" >said || { cat said && return 1; }
    grep -F "klsm $version in $1/lib/cmake/klsm" said || { cat said && return 1; }
    cmake --build made || return 1
    needed made/scheduler_shared | grep -Fx "libklsm.so.$abi" || return 1
    for program in scheduler scheduler_shared branch_and_bound; do
        limited "made/$program" || return 1
    done
}

by_cargo() {
    unset KLSM_LIB_DIR
    enter_folder && mkdir src && cp "$1/share/klsm/rust/examples/shortest_paths.rs" src/main.rs || return 1
    cat >Cargo.toml <<END
[package]
name = "user"
version = "0.1.0"
edition = "2021"

[dependencies]
klsm = { path = "$1/share/klsm/rust" }
END
    limited "$cargo" run --release --offline --target-dir made
}

# used_from PREFIX WORDS: all ways in which a program finds what is there.
used_from() {
    check_with "$cc" "$2, by cc" by_paths "$1"
    check_with "$cc pkg-config readelf" "$2, by pkg-config, as a shared object" by_pkg_config_shared "$1"
    if makes_static_programs; then
        check_with "$cc pkg-config readelf" "$2, by pkg-config, in a static program" by_pkg_config_static "$1"
    else
        skip "$2, by pkg-config, in a static program" "$cc makes none"
    fi
    check_with "$cc $cxx cmake readelf" "$2, by CMake" by_cmake "$1"
    check_with "$cargo" "$2, by cargo" by_cargo "$1"
}

# The time of day, who may read files, and the language make no difference.
packs() {
    unset KLSM_LIBRARY
    "$here/package" && cp "$out/SHA256SUMS" "$work/sums" || return 1
    (umask 077 && TZ=Asia/Tokyo LC_ALL=C.UTF-8 "$here/package") || return 1
    diff "$work/sums" "$out/SHA256SUMS" && cd "$out" && sha256sum -c SHA256SUMS
}

# Each file belongs to root.
unpacks() {
    mkdir "$work/elsewhere" && tar -xzf "$out/klsm-$version-linux-x86_64.tar.gz" -C "$work/elsewhere" || return 1
    tar --numeric-owner -tvzf "$out/klsm-$version-linux-x86_64.tar.gz" | grep -v ' 0/0 ' && return 1
    diff -r "$installed" "$unpacked"
}

unpacks_debian() {
    mkdir "$work/debian" || return 1
    for deb in $debs; do
        if has dpkg-deb; then
            dpkg-deb -f "$deb" && dpkg-deb -x "$deb" "$work/debian" || return 1
        else
            ar p "$deb" data.tar.gz | tar -xzf - -C "$work/debian" || return 1
        fi
        of_debian "$deb" ./md5sums >"$work/md5sums" && (cd "$work/debian" && md5sum -c) <"$work/md5sums" || return 1
    done
    has_debian_files && diff -r "$installed" "$debian" -x "libklsm$abi" -x libklsm-dev
}

# of_debian PACKAGE FILE: what it says of itself.
of_debian() {
    ar p "$1" control.tar.gz | tar -xzOf - "$2"
}

# The shared object has a package of its own, by which others say what they need, and each has a changelog.
has_debian_files() {
    of_debian "${debs%% *}" ./shlibs | grep -Fx "libklsm $abi libklsm$abi (>= $version)" || return 1
    ar p "${debs%% *}" data.tar.gz | tar -tzf - | grep -F .so | LC_ALL=C sort >"$work/objects"
    printf './usr/lib/libklsm.so.%s\n' "$abi" "$version" | LC_ALL=C sort | diff - "$work/objects" || return 1
    for name in "libklsm$abi" libklsm-dev; do
        gzip -dc "$debian/share/doc/$name/changelog.gz" | grep -F "klsm ($version)" || return 1
        grep -F /usr/share/common-licenses/Apache-2.0 "$debian/share/doc/$name/copyright" || return 1
    done
}

# The address that stands in them otherwise leads nowhere, which the tool sees.
lintian_is_silent() {
    export DEBFULLNAME="The maintainer" DEBEMAIL=maintainer@debian.org
    # shellcheck disable=SC2086 # two names without blanks
    (unset KLSM_LIBRARY && "$here/package") && lintian --fail-on error --no-cfg $debs
}

check_installed() {
    check "bindings/install" installs
    [ -d "$installed" ] || return 0
    check_with "tar" "bindings/install takes no archive of other sources" never_stale
    check_with "$cc nm readelf" "the shared object" shared_object
    used_from "$installed" "what is installed"

    tools="$cc tar gzip ar md5sum sha256sum"
    check_with "$tools" "bindings/package, twice the same bytes" packs
    check_with "$tools" "the .tar.gz has what is installed" unpacks
    [ ! -d "$unpacked" ] || used_from "$unpacked" "the .tar.gz"
    check_with "$tools" "the .debs have what is installed" unpacks_debian
    [ ! -d "$debian" ] || used_from "$debian" "the .debs"
    check_with "$tools lintian" "lintian finds no error in the .debs" lintian_is_silent
    check_with "$tools" "one version everywhere" "$here/tests/versions" "$installed" "$out"
}
