# shellcheck shell=bash disable=SC2034
# Shell functions that benchmarks/run and benchmarks/profile share; they are run from the repository's folder.
out=target/benchmarks
lib=target/staticlib/libtrial_archive.a
packages=
mkdir -p "$out"

# need COMMAND PACKAGE: notes the package where the command is missing.
need() {
    command -v "$1" >/dev/null || packages="$packages $2"
}

# Debian's pagmo with what it needs to be compiled and linked with.
needs_pagmo() {
    if ! echo '#include <pagmo/utils/hypervolume.hpp>' | g++ -std=c++17 -fsyntax-only -x c++ - 2>/dev/null; then
        packages="$packages libpagmo-dev libboost-serialization-dev libtbb-dev libeigen3-dev"
    fi
}

install_missing() {
    if [ -n "$packages" ]; then
        echo "installing:$packages" >&2
        # shellcheck disable=SC2086
        { apt-get update -qq && apt-get install -y -qq --no-install-recommends $packages; } >"$out/install.log" 2>&1 ||
            { tail "$out/install.log" >&2; return 1; }
    fi
}

# The library as it stands in this folder; without the Rattle toolchain, the one built before.
library() {
    if command -v rt >/dev/null; then
        tools/build trial_archive >"$out/library.log" 2>&1 || { tail "$out/library.log" >&2; return 1; }
    elif [ ! -f "$lib" ]; then
        echo "no $lib, and no rt to build it" >&2
        return 1
    fi
}

compile() {
    g++ -std=c++17 -O3 -Wall -Wextra -Iinclude "$@"
}

build_driver() {
    rustc --edition 2021 --crate-type staticlib -C opt-level=3 -C codegen-units=1 -D warnings benchmarks/archive.rs -o "$out/libyardstick.a"
    compile -c benchmarks/peer.cpp -o "$out/peer.o"
    compile -c benchmarks/driver.cpp -o "$out/driver.o"
    g++ "$out/driver.o" "$out/peer.o" "$out/libyardstick.a" "$lib" -lpagmo -lboost_serialization -lpthread -ldl -o "$out/driver"
}

# Its own loops must not become calls of memcpy, which are counted as the library's.
build_profile() {
    compile -fno-tree-loop-distribute-patterns benchmarks/profile.cpp "$lib" -o "$out/profile"
}

processor() {
    sed -n 's/^model name[^:]*: //p' /proc/cpuinfo | head -n 1
}
