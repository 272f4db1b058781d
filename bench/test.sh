#!/bin/sh
# Compiles the C programs and the header's example against the library, plain and with sanitizers,
# runs them and compares.
#
#   bench/test.sh LIB      LIB: path of libtrial_archive.a
#
# Prints what went wrong, and last 'N passed, M failed'. Ends with 1 where something failed, 2 for
# bad usage. CC and CXX name the compilers (gcc and g++).
set -u

if [ $# -ne 1 ] || [ ! -f "$1" ]; then
    echo "usage: $0 LIB" >&2
    exit 2
fi
# shellcheck source=bench/common.sh
. "$(dirname "$0")/common.sh"
lib=$(absolute "$1")

cxx() {
    "${CXX:-g++}" -Wall -Wextra -Wpedantic -Werror -I"$here/../include" -x c++ "$@"
}

# judged STATUS EXPECTED NAME..: the bench program on these cards ends so and writes the file.
judged() {
    status=$1
    expected=$2
    shift 2
    (cd "$here/cards" && "$work/bench" "$@") >"$work/out" 2>"$work/err"
    found=$?
    if [ "$found" -ne "$status" ]; then
        echo "ended with $found, not $status"
        cat "$work/err"
        return 1
    fi
    diff "$expected" "$work/out"
}

# counted PROGRAM: runs a program that counts for itself, shows what else it writes, and adds its
# counts.
counted() {
    "$work/$1" >"$work/out" 2>&1
    found=$?
    last=$(tail -n 1 "$work/out")
    case $last in
        *' passed, '*' failed')
            of_it=${last#* passed, }
            passed=$((passed + ${last%% passed*}))
            failed=$((failed + ${of_it%% failed*}))
            ;;
    esac
    sed '$d' "$work/out"
    check "$1 ends well: $last" [ "$found" -eq 0 ]
}

# indented LINE: what stands further in behind this line of the header, as far as it goes on.
indented() {
    awk -v line="$1" '
        on && !/^ \*(     .*)?$/ { exit }
        on { print substr($0, 8) }
        $0 == line { on = 1 }' "$here/../include/trial_archive.h"
}

# prints EXPECTED PROGRAM: the program ends well and writes the file.
prints() {
    "$work/$2" >"$work/out" && diff "$1" "$work/out"
}

# example: the program in the header's comment, compiled as it stands there.
example() {
    indented ' *   A program that looks at every refusal:' >"$work/example.c"
    indented ' *   It prints:' | grep . >"$work/printed"
    check "the header's example compiles" c99 -O2 "$work/example.c" "$lib" -o "$work/example"
    check "the header's example in C++" cxx -fsyntax-only "$work/example.c"
    check "the header's example prints what the header says" prints "$work/printed" example
}

# cards_of FILE: the cards that its lines are about; no name has a space.
cards_of() {
    cut -d: -f1 "$1"
}

# every_card MODE: each card alone, then all of them, then what is no card.
every_card() {
    while IFS= read -r line; do
        name=${line%%:*}
        echo "$line" >"$work/line"
        case $line in
            *': accepted') status=0 ;;
            *) status=1 ;;
        esac
        check "$name, $1" judged "$status" "$work/line" "$name"
    done <"$here/expected.txt"
    grep ': accepted' "$here/expected.txt" >"$work/good"
    head -n 1 "$work/good" >"$work/first"
    : >"$work/nothing"
    # shellcheck disable=SC2046
    check "all cards, $1" judged 1 "$here/expected.txt" $(cards_of "$here/expected.txt")
    # shellcheck disable=SC2046
    check "good cards, $1" judged 0 "$work/good" $(cards_of "$work/good")
    check "no card named, $1" judged 2 "$work/nothing"
    check "no such file, $1" judged 2 "$work/nothing" no-such.card
    check "a folder, $1" judged 2 "$work/nothing" .
    check "a good card and no such file, $1" \
        judged 2 "$work/first" "$(cards_of "$work/first")" no-such.card
}

# programs MODE FLAG..: compiles with these flags and runs.
programs() {
    mode=$1
    shift
    for program in bench caller; do
        rm -f "$work/$program"
        check "$program compiles, $mode" c99 "$@" "$here/$program.c" "$lib" -o "$work/$program"
    done
    every_card "$mode"
    counted caller
}

echo '#include "trial_archive.h"' >"$work/header.c"
check "the header in C99" c99 -fsyntax-only "$work/header.c"
check "the header in C++" cxx -fsyntax-only "$work/header.c"
example
programs plain -O2
programs sanitized -O1 -g -fsanitize=address,undefined -fno-sanitize-recover=all
check "stack compiles" c99 -O2 -pthread "$here/stack.c" "$lib" -o "$work/stack"
counted stack

finish
