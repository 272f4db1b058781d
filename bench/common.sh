# shellcheck shell=sh
# What the test scripts share; they source it once their usage is right: a scratch folder, the
# counts, one test, the compiler, the end.
here=$(cd "$(dirname "$0")" && pwd)
work=$(mktemp -d) || exit 2
trap 'rm -rf "$work"' EXIT
passed=0
failed=0

# absolute PATH: the path of a file, from any folder.
absolute() {
    echo "$(cd "$(dirname "$1")" && pwd)/$(basename "$1")"
}

# Without fused steps: caller.c compares doubles bit for bit.
c99() {
    "${CC:-gcc}" -std=c99 -ffp-contract=off -Wall -Wextra -Wpedantic -Werror -I"$here/../include" "$@"
}

# check WHAT COMMAND..: one test; a command that fails shows what it wrote.
check() {
    what=$1
    shift
    if "$@" >"$work/said" 2>&1; then
        passed=$((passed + 1))
    else
        failed=$((failed + 1))
        echo "FAILED: $what"
        cat "$work/said"
    fi
}

# The last line, and whether all passed.
finish() {
    echo "$passed passed, $failed failed"
    [ "$failed" -eq 0 ]
}
