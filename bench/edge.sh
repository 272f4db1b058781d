#!/bin/sh
# Holds the text of the edge length, hypervolume::edge, to the form that document 02 asks for (W-208):
# arithmetic on the two numbers, without a branch, a loop or a call. Its contract cannot say so, and
# another text that meets it would be proved too.
#
#   bench/edge.sh
#
# Prints what went wrong, and last 'N passed, M failed'. Ends with 1 where something failed, 2 for
# bad usage.
set -u

if [ $# -ne 0 ]; then
    echo "usage: $0" >&2
    exit 2
fi
# shellcheck source=bench/common.sh
. "$(dirname "$0")/common.sh"

# The body of the function, without comments: what stands between the first line that is just an
# opening brace and the next that is just a closing one, as `rt fmt` sets them.
awk '
    { sub(/\/\/.*/, "") }
    /^pub fn edge\(reference: u32, x: u32\) -> u64$/ { found = 1; next }
    found && /^\}/ { exit }
    inside { print }
    found && /^\{/ { inside = 1 }
' "$here/../crates/hypervolume/src/lib.rt" >"$work/edge"

# none PATTERN: shows the lines of the body that have it, and fails where there are any.
none() {
    ! grep -nE "$1" "$work/edge"
}

check "edge: no body found" grep -q '[a-z]' "$work/edge"
check "edge: a branch" none '(^|[^a-z_])(if|else|match|return)([^a-z_]|$)|&&|\|\|'
check "edge: a loop" none '(^|[^a-z_])(for|while|loop|break|continue)([^a-z_]|$)'
check "edge: a call" none '[A-Za-z0-9_!] *\('

finish
