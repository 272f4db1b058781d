#!/bin/sh
# Holds the parts of the C boundary together: the symbols of the library, the exported functions and
# the structs that they take and answer in crates/*/src, include/trial_archive.h and rust/src/sys.rs.
#
#   bench/boundary.sh LIB      LIB: path of libtrial_archive.a
#
# Only the crate trial_archive exports. Every export has an `ensures` that speaks of its answer, of
# every argument, of every slice at entry and of every slice that it may write at exit, and has no
# `requires`. (That the contract is the right one is for its readers.) Library, header and sys.rs
# have just these exports, with the same parameters in the same order, and structs of equal fields.
#
# Prints what went wrong, and last 'N passed, M failed'. Ends with 1 where something failed, 2 for
# bad usage.
# shellcheck disable=SC2016
set -u

if [ $# -ne 1 ] || [ ! -f "$1" ]; then
    echo "usage: $0 LIB" >&2
    exit 2
fi
# shellcheck source=bench/common.sh
. "$(dirname "$0")/common.sh"
lib=$(absolute "$1")
cd "$here/.." || exit 2

# Each reader below writes lines of three fields, parted by tabs: who says it, of which name, what.
# Prototypes are said in the header's terms, without names of lengths, which the source has not.
common='
function say(who, name, what) { printf "%s\t%s\t%s\n", who, name, what }
function fault(what) { say("fault", "", FILENAME ": " what) }

function squeezed(s) {
    gsub(/[ \t\r\n]+/, " ", s)
    sub(/^ /, "", s)
    sub(/ $/, "", s)
    return s
}

function without_comments(s, out, at) {
    while ((at = index(s, "/*")) > 0) {
        out = out substr(s, 1, at - 1) " "
        s = substr(s, at + 2)
        at = index(s, "*/")
        s = at > 0 ? substr(s, at + 2) : ""
    }
    return out s
}

# How often the word stands in s.
function times(s, word) {
    return gsub("(^|[^A-Za-z0-9_-])" word "([^A-Za-z0-9_-]|$)", "&", s)
}

BEGIN {
    c_type["u64"] = "uint64_t "
    c_type["usize"] = "size_t "
    c_type["*const u64"] = c_type["&[u64]"] = "const uint64_t *"
    c_type["*mut u64"] = c_type["&mut [u64]"] = "uint64_t *"
    c_type["*const u8"] = c_type["&[u8]"] = "const uint8_t *"
    c_type["*mut u8"] = c_type["&mut [u8]"] = "uint8_t *"
    c_type["*const f64"] = c_type["&[f64]"] = "const double *"
    c_type["i64"] = "int64_t "
    c_type["f64"] = "double "
    c_type["Answer"] = "ta_answer "
    c_type["Change"] = "ta_change "
    c_type["Corner"] = "ta_corner "
    c_type["FiguresAnswer"] = "ta_figures_answer "
    c_type["GridAnswer"] = "ta_grid_answer "
    c_type["LeastAnswer"] = "ta_least_answer "
    c_type["Loaded"] = c_type["LoadAnswer"] = "ta_load_answer "
    c_type["VolumeAnswer"] = "ta_volume_answer "
}

# A name with a type of Rust or Rattle, as C has it.
function in_c(of, name) {
    if (of in c_type) return c_type[of] (of == "usize" ? "" : name)
    fault("no C type for " name ": " of)
    return of " " name
}

# A list of Rust or Rattle, NAME: TYPE, and so on, as C has it; a slice has its length behind it.
function list_in_c(list, mark, item, n, i, part, out) {
    n = split(list, item, /,/)
    for (i = 1; i <= n; i++) {
        if (split(item[i], part, /:/) != 2) continue
        sub(/^ ?pub /, "", part[1])
        out = out squeezed(in_c(squeezed(part[2]), squeezed(part[1]))) mark
        if (part[2] ~ /&/) out = out "size_t" mark
    }
    return squeezed(out)
}

function prototype(result, name, params) {
    params = list_in_c(params, ", ")
    sub(/,$/, "", params)
    return squeezed(in_c(result, "")) " " name "(" params ")"
}

# Says the structs of s that exports take or answer.
function structs(who, s, whole, part) {
    while (match(s, /(#\[[^]]*\] )*pub struct [A-Za-z]+ \{[^{}]*\}/)) {
        whole = substr(s, RSTART, RLENGTH)
        s = substr(s, RSTART + RLENGTH)
        split(whole, part, /pub struct | \{|\}/)
        if (!(part[2] in c_type)) continue
        if (!index(part[1], "#[repr(C)]")) fault(part[2] " is not repr(C)")
        say(who, squeezed(c_type[part[2]]), list_in_c(part[3], "; "))
    }
}
'

# A Rattle file: exports, their contracts, structs.
source='
{ sub(/\/\/.*/, ""); text = text $0 " " }

# How long the part of s is that goes from the brace at its start to the one that closes it.
function closed(s, i, depth) {
    for (i = 1; i <= length(s); i++) {
        if (substr(s, i, 1) == "{") depth++
        if (substr(s, i, 1) == "}" && --depth == 0) break
    }
    return i
}

# What an `ensures` does not speak of.
function left_out(ensures, params, param, n, i, part, out) {
    if (ensures == "") return ", everything: there is no ensures"
    if (!times(ensures, "result")) out = ", the answer"
    n = split(params, param, /,/)
    for (i = 1; i <= n; i++) {
        if (split(param[i], part, /:/) != 2) continue
        part[1] = squeezed(part[1])
        if (part[2] !~ /&/) {
            if (!times(ensures, part[1])) out = out ", " part[1]
            continue
        }
        if (!times(ensures, part[1] (part[2] ~ /&mut/ ? "[.]old" : "[.]now"))) out = out ", " part[1] " at entry"
        if (part[2] !~ /&mut/) continue
        if (!times(ensures, part[1] "[.]new")) out = out ", " part[1] " at exit"
    }
    return out
}

END {
    text = squeezed(without_comments(text))
    structs("source", text)
    marks = times(text, "no_mangle") + times(text, "extern") + 2 * times(text, "export_name")
    while (match(text, /#\[unsafe\(no_mangle\)\] pub extern "C" fn [A-Za-z_0-9]+\([^()]*\)/)) {
        marks -= 2
        whole = substr(text, RSTART, RLENGTH)
        sub(/^.* fn /, "", whole)
        split(whole, part, /\(|\)/)
        name = part[1]
        params = part[2]
        text = substr(text, RSTART + RLENGTH)
        match(text, /requires|ensures|\{/)
        result = squeezed(substr(text, 1, RSTART - 1))
        sub(/^-> /, "", result)
        text = substr(text, RSTART)
        ensures = ""
        while (match(text, /^(requires|ensures)( [a-z_0-9]+)? \{/)) {
            if (text ~ /^requires/) fault(name " has a requires")
            end = RLENGTH - 1 + closed(substr(text, RLENGTH))
            # without its label, which may be a word that is sought
            if (text ~ /^ensures/) ensures = ensures substr(text, RLENGTH, end - RLENGTH + 1)
            text = substr(text, end + 1)
            sub(/^ /, "", text)
        }
        if (text !~ /^\{/) fault(name ": neither contract nor body: " substr(text, 1, 40))
        if (FILENAME !~ /^crates\/trial_archive\//) fault(name " is exported outside trial_archive")
        say("source", name, prototype(result, name, params))
        say("contract", name, left_out(ensures, params))
    }
    if (marks) fault("an export in another form than #[unsafe(no_mangle)] pub extern \"C\" fn")
}'

header='
{ text = text $0 "\n" }

END {
    n = split(without_comments(text), line, /\n/)
    text = ""
    for (i = 1; i <= n; i++) {
        directive = directive || line[i] ~ /^[ \t]*#/
        if (!directive) text = text " " line[i]
        directive = directive && line[i] ~ /\\$/
    }
    text = squeezed(text)
    while (match(text, /typedef struct [a-z_]+ \{[^{}]*\} [a-z_]+;/)) {
        split(substr(text, RSTART, RLENGTH - 1), part, /[{}]/)
        text = substr(text, 1, RSTART - 1) substr(text, RSTART + RLENGTH)
        say("header", squeezed(part[3]), squeezed(part[2]))
    }
    while (match(text, /[A-Za-z_0-9]+ [A-Za-z_0-9]+\([^()]*\);/)) {
        whole = substr(text, RSTART, RLENGTH - 1)
        text = substr(text, 1, RSTART - 1) substr(text, RSTART + RLENGTH)
        gsub(/size_t [a-z_]+/, "size_t", whole)
        split(whole, part, /[ (]/)
        say("header", part[2], whole)
    }
    gsub(/enum \{[^{}]*\};/, "", text)
    text = squeezed(text)
    if (text !~ /^(extern "C" \{ \})?$/) fault("neither prototype, struct nor enum: " text)
}'

rust='
{ sub(/\/\/.*/, ""); text = text $0 " " }

END {
    text = squeezed(text)
    structs("sys.rs", text)
    while (match(text, /pub fn [a-z_0-9]+\([^()]*\) -> [A-Za-z0-9]+;/)) {
        split(substr(text, RSTART, RLENGTH - 1), part, / fn |\(|\) -> /)
        text = substr(text, RSTART + RLENGTH)
        name = part[2]
        result = part[4]
        say("sys.rs", name, prototype(result, name, part[3]))
    }
}'

# All say the same of every name, each just once.
judge='
function bad(what) {
    failed++
    print "FAILED: " what
}

function check(good, what) {
    if (good) passed++
    else bad(what)
}

$1 == "fault" { bad($3); next }

{
    if (($1, $2) in said) bad($2 ": twice in " $1)
    said[$1, $2] = $3
    if (!($2 in known)) order[++names] = $2
    known[$2]
}

function like_source(who, name, own, due) {
    due = said["source", name]
    own = (who, name) in said ? said[who, name] : "nothing"
    check(own == due, name ": the source has\n    " due "\n" who " has\n    " own)
}

END {
    for (i = 1; i <= names; i++) {
        name = order[i]
        if (!(("source", name) in said)) {
            bad(name ": not in the source")
            continue
        }
        like_source("header", name)
        like_source("sys.rs", name)
        if (!(("contract", name) in said)) continue
        exports++
        lacks = said["contract", name]
        check(lacks == "", name ": its contract leaves out" substr(lacks, 2))
        check(("library", name) in said, name ": not in the library")
    }
    check(exports > 0, "no export found")
    print passed + 0 " passed, " failed + 0 " failed"
    exit failed > 0
}'

{
    nm -g --defined-only "$lib" >"$work/symbols" || printf 'fault\t\tnm cannot read the library\n'
    awk 'NF == 3 && $2 == "T" && $3 ~ /^ta_/ { print "library\t" $3 "\t"; next }
        NF == 3 { print "fault\t\tthe library has a symbol " $3 " of kind " $2 }' "$work/symbols"
    find crates/*/src -name '*.rt' | sort | while IFS= read -r file; do
        awk "$common$source" "$file"
    done
    awk "$common$header" include/trial_archive.h
    awk "$common$rust" rust/src/sys.rs
} >"$work/said"
awk -F '\t' "$judge" "$work/said"
