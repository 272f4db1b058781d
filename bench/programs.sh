#!/bin/sh
# Runs the built programs report, write_card and six_reports on cards, and where reading or writing
# goes wrong, and compares every byte that they write.
#
#   bench/programs.sh REPORT WRITE_CARD SIX_REPORTS      paths of the three programs
#
# Prints what went wrong, and last 'N passed, M failed'. Ends with 1 where something failed, 2 for
# bad usage. CC names the compiler (gcc), for the library that makes reads and writes go wrong.
set -u

if [ $# -ne 3 ] || [ ! -x "$1" ] || [ ! -x "$2" ] || [ ! -x "$3" ]; then
    echo "usage: $0 REPORT WRITE_CARD SIX_REPORTS" >&2
    exit 2
fi
# shellcheck source=bench/common.sh
. "$(dirname "$0")/common.sh"
report=$(absolute "$1")
write_card=$(absolute "$2")
six_reports=$(absolute "$3")
# The system's words for an error are in English.
export LC_ALL=C

# wrote WHAT STATUS EXPECTED [LINE]: one test. The last run ended with 0 (as the programs always do),
# wrote the file EXPECTED, and on standard error this line, or nothing.
wrote() {
    : >"$work/line"
    [ $# -lt 4 ] || printf '%s\n' "$4" >"$work/line"
    if [ "$2" -eq 0 ] && cmp -s "$3" "$work/out" && cmp -s "$work/line" "$work/err"; then
        passed=$((passed + 1))
    else
        failed=$((failed + 1))
        echo "FAILED: $called: $1: ended with $2"
        diff -a "$3" "$work/out" | head -n 6
        diff -a "$work/line" "$work/err" | head -n 6
    fi
}

# on WHAT CARD EXPECTED [LINE]: the same, of a run on the card.
on() {
    "$program" <"$2" >"$work/out" 2>"$work/err"
    wrote "$1" $? "$3" ${4:+"$4"}
}

# faulty CARD EXPECTED LINE FAULT..: the same with these faults (bench/faults.c); LINE may be empty.
faulty() {
    input=$1
    expected=$2
    line=$3
    shift 3
    env LD_PRELOAD="$work/faults.so" "$@" "$program" <"$input" >"$work/out" 2>"$work/err"
    wrote "$(basename "$input") with $*" $? "$expected" ${line:+"$line"}
}

# refused ROW LINE: the file with this refusal.
refused() {
    printf '%8d%8d\n' "$1" "$2" >"$work/refused-$1-$2"
    echo "$work/refused-$1-$2"
}

# sorted FILE: the file with line 1 of a card or a report, and its trials in archive order. No field of
# an accepted card fills its eight bytes, so spaces part them all.
sorted() {
    in_order=$work/sorted-$(basename "$1")
    (head -n 1 "$1" && tail -n +2 "$1" | sort -n -k 4,4 -k 3,3 -k 2,2 -k 1,1) >"$in_order"
    echo "$in_order"
}

# The six orders of the axes, 0 to 5, by the columns of a card or a report that come first, second and
# third.
orders='2,3,4 2,4,3 3,2,4 3,4,2 4,2,3 4,3,2'

# rearranged COLUMNS FILE: the card or the report with these columns in the place of the second to
# the fourth. Numbers are passed on as they stand: some are too large for awk.
rearranged() {
    awk -v columns="$1" 'BEGIN { split(columns, old, ",") } {
        printf "%8s%8s%8s%8s", $1, $old[1], $old[2], $old[3]
        if (NF > 4) printf "%20s", $5
        printf "\n"
    }' "$2"
}

# six_runs CARD: the file with six runs of report, on the card rearranged by each order.
six_runs() {
    runs=$work/six-runs-$(basename "$1")
    for columns in $orders; do
        rearranged "$columns" "$1" | "$report"
    done >"$runs"
    echo "$runs"
}

# six_of REPORT: the file with the report rearranged by each order, its lines sorted again. Nothing
# is counted for it: the totals and contributions are those of the report.
six_of() {
    for columns in $orders; do
        rearranged "$columns" "$1" >"$work/columns"
        cat "$(sorted "$work/columns")"
    done >"$work/six-of"
    echo "$work/six-of"
}

# due CARD: the file with what the program has to write for this accepted card.
due() {
    case $called,$1 in
        report,"$here"/cards/*) echo "$here/reports/$(basename "$1" .card).report" ;;
        report,*) echo "${1%.card}.report" ;;
        write_card,*) sorted "$1" ;;
        six_reports,*) six_runs "$1" ;;
    esac
}

# trials N: a card of capacity 512 with the line 1 and N trials, right but for their number.
trials() {
    awk -v n="$1" 'BEGIN {
        printf "%8d%8d%8d%8d\n", 512, 1000, 1000, 1000
        for (i = 1; i <= n; i++) printf "%8d%8d%8d%8d\n", i, i % 1000, i * 7 % 1000, i * 11 % 1000
    }'
}

# ties: a card of 512 trials with falling numbers, on few points.
ties() {
    awk 'BEGIN {
        printf "%8d%8d%8d%8d\n", 512, 1000, 20, 1048576
        for (i = 0; i < 512; i++)
            printf "%8d%8d%8d%8d\n", 9999999 - i * 19531, i % 5 * 200, i % 7 * 3, i % 3 * 524288
    }'
}

# pieces SIZE CARD: writes the card in pieces, with pauses.
pieces() {
    rest=$(wc -c <"$2")
    while [ "$rest" -gt 0 ]; do
        tail -c "$rest" "$2" | head -c "$1"
        rest=$((rest - $1))
        sleep 0.01
    done
}

# The examples, and every card of the bench.
every_card() {
    for example in "$here"/../examples/*.card; do
        on "$(basename "$example")" "$example" "$(due "$example")"
    done
    while IFS= read -r line; do
        name=${line%%:*}
        case $line in
            *': accepted') expected=$(due "$here/cards/$name") ;;
            *)
                numbers=${line#*: refused }
                expected=$(refused "${numbers%% *}" "${numbers##* }")
                ;;
        esac
        on "$name" "$here/cards/$name" "$expected"
    done <"$here/expected.txt"
}

# Longer cards: what is behind line 514 decides nothing, and all before it does.
long_cards() {
    on "514 lines" "$work/lines-514.card" "$(refused 8 514)"
    on "515 lines" "$work/lines-515.card" "$(refused 8 514)"
    on "10 MB of trials" "$large" "$(refused 8 514)"
    on "512 trials and 10 MB of zeros" "$work/zeros.card" "$(refused 15 514)"
    on "zeros without end" /dev/zero "$(refused 15 1)"
}

pipes() {
    on "no input" /dev/null "$(refused 15 1)"
    for size in 20 33 164; do
        pieces $size "$card" | "$program" >"$work/out" 2>"$work/err"
        wrote "piped in pieces of $size bytes" $? "$text"
    done
    pieces 1000 "$full" | "$program" >"$work/out" 2>"$work/err"
    wrote "512 trials piped in pieces" $? "$long"
    # The program reads no further than it has to, so the writer may end by a broken pipe.
    tail -c +1 "$large" 2>/dev/null | "$program" >"$work/out" 2>"$work/err"
    wrote "10 MB piped" $? "$(refused 8 514)"
    "$program" <"$full" 2>"$work/err" | cat >"$work/out"
    wrote "512 trials into a pipe" $? "$long"
}

# What cannot be read: nothing on standard output, one line on standard error.
unreadable() {
    on "a folder" "$here" "$nothing" "$reading: Is a directory"
    "$program" >"$work/out" 2>"$work/err" <&-
    wrote "closed input" $? "$nothing" "$reading: Bad file descriptor"
}

unwritable() {
    : >"$work/out"
    "$program" <"$card" >/dev/full 2>"$work/err"
    wrote "a full device" $? "$nothing" "$writing: No space left on device"
    "$program" <"$card" 2>"$work/err" >&-
    wrote "closed output" $? "$nothing" "$writing: Bad file descriptor"
    "$program" <"$here/cards/empty.card" >/dev/full 2>"$work/err"
    wrote "a refusal on a full device" $? "$nothing" "$writing: No space left on device"
    # A pipe that nobody reads: the programs ignore the system's signal, whatever they were started
    # with, and the error is told.
    # shellcheck disable=SC2094
    exec 3<>"$work/pipe" 4>"$work/pipe" 3<&-
    env --default-signal=PIPE "$program" <"$card" >&4 2>"$work/err"
    wrote "a pipe that nobody reads" $? "$nothing" "$writing: Broken pipe"
    env --ignore-signal=PIPE "$program" <"$card" >&4 2>"$work/err"
    wrote "a pipe that nobody reads, the signal ignored" $? "$nothing" "$writing: Broken pipe"
    exec 4>&-
}

# Faults in the middle of reading and writing.
faults() {
    broken="$reading: Input/output error"
    for bytes in 0 1 99 100 164 165; do
        faulty "$card" "$nothing" "$broken" FAULT_READ_AFTER=$bytes
    done
    faulty "$card" "$nothing" "$broken" FAULT_READ_AFTER=99 FAULT_READ_AT_MOST=7
    faulty "$card" "$nothing" "$broken" FAULT_READ_AFTER=99 FAULT_READ_INTERRUPTED=3
    faulty "$full" "$nothing" "$broken" FAULT_READ_AFTER=16929
    faulty "$large" "$nothing" "$broken" FAULT_READ_AFTER=16961
    # Line 514 ends with byte 16,962, and nothing behind it is read.
    faulty "$large" "$(refused 8 514)" "" FAULT_READ_AFTER=16962
    faulty "$full" "$long" "" FAULT_READ_AT_MOST=1
    faulty "$card" "$text" "" FAULT_READ_AT_MOST=7
    faulty "$card" "$text" "" FAULT_READ_INTERRUPTED=1
    faulty "$full" "$long" "" FAULT_READ_INTERRUPTED=3 FAULT_READ_AT_MOST=7
    faulty "$card" "$nothing" "$reading: Interrupted system call" FAULT_READ_INTERRUPTED=2000000
    # Byte 99 ends a line of the card, and is within one of a report; 100 is within one of both.
    length=$(wc -c <"$text")
    for bytes in 0 1 99 100 $((length - 1)); do
        head -c "$bytes" "$text" >"$work/part"
        faulty "$card" "$work/part" "$writing: No space left on device" FAULT_WRITE_AFTER="$bytes"
    done
    # Nothing is written behind the last byte.
    faulty "$card" "$text" "" FAULT_WRITE_AFTER="$length"
    faulty "$full" "$long" "" FAULT_WRITE_AT_MOST=1
    faulty "$card" "$text" "" FAULT_WRITE_INTERRUPTED=1
    faulty "$full" "$long" "" FAULT_WRITE_INTERRUPTED=3 FAULT_WRITE_AT_MOST=7
    faulty "$card" "$nothing" "$writing: Interrupted system call" FAULT_WRITE_INTERRUPTED=2000000
}

# tests NAME PROGRAM TEXT: all of these for the program of this name, which writes such a text.
tests() {
    called=$1
    program=$2
    reading="$called: cannot read the card"
    writing="$called: cannot write the $3"
    text=$(due "$card")
    long=$(due "$full")
    every_card
    long_cards
    pipes
    unreadable
    unwritable
    faults
}

# agree CARD: the written card has the report of the card, written again it does not change, and its
# six reports are that report in six orders.
agree() {
    what="$(basename "$1"), written"
    "$report" <"$1" >"$work/own"
    "$write_card" <"$1" >"$work/written"
    called=report
    program=$report
    on "$what" "$work/written" "$work/own"
    called=write_card
    program=$write_card
    on "$what" "$work/written" "$(sorted "$1")"
    called=six_reports
    program=$six_reports
    on "$what" "$work/written" "$(six_of "$work/own")"
}

nothing=$work/nothing
: >"$nothing"
card=$here/cards/good-document-01.card
full=$here/cards/good-full-512.card
trials 513 >"$work/lines-514.card"
trials 514 >"$work/lines-515.card"
large=$work/large.card
trials 303030 >"$large"
(cat "$full" && head -c 10000000 /dev/zero) >"$work/zeros.card"
ties >"$work/ties.card"
mkfifo "$work/pipe"

for card_file in "$here"/cards/*.card; do
    name=$(basename "$card_file")
    check "expected.txt has a line for $name" grep "^$name: " "$here/expected.txt"
done
check "faults.c compiles" c99 -O2 -shared -fPIC "$here/faults.c" -o "$work/faults.so"
tests report "$report" report
tests write_card "$write_card" card
on "ties.card" "$work/ties.card" "$(due "$work/ties.card")"
tests six_reports "$six_reports" reports
on "ties.card" "$work/ties.card" "$(due "$work/ties.card")"
for accepted in "$here"/../examples/*.card "$here"/cards/good-*.card "$work/ties.card"; do
    agree "$accepted"
done

finish
