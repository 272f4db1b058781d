/*
 * A caller of every call: document 01's card and report, its "Counts to meet",
 * shares at their ties, whole grids, replacements up to the largest, the front
 * and archives kept from before it, ties by both rules, cards written back and
 * loaded again, archives in the six orders of the axes and back, figures over up
 * to fifteen archives in one slice, also at the edges of readable memory, one
 * meeting with each refusal, coordinates on both sides of every limit, numbers as
 * C passes them, volumes in doubles bit for bit and with bad doubles at every
 * place, counts on four axes against a count of every cell and with bad numbers
 * at every place, and what the header defines: the structs' fields and the
 * lengths. Lent memory stands between guards, and what a call only reads is
 * compared after it.
 * Prints what went wrong, and at the end 'N passed, M failed'; ends with 1
 * where something failed.
 */
#define _DEFAULT_SOURCE

#include "trial_archive.h"

#include <float.h>
#include <inttypes.h>
#include <stdio.h>
#include <stdlib.h>
#include <string.h>
#include <sys/mman.h>
#include <sys/wait.h>
#include <unistd.h>

#define LENGTH(array) (sizeof (array) / sizeof (array)[0])

static int passed;
static int failed;

#define CHECK(condition) check((condition), #condition, __LINE__)

static void check(int holds, const char *text, int line)
{
    if (holds) {
        passed++;
    } else {
        failed++;
        printf("caller.c:%d: not so: %s\n", line, text);
    }
}

/* ---- an archive of capacity 8: words behind it are lent too, guards are not */

enum { WORDS = TA_WORDS(8), BEHIND = 3, LENT = WORDS + BEHIND, GUARD = 4 };

static const uint64_t MARK = 0x6d61726b6d61726bu;

static uint64_t memory[GUARD + LENT + GUARD];
static uint64_t *const words = memory + GUARD;

static void fill_by(uint64_t mark, uint64_t *first, size_t count)
{
    size_t i;

    for (i = 0; i < count; i++) {
        first[i] = mark;
    }
}

static int is_filled_by(uint64_t mark, const uint64_t *first, size_t count)
{
    size_t i;

    for (i = 0; i < count; i++) {
        if (first[i] != mark) {
            return 0;
        }
    }
    return 1;
}

static void fill(uint64_t *first, size_t count)
{
    fill_by(MARK, first, count);
}

static int is_filled(const uint64_t *first, size_t count)
{
    return is_filled_by(MARK, first, count);
}

/* The guards, and the words behind the archive, as start filled them. */
static void check_guards(void)
{
    CHECK(is_filled(memory, GUARD));
    CHECK(is_filled(words + WORDS, BEHIND + GUARD));
}

/* Starts the archive anew over words that hold anything. */
static void start(uint64_t rx, uint64_t ry, uint64_t rz)
{
    fill(memory, LENGTH(memory));
    CHECK(ta_start(words, LENT, rx, ry, rz, 8) == TA_DONE);
    check_guards();
}

static uint64_t insert(uint64_t number, uint64_t x, uint64_t y, uint64_t z)
{
    uint64_t refusal = ta_insert(words, LENT, number, x, y, z);

    check_guards();
    return refusal;
}

static uint64_t remove_trial(uint64_t number)
{
    uint64_t refusal = ta_remove(words, LENT, number);

    check_guards();
    return refusal;
}

/* The kept contribution of a trial held; an impossible one where it is not. */
static uint64_t contribution(uint64_t number)
{
    uint64_t i;

    for (i = 0; i < words[TA_COUNT]; i++) {
        const uint64_t *record = words + TA_RECORDS + i * TA_RECORD_WORDS;

        if (record[0] == number) {
            return record[4];
        }
    }
    return UINT64_MAX;
}

/* The trials of document 01's card. */
static void insert_card(int count)
{
    static const uint64_t points[4][3] = {{1, 2, 2}, {2, 1, 2}, {2, 2, 1}, {1, 1, 3}};
    int i;

    start(4, 4, 4);
    for (i = 0; i < count; i++) {
        CHECK(insert((uint64_t)i + 1, points[i][0], points[i][1], points[i][2]) == TA_DONE);
    }
}

static int is_answer(ta_answer answer, uint64_t refusal, uint64_t value)
{
    return answer.refusal == refusal && answer.value == value;
}

static int is_least(ta_least_answer answer, uint64_t refusal, uint64_t number,
                    uint64_t contribution_of_it)
{
    return answer.refusal == refusal && answer.number == number
        && answer.contribution == contribution_of_it;
}

static int is_grid(ta_grid_answer answer, uint64_t refusal, uint64_t inserted, uint64_t stop)
{
    return answer.refusal == refusal && answer.inserted == inserted && answer.stop == stop;
}

static int is_change(ta_change answer, uint64_t refusal, int64_t difference)
{
    return answer.refusal == refusal && answer.difference == difference;
}

static int is_figures(ta_figures_answer answer, uint64_t sum, uint64_t least_of_them,
                      uint64_t greatest, uint64_t median, uint64_t share_of_it, uint64_t audits)
{
    return answer.refusal == TA_DONE && answer.sum == sum && answer.least == least_of_them
        && answer.greatest == greatest && answer.median == median
        && answer.share == share_of_it && answer.audits == audits;
}

/* Turned down by this row, with zeros for all else. */
static int is_refused(ta_figures_answer answer, uint64_t row)
{
    return answer.refusal == row && answer.sum == 0 && answer.least == 0
        && answer.greatest == 0 && answer.median == 0 && answer.share == 0
        && answer.audits == 0;
}

static int is_load(ta_load_answer answer, uint64_t refusal, uint64_t line, uint64_t count)
{
    return answer.refusal == refusal && answer.line == line && answer.count == count;
}

/* ---- the calls that only read, with all memory compared after each */

static uint64_t lent[LENGTH(memory)];
static uint64_t before[LENGTH(memory)];

static void remember(uint64_t *copy)
{
    memcpy(copy, memory, sizeof memory);
}

static void check_untouched(const uint64_t *copy)
{
    CHECK(memcmp(copy, memory, sizeof memory) == 0);
}

static ta_answer joint(uint64_t first, uint64_t second)
{
    ta_answer answer;

    remember(lent);
    answer = ta_joint(words, LENT, first, second);
    check_untouched(lent);
    return answer;
}

static ta_answer gain(uint64_t x, uint64_t y, uint64_t z)
{
    ta_answer answer;

    remember(lent);
    answer = ta_gain(words, LENT, x, y, z);
    check_untouched(lent);
    return answer;
}

static ta_change replace_effect(uint64_t number, uint64_t x, uint64_t y, uint64_t z)
{
    ta_change answer;

    remember(lent);
    answer = ta_replace_effect(words, LENT, number, x, y, z);
    check_untouched(lent);
    return answer;
}

static ta_answer share(void)
{
    ta_answer answer;

    remember(lent);
    answer = ta_share(words, LENT);
    check_untouched(lent);
    return answer;
}

static ta_answer audit(void)
{
    ta_answer answer;

    remember(lent);
    answer = ta_audit(words, LENT);
    check_untouched(lent);
    return answer;
}

/* Of the archive, and of those that the slice does not have behind it. */
static ta_figures_answer figures(uint64_t number)
{
    ta_figures_answer answer;

    remember(lent);
    answer = ta_figures(words, LENT, number);
    check_untouched(lent);
    return answer;
}

static ta_least_answer least(uint64_t rule)
{
    ta_least_answer answer;

    remember(lent);
    answer = ta_least(words, LENT, rule);
    check_untouched(lent);
    return answer;
}

/* ---- a log and an output between guards */

enum { LOG = 8, OUT = TA_REPORT_BYTES(4) + 2 };

static uint64_t log_memory[GUARD + LOG + GUARD];
static uint64_t *const log_words = log_memory + GUARD;
static uint8_t out_memory[GUARD + OUT + GUARD];
static uint8_t *const out = out_memory + GUARD;

/* Reduces with the first words of a log that holds marks. */
static ta_answer reduce(uint64_t k, uint64_t rule, size_t log_len)
{
    ta_answer answer;

    fill(log_memory, LENGTH(log_memory));
    answer = ta_reduce(words, LENT, k, rule, log_words, log_len);
    check_guards();
    return answer;
}

/* A second slice between guards, for an archive with its axes in another order.
   Its mark is not the one that stands behind the archive. */
static const uint64_t SECOND_MARK = 0x7365636f6e647320u;

static uint64_t second_memory[GUARD + LENT + GUARD];
static uint64_t *const second = second_memory + GUARD;

/* Rearranges the first words, which are only read, into the first words of a
   second slice that holds marks. Only its own words, or none, are written. */
static uint64_t rearrange(size_t len, uint64_t order, size_t second_len)
{
    size_t written;
    uint64_t refusal;

    fill_by(SECOND_MARK, second_memory, LENGTH(second_memory));
    remember(lent);
    refusal = ta_rearrange(words, len, order, second, second_len);
    check_untouched(lent);
    written = refusal == TA_DONE ? WORDS : 0;
    CHECK(is_filled_by(SECOND_MARK, second_memory, GUARD));
    CHECK(is_filled_by(SECOND_MARK, second + written, LENT - written + GUARD));
    return refusal;
}

/* Only the first words of the log, or none, are written. */
static void check_log(size_t written)
{
    CHECK(is_filled(log_memory, GUARD));
    CHECK(is_filled(log_words + written, LOG - written + GUARD));
}

/* ta_report or ta_card_write. */
typedef ta_answer writer(const uint64_t *, size_t, uint8_t *, size_t);

/* Writes what the first words say into the first bytes of an output that holds
   '#'. */
static ta_answer write_by(writer *call, size_t len, size_t out_len)
{
    ta_answer answer;

    memset(out_memory, '#', sizeof out_memory);
    remember(lent);
    answer = call(words, len, out, out_len);
    check_untouched(lent);
    return answer;
}

static ta_answer write_report(size_t len, size_t out_len)
{
    return write_by(ta_report, len, out_len);
}

static ta_answer write_card(size_t len, size_t out_len)
{
    return write_by(ta_card_write, len, out_len);
}

/* Only the first bytes of the output, or none, are written. */
static void check_out(size_t written)
{
    size_t i;
    int whole = 1;

    for (i = 0; i < sizeof out_memory; i++) {
        if ((i < GUARD || i >= GUARD + written) && out_memory[i] != '#') {
            whole = 0;
        }
    }
    CHECK(whole);
}

/* ---- the counts to meet, by their numbers */

static void counts_1_to_3(void)
{
    start(4, 4, 4);
    CHECK(words[TA_TOTAL] == 0);
    CHECK(is_least(least(TA_TIE_LOWEST), TA_NONE_HELD, 0, 0));

    CHECK(insert(1, 0, 0, 0) == TA_DONE);
    CHECK(words[TA_TOTAL] == 64);
    CHECK(contribution(1) == 64);

    start(4, 4, 4);
    CHECK(insert(1, 4, 0, 0) == TA_DONE);
    CHECK(contribution(1) == 0);
    CHECK(is_answer(gain(5, 0, 0), TA_DONE, 0));
    CHECK(insert(2, 5, 0, 0) == TA_DONE);
    CHECK(words[TA_COUNT] == 2);
    CHECK(contribution(2) == 0);
    CHECK(insert(2, 0, 0, 0) == TA_NUMBER_HELD);
    CHECK(words[TA_TOTAL] == 0);
}

static void counts_4_and_5(void)
{
    start(4, 4, 4);
    CHECK(insert(1, 1, 1, 1) == TA_DONE);
    CHECK(insert(2, 1, 1, 1) == TA_DONE);
    CHECK(words[TA_TOTAL] == 27);
    CHECK(contribution(1) == 0);
    CHECK(contribution(2) == 0);
    CHECK(remove_trial(2) == TA_DONE);
    CHECK(contribution(1) == 27);

    CHECK(insert(2, 2, 2, 2) == TA_DONE);
    CHECK(words[TA_TOTAL] == 27);
    CHECK(contribution(1) == 19);
    CHECK(contribution(2) == 0);
    CHECK(is_answer(joint(1, 2), TA_DONE, 8));
    CHECK(is_answer(joint(2, 1), TA_DONE, 8));
}

static void counts_6_and_7(void)
{
    insert_card(3);
    CHECK(words[TA_TOTAL] == 20);
    CHECK(contribution(1) == 4);
    CHECK(contribution(2) == 4);
    CHECK(contribution(3) == 4);
    CHECK(is_answer(gain(1, 1, 1), TA_DONE, 7));
    CHECK(is_answer(joint(1, 2), TA_DONE, 0));
    CHECK(remove_trial(3) == TA_DONE);
    CHECK(is_answer(joint(1, 2), TA_DONE, 8));
}

/* The card thinned to two trials by a rule: `second` goes after trial 4, `left` and `right` stay. */
static void count_8_by(uint64_t rule, uint64_t second, uint64_t left, uint64_t right)
{
    insert_card(4);
    CHECK(TA_LOG_WORDS(words[TA_COUNT], 2) == 4);
    CHECK(is_least(least(rule), TA_DONE, 4, 1));
    CHECK(is_answer(reduce(2, rule, 6), TA_DONE, 2));
    CHECK(log_words[0] == 4 && log_words[1] == 1);
    CHECK(log_words[2] == second && log_words[3] == 4);
    check_log(4);
    CHECK(words[TA_COUNT] == 2);
    CHECK(words[TA_TOTAL] == 16);
    CHECK(contribution(left) == 4);
    CHECK(contribution(right) == 4);
    CHECK(is_answer(audit(), TA_DONE, 1));
}

static void count_8(void)
{
    count_8_by(TA_TIE_LOWEST, 1, 2, 3);
    count_8_by(TA_TIE_HIGHEST, 3, 1, 2);
}

/* Ties by both rules, and row 18 behind rows 1 to 3 and before the others. */
static void tie_rules(void)
{
    static const uint64_t others[] = {2, 3, 255, (uint64_t)1 << 32, ((uint64_t)1 << 32) + 1, UINT64_MAX};
    size_t i;

    insert_card(3);
    CHECK(is_least(least(TA_TIE_LOWEST), TA_DONE, 1, 4));
    CHECK(is_least(least(TA_TIE_HIGHEST), TA_DONE, 3, 4));
    for (i = 0; i < LENGTH(others); i++) {
        remember(before);
        CHECK(is_least(least(others[i]), TA_BAD_RULE, 0, 0));
        CHECK(is_answer(reduce(2, others[i], 2), TA_BAD_RULE, 0));
        CHECK(is_answer(reduce(4, others[i], 0), TA_BAD_RULE, 0));
        CHECK(is_answer(reduce(0, others[i], 0), TA_BAD_RULE, 0));
        check_log(0);
        check_untouched(before);
    }
    words[TA_TOTAL] = 21;
    CHECK(is_answer(reduce(3, 2, 0), TA_BAD_RULE, 0));
    CHECK(is_answer(reduce(3, TA_TIE_HIGHEST, 0), TA_MISCOUNT, 0));
    words[TA_TOTAL] = 65;
    CHECK(is_least(least(2), TA_BAD_HEADER, 0, 0));
    CHECK(is_answer(reduce(3, 2, 0), TA_BAD_HEADER, 0));
    start(4, 4, 4);
    CHECK(is_least(least(2), TA_BAD_RULE, 0, 0));
    CHECK(is_least(least(TA_TIE_HIGHEST), TA_NONE_HELD, 0, 0));
}

static void counts_9_to_11(void)
{
    uint64_t one[TA_WORDS(1)];

    start(TA_MAX_REFERENCE, TA_MAX_REFERENCE, TA_MAX_REFERENCE);
    CHECK(insert(1, 0, 0, 0) == TA_DONE);
    CHECK(words[TA_TOTAL] == 1152921504606846976u);
    CHECK(is_answer(share(), TA_DONE, 1000000));
    CHECK(insert(2, TA_MAX_COORDINATE + 1, 0, 0) == TA_BAD_COORDINATE);

    CHECK(ta_start(one, LENGTH(one), 4, 4, 4, 1) == TA_DONE);
    CHECK(ta_insert(one, LENGTH(one), 1, 1, 1, 1) == TA_DONE);
    CHECK(ta_insert(one, LENGTH(one), 2, 2, 2, 2) == TA_FULL);
    CHECK(ta_remove(one, LENGTH(one), 1) == TA_DONE);
    CHECK(ta_insert(one, LENGTH(one), 2, 2, 2, 2) == TA_DONE);

    start(3, 1, 1);
    CHECK(insert(1, 1, 0, 0) == TA_DONE);
    CHECK(is_answer(share(), TA_DONE, 666667));
    insert_card(4);
    CHECK(is_answer(share(), TA_DONE, 328125));
}

/* ---- shares, against exact arithmetic in 128 bits */

__extension__ typedef unsigned __int128 wide;

/* The share of an archive that keeps this total and holds no trial: rows 1 to 3
   ask only that the total is at most the box. An impossible one where refused. */
static uint64_t share_of(uint64_t rx, uint64_t ry, uint64_t rz, uint64_t total)
{
    uint64_t one[TA_WORDS(1)];
    ta_answer answer;

    if (ta_start(one, LENGTH(one), rx, ry, rz, 1) != TA_DONE) {
        return UINT64_MAX;
    }
    one[TA_TOTAL] = total;
    answer = ta_share(one, LENGTH(one));
    return answer.refusal == TA_DONE ? answer.value : UINT64_MAX;
}

/* What makes a number of millionths the right one: at most half of the box
   from the total, times a million; and even at half. */
static int is_nearest(uint64_t millionths, uint64_t total, uint64_t cells)
{
    wide exact = (wide)total * 1000000;
    wide found = (wide)millionths * cells;
    wide twice = 2 * (found < exact ? exact - found : found - exact);

    return twice < cells || (twice == cells && millionths % 2 == 0);
}

/* What a total's share is at ties, by any call that tells it. */
static void shares_at_ties(uint64_t (*share)(uint64_t rx, uint64_t ry, uint64_t rz, uint64_t total))
{
    const uint64_t most = TA_MAX_REFERENCE;
    uint64_t odd;

    CHECK(share(2, 1000, 1000, 1) == 0);
    CHECK(share(2, 1000, 1000, 3) == 2);
    CHECK(share(2, 1000, 1000, 5) == 2);
    CHECK(share(2, 1000, 1000, 7) == 4);
    CHECK(share(2, 1000, 1000, 1999997) == 999998);
    CHECK(share(2, 1000, 1000, 1999999) == 1000000);
    /* the ties of the largest box, and both sides of them */
    for (odd = 1; odd < 128; odd += 2) {
        uint64_t tie = odd << 53;
        uint64_t below = 15625 * odd / 2;

        CHECK(share(most, most, most, tie - 1) == below);
        CHECK(share(most, most, most, tie) == below + below % 2);
        CHECK(share(most, most, most, tie + 1) == below + 1);
    }
}

/* Numbers that look random (xorshift). */
static uint64_t next_random(void)
{
    static uint64_t state = 88172645463325252u;

    state ^= state << 13;
    state ^= state >> 7;
    state ^= state << 17;
    return state;
}

/* Totals next to half a millionth, and any others, of boxes up to the largest. */
static void random_shares(void)
{
    int wrong = 0;
    int i;

    for (i = 0; i < 100000; i++) {
        uint64_t rx = TA_MAX_REFERENCE - next_random() % 1000;
        uint64_t ry = TA_MAX_REFERENCE - next_random() % 1000;
        uint64_t rz = 1 + next_random() % TA_MAX_REFERENCE;
        uint64_t cells = rx * ry * rz;
        uint64_t half = (uint64_t)((2 * (wide)(next_random() % 1000000) + 1) * cells / 2000000);
        uint64_t any = next_random() % (cells + 1);

        wrong += !is_nearest(share_of(rx, ry, rz, half), half, cells);
        wrong += !is_nearest(share_of(rx, ry, rz, half + 1), half + 1, cells);
        wrong += !is_nearest(share_of(rx, ry, rz, any), any, cells);
    }
    CHECK(wrong == 0);
}

/* ---- a whole grid of trials in one call */

/* Inserts the first words of a grid, which are only read. */
static ta_grid_answer insert_grid(const uint64_t *grid, size_t grid_len)
{
    uint64_t lent_grid[24];
    ta_grid_answer answer;

    memcpy(lent_grid, grid, grid_len * sizeof *grid);
    answer = ta_insert_grid(words, LENT, lent_grid, grid_len);
    CHECK(memcmp(lent_grid, grid, grid_len * sizeof *grid) == 0);
    check_guards();
    return answer;
}

static void grids(void)
{
    static const uint64_t card_grid[] = {1, 1, 2, 2, 2, 2, 1, 2, 3, 2, 2, 1, 4, 1, 1, 3};
    static const uint64_t wide[] = {5, 0, 0, 0, 6, ((uint64_t)1 << 32) + 1, 0, 0, 7, 0, 0, 0};
    uint64_t many[4 * 9];
    size_t i;

    /* all four of the card, as by four insertions */
    insert_card(4);
    remember(before);
    start(4, 4, 4);
    CHECK(is_grid(insert_grid(card_grid, 16), TA_DONE, 4, TA_DONE));
    check_untouched(before);
    CHECK(words[TA_TOTAL] == 21);
    CHECK(words[TA_FRONT] == 4);
    CHECK(is_answer(audit(), TA_DONE, 1));

    /* a stop at the very first trial is a finished call and leaves every word */
    words[TA_FRONT] = 1;
    remember(before);
    CHECK(is_grid(insert_grid(card_grid, 16), TA_DONE, 0, TA_NUMBER_HELD));
    CHECK(is_grid(insert_grid(wide + 4, 8), TA_DONE, 0, TA_BAD_COORDINATE));
    CHECK(is_grid(insert_grid(card_grid, 0), TA_DONE, 0, TA_DONE));
    /* row 17 first */
    for (i = 1; i < 4; i++) {
        CHECK(is_grid(insert_grid(card_grid, i), TA_BAD_LENGTH, 0, 0));
        CHECK(is_grid(ta_insert_grid(words, 7, card_grid, 8 + i), TA_BAD_LENGTH, 0, 0));
    }
    CHECK(is_grid(ta_insert_grid(words, 7, card_grid, 0), TA_SLICE_SHORT, 0, 0));
    check_untouched(before);
    /* earlier ones stay, and the front is counted anew */
    CHECK(is_grid(insert_grid(wide, 12), TA_DONE, 1, TA_BAD_COORDINATE));
    CHECK(words[TA_COUNT] == 5);
    CHECK(words[TA_TOTAL] == 64);
    CHECK(words[TA_FRONT] == 1);
    CHECK(is_answer(audit(), TA_DONE, 1));

    /* up to the capacity */
    start(4, 4, 4);
    for (i = 0; i < 9; i++) {
        many[4 * i] = 9 - i;
        many[4 * i + 1] = many[4 * i + 2] = many[4 * i + 3] = 3;
    }
    CHECK(is_grid(ta_insert_grid(words, LENT, many, 36), TA_DONE, 8, TA_FULL));
    check_guards();
    CHECK(words[TA_COUNT] == 8);
    CHECK(words[TA_FRONT] == 8);
    CHECK(is_answer(audit(), TA_DONE, 1));
}

/* ---- what a replacement would change */

static void replacements(void)
{
    const uint64_t most = TA_MAX_REFERENCE;
    const int64_t whole = (int64_t)1 << 60;

    insert_card(4);
    CHECK(is_change(replace_effect(4, 0, 0, 0), TA_DONE, 43));
    CHECK(is_change(replace_effect(4, 1, 1, 3), TA_DONE, 0));
    CHECK(is_change(replace_effect(4, 5, 0, 0), TA_DONE, -1));
    CHECK(is_change(replace_effect(3, 4, 4, 4), TA_DONE, -4));
    CHECK(is_change(replace_effect(3, 2, 1, 2), TA_DONE, -4));
    /* the counts decide, not what is kept */
    words[TA_TOTAL] = 0;
    words[TA_FRONT] = 0;
    words[TA_RECORDS + 4] = 64;
    CHECK(is_answer(audit(), TA_DONE, 0));
    CHECK(is_change(replace_effect(4, 0, 0, 0), TA_DONE, 43));
    CHECK(is_change(replace_effect(3, 4, 4, 4), TA_DONE, -4));
    /* rows 9 and 6, in this order */
    CHECK(is_change(replace_effect(5, TA_MAX_COORDINATE + 1, 0, 0), TA_NOT_HELD, 0));
    CHECK(is_change(replace_effect(0, 0, 0, 0), TA_NOT_HELD, 0));
    CHECK(is_change(replace_effect(4, 0, TA_MAX_COORDINATE + 1, 0), TA_BAD_COORDINATE, 0));
    CHECK(is_change(replace_effect(4, 0, 0, UINT64_MAX), TA_BAD_COORDINATE, 0));

    start(most, most, most);
    CHECK(insert(1, 0, 0, 0) == TA_DONE);
    CHECK(is_change(replace_effect(1, most, 0, 0), TA_DONE, -whole));
    CHECK(remove_trial(1) == TA_DONE);
    CHECK(insert(1, 0, most, 0) == TA_DONE);
    CHECK(is_change(replace_effect(1, 0, 0, 0), TA_DONE, whole));
}

/* ---- the front, word 6 */

static void fronts(void)
{
    start(4, 4, 4);
    CHECK(words[TA_FRONT] == 0);
    CHECK(insert(1, 1, 2, 2) == TA_DONE);
    CHECK(words[TA_FRONT] == 1);
    /* equal to one on the front; beaten on one axis; beside it */
    CHECK(insert(2, 1, 2, 2) == TA_DONE);
    CHECK(words[TA_FRONT] == 2);
    CHECK(insert(3, 1, 2, 3) == TA_DONE);
    CHECK(words[TA_FRONT] == 2);
    CHECK(insert(4, 1, 1, 3) == TA_DONE);
    CHECK(words[TA_FRONT] == 3);
    /* beyond the reference by the coordinates as kept */
    CHECK(insert(5, 5, 0, 0) == TA_DONE);
    CHECK(words[TA_FRONT] == 4);
    CHECK(insert(6, 6, 0, 0) == TA_DONE);
    CHECK(words[TA_FRONT] == 4);
    CHECK(remove_trial(5) == TA_DONE);
    CHECK(words[TA_FRONT] == 4);
    CHECK(is_answer(audit(), TA_DONE, 1));
    /* one alone */
    CHECK(insert(7, 0, 0, 0) == TA_DONE);
    CHECK(words[TA_FRONT] == 1);
    CHECK(is_answer(audit(), TA_DONE, 1));
    CHECK(is_answer(reduce(2, TA_TIE_LOWEST, 8), TA_DONE, 4));
    CHECK(words[TA_FRONT] == 1);
    CHECK(remove_trial(7) == TA_DONE);
    CHECK(words[TA_COUNT] == 1);
    CHECK(words[TA_FRONT] == 1);
    CHECK(is_answer(audit(), TA_DONE, 1));
    /* all of them */
    insert_card(4);
    CHECK(words[TA_FRONT] == 4);
    CHECK(is_answer(reduce(2, TA_TIE_LOWEST, 4), TA_DONE, 2));
    CHECK(words[TA_FRONT] == 2);
}

/* Kept from before the front: 0 in word 6, and all else counted. */
static void kept_from_before(void)
{
    insert_card(4);
    words[TA_FRONT] = 0;
    CHECK(is_answer(audit(), TA_DONE, 0));
    CHECK(is_least(least(TA_TIE_LOWEST), TA_DONE, 4, 1));
    CHECK(is_answer(joint(1, 4), TA_DONE, 2));
    CHECK(is_answer(gain(1, 1, 1), TA_DONE, 6));
    CHECK(is_answer(share(), TA_DONE, 328125));
    CHECK(is_answer(write_report(LENT, OUT), TA_DONE, TA_REPORT_BYTES(4)));
    CHECK(is_answer(write_card(LENT, OUT), TA_DONE, TA_CARD_BYTES(4)));
    CHECK(is_figures(figures(1), 21, 21, 21, 21, 328125, 0));
    remember(before);
    CHECK(is_answer(reduce(2, TA_TIE_LOWEST, 4), TA_MISCOUNT, 0));
    CHECK(is_answer(reduce(4, TA_TIE_LOWEST, 0), TA_MISCOUNT, 0));
    check_log(0);
    CHECK(rearrange(LENT, TA_ORDER_ZYX, LENT) == TA_MISCOUNT);
    CHECK(insert(1, 0, 0, 0) == TA_NUMBER_HELD);
    CHECK(remove_trial(5) == TA_NOT_HELD);
    check_untouched(before);
    CHECK(insert(5, 2, 2, 2) == TA_DONE);
    CHECK(words[TA_FRONT] == 4);
    CHECK(is_answer(audit(), TA_DONE, 1));

    insert_card(4);
    words[TA_FRONT] = 0;
    CHECK(remove_trial(4) == TA_DONE);
    CHECK(words[TA_FRONT] == 3);
    CHECK(is_answer(audit(), TA_DONE, 1));
    CHECK(is_answer(reduce(2, TA_TIE_LOWEST, 2), TA_DONE, 1));
    CHECK(words[TA_FRONT] == 2);

    /* counted anew, whatever stood there */
    words[TA_FRONT] = 1;
    CHECK(is_answer(audit(), TA_DONE, 0));
    CHECK(insert(6, 0, 3, 3) == TA_DONE);
    CHECK(words[TA_FRONT] == 3);
    CHECK(is_answer(audit(), TA_DONE, 1));

    /* an empty one is right as it is */
    start(4, 4, 4);
    words[TA_FRONT] = 0;
    CHECK(is_answer(audit(), TA_DONE, 1));
    CHECK(is_answer(reduce(0, TA_TIE_LOWEST, 0), TA_DONE, 0));
    CHECK(rearrange(LENT, TA_ORDER_ZYX, LENT) == TA_DONE);
    CHECK(is_figures(figures(1), 0, 0, 0, 0, 0, 1));
}

/* ---- document 01's card and report */

static const char card[] =
    "       8       4       4       4\n"
    "       1       1       2       2\n"
    "       2       2       1       2\n"
    "       3       2       2       1\n"
    "       4       1       1       3\n";

static const char report[] =
    "       4       4       4       4                  21\n"
    "       3       2       2       1                   4\n"
    "       2       2       1       2                   2\n"
    "       1       1       2       2                   2\n"
    "       4       1       1       3                   1\n";

enum { CARD = sizeof card - 1, REPORT = sizeof report - 1 };

/* The card between guards. A call is lent the first bytes of it; it is then
   compared, guards included. */
static uint8_t card_memory[GUARD + CARD + GUARD];
static uint8_t *const card_bytes = card_memory + GUARD;

static void lend_card(void)
{
    memset(card_memory, '#', sizeof card_memory);
    memcpy(card_bytes, card, CARD);
}

static void check_card(void)
{
    size_t i;

    CHECK(memcmp(card_bytes, card, CARD) == 0);
    for (i = 0; i < GUARD; i++) {
        CHECK(card_memory[i] == '#' && card_bytes[CARD + i] == '#');
    }
}

static uint64_t check_first(size_t card_len)
{
    uint64_t answer;

    lend_card();
    answer = ta_card_check(card_bytes, card_len);
    check_card();
    return answer;
}

static ta_load_answer load_first(size_t len, size_t card_len)
{
    ta_load_answer answer;

    lend_card();
    answer = ta_card_load(words, len, card_bytes, card_len);
    check_card();
    check_guards();
    return answer;
}

static void card_and_report(void)
{
    uint64_t inserted[WORDS];

    insert_card(4);
    memcpy(inserted, words, sizeof inserted);
    CHECK(check_first(CARD) == TA_DONE);
    fill(memory, LENGTH(memory));
    CHECK(is_load(load_first(LENT, CARD), TA_DONE, 0, 4));
    CHECK(memcmp(inserted, words, sizeof inserted) == 0);

    CHECK(REPORT == TA_REPORT_BYTES(4));
    CHECK(is_answer(write_report(LENT, OUT), TA_DONE, REPORT));
    CHECK(memcmp(out, report, REPORT) == 0);
    check_out(REPORT);
}

/* ---- cards written back */

static const char card_in_order[] =
    "       8       4       4       4\n"
    "       3       2       2       1\n"
    "       2       2       1       2\n"
    "       1       1       2       2\n"
    "       4       1       1       3\n";

/* The archive is written as this card, and nothing behind it. */
static void check_written(const char *expected)
{
    size_t length = strlen(expected);

    CHECK(is_answer(write_card(LENT, OUT), TA_DONE, length));
    CHECK(memcmp(out, expected, length) == 0);
    check_out(length);
    /* room for it alone, and an archive without words behind */
    CHECK(is_answer(write_card(WORDS, length), TA_DONE, length));
    CHECK(memcmp(out, expected, length) == 0);
    check_out(length);
    CHECK(is_answer(write_card(LENT, length - 1), TA_OUTPUT_SHORT, 0));
    check_out(0);
    CHECK(is_answer(write_card(LENT, 0), TA_OUTPUT_SHORT, 0));
    check_out(0);
}

/* The card written, loaded into a longer slice: these words, and those behind
   as they were. */
static void check_restored(const uint64_t *counted)
{
    uint64_t second[2 * WORDS];
    size_t length = write_card(LENT, OUT).value;
    ta_load_answer loaded;

    fill(second, LENGTH(second));
    CHECK(ta_card_check(out, length) == TA_DONE);
    loaded = ta_card_load(second, LENGTH(second), out, length);
    CHECK(is_load(loaded, TA_DONE, 0, counted[TA_COUNT]));
    CHECK(memcmp(second, counted, WORDS * sizeof *counted) == 0);
    CHECK(is_filled(second + WORDS, LENGTH(second) - WORDS));
}

static void cards_written(void)
{
    const uint64_t most = TA_MAX_REFERENCE;
    uint64_t counted[WORDS];

    fill(memory, LENGTH(memory));
    CHECK(is_load(load_first(LENT, CARD), TA_DONE, 0, 4));
    memcpy(counted, words, sizeof counted);
    CHECK(CARD == TA_CARD_BYTES(4));
    check_written(card_in_order);
    check_restored(counted);

    /* kept sums that are wrong do not show, and loading counts anew */
    words[TA_TOTAL] = 20;
    CHECK(is_answer(audit(), TA_DONE, 0));
    check_written(card_in_order);
    check_restored(counted);
    words[TA_TOTAL] = 64;
    words[TA_FRONT] = 0;
    words[TA_RECORDS + 4] = 64;
    CHECK(is_answer(audit(), TA_DONE, 0));
    check_written(card_in_order);
    check_restored(counted);

    /* no trial, and a reference with three numbers */
    start(5, 6, 7);
    CHECK(TA_CARD_BYTES(0) == 33);
    check_written("       8       5       6       7\n");
    check_restored(words);

    /* the widest numbers, and the narrowest */
    start(most, most, most);
    CHECK(insert(TA_MAX_NUMBER, most, most, most) == TA_DONE);
    CHECK(insert(1, 0, 0, 0) == TA_DONE);
    check_written("       8 1048576 1048576 1048576\n"
                  "       1       0       0       0\n"
                  " 9999999 1048576 1048576 1048576\n");
    check_restored(words);
}

/* A trial's four words in archive order: by z, then y, then x, then number. */
static int by_order(const void *left, const void *right)
{
    const uint64_t *a = left;
    const uint64_t *b = right;
    int i;

    for (i = 3; i >= 0; i--) {
        if (a[i] != b[i]) {
            return a[i] < b[i] ? -1 : 1;
        }
    }
    return 0;
}

static void put_line(uint8_t *at, const uint64_t *field)
{
    char line[4 * 20 + 2];

    sprintf(line, "%8" PRIu64 "%8" PRIu64 "%8" PRIu64 "%8" PRIu64 "\n",
            field[0], field[1], field[2], field[3]);
    memcpy(at, line, TA_CARD_BYTES(0));
}

/* So many random trials, many of them equal on some axes or on all: written as
   the same trials sorted here, and restored. */
static void many_written(uint64_t capacity, size_t count)
{
    static uint64_t first[TA_WORDS(TA_MAX_CAPACITY)];
    static uint64_t second[TA_WORDS(TA_MAX_CAPACITY) + BEHIND];
    static uint64_t trials[TA_MAX_CAPACITY][4];
    static uint8_t expected[TA_CARD_BYTES(TA_MAX_CAPACITY) + BEHIND];
    static uint8_t written[sizeof expected];
    const size_t len = TA_WORDS(capacity);
    const size_t length = TA_CARD_BYTES(count);
    uint64_t line_1[4] = {capacity, 0, 0, 0};
    size_t i;
    size_t axis;
    int whole = 1;

    for (axis = 1; axis < 4; axis++) {
        line_1[axis] = 1 + next_random() % TA_MAX_REFERENCE;
    }
    for (i = 0; i < count; i++) {
        /* wide and narrow in turn, both falling */
        trials[i][0] = i % 2 == 0 ? TA_MAX_NUMBER - i : TA_MAX_CAPACITY - i;
        for (axis = 1; axis < 4; axis++) {
            trials[i][axis] = next_random() % (i % 4 == 0 ? TA_MAX_COORDINATE + 1 : 3);
        }
    }
    CHECK(ta_start(first, len, line_1[1], line_1[2], line_1[3], capacity) == TA_DONE);
    CHECK(is_grid(ta_insert_grid(first, len, trials[0], 4 * count), TA_DONE, count, TA_DONE));

    memset(expected, '#', sizeof expected);
    qsort(trials, count, sizeof trials[0], by_order);
    put_line(expected, line_1);
    for (i = 0; i < count; i++) {
        put_line(expected + TA_CARD_BYTES(i), trials[i]);
    }
    memset(written, '#', sizeof written);
    CHECK(is_answer(ta_card_write(first, len, written, length - 1), TA_OUTPUT_SHORT, 0));
    for (i = 0; i < sizeof written; i++) {
        whole = whole && written[i] == '#';
    }
    CHECK(whole);
    CHECK(is_answer(ta_card_write(first, len, written, length), TA_DONE, length));
    CHECK(memcmp(written, expected, sizeof written) == 0);

    fill(second, LENGTH(second));
    CHECK(is_load(ta_card_load(second, len + BEHIND, written, length), TA_DONE, 0, count));
    CHECK(memcmp(second, first, len * sizeof *first) == 0);
    CHECK(is_filled(second + len, LENGTH(second) - len));
}

/* ---- archives with their axes in another order */

/* The orders by their letters, and which order undoes each of them. */
static const char *const letters[6] = {"xyz", "xzy", "yxz", "yzx", "zxy", "zyx"};
static const uint64_t inverse[6] = {0, 1, 2, 4, 3, 5};

/* Three words with the axes in this order. */
static void turn(uint64_t order, const uint64_t *from, uint64_t *to)
{
    size_t i;

    for (i = 0; i < 3; i++) {
        to[i] = from[letters[order][i] - 'x'];
    }
}

/* The words of an archive in this order, from those of one that the audit
   passes. */
static void turn_archive(uint64_t order, const uint64_t *from, uint64_t *to)
{
    uint64_t *records = to + TA_RECORDS;
    uint64_t i;

    memcpy(to, from, TA_WORDS(from[TA_CAPACITY]) * sizeof *from);
    turn(order, from + TA_REFERENCE, to + TA_REFERENCE);
    for (i = 0; i < from[TA_COUNT]; i++) {
        const uint64_t *record = from + TA_RECORDS + i * TA_RECORD_WORDS;

        turn(order, record + 1, records + i * TA_RECORD_WORDS + 1);
    }
    qsort(records, from[TA_COUNT], TA_RECORD_WORDS * sizeof *records, by_order);
}

/* Two trials that differ on all axes, and one equal to the second: by hand. */
static void three_rearranged(void)
{
    static const uint64_t orders[6] = {
        TA_ORDER_XYZ, TA_ORDER_XZY, TA_ORDER_YXZ, TA_ORDER_YZX, TA_ORDER_ZXY, TA_ORDER_ZYX
    };
    static const uint64_t expected[6][3 + 3 * 4] = {
        {10, 200, 300, 5, 1, 20, 3, 7, 4, 2, 30, 9, 4, 2, 30},
        {10, 300, 200, 7, 4, 30, 2, 9, 4, 30, 2, 5, 1, 3, 20},
        {200, 10, 300, 5, 20, 1, 3, 7, 2, 4, 30, 9, 2, 4, 30},
        {200, 300, 10, 5, 20, 3, 1, 7, 2, 30, 4, 9, 2, 30, 4},
        {300, 10, 200, 7, 30, 4, 2, 9, 30, 4, 2, 5, 3, 1, 20},
        {300, 200, 10, 5, 3, 20, 1, 7, 30, 2, 4, 9, 30, 2, 4}
    };
    const uint64_t alone = 9 * 180 * 297 - 6 * 180 * 270;
    uint64_t order;
    size_t i;

    start(10, 200, 300);
    CHECK(insert(5, 1, 20, 3) == TA_DONE);
    CHECK(insert(9, 4, 2, 30) == TA_DONE);
    CHECK(insert(7, 4, 2, 30) == TA_DONE);
    for (order = 0; order < 6; order++) {
        CHECK(orders[order] == order);
        CHECK(rearrange(LENT, orders[order], LENT) == TA_DONE);
        CHECK(second[TA_COUNT] == 3 && second[TA_CAPACITY] == 8);
        CHECK(memcmp(second + TA_REFERENCE, expected[order], 3 * sizeof *second) == 0);
        CHECK(second[TA_TOTAL] == alone + 6 * 198 * 270);
        CHECK(second[TA_FRONT] == 3 && second[TA_FRONT + 1] == 0);
        for (i = 0; i < 3; i++) {
            const uint64_t *record = second + TA_RECORDS + i * TA_RECORD_WORDS;

            CHECK(memcmp(record, expected[order] + 3 + 4 * i, 4 * sizeof *record) == 0);
            CHECK(record[4] == (record[0] == 5 ? alone : 0));
        }
        for (i = TA_WORDS(3); i < WORDS; i++) {
            CHECK(second[i] == 0);
        }
        CHECK(is_answer(ta_audit(second, LENT), TA_DONE, 1));
    }
}

/* The archive in so many orders and rooms: this row of the source, 22 where the
   order is above 5, and 1 where nothing else is met and the room is short. */
static void check_rearrange(uint64_t row)
{
    static const uint64_t orders[] = {0, 3, 5, 6, 7, 256, ((uint64_t)1 << 32) + 3, UINT64_MAX};
    static const size_t rooms[] = {0, 7, 8, TA_WORDS(4), WORDS - 1, WORDS, WORDS + 1, LENT};
    size_t i;
    size_t j;

    for (i = 0; i < LENGTH(orders); i++) {
        for (j = 0; j < LENGTH(rooms); j++) {
            uint64_t first = orders[i] > 5 ? TA_BAD_ORDER : row;

            if (first == TA_DONE && rooms[j] < WORDS) {
                first = TA_SLICE_SHORT;
            }
            CHECK(rearrange(LENT, orders[i], rooms[j]) == first);
        }
    }
}

/* Rows 22, 13 and 1 of the second slice, in this order. Rows 1 to 3 are with
   those of the other calls. */
static void rows_of_rearrange(void)
{
    static const struct { size_t at; uint64_t value; } wrong[] = {
        {TA_TOTAL, 20}, {TA_TOTAL, 22}, {TA_FRONT, 3}, {TA_FRONT, 0},
        {TA_WORDS(1) - 1, 3}, {TA_WORDS(1) - 1, 5}, {TA_WORDS(4) - 1, 0}, {TA_WORDS(4) - 1, 2}
    };
    size_t i;

    CHECK(TA_BAD_ORDER == 22);
    insert_card(4);
    check_rearrange(TA_DONE);
    for (i = 0; i < LENGTH(wrong); i++) {
        uint64_t own = words[wrong[i].at];

        words[wrong[i].at] = wrong[i].value;
        check_rearrange(TA_MISCOUNT);
        words[wrong[i].at] = own;
    }
    CHECK(rearrange(WORDS, TA_ORDER_ZYX, WORDS) == TA_DONE);
    /* no trial, and a total */
    start(4, 5, 6);
    check_rearrange(TA_DONE);
    words[TA_TOTAL] = 1;
    check_rearrange(TA_MISCOUNT);
}

/* An archive and its copies in all orders, between guards. */
enum { MANY = TA_WORDS(TA_MAX_CAPACITY), MANY_LENT = MANY + BEHIND };

static uint64_t many_memory[GUARD + MANY_LENT + GUARD];
static uint64_t turned_memory[GUARD + MANY_LENT + GUARD];
static uint64_t back_memory[GUARD + MANY_LENT + GUARD];

/* Rearranges the first archive into the second slice, both of which have
   `behind` words more. All else, and the first archive, is left as it was. */
static int rearranged_between(const uint64_t *from_memory, uint64_t order, uint64_t *to_memory,
                              uint64_t mark, size_t behind)
{
    static uint64_t copy[LENGTH(many_memory)];
    const uint64_t *from = from_memory + GUARD;
    const size_t len = TA_WORDS(from[TA_CAPACITY]);
    uint64_t *to = to_memory + GUARD;
    uint64_t refusal;

    fill_by(mark, to_memory, LENGTH(many_memory));
    memcpy(copy, from_memory, sizeof copy);
    refusal = ta_rearrange(from, len + behind, order, to, len + behind);
    return refusal == TA_DONE && memcmp(copy, from_memory, sizeof copy) == 0
        && is_filled_by(mark, to_memory, GUARD)
        && is_filled_by(mark, to + len, LENGTH(many_memory) - GUARD - len);
}

/* The reference and so many trials, which many_rearranged takes. */
static uint64_t many_reference[3];
static uint64_t many_trials[TA_MAX_CAPACITY][4];

/* Random trials, many of them equal on some axes or on all, some at the
   reference or beyond it. */
static void draw_trials(size_t count)
{
    size_t i;
    size_t axis;

    for (axis = 0; axis < 3; axis++) {
        many_reference[axis] = 1 + next_random() % TA_MAX_REFERENCE;
    }
    for (i = 0; i < count; i++) {
        /* wide and narrow in turn, both falling */
        many_trials[i][0] = i % 2 == 0 ? TA_MAX_NUMBER - 19531 * i : TA_MAX_CAPACITY - i;
        for (axis = 0; axis < 3; axis++) {
            uint64_t random = next_random();
            const uint64_t limits[4] = {0, many_reference[axis], TA_MAX_COORDINATE, 1};

            many_trials[i][1 + axis] = i % 8 == 0 ? limits[random % 4]
                : i % 8 == 4 ? random % (TA_MAX_COORDINATE + 1)
                : i % 4 == 1 ? random % (many_reference[axis] + 1) : random % 3;
        }
    }
}

/* Trials on one plane, of which every one contributes. Where they are not as many
   as can be, up to three of them are beyond the reference and on the front too. */
static void draw_plane(size_t count)
{
    static const uint64_t beyond[3][3] = {{4001, 0, 0}, {0, TA_MAX_COORDINATE, 0}, {0, 0, 6001}};
    size_t i;

    for (i = 0; i < 3; i++) {
        many_reference[i] = 4000 + 1000 * i;
    }
    for (i = 0; i < count; i++) {
        uint64_t *trial = many_trials[i];

        trial[0] = 1 + i * 7919 % 8191;
        trial[1] = 1 + i * 331 % 1000;
        trial[2] = 1 + i * 577 % 1000;
        trial[3] = 3000 - trial[1] - trial[2];
        if (count < TA_MAX_CAPACITY && i % 60 == 30) {
            memcpy(trial + 1, beyond[i / 60], sizeof beyond[0]);
        }
    }
}

/* So many of the trials drawn, in all orders: as turned and sorted here, as
   inserted into a fresh archive, and restored by the inverse. */
static void many_rearranged(uint64_t capacity, size_t count)
{
    static uint64_t expected[MANY];
    static uint64_t turned_trials[TA_MAX_CAPACITY][4];
    static uint64_t fresh[MANY];
    const uint64_t *reference = many_reference;
    const size_t len = TA_WORDS(capacity);
    uint64_t *const many = many_memory + GUARD;
    uint64_t *const turned = turned_memory + GUARD;
    uint64_t *const back = back_memory + GUARD;
    uint64_t order;
    size_t i;

    fill(many_memory, LENGTH(many_memory));
    CHECK(ta_start(many, len, reference[0], reference[1], reference[2], capacity) == TA_DONE);
    CHECK(is_grid(ta_insert_grid(many, len, many_trials[0], 4 * count), TA_DONE, count, TA_DONE));
    for (order = 0; order < 6; order++) {
        uint64_t r[3];

        CHECK(rearranged_between(many_memory, order, turned_memory, SECOND_MARK,
                                 order % (BEHIND + 1)));
        turn_archive(order, many, expected);
        CHECK(memcmp(turned, expected, len * sizeof *turned) == 0);
        CHECK(is_answer(ta_audit(turned, len), TA_DONE, 1));

        turn(order, reference, r);
        for (i = 0; i < count; i++) {
            turned_trials[i][0] = many_trials[i][0];
            turn(order, many_trials[i] + 1, turned_trials[i] + 1);
        }
        CHECK(ta_start(fresh, len, r[0], r[1], r[2], capacity) == TA_DONE);
        CHECK(is_grid(ta_insert_grid(fresh, len, turned_trials[0], 4 * count),
                      TA_DONE, count, TA_DONE));
        CHECK(memcmp(turned, fresh, len * sizeof *turned) == 0);

        CHECK(rearranged_between(turned_memory, inverse[order], back_memory, MARK,
                                 BEHIND - order % (BEHIND + 1)));
        CHECK(memcmp(back, many, len * sizeof *back) == 0);
        fill(turned_memory, LENGTH(turned_memory));
        CHECK(ta_rearrange(many, len, order, turned, len - 1) == TA_SLICE_SHORT);
        CHECK(is_filled(turned_memory, LENGTH(turned_memory)));
    }
}

static void archives_rearranged(void)
{
    static const size_t sizes[][2] = {{1, 0}, {1, 1}, {TA_MAX_CAPACITY, 0}, {9, 7}, {200, 199},
                                      {TA_MAX_CAPACITY, TA_MAX_CAPACITY}};
    size_t i;

    for (i = 0; i < LENGTH(sizes); i++) {
        draw_trials(sizes[i][1]);
        many_rearranged(sizes[i][0], sizes[i][1]);
        draw_plane(sizes[i][1]);
        many_rearranged(sizes[i][0], sizes[i][1]);
    }
    CHECK(many_memory[GUARD + TA_FRONT] == TA_MAX_CAPACITY);
}

/* ---- figures over repeated runs */

enum { RUNS_LENT = (TA_MAX_RUNS + 1) * TA_WORDS(TA_MAX_CAPACITY) + BEHIND };

static uint64_t runs_memory[GUARD + RUNS_LENT + GUARD];
static uint64_t runs_copy[LENGTH(runs_memory)];
static uint64_t *const runs = runs_memory + GUARD;

/* Up to where archives stand, one behind the other, and how often a word of them
   could not be made. */
static size_t runs_len;
static int runs_refused;

static void lend_runs(void)
{
    fill(runs_memory, LENGTH(runs_memory));
    runs_len = 0;
}

/* One more archive, which holds no trial and keeps this total: rows 1 to 3 ask
   only that it is at most the box. */
static void put_run(uint64_t rx, uint64_t ry, uint64_t rz, uint64_t capacity, uint64_t total)
{
    runs_refused += ta_start(runs + runs_len, TA_WORDS(capacity), rx, ry, rz, capacity) != TA_DONE;
    runs[runs_len + TA_TOTAL] = total;
    runs_len += TA_WORDS(capacity);
}

/* One more archive, with so many of the card's trials. */
static void put_card(uint64_t capacity, uint64_t count)
{
    static const uint64_t points[4][3] = {{1, 2, 2}, {2, 1, 2}, {2, 2, 1}, {1, 1, 3}};
    uint64_t *const run = runs + runs_len;
    const size_t len = TA_WORDS(capacity);
    uint64_t i;

    runs_refused += ta_start(run, len, 4, 4, 4, capacity) != TA_DONE;
    for (i = 0; i < count; i++) {
        const uint64_t *at = points[i];

        runs_refused += ta_insert(run, len, i + 1, at[0], at[1], at[2]) != TA_DONE;
    }
    runs_len += len;
}

/* The figures of the first words, which are only read: an impossible refusal where
   one of them has changed, or a guard. */
static ta_figures_answer figures_of(size_t len, uint64_t number)
{
    const size_t bytes = (GUARD + (len > runs_len ? len : runs_len) + GUARD) * sizeof *runs;
    ta_figures_answer answer;

    memcpy(runs_copy, runs_memory, bytes);
    answer = ta_figures(runs, len, number);
    if (memcmp(runs_copy, runs_memory, bytes) != 0) {
        answer.refusal = UINT64_MAX;
    }
    return answer;
}

static int ascending(const void *left, const void *right)
{
    const uint64_t *a = left;
    const uint64_t *b = right;

    return *a < *b ? -1 : *a > *b;
}

/* Whether the answer is that of the first archives, whose totals are sorted here
   and whose audits are asked one by one. */
static int is_of_runs(ta_figures_answer answer, uint64_t number)
{
    const uint64_t cells = runs[2] * runs[3] * runs[4];
    uint64_t totals[TA_MAX_RUNS];
    uint64_t audits = 1;
    wide sum = 0;
    size_t at = 0;
    uint64_t i;

    for (i = 0; i < number; i++) {
        totals[i] = runs[at + TA_TOTAL];
        sum += totals[i];
        audits = audits && ta_audit(runs + at, RUNS_LENT - at).value;
        at += TA_WORDS(runs[at + TA_CAPACITY]);
    }
    qsort(totals, number, sizeof totals[0], ascending);
    return answer.refusal == TA_DONE && answer.sum == sum && answer.least == totals[0]
        && answer.greatest == totals[number - 1] && answer.median == totals[(number - 1) / 2]
        && is_nearest(answer.share, answer.median, cells) && answer.audits == audits;
}

/* Totals 12, 16, 20 and 21 of 64 cells. */
static void runs_by_hand(void)
{
    static const uint64_t capacities[][4] = {{4, 4, 4, 4}, {1, 2, 3, 4}, {8, 512, 4, 7}};
    size_t i;

    for (i = 0; i < LENGTH(capacities); i++) {
        uint64_t count;

        lend_runs();
        for (count = 1; count <= 4; count++) {
            put_card(capacities[i][count - 1], count);
        }
        CHECK(is_figures(figures_of(runs_len, 1), 12, 12, 12, 12, 187500, 1));
        CHECK(is_figures(figures_of(runs_len, 2), 28, 12, 16, 12, 187500, 1));
        CHECK(is_figures(figures_of(runs_len, 3), 48, 12, 20, 16, 250000, 1));
        CHECK(is_figures(figures_of(runs_len, 4), 69, 12, 21, 16, 250000, 1));
        CHECK(is_refused(figures_of(runs_len, 5), TA_SLICE_SHORT));
        /* the other way round, and no trial at all */
        lend_runs();
        for (count = 4; count > 0; count--) {
            put_card(capacities[i][count - 1], count);
        }
        put_card(capacities[i][0], 0);
        CHECK(is_figures(figures_of(runs_len, 1), 21, 21, 21, 21, 328125, 1));
        CHECK(is_figures(figures_of(runs_len, 2), 41, 20, 21, 20, 312500, 1));
        CHECK(is_figures(figures_of(runs_len, 3), 57, 16, 21, 20, 312500, 1));
        CHECK(is_figures(figures_of(runs_len, 4), 69, 12, 21, 16, 250000, 1));
        CHECK(is_figures(figures_of(runs_len, 5), 69, 0, 21, 16, 250000, 1));
    }
}

/* The header's words on archives that are filled where they stand. */
static void runs_where_they_stand(void)
{
    enum { FIRST = TA_WORDS(8), SECOND = TA_WORDS(20) };
    uint64_t two[FIRST + SECOND];
    uint64_t refusal;

    fill(two, LENGTH(two));
    refusal = ta_start(two, FIRST, 4, 4, 4, 8);
    CHECK(refusal == TA_DONE);
    refusal = ta_start(two + FIRST, SECOND, 4, 4, 4, 20);
    CHECK(refusal == TA_DONE);
    CHECK(is_figures(ta_figures(two, FIRST + SECOND, 2), 0, 0, 0, 0, 0, 1));
    CHECK(ta_insert(two, FIRST, 1, 1, 2, 2) == TA_DONE);
    CHECK(ta_insert(two + FIRST, SECOND, 1, 2, 2, 2) == TA_DONE);
    CHECK(is_figures(ta_figures(two, FIRST + SECOND, 2), 20, 8, 12, 8, 125000, 1));
    CHECK(ta_insert(two, FIRST + SECOND, 2, 0, 0, 0) == TA_DONE);
    CHECK(is_figures(ta_figures(two, FIRST + SECOND, 2), 72, 8, 64, 8, 125000, 1));
    CHECK(ta_remove(two + FIRST, SECOND, 1) == TA_DONE);
    CHECK(is_figures(ta_figures(two, FIRST + SECOND, 2), 64, 0, 64, 0, 0, 1));
}

/* One to fifteen totals, 1, 8, 15 and so on of 1000, turned and descending. */
static void medians(void)
{
    uint64_t number;
    uint64_t shift;
    uint64_t i;
    int wrong = 0;

    for (number = 1; number <= TA_MAX_RUNS; number++) {
        const uint64_t sum = number + 7 * number * (number - 1) / 2;
        const uint64_t middle = 1 + 7 * ((number - 1) / 2);
        const uint64_t last = 1 + 7 * (number - 1);

        for (shift = 0; shift < number; shift++) {
            lend_runs();
            for (i = 0; i < number; i++) {
                put_run(10, 10, 10, 1 + i % 3, 1 + 7 * ((i + shift) % number));
            }
            wrong += !is_figures(figures_of(runs_len, number), sum, 1, last, middle,
                                 1000 * middle, 0);
            lend_runs();
            for (i = number; i > 0; i--) {
                put_run(10, 10, 10, 1 + i % 4, 1 + 7 * ((i + shift) % number));
            }
            wrong += !is_figures(figures_of(runs_len, number), sum, 1, last, middle,
                                 1000 * middle, 0);
        }
    }
    CHECK(wrong == 0);
    /* equal totals are several totals */
    lend_runs();
    for (i = 0; i < 7; i++) {
        put_run(10, 10, 10, 1, i < 4 ? 500 : 100 * i);
    }
    CHECK(is_figures(figures_of(runs_len, 4), 2000, 500, 500, 500, 500000, 0));
    CHECK(is_figures(figures_of(runs_len, 6), 2900, 400, 500, 500, 500000, 0));
    CHECK(is_figures(figures_of(runs_len, 7), 3500, 400, 600, 500, 500000, 0));
}

/* The share of this total as the median of three, or of four: an impossible one
   where the median is another. */
static uint64_t share_of_median(uint64_t rx, uint64_t ry, uint64_t rz, uint64_t total)
{
    const uint64_t cells = rx * ry * rz;
    ta_figures_answer three;
    ta_figures_answer four;

    lend_runs();
    put_run(rx, ry, rz, 1, cells);
    put_run(rx, ry, rz, 2, 0);
    put_run(rx, ry, rz, 1, total);
    put_run(rx, ry, rz, 3, cells);
    three = figures_of(runs_len, 3);
    four = figures_of(runs_len, 4);
    if (three.refusal != TA_DONE || three.median != total || four.refusal != TA_DONE
        || four.median != total || three.share != four.share) {
        return UINT64_MAX;
    }
    return three.share;
}

/* As the shares of one archive are rounded, at the same ties. */
static void shares_of_medians(void)
{
    int wrong = 0;
    int i;

    shares_at_ties(share_of_median);
    CHECK(share_of_median(3, 1, 1, 2) == 666667);
    for (i = 0; i < 300; i++) {
        uint64_t rx = TA_MAX_REFERENCE - next_random() % 1000;
        uint64_t ry = TA_MAX_REFERENCE - next_random() % 1000;
        uint64_t rz = 1 + next_random() % TA_MAX_REFERENCE;
        uint64_t cells = rx * ry * rz;
        uint64_t half = (uint64_t)((2 * (wide)(next_random() % 1000000) + 1) * cells / 2000000);

        wrong += !is_nearest(share_of_median(rx, ry, rz, half), half, cells);
        wrong += !is_nearest(share_of_median(rx, ry, rz, half + 1), half + 1, cells);
        wrong += share_of_median(rx, ry, rz, half) != share_of(rx, ry, rz, half);
    }
    CHECK(wrong == 0);
}

/* Up to fifteen of the largest boxes, all of their cells counted. */
static void largest_runs(void)
{
    const uint64_t most = TA_MAX_REFERENCE;
    const uint64_t cells = (uint64_t)1 << 60;
    uint64_t number;

    lend_runs();
    for (number = 1; number <= TA_MAX_RUNS; number++) {
        const size_t at = runs_len;

        put_run(most, most, most, 2, 0);
        CHECK(ta_insert(runs + at, TA_WORDS(2), 1, 0, 0, 0) == TA_DONE);
        CHECK(is_figures(figures_of(runs_len, number), cells * number, cells, cells, cells,
                         1000000, 1));
        CHECK(is_of_runs(figures_of(runs_len, number), number));
    }
    CHECK(figures_of(runs_len, TA_MAX_RUNS).sum == 17293822569102704640u);
}

/* One wrong figure at a time, at every place: an answer, with the totals as
   kept. */
static void audits_of_runs(void)
{
    static const struct { size_t at; uint64_t value; } wrong[] = {
        {TA_TOTAL, 20}, {TA_TOTAL, 22}, {TA_FRONT, 3}, {TA_FRONT, 0},
        {TA_WORDS(1) - 1, 3}, {TA_WORDS(4) - 1, 0}
    };
    const size_t len = TA_WORDS(5);
    size_t i;
    uint64_t number;
    uint64_t place;

    lend_runs();
    for (number = 1; number <= TA_MAX_RUNS; number++) {
        int unlike = 0;

        put_card(5, 4);
        CHECK(is_figures(figures_of(runs_len, number), 21 * number, 21, 21, 21, 328125, 1));
        for (place = 0; place < number; place++) {
            const size_t behind = (place + 1) * len;

            for (i = 0; i < LENGTH(wrong); i++) {
                uint64_t *const word = runs + place * len + wrong[i].at;
                const uint64_t own = *word;
                ta_figures_answer found;

                *word = wrong[i].value;
                found = figures_of(runs_len, number);
                unlike += found.audits != 0 || !is_of_runs(found, number);
                /* up to it, and from behind it, every audit says yes */
                unlike += place > 0 && figures_of(runs_len, place).audits != 1;
                unlike += behind < runs_len
                    && ta_figures(runs + behind, runs_len - behind, number - place - 1).audits != 1;
                *word = own;
            }
        }
        CHECK(unlike == 0);
    }
}

/* A word of one of three archives is spoiled, one of another one, and a reference
   differs on an axis: the number answers first, then the first archive that is
   turned down, last the references. */
static void rows_of_figures(void)
{
    static const struct { size_t at; uint64_t value; uint64_t row; } spoiled[] = {
        {TA_TOTAL, 20, TA_DONE}, {TA_CAPACITY, TA_MAX_CAPACITY, TA_SLICE_SHORT},
        {TA_CAPACITY, TA_MAX_CAPACITY + 1, TA_BAD_HEADER}, {TA_FRONT + 1, 1, TA_BAD_HEADER},
        {TA_TOTAL, UINT64_MAX, TA_BAD_HEADER}, {TA_RECORDS, 0, TA_BAD_RECORDS},
        {TA_WORDS(5) - 1, 1, TA_BAD_RECORDS}
    };
    static const uint64_t numbers[] = {
        0, 1, 2, 3, 4, TA_MAX_RUNS, TA_MAX_RUNS + 1, ((uint64_t)1 << 32) + 3, UINT64_MAX
    };
    const size_t len = TA_WORDS(5);
    int wrong = 0;
    size_t pair;
    size_t i;
    size_t j;
    size_t k;
    size_t axis;

    CHECK(TA_BAD_RUNS == 23);
    for (pair = 0; pair < 3; pair++) {
        const size_t first = pair == 2 ? 1 : 0;
        const size_t other = pair == 0 ? 1 : 2;

        for (i = 0; i < LENGTH(spoiled) * LENGTH(spoiled); i++) {
            const size_t one = i % LENGTH(spoiled);
            const size_t two = i / LENGTH(spoiled);

            /* the place where a reference differs, 3 for none */
            for (j = 0; j <= 3; j++) {
                for (axis = 0; axis < 3; axis++) {
                    lend_runs();
                    for (k = 0; k < 3; k++) {
                        put_card(5, 4);
                    }
                    if (j < 3) {
                        runs[j * len + TA_REFERENCE + axis] = 5;
                    }
                    runs[first * len + spoiled[one].at] = spoiled[one].value;
                    runs[other * len + spoiled[two].at] = spoiled[two].value;
                    for (k = 0; k < LENGTH(numbers); k++) {
                        const uint64_t number = numbers[k];
                        uint64_t row = TA_DONE;
                        ta_figures_answer found;

                        if (number > 1 && j < number && j < 3) {
                            row = TA_BAD_RUNS;
                        }
                        if (number > 3) {
                            row = TA_SLICE_SHORT;
                        }
                        if (other < number && spoiled[two].row != TA_DONE) {
                            row = spoiled[two].row;
                        }
                        if (first < number && spoiled[one].row != TA_DONE) {
                            row = spoiled[one].row;
                        }
                        if (number == 0 || number > TA_MAX_RUNS) {
                            row = TA_BAD_RUNS;
                        }
                        found = figures_of(runs_len + BEHIND, number);
                        wrong += row == TA_DONE ? !is_of_runs(found, number)
                            : !is_refused(found, row);
                    }
                }
            }
        }
    }
    CHECK(wrong == 0);
    /* sixteen that would pass */
    lend_runs();
    for (k = 0; k <= TA_MAX_RUNS; k++) {
        put_card(5, 4);
    }
    CHECK(is_refused(figures_of(runs_len, TA_MAX_RUNS + 1), TA_BAD_RUNS));
    CHECK(is_refused(figures_of(0, TA_MAX_RUNS + 1), TA_BAD_RUNS));
    CHECK(is_refused(figures_of(runs_len, 0), TA_BAD_RUNS));
    CHECK(is_refused(figures_of(0, 0), TA_BAD_RUNS));
    CHECK(is_refused(figures_of(0, 1), TA_SLICE_SHORT));
    CHECK(is_of_runs(figures_of(runs_len, TA_MAX_RUNS), TA_MAX_RUNS));
}

/* References that differ on one axis, or are of equal boxes, at every place. */
static void references_of_runs(void)
{
    static const uint64_t others[][3] = {
        {5, 6, 9}, {3, 6, 9}, {4, 7, 9}, {4, 5, 9}, {4, 6, 10}, {4, 6, 8},
        {6, 4, 9}, {9, 6, 4}, {4, 9, 6}, {12, 2, 9}, {216, 1, 1}
    };
    uint64_t number;
    uint64_t place;
    uint64_t i;
    size_t k;

    for (number = 2; number <= TA_MAX_RUNS; number++) {
        int wrong = 0;

        for (place = 0; place < number; place++) {
            for (k = 0; k < LENGTH(others); k++) {
                const uint64_t *other = others[k];

                lend_runs();
                for (i = 0; i < number; i++) {
                    if (i == place) {
                        put_run(other[0], other[1], other[2], 1, 0);
                    } else {
                        put_run(4, 6, 9, 1, 0);
                    }
                }
                wrong += !is_refused(figures_of(runs_len, number), TA_BAD_RUNS);
                wrong += place > 0 && !is_of_runs(figures_of(runs_len, place), place);
                wrong += !is_of_runs(figures_of(runs_len, 1), 1);
            }
        }
        CHECK(wrong == 0);
    }
}

/* Every length: row 1 up to the end of the last archive asked for. What stands
   behind that makes no difference. */
static void lengths_of_runs(void)
{
    static const uint64_t capacities[3] = {5, 2, 3};
    uint64_t number;
    size_t end = 0;
    size_t len;

    for (number = 1; number <= 3; number++) {
        int wrong = 0;
        ta_figures_answer plain;

        lend_runs();
        put_card(capacities[0], 3);
        put_card(capacities[1], 2);
        put_card(capacities[2], 0);
        end += TA_WORDS(capacities[number - 1]);
        for (len = 0; len <= runs_len + 9; len++) {
            const ta_figures_answer found = figures_of(len, number);

            wrong += len < end ? !is_refused(found, TA_SLICE_SHORT) : !is_of_runs(found, number);
        }
        CHECK(wrong == 0);
        /* marks are no fourth archive, and fewer than 8 of them are too few words */
        CHECK(is_refused(figures_of(runs_len + 7, 4), TA_SLICE_SHORT));
        CHECK(is_refused(figures_of(runs_len + 8, 4), TA_BAD_HEADER));
        plain = figures_of(end, number);
        fill_by(UINT64_MAX, runs + end, 100);
        CHECK(is_figures(figures_of(end + 100, number), plain.sum, plain.least, plain.greatest,
                         plain.median, plain.share, plain.audits));
        fill_by(0, runs + end, 100);
        CHECK(is_figures(figures_of(end + 100, number), plain.sum, plain.least, plain.greatest,
                         plain.median, plain.share, plain.audits));
    }
}

/* Random numbers of archives, capacities and totals, some of them equal. */
static void random_runs(void)
{
    int wrong = 0;
    int even = 0;
    int i;

    for (i = 0; i < 3000; i++) {
        const uint64_t number = 1 + next_random() % TA_MAX_RUNS;
        uint64_t r[3];
        uint64_t total = 0;
        uint64_t k;
        ta_figures_answer found;

        for (k = 0; k < 3; k++) {
            r[k] = 1 + next_random() % (next_random() % 2 == 0 ? 9 : TA_MAX_REFERENCE);
        }
        runs_len = 0;
        for (k = 0; k < number; k++) {
            if (next_random() % 3 > 0) {
                total = next_random() % (r[0] * r[1] * r[2] + 1);
            }
            put_run(r[0], r[1], r[2], 1 + next_random() % (k == 0 ? 30 : 5), total);
        }
        found = figures_of(runs_len, number);
        wrong += !is_of_runs(found, number);
        even += number % 2 == 0 && found.median != found.least && found.median != found.greatest;
        wrong += !is_refused(figures_of(runs_len - 1, number), TA_SLICE_SHORT);
    }
    CHECK(wrong == 0);
    CHECK(even > 500);
    CHECK(runs_refused == 0);
}

/* Fifteen archives of up to 512 random trials; then one word wrong at a time. */
static void runs_of_512(void)
{
    const size_t len = TA_WORDS(TA_MAX_CAPACITY);
    const uint64_t *r = many_reference;
    uint64_t place;

    lend_runs();
    draw_trials(TA_MAX_CAPACITY);
    for (place = 0; place < TA_MAX_RUNS; place++) {
        const size_t count = TA_MAX_CAPACITY - (place % 4 == 3 ? 9 * place : 0);

        put_run(r[0], r[1], r[2], TA_MAX_CAPACITY, 0);
        CHECK(is_grid(ta_insert_grid(runs + place * len, len, many_trials[0], 4 * count),
                      TA_DONE, count, TA_DONE));
        /* the next one has another trial in place of this */
        many_trials[place][1] = many_trials[place][2] = many_trials[place][3] = place * place;
    }
    CHECK(is_of_runs(figures_of(runs_len, TA_MAX_RUNS), TA_MAX_RUNS));
    CHECK(figures_of(runs_len, TA_MAX_RUNS).audits == 1);
    for (place = 0; place < TA_MAX_RUNS; place++) {
        uint64_t *const run = runs + place * len;
        uint64_t *const kept = run + TA_WORDS(1 + 30 * place) - 1;
        const uint64_t own = *kept;
        const uint64_t last = run[len - 1];

        *kept = own == 0 ? 1 : own - 1;
        CHECK(figures_of(runs_len, TA_MAX_RUNS).audits == 0);
        *kept = own;
        run[TA_FRONT + 1] = 1;
        CHECK(is_refused(figures_of(runs_len, TA_MAX_RUNS), TA_BAD_HEADER));
        run[TA_FRONT + 1] = 0;
        run[len - 1] = UINT64_MAX;
        CHECK(is_refused(figures_of(runs_len, TA_MAX_RUNS), TA_BAD_RECORDS));
        run[len - 1] = last;
    }
    CHECK(is_refused(figures_of(runs_len - 1, TA_MAX_RUNS), TA_SLICE_SHORT));
    CHECK(is_of_runs(figures_of(runs_len, TA_MAX_RUNS), TA_MAX_RUNS));
}

/* Archives at the beginning of readable memory and at its end. Words behind the
   last archive are lent here although they cannot be read, and so is a whole slice
   to a call that is turned down by its number: neither is read. How many answers
   are wrong. */
static int wrong_between(uint64_t *first, uint64_t *end, size_t unreadable)
{
    int wrong = 0;
    uint64_t number;
    size_t len;

    lend_runs();
    for (number = 1; number <= TA_MAX_RUNS; number++) {
        const uint64_t capacity = 4 + number;

        put_card(capacity, number % 5);
        memcpy(first, runs, runs_len * sizeof *runs);
        wrong += !is_of_runs(ta_figures(first, runs_len, number), number);
        for (len = runs_len - TA_WORDS(capacity); len < runs_len; len++) {
            memcpy(end - len, runs, len * sizeof *runs);
            wrong += !is_refused(ta_figures(end - len, len, number), TA_SLICE_SHORT);
        }
        memcpy(end - runs_len, runs, runs_len * sizeof *runs);
        wrong += !is_of_runs(ta_figures(end - runs_len, runs_len, number), number);
        wrong += !is_of_runs(ta_figures(end - runs_len, runs_len + 1, number), number);
        wrong += !is_of_runs(ta_figures(end - runs_len, runs_len + unreadable, number), number);
        wrong += !is_refused(ta_figures(end, 0, number), TA_SLICE_SHORT);
    }
    for (len = 0; len <= unreadable; len += unreadable / 4) {
        wrong += !is_refused(ta_figures(end, len, 0), TA_BAD_RUNS);
        wrong += !is_refused(ta_figures(end, len, TA_MAX_RUNS + 1), TA_BAD_RUNS);
        wrong += !is_refused(ta_figures(end, len, ((uint64_t)1 << 32) + 1), TA_BAD_RUNS);
        wrong += !is_refused(ta_figures(end, len, UINT64_MAX), TA_BAD_RUNS);
    }
    return wrong + runs_refused;
}

/* Reading a word outside of the archives would end the program: a child of it
   makes these calls, between two pages that cannot be read. */
static void edges_of_memory(void)
{
    const size_t page = (size_t)sysconf(_SC_PAGESIZE);
    const size_t bytes = 4 * page;
    uint8_t *const base = mmap(NULL, page + bytes + page, PROT_READ | PROT_WRITE,
                               MAP_PRIVATE | MAP_ANONYMOUS, -1, 0);
    int status = -1;
    pid_t child;

    CHECK(base != MAP_FAILED);
    if (base == MAP_FAILED) {
        return;
    }
    CHECK(mprotect(base, page, PROT_NONE) == 0);
    CHECK(mprotect(base + page + bytes, page, PROT_NONE) == 0);
    fflush(stdout);
    child = fork();
    if (child == 0) {
        _exit(wrong_between((uint64_t *)(void *)(base + page),
                            (uint64_t *)(void *)(base + page + bytes),
                            page / sizeof(uint64_t)) != 0);
    }
    CHECK(child > 0 && waitpid(child, &status, 0) == child);
    /* neither a wrong answer nor a signal */
    CHECK(status == 0);
    CHECK(munmap(base, page + bytes + page) == 0);
}

/* ---- the refusals, by their numbers: zeros for all else, memory as before */

/* Rows 1 to 3, given by every call that reads an archive. */
static void check_row(uint64_t row, size_t len)
{
    remember(before);
    fill(log_memory, LENGTH(log_memory));
    CHECK(ta_insert(words, len, 9, 0, 0, 0) == row);
    CHECK(ta_remove(words, len, 1) == row);
    CHECK(is_least(ta_least(words, len, TA_TIE_LOWEST), row, 0, 0));
    CHECK(is_answer(ta_reduce(words, len, 0, TA_TIE_LOWEST, log_words, LOG), row, 0));
    CHECK(is_answer(ta_joint(words, len, 1, 2), row, 0));
    CHECK(is_answer(ta_gain(words, len, 0, 0, 0), row, 0));
    CHECK(is_grid(ta_insert_grid(words, len, log_words, 0), row, 0, 0));
    CHECK(is_change(ta_replace_effect(words, len, 1, 0, 0, 0), row, 0));
    CHECK(is_answer(ta_share(words, len), row, 0));
    CHECK(is_answer(ta_audit(words, len), row, 0));
    CHECK(is_answer(write_report(len, OUT), row, 0));
    check_log(0);
    check_out(0);
    CHECK(is_answer(write_card(len, OUT), row, 0));
    check_out(0);
    /* before row 16 */
    CHECK(is_answer(write_report(len, 0), row, 0));
    check_out(0);
    CHECK(is_answer(write_card(len, 0), row, 0));
    check_out(0);
    /* before rows 22 and 1 of the second slice */
    CHECK(rearrange(len, TA_ORDER_YZX, LENT) == row);
    CHECK(rearrange(len, 6, WORDS) == row);
    CHECK(rearrange(len, UINT64_MAX, 0) == row);
    /* before those of a second archive, and after row 23 of the number */
    CHECK(is_refused(ta_figures(words, len, 1), row));
    CHECK(is_refused(ta_figures(words, len, 2), row));
    CHECK(is_refused(ta_figures(words, len, TA_MAX_RUNS), row));
    CHECK(is_refused(ta_figures(words, len, 0), TA_BAD_RUNS));
    CHECK(is_refused(ta_figures(words, len, TA_MAX_RUNS + 1), TA_BAD_RUNS));
    check_untouched(before);
}

static void rows_1_to_3(void)
{
    insert_card(4);
    check_row(TA_SLICE_SHORT, 0);
    check_row(TA_SLICE_SHORT, 7);
    check_row(TA_SLICE_SHORT, WORDS - 1);
    words[TA_CAPACITY] = TA_MAX_CAPACITY + 1;
    check_row(TA_BAD_HEADER, LENT);
    words[TA_CAPACITY] = 8;
    /* the bytes of so many lines are 0 in 64 bits */
    words[TA_COUNT] = UINT64_MAX;
    check_row(TA_BAD_HEADER, LENT);
    words[TA_COUNT] = 4;
    words[TA_TOTAL] = 65;
    check_row(TA_BAD_HEADER, LENT);
    check_row(TA_BAD_HEADER, 8);
    check_row(TA_SLICE_SHORT, 7);
    words[TA_TOTAL] = 21;
    words[TA_FRONT] = 5;
    check_row(TA_BAD_HEADER, LENT);
    words[TA_FRONT] = 4;
    words[TA_FRONT + 1] = 1;
    check_row(TA_BAD_HEADER, LENT);
    words[TA_FRONT + 1] = 0;
    words[WORDS - 1] = 1;
    check_row(TA_BAD_RECORDS, LENT);
    check_row(TA_SLICE_SHORT, WORDS - 1);
}

static void rows_4_to_10(void)
{
    insert_card(4);
    remember(before);
    CHECK(ta_start(words, 0, 4, 4, 4, TA_MAX_CAPACITY + 1) == TA_BAD_START);
    CHECK(ta_start(words, LENT, 4, 0, 4, 8) == TA_BAD_START);
    CHECK(ta_start(words, WORDS - 1, 4, 4, 4, 8) == TA_SLICE_SHORT);
    CHECK(insert(0, TA_MAX_COORDINATE + 1, 5, 5) == TA_BAD_NUMBER);
    CHECK(insert(TA_MAX_NUMBER + 1, 0, 0, 0) == TA_BAD_NUMBER);
    CHECK(insert(1, 0, 0, TA_MAX_COORDINATE + 1) == TA_BAD_COORDINATE);
    CHECK(is_answer(gain(0, TA_MAX_COORDINATE + 1, 0), TA_BAD_COORDINATE, 0));
    CHECK(insert(1, 0, 0, 0) == TA_NUMBER_HELD);
    CHECK(remove_trial(5) == TA_NOT_HELD);
    CHECK(is_answer(joint(5, 5), TA_NOT_HELD, 0));
    CHECK(is_answer(joint(1, 5), TA_NOT_HELD, 0));
    CHECK(is_answer(joint(1, 1), TA_SAME_NUMBER, 0));
    check_untouched(before);
}

static void rows_11_to_13(void)
{
    insert_card(4);
    words[TA_TOTAL] = 20;
    remember(before);
    CHECK(is_answer(audit(), TA_DONE, 0));
    CHECK(is_answer(reduce(5, TA_TIE_LOWEST, 0), TA_ABOVE_COUNT, 0));
    check_log(0);
    CHECK(is_answer(reduce(0, TA_TIE_LOWEST, LOG - 1), TA_LOG_SHORT, 0));
    check_log(0);
    CHECK(is_answer(reduce(0, TA_TIE_LOWEST, LOG), TA_MISCOUNT, 0));
    check_log(0);
    CHECK(is_answer(reduce(4, TA_TIE_LOWEST, 0), TA_MISCOUNT, 0));
    check_log(0);
    check_untouched(before);

    words[TA_TOTAL] = 0;
    remember(before);
    CHECK(remove_trial(4) == TA_MISCOUNT);
    check_untouched(before);
    words[TA_TOTAL] = 64;
    remember(before);
    CHECK(insert(5, 0, 0, 0) == TA_MISCOUNT);
    check_untouched(before);
}

static void rows_15_and_16(void)
{
    insert_card(4);
    remember(before);
    CHECK(is_answer(write_report(LENT, REPORT - 1), TA_OUTPUT_SHORT, 0));
    check_out(0);
    CHECK(is_load(load_first(LENT, 0), TA_CARD_FORM, 1, 0));
    CHECK(is_load(load_first(LENT, CARD - 1), TA_CARD_FORM, 5, 0));
    CHECK(is_load(load_first(WORDS - 1, CARD), TA_SLICE_SHORT, 1, 0));
    CHECK(check_first(CARD - 1) == TA_CARD_FORM * 65536 + 5);
    CHECK(TA_CARD_REFUSAL(check_first(0)) == TA_CARD_FORM);
    CHECK(TA_CARD_LINE(check_first(0)) == 1);
    check_untouched(before);
}

/* One trial on this coordinate of an axis, under a reference equal on all of
   them: held as given, with the cells that it dominates. */
static void coordinate_held(uint64_t reference, size_t axis, uint64_t coordinate)
{
    uint64_t at[3] = {0, 0, 0};
    uint64_t cells = coordinate < reference ? (reference - coordinate) * reference * reference : 0;

    at[axis] = coordinate;
    start(reference, reference, reference);
    CHECK(is_answer(gain(at[0], at[1], at[2]), TA_DONE, cells));
    CHECK(insert(1, at[0], at[1], at[2]) == TA_DONE);
    CHECK(words[TA_COUNT] == 1);
    CHECK(words[TA_TOTAL] == cells);
    CHECK(words[TA_RECORDS + 1 + axis] == coordinate);
    CHECK(contribution(1) == cells);
    CHECK(is_least(least(TA_TIE_LOWEST), TA_DONE, 1, cells));
    CHECK(is_answer(audit(), TA_DONE, 1));
    /* row 3, by the limit alone */
    words[TA_RECORDS + 1 + axis] = TA_MAX_COORDINATE + 1;
    CHECK(is_answer(audit(), TA_BAD_RECORDS, 0));
    words[TA_RECORDS + 1 + axis] = TA_MAX_COORDINATE;
    CHECK(audit().refusal == TA_DONE);
}

/* Both sides of the reference and of the limit, one axis at a time. */
static void coordinates_at_their_limits(void)
{
    static const uint64_t references[] = {1, 4, TA_MAX_REFERENCE - 1, TA_MAX_REFERENCE};
    size_t axis;
    size_t i;

    for (axis = 0; axis < 3; axis++) {
        uint64_t past[3] = {0, 0, 0};

        past[axis] = TA_MAX_COORDINATE + 1;
        for (i = 0; i < LENGTH(references); i++) {
            uint64_t reference = references[i];

            coordinate_held(reference, axis, reference - 1);
            coordinate_held(reference, axis, reference);
            if (reference < TA_MAX_COORDINATE) {
                coordinate_held(reference, axis, reference + 1);
            }
            coordinate_held(reference, axis, TA_MAX_COORDINATE);
            start(reference, reference, reference);
            remember(before);
            CHECK(is_answer(gain(past[0], past[1], past[2]), TA_BAD_COORDINATE, 0));
            CHECK(insert(1, past[0], past[1], past[2]) == TA_BAD_COORDINATE);
            check_untouched(before);
        }
    }
}

/* ---- numbers as C passes them */

/* Numbers that 32 bits, or any fewer than 64, would not tell from small ones,
   and those that negative ones become: too large on every axis. */
static void numbers_too_wide(void)
{
    static const uint64_t wide[] = {
        (uint64_t)1 << 32, ((uint64_t)1 << 32) + 1, ((uint64_t)1 << 32) + 4, (uint64_t)1 << 40,
        ((uint64_t)1 << 48) + 1, (uint64_t)1 << 63, ((uint64_t)1 << 63) + 1, UINT64_MAX,
        (uint64_t)-1, (uint64_t)-4, UINT32_MAX, (uint64_t)INT64_MAX
    };
    size_t axis;
    size_t i;

    insert_card(4);
    remember(before);
    for (axis = 0; axis < 3; axis++) {
        for (i = 0; i < LENGTH(wide); i++) {
            uint64_t at[3] = {1, 1, 1};

            at[axis] = wide[i];
            CHECK(ta_start(words, LENT, at[0], at[1], at[2], 8) == TA_BAD_START);
            CHECK(insert(0, at[0], at[1], at[2]) == TA_BAD_NUMBER);
            CHECK(insert(1, at[0], at[1], at[2]) == TA_BAD_COORDINATE);
            CHECK(insert(7, at[0], at[1], at[2]) == TA_BAD_COORDINATE);
            CHECK(is_answer(gain(at[0], at[1], at[2]), TA_BAD_COORDINATE, 0));
            CHECK(is_change(replace_effect(1, at[0], at[1], at[2]), TA_BAD_COORDINATE, 0));
            CHECK(rearrange(LENT, wide[i], LENT) == TA_BAD_ORDER);
            CHECK(is_refused(figures(wide[i]), TA_BAD_RUNS));
            check_untouched(before);
        }
    }
}

/* The header's words on negative numbers and on fractions. */
static void numbers_converted(void)
{
    int negative = -1;
    double fraction = 2.9;
    double near_zero = -0.9;

    insert_card(4);
    remember(before);
    CHECK(ta_start(words, LENT, negative, 4, 4, 8) == TA_BAD_START);
    CHECK(ta_start(words, LENT, 4, 4, 4, negative) == TA_BAD_START);
    CHECK(ta_insert(words, LENT, negative, 1, 1, 1) == TA_BAD_NUMBER);
    CHECK(ta_insert(words, LENT, 7, negative, 1, 1) == TA_BAD_COORDINATE);
    CHECK(ta_insert(words, LENT, 7, 1, negative, 1) == TA_BAD_COORDINATE);
    CHECK(ta_insert(words, LENT, 7, 1, 1, negative) == TA_BAD_COORDINATE);
    CHECK(is_answer(ta_gain(words, LENT, 1, negative, 1), TA_BAD_COORDINATE, 0));
    CHECK(ta_remove(words, LENT, negative) == TA_NOT_HELD);
    CHECK(is_answer(ta_joint(words, LENT, 1, negative), TA_NOT_HELD, 0));
    CHECK(is_answer(ta_reduce(words, LENT, negative, TA_TIE_LOWEST, log_words, LOG), TA_ABOVE_COUNT, 0));
    CHECK(is_least(ta_least(words, LENT, negative), TA_BAD_RULE, 0, 0));
    CHECK(ta_rearrange(words, LENT, negative, second, LENT) == TA_BAD_ORDER);
    CHECK(ta_rearrange(words, LENT, near_zero, second, LENT) == TA_DONE);
    CHECK(memcmp(second, words, WORDS * sizeof *words) == 0);
    CHECK(is_refused(ta_figures(words, LENT, negative), TA_BAD_RUNS));
    CHECK(is_refused(ta_figures(words, LENT, near_zero), TA_BAD_RUNS));
    CHECK(is_refused(ta_figures(words, LENT, fraction), TA_SLICE_SHORT));
    CHECK(is_figures(ta_figures(words, LENT, 1.9), 21, 21, 21, 21, 328125, 1));
    check_untouched(before);

    CHECK(ta_insert(words, LENT, 7, fraction, near_zero, 3.0) == TA_DONE);
    CHECK(words[TA_RECORDS + 3 * TA_RECORD_WORDS] == 7);
    CHECK(words[TA_RECORDS + 3 * TA_RECORD_WORDS + 1] == 2);
    CHECK(words[TA_RECORDS + 3 * TA_RECORD_WORDS + 2] == 0);
    CHECK(words[TA_RECORDS + 3 * TA_RECORD_WORDS + 3] == 3);
}

/* ---- volumes in doubles */

enum { MOST_DOUBLES = 3 * TA_MAX_POINTS, DOUBLES = MOST_DOUBLES + 3 };

static double doubles_memory[GUARD + DOUBLES + GUARD];
static double *const doubles = doubles_memory + GUARD;

static uint64_t bits_of(double number)
{
    uint64_t bits;

    memcpy(&bits, &number, sizeof bits);
    return bits;
}

static double double_of(uint64_t bits)
{
    double number;

    memcpy(&number, &bits, sizeof number);
    return number;
}

static ta_corner corner(double x, double y, double z)
{
    ta_corner reference;

    reference.x = x;
    reference.y = y;
    reference.z = z;
    return reference;
}

/* By its bits: plus zero is not minus zero. */
static int is_volume(ta_volume_answer answer, uint64_t refusal, double volume)
{
    return answer.refusal == refusal && bits_of(answer.volume) == bits_of(volume);
}

/* All doubles, guards included, are this one. */
static void fill_doubles(double number)
{
    size_t i;

    for (i = 0; i < LENGTH(doubles_memory); i++) {
        doubles_memory[i] = number;
    }
}

/* The volume of the first doubles, which are only read. */
static ta_volume_answer volume(ta_corner reference, size_t len)
{
    static double copy[LENGTH(doubles_memory)];
    ta_volume_answer answer;

    memcpy(copy, doubles_memory, sizeof copy);
    answer = ta_volume(reference, doubles, len);
    CHECK(memcmp(copy, doubles_memory, sizeof copy) == 0);
    return answer;
}

/* The card's points, and one more. */
static void lend_card_points(double x, double y, double z)
{
    static const double card_points[] = {1, 2, 2, 2, 1, 2, 2, 2, 1, 1, 1, 3};

    fill_doubles(7);
    memcpy(doubles, card_points, sizeof card_points);
    doubles[12] = x;
    doubles[13] = y;
    doubles[14] = z;
}

static void volumes(void)
{
    const double most = TA_MAX_REFERENCE;
    const double largest = 1152921504606846976.0;
    size_t i;

    lend_card_points(0, 0, 0);
    CHECK(is_volume(volume(corner(4, 4, 4), 12), TA_DONE, 21));
    CHECK(is_volume(volume(corner(4, 4, 4), 9), TA_DONE, 20));
    CHECK(is_volume(volume(corner(4, 4, 4), 15), TA_DONE, 64));
    CHECK(is_volume(volume(corner(4, 4, 4), 0), TA_DONE, 0));
    CHECK(is_volume(volume(corner(most, most, most), 0), TA_DONE, 0));
    CHECK(is_volume(volume(corner(most, most, most), 15), TA_DONE, largest));
    /* x, y and z */
    CHECK(is_volume(volume(corner(3, 5, 7), 3), TA_DONE, 30));
    /* at the reference or past it on one axis: nothing more */
    for (i = 0; i < 3; i++) {
        lend_card_points(0, 0, 0);
        doubles[12 + i] = 4;
        CHECK(is_volume(volume(corner(4, 4, 4), 15), TA_DONE, 21));
        doubles[12 + i] = 5;
        CHECK(is_volume(volume(corner(4, 4, 4), 15), TA_DONE, 21));
        doubles[12 + i] = most;
        CHECK(is_volume(volume(corner(4, 4, 4), 15), TA_DONE, 21));
    }
    /* minus zero */
    lend_card_points(-0.0, -0.0, -0.0);
    CHECK(is_volume(volume(corner(4, 4, 4), 15), TA_DONE, 64));
    lend_card_points(3, -0.0, 0);
    CHECK(is_volume(volume(corner(4, 4, 4), 15), TA_DONE, 29));
    lend_card_points(-0.0, 4, -0.0);
    CHECK(is_volume(volume(corner(4, 4, 4), 15), TA_DONE, 21));
    /* 1,152,909,409,998,864,375 cells in one layer, and in two that a point past
       the reference on x parts; a fused step would give the first sum again */
    fill_doubles(1);
    doubles[1] = 9;
    CHECK(is_volume(volume(corner(most, most, most), 3), TA_DONE, 1152909409998864384.0));
    doubles[3] = most;
    doubles[5] = 8;
    CHECK(is_volume(volume(corner(most, most, most), 6), TA_DONE, 1152909409998864256.0));
    /* past it on z as well: one layer */
    doubles[5] = most;
    CHECK(is_volume(volume(corner(most, most, most), 6), TA_DONE, 1152909409998864384.0));
}

static void rows_17_19_and_20(void)
{
    const double most = TA_MAX_COORDINATE;
    const double cells = 64;
    size_t i;

    for (i = 0; i < 2; i++) {
        /* good ones first, then bad ones only: the length decides before them */
        fill_doubles(i == 0 ? 0.0 : 0.5);
        CHECK(is_volume(volume(corner(4, 4, 4), 1), TA_BAD_LENGTH, 0));
        CHECK(is_volume(volume(corner(4, 4, 4), 2), TA_BAD_LENGTH, 0));
        CHECK(is_volume(volume(corner(4, 4, 4), 4), TA_BAD_LENGTH, 0));
        CHECK(is_volume(volume(corner(4, 0, 4), 5), TA_BAD_LENGTH, 0));
        CHECK(is_volume(volume(corner(4, 4, 4), MOST_DOUBLES - 1), TA_BAD_LENGTH, 0));
        CHECK(is_volume(volume(corner(4, 4, 4), MOST_DOUBLES + 1), TA_BAD_LENGTH, 0));
        CHECK(is_volume(volume(corner(4, 4, 4), MOST_DOUBLES + 2), TA_BAD_LENGTH, 0));
        CHECK(is_volume(volume(corner(4, 4, 4), MOST_DOUBLES + 3), TA_TOO_MANY_POINTS, 0));
        CHECK(is_volume(volume(corner(0, 4, 4), MOST_DOUBLES + 3), TA_TOO_MANY_POINTS, 0));
        CHECK(is_volume(volume(corner(4, 4, 4), MOST_DOUBLES),
                        i == 0 ? TA_DONE : TA_BAD_DOUBLE, i == 0 ? cells : 0));
        CHECK(is_volume(volume(corner(0, 4, 4), MOST_DOUBLES), TA_BAD_DOUBLE, 0));
        CHECK(is_volume(volume(corner(4, 4, 4), 3),
                        i == 0 ? TA_DONE : TA_BAD_DOUBLE, i == 0 ? cells : 0));
        CHECK(is_volume(volume(corner(4, 4, 4), 0), TA_DONE, 0));
    }
    /* one bad one among 513 points, and among 512 */
    fill_doubles(0);
    doubles[MOST_DOUBLES - 1] = -1;
    CHECK(is_volume(volume(corner(4, 4, 4), MOST_DOUBLES + 3), TA_TOO_MANY_POINTS, 0));
    CHECK(is_volume(volume(corner(4, 4, 4), MOST_DOUBLES), TA_BAD_DOUBLE, 0));
    CHECK(is_volume(volume(corner(4, 4, 4), MOST_DOUBLES - 3), TA_DONE, cells));
    /* the limits of the reference: a zero of either sign is below them */
    CHECK(is_volume(volume(corner(1, 1, 1), 3), TA_DONE, 1));
    CHECK(is_volume(volume(corner(0.0, 1, 1), 0), TA_BAD_DOUBLE, 0));
    CHECK(is_volume(volume(corner(1, -0.0, 1), 0), TA_BAD_DOUBLE, 0));
    CHECK(is_volume(volume(corner(1, 1, -0.0), 3), TA_BAD_DOUBLE, 0));
    CHECK(is_volume(volume(corner(most, 1, 1), 3), TA_DONE, most));
    CHECK(is_volume(volume(corner(1, most + 1, 1), 3), TA_BAD_DOUBLE, 0));
    /* those of a point */
    doubles[1] = most;
    CHECK(is_volume(volume(corner(4, 4, 4), 3), TA_DONE, 0));
    doubles[1] = most + 1;
    CHECK(is_volume(volume(corner(4, 4, 4), 3), TA_BAD_DOUBLE, 0));
}

/* 512 points near one plane, none of them at 0. */
static void lend_many(void)
{
    int i;

    fill_doubles(7);
    for (i = 0; i < TA_MAX_POINTS; i++) {
        int x = 1 + i * 331 % 1000;
        int y = 1 + i * 577 % 1000;

        doubles[3 * i] = x;
        doubles[3 * i + 1] = y;
        doubles[3 * i + 2] = 3000 - x - y;
    }
}

/* This double is refused in every place of the reference, with points and
   without, and in every place of 512 points. */
static void check_bad(double bad)
{
    const ta_corner good = corner(4000, 4000, 4000);
    int wrong = 0;
    size_t i;

    for (i = 0; i <= MOST_DOUBLES; i += MOST_DOUBLES / 2) {
        CHECK(is_volume(volume(corner(bad, 4000, 4000), i), TA_BAD_DOUBLE, 0));
        CHECK(is_volume(volume(corner(4000, bad, 4000), i), TA_BAD_DOUBLE, 0));
        CHECK(is_volume(volume(corner(4000, 4000, bad), i), TA_BAD_DOUBLE, 0));
    }
    for (i = 0; i < MOST_DOUBLES; i++) {
        double own = doubles[i];

        doubles[i] = bad;
        wrong += !is_volume(ta_volume(good, doubles, MOST_DOUBLES), TA_BAD_DOUBLE, 0);
        wrong += bits_of(doubles[i]) != bits_of(bad);
        doubles[i] = own;
    }
    CHECK(wrong == 0);
}

static void bad_doubles(void)
{
    static const uint64_t patterns[] = {
        /* not numbers: quiet, then signalling */
        0x7ff8000000000000u, 0x7ff8000000000001u, 0x7fffffffffffffffu,
        0x7ff0000000000001u, 0x7ff4000000000000u, 0x7ff7ffffffffffffu,
        /* infinite */
        0x7ff0000000000000u,
        /* subnormal */
        0x0000000000000001u, 0x0000000000000004u, 0x0000000000100000u,
        0x0008000000000000u, 0x000fffffffffffffu,
        /* the smallest normal ones */
        0x0010000000000000u, 0x0010000000000001u
    };
    static const double sizes[] = {
        0.5, 1.5, 2.5, DBL_EPSILON, 1.0 - DBL_EPSILON / 2, 1.0 + DBL_EPSILON, 1048575.5,
        1048576.5, 1048576.0 + 1.0 / 4294967296.0, 1048577.0, 2097152.0, 2147483648.0,
        4294967296.0, 4294967300.0, 4503599627370495.5, 9007199254740992.0,
        9223372036854775808.0, 18446744073709551616.0, DBL_MAX
    };
    static const double negative[] = {-1, -2, -4, -TA_MAX_COORDINATE};
    const uint64_t sign = (uint64_t)1 << 63;
    ta_volume_answer plain;
    size_t i;

    lend_many();
    plain = volume(corner(4000, 4000, 4000), MOST_DOUBLES);
    CHECK(plain.refusal == TA_DONE);
    for (i = 0; i < LENGTH(patterns); i++) {
        check_bad(double_of(patterns[i]));
        check_bad(double_of(patterns[i] ^ sign));
    }
    for (i = 0; i < LENGTH(sizes); i++) {
        check_bad(sizes[i]);
        check_bad(-sizes[i]);
    }
    for (i = 0; i < LENGTH(negative); i++) {
        check_bad(negative[i]);
    }
    CHECK(is_volume(volume(corner(4000, 4000, 4000), MOST_DOUBLES), TA_DONE, plain.volume));
}

/* Minus zero in every place of 512 points is as zero there. */
static void minus_zeros(void)
{
    const ta_corner reference = corner(TA_MAX_REFERENCE, TA_MAX_REFERENCE, TA_MAX_REFERENCE);
    int wrong = 0;
    size_t i;

    lend_many();
    for (i = 0; i < MOST_DOUBLES; i++) {
        double own = doubles[i];
        ta_volume_answer plain;

        doubles[i] = 0.0;
        plain = ta_volume(reference, doubles, MOST_DOUBLES);
        doubles[i] = -0.0;
        wrong += plain.refusal != TA_DONE;
        wrong += !is_volume(ta_volume(reference, doubles, MOST_DOUBLES), TA_DONE, plain.volume);
        wrong += bits_of(doubles[i]) != bits_of(-0.0);
        doubles[i] = own;
    }
    CHECK(wrong == 0);
}

/* A set of points in whole numbers, and how many they are. */
static uint64_t points[TA_MAX_POINTS][3];
static size_t count_of_points;

static int by_x(const void *left, const void *right)
{
    const uint64_t *a = left;
    const uint64_t *b = right;

    return a[0] < b[0] ? -1 : a[0] > b[0];
}

/* The least z from this one on, of any point, or the reference's. */
static uint64_t next_layer(uint64_t from, uint64_t rz)
{
    size_t i;

    for (i = 0; i < count_of_points; i++) {
        if (points[i][2] >= from && points[i][2] < rz) {
            rz = points[i][2];
        }
    }
    return rz;
}

/* The cells of layer z that some point dominates: the points in ascending x,
   each column as high as the least y so far leaves it. */
static uint64_t layer_area(uint64_t z, uint64_t rx, uint64_t ry)
{
    uint64_t area = 0;
    uint64_t from = 0;
    uint64_t least_y = ry;
    size_t i;

    for (i = 0; i < count_of_points; i++) {
        if (points[i][2] > z || points[i][0] >= rx) {
            continue;
        }
        area += (points[i][0] - from) * (ry - least_y);
        from = points[i][0];
        if (points[i][1] < least_y) {
            least_y = points[i][1];
        }
    }
    return area + (rx - from) * (ry - least_y);
}

/* The sum as document 02 has it, and the cells that it is meant to be. Two
   steps, each rounded: bench/common.sh compiles without fused ones. */
static double layers_added(const uint64_t *reference, wide *cells)
{
    const uint64_t rz = reference[2];
    uint64_t z = next_layer(0, rz);
    double sum = 0;

    *cells = 0;
    while (z < rz) {
        uint64_t next = next_layer(z + 1, rz);
        uint64_t area = layer_area(z, reference[0], reference[1]);
        double product = (double)area * (double)(next - z);

        sum = sum + product;
        *cells += (wide)area * (next - z);
        z = next;
    }
    return sum;
}

/* Random points: some with z's that they share, some at the reference or past
   it. */
static void draw_points(const uint64_t *reference, size_t count)
{
    uint64_t levels = next_random() % 3 == 0 ? 1 + next_random() % 20 : TA_MAX_REFERENCE;
    uint64_t low = 1 + next_random() % 8;
    uint64_t past = next_random() % 3;
    size_t i;
    size_t axis;

    count_of_points = count;
    for (i = 0; i < count; i++) {
        for (axis = 0; axis < 3; axis++) {
            uint64_t further = TA_MAX_COORDINATE - reference[axis];

            points[i][axis] = next_random() % (reference[axis] / low + 1);
            if (next_random() % 10 < past) {
                points[i][axis] = reference[axis] + next_random() % (further + 1);
            }
        }
        if (levels < TA_MAX_REFERENCE) {
            points[i][2] = reference[2] / levels * (next_random() % levels);
        }
        if (i > 0 && next_random() % 20 == 0) {
            memcpy(points[i], points[next_random() % i], sizeof points[i]);
        }
    }
    fill_doubles(7);
    for (i = 0; i < count; i++) {
        for (axis = 0; axis < 3; axis++) {
            doubles[3 * i + axis] = (double)points[i][axis];
        }
    }
    qsort(points, count, sizeof points[0], by_x);
}

/* Against the sum and the count made here, in boxes below, at and above 2^53
   and up to the largest. */
static void random_volumes(void)
{
    static const uint64_t boxes[][3] = {
        {5, 6, 7}, {1000, 20, 300000}, {868246, 428767, 24195}, {1048576, 1048576, 8192},
        {786438, 13058, 877099}, {924115, 92039, 105899}, {1048576, 1048576, 8193},
        {1048575, 1048573, 1048571}, {1048576, 1048576, 1048576}, {1048576, 1048576, 1048576}
    };
    static const wide exact_up_to = (wide)1 << 53;
    int wrong = 0;
    int far = 0;
    int rounded = 0;
    int i;

    for (i = 0; i < 2000; i++) {
        const uint64_t *at = boxes[i % (int)LENGTH(boxes)];
        size_t count = i % 7 == 0 ? TA_MAX_POINTS - next_random() % 3 : next_random() % 60;
        ta_corner reference = corner((double)at[0], (double)at[1], (double)at[2]);
        ta_volume_answer found;
        wide cells;
        wide apart;
        double expected;

        draw_points(at, count);
        expected = layers_added(at, &cells);
        found = ta_volume(reference, doubles, 3 * count);
        wrong += !is_volume(found, TA_DONE, expected);
        apart = (wide)found.volume;
        apart = apart < cells ? cells - apart : apart - cells;
        rounded += apart != 0;
        far += apart > ((wide)at[0] * at[1] * at[2] <= exact_up_to ? 0 : 192 * count);
    }
    CHECK(wrong == 0);
    CHECK(far == 0);
    CHECK(rounded > 200);
}

/* The total of an archive of the same points, where the box is at most 2^53. */
static void volumes_of_archives(void)
{
    static const uint64_t reference[3] = {200000, 200000, 200000};
    static uint64_t many[TA_WORDS(TA_MAX_CAPACITY)];
    static uint64_t grid[TA_MAX_CAPACITY][4];
    size_t i;

    draw_points(reference, TA_MAX_POINTS);
    for (i = 0; i < TA_MAX_POINTS; i++) {
        grid[i][0] = i + 1;
        memcpy(grid[i] + 1, points[i], sizeof points[i]);
    }
    CHECK(ta_start(many, LENGTH(many), 200000, 200000, 200000, TA_MAX_CAPACITY) == TA_DONE);
    CHECK(is_grid(ta_insert_grid(many, LENGTH(many), grid[0], 4 * TA_MAX_CAPACITY),
                  TA_DONE, TA_MAX_CAPACITY, TA_DONE));
    CHECK(many[TA_TOTAL] > 0);
    CHECK(is_volume(volume(corner(200000, 200000, 200000), MOST_DOUBLES), TA_DONE,
                    (double)many[TA_TOTAL]));
}

/* ---- counts on four axes */

enum { MOST_COORDS = 4 * TA_MAX_POINTS, COORDS = MOST_COORDS + 8 };
enum { COUNTS = TA_COUNT4_WORDS(TA_MAX_POINTS) + BEHIND };

static uint64_t coords_memory[GUARD + COORDS + GUARD];
static uint64_t *const coords = coords_memory + GUARD;
static uint64_t counts_memory[GUARD + COUNTS + GUARD];
static uint64_t *const counts = counts_memory + GUARD;

/* All coordinates, guards included, are this one. */
static void fill_coords(uint64_t coordinate)
{
    size_t i;

    for (i = 0; i < LENGTH(coords_memory); i++) {
        coords_memory[i] = coordinate;
    }
}

/* Counts the first words as points, which are only read, into the first words of
   an output that holds marks. Only the total and the contributions, or nothing,
   are written. */
static uint64_t count4(const uint64_t *r, size_t len, size_t out_len)
{
    static uint64_t copy[LENGTH(coords_memory)];
    size_t written = 0;
    uint64_t refusal;

    fill(counts_memory, LENGTH(counts_memory));
    memcpy(copy, coords_memory, sizeof copy);
    refusal = ta_count4(r[0], r[1], r[2], r[3], coords, len, counts, out_len);
    CHECK(memcmp(copy, coords_memory, sizeof copy) == 0);
    if (refusal == TA_DONE) {
        written = TA_COUNT4_WORDS(len / 4);
    }
    CHECK(is_filled(counts_memory, GUARD));
    CHECK(is_filled(counts + written, LENGTH(counts_memory) - GUARD - written));
    return refusal;
}

/* The same, by four numbers, with an output of all words. */
static uint64_t count4_under(uint64_t rx, uint64_t ry, uint64_t rz, uint64_t rw, size_t len)
{
    const uint64_t r[4] = {rx, ry, rz, rw};

    return count4(r, len, COUNTS);
}

/* The card's points with 0 for w, and one more. */
static void lend_card_coords(uint64_t x, uint64_t y, uint64_t z, uint64_t w)
{
    static const uint64_t card_coords[] = {1, 2, 2, 0, 2, 1, 2, 0, 2, 2, 1, 0, 1, 1, 3, 0};

    fill_coords(7);
    memcpy(coords, card_coords, sizeof card_coords);
    coords[16] = x;
    coords[17] = y;
    coords[18] = z;
    coords[19] = w;
}

/* The first figures are these. */
static int are_counts(uint64_t total, uint64_t first, uint64_t second, uint64_t third,
                      uint64_t fourth)
{
    return counts[0] == total && counts[1] == first && counts[2] == second
        && counts[3] == third && counts[4] == fourth;
}

static void counts_on_four_axes(void)
{
    const uint64_t most = TA_MAX_REFERENCE4;
    const uint64_t largest = (uint64_t)1 << 60;
    size_t i;

    lend_card_coords(1, 2, 2, 0);
    CHECK(count4_under(4, 4, 4, 1, 16) == TA_DONE);
    CHECK(are_counts(21, 2, 2, 4, 1));
    CHECK(count4_under(4, 4, 4, 1, 12) == TA_DONE);
    CHECK(are_counts(20, 4, 4, 4, MARK));
    /* the first once more */
    CHECK(count4_under(4, 4, 4, 1, 20) == TA_DONE);
    CHECK(are_counts(21, 0, 2, 4, 1));
    CHECK(counts[5] == 0);
    /* no points */
    CHECK(count4_under(4, 4, 4, 1, 0) == TA_DONE);
    CHECK(are_counts(0, MARK, MARK, MARK, MARK));
    /* three of them raised on w: the fourth alone in two slices */
    coords[3] = coords[7] = coords[11] = 2;
    CHECK(count4_under(4, 4, 4, 5, 16) == TA_DONE);
    CHECK(are_counts(81, 6, 6, 12, 21));
    /* x, y, z and w */
    CHECK(count4_under(3, 5, 7, 11, 4) == TA_DONE);
    CHECK(are_counts(270, 270, MARK, MARK, MARK));
    /* at the reference or beyond it on one axis: nothing, and nothing taken */
    for (i = 0; i < 12; i++) {
        lend_card_coords(0, 0, 0, 0);
        coords[16 + i / 3] = i % 3 == 0 ? 4 : i % 3 == 1 ? 5 : most;
        CHECK(count4_under(4, 4, 4, 4, 20) == TA_DONE);
        CHECK(are_counts(84, 8, 8, 16, 4));
        CHECK(counts[5] == 0);
    }
    /* the largest box */
    lend_card_coords(0, 0, 0, 0);
    CHECK(count4_under(most, most, most, most, 20) == TA_DONE);
    CHECK(are_counts(largest, 0, 0, 0, 0));
    fill_coords(0);
    CHECK(count4_under(most, most, most, most, 4) == TA_DONE);
    CHECK(are_counts(largest, largest, MARK, MARK, MARK));
    CHECK(count4_under(most, most, most, most, MOST_COORDS) == TA_DONE);
    CHECK(are_counts(largest, 0, 0, 0, 0));
    coords[3] = coords[4] = coords[9] = coords[14] = 1;
    CHECK(count4_under(most, most, most, most, 16) == TA_DONE);
    CHECK(are_counts(largest - 1, most - 1, most - 1, most - 1, most - 1));
    fill_coords(most - 1);
    CHECK(count4_under(most, most, most, most, 4) == TA_DONE);
    CHECK(are_counts(1, 1, MARK, MARK, MARK));
    coords[4] = coords[5] = coords[6] = coords[7] = 0;
    CHECK(count4_under(most, most, most, most, 8) == TA_DONE);
    CHECK(are_counts(largest, 0, largest - 1, MARK, MARK));
    fill_coords(most);
    CHECK(count4_under(most, most, most, most, 4) == TA_DONE);
    CHECK(are_counts(0, 0, MARK, MARK, MARK));
}

/* Lengths, and outputs of exactly points + 1 words, one less and more. */
static void lengths_of_count4(void)
{
    static const uint64_t r[4] = {4, 4, 4, 4};
    size_t len;

    for (len = 0; len <= COORDS; len += len < 12 || len >= MOST_COORDS - 8 ? 1 : 300) {
        const size_t words_needed = TA_COUNT4_WORDS(len / 4);
        uint64_t row = len % 4 != 0 ? TA_BAD_LENGTH
            : len > MOST_COORDS ? TA_TOO_MANY_POINTS : TA_DONE;

        fill_coords(1);
        CHECK(count4(r, len, words_needed) == row);
        CHECK(row != TA_DONE || counts[0] == (len == 0 ? 0 : 81));
        CHECK(count4(r, len, words_needed + 1) == row);
        row = row == TA_DONE ? TA_OUTPUT_SHORT : row;
        CHECK(count4(r, len, words_needed - 1) == row);
        CHECK(count4(r, len, 0) == row);
    }
}

/* Every choice of rows that can meet at once: the first of 4, 17, 20, 6 and 16
   answers. */
static void rows_of_count4(void)
{
    static const uint64_t rows[5] = {
        TA_BAD_START, TA_BAD_LENGTH, TA_TOO_MANY_POINTS, TA_BAD_COORDINATE, TA_OUTPUT_SHORT
    };
    static const uint64_t high[] = {
        TA_MAX_REFERENCE4 + 1, ((uint64_t)1 << 32) + 1, (uint64_t)-1, (uint64_t)1 << 63
    };
    size_t axis;
    size_t i;
    unsigned met;

    for (axis = 0; axis < 4; axis++) {
        for (i = 0; i < LENGTH(high); i++) {
            for (met = 1; met < 32; met++) {
                size_t number = met & 4 ? TA_MAX_POINTS + 1 : axis + 1;
                size_t len = 4 * number + (met & 2 ? 1 + i % 3 : 0);
                uint64_t r[4] = {4, 4, 4, 4};
                size_t first = 0;

                while (!(met >> first & 1)) {
                    first++;
                }
                if (met & 1) {
                    r[axis] = met % 3 == 0 ? 0 : high[i];
                }
                fill_coords(1);
                if (met & 8) {
                    coords[i % 2 == 0 ? axis : len - 1 - axis % 4] = high[i];
                }
                CHECK(count4(r, len, TA_COUNT4_WORDS(number) - (met >> 4)) == rows[first]);
            }
        }
    }
}

/* Both sides of the limits, on each axis, and in every place of 512 points. */
static void limits_of_count4(void)
{
    static const uint64_t high[] = {
        TA_MAX_COORDINATE4 + 1, 65536, TA_MAX_COORDINATE, (uint64_t)1 << 32,
        ((uint64_t)1 << 32) + 1, ((uint64_t)1 << 63) + 1, UINT32_MAX, UINT64_MAX
    };
    const uint64_t most = TA_MAX_REFERENCE4;
    const uint64_t r[4] = {most, most, most, most};
    int negative = -1;
    int wrong = 0;
    size_t axis;
    size_t i;

    for (axis = 0; axis < 4; axis++) {
        uint64_t own[4] = {1, 1, 1, 1};

        fill_coords(0);
        CHECK(count4(own, 4, COUNTS) == TA_DONE);
        CHECK(are_counts(1, 1, MARK, MARK, MARK));
        coords[axis] = TA_MAX_COORDINATE4;
        CHECK(count4(own, 4, COUNTS) == TA_DONE);
        CHECK(are_counts(0, 0, MARK, MARK, MARK));
        own[axis] = most;
        CHECK(count4(own, 8, COUNTS) == TA_DONE);
        CHECK(are_counts(most, 0, most, MARK, MARK));
        own[axis] = 0;
        CHECK(count4(own, 8, COUNTS) == TA_BAD_START);
        CHECK(count4(own, 0, COUNTS) == TA_BAD_START);
        for (i = 0; i < LENGTH(high); i++) {
            own[axis] = high[i];
            CHECK(count4(own, 8, COUNTS) == TA_BAD_START);
            CHECK(count4(own, 0, COUNTS) == TA_BAD_START);
            coords[axis] = high[i];
            CHECK(count4(r, 8, COUNTS) == TA_BAD_COORDINATE);
            CHECK(count4(r, 4, 1) == TA_BAD_COORDINATE);
        }
    }
    fill_coords(most);
    fill(counts_memory, LENGTH(counts_memory));
    for (i = 0; i < MOST_COORDS; i++) {
        coords[i] = most + 1;
        wrong += ta_count4(most, most, most, most, coords, MOST_COORDS, counts, COUNTS)
            != TA_BAD_COORDINATE;
        wrong += coords[i] != most + 1;
        coords[i] = most;
    }
    CHECK(wrong == 0);
    CHECK(is_filled(counts_memory, LENGTH(counts_memory)));
    CHECK(ta_count4(4, 4, 4, negative, coords, 4, counts, COUNTS) == TA_BAD_START);
    CHECK(is_filled(counts_memory, LENGTH(counts_memory)));
    CHECK(ta_count4(4, 4, 4, 2.9, coords, 4, counts, COUNTS) == TA_DONE);
}

/* Whether the figures are those of every cell counted: how many points dominate
   it, and which one where it is alone. */
static int are_cells(const uint64_t *r, size_t count)
{
    const uint64_t cells = r[0] * r[1] * r[2] * r[3];
    uint64_t total = 0;
    uint64_t alone[16] = {0};
    uint64_t cell;
    size_t i;

    for (cell = 0; cell < cells; cell++) {
        uint64_t x = cell % r[0];
        uint64_t y = cell / r[0] % r[1];
        uint64_t z = cell / r[0] / r[1] % r[2];
        uint64_t w = cell / r[0] / r[1] / r[2];
        size_t dominators = 0;
        size_t one = 0;

        for (i = 0; i < count; i++) {
            const uint64_t *p = coords + 4 * i;

            if (p[0] <= x && p[1] <= y && p[2] <= z && p[3] <= w) {
                dominators++;
                one = i;
            }
        }
        total += dominators > 0;
        alone[one] += dominators == 1;
    }
    return counts[0] == total && memcmp(counts + 1, alone, count * sizeof *alone) == 0;
}

/* Small sets, many points equal, dominated or beyond the reference. */
static void random_counts(void)
{
    int wrong = 0;
    int differ = 0;
    int i;

    for (i = 0; i < 4000; i++) {
        size_t count = next_random() % 13;
        uint64_t further = next_random() % 3;
        uint64_t r[4];
        size_t k;

        for (k = 0; k < 4; k++) {
            r[k] = 1 + next_random() % 6;
        }
        fill_coords(7);
        for (k = 0; k < 4 * count; k++) {
            coords[k] = next_random() % (r[k % 4] + further);
        }
        if (count > 1 && next_random() % 3 == 0) {
            memcpy(coords, coords + 4 * (count - 1), 4 * sizeof *coords);
        }
        fill(counts_memory, LENGTH(counts_memory));
        wrong += ta_count4(r[0], r[1], r[2], r[3], coords, 4 * count, counts, COUNTS) != TA_DONE;
        wrong += !are_cells(r, count);
        wrong += !is_filled(counts_memory, GUARD);
        wrong += !is_filled(counts + count + 1, LENGTH(counts_memory) - GUARD - count - 1);
        for (k = 1; k < count; k++) {
            differ += counts[k] > 0 && counts[k + 1] > 0 && counts[k] != counts[k + 1];
        }
    }
    CHECK(wrong == 0);
    CHECK(differ > 500);
}

/* The cells that point i of the line below leaves on the three axes on which it
   rises; none behind the last point. */
static uint64_t cube(uint64_t i)
{
    uint64_t edge = TA_MAX_REFERENCE4 - 63 * i;

    return i < TA_MAX_POINTS ? edge * edge * edge : 0;
}

/* 512 points on a line that rises on three axes and falls on the fourth: each is
   the lowest in a slice of its own. */
static void line_of_512(void)
{
    const uint64_t most = TA_MAX_REFERENCE4;
    size_t axis;
    uint64_t i;

    for (axis = 0; axis < 4; axis++) {
        uint64_t total = 0;
        int wrong = 0;

        fill_coords(7);
        for (i = 0; i < TA_MAX_POINTS; i++) {
            uint64_t *at = coords + 4 * i;

            at[0] = at[1] = at[2] = at[3] = 63 * i;
            at[axis] = 63 * (TA_MAX_POINTS - 1 - i);
        }
        CHECK(count4_under(most, most, most, most, MOST_COORDS) == TA_DONE);
        for (i = 0; i < TA_MAX_POINTS; i++) {
            uint64_t height = i == 0 ? most - 63 * (TA_MAX_POINTS - 1) : 63;

            total += cube(i) * height;
            wrong += counts[1 + i] != (cube(i) - cube(i + 1)) * height;
        }
        CHECK(wrong == 0);
        CHECK(counts[0] == total);
    }
}

/* 512 points of an archive, with a fourth axis that is flat, or 3 long. */
static void counts_of_archives(void)
{
    static const uint64_t reference[3] = {TA_MAX_REFERENCE4, 20000, 30000};
    static uint64_t many[TA_WORDS(TA_MAX_CAPACITY)];
    uint64_t height;
    size_t i;

    draw_points(reference, TA_MAX_POINTS);
    CHECK(ta_start(many, LENGTH(many), reference[0], reference[1], reference[2],
                   TA_MAX_CAPACITY) == TA_DONE);
    fill_coords(0);
    for (i = 0; i < TA_MAX_POINTS; i++) {
        uint64_t *at = coords + 4 * i;
        size_t axis;

        for (axis = 0; axis < 3; axis++) {
            at[axis] = points[i][axis] < TA_MAX_COORDINATE4 ? points[i][axis] : TA_MAX_COORDINATE4;
        }
        if (ta_insert(many, LENGTH(many), i + 1, at[0], at[1], at[2]) != TA_DONE) {
            CHECK(0);
        }
    }
    for (height = 1; height <= 3; height += 2) {
        int wrong = 0;

        CHECK(count4_under(reference[0], reference[1], reference[2], height, MOST_COORDS)
              == TA_DONE);
        CHECK(counts[0] == many[TA_TOTAL] * height);
        for (i = 0; i < TA_MAX_POINTS; i++) {
            const uint64_t *record = many + TA_RECORDS + i * TA_RECORD_WORDS;

            wrong += counts[record[0]] != record[4] * height;
        }
        CHECK(wrong == 0);
    }
    CHECK(many[TA_TOTAL] > 0);
}

/* ---- what the header defines */

/* Stops the compiler where the condition does not hold. */
#define HOLDS(name, condition) typedef char name[(condition) ? 1 : -1]

HOLDS(answer_is_two_words, sizeof(ta_answer) == 16);
HOLDS(answer_refusal_first, offsetof(ta_answer, refusal) == 0);
HOLDS(answer_value_second, offsetof(ta_answer, value) == 8);
HOLDS(least_is_three_words, sizeof(ta_least_answer) == 24);
HOLDS(least_refusal_first, offsetof(ta_least_answer, refusal) == 0);
HOLDS(least_number_second, offsetof(ta_least_answer, number) == 8);
HOLDS(least_contribution_third, offsetof(ta_least_answer, contribution) == 16);
HOLDS(grid_is_three_words, sizeof(ta_grid_answer) == 24);
HOLDS(grid_refusal_first, offsetof(ta_grid_answer, refusal) == 0);
HOLDS(grid_inserted_second, offsetof(ta_grid_answer, inserted) == 8);
HOLDS(grid_stop_third, offsetof(ta_grid_answer, stop) == 16);
HOLDS(change_is_two_words, sizeof(ta_change) == 16);
HOLDS(change_refusal_first, offsetof(ta_change, refusal) == 0);
HOLDS(change_difference_second, offsetof(ta_change, difference) == 8);
HOLDS(load_is_three_words, sizeof(ta_load_answer) == 24);
HOLDS(load_refusal_first, offsetof(ta_load_answer, refusal) == 0);
HOLDS(load_line_second, offsetof(ta_load_answer, line) == 8);
HOLDS(load_count_third, offsetof(ta_load_answer, count) == 16);
HOLDS(figures_are_seven_words, sizeof(ta_figures_answer) == 56);
HOLDS(figures_refusal_first, offsetof(ta_figures_answer, refusal) == 0);
HOLDS(figures_sum_second, offsetof(ta_figures_answer, sum) == 8);
HOLDS(figures_least_third, offsetof(ta_figures_answer, least) == 16);
HOLDS(figures_greatest_fourth, offsetof(ta_figures_answer, greatest) == 24);
HOLDS(figures_median_fifth, offsetof(ta_figures_answer, median) == 32);
HOLDS(figures_share_sixth, offsetof(ta_figures_answer, share) == 40);
HOLDS(figures_audits_seventh, offsetof(ta_figures_answer, audits) == 48);
HOLDS(corner_is_three_doubles, sizeof(ta_corner) == 24);
HOLDS(corner_x_first, offsetof(ta_corner, x) == 0);
HOLDS(corner_y_second, offsetof(ta_corner, y) == 8);
HOLDS(corner_z_third, offsetof(ta_corner, z) == 16);
HOLDS(volume_is_two_words, sizeof(ta_volume_answer) == 16);
HOLDS(volume_refusal_first, offsetof(ta_volume_answer, refusal) == 0);
HOLDS(volume_volume_second, offsetof(ta_volume_answer, volume) == 8);
/* The sums made here are made in doubles. */
HOLDS(doubles_are_no_wider, FLT_EVAL_METHOD == 0);
/* The lengths are constants. */
HOLDS(words_of_the_largest, TA_WORDS(TA_MAX_CAPACITY) == 2568);
HOLDS(log_of_the_largest, TA_LOG_WORDS(TA_MAX_CAPACITY, 0) == 1024);
HOLDS(card_of_the_largest, TA_CARD_BYTES(TA_MAX_CAPACITY) == 16929);
HOLDS(report_of_the_largest, TA_REPORT_BYTES(TA_MAX_CAPACITY) == 27189);
HOLDS(counts_of_the_most, TA_COUNT4_WORDS(TA_MAX_POINTS) == 513);

/* Each field holds what its name says: values that differ within a struct. */
static void fields(void)
{
    ta_answer answer;
    ta_least_answer least_found;
    ta_load_answer loaded;
    ta_figures_answer of_runs;
    ta_volume_answer figure;

    insert_card(4);
    remove_trial(3);
    answer = joint(1, 2);
    CHECK(answer.refusal == 0);
    CHECK(answer.value == 4);
    answer = joint(1, 3);
    CHECK(answer.refusal == 9);
    CHECK(answer.value == 0);

    insert_card(4);
    least_found = least(TA_TIE_LOWEST);
    CHECK(least_found.refusal == 0);
    CHECK(least_found.number == 4);
    CHECK(least_found.contribution == 1);
    start(4, 4, 4);
    least_found = least(TA_TIE_LOWEST);
    CHECK(least_found.refusal == 14);
    CHECK(least_found.number == 0);
    CHECK(least_found.contribution == 0);

    loaded = load_first(LENT, CARD);
    CHECK(loaded.refusal == 0);
    CHECK(loaded.line == 0);
    CHECK(loaded.count == 4);
    loaded = load_first(LENT, CARD - 40);
    CHECK(loaded.refusal == 15);
    CHECK(loaded.line == 4);
    CHECK(loaded.count == 0);

    /* totals 10, 40 and 20 of 64 */
    lend_runs();
    put_run(4, 4, 4, 1, 10);
    put_run(4, 4, 4, 2, 40);
    put_run(4, 4, 4, 3, 20);
    of_runs = figures_of(runs_len, 3);
    CHECK(of_runs.refusal == 0);
    CHECK(of_runs.sum == 70);
    CHECK(of_runs.least == 10);
    CHECK(of_runs.greatest == 40);
    CHECK(of_runs.median == 20);
    CHECK(of_runs.share == 312500);
    CHECK(of_runs.audits == 0);
    of_runs = figures_of(runs_len, 16);
    CHECK(of_runs.refusal == 23);
    CHECK(of_runs.sum == 0);
    CHECK(of_runs.audits == 0);

    lend_card_points(0, 0, 0.5);
    figure = volume(corner(4, 4, 4), 12);
    CHECK(figure.refusal == 0);
    CHECK(figure.volume == 21);
    figure = volume(corner(4, 4, 4), 15);
    CHECK(figure.refusal == 19);
    CHECK(figure.volume == 0);
    figure = volume(corner(4, 4, 4), MOST_DOUBLES + 3);
    CHECK(figure.refusal == 20);
    CHECK(figure.volume == 0);
}

/* No length of a log wraps, whatever the arguments' types. */
static void log_lengths(void)
{
    const uint64_t largest = UINT64_MAX;
    const uint64_t count = 4;
    const int k = 3;
    const int negative = -1;

    CHECK(TA_LOG_WORDS(4, 0) == 8);
    CHECK(TA_LOG_WORDS(count, k) == 2);
    CHECK(TA_LOG_WORDS(count, 1 + 1) == 4);
    CHECK(TA_LOG_WORDS(count + 1, count) == 2);
    CHECK(TA_LOG_WORDS(count, count) == 0);
    CHECK(TA_LOG_WORDS(0, 0) == 0);
    CHECK(TA_LOG_WORDS(count, 5) == 0);
    CHECK(TA_LOG_WORDS(0, count) == 0);
    CHECK(TA_LOG_WORDS(k, count) == 0);
    CHECK(TA_LOG_WORDS(count, negative) == 0);
    CHECK(TA_LOG_WORDS(count, largest) == 0);
    CHECK(TA_LOG_WORDS(largest, largest) == 0);
    CHECK(TA_LOG_WORDS(largest, largest - 4) == 8);
    CHECK(TA_LOG_WORDS(largest / 2, 0) == SIZE_MAX - 1);
    CHECK(TA_LOG_WORDS(largest / 2 + 1, 0) == SIZE_MAX);
    CHECK(TA_LOG_WORDS(largest, 0) == SIZE_MAX);
    CHECK(sizeof TA_LOG_WORDS(count, k) == sizeof(size_t));
}

int main(void)
{
    counts_1_to_3();
    counts_4_and_5();
    counts_6_and_7();
    count_8();
    tie_rules();
    counts_9_to_11();
    shares_at_ties(share_of);
    random_shares();
    grids();
    replacements();
    fronts();
    kept_from_before();
    card_and_report();
    cards_written();
    many_written(1, 1);
    many_written(TA_MAX_CAPACITY, 0);
    many_written(200, 199);
    many_written(TA_MAX_CAPACITY, TA_MAX_CAPACITY);
    three_rearranged();
    rows_of_rearrange();
    archives_rearranged();
    runs_by_hand();
    runs_where_they_stand();
    medians();
    shares_of_medians();
    largest_runs();
    audits_of_runs();
    rows_of_figures();
    references_of_runs();
    lengths_of_runs();
    random_runs();
    runs_of_512();
    edges_of_memory();
    rows_1_to_3();
    rows_4_to_10();
    rows_11_to_13();
    rows_15_and_16();
    coordinates_at_their_limits();
    numbers_too_wide();
    numbers_converted();
    volumes();
    rows_17_19_and_20();
    bad_doubles();
    minus_zeros();
    random_volumes();
    volumes_of_archives();
    counts_on_four_axes();
    lengths_of_count4();
    rows_of_count4();
    limits_of_count4();
    random_counts();
    line_of_512();
    counts_of_archives();
    fields();
    log_lengths();
    printf("%d passed, %d failed\n", passed, failed);
    return failed == 0 ? 0 : 1;
}
