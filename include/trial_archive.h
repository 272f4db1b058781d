/*
 * The trial archive: scored trials under a reference point, with their
 * hypervolume and each trial's contribution, counted in unit cells.
 *
 * Link with libtrial_archive.a. C99 or later, or C++.
 *
 * POINTS AND CELLS
 *   A point is three whole numbers x, y, z; lower is better. A reference
 *   number is 1 to 1,048,576, and a coordinate 0 to 1,048,576 whatever the
 *   reference. The box has rx * ry * rz cells (i, j, k) with i < rx, j < ry and
 *   k < rz, at most 2^60. A point dominates the cell where x <= i, y <= j and
 *   z <= k. So a point at the reference or beyond it on any axis dominates no
 *   cell: as a trial it is held as given and contributes 0.
 *     total          cells that at least one trial dominates
 *     contribution   cells that this trial dominates and no other trial does
 *     joint          cells that both trials dominate and no third does
 *     gain           cells that the point dominates and no trial does
 *   Equal trials are several trials: each of them contributes 0.
 *   A trial is on the front where no other trial is at most equal on all axes
 *   and smaller on at least one, by the coordinates as held, beyond the
 *   reference too. Equal trials can both be on it.
 *   ta_count4 alone counts on four axes, and has limits of its own.
 *
 * THE ARCHIVE'S WORDS
 *   An archive is a lent slice of 64-bit words, passed as pointer and length
 *   in words. It needs TA_WORDS(capacity) = 8 + 5 * capacity of them:
 *     word 0        count of trials
 *     word 1        capacity, 1 to 512
 *     words 2 to 4  rx, ry, rz
 *     word 5        total
 *     word 6        how many trials are on the front
 *     word 7        zero
 *     from word 8   records of five words: trial number (1 to 9,999,999),
 *                   x, y, z (0 to 1,048,576 each), contribution; ascending by
 *                   z, then y, then x, then trial number; the words of unused
 *                   records are zero
 *   Words from 8 + 5 * capacity on are neither read nor written; ta_figures
 *   alone finds further archives there.
 *   Word 6 is counted anew, whatever it held, by each ta_start, ta_insert,
 *   ta_remove, ta_reduce and ta_card_load that is done, and by each
 *   ta_insert_grid by which a trial goes in. In archives kept from
 *   before it was counted it is 0: where trials are held, ta_audit says no, as
 *   ta_figures then tells, and ta_reduce and ta_rearrange are refused (13)
 *   until an insertion or a removal is done; all other calls are as ever.
 *
 * ANSWERS AND REFUSALS
 *   Every call ends, with any words, doubles, card and arguments, in the
 *   answer described or in one of the refusals below. A call that has nothing
 *   else to answer returns the refusal number, 0 (TA_DONE) when done. A struct
 *   has the refusal first, 0 when done. On a refusal all other fields are
 *   zero, save a card's line, and all lent memory is as before the call.
 *   Bytes and words behind those that a call is said to write stay unchanged.
 *
 * NUMBERS AS C PASSES THEM
 *   Coordinates, reference numbers, the capacity, trial numbers, k, tie rules,
 *   orders of the axes and numbers of archives are uint64_t, and a call judges
 *   all 64 bits. C converts an argument of another type before the call, and
 *   the number that arrives is the one judged:
 *     - A negative integer arrives as 2^64 less its size and is refused like
 *       any other that is too large: by row 4 at ta_start and in the reference
 *       of ta_count4, 5 as a new trial's number, 6 as a coordinate, 9 as the
 *       number of a trial held, 11 as k, 18 as a tie rule, 22 as an order, 23
 *       as a number of archives.
 *     - A double loses its fraction: 2.9 arrives as 2, and -0.9 as 0. One that
 *       is -1 or less, 2^64 or more, or not a number is undefined behaviour in
 *       C, before the call; the library cannot see it.
 *   So round doubles and look at their range first. gcc's -Wconversion and
 *   -Wsign-conversion name the places where C converts.
 *   ta_volume alone takes doubles. It judges them as they are, and refuses (19)
 *   what is not whole or out of range.
 *
 * LENT MEMORY
 *   - The slices lent to one call share no memory.
 *   - A pointer is never null and is aligned for its type, also where the
 *     length is 0. For a length of 0 pass the address of any object of that
 *     type; it is neither read nor written. malloc(0) may return a null
 *     pointer, so allocate at least one element.
 *   - A length counts elements (words, doubles or bytes) of one object, all of
 *     which the caller may read and, where the pointer is not const, write.
 *   - Nobody else writes a lent slice while the call runs, nor reads one
 *     that the call writes.
 *
 * THREADS, MEMORY AND STACK
 *   The library has no global state, allocates nothing, and does no input or
 *   output. Calls that share no lent memory may run at the same time, and so
 *   may calls that only read what they share.
 *   A call needs a few tens of KiB of stack, at most TA_STACK_BYTES; see docs.
 *
 * EXAMPLE
 *   A program that looks at every refusal:
 *
 *     #include "trial_archive.h"
 *     #include <inttypes.h>
 *     #include <stdio.h>
 *
 *     enum { CAPACITY = 8, WORDS = TA_WORDS(CAPACITY) };
 *     enum { KEPT = 2, LOG_WORDS = TA_LOG_WORDS(CAPACITY, KEPT) };
 *
 *     static int refused(const char *call, uint64_t row)
 *     {
 *         if (row != TA_DONE)
 *             printf("%s: refused by row %" PRIu64 "\n", call, row);
 *         return row != TA_DONE;
 *     }
 *
 *     int main(void)
 *     {
 *         static const uint64_t scores[4][3] =
 *             {{1, 2, 2}, {2, 1, 2}, {2, 2000000, 1}, {1, 1, 3}};
 *         uint64_t words[WORDS], log[LOG_WORDS], i;
 *         ta_answer drops;
 *
 *         if (refused("start", ta_start(words, WORDS, 4, 4, 4, CAPACITY)))
 *             return 1;
 *         for (i = 0; i < 4; i++) {
 *             const uint64_t *at = scores[i];
 *
 *             if (refused("insert", ta_insert(words, WORDS, i + 1,
 *                                             at[0], at[1], at[2])))
 *                 printf("trial %" PRIu64 " is left out\n", i + 1);
 *         }
 *         drops = ta_reduce(words, WORDS, KEPT, TA_TIE_LOWEST, log,
 *                           LOG_WORDS);
 *         if (refused("reduce", drops.refusal))
 *             return 1;
 *         for (i = 0; i < drops.value; i++)
 *             printf("trial %" PRIu64 " is dropped: %" PRIu64 " cells\n",
 *                    log[2 * i], log[2 * i + 1]);
 *         printf("%" PRIu64 " trials: %" PRIu64 " cells\n",
 *                words[TA_COUNT], words[TA_TOTAL]);
 *         return 0;
 *     }
 *
 *   It prints:
 *
 *     insert: refused by row 6
 *     trial 3 is left out
 *     trial 4 is dropped: 1 cells
 *     2 trials: 16 cells
 */
#ifndef TRIAL_ARCHIVE_H
#define TRIAL_ARCHIVE_H

#include <stddef.h>
#include <stdint.h>

#ifdef __cplusplus
extern "C" {
#endif

/* Limits of an archive. */
#define TA_MAX_CAPACITY 512
#define TA_MAX_REFERENCE 1048576
#define TA_MAX_COORDINATE 1048576
#define TA_MAX_NUMBER 9999999

/* How many points ta_volume and ta_count4 take. Reference and coordinates of
   ta_volume have an archive's limits. */
#define TA_MAX_POINTS 512

/* How many archives ta_figures takes. */
#define TA_MAX_RUNS 15

/* Limits of ta_count4. */
#define TA_MAX_REFERENCE4 32768
#define TA_MAX_COORDINATE4 32768

/* The stack that any one call stays below, in bytes. bench/stack.c measures it. */
#define TA_STACK_BYTES 49152

/*
 * Lengths: words of an archive with a capacity up to TA_MAX_CAPACITY, words of
 * the log of a reduction from count trials to k, bytes of a card with so many
 * trials, bytes of a report on so many, words that ta_count4 writes for so many
 * points. A k above the count needs no log, since ta_reduce refuses it; nor
 * does a negative k. TA_LOG_WORDS does not wrap: it is 0 for these, and
 * (size_t)-1 where a size_t cannot hold the length. It may evaluate its
 * arguments more than once.
 */
#define TA_WORDS(capacity) (8 + 5 * (size_t)(capacity))
#define TA_LOG_WORDS(count, k) \
    TA_LOG_WORDS_OF((uint64_t)(count), (uint64_t)(count) - (uint64_t)(k))
#define TA_CARD_BYTES(count) (33 * ((size_t)(count) + 1))
#define TA_REPORT_BYTES(count) (53 * ((size_t)(count) + 1))
#define TA_COUNT4_WORDS(points) ((size_t)(points) + 1)

/* TA_LOG_WORDS by the drops, which are more than the count where k is: the
   difference has wrapped. */
#define TA_LOG_WORDS_OF(count, drops) \
    ((drops) > (count) ? (size_t)0 \
     : (drops) > (size_t)-1 / 2 ? (size_t)-1 : 2 * (size_t)(drops))

/* Where the words of an archive stand. */
#define TA_COUNT 0
#define TA_CAPACITY 1
#define TA_REFERENCE 2
#define TA_TOTAL 5
#define TA_FRONT 6
#define TA_RECORDS 8
#define TA_RECORD_WORDS 5

/*
 * The refusals. Rows are checked in this order, save that ta_start checks 4
 * before 1, ta_replace_effect 9 before 6, ta_volume 20 before 19, 17 comes
 * first, 18 right after 3, that ta_count4 checks 4, 17, 20, 6, 16, that
 * ta_rearrange checks 22 before 13, and behind them row 1 of its second slice,
 * and that ta_figures checks 23 for the number of archives, then rows 1 to 3 of
 * each archive in turn, then 23 for their references.
 * ta_start and ta_card_load check neither 2 nor 3; for them row 1 is a slice
 * shorter than 8 + 5 * the capacity given.
 */
enum {
    /* Not a refusal: the call is done. */
    TA_DONE = 0,
    /* Archive slice: fewer than 8 words; or, after row 2 has passed, fewer
       than 8 + 5 * capacity. Rearrange: also a second slice of fewer than
       8 + 5 * the archive's capacity; checked last. Figures: an archive's slice
       is what is left of the slice from where the archive begins. */
    TA_SLICE_SHORT = 1,
    /* Header: capacity or a reference word out of range; count above capacity;
       total above the box; word 6 above the count; word 7 not zero. */
    TA_BAD_HEADER = 2,
    /* Records: number or coordinate out of range, contribution above the box,
       order broken, a number twice, an unused word not zero. */
    TA_BAD_RECORDS = 3,
    /* Start, card line 1: reference or capacity out of range. Count4: reference
       out of range. */
    TA_BAD_START = 4,
    /* Insert: trial number out of range. */
    TA_BAD_NUMBER = 5,
    /* Insert, gain, replace-effect: a coordinate above 1,048,576. Count4: a
       coordinate above 32,768. */
    TA_BAD_COORDINATE = 6,
    /* Insert: number already held. */
    TA_NUMBER_HELD = 7,
    /* Insert: count equals capacity. */
    TA_FULL = 8,
    /* Remove, joint, replace-effect: number not held (either one). */
    TA_NOT_HELD = 9,
    /* Joint: the same number twice. */
    TA_SAME_NUMBER = 10,
    /* Reduce: k above the count. */
    TA_ABOVE_COUNT = 11,
    /* Reduce: log shorter than 2 * (count - k) words. */
    TA_LOG_SHORT = 12,
    /* Insert, remove: a new total or contribution would fall below 0 or exceed
       the box. Reduce, rearrange: the audit's answer is no. */
    TA_MISCOUNT = 13,
    /* Least: no trial held. */
    TA_NONE_HELD = 14,
    /* Card: a line not of the form; an empty card is line 1. */
    TA_CARD_FORM = 15,
    /* Report: output shorter than 53 * (count + 1) bytes. Card-write: output
       shorter than 33 * (count + 1) bytes. Count4: output shorter than
       points + 1 words. */
    TA_OUTPUT_SHORT = 16,
    /* Insert-grid: slice length not a multiple of four. Volume: slice length
       not a multiple of three. Checked first. Count4: slice length not a
       multiple of four; checked after 4. */
    TA_BAD_LENGTH = 17,
    /* Least, reduce: a tie rule that is neither 0 nor 1. Checked after row 3
       and before 11, 12, 13 and 14. */
    TA_BAD_RULE = 18,
    /* Volume: a double that is not a whole number, in the reference from 1 to
       1,048,576, in a point from 0 to 1,048,576; minus zero is zero. */
    TA_BAD_DOUBLE = 19,
    /* Volume, count4: more than 512 points. Checked before 19, and by count4
       before 6. */
    TA_TOO_MANY_POINTS = 20,
    /* Rearrange: an order of the axes above 5. Checked after row 3 and before
       13. */
    TA_BAD_ORDER = 22,
    /* Figures: no archive, more than 15, or references that differ. The number
       is checked first, the references after row 3 of the last archive. */
    TA_BAD_RUNS = 23
};

/* The tie rules: which of several least contributors goes, the one with the
   lowest trial number (the default) or the one with the highest. */
#define TA_TIE_LOWEST 0
#define TA_TIE_HIGHEST 1

/* The orders of the axes: which old axis comes first, second and third. YZX and
   ZXY undo each other; each of the others undoes itself. */
#define TA_ORDER_XYZ 0
#define TA_ORDER_XZY 1
#define TA_ORDER_YXZ 2
#define TA_ORDER_YZX 3
#define TA_ORDER_ZXY 4
#define TA_ORDER_ZYX 5

/* A refusal, or 0 and one number. */
typedef struct ta_answer {
    uint64_t refusal;
    uint64_t value;
} ta_answer;

/* A refusal, or 0 and the least contributor. */
typedef struct ta_least_answer {
    uint64_t refusal;
    uint64_t number;
    uint64_t contribution;
} ta_least_answer;

/* A refusal, or 0, how many trials of a grid went in, and the refusal number
   that stopped it, or 0. */
typedef struct ta_grid_answer {
    uint64_t refusal;
    uint64_t inserted;
    uint64_t stop;
} ta_grid_answer;

/* A refusal, or 0 and a difference of two counts of cells. */
typedef struct ta_change {
    uint64_t refusal;
    int64_t difference;
} ta_change;

/* A refusal and the card line that it is for (from 1), or 0, 0 and the count
   of trials loaded. */
typedef struct ta_load_answer {
    uint64_t refusal;
    uint64_t line;
    uint64_t count;
} ta_load_answer;

/* A refusal, or 0 and the figures of several archives: the sum of their totals,
   the least, the greatest and the median of them, the median in millionths of
   the box, and 1 where every audit says yes, else 0. */
typedef struct ta_figures_answer {
    uint64_t refusal;
    uint64_t sum;
    uint64_t least;
    uint64_t greatest;
    uint64_t median;
    uint64_t share;
    uint64_t audits;
} ta_figures_answer;

/* The reference corner of a volume. */
typedef struct ta_corner {
    double x;
    double y;
    double z;
} ta_corner;

/* A refusal, or 0 and a volume. */
typedef struct ta_volume_answer {
    uint64_t refusal;
    double volume;
} ta_volume_answer;

/*
 * Writes an empty archive into the first 8 + 5 * capacity words. What they
 * held before does not matter.
 * Refusals, in this order: 4, then 1.
 */
uint64_t ta_start(uint64_t *words, size_t len,
                  uint64_t rx, uint64_t ry, uint64_t rz, uint64_t capacity);

/*
 * Inserts a trial. Its contribution is its counted gain; the total grows by
 * that gain, and every other contribution falls by the counted joint
 * contribution of the two.
 * Refusals: 1 to 3, 5, 6, 7, 8, 13.
 */
uint64_t ta_insert(uint64_t *words, size_t len, uint64_t number,
                   uint64_t x, uint64_t y, uint64_t z);

/*
 * Inserts a whole grid of trials, four words to a trial: number, x, y, z. The
 * outcome is that of inserting them one by one by ta_insert and stopping at the
 * first that rows 5 to 8 or 13 turn down; earlier ones stay. A stop, also at
 * the very first trial, is a finished call: refusal 0, how many went in, and
 * the row that stopped it, or 0 where all went in. A refused call inserts
 * nothing. Grid and archive must not share memory. grid_len is in words.
 * Refusals: 17, then 1 to 3, also for an empty grid.
 */
ta_grid_answer ta_insert_grid(uint64_t *words, size_t len,
                              const uint64_t *grid, size_t grid_len);

/*
 * Removes a trial. The total falls by its counted contribution, and every
 * other contribution rises by the counted joint contribution of the two. The
 * number may be used again.
 * Refusals: 1 to 3, 9, 13.
 */
uint64_t ta_remove(uint64_t *words, size_t len, uint64_t number);

/*
 * The trial whose kept contribution is least; among equals by the tie rule:
 * TA_TIE_LOWEST (0) the lowest trial number, TA_TIE_HIGHEST (1) the highest.
 * Refusals: 1 to 3, 18, 14.
 */
ta_least_answer ta_least(const uint64_t *words, size_t len, uint64_t rule);

/*
 * Drops the least contributor by ta_least until k trials are held, each time
 * among those then held, and among equals by the tie rule as there. For
 * each drop the log receives two words: the number, and its contribution at
 * that moment. The value is the count of drops; log words behind the 2 *
 * drops written stay unchanged. k equal to the count drops none, and k = 0 is
 * allowed. The log needs TA_LOG_WORDS(count, k) words.
 * Refusals: 1 to 3, 18, 11, 12, 13 (also where k equals the count).
 */
ta_answer ta_reduce(uint64_t *words, size_t len, uint64_t k, uint64_t rule,
                    uint64_t *log, size_t log_len);

/*
 * The counted joint contribution of two trials held.
 * Refusals: 1 to 3, 9, 10.
 */
ta_answer ta_joint(const uint64_t *words, size_t len,
                   uint64_t first, uint64_t second);

/*
 * The counted gain of a point, equal to a held trial or not.
 * Refusals: 1 to 3, 6.
 */
ta_answer ta_gain(const uint64_t *words, size_t len,
                  uint64_t x, uint64_t y, uint64_t z);

/*
 * What replacing a trial held by a new point would change: the counted total
 * afterwards less the counted total before, from -2^60 to 2^60, whatever total
 * is kept. 0 for a point equal to the trial's own. The archive is not touched.
 * Refusals, in this order: 1 to 3, 9, 6.
 */
ta_change ta_replace_effect(const uint64_t *words, size_t len, uint64_t number,
                            uint64_t x, uint64_t y, uint64_t z);

/*
 * The kept total in millionths of the box, rounded to the nearest; a tie goes
 * to the even number. At most 1000000.
 * Refusals: 1 to 3.
 */
ta_answer ta_share(const uint64_t *words, size_t len);

/*
 * 1 (yes) exactly when the kept total, the front's size in word 6 and all kept
 * contributions equal their counts, else 0 (no).
 * Refusals: 1 to 3.
 */
ta_answer ta_audit(const uint64_t *words, size_t len);

/*
 * Judges a card without an archive: 0 for an accepted card, else refusal
 * number * 65,536 + card line, the lines counted from 1. It judges as
 * ta_card_load does with a slice that is long enough, so row 1 is not given.
 *
 * A card is bytes. Each line has four fields of eight bytes, then byte 10; the
 * last line too. A field is a decimal number right-justified behind spaces,
 * with at least one digit and no leading zero except in 0 itself. Line 1:
 * capacity, rx, ry, rz. Each further line: trial number, x, y, z, inserted in
 * turn into a fresh archive.
 * Refusals of a line, the lines judged in turn: 15, then on line 1 row 4, on
 * others rows 5 to 8.
 */
uint64_t ta_card_check(const uint8_t *card, size_t len);

/* The two parts of ta_card_check's answer. */
#define TA_CARD_REFUSAL(answer) ((uint64_t)(answer) / 65536)
#define TA_CARD_LINE(answer) ((uint64_t)(answer) % 65536)

/*
 * Loads a card into the first 8 + 5 * capacity words, as its start and its
 * insertions in turn would. What they held before does not matter. A card
 * refused at any line leaves the slice as before the call.
 * Refusals of a line, the lines judged in turn: 15, then on line 1 rows 4 and
 * 1, on others rows 5 to 8.
 */
ta_load_answer ta_card_load(uint64_t *words, size_t len,
                            const uint8_t *card, size_t card_len);

/*
 * Writes the archive's card, in the form told at ta_card_check: line 1, then a
 * line for each trial, in archive order. The kept total and contributions do
 * not show on a card, and no audit is asked. The value is the length in bytes,
 * TA_CARD_BYTES(count); output bytes behind it stay unchanged. No zero byte is
 * appended.
 * ta_card_load accepts the card with any slice that is long enough, and gives
 * the same capacity, reference and trials with everything counted anew; where
 * ta_audit says yes, that restores every word before 8 + 5 * capacity. A card
 * loaded and written is the same bytes exactly when its trials stood in archive
 * order.
 * Refusals: 1 to 3, 16.
 */
ta_answer ta_card_write(const uint64_t *words, size_t len,
                        uint8_t *out, size_t out_len);

/*
 * Writes the report: one line of count, rx, ry, rz (eight bytes each) and the
 * kept total (twenty bytes), then for each record, in archive order, number,
 * x, y, z (eight each) and kept contribution (twenty); numbers right-justified
 * behind spaces, every line ended by byte 10. The value is the length in
 * bytes, TA_REPORT_BYTES(count); output bytes behind it stay unchanged. No
 * zero byte is appended.
 * Refusals: 1 to 3, 16.
 */
ta_answer ta_report(const uint64_t *words, size_t len,
                    uint8_t *out, size_t out_len);

/*
 * Writes the archive with its axes in another order, reference and trials, into
 * a second slice. The letters of the order name which old axis comes first,
 * second and third: by TA_ORDER_YZX (3) the new x is the old y, the new y the
 * old z, and the new z the old x.
 *
 * The second slice receives TA_WORDS(capacity) words; what they held before does
 * not matter, and words behind them stay unchanged. They are those of a fresh
 * archive of equal capacity that holds the rearranged trials under the
 * rearranged reference. The total, the front's size and each trial number's
 * contribution are those of the archive given, the records stand by z, then y,
 * then x, then trial number of the new coordinates, and ta_audit says yes.
 * TA_ORDER_XYZ copies the archive. The order that undoes the first one, applied
 * to the second slice, restores every word before 8 + 5 * capacity.
 *
 * The archive is only read, and must not share memory with the second slice;
 * second_len is in words. On a refusal the second slice is as before. Where its
 * length is 0, the pointer is the address of any word.
 * Refusals, in this order: 1 to 3 for the archive, 22, 13 where ta_audit says
 * no, 1 for a second slice of fewer than 8 + 5 * capacity words.
 */
uint64_t ta_rearrange(const uint64_t *words, size_t len, uint64_t order,
                      uint64_t *second, size_t second_len);

/*
 * The figures of repeated runs: of 1 to TA_MAX_RUNS archives, one behind the
 * other in a slice and of equal reference, the sum of their kept totals, the
 * least, the greatest and the median; the median's share, which is millionths
 * of the box that all have, rounded as ta_share rounds; and whether ta_audit
 * says yes of every one. Of an even number of totals the median is the lower of
 * the middle two: in ascending order the one at place (number - 1) / 2, counted
 * from 0. The sum is at most 15 * 2^60, so it never wraps. An audit that says no
 * is an answer, 0, and no refusal; the other figures are of the totals as kept.
 *
 * The first archive begins at word 0. Each takes TA_WORDS(capacity) words, by
 * its own capacity and not by its count, and the next one begins right behind;
 * so capacities may differ, and no word lies between two archives. len is that
 * of the whole slice. An archive can be filled where it stands, since no other
 * call touches what lies behind it, or copied there:
 *
 *     enum { FIRST = TA_WORDS(8), SECOND = TA_WORDS(20) };
 *     uint64_t runs[FIRST + SECOND];
 *     ...
 *     refusal = ta_start(runs, FIRST, 4, 4, 4, 8);
 *     refusal = ta_start(runs + FIRST, SECOND, 4, 4, 4, 20);
 *     ...
 *     figures = ta_figures(runs, FIRST + SECOND, 2);
 *
 * Nothing is written. Words behind the last archive are not read.
 * Refusals, in this order: 23 where number is 0 or above TA_MAX_RUNS, before any
 * word is read; 1 to 3 of each archive in turn, judged on the rest of the slice
 * from where it begins; 23 where a reference differs from the first archive's
 * on some axis.
 */
ta_figures_answer ta_figures(const uint64_t *words, size_t len,
                             uint64_t number);

/*
 * The volume of some points in double precision, to stand beside the figures of
 * codes that compute in doubles. No archive takes part, and nothing is written.
 * There are three doubles to a point, x, y, z, and at most TA_MAX_POINTS points;
 * len is in doubles.
 *
 * All doubles are whole: the reference's 1 to 1,048,576, the points' 0 to
 * 1,048,576 whatever the reference. Minus zero counts as zero. Equal and
 * dominated points are allowed, and so are points at the reference or past it,
 * which dominate nothing.
 *
 * The sum starts at zero. For each distinct z below the reference's, ascending,
 * area * height is added to it. The z's are those of any point given, also of
 * one past the reference on x or y. The area is the number of cells of layer z
 * that some point dominates; the height runs to the next such z, or to the
 * reference's. Product and sum are rounded once each, in two steps. No points
 * give +0.
 *
 * The volume is a whole number. Where the box is at most 2^53, it equals the
 * number of cells that some point dominates, which is the total of an archive
 * of these points; otherwise it lies within 192 * points of that number.
 *
 * C's default floating-point environment is assumed: the rounding mode is to
 * nearest, ties to even, no subnormal is taken for zero, no exception trapped.
 * The call may raise floating-point flags.
 * Refusals, in this order: 17, 20, 19. The volume is then +0.
 */
ta_volume_answer ta_volume(ta_corner reference,
                           const double *points, size_t len);

/*
 * Counts the cells of some points on four axes. No archive takes part. There
 * are four words to a point, x, y, z, w, and at most TA_MAX_POINTS points; len
 * and out_len are in words. Reference numbers are 1 to 32,768, coordinates 0 to
 * 32,768 whatever the reference.
 *
 * The box has rx * ry * rz * rw cells (i, j, k, l) with i < rx, j < ry, k < rz
 * and l < rw, at most 2^60. A point dominates the cell where x <= i, y <= j,
 * z <= k and w <= l. So a point at the reference or beyond it on any axis
 * dominates no cell.
 *
 * The output receives TA_COUNT4_WORDS(points) = points + 1 words: the total,
 * which is the number of cells that at least one point dominates, then each
 * point's contribution, in the order of the points: the cells that it dominates
 * and no other point does. Equal points are several points: each of them
 * contributes 0. No points give the total 0 alone. Where rw is 1 and every w is
 * 0, the figures are those of an archive that holds the points x, y, z.
 *
 * coords is only read, and must not share memory with out. out may be longer
 * than points + 1 words: those behind stay unchanged, and on a refusal all of
 * them. Where a length is 0, the pointer is the address of any word; an output
 * of length 0 is refused whatever the points.
 * Refusals, in this order: 4, 17, 20, 6, 16.
 */
uint64_t ta_count4(uint64_t rx, uint64_t ry, uint64_t rz, uint64_t rw,
                   const uint64_t *coords, size_t len,
                   uint64_t *out, size_t out_len);

#ifdef __cplusplus
}
#endif

#endif
