/*
 * How much stack a call needs: runs each call on a thread whose stack was
 * filled with a mark, and looks how far down the mark has gone. Prints a line
 * for each call, and at the end 'N passed, M failed': every call is to stay
 * below TA_STACK_BYTES.
 */
#define _XOPEN_SOURCE 700

#include "trial_archive.h"

#include <pthread.h>
#include <stdio.h>
#include <stdlib.h>
#include <string.h>

enum { STACK_BYTES = 1 << 20, MARK = 0xa5, LINE = 33 };

static uint64_t words[TA_WORDS(TA_MAX_CAPACITY)];
static uint64_t second[TA_WORDS(TA_MAX_CAPACITY)];
static uint64_t runs[TA_MAX_RUNS * TA_WORDS(TA_MAX_CAPACITY)];
static uint64_t log_words[2 * TA_MAX_CAPACITY];
static uint8_t out[TA_REPORT_BYTES(TA_MAX_CAPACITY)];
static uint8_t card[TA_CARD_BYTES(TA_MAX_CAPACITY)];
static double points[3 * TA_MAX_POINTS];
static uint64_t coords[4 * TA_MAX_POINTS];
static uint64_t counts[TA_COUNT4_WORDS(TA_MAX_POINTS)];

static const uint64_t grid[] = {TA_MAX_NUMBER, 1, 2, 3};
static const ta_corner corner = {2000, 2000, 2000};
static const size_t len = sizeof words / sizeof words[0];
static uint64_t answer;

static void nothing(void) {}
static void start(void) { answer = ta_start(words, len, 9, 9, 9, TA_MAX_CAPACITY); }
static void insert(void) { answer = ta_insert(words, len, TA_MAX_NUMBER, 1, 2, 3); }
static void insert_grid(void) { answer = ta_insert_grid(words, len, grid, 4).refusal; }
static void remove_trial(void) { answer = ta_remove(words, len, TA_MAX_NUMBER); }
static void least(void) { answer = ta_least(words, len, TA_TIE_LOWEST).refusal; }
static void reduce(void) { answer = ta_reduce(words, len, 0, TA_TIE_LOWEST, log_words, 2 * TA_MAX_CAPACITY).refusal; }
static void joint(void) { answer = ta_joint(words, len, 2, 3).refusal; }
static void gain(void) { answer = ta_gain(words, len, 1, 2, 3).refusal; }
static void replace_effect(void) { answer = ta_replace_effect(words, len, 2, 0, 0, 0).refusal; }
static void share(void) { answer = ta_share(words, len).refusal; }
static void audit(void) { answer = ta_audit(words, len).refusal; }
static void card_check(void) { answer = ta_card_check(card, sizeof card); }
static void card_load(void) { answer = ta_card_load(words, len, card, sizeof card).refusal; }
static void card_write(void) { answer = ta_card_write(words, len, out, sizeof out).refusal; }
static void report(void) { answer = ta_report(words, len, out, sizeof out).refusal; }
static void rearrange(void) { answer = ta_rearrange(words, len, TA_ORDER_YZX, second, len); }
static void figures(void) { answer = ta_figures(runs, TA_MAX_RUNS * len, TA_MAX_RUNS).refusal; }
static void volume(void) { answer = ta_volume(corner, points, 3 * TA_MAX_POINTS).refusal; }
static void count4(void) { answer = ta_count4(2000, 2000, 2000, 2000, coords, 4 * TA_MAX_POINTS, counts, TA_COUNT4_WORDS(TA_MAX_POINTS)); }

/* A card of 512 trials near one plane, so that a reduction has work to do, the
   same points in doubles, and points near a plane of four axes. */
static void fill_card(void)
{
    char line[LINE + 1];
    int i;

    snprintf(line, sizeof line, "%8d%8d%8d%8d\n", TA_MAX_CAPACITY, 2000, 2000, 2000);
    memcpy(card, line, LINE);
    for (i = 1; i <= TA_MAX_CAPACITY; i++) {
        int x = i * 331 % 1000;
        int y = i * 577 % 1000;
        int z = i * 733 % 1000;
        uint64_t *at = coords + 4 * (i - 1);

        snprintf(line, sizeof line, "%8d%8d%8d%8d\n", i, x, y, 2000 - x - y);
        memcpy(card + LINE * i, line, LINE);
        points[3 * i - 3] = x;
        points[3 * i - 2] = y;
        points[3 * i - 1] = 2000 - x - y;
        at[0] = (uint64_t)x;
        at[1] = (uint64_t)y;
        at[2] = (uint64_t)z;
        at[3] = (uint64_t)((3000 - x - y - z) / 2);
    }
}

/* As many archives as figures are taken of, each with all trials of the card. */
static void fill_runs(void)
{
    size_t i;

    for (i = 0; i < TA_MAX_RUNS; i++) {
        if (ta_card_load(runs + i * len, len, card, sizeof card).refusal != TA_DONE) {
            abort();
        }
    }
}

static void *run(void *call)
{
    (*(void (**)(void))call)();
    return NULL;
}

/* The bytes of a fresh stack that a thread touches which makes this call. */
static size_t touched_by(void (*call)(void))
{
    void *stack;
    unsigned char *bytes;
    pthread_attr_t attributes;
    pthread_t thread;
    size_t untouched = 0;

    if (posix_memalign(&stack, 1 << 16, STACK_BYTES) != 0) {
        abort();
    }
    memset(stack, MARK, STACK_BYTES);
    if (pthread_attr_init(&attributes) != 0
        || pthread_attr_setstack(&attributes, stack, STACK_BYTES) != 0
        || pthread_create(&thread, &attributes, run, &call) != 0
        || pthread_join(thread, NULL) != 0) {
        abort();
    }
    pthread_attr_destroy(&attributes);
    bytes = stack;
    while (untouched < STACK_BYTES && bytes[untouched] == MARK) {
        untouched++;
    }
    free(stack);
    return STACK_BYTES - untouched;
}

int main(void)
{
    /* In such an order that every call is done: the card fills the archive, a
       removal makes room twice, and the reduction comes last of those on it. */
    static const struct { const char *name; void (*call)(void); } calls[] = {
        {"ta_start", start}, {"ta_card_check", card_check}, {"ta_card_load", card_load},
        {"ta_least", least}, {"ta_joint", joint}, {"ta_gain", gain},
        {"ta_replace_effect", replace_effect}, {"ta_share", share}, {"ta_audit", audit},
        {"ta_card_write", card_write}, {"ta_report", report}, {"ta_rearrange", rearrange},
        {"ta_figures", figures}, {"ta_remove", remove_trial}, {"ta_insert_grid", insert_grid},
        {"ta_remove", remove_trial}, {"ta_insert", insert}, {"ta_reduce", reduce},
        {"ta_volume", volume}, {"ta_count4", count4},
    };
    size_t base;
    size_t i;
    int passed = 0;
    int failed = 0;

    fill_card();
    /* One trial has the number that is removed and inserted again. */
    memcpy(card + LINE, " 9999999", 8);
    fill_runs();
    touched_by(nothing);
    base = touched_by(nothing);
    for (i = 0; i < sizeof calls / sizeof calls[0]; i++) {
        size_t bytes = touched_by(calls[i].call);

        bytes = bytes > base ? bytes - base : 0;
        printf("%-14s %6lu bytes of stack\n", calls[i].name, (unsigned long)bytes);
        if (answer == TA_DONE && bytes <= TA_STACK_BYTES) {
            passed++;
        } else {
            failed++;
            printf("refusal %lu, or more stack than %d bytes\n", (unsigned long)answer,
                   TA_STACK_BYTES);
        }
    }
    printf("%d passed, %d failed\n", passed, failed);
    return failed == 0 ? 0 : 1;
}
