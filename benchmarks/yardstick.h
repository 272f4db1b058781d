/* The calls of archive.rs: those of include/trial_archive.h, each with the name's first letters
   rs_ in place of ta_. */
#ifndef YARDSTICK_H
#define YARDSTICK_H

#include "trial_archive.h"

extern "C" {
uint64_t rs_insert(uint64_t *words, size_t len, uint64_t number, uint64_t x, uint64_t y,
                   uint64_t z);
ta_grid_answer rs_insert_grid(uint64_t *words, size_t len, const uint64_t *grid, size_t grid_len);
uint64_t rs_remove(uint64_t *words, size_t len, uint64_t number);
ta_least_answer rs_least(const uint64_t *words, size_t len, uint64_t rule);
ta_answer rs_reduce(uint64_t *words, size_t len, uint64_t k, uint64_t rule, uint64_t *log,
                    size_t log_len);
ta_answer rs_audit(const uint64_t *words, size_t len);
ta_load_answer rs_card_load(uint64_t *words, size_t len, const uint8_t *card, size_t card_len);
ta_answer rs_card_write(const uint64_t *words, size_t len, uint8_t *out, size_t out_len);
ta_answer rs_report(const uint64_t *words, size_t len, uint8_t *out, size_t out_len);
uint64_t rs_rearrange(const uint64_t *words, size_t len, uint64_t order, uint64_t *second,
                      size_t second_len);
ta_figures_answer rs_figures(const uint64_t *words, size_t len, uint64_t number);
ta_volume_answer rs_volume(ta_corner reference, const double *points, size_t len);
}

#endif
