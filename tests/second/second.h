/* The second planner: the planner calls of include/standplan.h under other names, written apart, from document 01, requests L1, L3, L6, L11 and L14
 * and docs/; the price from request L5 alone. Arguments, verdicts and what happens to lent memory are as there. */
#ifndef SECOND_H
#define SECOND_H

#include <stdbool.h>
#include <stddef.h>
#include <stdint.h>

#ifdef __cplusplus
extern "C" {
#endif

uint32_t second_judge(const uint8_t *sheet, size_t sheet_len, bool allow_waits);
uint32_t second_waits(const uint8_t *sheet, size_t sheet_len, uint64_t maps[64], uint32_t *count);
uint32_t second_plan(const uint8_t *sheet, size_t sheet_len, bool allow_waits, uint32_t *table, size_t table_len);
uint32_t second_starts(const uint8_t *sheet, size_t sheet_len, bool allow_waits, const uint32_t *list, size_t list_len, uint32_t *out, size_t out_len);

/* What a run of the sheet is begun with: N; the map of the open steps, step 0 among them; and the leasts, the first N numbers, 0 for a step without one.
 * Refusals 1 to 7 and 26, then 14 where fewer than N numbers are lent. */
uint32_t second_steps(const uint8_t *sheet, size_t sheet_len, size_t *n, uint64_t *open, uint16_t *leasts, size_t leasts_len);

/* The few records that clash in an impossible sheet: 0, their numbers, counted from 0 and rising, at the front of numbers, and how many there are in *count.
 * Refusals 1 to 8 and 26, then 31 where the sheet is not refused as 10 or 11, then 14 where fewer numbers are lent than there are to report. */
uint32_t second_clashes(const uint8_t *sheet, size_t sheet_len, uint32_t *numbers, size_t numbers_len, size_t *count);

/* The printed register table: 1,024 entries. */
void second_printed(uint16_t entries[1024]);

/* The price of the control box by a register table: the verdict of the plan; the registers of each step, 0 for fixed ones, and its comparisons, the first N
 * numbers of two lists; and the two totals, registers first. Refusals 1 to 8, 10 to 12, 26 and 28, then 19 where a largest offset is 1,024 or more, then 14
 * where fewer than N numbers are lent in one of the lists. A refusal leaves all that is lent. */
uint32_t second_price(const uint8_t *sheet, size_t sheet_len, bool allow_waits, const uint16_t entries[1024], uint32_t *registers, size_t registers_len,
                      uint32_t *comparisons, size_t comparisons_len, uint32_t totals[2]);

/* What the price program prints, waits allowed, a 0 behind it. */
void second_report(const uint8_t *sheet, size_t sheet_len, const uint16_t entries[1024], char text[4096]);

#ifdef __cplusplus
}
#endif

#endif
