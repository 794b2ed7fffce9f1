/* The second writer: standplan_write under another name, by another method, from document 01, requests L1, L4, L6 and L11 and what the numbers of the call mean
 * (crates/write_numbers/specs/Decoding.antt). Whoever wrote it had seen the reference's writer and the body of the boundary's call, not the code below that.
 * Arguments, verdicts and what happens to lent memory are as in include/standplan.h. */
#ifndef SECOND_WRITER_H
#define SECOND_WRITER_H

#include <stddef.h>
#include <stdint.h>

#ifdef __cplusplus
extern "C" {
#endif

/* The sheet of n steps, two numbers for each (map, ticks), and r link records in any order, seven for each (map, i, j, at least, at most, gap, at most from the
 * finish): 0, the bytes at the front of the buffer, and how many they are in *length. Refusals 2, 3, 4, 26, 5 and 6 (a pair comes twice), of what is there of
 * the n steps and r records; then 14 where a list or the buffer is too short. */
uint32_t second_write(size_t n, const uint16_t *steps, size_t steps_len, size_t r, const uint16_t *records, size_t records_len, uint8_t *buffer, size_t buffer_len, size_t *length);

#ifdef __cplusplus
}
#endif

#endif
