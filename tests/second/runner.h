/* A second runner, written from document 01 and request L6 alone. The calls take what those of include/standplan.h take and give what those have to give. */
#ifndef SECOND_RUNNER_H
#define SECOND_RUNNER_H

#include <stddef.h>
#include <stdint.h>

#ifdef __cplusplus
extern "C" {
#endif

uint32_t second_begin(uint64_t words[4], uint32_t *tick, uint32_t start[64], uint32_t finish[64], uint16_t least[64], uint64_t *map, size_t n, uint64_t open, const uint16_t *leasts, size_t leasts_len, const uint32_t *table, size_t table_len);
uint32_t second_tick(uint64_t words[4], uint32_t *tick, uint32_t start[64], uint32_t finish[64], uint16_t least[64], uint64_t *map, const uint32_t *table, size_t table_len);
uint32_t second_finish(uint64_t words[4], uint32_t *tick, uint32_t start[64], uint32_t finish[64], uint16_t least[64], uint64_t *map, size_t s, const uint32_t *table, size_t table_len);

#ifdef __cplusplus
}
#endif

#endif
