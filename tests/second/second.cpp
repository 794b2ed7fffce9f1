#include "second.h"
#include "bellman_ford.hpp"

using Kernel = planner::BellmanFord;

uint32_t second_judge(const uint8_t *sheet, size_t sheet_len, bool allow_waits) {
    return planner::judge<Kernel>(sheet, sheet_len, allow_waits);
}

uint32_t second_waits(const uint8_t *sheet, size_t sheet_len, uint64_t maps[64], uint32_t *count) {
    return planner::waits<Kernel>(sheet, sheet_len, maps, count);
}

uint32_t second_plan(const uint8_t *sheet, size_t sheet_len, bool allow_waits, uint32_t *table, size_t table_len) {
    return planner::plan<Kernel>(sheet, sheet_len, allow_waits, table, table_len);
}

uint32_t second_starts(const uint8_t *sheet, size_t sheet_len, bool allow_waits, const uint32_t *list, size_t list_len, uint32_t *out, size_t out_len) {
    return planner::starts<Kernel>(sheet, sheet_len, allow_waits, list, list_len, out, out_len);
}

void second_printed(uint16_t entries[1024]) {
    planner::printed(entries);
}

uint32_t second_price(const uint8_t *sheet, size_t sheet_len, bool allow_waits, const uint16_t entries[1024], uint32_t *registers, size_t registers_len,
                      uint32_t *comparisons, size_t comparisons_len, uint32_t totals[2]) {
    return planner::price<Kernel>(sheet, sheet_len, allow_waits, entries, registers, registers_len, comparisons, comparisons_len, totals);
}

void second_report(const uint8_t *sheet, size_t sheet_len, const uint16_t entries[1024], char text[4096]) {
    planner::report<Kernel>(sheet, sheet_len, entries, text);
}

uint32_t second_steps(const uint8_t *sheet, size_t sheet_len, size_t *n, uint64_t *open, uint16_t *leasts, size_t leasts_len) {
    return planner::steps(sheet, sheet_len, n, open, leasts, leasts_len);
}

uint32_t second_clashes(const uint8_t *sheet, size_t sheet_len, uint32_t *numbers, size_t numbers_len, size_t *count) {
    return planner::clashes<Kernel>(sheet, sheet_len, numbers, numbers_len, count);
}
