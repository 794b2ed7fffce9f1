// The records that clash, as a program with judging alone would find them: each part is written as a sheet of its own and judged by the library.
#include <cstring>

#include "../include/standplan.h"
#include "../tests/second/planner.hpp"
#include "rows.hpp"

static bool impossible(uint32_t verdict) { return verdict == STANDPLAN_REFUSED + STANDPLAN_NEVER_KEPT || verdict == STANDPLAN_REFUSED + STANDPLAN_NOT_ALWAYS_KEPT; }

// Where the records of a sheet begin, and where the last one ends.
static int places(const uint8_t *sheet, int *place) {
    const int records = planner::two(sheet + 1);
    int at = 3;
    for (int v = 0; v < sheet[0]; v++) at += sheet[at] & 6 ? 3 : 1;
    for (int r = 0; r < records; r++) {
        place[r] = at;
        at += planner::record_bytes[sheet[at]];
    }
    place[records] = at;
    return records;
}

// A part is the sheet's front, up to the record that is left out, and behind it the records that stay, which are held at the end of `rest`.
static uint32_t clashes(const uint8_t *sheet, size_t length, uint32_t *numbers, size_t numbers_len, size_t *count) {
    const uint32_t verdict = standplan_judge(sheet, length, true);
    if (!impossible(verdict)) return verdict < STANDPLAN_REFUSED || verdict == STANDPLAN_REFUSED + STANDPLAN_WAITS_CLASH ? STANDPLAN_REFUSED + STANDPLAN_NOT_IMPOSSIBLE : verdict;
    int place[planner::most_records + 1];
    uint8_t part[STANDPLAN_MAX_SHEET], rest[STANDPLAN_MAX_SHEET];
    uint32_t stay[planner::most_records];
    int begin = STANDPLAN_MAX_SHEET, stays = 0;
    for (int r = places(sheet, place) - 1; r >= 0; r--) {
        const int records = r + stays, left = STANDPLAN_MAX_SHEET - begin, size = place[r + 1] - place[r];
        std::memcpy(part, sheet, size_t(place[r]));
        std::memcpy(part + place[r], rest + begin, size_t(left));
        part[1] = uint8_t(records), part[2] = uint8_t(records >> 8);
        if (impossible(standplan_judge(part, size_t(place[r] + left), true))) continue;
        begin -= size;
        std::memcpy(rest + begin, sheet + place[r], size_t(size));
        stay[stays++] = uint32_t(r);
    }
    if (numbers_len < size_t(stays)) return STANDPLAN_REFUSED + STANDPLAN_TOO_SHORT;
    for (int k = 0; k < stays; k++) numbers[k] = stay[stays - 1 - k];
    *count = size_t(stays);
    return 0;
}

extern const Row each_written_row = {"each part written", "by hand, each part written as a sheet and judged by this library", standplan_judge, nullptr, nullptr, nullptr, clashes};
