// Random parts of sheets, as the numbers that the writer is lent (request L4).
#pragma once

#include "draw.hpp"

constexpr size_t step_numbers = 2, record_numbers = 7; // numbers of a step (map, ticks) and of a record (map, i, j, at least, at most, gap, at most from the finish)
constexpr size_t most_records_lent = most_links + 88;
constexpr size_t longest_step_numbers = step_numbers * (most_steps + 64), longest_record_numbers = record_numbers * most_records_lent + record_numbers - 1;
constexpr size_t longest_buffer = longest_sheet + 64;

using Fields = std::vector<uint16_t>;

struct Parts {
    size_t n = 0, r = 0; // the counts, as they are said to be
    Fields steps, records;

    bool operator==(const Parts &other) const { return n == other.n && r == other.r && steps == other.steps && records == other.records; }
};

// Parts with or without faults: of counts, maps, pairs, and of how many numbers are lent.
Parts draw_parts(Random &random);

// The parts of a whole sheet, its records rising. Numbers that are not looked at are 0.
Parts parts_of(const Bytes &sheet);

// Parts without a fault as those of their sheet: records rising, what is not looked at left out, no fixed duration of 0.
Parts as_written(const Parts &parts);

// Whether the records of parts without a fault rise.
bool pairs_rise(const Parts &parts);

// The same parts with their records in any order, and with numbers from anywhere where none is looked at.
Parts mixed_up(Random &random, const Parts &parts);

// How many fixed durations of a whole sheet are written as 0.
size_t written_zeros(const Bytes &sheet);

// How many bytes are lent for a sheet of so many: often exactly enough, or one too few.
size_t draw_room(Random &random, size_t size);
