#include "parts.hpp"

#include <algorithm>
#include <utility>

namespace {

constexpr uint16_t after = 1, with_gap = 8, from_finish = 16, all_bits = 31;       // of a link map
constexpr uint16_t no_ticks = 0, open = 1, with_ticks = 2, with_least = 5;          // the maps of a step
enum Place : size_t { at_map, at_i, at_j, at_fields }; // in a record

// A field: often 0, with one byte of 0, or the largest.
uint16_t draw_field(Random &random) {
    const uint32_t kind = random.below(8);
    return uint16_t(kind < 6 ? any_of(random, {0, 0, 1, 255, 256, 65280, heaviest_field}) : kind == 6 ? random.below(21) : random.next());
}

uint16_t draw_step_map(Random &random) { return uint16_t(any_of(random, {no_ticks, open, with_ticks, with_ticks, with_least})); }

uint16_t draw_link_map(Random &random) {
    uint16_t map;
    do map = uint16_t(random.from(1, all_bits));
    while (!(map & after) && map & (with_gap | from_finish));
    return map;
}

void put_record(Random &random, Fields &records, uint16_t map, uint16_t i, uint16_t j) {
    records.insert(records.end(), {map, i, j});
    for (size_t k = at_fields; k < record_numbers; k++) records.push_back(draw_field(random));
}

uint32_t draw_step_count(Random &random) {
    const uint32_t kind = random.below(10);
    return kind < 2 ? random.from(1, 3) : kind < 7 ? random.from(2, 8) : kind < 9 ? random.from(9, 63) : most_steps;
}

uint32_t draw_record_count(Random &random, uint32_t most) {
    const uint32_t kind = random.below(20);
    return std::min<uint32_t>(most, kind < 2 ? kind : kind < 12 ? random.below(10) : kind < 17 ? random.below(60) : kind < 19 ? random.below(most_links + 1) : most_links);
}

// The first `count` of all pairs of n steps, in any order.
std::vector<std::pair<uint16_t, uint16_t>> draw_pairs(Random &random, uint32_t n, uint32_t count) {
    std::vector<std::pair<uint16_t, uint16_t>> pairs;
    for (uint32_t i = 0; i < n; i++)
        for (uint32_t j = 0; j < n; j++)
            if (i != j) pairs.push_back({uint16_t(i), uint16_t(j)});
    for (uint32_t k = 0; k < count; k++) std::swap(pairs[k], pairs[random.from(k, uint32_t(pairs.size()) - 1)]);
    pairs.resize(count);
    return pairs;
}

// Parts without a fault, the records in any order, at times rising or falling; now and then the longest sheet.
Parts draw_sound_parts(Random &random) {
    Parts parts;
    const bool longest = random.chance(1);
    const uint32_t n = longest ? most_steps : draw_step_count(random), r = longest ? most_links : draw_record_count(random, n * (n - 1));
    parts.n = n;
    parts.r = r;
    for (uint32_t v = 0; v < n; v++) {
        parts.steps.push_back(v == 0 ? open : longest ? with_least : draw_step_map(random));
        parts.steps.push_back(draw_field(random));
    }
    auto pairs = draw_pairs(random, n, r);
    const uint32_t order = random.below(10);
    if (order < 2) std::sort(pairs.begin(), pairs.end());
    if (order == 1) std::reverse(pairs.begin(), pairs.end());
    for (auto [i, j] : pairs) put_record(random, parts.records, longest ? all_bits : draw_link_map(random), i, j);
    return parts;
}

uint16_t &number_of(Random &random, Fields &records, Place place) { return records[record_numbers * random.below(uint32_t(records.size() / record_numbers)) + place]; }

size_t draw_count_above(Random &random, size_t most, size_t count) {
    const size_t counts[] = {most + 1, most + 1, most + 2, 255 + most, 65536 + count, (size_t(1) << 32) + count, size_t(1) << 63 | count, ~size_t(0), size_t(random.next()) | size_t(1) << 40};
    return counts[random.below(sizeof counts / sizeof *counts)];
}

// A count above all limits; at times as many are there.
void spoil_step_count(Random &random, Parts &parts) {
    parts.n = random.chance(40) ? 0 : draw_count_above(random, most_steps, parts.n);
    if (parts.n <= most_steps + 2 && random.chance(30)) parts.steps.resize(step_numbers * (most_steps + 2), open);
}

void spoil_record_count(Random &random, Parts &parts) {
    parts.r = draw_count_above(random, most_links, parts.r);
    if (parts.r <= most_links + 2 && random.chance(30))
        while (parts.records.size() < record_numbers * parts.r) put_record(random, parts.records, after, 0, 1);
}

void spoil_step_map(Random &random, Parts &parts) {
    const uint32_t v = random.chance(40) ? 0 : random.below(uint32_t(parts.steps.size() / step_numbers));
    uint16_t &map = parts.steps[step_numbers * v];
    const uint32_t was = map;
    map = uint16_t(any_of(random, {3, 4, 6, 7, was | 8u << random.below(13), 256 + was, 32768 + was, v == 0 ? 0u : 3u, v == 0 ? 2u : 4u, v == 0 ? 5u : 6u}));
}

void spoil_link_map(Random &random, Fields &records) {
    uint16_t &map = number_of(random, records, at_map);
    const uint32_t was = map, others = 2 * random.below(4);
    map = uint16_t(any_of(random, {0, 0, with_gap | others, with_gap | from_finish | others, was | 32u << random.below(11), 32u << random.below(11), 256 + was}));
}

void spoil_end(Random &random, Parts &parts) {
    const uint32_t n = uint32_t(parts.n), no_step = any_of(random, {n, n, 64, 255, 256, 256 + random.below(n), 32768 + random.below(n), heaviest_field, random.from(n, heaviest_field)});
    uint16_t *const record = &number_of(random, parts.records, at_map);
    switch (random.below(5)) {
    case 0: record[at_i] = record[at_j]; break;
    case 1: record[at_j] = record[at_i]; break;
    case 2: record[at_i] = record[at_j] = uint16_t(no_step); break;
    default: record[random.chance(50) ? at_i : at_j] = uint16_t(no_step);
    }
}

// A pair once more: with the same fields or others, beside it or elsewhere.
void repeat_pair(Random &random, Parts &parts) {
    const uint32_t count = uint32_t(parts.records.size() / record_numbers), from = random.below(count);
    Fields again(parts.records.begin() + long(record_numbers * from), parts.records.begin() + long(record_numbers * (from + 1)));
    const uint16_t i = again[at_i], j = again[at_j];
    if (random.chance(70)) {
        again.clear();
        put_record(random, again, draw_link_map(random), i, j);
    }
    const uint32_t places[] = {from + 1, 0, count, random.below(count + 1)};
    const uint32_t to = places[random.below(4)];
    if (parts.r < most_links) {
        parts.records.insert(parts.records.begin() + long(record_numbers * to), again.begin(), again.end());
        parts.r++;
    } else if (to < count && to != from) {
        std::copy(again.begin(), again.end(), parts.records.begin() + long(record_numbers * to));
    }
}

// Fewer numbers than the counts say: one too few, a part too few, or any; or larger counts.
void shorten(Random &random, size_t &count, size_t most, Fields &numbers, size_t size) {
    if (random.chance(40)) count = std::min<size_t>(most, count + any_of(random, {1, 1, 2, 64, 512}));
    else if (!numbers.empty()) numbers.resize(numbers.size() - std::min<size_t>(numbers.size(), random.chance(70) ? random.from(1, uint32_t(size)) : random.from(1, uint32_t(numbers.size()))));
}

// More numbers than the counts say, with faults that are not to be looked at.
void lengthen(Random &random, Parts &parts) {
    if (random.chance(50))
        for (uint32_t k = random.from(1, 5); k > 0; k--) parts.steps.push_back(uint16_t(random.chance(50) ? 3 : random.next()));
    if (random.chance(50) && parts.records.size() >= record_numbers && random.chance(50)) // a pair once more
        parts.records.insert(parts.records.end(), parts.records.begin(), parts.records.begin() + record_numbers);
    for (uint32_t k = random.below(20); k > 0; k--) parts.records.push_back(uint16_t(random.chance(50) ? random.below(70) : random.next()));
}

enum Fault { step_count, record_count_above, step_map, link_map, limit_alone, wrong_end, pair_twice, short_list, long_list, fault_count };

void spoil(Random &random, Fault fault, Parts &parts) {
    const bool steps = parts.steps.size() >= step_numbers, records = parts.records.size() >= record_numbers && parts.n >= 1 && parts.n <= most_steps;
    if (fault == step_count) spoil_step_count(random, parts);
    if (fault == record_count_above) spoil_record_count(random, parts);
    if (fault == step_map && steps) spoil_step_map(random, parts);
    if (fault == link_map && records) spoil_link_map(random, parts.records);
    if (fault == limit_alone && records) number_of(random, parts.records, at_map) = uint16_t(from_finish | 2 * random.below(4));
    if (fault == wrong_end && records) spoil_end(random, parts);
    if (fault == pair_twice && records) repeat_pair(random, parts);
    if (fault == short_list && random.chance(50)) shorten(random, parts.n, std::max<size_t>(parts.n, most_steps), parts.steps, step_numbers);
    else if (fault == short_list) shorten(random, parts.r, std::max<size_t>(parts.r, most_links), parts.records, record_numbers);
    if (fault == long_list) lengthen(random, parts);
}

// One whole part of a list, as it would be read.
void normalise_step(uint16_t *step) {
    if (step[0] == with_ticks && step[1] == 0) step[0] = no_ticks;
    if (step[0] != with_ticks && step[0] != with_least) step[1] = 0;
}

void normalise_record(uint16_t *record) {
    for (size_t k = at_fields; k < record_numbers; k++)
        if (!(record[at_map] >> (k - at_fields + 1) & 1)) record[k] = 0;
}

uint16_t two(const Bytes &sheet, size_t at) { return uint16_t(sheet[at] | sheet[at + 1] << 8); }

std::vector<Fields> in_records(const Fields &records, size_t count) {
    std::vector<Fields> each;
    for (size_t k = 0; k < count; k++) each.emplace_back(records.begin() + long(record_numbers * k), records.begin() + long(record_numbers * (k + 1)));
    return each;
}

Fields joined(const std::vector<Fields> &each) {
    Fields records;
    for (const Fields &record : each) records.insert(records.end(), record.begin(), record.end());
    return records;
}

bool rises(const Fields &one, const Fields &other) { return std::make_pair(one[at_i], one[at_j]) < std::make_pair(other[at_i], other[at_j]); }

} // namespace

Parts draw_parts(Random &random) {
    Parts parts = draw_sound_parts(random);
    for (uint32_t faults = any_of(random, {0, 0, 0, 1, 1, 1, 1, 2, 3}); faults > 0; faults--) spoil(random, Fault(random.below(fault_count)), parts);
    return parts;
}

Parts parts_of(const Bytes &sheet) {
    Parts parts;
    for (size_t at : steps_of(sheet)) parts.steps.insert(parts.steps.end(), {sheet[at], step_size(sheet[at]) > 1 ? two(sheet, at + 1) : uint16_t(0)});
    for (size_t at : records_of(sheet)) {
        const uint8_t map = sheet[at];
        parts.records.insert(parts.records.end(), {map, sheet[at + 1], sheet[at + 2]});
        at += 3;
        for (size_t k = at_fields; k < record_numbers; k++) {
            const bool there = map >> (k - at_fields + 1) & 1;
            parts.records.push_back(there ? two(sheet, at) : uint16_t(0));
            if (there) at += 2;
        }
    }
    parts.n = parts.steps.size() / step_numbers;
    parts.r = parts.records.size() / record_numbers;
    return parts;
}

Parts as_written(const Parts &parts) {
    Parts same{parts.n, parts.r, {}, {}};
    same.steps.assign(parts.steps.begin(), parts.steps.begin() + long(step_numbers * parts.n));
    for (size_t v = 0; v < parts.n; v++) normalise_step(&same.steps[step_numbers * v]);
    std::vector<Fields> records = in_records(parts.records, parts.r);
    std::sort(records.begin(), records.end(), rises);
    for (Fields &record : records) normalise_record(record.data());
    same.records = joined(records);
    return same;
}

bool pairs_rise(const Parts &parts) {
    const std::vector<Fields> records = in_records(parts.records, parts.r);
    return std::is_sorted(records.begin(), records.end(), rises);
}

Parts mixed_up(Random &random, const Parts &parts) {
    Parts mixed = parts;
    std::vector<Fields> records = in_records(parts.records, parts.r);
    for (size_t k = records.size(); k > 1; k--) std::swap(records[k - 1], records[random.below(uint32_t(k))]);
    for (Fields &record : records)
        for (size_t k = at_fields; k < record_numbers; k++)
            if (!(record[at_map] >> (k - at_fields + 1) & 1)) record[k] = draw_field(random);
    mixed.records = joined(records);
    for (size_t v = 0; v < parts.n; v++)
        if (mixed.steps[step_numbers * v] < with_ticks) mixed.steps[step_numbers * v + 1] = draw_field(random);
    return mixed;
}

size_t written_zeros(const Bytes &sheet) {
    size_t zeros = 0;
    for (size_t at : steps_of(sheet)) zeros += sheet[at] == with_ticks && two(sheet, at + 1) == 0;
    return zeros;
}

size_t draw_room(Random &random, size_t size) {
    const uint32_t kind = random.below(100);
    size_t room = kind < 45 ? size : kind < 60 ? size - 1 : kind < 75 ? size + random.from(1, 20) : kind < 85 ? longest_sheet : kind < 92 ? random.below(uint32_t(size)) : kind < 96 ? 0 : longest_buffer;
    return std::min(room, longest_buffer);
}
