#include "writer.h"

#include <algorithm>
#include <utility>
#include <vector>

namespace {

constexpr size_t most_steps = 64, most_records = 512;
constexpr uint32_t refused = 256;
constexpr int fields = 4; // of a link record: at least, at most, gap, at most from the finish

// A step and a link record, as they are lent.
struct Step { uint16_t map, ticks; };
struct Record { uint16_t map, i, j, field[fields]; };

using Steps = std::vector<Step>;
using Records = std::vector<Record>;

// Those that are there whole, the first `most` of them at most.
template <class Part> std::vector<Part> there(const uint16_t *numbers, size_t length, size_t most) {
    static_assert(sizeof(Part) % sizeof(uint16_t) == 0, "numbers only");
    std::vector<Part> parts(std::min(most, length * sizeof(uint16_t) / sizeof(Part)));
    const uint8_t *from = reinterpret_cast<const uint8_t *>(numbers);
    std::copy(from, from + parts.size() * sizeof(Part), reinterpret_cast<uint8_t *>(parts.data()));
    return parts;
}

std::pair<int, int> pair_of(const Record &record) { return {record.i, record.j}; }
bool rises(const Record &one, const Record &other) { return pair_of(one) < pair_of(other); }
bool same_pair(const Record &one, const Record &other) { return pair_of(one) == pair_of(other); }

bool wrong_step(const Step &step) { return step.map != 0 && step.map != 1 && step.map != 2 && step.map != 5; }

// No link, a bit that is not known, or a gap without after.
bool wrong_record(const Record &record) { return record.map == 0 || record.map > 31 || (record.map & 9) == 8; }

bool limit_without_after(const Record &record) { return (record.map & 17) == 16; }

// The faults of the parts, by number; the records rise, pairs that come twice beside each other.
uint32_t fault_of(size_t n, const Steps &steps, const Records &records) {
    auto some = [&](auto wrong) { return std::any_of(records.begin(), records.end(), wrong); };
    if (!steps.empty() && steps[0].map != 1) return 4;
    if (std::any_of(steps.begin(), steps.end(), wrong_step) || some(wrong_record)) return 4;
    if (some(limit_without_after)) return 26;
    if (some([&](const Record &record) { return record.i >= n || record.j >= n || record.i == record.j; })) return 5;
    return std::adjacent_find(records.begin(), records.end(), same_pair) != records.end() ? 6 : 0;
}

void put_two(std::vector<uint8_t> &sheet, size_t number) {
    sheet.push_back(uint8_t(number % 256));
    sheet.push_back(uint8_t(number / 256));
}

// Only a fixed duration of 0 is left out.
void put_step(std::vector<uint8_t> &sheet, const Step &step) {
    const bool left_out = step.map == 2 && step.ticks == 0;
    sheet.push_back(uint8_t(left_out ? 0 : step.map));
    if (step.map > 1 && !left_out) put_two(sheet, step.ticks);
}

void put_record(std::vector<uint8_t> &sheet, const Record &record) {
    for (uint16_t number : {record.map, record.i, record.j}) sheet.push_back(uint8_t(number));
    for (int k = 0; k < fields; k++)
        if (record.map >> (k + 1) & 1) put_two(sheet, record.field[k]);
}

} // namespace

uint32_t second_write(size_t n, const uint16_t *steps, size_t steps_len, size_t r, const uint16_t *records, size_t records_len, uint8_t *buffer, size_t buffer_len, size_t *length) {
    if (n < 1 || n > most_steps) return refused + 2;
    if (r > most_records) return refused + 3;
    const Steps all_steps = there<Step>(steps, steps_len, n);
    Records rising = there<Record>(records, records_len, r);
    std::sort(rising.begin(), rising.end(), rises);
    if (const uint32_t fault = fault_of(n, all_steps, rising)) return refused + fault;
    if (all_steps.size() < n || rising.size() < r) return refused + 14;
    std::vector<uint8_t> sheet{uint8_t(n)};
    put_two(sheet, r);
    for (const Step &step : all_steps) put_step(sheet, step);
    for (const Record &record : rising) put_record(sheet, record);
    if (sheet.size() > buffer_len) return refused + 14;
    std::copy(sheet.begin(), sheet.end(), buffer);
    *length = sheet.size();
    return 0;
}
