// Random inputs, all from one number.
#pragma once

#include <cstddef>
#include <cstdint>
#include <initializer_list>
#include <vector>

class Random {
    uint64_t state;

public:
    explicit Random(uint64_t seed) : state(seed) {}
    Random(uint64_t seed, uint64_t kind, uint64_t number) : state(seed) {
        state = next() ^ kind;
        state = next() ^ number;
        next();
    }

    // splitmix64
    uint64_t next() {
        uint64_t z = state += 0x9e3779b97f4a7c15;
        z = (z ^ z >> 30) * 0xbf58476d1ce4e5b9;
        z = (z ^ z >> 27) * 0x94d049bb133111eb;
        return z ^ z >> 31;
    }
    // 0 to count - 1, for a count above 0
    uint32_t below(uint32_t count) { return uint32_t((next() >> 32) * count >> 32); }
    uint32_t from(uint32_t least, uint32_t most) { return least + below(most - least + 1); }
    bool chance(uint32_t percent) { return below(100) < percent; }
};

inline uint32_t any_of(Random &random, std::initializer_list<uint32_t> numbers) { return numbers.begin()[random.below(uint32_t(numbers.size()))]; }

using Bytes = std::vector<uint8_t>;
using Numbers = std::vector<uint32_t>;
using Leasts = std::vector<uint16_t>;

constexpr size_t most_steps = 64, most_links = 512, longest_record = 11;
constexpr size_t longest_sheet = 3 + 3 * most_steps - 2 + longest_record * most_links; // step 0 has no field
constexpr size_t longest_input = longest_sheet + 1200;                                // sheets with bytes that follow
constexpr uint8_t forward_bits = 3, field_bits = 30; // of a link map: after and at least; those with a field of two bytes
constexpr uint8_t step_field_bits = 6;               // of a step map: those with a field of two bytes
constexpr size_t longest_table = most_steps * most_steps + 64;
constexpr size_t longest_list = most_steps + 64;
constexpr size_t longest_leasts = most_steps + 64;
constexpr uint32_t register_entries = 1024; // of the printed table
constexpr size_t longest_report = most_links + 64;
constexpr uint32_t heaviest_field = 65535, longest_duration = 16777215;
constexpr uint32_t largest_offset = heaviest_field + (most_steps - 2) * 2 * heaviest_field; // a gap after step 0, then a duration and a gap at each link

// A sheet of any kind: whole, damaged, cut, with bytes that follow, or bytes from anywhere.
Bytes draw_input(Random &random);

// A whole sheet that is likely to be accepted; of few ticks where short_run stands.
Bytes draw_good_sheet(Random &random, bool short_run);

// The bytes of a step record, by its map.
inline size_t step_size(uint8_t map) { return 1 + 2 * size_t(__builtin_popcount(map & step_field_bits)); }

// Where the step records of a sheet begin, as far as they go.
std::vector<size_t> steps_of(const Bytes &sheet);

// Whether a step of a whole sheet has a least duration above 0.
bool has_leasts(const Bytes &sheet);

// Whether a list of durations for a whole sheet is wrong by entries below their leasts alone.
bool only_below_least(const Bytes &sheet, const Numbers &list);

// The map of the steps of a whole sheet that no forward link enters, without step 0.
uint64_t loose_steps(const Bytes &sheet);

// Where the link records of a sheet begin.
std::vector<size_t> records_of(const Bytes &sheet);

// How many link records a sheet says that it has.
inline size_t record_count(const Bytes &sheet) { return sheet.size() < 3 ? 0 : sheet[1] | size_t(sheet[2]) << 8; }

// A whole sheet with the link records of these numbers alone; they rise.
Bytes part_of(const Bytes &sheet, const Numbers &records);

// A list of durations for the sheet, mostly a good one, entries at, above and now and then below their leasts; all of it from anywhere where the sheet is not whole.
Numbers draw_list(Random &random, const Bytes &sheet);

// How many numbers are lent for an answer of `answer` numbers: mostly enough, at most `most`.
size_t draw_length(Random &random, size_t answer, size_t most);

// How many are lent for a report of `answer` records: none, one too few, exactly enough, more, or as many as any sheet needs.
size_t draw_report_length(Random &random, size_t answer);

// Numbers as they lie in lent memory before a call.
Numbers draw_numbers(Random &random, size_t count);

// Least durations from anywhere.
Leasts draw_leasts(Random &random, size_t count);

// A table of n by n numbers from anywhere.
Numbers draw_table(Random &random, size_t n);
