#include "planted.hpp"

#include <algorithm>

namespace {

// Kept by the compiler though nothing is done with it.
volatile uint32_t seen;

// What the writer is lent.
struct Lending {
    size_t n;
    const uint16_t *steps;
    size_t steps_len, r;
    const uint16_t *records;
    size_t records_len;
    uint8_t *buffer;
    size_t buffer_len, *length;

    uint32_t write() const { return standplan_write(n, steps, steps_len, r, records, records_len, buffer, buffer_len, length); }
    size_t records_there() const { return std::min(r, records_len / record_numbers); }
    const uint16_t *record(size_t k) const { return records + record_numbers * k; }

    // Whether a record that is there, among those that count, is such a one.
    template <class Such> bool some(Such such) const {
        for (size_t k = 0; k < records_there(); k++)
            if (such(record(k))) return true;
        return false;
    }

    // With other steps or records; what is written goes to the same buffer.
    uint32_t write_steps(const Fields &other) const { return standplan_write(n, other.data(), steps_len, r, records, records_len, buffer, buffer_len, length); }
    uint32_t write_records(const Fields &other) const { return standplan_write(n, steps, steps_len, r, other.data(), records_len, buffer, buffer_len, length); }
    Fields all_steps() const { return copy(steps, steps_len); }
    Fields all_records() const { return copy(records, records_len); }
    static Fields copy(const uint16_t *numbers, size_t count) {
        Fields fields(numbers, numbers + count);
        fields.reserve(1); // there is an address
        return fields;
    }

    Bytes written() const { return {buffer, buffer + *length}; }
    // Another sheet in the place of the one that was written, if there is room.
    void put(const Bytes &sheet) const {
        if (sheet.size() > buffer_len) return;
        std::copy(sheet.begin(), sheet.end(), buffer);
        *length = sheet.size();
    }
};

// A writer with a fault: what it does with what it is lent.
template <uint32_t fault(const Lending &)> uint32_t faulty_write(size_t n, const uint16_t *steps, size_t steps_len, size_t r, const uint16_t *records, size_t records_len, uint8_t *buffer, size_t buffer_len, size_t *length) {
    return fault({n, steps, steps_len, r, records, records_len, buffer, buffer_len, length});
}

template <uint32_t fault(const Lending &)> Planted in_writes(const char *what, const char *noticed) {
    Planted planted{what, noticed, {}, write_kind};
    planted.calls.write = faulty_write<fault>;
    return planted;
}

uint32_t reads_past_steps(const Lending &lent) {
    seen = lent.steps[lent.steps_len];
    return lent.write();
}

uint32_t reads_before_records(const Lending &lent) {
    seen = lent.records[-1];
    return lent.write();
}

uint32_t reads_a_whole_record_past_records(const Lending &lent) {
    const uint32_t verdict = lent.write();
    if (verdict == 256 + 14) seen = lent.records[lent.records_len + record_numbers - 1];
    return verdict;
}

uint32_t reads_all_that_is_said(const Lending &lent) {
    if (lent.n <= 64 && lent.r <= 512 && lent.n > lent.steps_len / step_numbers) seen = lent.steps[step_numbers * lent.n - 1];
    return lent.write();
}

uint32_t changes_steps(const Lending &lent) {
    const uint32_t verdict = lent.write();
    if (lent.steps_len > 0) const_cast<uint16_t *>(lent.steps)[lent.steps_len - 1] ^= 1;
    return verdict;
}

// Sorts what is lent.
uint32_t changes_records(const Lending &lent) {
    const uint32_t verdict = lent.write();
    if (verdict == 0 && lent.r > 1 && lent.record(0)[1] > lent.record(1)[1]) {
        uint16_t *const first = const_cast<uint16_t *>(lent.records);
        std::swap_ranges(first, first + record_numbers, first + record_numbers);
    }
    return verdict;
}

uint32_t writes_past_sheet(const Lending &lent) {
    const uint32_t verdict = lent.write();
    if (verdict == 0 && *lent.length < lent.buffer_len) lent.buffer[*lent.length] ^= 1;
    return verdict;
}

uint32_t writes_past_buffer(const Lending &lent) {
    const uint32_t verdict = lent.write();
    if (verdict == 0) lent.buffer[lent.buffer_len] = 0;
    return verdict;
}

uint32_t writes_before_buffer(const Lending &lent) {
    const uint32_t verdict = lent.write();
    if (verdict == 0) lent.buffer[-1] ^= 1;
    return verdict;
}

// Writes as far as there is room, then refuses.
uint32_t writes_what_fits(const Lending &lent) {
    const uint32_t verdict = lent.write();
    if (verdict == 256 + 14 && lent.buffer_len > 0) lent.buffer[0] = uint8_t(lent.n + 1);
    return verdict;
}

uint32_t clears_buffer_on_5(const Lending &lent) {
    const uint32_t verdict = lent.write();
    if (verdict == 256 + 5 && lent.buffer_len > 0) lent.buffer[lent.buffer_len - 1] ^= 255;
    return verdict;
}

uint32_t length_on_refusal(const Lending &lent) {
    const uint32_t verdict = lent.write();
    if (verdict == 256 + 14) *lent.length = lent.buffer_len + 1;
    return verdict;
}

uint32_t length_0_on_refusal(const Lending &lent) {
    const uint32_t verdict = lent.write();
    if (verdict == 256 + 2) *lent.length = 0;
    return verdict;
}

uint32_t half_a_length(const Lending &lent) {
    const size_t before = *lent.length;
    const uint32_t verdict = lent.write();
    if (verdict == 0) *lent.length |= before >> 32 << 32;
    return verdict;
}

uint32_t refuses_just_enough(const Lending &lent) {
    size_t length = 0;
    Bytes whole(longest_sheet);
    Lending other = lent;
    other.buffer = whole.data();
    other.buffer_len = whole.size();
    other.length = &length;
    return other.write() == 0 && length == lent.buffer_len ? uint32_t(256 + 14) : lent.write();
}

uint32_t records_as_they_come(const Lending &lent) {
    const uint32_t verdict = lent.write();
    if (verdict != 0 || lent.r < 2) return verdict;
    const Bytes sheet = lent.written();
    std::vector<size_t> begins = records_of(sheet);
    begins.push_back(sheet.size());
    Bytes other(sheet.begin(), sheet.begin() + long(begins[0]));
    for (size_t k = 0; k < lent.r; k++)
        for (size_t at = 0; at < lent.r; at++)
            if (sheet[begins[at] + 1] == lent.record(k)[1] && sheet[begins[at] + 2] == lent.record(k)[2]) other.insert(other.end(), sheet.begin() + long(begins[at]), sheet.begin() + long(begins[at + 1]));
    lent.put(other);
    return verdict;
}

// Rising by j, then by i.
uint32_t records_by_j(const Lending &lent) {
    const uint32_t verdict = lent.write();
    if (verdict != 0) return verdict;
    const Bytes sheet = lent.written();
    const std::vector<size_t> begins = records_of(sheet);
    Numbers order(begins.size());
    for (size_t k = 0; k < order.size(); k++) order[k] = uint32_t(k);
    std::stable_sort(order.begin(), order.end(), [&](uint32_t one, uint32_t other) { return sheet[begins[one] + 2] < sheet[begins[other] + 2]; });
    lent.put(part_of(sheet, order));
    return verdict;
}

// A duration of 0 written.
uint32_t writes_zeros(const Lending &lent) {
    const uint32_t verdict = lent.write();
    if (verdict != 0) return verdict;
    Bytes sheet = lent.written();
    for (size_t at : steps_of(sheet))
        if (sheet[at] == 0) {
            sheet[at] = 2;
            sheet.insert(sheet.begin() + long(at) + 1, 2, 0);
            lent.put(sheet);
            break;
        }
    return verdict;
}

// A least of 0 left out.
uint32_t leaves_out_leasts(const Lending &lent) {
    Fields other = lent.all_steps();
    for (size_t v = 1; step_numbers * v + 1 < other.size(); v++)
        if (other[step_numbers * v] == 5 && other[step_numbers * v + 1] == 0) other[step_numbers * v] = 1;
    return lent.write_steps(other);
}

// A field of 0 left out: the gap.
uint32_t leaves_out_gaps(const Lending &lent) {
    Fields other = lent.all_records();
    for (size_t at = 0; at + record_numbers <= other.size(); at += record_numbers)
        if ((other[at] & 9) == 9 && other[at] < 32 && other[at + 5] == 0) other[at] &= uint16_t(~8);
    return lent.write_records(other);
}

// The fields of a record in another order.
uint32_t swaps_fields(const Lending &lent) {
    Fields other = lent.all_records();
    for (size_t at = 0; at + record_numbers <= other.size(); at += record_numbers)
        if ((other[at] & 24) == 24) std::swap(other[at + 5], other[at + 6]);
    return lent.write_records(other);
}

// High byte first.
uint32_t swaps_bytes(const Lending &lent) {
    Fields other = lent.all_steps();
    for (size_t k = 1; k < other.size(); k += step_numbers) other[k] = uint16_t(other[k] << 8 | other[k] >> 8);
    return lent.write_steps(other);
}

// The ticks of a step without a field.
uint32_t looks_at_ticks(const Lending &lent) {
    Fields other = lent.all_steps();
    for (size_t k = 0; k + 1 < other.size(); k += step_numbers)
        if (other[k] == 0 && other[k + 1] != 0) other[k] = 2;
    return lent.write_steps(other);
}

uint32_t ignores_unknown_bits(const Lending &lent) {
    Fields other = lent.all_records();
    for (size_t at = 0; at < other.size(); at += record_numbers) other[at] &= 31;
    return lent.write_records(other);
}

uint32_t cuts_step_maps(const Lending &lent) {
    Fields other = lent.all_steps();
    for (size_t at = 0; at < other.size(); at += step_numbers) other[at] &= 255;
    return lent.write_steps(other);
}

uint32_t cuts_ends(const Lending &lent) {
    Fields other = lent.all_records();
    for (size_t at = 0; at + 2 < other.size(); at += record_numbers) {
        other[at + 1] &= 255;
        other[at + 2] &= 255;
    }
    return lent.write_records(other);
}

uint32_t cuts_n(const Lending &lent) {
    Lending other = lent;
    other.n = uint32_t(lent.n);
    return other.write();
}

uint32_t cuts_r(const Lending &lent) {
    Lending other = lent;
    other.r = uint16_t(lent.r);
    return other.write();
}

uint32_t takes_513(const Lending &lent) {
    const uint32_t verdict = lent.write();
    if (verdict != 256 + 3 || lent.r != 513) return verdict;
    Lending other = lent;
    other.r = 512;
    return other.write();
}

// Records past the count are looked at.
uint32_t counts_what_is_lent(const Lending &lent) {
    const uint32_t verdict = lent.write();
    if (verdict >= 256) return verdict;
    Lending other = lent;
    other.r = lent.records_len / record_numbers;
    return other.write();
}

// What is not there whole is taken as if it went on with 0.
uint32_t fills_up(const Lending &lent) {
    Fields other = lent.all_records();
    Lending longer = lent;
    other.resize((other.size() + record_numbers - 1) / record_numbers * record_numbers);
    longer.records = other.data();
    longer.records_len = other.size();
    return other.empty() ? lent.write() : longer.write();
}

uint32_t takes_any_start(const Lending &lent) {
    Fields other = lent.all_steps();
    if (!other.empty() && other[0] == 5) other[0] = 1;
    return lent.write_steps(other);
}

// Pairs that come twice beside each other alone are found.
uint32_t twice_next_to_it(const Lending &lent) {
    const uint32_t verdict = lent.write();
    if (verdict != 256 + 6) return verdict;
    for (size_t k = 0; k + 1 < lent.records_there(); k++)
        if (std::equal(lent.record(k) + 1, lent.record(k) + 3, lent.record(k + 1) + 1)) return verdict;
    return 0;
}

uint32_t twice_with_the_same_map(const Lending &lent) {
    const uint32_t verdict = lent.write();
    if (verdict != 256 + 6) return verdict;
    for (size_t k = 0; k < lent.records_there(); k++)
        for (size_t other = 0; other < k; other++)
            if (std::equal(lent.record(k), lent.record(k) + 3, lent.record(other))) return verdict;
    return 0;
}

uint32_t limit_before_map(const Lending &lent) {
    const uint32_t verdict = lent.write();
    return verdict == 256 + 4 && lent.some([](const uint16_t *record) { return record[0] < 32 && (record[0] & 17) == 16; }) ? uint32_t(256 + 26) : verdict;
}

uint32_t pair_before_limit(const Lending &lent) {
    const uint32_t verdict = lent.write();
    return verdict == 256 + 26 && lent.some([&](const uint16_t *record) { return record[1] >= lent.n || record[2] >= lent.n || record[1] == record[2]; }) ? uint32_t(256 + 5) : verdict;
}

// The first record with a fault decides, as it does where a sheet is read.
uint32_t first_fault_met(const Lending &lent) {
    const uint32_t verdict = lent.write();
    if (verdict != 256 + 4 || lent.steps_len < step_numbers || lent.steps[0] != 1) return verdict;
    for (size_t k = 0; k < lent.records_there(); k++) {
        const uint16_t *const record = lent.record(k);
        if (record[0] == 0 || record[0] > 31 || (record[0] & 9) == 8) return verdict;
        if (record[1] >= lent.n || record[2] >= lent.n || record[1] == record[2]) return 256 + 5;
    }
    return verdict;
}

uint32_t room_before_pairs(const Lending &lent) {
    const uint32_t verdict = lent.write();
    return verdict == 256 + 6 && lent.buffer_len == 0 ? uint32_t(256 + 14) : verdict;
}

uint32_t list_before_pairs(const Lending &lent) {
    const uint32_t verdict = lent.write();
    return verdict == 256 + 5 && lent.records_len / record_numbers < lent.r ? uint32_t(256 + 14) : verdict;
}

uint32_t count_3_before_2(const Lending &lent) {
    const uint32_t verdict = lent.write();
    return verdict == 256 + 2 && lent.r > 512 ? uint32_t(256 + 3) : verdict;
}

} // namespace

std::vector<Planted> planted_in_writes() {
    return {
        in_writes<reads_past_steps>("reads one number past the steps", "signal 11"),
        in_writes<reads_before_records>("reads one number before the records", "signal 11"),
        in_writes<reads_a_whole_record_past_records>("reads a record past those that are lent", "signal 11"),
        in_writes<reads_all_that_is_said>("reads as many steps as there are said to be", "signal 11"),
        in_writes<changes_steps>("changes the steps", "other numbers in the steps"),
        in_writes<changes_records>("sorts the records where they lie", "other numbers in the records"),
        in_writes<writes_past_sheet>("writes one byte past the sheet, in lent memory", "other numbers in the buffer"),
        in_writes<writes_past_buffer>("writes one byte past the buffer", "signal 11"),
        in_writes<writes_before_buffer>("writes one byte before the buffer", "wrote outside the buffer"),
        in_writes<writes_what_fits>("writes what there is room for, and refuses 14", "other numbers in the buffer"),
        in_writes<clears_buffer_on_5>("changes the buffer on a refusal 5", "other numbers in the buffer"),
        in_writes<length_on_refusal>("a length on a refusal 14", "other numbers in the length"),
        in_writes<length_0_on_refusal>("a length of 0 on a refusal 2", "other numbers in the length: 0 at 0"),
        in_writes<half_a_length>("half a length", "other numbers in the length"),
        in_writes<refuses_just_enough>("a buffer that is just long enough refused", "verdict 270, expected 0"),
        in_writes<records_as_they_come>("records in the order in which they come", "other numbers in the buffer"),
        in_writes<records_by_j>("records by j, then by i", "other numbers in the buffer"),
        in_writes<writes_zeros>("a fixed duration of 0 written", "other numbers in the buffer"),
        in_writes<leaves_out_leasts>("a least of 0 left out", "write: "),
        in_writes<leaves_out_gaps>("a gap of 0 left out", "write: "),
        in_writes<swaps_fields>("the gap after the limit from the finish", "other numbers in the buffer"),
        in_writes<swaps_bytes>("durations with the high byte first", "other numbers in the buffer"),
        in_writes<looks_at_ticks>("ticks that no bit stands for", "write: "),
        in_writes<ignores_unknown_bits>("unknown bits of a link map overlooked", ", expected 260"),
        in_writes<cuts_step_maps>("the high byte of a step map overlooked", ", expected 260"),
        in_writes<takes_any_start>("a least on step 0 overlooked", ", expected 260"),
        in_writes<cuts_ends>("the high byte of an end overlooked", ", expected 261"),
        in_writes<cuts_n>("a step count cut to 32 bits", ", expected 258"),
        in_writes<cuts_r>("a record count cut to 16 bits", ", expected 259"),
        in_writes<takes_513>("513 records taken", ", expected 259"),
        in_writes<counts_what_is_lent>("records past the count looked at", "write: "),
        in_writes<fills_up>("a record that is not there whole taken", "write: verdict "),
        in_writes<twice_next_to_it>("a pair that comes twice, not side by side, taken", "verdict 0, expected 262"),
        in_writes<twice_with_the_same_map>("a pair that comes twice with other links taken", "verdict 0, expected 262"),
        in_writes<count_3_before_2>("3 before 2", "verdict 259, expected 258"),
        in_writes<limit_before_map>("26 before 4", "verdict 282, expected 260"),
        in_writes<pair_before_limit>("5 before 26", "verdict 261, expected 282"),
        in_writes<first_fault_met>("the fault of the first record that has one", "verdict 261, expected 260"),
        in_writes<room_before_pairs>("14 for the buffer before 6", "verdict 270, expected 262"),
        in_writes<list_before_pairs>("14 for a list before 5", "verdict 270, expected 261"),
    };
}
