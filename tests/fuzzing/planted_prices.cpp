#include "planted.hpp"

#include <algorithm>

namespace {

// Kept by the compiler though nothing is done with it.
volatile uint32_t seen;

// What pricing is lent.
struct Lending {
    const uint8_t *sheet;
    size_t sheet_len;
    bool allow;
    uint32_t *registers;
    size_t registers_len;
    uint32_t *comparisons;
    size_t comparisons_len;
    uint32_t *totals;

    uint32_t price() const { return standplan_price(sheet, sheet_len, allow, registers, registers_len, comparisons, comparisons_len, totals); }
    size_t n() const { return sheet[0]; }

    // The plan of a sheet that is priced, or refused 19.
    Numbers plan() const {
        Numbers table(most_steps * most_steps);
        seen = standplan_plan(sheet, sheet_len, allow, table.data(), table.size());
        return table;
    }
    // The largest offset of a step in it.
    uint32_t largest(size_t a) const {
        const Numbers table = plan();
        uint32_t found = 0;
        for (size_t v = 0; v < n(); v++)
            if (table[v * n() + a] != STANDPLAN_UNDECIDED) found = std::max(found, table[v * n() + a]);
        return found;
    }
    uint32_t largest() const {
        uint32_t found = 0;
        for (size_t a = 0; a < n(); a++) found = std::max(found, largest(a));
        return found;
    }
};

// A price with a fault: what it does with what it is lent.
template <uint32_t fault(const Lending &)> uint32_t faulty_price(const uint8_t *sheet, size_t sheet_len, bool allow, uint32_t *registers, size_t registers_len, uint32_t *comparisons, size_t comparisons_len, uint32_t *totals) {
    return fault({sheet, sheet_len, allow, registers, registers_len, comparisons, comparisons_len, totals});
}

template <uint32_t fault(const Lending &)> Planted in_prices(const char *what, const char *noticed) {
    Planted planted{what, noticed, {}, sheet_kind};
    planted.calls.price = faulty_price<fault>;
    return planted;
}

// A price that is changed after it is given.
template <void change(const Lending &)> uint32_t priced_then(const Lending &lent) {
    const uint32_t verdict = lent.price();
    if (verdict < 256) change(lent);
    return verdict;
}

// The number of bits of a largest offset: one more than the table has where it is a power of two, and for 0 and 1 the same as for others.
void bits(const Lending &lent) {
    for (size_t a = 0; a < lent.n(); a++) {
        const uint32_t offset = lent.largest(a);
        if (offset > 1) lent.registers[a] = uint32_t(32 - __builtin_clz(offset));
    }
}
void floor(const Lending &lent) {
    for (size_t a = 0; a < lent.n(); a++) {
        const uint32_t offset = lent.largest(a);
        if (offset > 1) lent.registers[a] = uint32_t(31 - __builtin_clz(offset));
    }
}
void one_for_none(const Lending &lent) {
    if (lent.registers[0] == 0) lent.registers[0] = 1;
}
void smallest(const Lending &lent) { // the least offset of step 0 in the place of the largest one: that of step 0, 0
    lent.registers[0] = 0;
}
void one_less_compared(const Lending &lent) { lent.comparisons[lent.n() - 1]--; }
void itself_not_compared(const Lending &lent) { lent.comparisons[0] = 0; }
void totals_swapped(const Lending &lent) { std::swap(lent.totals[0], lent.totals[1]); }
void total_without_start(const Lending &lent) { lent.totals[0] -= lent.registers[0]; }
void total_of_all_lent(const Lending &lent) {
    for (size_t k = lent.n(); k < lent.comparisons_len; k++) lent.totals[1] += lent.comparisons[k];
}
void past_answer(const Lending &lent) {
    if (lent.registers_len > lent.n()) lent.registers[lent.n()] = 0;
}
void past_comparisons(const Lending &lent) { lent.comparisons[lent.comparisons_len] = 0; }
void past_totals(const Lending &lent) { lent.totals[2] = 0; }
void before_registers(const Lending &lent) { lent.registers[-1] = 0; }

// Faults in refusals.
uint32_t totals_of_0(const Lending &lent) {
    const uint32_t verdict = lent.price();
    if (verdict >= 256) lent.totals[0] = lent.totals[1] = 0;
    return verdict;
}
uint32_t written_on_19(const Lending &lent) {
    const uint32_t verdict = lent.price();
    if (verdict == 256 + 19 && lent.registers_len > 0) lent.registers[0] = 0;
    return verdict;
}
uint32_t waits_allowed(const Lending &lent) {
    return standplan_price(lent.sheet, lent.sheet_len, true, lent.registers, lent.registers_len, lent.comparisons, lent.comparisons_len, lent.totals);
}
uint32_t short_before_large(const Lending &lent) {
    const uint32_t verdict = lent.price();
    return verdict == 256 + 19 && (lent.registers_len < lent.n() || lent.comparisons_len < lent.n()) ? 256 + 14 : verdict;
}
uint32_t large_before_waits(const Lending &lent) {
    const uint32_t verdict = lent.price();
    // Asked on lists of its own: what is lent stays.
    Numbers registers(most_steps), comparisons(most_steps), totals(2);
    const auto with_waits = [&] { return standplan_price(lent.sheet, lent.sheet_len, true, registers.data(), most_steps, comparisons.data(), most_steps, totals.data()); };
    return verdict == 256 + 12 && with_waits() == 256 + 19 ? 256 + 19 : verdict;
}
uint32_t last_entry_refused(const Lending &lent) {
    const uint32_t judged = standplan_judge(lent.sheet, lent.sheet_len, lent.allow);
    return judged < 256 && lent.largest() == register_entries - 1 ? 256 + 19 : lent.price();
}
uint32_t one_entry_more(const Lending &lent) {
    const uint32_t verdict = lent.price();
    return verdict == 256 + 19 && lent.largest() == register_entries ? standplan_judge(lent.sheet, lent.sheet_len, lent.allow) : verdict;
}
uint32_t comparisons_not_measured(const Lending &lent) {
    const uint32_t verdict = lent.price();
    return verdict == 256 + 14 && lent.registers_len >= lent.n() ? standplan_judge(lent.sheet, lent.sheet_len, lent.allow) : verdict;
}

} // namespace

std::vector<Planted> planted_in_prices() {
    return {
        in_prices<priced_then<bits>>("the bits of an offset", "other numbers in the registers"),
        in_prices<priced_then<floor>>("the largest power of two below an offset", "other numbers in the registers"),
        in_prices<priced_then<one_for_none>>("a register for an offset of 0", "other numbers in the registers: 1 at 0, expected 0"),
        in_prices<priced_then<smallest>>("the smallest offset of step 0", "other numbers in the registers: 0 at 0"),
        in_prices<priced_then<one_less_compared>>("a comparison too few", "other numbers in the comparisons"),
        in_prices<priced_then<itself_not_compared>>("no comparison for step 0", "other numbers in the comparisons: 0 at 0, expected 1"),
        in_prices<priced_then<totals_swapped>>("comparisons first in the totals", "other numbers in the totals"),
        in_prices<priced_then<total_without_start>>("a total without the start", "other numbers in the totals"),
        in_prices<priced_then<total_of_all_lent>>("a total of all that is lent", "other numbers in the totals"),
        in_prices<priced_then<past_answer>>("writes one number past the answer, in lent memory", "other numbers in the registers: 0 at"),
        in_prices<priced_then<past_comparisons>>("writes one number past the comparisons", "signal 11"),
        in_prices<priced_then<past_totals>>("writes one number past the totals", "signal 11"),
        in_prices<priced_then<before_registers>>("writes one number before the registers", "wrote outside the registers"),
        in_prices<totals_of_0>("totals of 0 on a refusal", "other numbers in the totals: 0 at"),
        in_prices<written_on_19>("a register written on 19", "other numbers in the registers: 0 at 0"),
        in_prices<waits_allowed>("waits allowed where they are not", ", expected 268"),
        in_prices<short_before_large>("14 before 19", "verdict 270, expected 275"),
        in_prices<large_before_waits>("19 before 12", "verdict 275, expected 268"),
        in_prices<last_entry_refused>("a largest offset of 1,023 refused", "verdict 275, expected"),
        in_prices<one_entry_more>("a largest offset of 1,024 priced", ", expected 275"),
        in_prices<comparisons_not_measured>("a list of comparisons too short taken", ", expected 270"),
    };
}
