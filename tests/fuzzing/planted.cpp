#include "planted.hpp"

#include <algorithm>

namespace {

// Kept by the compiler though nothing is done with it.
volatile uint32_t seen;

template <class Change> Planted in_sheets(const char *fault, const char *noticed, Change change) {
    Planted planted{fault, noticed, {}, sheet_kind};
    change(planted.calls);
    return planted;
}

template <class Change> Planted in_runs(const char *fault, const char *noticed, Change change) {
    Planted planted{fault, noticed, {}, run_kind};
    change(planted.calls);
    return planted;
}

Bytes without_gaps(Bytes sheet) {
    for (size_t at : records_of(sheet))
        if (sheet[at] & 8) {
            const size_t gap = at + 3 + 2 * size_t(__builtin_popcount(sheet[at] & 6));
            sheet[gap] = sheet[gap + 1] = 0;
        }
    return sheet;
}

Bytes without_leasts(Bytes sheet) {
    for (size_t at : steps_of(sheet))
        if (sheet[at] == 5) sheet[at + 1] = sheet[at + 2] = 0;
    return sheet;
}

// The least duration of each step of a whole sheet.
Numbers leasts_of(const Bytes &sheet) {
    Numbers leasts;
    for (size_t at : steps_of(sheet)) leasts.push_back(sheet[at] == 5 ? sheet[at + 1] | sheet[at + 2] << 8 : 0);
    return leasts;
}

// Whether a record has a gap and a limit from the finish, and is no after link.
bool gap_and_limit_alone(const Bytes &sheet) {
    for (size_t at : records_of(sheet))
        if ((sheet[at] & 0xf9) == 24) return true;
    return false;
}

// Whether a finish of step s is refused neither 15, 14 nor 17.
bool can_finish(const uint64_t *words, size_t s, size_t table_len) {
    if (!(words[2] & 1) || words[0] < 1 || words[0] > 64 || table_len < words[0] * words[0]) return false;
    return s > 0 && s < words[0] && (words[1] & words[2] & ~words[3]) >> s & 1;
}

// The sheet without the records of forward links into step 0.
Bytes without_links_into_start(const Bytes &sheet) {
    const std::vector<size_t> records = records_of(sheet);
    Numbers others;
    for (size_t k = 0; k < records.size(); k++)
        if (!(sheet[records[k]] & forward_bits) || sheet[records[k] + 2] != 0) others.push_back(uint32_t(k));
    return part_of(sheet, others);
}

bool is_impossible(const Bytes &sheet) {
    const uint32_t verdict = standplan_judge(sheet.data(), sheet.size(), true);
    return verdict == 256 + 10 || verdict == 256 + 11;
}

// What stays of an impossible sheet's records if they are tried from the first to the last.
Numbers clash_from_the_first(const Bytes &sheet) {
    Numbers stay(record_count(sheet));
    for (size_t k = 0; k < stay.size(); k++) stay[k] = uint32_t(k);
    for (size_t k = 0; k < stay.size();) {
        Numbers rest = stay;
        rest.erase(rest.begin() + long(k));
        if (is_impossible(part_of(sheet, rest))) stay = rest;
        else k++;
    }
    return stay;
}

} // namespace

std::vector<Planted> planted_faults() {
    return {
        in_sheets("reads one byte past the sheet", "signal 11", [](Calls &calls) {
            calls.judge = [](const uint8_t *sheet, size_t sheet_len, bool allow_waits) {
                seen = sheet[sheet_len];
                return standplan_judge(sheet, sheet_len, allow_waits);
            };
        }),
        in_sheets("reads one byte before the sheet", "signal 11", [](Calls &calls) {
            calls.waits = [](const uint8_t *sheet, size_t sheet_len, uint64_t *maps, uint32_t *count) {
                seen = sheet[-1];
                return standplan_waits(sheet, sheet_len, maps, count);
            };
        }),
        in_sheets("changes the sheet", "other numbers in the sheet", [](Calls &calls) {
            calls.judge = [](const uint8_t *sheet, size_t sheet_len, bool allow_waits) {
                uint32_t verdict = standplan_judge(sheet, sheet_len, allow_waits);
                if (sheet_len > 0) const_cast<uint8_t *>(sheet)[sheet_len - 1] ^= 1;
                return verdict;
            };
        }),
        in_sheets("another verdict where waits are not allowed", "verdict 1, expected 268", [](Calls &calls) {
            calls.judge = [](const uint8_t *sheet, size_t sheet_len, bool) { return standplan_judge(sheet, sheet_len, true); };
        }),
        in_sheets("maps of 0 on a refusal", "other numbers in the maps: 0 at 63", [](Calls &calls) {
            calls.waits = [](const uint8_t *sheet, size_t sheet_len, uint64_t *maps, uint32_t *count) {
                uint32_t verdict = standplan_waits(sheet, sheet_len, maps, count);
                if (verdict >= 256) maps[63] = 0;
                return verdict;
            };
        }),
        in_sheets("a count of 0 on a refusal", "other numbers in the count: 0 at 0", [](Calls &calls) {
            calls.waits = [](const uint8_t *sheet, size_t sheet_len, uint64_t *maps, uint32_t *count) {
                uint32_t verdict = standplan_waits(sheet, sheet_len, maps, count);
                if (verdict >= 256) *count = 0;
                return verdict;
            };
        }),
        in_sheets("maps as lent where there are no waits", "other numbers in the maps", [](Calls &calls) {
            calls.waits = [](const uint8_t *sheet, size_t sheet_len, uint64_t *maps, uint32_t *count) {
                uint64_t before = maps[63];
                uint32_t verdict = standplan_waits(sheet, sheet_len, maps, count);
                if (verdict == 0) maps[63] = before;
                return verdict;
            };
        }),
        in_sheets("a count that is one too high", "other numbers in the count", [](Calls &calls) {
            calls.waits = [](const uint8_t *sheet, size_t sheet_len, uint64_t *maps, uint32_t *count) {
                uint32_t verdict = standplan_waits(sheet, sheet_len, maps, count);
                if (verdict == 1) ++*count;
                return verdict;
            };
        }),
        in_sheets("writes one number past the plan, in lent memory", "other numbers in the table", [](Calls &calls) {
            calls.plan = [](const uint8_t *sheet, size_t sheet_len, bool allow_waits, uint32_t *table, size_t table_len) {
                uint32_t verdict = standplan_plan(sheet, sheet_len, allow_waits, table, table_len);
                if (verdict < 256 && table_len > size_t(sheet[0]) * sheet[0]) table[sheet[0] * sheet[0]] ^= 1;
                return verdict;
            };
        }),
        in_sheets("writes one number past the table", "signal 11", [](Calls &calls) {
            calls.plan = [](const uint8_t *sheet, size_t sheet_len, bool allow_waits, uint32_t *table, size_t table_len) {
                uint32_t verdict = standplan_plan(sheet, sheet_len, allow_waits, table, table_len);
                if (verdict < 256) table[table_len] = 0;
                return verdict;
            };
        }),
        in_sheets("changes a number of the table on a refusal", "other numbers in the table: 0 at 0", [](Calls &calls) {
            calls.plan = [](const uint8_t *sheet, size_t sheet_len, bool allow_waits, uint32_t *table, size_t table_len) {
                uint32_t verdict = standplan_plan(sheet, sheet_len, allow_waits, table, table_len);
                if (verdict == 256 + 14 && table_len > 0) table[0] = 0;
                return verdict;
            };
        }),
        in_sheets("another number in the plan", "other numbers in the table", [](Calls &calls) {
            calls.plan = [](const uint8_t *sheet, size_t sheet_len, bool allow_waits, uint32_t *table, size_t table_len) {
                uint32_t verdict = standplan_plan(sheet, sheet_len, allow_waits, table, table_len);
                if (verdict == 0 && sheet[0] > 1 && table[sheet[0]] < STANDPLAN_UNDECIDED) table[sheet[0]]++;
                return verdict;
            };
        }),
        in_sheets("a plan without the gaps", "other numbers in the table", [](Calls &calls) {
            calls.plan = [](const uint8_t *sheet, size_t sheet_len, bool allow_waits, uint32_t *table, size_t table_len) {
                uint32_t verdict = standplan_plan(sheet, sheet_len, allow_waits, table, table_len);
                if (verdict < 256) verdict = standplan_plan(without_gaps({sheet, sheet + sheet_len}).data(), sheet_len, allow_waits, table, table_len);
                return verdict;
            };
        }),
        in_sheets("26 before 4", "verdict 282, expected 260", [](Calls &calls) {
            calls.judge = [](const uint8_t *sheet, size_t sheet_len, bool allow_waits) {
                uint32_t verdict = standplan_judge(sheet, sheet_len, allow_waits);
                return verdict == 256 + 4 && gap_and_limit_alone({sheet, sheet + sheet_len}) ? uint32_t(256 + 26) : verdict;
            };
        }),
        in_sheets("9 where a step follows nothing", "refused 9", [](Calls &calls) {
            calls.judge = [](const uint8_t *sheet, size_t sheet_len, bool allow_waits) {
                uint32_t verdict = standplan_judge(sheet, sheet_len, allow_waits);
                return verdict < 256 && loose_steps({sheet, sheet + sheet_len}) ? uint32_t(256 + 9) : verdict;
            };
        }),
        in_sheets("a link into step 0 overlooked", ", expected 264", [](Calls &calls) {
            calls.judge = [](const uint8_t *sheet, size_t sheet_len, bool allow_waits) {
                uint32_t verdict = standplan_judge(sheet, sheet_len, allow_waits);
                if (verdict != 256 + 8) return verdict;
                const Bytes rest = without_links_into_start({sheet, sheet + sheet_len});
                return standplan_judge(rest.data(), rest.size(), allow_waits);
            };
        }),
        in_sheets("a plan of the sheet as sent: nothing decides a step that follows nothing", "other numbers in the table: 4294967295 at", [](Calls &calls) {
            calls.plan = [](const uint8_t *sheet, size_t sheet_len, bool allow_waits, uint32_t *table, size_t table_len) {
                uint32_t verdict = standplan_plan(sheet, sheet_len, allow_waits, table, table_len);
                if (verdict >= 256) return verdict;
                const uint64_t loose = loose_steps({sheet, sheet + sheet_len});
                for (size_t v = 1; v < sheet[0]; v++)
                    if (loose >> v & 1 && table[v * sheet[0]] == 0) table[v * sheet[0]] = STANDPLAN_UNDECIDED;
                return verdict;
            };
        }),
        in_sheets("writes one number before out", "wrote outside the out", [](Calls &calls) {
            calls.starts = [](const uint8_t *sheet, size_t sheet_len, bool allow_waits, const uint32_t *list, size_t list_len, uint32_t *out, size_t out_len) {
                uint32_t verdict = standplan_starts(sheet, sheet_len, allow_waits, list, list_len, out, out_len);
                if (verdict < 256) out[-1] = 0;
                return verdict;
            };
        }),
        in_sheets("reads one number past the list", "signal 11", [](Calls &calls) {
            calls.starts = [](const uint8_t *sheet, size_t sheet_len, bool allow_waits, const uint32_t *list, size_t list_len, uint32_t *out, size_t out_len) {
                uint32_t verdict = standplan_starts(sheet, sheet_len, allow_waits, list, list_len, out, out_len);
                if (verdict == 256 + 14) seen = list[list_len];
                return verdict;
            };
        }),
        in_sheets("14 before 13", "verdict 270, expected 269", [](Calls &calls) {
            calls.starts = [](const uint8_t *sheet, size_t sheet_len, bool allow_waits, const uint32_t *list, size_t list_len, uint32_t *out, size_t out_len) {
                uint32_t verdict = standplan_starts(sheet, sheet_len, allow_waits, list, list_len, out, out_len);
                return verdict == 256 + 13 && out_len < sheet[0] ? uint32_t(256 + 14) : verdict;
            };
        }),
        in_sheets("a plan without the leasts", "other numbers in the table", [](Calls &calls) {
            calls.plan = [](const uint8_t *sheet, size_t sheet_len, bool allow_waits, uint32_t *table, size_t table_len) {
                const Bytes bare = without_leasts({sheet, sheet + sheet_len});
                Numbers other(table, table + table_len);
                other.resize(std::max<size_t>(table_len, 1));
                const bool planned = standplan_plan(bare.data(), sheet_len, allow_waits, other.data(), table_len) < 256;
                uint32_t verdict = standplan_plan(sheet, sheet_len, allow_waits, table, table_len);
                if (verdict < 256 && planned) std::copy(other.begin(), other.begin() + long(table_len), table);
                return verdict;
            };
        }),
        in_sheets("offsets that add the least of their step", "other numbers in the table", [](Calls &calls) {
            calls.plan = [](const uint8_t *sheet, size_t sheet_len, bool allow_waits, uint32_t *table, size_t table_len) {
                uint32_t verdict = standplan_plan(sheet, sheet_len, allow_waits, table, table_len);
                if (verdict >= 256) return verdict;
                const Numbers leasts = leasts_of({sheet, sheet + sheet_len});
                for (size_t k = 0; k < leasts.size() * leasts.size(); k++)
                    if (table[k] != STANDPLAN_UNDECIDED) table[k] += leasts[k % leasts.size()];
                return verdict;
            };
        }),
        in_sheets("an entry below its least taken", ", expected 269", [](Calls &calls) {
            calls.starts = [](const uint8_t *sheet, size_t sheet_len, bool allow_waits, const uint32_t *list, size_t list_len, uint32_t *out, size_t out_len) {
                uint32_t verdict = standplan_starts(sheet, sheet_len, allow_waits, list, list_len, out, out_len);
                const Bytes bytes(sheet, sheet + sheet_len);
                Numbers other(list, list + list_len);
                if (verdict != 256 + 13 || !only_below_least(bytes, other)) return verdict;
                const Numbers leasts = leasts_of(bytes);
                for (size_t v = 0; v < std::min(list_len, leasts.size()); v++) other[v] = std::max(other[v], leasts[v]);
                return standplan_starts(sheet, sheet_len, allow_waits, other.data(), list_len, out, out_len);
            };
        }),
        in_sheets("a list at its leasts refused", "verdict 269, expected", [](Calls &calls) {
            calls.starts = [](const uint8_t *sheet, size_t sheet_len, bool allow_waits, const uint32_t *list, size_t list_len, uint32_t *out, size_t out_len) {
                if (standplan_judge(sheet, sheet_len, allow_waits) < 256) {
                    const Numbers leasts = leasts_of({sheet, sheet + sheet_len});
                    for (size_t v = 0; v < std::min(list_len, leasts.size()); v++)
                        if (leasts[v] > 0 && list[v] == leasts[v]) return uint32_t(256 + 13);
                }
                return standplan_starts(sheet, sheet_len, allow_waits, list, list_len, out, out_len);
            };
        }),
        in_sheets("a least on step 0 taken", ", expected 260", [](Calls &calls) {
            calls.judge = [](const uint8_t *sheet, size_t sheet_len, bool allow_waits) {
                uint32_t verdict = standplan_judge(sheet, sheet_len, allow_waits);
                if (verdict != 256 + 4 || sheet_len < 6 || sheet[3] != 5) return verdict;
                Bytes rest(sheet, sheet + sheet_len);
                rest.erase(rest.begin() + 4, rest.begin() + 6);
                rest[3] = 1;
                return standplan_judge(rest.data(), rest.size(), allow_waits);
            };
        }),
        in_sheets("writes one number past the leasts", "signal 11", [](Calls &calls) {
            calls.steps = [](const uint8_t *sheet, size_t sheet_len, size_t *n, uint64_t *open, uint16_t *leasts, size_t leasts_len) {
                uint32_t verdict = standplan_steps(sheet, sheet_len, n, open, leasts, leasts_len);
                if (verdict == 0) leasts[leasts_len] = 0;
                return verdict;
            };
        }),
        in_sheets("writes one number past the last step's least, in lent memory", "other numbers in the leasts", [](Calls &calls) {
            calls.steps = [](const uint8_t *sheet, size_t sheet_len, size_t *n, uint64_t *open, uint16_t *leasts, size_t leasts_len) {
                uint32_t verdict = standplan_steps(sheet, sheet_len, n, open, leasts, leasts_len);
                if (verdict == 0 && leasts_len > *n) leasts[*n] ^= 1;
                return verdict;
            };
        }),
        in_sheets("writes the step count where the leasts are too short", "other numbers in the step count", [](Calls &calls) {
            calls.steps = [](const uint8_t *sheet, size_t sheet_len, size_t *n, uint64_t *open, uint16_t *leasts, size_t leasts_len) {
                uint32_t verdict = standplan_steps(sheet, sheet_len, n, open, leasts, leasts_len);
                if (verdict == 256 + 14) *n = sheet[0];
                return verdict;
            };
        }),
        in_sheets("an open map without step 0", "other numbers in the open map", [](Calls &calls) {
            calls.steps = [](const uint8_t *sheet, size_t sheet_len, size_t *n, uint64_t *open, uint16_t *leasts, size_t leasts_len) {
                uint32_t verdict = standplan_steps(sheet, sheet_len, n, open, leasts, leasts_len);
                if (verdict == 0) *open &= ~uint64_t(1);
                return verdict;
            };
        }),
        in_sheets("writes one number past the report", "signal 11", [](Calls &calls) {
            calls.clashes = [](const uint8_t *sheet, size_t sheet_len, uint32_t *numbers, size_t numbers_len, size_t *count) {
                uint32_t verdict = standplan_clashes(sheet, sheet_len, numbers, numbers_len, count);
                if (verdict == 0) numbers[numbers_len] = 0;
                return verdict;
            };
        }),
        in_sheets("writes one number past the last record, in lent memory", "other numbers in the report", [](Calls &calls) {
            calls.clashes = [](const uint8_t *sheet, size_t sheet_len, uint32_t *numbers, size_t numbers_len, size_t *count) {
                uint32_t verdict = standplan_clashes(sheet, sheet_len, numbers, numbers_len, count);
                if (verdict == 0 && numbers_len > *count) numbers[*count] ^= 1;
                return verdict;
            };
        }),
        in_sheets("writes one number before the report", "wrote outside the report", [](Calls &calls) {
            calls.clashes = [](const uint8_t *sheet, size_t sheet_len, uint32_t *numbers, size_t numbers_len, size_t *count) {
                uint32_t verdict = standplan_clashes(sheet, sheet_len, numbers, numbers_len, count);
                if (verdict == 0) numbers[-1] = 0;
                return verdict;
            };
        }),
        in_sheets("writes a report that is too long for what is lent", "other numbers in the report: 0 at 0", [](Calls &calls) {
            calls.clashes = [](const uint8_t *sheet, size_t sheet_len, uint32_t *numbers, size_t numbers_len, size_t *count) {
                uint32_t verdict = standplan_clashes(sheet, sheet_len, numbers, numbers_len, count);
                if (verdict == 256 + 14 && numbers_len > 0) numbers[0] = 0;
                return verdict;
            };
        }),
        in_sheets("works in the report before 31 is known", "other numbers in the report", [](Calls &calls) {
            calls.clashes = [](const uint8_t *sheet, size_t sheet_len, uint32_t *numbers, size_t numbers_len, size_t *count) {
                uint32_t verdict = standplan_clashes(sheet, sheet_len, numbers, numbers_len, count);
                if (verdict == 256 + 31 && numbers_len > 0) numbers[numbers_len - 1] ^= 1;
                return verdict;
            };
        }),
        in_sheets("the count of a report that is too long for what is lent", "clashes: other numbers in the count", [](Calls &calls) {
            calls.clashes = [](const uint8_t *sheet, size_t sheet_len, uint32_t *numbers, size_t numbers_len, size_t *count) {
                uint32_t verdict = standplan_clashes(sheet, sheet_len, numbers, numbers_len, count);
                if (verdict == 256 + 14) *count = numbers_len + 1;
                return verdict;
            };
        }),
        in_sheets("half a count", "clashes: other numbers in the count", [](Calls &calls) {
            calls.clashes = [](const uint8_t *sheet, size_t sheet_len, uint32_t *numbers, size_t numbers_len, size_t *count) {
                const size_t before = *count;
                uint32_t verdict = standplan_clashes(sheet, sheet_len, numbers, numbers_len, count);
                if (verdict == 0) *count |= before >> 32 << 32;
                return verdict;
            };
        }),
        in_sheets("a report from the first record to the last", "other numbers in the report", [](Calls &calls) {
            calls.clashes = [](const uint8_t *sheet, size_t sheet_len, uint32_t *numbers, size_t numbers_len, size_t *count) {
                uint32_t verdict = standplan_clashes(sheet, sheet_len, numbers, numbers_len, count);
                if (verdict != 0 || sheet[2] != 0 || sheet[1] > 40) return verdict;
                const Numbers stay = clash_from_the_first({sheet, sheet + sheet_len});
                if (stay.size() == *count) std::copy(stay.begin(), stay.end(), numbers);
                return verdict;
            };
        }),
        in_sheets("records counted from 1", "other numbers in the report", [](Calls &calls) {
            calls.clashes = [](const uint8_t *sheet, size_t sheet_len, uint32_t *numbers, size_t numbers_len, size_t *count) {
                uint32_t verdict = standplan_clashes(sheet, sheet_len, numbers, numbers_len, count);
                for (size_t k = 0; verdict == 0 && k < *count; k++) numbers[k]++;
                return verdict;
            };
        }),
        in_sheets("a report that falls", "other numbers in the report", [](Calls &calls) {
            calls.clashes = [](const uint8_t *sheet, size_t sheet_len, uint32_t *numbers, size_t numbers_len, size_t *count) {
                uint32_t verdict = standplan_clashes(sheet, sheet_len, numbers, numbers_len, count);
                if (verdict == 0) std::reverse(numbers, numbers + *count);
                return verdict;
            };
        }),
        in_sheets("a list that is just long enough refused", "verdict 270, expected 0", [](Calls &calls) {
            calls.clashes = [](const uint8_t *sheet, size_t sheet_len, uint32_t *numbers, size_t numbers_len, size_t *count) {
                return standplan_clashes(sheet, sheet_len, numbers, numbers_len > 0 ? numbers_len - 1 : 0, count);
            };
        }),
        in_sheets("a sheet that is not impossible reported", "verdict 0, expected 287", [](Calls &calls) {
            calls.clashes = [](const uint8_t *sheet, size_t sheet_len, uint32_t *numbers, size_t numbers_len, size_t *count) {
                uint32_t verdict = standplan_clashes(sheet, sheet_len, numbers, numbers_len, count);
                if (verdict == 256 + 31) *count = 0;
                return verdict == 256 + 31 ? 0 : verdict;
            };
        }),
        in_sheets("31 before 8", "verdict 287, expected 264", [](Calls &calls) {
            calls.clashes = [](const uint8_t *sheet, size_t sheet_len, uint32_t *numbers, size_t numbers_len, size_t *count) {
                uint32_t verdict = standplan_clashes(sheet, sheet_len, numbers, numbers_len, count);
                return verdict == 256 + 8 ? uint32_t(256 + 31) : verdict;
            };
        }),
        in_sheets("14 before 31", "verdict 270, expected 287", [](Calls &calls) {
            calls.clashes = [](const uint8_t *sheet, size_t sheet_len, uint32_t *numbers, size_t numbers_len, size_t *count) {
                uint32_t verdict = standplan_clashes(sheet, sheet_len, numbers, numbers_len, count);
                return verdict == 256 + 31 && numbers_len == 0 ? uint32_t(256 + 14) : verdict;
            };
        }),
        in_runs("a plan that starts a step one tick late", "its start is", [](Calls &calls) {
            calls.plan = [](const uint8_t *sheet, size_t sheet_len, bool allow_waits, uint32_t *table, size_t table_len) {
                uint32_t verdict = standplan_plan(sheet, sheet_len, allow_waits, table, table_len);
                if (verdict < 256 && sheet[0] > 1 && table[sheet[0]] < STANDPLAN_UNDECIDED) table[sheet[0]]++;
                return verdict;
            };
        }),
        in_runs("an open map without its bit 0", "other numbers in the words", [](Calls &calls) {
            calls.begin = [](uint64_t *words, uint32_t *tick, uint32_t *start, uint32_t *finish, uint16_t *least, uint64_t *map, size_t n, uint64_t open, const uint16_t *leasts, size_t leasts_len, const uint32_t *table, size_t table_len) {
                return standplan_begin(words, tick, start, finish, least, map, n, open & ~uint64_t(1), leasts, leasts_len, table, table_len);
            };
        }),
        in_runs("map 0 on a refusal", "other numbers in the map: 0 at 0", [](Calls &calls) {
            calls.begin = [](uint64_t *words, uint32_t *tick, uint32_t *start, uint32_t *finish, uint16_t *least, uint64_t *map, size_t n, uint64_t open, const uint16_t *leasts, size_t leasts_len, const uint32_t *table, size_t table_len) {
                uint32_t verdict = standplan_begin(words, tick, start, finish, least, map, n, open, leasts, leasts_len, table, table_len);
                if (verdict == 256 + 16) *map = 0;
                return verdict;
            };
        }),
        in_runs("a map as lent where nothing starts", "other numbers in the map", [](Calls &calls) {
            calls.tick = [](uint64_t *words, uint32_t *tick, uint32_t *start, uint32_t *finish, uint16_t *least, uint64_t *map, const uint32_t *table, size_t table_len) {
                uint64_t before = *map;
                uint32_t verdict = standplan_tick(words, tick, start, finish, least, map, table, table_len);
                if (verdict == 0 && *map == 0) *map = before;
                return verdict;
            };
        }),
        in_runs("writes one number past the start ticks", "signal 11", [](Calls &calls) {
            calls.tick = [](uint64_t *words, uint32_t *tick, uint32_t *start, uint32_t *finish, uint16_t *least, uint64_t *map, const uint32_t *table, size_t table_len) {
                uint32_t verdict = standplan_tick(words, tick, start, finish, least, map, table, table_len);
                if (verdict == 0) start[64] = *tick;
                return verdict;
            };
        }),
        in_runs("reads one number past the table", "signal 11", [](Calls &calls) {
            calls.tick = [](uint64_t *words, uint32_t *tick, uint32_t *start, uint32_t *finish, uint16_t *least, uint64_t *map, const uint32_t *table, size_t table_len) {
                seen = table[table_len];
                return standplan_tick(words, tick, start, finish, least, map, table, table_len);
            };
        }),
        in_runs("changes the state on a refusal", "other numbers in the finish ticks", [](Calls &calls) {
            calls.finish = [](uint64_t *words, uint32_t *tick, uint32_t *start, uint32_t *finish, uint16_t *least, uint64_t *map, size_t s, const uint32_t *table, size_t table_len) {
                uint32_t verdict = standplan_finish(words, tick, start, finish, least, map, s, table, table_len);
                if (verdict == 256 + 17 && s < 64) finish[s]++;
                return verdict;
            };
        }),
        in_runs("another finish tick", "other numbers in the finish ticks", [](Calls &calls) {
            calls.finish = [](uint64_t *words, uint32_t *tick, uint32_t *start, uint32_t *finish, uint16_t *least, uint64_t *map, size_t s, const uint32_t *table, size_t table_len) {
                uint32_t verdict = standplan_finish(words, tick, start, finish, least, map, s, table, table_len);
                if (verdict == 0) finish[s]++;
                return verdict;
            };
        }),
        in_runs("a least that Begin does not keep", "other numbers in the least durations: 0 at", [](Calls &calls) {
            calls.begin = [](uint64_t *words, uint32_t *tick, uint32_t *start, uint32_t *finish, uint16_t *least, uint64_t *map, size_t n, uint64_t open, const uint16_t *leasts, size_t leasts_len, const uint32_t *table, size_t table_len) {
                uint32_t verdict = standplan_begin(words, tick, start, finish, least, map, n, open, leasts, leasts_len, table, table_len);
                if (verdict == 0) least[n - 1] = 0;
                return verdict;
            };
        }),
        in_runs("leasts past the last step kept by Begin", "other numbers in the least durations", [](Calls &calls) {
            calls.begin = [](uint64_t *words, uint32_t *tick, uint32_t *start, uint32_t *finish, uint16_t *least, uint64_t *map, size_t n, uint64_t open, const uint16_t *leasts, size_t leasts_len, const uint32_t *table, size_t table_len) {
                uint32_t verdict = standplan_begin(words, tick, start, finish, least, map, n, open, leasts, leasts_len, table, table_len);
                for (size_t v = n; verdict == 0 && v < std::min<size_t>(leasts_len, 64); v++) least[v] = leasts[v];
                return verdict;
            };
        }),
        in_runs("a list of leasts one too short taken", "verdict 0, expected 270", [](Calls &calls) {
            calls.begin = [](uint64_t *words, uint32_t *tick, uint32_t *start, uint32_t *finish, uint16_t *least, uint64_t *map, size_t n, uint64_t open, const uint16_t *leasts, size_t leasts_len, const uint32_t *table, size_t table_len) {
                Leasts longer(leasts, leasts + leasts_len);
                longer.push_back(0);
                return standplan_begin(words, tick, start, finish, least, map, n, open, longer.data(), longer.size(), table, table_len);
            };
        }),
        in_runs("reads one number past the leasts", "signal 11", [](Calls &calls) {
            calls.begin = [](uint64_t *words, uint32_t *tick, uint32_t *start, uint32_t *finish, uint16_t *least, uint64_t *map, size_t n, uint64_t open, const uint16_t *leasts, size_t leasts_len, const uint32_t *table, size_t table_len) {
                seen = leasts[leasts_len];
                return standplan_begin(words, tick, start, finish, least, map, n, open, leasts, leasts_len, table, table_len);
            };
        }),
        in_runs("20 at exactly the start tick plus the least", "verdict 276, expected 0", [](Calls &calls) {
            calls.finish = [](uint64_t *words, uint32_t *tick, uint32_t *start, uint32_t *finish, uint16_t *least, uint64_t *map, size_t s, const uint32_t *table, size_t table_len) {
                if (s < 64 && can_finish(words, s, table_len) && least[s] > 0 && uint64_t(start[s]) + least[s] == *tick) return uint32_t(256 + 20);
                return standplan_finish(words, tick, start, finish, least, map, s, table, table_len);
            };
        }),
        in_runs("a least that Finish overlooks", "verdict 0, expected 276", [](Calls &calls) {
            calls.finish = [](uint64_t *words, uint32_t *tick, uint32_t *start, uint32_t *finish, uint16_t *, uint64_t *map, size_t s, const uint32_t *table, size_t table_len) {
                uint16_t none[64] = {};
                return standplan_finish(words, tick, start, finish, none, map, s, table, table_len);
            };
        }),
        in_runs("a start tick plus a least that wraps", "verdict 0, expected 276", [](Calls &calls) {
            calls.finish = [](uint64_t *words, uint32_t *tick, uint32_t *start, uint32_t *finish, uint16_t *least, uint64_t *map, size_t s, const uint32_t *table, size_t table_len) {
                uint16_t none[64] = {};
                uint32_t zeros[64] = {};
                if (s < 64 && uint64_t(start[s]) + least[s] > 4294967295u && uint32_t(start[s] + least[s]) <= *tick) return standplan_finish(words, tick, zeros, finish, none, map, s, table, table_len);
                return standplan_finish(words, tick, start, finish, least, map, s, table, table_len);
            };
        }),
        in_runs("20 before 17", "verdict 276, expected 273", [](Calls &calls) {
            calls.finish = [](uint64_t *words, uint32_t *tick, uint32_t *start, uint32_t *finish, uint16_t *least, uint64_t *map, size_t s, const uint32_t *table, size_t table_len) {
                uint32_t verdict = standplan_finish(words, tick, start, finish, least, map, s, table, table_len);
                return verdict == 256 + 17 && s < 64 && uint64_t(start[s]) + least[s] > *tick ? uint32_t(256 + 20) : verdict;
            };
        }),
        in_runs("changes a least on 20", "other numbers in the least durations", [](Calls &calls) {
            calls.finish = [](uint64_t *words, uint32_t *tick, uint32_t *start, uint32_t *finish, uint16_t *least, uint64_t *map, size_t s, const uint32_t *table, size_t table_len) {
                uint32_t verdict = standplan_finish(words, tick, start, finish, least, map, s, table, table_len);
                if (verdict == 256 + 20) least[s]--;
                return verdict;
            };
        }),
    };
}
