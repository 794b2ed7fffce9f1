#include "check.hpp"

#include "../second/runner.h"
#include "../second/second.h"
#include "../second/writer.h"

#include <cinttypes>
#include <csetjmp>
#include <csignal>
#include <unistd.h>

#include <algorithm>

namespace {

sigjmp_buf landing;
volatile std::sig_atomic_t in_call = 0;
char current_case[96] = "";
const Bytes *current_sheet = nullptr;
constexpr unsigned patience = 60; // seconds, for 64 cases

void say(const char *text) {
    if (write(1, text, std::strlen(text)) < 0) _exit(2);
}

// For a signal's handler: no more than write is called.
void say_and_end(const char *what) {
    say("FAILED: ");
    say(what);
    say("\n  sheet ");
    if (current_sheet) {
        static const char digits[] = "0123456789abcdef";
        for (uint8_t byte : *current_sheet) {
            const char two[] = {digits[byte >> 4], digits[byte & 15], 0};
            say(two);
        }
    }
    say("\nrepeat: ");
    say(current_case);
    say("\n");
    _exit(1);
}

// The sheet that a signal's handler names.
struct Current {
    explicit Current(const Bytes &sheet) { current_sheet = &sheet; }
    ~Current() { current_sheet = nullptr; }
};

void on_signal(int signal, siginfo_t *, void *) {
    if (signal == SIGALRM) say_and_end("no answer in time");
    if (!in_call) say_and_end("fault outside the library");
    siglongjmp(landing, signal);
}

// Calls the library; a fault is a failure.
template <class Call_of> uint32_t guarded(Call_of call) {
    if (int signal = sigsetjmp(landing, 0)) {
        in_call = 0;
        throw Failure{std::string("signal ") + std::to_string(signal) + " (" + strsignal(signal) + ")"};
    }
    in_call = 1;
    uint32_t verdict = call();
    in_call = 0;
    return verdict;
}

std::string hex(const uint8_t *bytes, size_t count) {
    static const char digits[] = "0123456789abcdef";
    std::string text;
    for (size_t k = 0; k < count; k++) {
        text += digits[bytes[k] >> 4];
        text += digits[bytes[k] & 15];
    }
    return text.empty() ? "(none)" : text;
}

template <class Number> std::string list_of(const Number *numbers, size_t count) {
    std::string text;
    for (size_t k = 0; k < count; k++) text += (k ? " " : "") + std::to_string(numbers[k]);
    return text.empty() ? "(none)" : text;
}

const char *name(Guard guard) { return guard == Guard::end ? "past the end" : "before the start"; }

void need(bool holds, const char *what) {
    if (!holds) throw Failure{what};
}

// What is lent is never at no address, also where there is nothing.
template <class Element> Element *address(std::vector<Element> &elements) {
    static Element nothing;
    return elements.empty() ? &nothing : elements.data();
}
template <class Element> const Element *address(const std::vector<Element> &elements) { return address(const_cast<std::vector<Element> &>(elements)); }

uint32_t *numbers_at(Lent &lent) { return reinterpret_cast<uint32_t *>(lent.lent()); }
uint64_t *words_at(Lent &lent) { return reinterpret_cast<uint64_t *>(lent.lent()); }
uint16_t *leasts_at(Lent &lent) { return reinterpret_cast<uint16_t *>(lent.lent()); }
size_t *size_at(Lent &lent) { return reinterpret_cast<size_t *>(lent.lent()); }

template <class Element> void lend(Lent &lent, const std::vector<Element> &elements) { lent.lend(elements.data(), elements.size() * sizeof(Element)); }

// What was lent has to hold the numbers expected, and all around it nothing has changed.
template <class Number> void need_lent(Lent &lent, const Number *expected, const char *what) {
    if (!lent.rest_is_kept()) throw Failure{std::string("wrote outside the ") + what};
    if (lent.holds(expected)) return;
    const Number *numbers = reinterpret_cast<const Number *>(lent.lent());
    size_t k = 0;
    while (numbers[k] == expected[k]) k++;
    throw Failure{"other numbers in the " + std::string(what) + ": " + std::to_string(numbers[k]) + " at " + std::to_string(k) + ", expected " + std::to_string(expected[k])};
}

void need_verdict(uint32_t got, uint32_t expected) {
    need(got != 256 + 9, "refused 9, which is never given");
    if (got != expected) throw Failure{"verdict " + std::to_string(got) + ", expected " + std::to_string(expected)};
}

// The rule of the interface: a refusal changes nothing, an answer nothing past its end.
template <class Number> void need_rule(uint32_t verdict, const std::vector<Number> &before, const std::vector<Number> &afterwards, size_t answer) {
    size_t from = verdict < 256 ? answer : 0;
    need(std::equal(before.begin() + long(std::min(from, before.size())), before.end(), afterwards.begin() + long(std::min(from, before.size()))), "the second planner wrote outside its answer");
}

bool is_impossible(uint32_t verdict) { return verdict == 256 + 10 || verdict == 256 + 11; }

// The promise of a report, parts judged as sheets of their own: the records that clash are impossible without the others, and no longer without any one of them.
void need_clash(const Bytes &sheet, const Numbers &report) {
    auto impossible = [&](const Numbers &records) {
        const Bytes part = part_of(sheet, records);
        return is_impossible(second_judge(part.data(), part.size(), true));
    };
    need(impossible(report), "the records of the second planner's report do not clash");
    for (size_t k = 0; k < report.size(); k++) {
        Numbers rest = report;
        rest.erase(rest.begin() + long(k));
        need(!impossible(rest), "the second planner reports a record that is not needed");
    }
}

// The second planner's report of an impossible sheet.
Numbers second_report(const Bytes &sheet) {
    Numbers report(record_count(sheet));
    size_t count = 0;
    need(second_clashes(sheet.data(), sheet.size(), report.data(), report.size(), &count) == 0 && count <= report.size(), "the second planner reports no clash of an impossible sheet");
    report.resize(count);
    need_clash(sheet, report);
    return report;
}

} // namespace

void catch_faults() {
    static uint8_t stack[1 << 16];
    stack_t other{};
    other.ss_sp = stack;
    other.ss_size = sizeof stack;
    sigaltstack(&other, nullptr);
    struct sigaction action {};
    action.sa_sigaction = on_signal;
    action.sa_flags = SA_SIGINFO | SA_ONSTACK | SA_NODEFER;
    for (int signal : {SIGSEGV, SIGBUS, SIGILL, SIGFPE, SIGTRAP, SIGABRT, SIGALRM}) sigaction(signal, &action, nullptr);
}

void case_begins(uint64_t seed, const char *kind, uint64_t number) {
    std::snprintf(current_case, sizeof current_case, "tests/fuzz --seed %" PRIu64 " --case %s:%" PRIu64, seed, kind, number);
    static unsigned begun = 0;
    if (begun++ % 64 == 0) alarm(patience);
}

// One call on both sides; `tell` says what it was lent.
template <class Ours, class Look, class Tell> void Examiner::both_sides(const char *name_of_call, uint32_t expected, Ours ours, Look look, Tell tell) {
    for (Side &side : sides) {
        try {
            need_verdict(guarded([&] { return ours(side); }), expected);
            look(side);
        } catch (Failure &failure) {
            throw Failure{std::string(name_of_call) + ": " + failure.what + "\n  guard page " + name(side.guard) + "\n  " + tell()};
        }
    }
}

// One call on both sides, for a sheet that is lent; `tell` says what else it was lent.
template <class Ours, class Look, class Tell> void Examiner::each_side(Call call, const char *name_of_call, const Bytes &sheet, uint32_t expected, Ours ours, Look look, Tell tell) {
    auto look_at_all = [&](Side &side) {
        look(side);
        need_lent(side.sheet, sheet.data(), "sheet");
    };
    met.verdicts[call][expected & 511]++;
    both_sides(name_of_call, expected, ours, look_at_all, [&] { return "sheet " + hex(sheet.data(), sheet.size()) + "\n  " + tell(); });
}

void Met::add_report(size_t count, size_t records) {
    one_clash += count == 1;
    some_clash += count > 1 && count < 40;
    many_clash += count >= 40;
    large_clash += records == most_links;
    most_clash = std::max(most_clash, count);
}

// The largest offset of a sheet that is priced or refused 19 is looked at in its plan.
void Met::add_price(const Bytes &sheet, bool allow, uint32_t verdict) {
    if (verdict >= 256 && verdict != 256 + 19) return;
    Numbers plan(most_steps * most_steps);
    need(second_plan(sheet.data(), sheet.size(), allow, plan.data(), plan.size()) < 256, "the second planner prices what it does not plan");
    uint32_t largest = 0;
    for (size_t k = 0; k < size_t(sheet[0]) * sheet[0]; k++)
        if (plan[k] != STANDPLAN_UNDECIDED) largest = std::max(largest, plan[k]);
    just_priced += verdict < 256 && largest + 1 == register_entries;
    just_too_large += verdict >= 256 && largest == register_entries;
    large_priced += verdict < 256 && sheet[0] == most_steps && record_count(sheet) == most_links;
}

void Examiner::sheet(const Bytes &bytes, Random &random) {
    const Current current(bytes);
    const uint8_t *const at = address(bytes);
    const size_t length = bytes.size();
    const size_t n = length > 0 && bytes[0] >= 1 && bytes[0] <= 64 ? bytes[0] : random.below(65);
    for (Side &side : sides) lend(side.sheet, bytes);

    auto nothing = [](Side &) {};

    uint32_t allowed = 0;
    for (bool allow : {false, true}) {
        allowed = second_judge(at, length, allow);
        each_side(
            judge, "judge", bytes, allowed, [&](Side &side) { return calls.judge(side.sheet.lent(), length, allow); }, nothing, [&] { return std::string("waits ") + (allow ? "allowed" : "not allowed"); });
    }
    if (allowed < 256) {
        const bool largest = n == 64 && bytes[1] == 0 && bytes[2] == 2, loose = loose_steps(bytes) != 0;
        met.largest += largest;
        met.loose += loose;
        met.large_loose += largest && loose;
        met.leasts += has_leasts(bytes);
        met.large_leasts += largest && has_leasts(bytes);
        met.longest = std::max(met.longest, length);
    }

    {
        std::array<uint64_t, 64> maps, maps_before;
        for (uint64_t &map : maps_before) map = random.next();
        uint32_t count_before = uint32_t(random.next()), count = count_before;
        maps = maps_before;
        uint32_t expected = second_waits(at, length, maps.data(), &count);
        uint64_t sum = 0;
        for (uint64_t map : maps) sum += uint64_t(__builtin_popcountll(map));
        if (expected < 256) need(count == sum && (expected == 1) == (sum > 0), "the second planner's waits and their count differ");
        else need(maps == maps_before && count == count_before, "the second planner wrote waits on a refusal");
        each_side(
            waits, "waits", bytes, expected,
            [&](Side &side) {
                side.maps.lend(maps_before.data(), sizeof maps_before);
                side.count.lend(&count_before, sizeof count_before);
                return calls.waits(side.sheet.lent(), length, words_at(side.maps), numbers_at(side.count));
            },
            [&](Side &side) {
                need_lent(side.maps, maps.data(), "maps");
                need_lent(side.count, &count, "count");
            },
            [&] { return "expected maps " + list_of(maps.data(), 64); });
    }

    {
        bool allow = random.chance(80);
        Numbers before = draw_numbers(random, draw_length(random, n * n, longest_table)), table = before;
        uint32_t expected = second_plan(at, length, allow, address(table), table.size());
        need_rule(expected, before, table, n * n);
        if (expected < 256)
            for (size_t k = 0; k < n * n; k++)
                if (table[k] != STANDPLAN_UNDECIDED) met.heaviest = std::max(met.heaviest, table[k]);
        each_side(
            plan, "plan", bytes, expected,
            [&](Side &side) {
                lend(side.table, before);
                return calls.plan(side.sheet.lent(), length, allow, numbers_at(side.table), before.size());
            },
            [&](Side &side) { need_lent(side.table, table.data(), "table"); }, [&] { return std::string("waits ") + (allow ? "allowed" : "not allowed") + ", a table of " + std::to_string(before.size()) + "\n  expected " + list_of(table.data(), table.size()); });
    }

    for (uint32_t times = allowed < 256 ? random.from(1, 3) : 1; times > 0; times--) {
        bool allow = random.chance(80);
        Numbers list = draw_list(random, bytes), before = draw_numbers(random, draw_length(random, n, longest_list)), out = before;
        uint32_t expected = second_starts(at, length, allow, address(list), list.size(), address(out), out.size());
        need_rule(expected, before, out, n);
        met.below_least += expected == 256 + 13 && only_below_least(bytes, list);
        each_side(
            starts, "starts", bytes, expected,
            [&](Side &side) {
                lend(side.list, list);
                lend(side.out, before);
                return calls.starts(side.sheet.lent(), length, allow, numbers_at(side.list), list.size(), numbers_at(side.out), before.size());
            },
            [&](Side &side) {
                need_lent(side.out, out.data(), "out");
                need_lent(side.list, list.data(), "list");
            },
            [&] { return std::string("waits ") + (allow ? "allowed" : "not allowed") + ", list " + list_of(list.data(), list.size()) + ", out of " + std::to_string(before.size()) + "\n  expected " + list_of(out.data(), out.size()); });
    }

    {
        Leasts before(draw_length(random, n, longest_leasts)), leasts;
        for (uint16_t &least : before) least = uint16_t(random.next());
        leasts = before;
        const size_t n_before = size_t(random.next());
        const uint64_t open_before = random.next();
        size_t steps_n = n_before;
        uint64_t open = open_before;
        uint32_t expected = second_steps(at, length, &steps_n, &open, address(leasts), leasts.size());
        need_rule(expected, before, leasts, n);
        need(expected < 256 ? steps_n == n && open & 1 : steps_n == n_before && open == open_before, "the second planner's step count or open map is out of place");
        each_side(
            steps, "steps", bytes, expected,
            [&](Side &side) {
                side.n.lend(&n_before, sizeof n_before);
                side.open.lend(&open_before, sizeof open_before);
                lend(side.leasts, before);
                return calls.steps(side.sheet.lent(), length, size_at(side.n), words_at(side.open), leasts_at(side.leasts), before.size());
            },
            [&](Side &side) {
                need_lent(side.n, &steps_n, "step count");
                need_lent(side.open, &open, "open map");
                need_lent(side.leasts, leasts.data(), "leasts");
            },
            [&] { return "leasts of " + std::to_string(before.size()) + "\n  expected " + list_of(leasts.data(), leasts.size()); });
    }

    clashing_records(bytes, is_impossible(allowed), random);
    price_of(bytes, random);
}

// The price, by the printed table; the two lists are lent at lengths of their own.
void Examiner::price_of(const Bytes &bytes, Random &random) {
    static const std::vector<uint16_t> printed = [] {
        std::vector<uint16_t> entries(register_entries);
        second_printed(entries.data());
        return entries;
    }();
    const bool allow = random.chance(80);
    const size_t n = bytes.empty() ? 0 : bytes[0];
    auto before_of = [&] { return draw_numbers(random, draw_length(random, std::min(n, most_steps), longest_list)); };
    const Numbers registers_before = before_of(), comparisons_before = before_of(), totals_before = draw_numbers(random, 2);
    Numbers registers = registers_before, comparisons = comparisons_before, totals = totals_before;
    const uint32_t expected = second_price(address(bytes), bytes.size(), allow, printed.data(), address(registers), registers.size(), address(comparisons), comparisons.size(), totals.data());
    need_rule(expected, registers_before, registers, n);
    need_rule(expected, comparisons_before, comparisons, n);
    need_rule(expected, totals_before, totals, totals.size());
    met.add_price(bytes, allow, expected);
    each_side(
        price, "price", bytes, expected,
        [&](Side &side) {
            lend(side.registers, registers_before);
            lend(side.comparisons, comparisons_before);
            lend(side.totals, totals_before);
            return calls.price(side.sheet.lent(), bytes.size(), allow, numbers_at(side.registers), registers_before.size(), numbers_at(side.comparisons), comparisons_before.size(), numbers_at(side.totals));
        },
        [&](Side &side) {
            need_lent(side.registers, registers.data(), "registers");
            need_lent(side.comparisons, comparisons.data(), "comparisons");
            need_lent(side.totals, totals.data(), "totals");
        },
        [&] {
            return std::string("waits ") + (allow ? "allowed" : "not allowed") + ", registers of " + std::to_string(registers.size()) + ", comparisons of " + std::to_string(comparisons.size()) + "\n  expected " + list_of(registers.data(), registers.size()) + "; " +
                   list_of(comparisons.data(), comparisons.size()) + "; " + list_of(totals.data(), totals.size());
        });
}

// Which records clash. The call takes a judgement for each record: small sheets are tried with two lengths of what is lent, large ones with one, the largest now and then.
void Examiner::clashing_records(const Bytes &bytes, bool impossible, Random &random) {
    const size_t records = impossible ? record_count(bytes) : 0;
    if (records > 256 && !random.chance(15)) return;
    const Numbers report = impossible ? second_report(bytes) : Numbers();
    for (int times = impossible && records <= 64 ? 2 : 1; times > 0; times--) lend_report(bytes, report, random);
}

// One call; the report that is expected, if there is room for it.
void Examiner::lend_report(const Bytes &bytes, const Numbers &expected_report, Random &random) {
    const size_t answer = expected_report.size(), count_before = size_t(random.next());
    const Numbers before = draw_numbers(random, draw_report_length(random, answer));
    Numbers report = before;
    size_t count = count_before;
    const uint32_t expected = second_clashes(address(bytes), bytes.size(), address(report), report.size(), &count);
    need_rule(expected, before, report, answer);
    if (expected == 0) need(count == answer && std::equal(expected_report.begin(), expected_report.end(), report.begin()), "the second planner gives another report");
    else need(count == count_before, "the second planner counts records on a refusal");
    if (expected == 0) met.add_report(count, record_count(bytes));
    each_side(
        clashes, "clashes", bytes, expected,
        [&](Side &side) {
            lend(side.report, before);
            side.count.lend(&count_before, sizeof count_before);
            return calls.clashes(side.sheet.lent(), bytes.size(), numbers_at(side.report), before.size(), size_at(side.count));
        },
        [&](Side &side) {
            need_lent(side.report, report.data(), "report");
            need_lent(side.count, &count, "count");
        },
        [&] { return "a report of " + std::to_string(before.size()) + "\n  expected " + list_of(expected_report.data(), answer); });
}

// A run as the second runner has it, and on each side as the library has it.
class Examiner::Run {
    Examiner &examiner;
    Random &random;
    Numbers table;
    size_t table_len = 0;
    Leasts leasts; // as lent to the last begin

    void look_at_tables() {
        for (Side &side : examiner.sides) need_lent(side.table, table.data(), "table");
    }

    void look_at_state(Side &side) {
        need_lent(side.words, state.words, "words");
        need_lent(side.tick, &state.tick, "tick");
        need_lent(side.start, state.start, "start ticks");
        need_lent(side.finish, state.finish, "finish ticks");
        need_lent(side.least, state.least, "least durations");
    }

    std::string tell(const standplan_run &before) const {
        return "words " + list_of(before.words, 4) + "\n  tick " + std::to_string(before.tick) + "\n  start " + list_of(before.start, 64) + "\n  finish " + list_of(before.finish, 64) + "\n  least " + list_of(before.least, 64) + "\n  table of " + std::to_string(table_len) + ": " +
               list_of(table.data(), table_len);
    }

    template <class Second, class Ours> uint32_t call(Call which, const std::string &name_of_call, Second second, Ours ours) {
        const standplan_run before = state;
        const uint64_t map_before = random.next();
        map = map_before;
        uint32_t expected = second();
        need(expected < 256 || (map == map_before && std::memcmp(&before, &state, sizeof state) == 0), "the second runner wrote on a refusal");
        examiner.met.verdicts[which][expected & 511]++;
        made++;
        for (Side &side : examiner.sides) {
            try {
                side.map.lend(&map_before, sizeof map_before);
                need_verdict(guarded([&] { return ours(side, words_at(side.words), numbers_at(side.tick), numbers_at(side.start), numbers_at(side.finish), leasts_at(side.least), words_at(side.map)); }), expected);
                need_lent(side.map, &map, "map");
                look_at_state(side);
            } catch (Failure &failure) {
                throw Failure{name_of_call + ": " + failure.what + "\n  guard page " + name(side.guard) + "\n  call " + std::to_string(made) + " of the run; before it:\n  " + tell(before) + "\n  expected map " + std::to_string(map)};
            }
        }
        return expected;
    }

public:
    standplan_run state{};
    uint64_t map = 0; // of the steps that the last call started
    uint64_t made = 0; // calls

    Run(Examiner &examiner, Random &random, const Numbers &table) : examiner(examiner), random(random) {
        lend_state();
        lend_table(table, table.size());
    }

    void lend_state() {
        for (Side &side : examiner.sides) {
            side.words.lend(state.words, sizeof state.words);
            side.tick.lend(&state.tick, sizeof state.tick);
            side.start.lend(state.start, sizeof state.start);
            side.finish.lend(state.finish, sizeof state.finish);
            side.least.lend(state.least, sizeof state.least);
        }
    }

    // From now on the first `length` numbers of the table are lent.
    void lend_table(const Numbers &numbers, size_t length) {
        table = numbers;
        table_len = length;
        for (Side &side : examiner.sides) side.table.lend(table.data(), length * sizeof(uint32_t));
    }

    uint32_t begin(size_t n, uint64_t open, const Leasts &lent_leasts) {
        leasts = lent_leasts;
        for (Side &side : examiner.sides) lend(side.leasts, leasts);
        const uint32_t verdict = call(
            ::begin, "begin " + std::to_string(n) + " " + std::to_string(open) + ", leasts " + list_of(leasts.data(), leasts.size()),
            [&] { return second_begin(state.words, &state.tick, state.start, state.finish, state.least, &map, n, open, address(leasts), leasts.size(), address(table), table_len); },
            [&](Side &side, auto... lent) { return examiner.calls.begin(lent..., n, open, leasts_at(side.leasts), leasts.size(), numbers_at(side.table), table_len); });
        for (Side &side : examiner.sides) need_lent(side.leasts, leasts.data(), "leasts");
        return verdict;
    }
    uint32_t tick() {
        return call(
            ::tick, "tick", [&] { return second_tick(state.words, &state.tick, state.start, state.finish, state.least, &map, address(table), table_len); },
            [&](Side &side, auto... lent) { return examiner.calls.tick(lent..., numbers_at(side.table), table_len); });
    }
    uint32_t finish(size_t s) {
        return call(
            ::finish, "finish " + std::to_string(s), [&] { return second_finish(state.words, &state.tick, state.start, state.finish, state.least, &map, s, address(table), table_len); },
            [&](Side &side, auto... lent) { return examiner.calls.finish(lent..., s, numbers_at(side.table), table_len); });
    }

    void end() {
        look_at_tables();
        examiner.met.fullest = std::max(examiner.met.fullest, made);
    }
};

void Examiner::run(Random &random) {
    if (random.chance(60)) proper_run(random);
    else any_run(random);
}

namespace {

bool has(uint64_t map, size_t step) { return map >> step & 1; }

size_t any_step(Random &random) {
    size_t step = random.below(70);
    if (random.chance(3)) step = size_t(random.next());
    if (random.chance(2)) step |= size_t(1) << 32;
    return step;
}

// An accepted sheet, and its plan as the library gives it.
Bytes accepted_sheet(Random &random, bool short_run, decltype(&standplan_plan) plan_of, Numbers &plan) {
    for (;;) {
        Bytes sheet = draw_good_sheet(random, short_run);
        if (second_judge(sheet.data(), sheet.size(), true) >= 256) continue;
        plan.assign(size_t(sheet[0]) * sheet[0], 0);
        if (plan_of(sheet.data(), sheet.size(), true, plan.data(), plan.size()) < 256) return sheet;
        throw Failure{"plan: a sheet refused that the second planner accepts\n  sheet " + hex(sheet.data(), sheet.size())};
    }
}

standplan_run any_state(Random &random, size_t n) {
    standplan_run state{};
    uint32_t kind = random.below(8);
    if (kind == 0) return state;
    bool wild = kind == 1;
    uint32_t scale = random.chance(70) ? 12 : 4294967295u;
    uint32_t base = random.chance(80) ? 0 : 4294967295u - scale;
    auto number = [&] { return base + random.below(scale); };
    state.words[0] = wild ? random.next() : random.chance(85) ? n : random.chance(50) ? random.below(130) : uint64_t(n) | uint64_t(1) << random.from(6, 63);
    state.words[1] = random.next() | random.next();
    state.words[2] = random.next() & (random.chance(50) ? random.next() : ~uint64_t(0));
    state.words[3] = random.next() | (random.chance(50) ? random.next() : 0);
    if (!wild && random.chance(90)) state.words[2] |= 1;
    state.tick = random.chance(10) ? 4294967295u - random.below(3) : random.chance(70) ? number() : uint32_t(random.next());
    for (uint32_t &tick : state.start) tick = wild ? uint32_t(random.next()) : number();
    for (uint32_t &tick : state.finish) tick = wild ? uint32_t(random.next()) : number();
    const Leasts leasts = draw_leasts(random, 64);
    std::copy(leasts.begin(), leasts.end(), state.least);
    return state;
}

} // namespace

// A run of an accepted sheet's plan, begun with what the library says of the sheet. Steps finish when it pleases, from their leasts on; some calls between are wrong,
// some finishes too early. In the end every step has started exactly if its start for the durations that happened has come, and at that tick.
void Examiner::proper_run(Random &random) {
    constexpr uint32_t longest = longest_duration;
    const bool short_run = random.chance(70);
    Numbers plan;
    const Bytes sheet = accepted_sheet(random, short_run, calls.plan, plan);
    const Current current(sheet);
    const size_t n = sheet[0];
    size_t steps_n = 0;
    uint64_t open = 0;
    Leasts leasts = draw_leasts(random, n + (random.chance(20) ? random.below(65) : 0));
    if (calls.steps(sheet.data(), sheet.size(), &steps_n, &open, leasts.data(), leasts.size()) != 0 || steps_n != n) throw Failure{"steps: not those of a sheet that the second planner accepts\n  sheet " + hex(sheet.data(), sheet.size())};
    open &= ~uint64_t(1);
    const uint64_t all = ~uint64_t(0) >> (64 - n);
    if (random.chance(20)) {
        Numbers more = draw_numbers(random, random.below(64));
        plan.insert(plan.end(), more.begin(), more.end());
    }
    Run run(*this, random, plan);
    const standplan_run &state = run.state;

    // The starts for the durations that happened; an open step that has not finished lasts `more` longer, or `more` in all, but no less than its least.
    auto starts_now = [&](auto more, Numbers &starts) {
        Numbers list(n, 0);
        starts.assign(n, 0);
        for (size_t a = 1; a < n; a++) {
            if (!has(open, a)) continue;
            uint64_t lasted = has(state.words[3], a) ? state.finish[a] - state.start[a] : std::max<uint64_t>(leasts[a], has(state.words[2], a) ? uint64_t(state.tick - state.start[a]) + more() : more());
            list[a] = uint32_t(std::min<uint64_t>(lasted, longest));
        }
        return second_starts(sheet.data(), sheet.size(), true, list.data(), n, starts.data(), n) < 256;
    };

    try {
        if (random.chance(10)) run.begin(n, open, Leasts(leasts.begin(), leasts.begin() + long(random.chance(50) ? n - 1 : random.below(uint32_t(n))))); // too short
        run.begin(n, (open | (random.chance(50) ? 1 : 0)) | (n < 64 && random.chance(20) ? random.next() << n : 0), leasts);
        const uint32_t finishes = random.from(5, 60), too_early = random.chance(50) ? 0 : random.from(5, 50);
        for (uint32_t turns = random.from(10, 250); turns > 0 && state.tick < longest / 2; turns--) {
            const uint64_t busy = open & state.words[2] & ~state.words[3];
            if ((state.words[2] & all) == all && busy == 0) break;
            uint64_t early = 0, just_now = 0; // those of them below their least, and at it
            for (size_t a = 1; a < n; a++) {
                const uint64_t ripe = uint64_t(state.start[a]) + leasts[a];
                if (has(busy, a) && ripe > state.tick) early |= uint64_t(1) << a;
                if (has(busy, a) && leasts[a] > 0 && ripe == state.tick) just_now |= uint64_t(1) << a;
            }
            auto finish_one_of = [&](uint64_t steps) {
                size_t s = random.below(64);
                while (!has(steps, s)) s = (s + 1) % 64;
                met.just_long += run.finish(s) == 0 && has(just_now, s);
            };
            if (random.chance(4)) { // a call out of place
                switch (random.below(3)) {
                case 0: run.begin(random.chance(50) ? n : any_step(random), random.next(), draw_leasts(random, draw_length(random, n, longest_leasts))); break;
                case 1: run.finish(any_step(random)); break;
                default:
                    run.end();
                    run.lend_table(plan, random.below(uint32_t(n * n)));
                    if (random.chance(50)) run.tick();
                    else run.finish(any_step(random));
                    run.end();
                    run.lend_table(plan, plan.size());
                }
            } else if (early && random.chance(too_early)) {
                finish_one_of(early);
            } else if (just_now && random.chance(40)) {
                finish_one_of(just_now);
            } else if (busy & ~early && random.chance(finishes)) {
                finish_one_of(busy & ~early);
            } else if (!short_run && random.chance(30)) { // nothing starts before the next planned tick: the clock is set to just before it, or before a step has lasted its least
                Numbers planned;
                if (!starts_now([] { return longest; }, planned)) break;
                uint32_t next = longest;
                for (size_t v = 0; v < n; v++)
                    if (!has(state.words[2], v)) next = std::min(next, planned[v]);
                    else if (has(early, v)) next = std::min(next, state.start[v] + leasts[v]);
                if (next < longest && next - 1 > state.tick) {
                    run.state.tick = next - 1;
                    run.lend_state();
                }
                run.tick();
            } else {
                run.tick();
            }
        }
        run.end();
        met.proper_runs++;
        met.least_runs += has_leasts(sheet);
        if ((state.words[2] & all) == all && (open & ~state.words[3]) == 0) met.ended_runs++;

        Numbers planned;
        need(starts_now([&] { return 1 + random.below(9); }, planned), "the second planner refused a list of what happened");
        for (size_t v = 0; v < n; v++) {
            bool started = has(state.words[2], v);
            if (started != (planned[v] <= state.tick) || (started && state.start[v] != planned[v]))
                throw Failure{"step " + std::to_string(v) + (started ? " started at " + std::to_string(state.start[v]) : " has not started") + " by tick " + std::to_string(state.tick) + ", its start is " + std::to_string(planned[v]) +
                              "\n  start " + list_of(state.start, n) + "\n  finish " + list_of(state.finish, n)};
            met.started += started;
        }
    } catch (Failure &failure) {
        throw Failure{failure.what + "\n  sheet " + hex(sheet.data(), sheet.size())};
    }
}

// Calls on states and tables from anywhere: no run, what a run has left, words that no run leaves.
void Examiner::any_run(Random &random) {
    size_t n = random.chance(80) ? random.from(1, 12) : random.from(1, 64);
    Numbers table;
    if (random.chance(30)) n = accepted_sheet(random, true, calls.plan, table)[0];
    else table = draw_table(random, n);
    Numbers more = draw_numbers(random, random.below(64));
    table.insert(table.end(), more.begin(), more.end());

    auto length = [&] { return random.chance(85) ? random.from(uint32_t(n * n), uint32_t(table.size())) : draw_length(random, n * n, table.size()); };
    Run run(*this, random, table);
    run.lend_table(table, length());
    if (random.chance(70)) {
        run.state = any_state(random, n);
        run.lend_state();
    }
    for (uint32_t turns = random.from(1, 40); turns > 0; turns--) {
        uint32_t kind = random.below(100);
        if (kind < 12) run.begin(random.chance(70) ? n : any_step(random), random.next() | random.next(), draw_leasts(random, random.chance(70) ? n : draw_length(random, n, longest_leasts)));
        else if (kind < 52) run.tick();
        else if (kind < 90) run.finish(random.chance(80) ? random.below(uint32_t(n) + 1) : any_step(random));
        else if (kind < 94) {
            run.end();
            if (random.chance(30)) { // the state stays, the table is another
                table = draw_table(random, n);
                table.insert(table.end(), more.begin(), more.end());
            }
            run.lend_table(table, length());
        } else {
            switch (random.below(7)) {
            case 0: run.state = any_state(random, n); break;
            case 1: run.state = {}; break;
            case 2: run.state.tick = 4294967295u - random.below(3); break;
            case 3: run.state.words[random.below(4)] ^= uint64_t(1) << random.below(64); break;
            case 4: run.state.least[random.below(64)] = uint16_t(random.chance(50) ? 65535 : random.next()); break;
            case 5: { // a step that runs is about to have lasted its least, or has just
                const size_t s = random.below(uint32_t(n));
                for (size_t k : {1, 2}) run.state.words[k] |= uint64_t(1) << s;
                run.state.words[3] &= ~(uint64_t(1) << s);
                const uint64_t ripe = uint64_t(run.state.start[s]) + run.state.least[s] + random.below(3);
                run.state.tick = uint32_t(std::min<uint64_t>(ripe > 0 ? ripe - 1 : 0, 4294967295u));
                run.lend_state();
                run.finish(s);
                break;
            }
            default: run.state.words[random.below(4)] = random.chance(50) ? random.below(70) : random.next();
            }
            run.lend_state();
        }
    }
    run.end();
}

namespace {

std::string told(const Parts &parts) {
    return "n " + std::to_string(parts.n) + ", steps " + list_of(parts.steps.data(), parts.steps.size()) + "\n  r " + std::to_string(parts.r) + ", records " + list_of(parts.records.data(), parts.records.size());
}

uint32_t second_written(const Parts &parts, Bytes &buffer, size_t &length) {
    return second_write(parts.n, address(parts.steps), parts.steps.size(), parts.r, address(parts.records), parts.records.size(), address(buffer), buffer.size(), &length);
}

// All that the library says of a sheet: verdicts, waits, plan, steps, price, and starts for its leasts.
struct Answers {
    std::vector<uint32_t> verdicts;
    std::array<uint64_t, 64> maps{};
    uint32_t count = 0;
    Numbers plan = Numbers(most_steps * most_steps), starts = Numbers(most_steps), leasts;
    Numbers registers = Numbers(most_steps), comparisons = Numbers(most_steps), totals = Numbers(2);
    size_t n = 0;
    uint64_t open = 0;

    Answers(const Calls &calls, const Bytes &sheet) {
        const uint8_t *const at = sheet.data();
        const size_t length = sheet.size();
        Leasts given(most_steps);
        for (bool allow : {false, true}) verdicts.push_back(calls.judge(at, length, allow));
        verdicts.push_back(calls.waits(at, length, maps.data(), &count));
        verdicts.push_back(calls.plan(at, length, true, plan.data(), plan.size()));
        verdicts.push_back(calls.steps(at, length, &n, &open, given.data(), given.size()));
        leasts.assign(given.begin(), given.end());
        verdicts.push_back(calls.price(at, length, true, registers.data(), most_steps, comparisons.data(), most_steps, totals.data()));
        verdicts.push_back(calls.starts(at, length, true, leasts.data(), leasts.size(), starts.data(), starts.size()));
    }

    bool operator==(const Answers &other) const {
        return verdicts == other.verdicts && maps == other.maps && count == other.count && plan == other.plan && starts == other.starts && leasts == other.leasts && n == other.n && open == other.open && registers == other.registers &&
               comparisons == other.comparisons && totals == other.totals;
    }
};

} // namespace

// One call, with so many bytes of room; the sheet of these parts, if there is one.
void Examiner::lend_room(const Parts &parts, const Bytes &sheet, size_t room, Random &random) {
    Bytes before(room);
    for (uint8_t &byte : before) byte = uint8_t(random.next());
    const size_t length_before = size_t(random.next());
    Bytes buffer = before;
    size_t length = length_before;
    const uint32_t expected = second_written(parts, buffer, length);
    need_rule(expected, before, buffer, sheet.size());
    if (expected == 0) need(length == sheet.size() && std::equal(sheet.begin(), sheet.end(), buffer.begin()), "the second writer writes another sheet");
    else need(length == length_before, "the second writer gives a length on a refusal");
    met.just_room += expected == 0 && before.size() == sheet.size();
    met.one_short += expected == 256 + 14 && before.size() + 1 == sheet.size();
    met.short_lists += expected == 256 + 14 && sheet.empty();
    met.verdicts[write_sheet][expected & 511]++;
    both_sides(
        "write", expected,
        [&](Side &side) {
            lend(side.step_list, parts.steps);
            lend(side.record_list, parts.records);
            lend(side.buffer, before);
            side.length.lend(&length_before, sizeof length_before);
            return calls.write(parts.n, leasts_at(side.step_list), parts.steps.size(), parts.r, leasts_at(side.record_list), parts.records.size(), side.buffer.lent(), before.size(), size_at(side.length));
        },
        [&](Side &side) {
            need_lent(side.buffer, buffer.data(), "buffer");
            need_lent(side.length, &length, "length");
            need_lent(side.step_list, parts.steps.data(), "steps");
            need_lent(side.record_list, parts.records.data(), "records");
        },
        [&] { return told(parts) + "\n  a buffer of " + std::to_string(before.size()) + "\n  expected " + hex(sheet.data(), sheet.size()); });
}

// With any room; then, where there is a sheet of these parts, with enough, so that it is written. Gives the sheet.
Bytes Examiner::write_parts(const Parts &parts, Random &random) {
    Bytes sheet(longest_sheet);
    size_t size = 0;
    const uint32_t verdict = second_written(parts, sheet, size);
    sheet.resize(verdict == 0 ? size : 0);
    lend_room(parts, sheet, draw_room(random, verdict == 0 ? size : random.from(1, longest_sheet)), random);
    if (verdict == 0) lend_room(parts, sheet, size + random.below(longest_buffer - longest_sheet), random);
    return sheet;
}

// What is written and then read gives the same steps and, rising, the same records. Not counted among the verdicts of sheets that are drawn.
void Examiner::read_again(const Parts &parts, const Bytes &written, Random &random) {
    const Current current(written);
    const Parts same = as_written(parts);
    need(parts_of(written) == same, "the second writer's sheet has other parts");
    for (Side &side : sides) lend(side.sheet, written);
    const size_t n_before = size_t(random.next());
    const uint64_t open_before = random.next();
    const Leasts before(parts.n, uint16_t(random.next()));
    uint64_t open = 0;
    Leasts leasts(parts.n, 0);
    for (size_t v = 0; v < parts.n; v++) {
        const uint16_t *const step = &parts.steps[step_numbers * v];
        open |= uint64_t(step[0] & 1) << v;
        if (step[0] & 4) leasts[v] = step[1];
    }
    both_sides(
        "steps of what was written", 0,
        [&](Side &side) {
            side.n.lend(&n_before, sizeof n_before);
            side.open.lend(&open_before, sizeof open_before);
            lend(side.leasts, before);
            return calls.steps(side.sheet.lent(), written.size(), size_at(side.n), words_at(side.open), leasts_at(side.leasts), before.size());
        },
        [&](Side &side) {
            need_lent(side.n, &parts.n, "step count");
            need_lent(side.open, &open, "open map");
            need_lent(side.leasts, leasts.data(), "leasts");
        },
        [&] { return told(parts); });
    const bool allow = random.chance(50);
    both_sides(
        "judge of what was written", second_judge(written.data(), written.size(), allow), [&](Side &side) { return calls.judge(side.sheet.lent(), written.size(), allow); }, [&](Side &side) { need_lent(side.sheet, written.data(), "sheet"); }, [&] { return told(parts); });
}

// A sheet that is read, taken apart and written again: it means the same and is shorter by the fixed durations of 0.
void Examiner::write_again(const Bytes &sheet, Random &random) {
    const Current current(sheet);
    const Parts parts = mixed_up(random, parts_of(sheet));
    const Bytes written = write_parts(parts, random);
    const size_t zeros = written_zeros(sheet);
    need(!written.empty() && written.size() + 2 * zeros == sheet.size(), "the second writer's sheet has another length");
    if (zeros == 0) need(written == sheet, "the second writer's sheet is not the one that was read");
    if (!(Answers(calls, written) == Answers(calls, sheet))) throw Failure{"a sheet written again gives other answers\n  sheet " + hex(sheet.data(), sheet.size()) + "\n  written " + hex(written.data(), written.size())};
    met.again++;
    met.again_shorter += zeros > 0;
}

void Examiner::write(Random &random) {
    if (random.chance(15)) {
        for (;;) {
            const Bytes sheet = draw_input(random);
            size_t n = 0;
            uint64_t open = 0;
            Leasts leasts(most_steps);
            if (second_steps(address(sheet), sheet.size(), &n, &open, leasts.data(), leasts.size()) == 0) return write_again(sheet, random);
        }
    }
    const Parts parts = draw_parts(random);
    const Bytes written = write_parts(parts, random);
    if (written.empty()) return;
    const Parts same = as_written(parts);
    bool left_out = false;
    for (size_t v = 0; v < parts.n; v++) left_out |= parts.steps[step_numbers * v] != same.steps[step_numbers * v];
    met.left_out += left_out;
    met.reordered += !pairs_rise(parts);
    met.longest_written = std::max(met.longest_written, written.size());
    read_again(parts, written, random);
}
