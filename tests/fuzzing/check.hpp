// Tries calls of the library on lent memory, beside the second planner, the second runner and the second writer.
#pragma once

#include "draw.hpp"
#include "lent.hpp"
#include "parts.hpp"

#include "../../include/standplan.h"

#include <array>
#include <string>

// The calls that are tried: the library's own, or some of them with a planted fault.
struct Calls {
    decltype(&standplan_judge) judge = standplan_judge;
    decltype(&standplan_waits) waits = standplan_waits;
    decltype(&standplan_plan) plan = standplan_plan;
    decltype(&standplan_starts) starts = standplan_starts;
    decltype(&standplan_steps) steps = standplan_steps;
    decltype(&standplan_clashes) clashes = standplan_clashes;
    decltype(&standplan_price) price = standplan_price;
    decltype(&standplan_begin) begin = standplan_begin;
    decltype(&standplan_tick) tick = standplan_tick;
    decltype(&standplan_finish) finish = standplan_finish;
    decltype(&standplan_write) write = standplan_write;
};

// The kinds of cases, each with numbers of its own: inputs, runs, parts that are written.
enum Kind : uint64_t { sheet_kind = 1, run_kind, write_kind };

// What is thrown where a call did what it may not do.
struct Failure {
    std::string what;
};

enum Call { judge, waits, plan, starts, steps, clashes, price, begin, tick, finish, write_sheet, call_count };

// What was met.
struct Met {
    std::array<std::array<uint64_t, 512>, call_count> verdicts{};
    uint64_t largest = 0;      // accepted sheets with N = 64 and R = 512
    uint64_t loose = 0;        // accepted sheets with steps that follow nothing
    uint64_t large_loose = 0;  // those that are both
    uint64_t leasts = 0;       // accepted sheets with leasts above 0
    uint64_t large_leasts = 0; // those with N = 64 and R = 512
    uint64_t below_least = 0;  // lists refused by entries below their leasts alone
    size_t longest = 0;        // bytes of an accepted sheet
    uint32_t heaviest = 0;     // the largest offset of a plan
    uint64_t one_clash = 0;    // reports of one record that clashes
    uint64_t some_clash = 0;   // of several
    uint64_t many_clash = 0;   // of 40 or more
    uint64_t large_clash = 0;  // reports of sheets with R = 512
    size_t most_clash = 0;     // records of the longest report
    uint64_t just_priced = 0;  // prices where the largest offset is the last one that the table has
    uint64_t just_too_large = 0; // refused where it is one more
    uint64_t large_priced = 0; // prices of sheets with N = 64 and R = 512
    uint64_t proper_runs = 0;  // runs of an accepted sheet's plan
    uint64_t least_runs = 0;   // those of a sheet with leasts above 0
    uint64_t just_long = 0;    // steps of theirs that finished at exactly their least above 0
    uint64_t ended_runs = 0;   // those in which every step started and every open one finished
    uint64_t started = 0;      // steps whose start was compared with the second planner's
    uint64_t fullest = 0;      // most calls in one run
    uint64_t just_room = 0;    // sheets written with no byte to spare
    uint64_t one_short = 0;    // refused for one byte too few
    uint64_t short_lists = 0;  // refused 14 whatever the room
    uint64_t left_out = 0;     // written sheets without some fixed duration of 0
    uint64_t reordered = 0;    // written sheets whose records came in another order
    uint64_t again = 0;        // sheets that were read, written again
    uint64_t again_shorter = 0; // those that became shorter
    size_t longest_written = 0; // bytes of a written sheet

    void add_report(size_t count, size_t records);
    void add_price(const Bytes &sheet, bool allow, uint32_t verdict);
};

// From now on a call that faults is a failure, and one that does not answer ends the program with the case that has begun.
void catch_faults();
void case_begins(uint64_t seed, const char *kind, uint64_t number);

class Examiner {
    struct Side {
        Guard guard;
        Lent sheet{guard, Lent::pages_for(longest_input)}, table{guard, Lent::pages_for(longest_table * sizeof(uint32_t))}, list{guard, 1}, out{guard, 1}, maps{guard, 1}, count{guard, 1}, leasts{guard, 1}, n{guard, 1}, open{guard, 1};
        Lent report{guard, Lent::pages_for(longest_report * sizeof(uint32_t))};
        Lent registers{guard, 1}, comparisons{guard, 1}, totals{guard, 1};
        Lent step_list{guard, Lent::pages_for(longest_step_numbers * sizeof(uint16_t))}, record_list{guard, Lent::pages_for(longest_record_numbers * sizeof(uint16_t))};
        Lent buffer{guard, Lent::pages_for(longest_buffer)}, length{guard, 1};
        Lent words{guard, 1}, tick{guard, 1}, start{guard, 1}, finish{guard, 1}, least{guard, 1}, map{guard, 1};
    };
    class Run;

    const Calls calls;
    std::array<Side, 2> sides{{{Guard::end}, {Guard::start}}};

    template <class Ours, class Look, class Tell> void both_sides(const char *name_of_call, uint32_t expected, Ours ours, Look look, Tell tell);
    template <class Ours, class Look, class Tell> void each_side(Call call, const char *name_of_call, const Bytes &sheet, uint32_t expected, Ours ours, Look look, Tell tell);
    void clashing_records(const Bytes &sheet, bool impossible, Random &random);
    void price_of(const Bytes &sheet, Random &random);
    void lend_report(const Bytes &sheet, const Numbers &expected_report, Random &random);
    void proper_run(Random &random);
    void any_run(Random &random);
    void lend_room(const Parts &parts, const Bytes &sheet, size_t room, Random &random);
    Bytes write_parts(const Parts &parts, Random &random);
    void read_again(const Parts &parts, const Bytes &written, Random &random);
    void write_again(const Bytes &sheet, Random &random);

public:
    Met met;

    explicit Examiner(const Calls &calls = {}) : calls(calls) {}

    // Judges, lists the waits of, plans, works out starts of, says what begins a run of and which records clash in, and prices one input, on both sides of a guard page.
    void sheet(const Bytes &bytes, Random &random);

    // One run: of an accepted sheet's plan, or of states and tables from anywhere.
    void run(Random &random);

    // Writes the sheet of parts, with faults or without, and reads it; or that of the parts of a sheet that is read.
    void write(Random &random);
};
