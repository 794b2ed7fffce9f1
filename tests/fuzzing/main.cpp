// Differential fuzzing of the static library; tests/fuzz builds and runs it.
#include "check.hpp"
#include "planted.hpp"

#include "../second/runner.h"
#include "../second/second.h"

#include <chrono>
#include <cinttypes>
#include <fstream>
#include <iostream>
#include <set>
#include <stdexcept>

namespace {

struct Options {
    uint64_t seed = 1, sheets = 60000, runs = 6000, writes = 60000, part = 1, parts = 1;
    uint64_t one_kind = 0, one_number = 0; // the case that is repeated
    Bytes bytes;                           // the sheet that is tried
    std::string corpus;
    bool self_test = false;
};

const char *name(uint64_t kind) { return kind == sheet_kind ? "sheet" : kind == run_kind ? "run" : "write"; }

void try_case(Examiner &examiner, uint64_t seed, uint64_t kind, uint64_t number) {
    case_begins(seed, name(kind), number);
    Random random(seed, kind, number);
    if (kind == sheet_kind) {
        Bytes sheet = draw_input(random);
        examiner.sheet(sheet, random);
    } else if (kind == run_kind) {
        examiner.run(random);
    } else {
        examiner.write(random);
    }
}

void print_failure(uint64_t seed, uint64_t kind, uint64_t number, const Failure &failure) {
    std::cout << "FAILED: " << name(kind) << " " << number << " of seed " << seed << ": " << failure.what << "\nrepeat: tests/fuzz --seed " << seed << " --case " << name(kind) << ":" << number << std::endl;
}

// Document 01's run of the stand sheet, by the second planner and the second runner.
bool second_runs_as_told() {
    const Bytes sheet{5, 5, 0, 1, 2, 3, 0, 1, 2, 2, 0, 2, 1, 0, 1, 0, 1, 1, 0, 2, 1, 1, 4, 1, 2, 3, 5, 3, 4, 2, 0};
    Numbers plan(25);
    if (second_plan(sheet.data(), sheet.size(), true, plan.data(), plan.size()) != 0) return false;
    standplan_run run{};
    uint64_t map = 0;
    const Leasts leasts(5, 0);
    auto tick = [&] { return second_tick(run.words, &run.tick, run.start, run.finish, run.least, &map, plan.data(), plan.size()); };
    auto finish = [&] { return second_finish(run.words, &run.tick, run.start, run.finish, run.least, &map, 2, plan.data(), plan.size()); };
    return second_begin(run.words, &run.tick, run.start, run.finish, run.least, &map, 5, 4, leasts.data(), leasts.size(), plan.data(), plan.size()) == 0 && map == 7 && finish() == 0 && map == 0 && tick() == 0 && map == 8 && tick() == 0 && map == 0 && tick() == 0 && map == 16 &&
           finish() == 256 + 17 && map == 16; // a refusal leaves the map as it was
}

// A run of the stand sheet, its hand with a least of 8: it is refused 20 up to tick 7, ends at tick 8, and what hangs on it starts then.
bool second_keeps_least() {
    const Bytes sheet{5, 5, 0, 1, 2, 3, 0, 5, 8, 0, 2, 2, 0, 2, 1, 0, 1, 0, 1, 1, 0, 2, 1, 1, 4, 1, 2, 3, 5, 3, 4, 2, 0};
    Numbers plan(25);
    Leasts leasts(5);
    size_t n = 0;
    uint64_t open = 0, map = 0;
    standplan_run run{};
    if (second_plan(sheet.data(), sheet.size(), true, plan.data(), plan.size()) != 0 || second_steps(sheet.data(), sheet.size(), &n, &open, leasts.data(), leasts.size()) != 0) return false;
    auto finish = [&] { return second_finish(run.words, &run.tick, run.start, run.finish, run.least, &map, 2, plan.data(), plan.size()); };
    if (second_begin(run.words, &run.tick, run.start, run.finish, run.least, &map, n, open, leasts.data(), leasts.size(), plan.data(), plan.size()) != 0 || map != 7) return false;
    for (int tick = 0; tick < 8; tick++)
        if (finish() != 256 + 20 || second_tick(run.words, &run.tick, run.start, run.finish, run.least, &map, plan.data(), plan.size()) != 0 || map != 0) return false;
    return finish() == 0 && map == 8 && run.finish[2] == 8;
}

// Each planted fault has to be noticed for what it is within so many cases, and none in the library as it is.
int self_test(uint64_t seed) {
    constexpr uint64_t cases = 2000;
    if (!second_runs_as_told()) {
        std::cout << "self-test: the second runner's run of the stand sheet is not document 01's\n";
        return 1;
    }
    if (!second_keeps_least()) {
        std::cout << "self-test: the second runner does not keep the least of 8\n";
        return 1;
    }
    // The number of the first failure, or as many as there are cases.
    auto first_failure = [&](const Calls &calls, uint64_t kind, Failure &met) {
        Examiner examiner(calls);
        for (uint64_t number = 0; number < cases; number++) {
            try {
                try_case(examiner, seed, kind, number);
            } catch (Failure &failure) {
                met = failure;
                return number;
            }
        }
        return cases;
    };
    Failure met;
    for (Kind kind : {sheet_kind, run_kind, write_kind}) {
        uint64_t number = first_failure({}, kind, met);
        if (number == cases) continue;
        print_failure(seed, kind, number, met);
        return 1;
    }
    size_t noticed = 0;
    std::vector<Planted> all = planted_faults();
    for (const Planted &planted : planted_in_writes()) all.push_back(planted);
    for (const Planted &planted : planted_in_prices()) all.push_back(planted);
    for (const Planted &planted : all) {
        uint64_t number = first_failure(planted.calls, planted.kind, met);
        if (number < cases && met.what.find(planted.noticed) != std::string::npos) noticed++;
        else std::cout << "self-test: not noticed: " << planted.fault << (number < cases ? ", but this: " + met.what : "") << "\n";
    }
    std::cout << "self-test: " << noticed << " of " << all.size() << " planted faults noticed" << std::endl;
    return noticed == all.size() ? 0 : 1;
}

// The verdicts that each call can give; a run that is long enough has to meet them all.
const struct {
    const char *name;
    std::vector<uint32_t> refusals;
    bool verdict_1;
} expected_of[call_count] = {
    {"judge", {1, 2, 3, 4, 26, 5, 6, 7, 8, 10, 11, 28, 12}, true},
    {"waits", {1, 2, 3, 4, 26, 5, 6, 7, 8, 10, 11, 28}, true},
    {"plan", {1, 2, 3, 4, 26, 5, 6, 7, 8, 10, 11, 28, 12, 14}, true},
    {"starts", {1, 2, 3, 4, 26, 5, 6, 7, 8, 10, 11, 28, 12, 13, 14}, true},
    {"steps", {1, 2, 3, 4, 26, 5, 6, 7, 14}, false},
    {"clashes", {1, 2, 3, 4, 26, 5, 6, 7, 8, 31, 14}, false},
    {"price", {1, 2, 3, 4, 26, 5, 6, 7, 8, 10, 11, 28, 12, 19, 14}, true},
    {"begin", {16, 2, 14}, false},
    {"tick", {15, 14, 18}, false},
    {"finish", {15, 14, 17, 20}, false},
    {"write", {2, 3, 4, 26, 5, 6, 14}, false},
};

// Prints what was met. Whether every verdict was met that a call can give, of those that have to be.
bool report(const Met &met, bool all_sheets, bool all_runs, bool all_writes) {
    bool all = true;
    for (size_t call = 0; call < call_count; call++) {
        const auto &expected = expected_of[call];
        std::set<uint32_t> verdicts;
        if (call < begin ? all_sheets : call < write_sheet ? all_runs : all_writes) {
            verdicts = {0};
            if (expected.verdict_1) verdicts.insert(1);
            for (uint32_t refusal : expected.refusals) verdicts.insert(256 + refusal);
        }
        std::string line;
        for (uint32_t verdict = 0; verdict < 512; verdict++) {
            uint64_t times = met.verdicts[call][verdict];
            if (times == 0 && !verdicts.count(verdict)) continue;
            line += (line.empty() ? " " : ", ") + std::string(verdict < 256 ? "" : "refused ") + std::to_string(verdict & 255) + ": " + std::to_string(times);
            if (times == 0) all = false;
        }
        if (!line.empty()) std::cout << expected.name << ":" << line << "\n";
    }
    std::cout << "accepted sheets with N = 64 and R = 512: " << met.largest << ", with steps that follow nothing: " << met.loose << ", both: " << met.large_loose << "; the longest: " << met.longest << " bytes; the largest offset: " << met.heaviest << "\n";
    std::cout << "accepted sheets with leasts: " << met.leasts << ", of these with N = 64 and R = 512: " << met.large_leasts << "; lists refused 13 only by entries below their leasts: " << met.below_least << "\n";
    std::cout << "reports of one record that clashes: " << met.one_clash << ", of several: " << met.some_clash << ", of 40 or more: " << met.many_clash << "; the longest: " << met.most_clash << "; of sheets with R = 512: " << met.large_clash << "\n";
    std::cout << "prices with a largest offset of " << register_entries - 1 << ": " << met.just_priced << ", refused with one of " << register_entries << ": " << met.just_too_large << "; prices of sheets with N = 64 and R = 512: " << met.large_priced << "\n";
    std::cout << "runs of a plan: " << met.proper_runs << ", with leasts: " << met.least_runs << ", steps of these that finished at exactly their least: " << met.just_long << "; to their end: " << met.ended_runs << ", starts compared: " << met.started << "; most calls in one run: " << met.fullest << "\n";
    std::cout << "sheets written with no byte to spare: " << met.just_room << ", without some duration of 0: " << met.left_out << ", their records in another order: " << met.reordered << "; the longest: " << met.longest_written << " bytes; refused for one byte: " << met.one_short
              << ", for a list: " << met.short_lists << "; sheets written again: " << met.again << ", shorter: " << met.again_shorter << "\n";
    if (all_sheets && (met.large_loose == 0 || met.longest != longest_sheet || met.heaviest != largest_offset)) all = false;
    if (all_sheets && (met.large_leasts == 0 || met.below_least == 0)) all = false;
    if (all_sheets && (met.one_clash == 0 || met.some_clash == 0 || met.many_clash == 0 || met.large_clash == 0)) all = false;
    if (all_sheets && (met.just_priced == 0 || met.just_too_large == 0 || met.large_priced == 0)) all = false;
    if (all_runs && (met.ended_runs == 0 || met.least_runs == 0 || met.just_long == 0)) all = false;
    if (all_writes && (met.just_room == 0 || met.left_out == 0 || met.reordered == 0 || met.longest_written != longest_sheet || met.one_short == 0 || met.short_lists == 0 || met.again_shorter == 0)) all = false;
    return all;
}

int fuzz(const Options &options) {
    auto began = std::chrono::steady_clock::now();
    auto seconds = [&] { return std::chrono::duration<double>(std::chrono::steady_clock::now() - began).count(); };
    Examiner examiner;
    uint64_t tried[4] = {};
    for (Kind kind : {sheet_kind, run_kind, write_kind}) {
        uint64_t count = kind == sheet_kind ? options.sheets : kind == run_kind ? options.runs : options.writes;
        uint64_t from = count / options.parts * (options.part - 1), to = options.part == options.parts ? count : count / options.parts * options.part;
        for (uint64_t number = from; number < to; number++) {
            try {
                try_case(examiner, options.seed, kind, number);
            } catch (Failure &failure) {
                print_failure(options.seed, kind, number, failure);
                return 1;
            }
            tried[kind]++;
            if (tried[kind] % 100000 == 0) std::fprintf(stderr, "%s %" PRIu64 ", %.0f s\n", name(kind), number + 1, seconds());
        }
    }
    bool all = report(examiner.met, tried[sheet_kind] >= Options().sheets, tried[run_kind] >= Options().runs, tried[write_kind] >= Options().writes);
    std::cout << "seed " << options.seed;
    if (options.parts > 1) std::cout << ", part " << options.part << " of " << options.parts;
    std::cout << ": " << tried[sheet_kind] << " sheets, " << tried[run_kind] << " runs and " << tried[write_kind] << " writes, each with the guard pages past the end and before the start: ";
    std::cout << (all ? "no difference" : "no difference, but not every verdict, not the largest answers, not every kind of report or of price, nothing at a least or not every kind of writing was met");
    std::cout << ", " << int(seconds() + 0.5) << " s" << std::endl;
    return all ? 0 : 1;
}

// Sheets to begin a coverage-guided search with.
int write_corpus(const std::string &folder, uint64_t seed) {
    for (uint64_t number = 0; number < 500; number++) {
        Random random(seed, sheet_kind, number);
        Bytes sheet = draw_input(random);
        std::ofstream file(folder + "/sheet" + std::to_string(number), std::ios::binary);
        file.write(reinterpret_cast<const char *>(sheet.data()), std::streamsize(sheet.size()));
        if (!file) return 2;
    }
    return 0;
}

// One case once more.
int repeat(const Options &options) {
    Examiner examiner;
    try {
        try_case(examiner, options.seed, options.one_kind, options.one_number);
    } catch (Failure &failure) {
        print_failure(options.seed, options.one_kind, options.one_number, failure);
        return 1;
    }
    report(examiner.met, false, false, false);
    return 0;
}

// One input; its lists and lengths are drawn from the seed.
int try_bytes(const Options &options) {
    Examiner examiner;
    Random random(options.seed);
    try {
        for (int times = 0; times < 100; times++) {
            case_begins(options.seed, "sheet", times);
            examiner.sheet(options.bytes, random);
        }
    } catch (Failure &failure) {
        std::cout << "FAILED: " << failure.what << "\n";
        return 1;
    }
    report(examiner.met, false, false, false);
    return 0;
}

// Throws std::logic_error where a word is not understood.
Options options_of(int argc, char **argv) {
    Options options;
    for (int k = 1; k < argc; k++) {
        const std::string option = argv[k];
        if (option == "--self-test") {
            options.self_test = true;
            continue;
        }
        if (++k >= argc) throw std::invalid_argument(option);
        const std::string word = argv[k];
        if (option == "--seed") options.seed = std::stoull(word);
        else if (option == "--sheets") options.sheets = std::stoull(word);
        else if (option == "--runs") options.runs = std::stoull(word);
        else if (option == "--writes") options.writes = std::stoull(word);
        else if (option == "--corpus") options.corpus = word;
        else if (option == "--part") {
            options.part = std::stoull(word);
            options.parts = std::stoull(word.substr(word.find('/') + 1));
            if (options.part < 1 || options.part > options.parts) throw std::invalid_argument(word);
        } else if (option == "--case") {
            const std::string kind = word.substr(0, word.find(':'));
            for (Kind known : {sheet_kind, run_kind, write_kind})
                if (kind == name(known)) options.one_kind = known;
            if (!options.one_kind) throw std::invalid_argument(word);
            options.one_number = std::stoull(word.substr(kind.size() + 1));
        } else if (option == "--bytes") {
            for (size_t at = 0; at < word.size(); at += 2) options.bytes.push_back(uint8_t(std::stoul(word.substr(at, 2), nullptr, 16)));
            if (options.bytes.size() > longest_input) throw std::invalid_argument(word);
        } else throw std::invalid_argument(option);
    }
    return options;
}

} // namespace

int main(int argc, char **argv) {
    Options options;
    try {
        options = options_of(argc, argv);
    } catch (std::logic_error &) {
        std::cerr << "usage: tests/fuzz [--seed SEED] [--sheets COUNT] [--runs COUNT] [--writes COUNT] [--part I/K]\n"
                     "       tests/fuzz [--seed SEED] --case sheet:NUMBER|run:NUMBER|write:NUMBER\n"
                     "       tests/fuzz --bytes HEX\n"
                     "       tests/fuzz --coverage SECONDS\n";
        return 2;
    }
    if (!options.corpus.empty()) return write_corpus(options.corpus, options.seed);
    catch_faults();
    if (options.one_kind) return repeat(options);
    if (!options.bytes.empty()) return try_bytes(options);
    int status = self_test(options.seed);
    return status != 0 || options.self_test ? status : fuzz(options);
}
