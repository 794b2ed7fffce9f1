// The program behind bench/run:
//   bench facts FILE...                      a line of facts for each set
//   bench make KIND SEED SHEETS FILE         a set from a seed
//   bench sized N R SEED SHEETS FILE         a set of accepted sheets of one size
//   bench rows JOB                           the rows that were built and do the job
//   bench check FILE...                      every row's verdicts, waits, plans and reports of records that clash against the library's, on every sheet
//   bench time JOB ROUNDS FILE               a line `row least median` in microseconds per sheet, all rows in turn in each round
//   bench count JOB ROW SHARE FILE           runs the job once on the first SHARE sheets, for callgrind (counts within `measured`);
//                                            of impossible sheets on SHARE of them, from all over the set
//   bench each JOB ROW SHARE FILE            the same, `measured` called for each sheet; prints how many records each one has
//   bench reports FILE                       a line of facts about the impossible sheets of a set and their reports
// JOB is plan, waits or judge, waits allowed; or clashes or judge-impossible, each on the sheets of the set that are refused 10 or 11.
#include <algorithm>
#include <cstdio>
#include <cstdlib>
#include <cstring>
#include <ctime>
#include <string>
#include <vector>

#include "rows.hpp"
#include "sets.hpp"

static const Row *const rows[] = {
    &library_row, &all_anchors_row, &cell_by_cell_row, &bellman_ford_row, &floyd_warshall_row,
#ifdef WITH_LEMON
    &lemon_row,
#endif
#ifdef WITH_BOOST
    &boost_row,
#endif
    &front_row, &each_copied_row, &each_written_row,
};

static uint32_t table[64 * 64], numbers[512];
static uint64_t maps[64];

enum Job { plan_job, waits_job, judge_job, clashes_job, judge_impossible_job };

static Job job_of(const std::string &s) {
    if (s == "plan") return plan_job;
    if (s == "waits") return waits_job;
    if (s == "judge") return judge_job;
    if (s == "clashes") return clashes_job;
    if (s == "judge-impossible") return judge_impossible_job;
    std::fprintf(stderr, "no job %s\n", s.c_str());
    std::exit(2);
}

static bool on_impossible(Job job) { return job == clashes_job || job == judge_impossible_job; }

static std::vector<const Row *> rows_for(Job job) {
    std::vector<const Row *> out;
    for (const Row *row : rows)
        if (on_impossible(job) ? row->clashes != nullptr : row->plan != nullptr) out.push_back(row);
    return out;
}

static Set sheets_for(Job job, const std::string &file) {
    Set set = load(file);
    if (!on_impossible(job)) return set;
    auto possible = [](const Sheet &s) {
        const uint32_t verdict = library_row.judge(s.data(), s.size(), true);
        return verdict != 256 + 10 && verdict != 256 + 11;
    };
    set.erase(std::remove_if(set.begin(), set.end(), possible), set.end());
    if (set.empty()) {
        std::fprintf(stderr, "%s has no impossible sheet\n", file.c_str());
        std::exit(2);
    }
    return set;
}

// The job on the first sheets of a set. The table, the numbers and the maps are lent as the last sheet left them: nothing is cleared between sheets.
extern "C" __attribute__((noinline, noclone)) uint64_t measured(const Row *row, Job job, const Sheet *set, size_t sheets) {
    uint64_t sum = 0;
    uint32_t count;
    size_t stay;
    for (size_t k = 0; k < sheets; k++) {
        const uint8_t *s = set[k].data();
        const size_t length = set[k].size();
        switch (job) {
        case plan_job: sum += row->plan(s, length, true, table, 64 * 64); break;
        case waits_job: sum += row->waits(s, length, maps, &count); break;
        case clashes_job: sum += row->clashes(s, length, numbers, 512, &stay); break;
        case judge_job:
        case judge_impossible_job: sum += row->judge(s, length, true); break;
        }
    }
    return sum;
}

// A refusal leaves what is lent: a report, its count and the numbers past it as they were.
static bool same_report(const Row &row, const Sheet &s, size_t lent) {
    uint32_t mine[512], its[512];
    size_t my_count = 0x5a, its_count = 0x5a;
    std::memset(mine, 0x5a, sizeof mine);
    std::memset(its, 0x5a, sizeof its);
    return row.clashes(s.data(), s.size(), its, lent, &its_count) == library_row.clashes(s.data(), s.size(), mine, lent, &my_count)
        && its_count == my_count && !std::memcmp(its, mine, sizeof mine);
}

static bool same_waits(const Row &row, const Sheet &s) {
    uint64_t mine[64], its[64];
    uint32_t my_count = 0x5a, its_count = 0x5a;
    std::memset(mine, 0x5a, sizeof mine);
    std::memset(its, 0x5a, sizeof its);
    return row.waits(s.data(), s.size(), its, &its_count) == library_row.waits(s.data(), s.size(), mine, &my_count)
        && its_count == my_count && !std::memcmp(its, mine, sizeof mine);
}

static bool same_plan(const Row &row, const Sheet &s) {
    static uint32_t mine[64 * 64], its[64 * 64];
    std::memset(mine, 0x5a, sizeof mine);
    std::memset(its, 0x5a, sizeof its);
    return row.plan(s.data(), s.size(), true, its, 64 * 64) == library_row.plan(s.data(), s.size(), true, mine, 64 * 64)
        && !std::memcmp(its, mine, sizeof mine);
}

static bool same_verdicts(const Row &row, const Sheet &s) {
    auto same = [&](bool allow) { return row.judge(s.data(), s.size(), allow) == library_row.judge(s.data(), s.size(), allow); };
    return same(true) && same(false);
}

static void check(const Row &row, const std::string &file, const Set &set) {
    for (size_t k = 0; k < set.size(); k++) {
        const Sheet &s = set[k];
        const char *what = nullptr;
        if (!same_verdicts(row, s)) what = "judge";
        else if (row.waits && !same_waits(row, s)) what = "waits";
        else if (row.plan && !same_plan(row, s)) what = "plan";
        else if (row.clashes && (!same_report(row, s, 512) || !same_report(row, s, 0))) what = "clashes";
        if (what) {
            std::fprintf(stderr, "%s differs: %s, sheet %zu, row %s\n", what, file.c_str(), k, row.name);
            std::exit(1);
        }
    }
}

static double now() {
    timespec t;
    clock_gettime(CLOCK_THREAD_CPUTIME_ID, &t);
    return double(t.tv_sec) * 1e6 + double(t.tv_nsec) / 1e3;
}

static size_t records(const Sheet &s) { return s[1] | size_t(s[2]) << 8; }

static Set share_of(Job job, const Set &set, size_t sheets) {
    Set out;
    for (size_t k = 0; k < sheets; k++) out.push_back(set[on_impossible(job) ? k * set.size() / sheets : k]);
    return out;
}

static void measured_each(const Row *row, Job job, const Set &set) {
    for (const Sheet &s : set) {
        measured(row, job, &s, 1);
        std::printf("%zu\n", records(s));
    }
}

// How many records the impossible sheets of a set have, and how many of them clash.
static void print_reports(const Set &set) {
    size_t all = 0, stay, stays = 0, most = 0;
    for (const Sheet &s : set) {
        library_row.clashes(s.data(), s.size(), numbers, 512, &stay);
        all += records(s), stays += stay, most = std::max(most, stay);
    }
    const double sheets = double(set.size());
    std::printf("impossible sheets %zu mean R %.1f; records that clash: mean %.1f, at most %zu\n", set.size(), double(all) / sheets, double(stays) / sheets, most);
}

int main(int argc, char **argv) {
    const std::vector<std::string> word(argv + 1, argv + argc);
    const std::string mode = word.empty() ? "" : word[0];
    if (mode == "facts" && word.size() > 1) {
        for (size_t k = 1; k < word.size(); k++) std::printf("%s\n", facts(load(word[k])).c_str());
    } else if (mode == "make" && word.size() == 5) {
        store(word[4], make(word[1], std::stoull(word[2]), std::stoul(word[3])));
    } else if (mode == "sized" && word.size() == 6) {
        store(word[5], make_sized(std::stoi(word[1]), std::stoi(word[2]), std::stoull(word[3]), std::stoul(word[4])));
    } else if (mode == "rows" && word.size() == 2) {
        for (const Row *row : rows_for(job_of(word[1]))) std::printf("%s\t%s\n", row->name, row->what);
    } else if (mode == "check" && word.size() > 1) {
        for (size_t k = 1; k < word.size(); k++) {
            const Set set = load(word[k]);
            for (const Row *row : rows) check(*row, word[k], set);
        }
    } else if (mode == "time" && word.size() == 4) {
        const Job job = job_of(word[1]);
        const int rounds = std::stoi(word[2]);
        const Set set = sheets_for(job, word[3]);
        const std::vector<const Row *> timed = rows_for(job);
        std::vector<std::vector<double>> took(timed.size());
        for (int round = 0; round < rounds; round++)
            for (size_t r = 0; r < timed.size(); r++) {
                const double begin = now();
                measured(timed[r], job, set.data(), set.size());
                took[r].push_back((now() - begin) / double(set.size()));
            }
        for (size_t r = 0; r < timed.size(); r++) {
            std::sort(took[r].begin(), took[r].end());
            std::printf("%s\t%.3f\t%.3f\n", timed[r]->name, took[r][0], took[r][took[r].size() / 2]);
        }
    } else if ((mode == "count" || mode == "each") && word.size() == 5) {
        const Job job = job_of(word[1]);
        const Set set = sheets_for(job, word[4]);
        const Set share = share_of(job, set, std::min<size_t>(std::stoul(word[3]), set.size()));
        for (const Row *row : rows_for(job))
            if (word[2] == row->name) {
                if (mode == "count") measured(row, job, share.data(), share.size());
                else measured_each(row, job, share);
                return 0;
            }
        return 2;
    } else if (mode == "reports" && word.size() == 2) {
        print_reports(sheets_for(clashes_job, word[1]));
    } else {
        std::fprintf(stderr, "usage: see bench/run\n");
        return 2;
    }
}
