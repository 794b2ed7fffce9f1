#include "sets.hpp"

#include <algorithm>
#include <cstdio>
#include <cstdlib>
#include <fstream>
#include <iterator>
#include <map>

#include "all_anchors.hpp"

using planner::bit;
using Kernel = planner::AllAnchors;

namespace {

struct Record { bool after = false; int at_least = -1, at_most = -1; };

struct Draft {
    int n = 0;
    std::vector<int> ticks;                          // -1: open
    std::vector<int> order;                          // a forward order, step 0 first
    std::map<std::pair<int, int>, Record> records;

    Sheet bytes() const {
        Sheet out{uint8_t(n), uint8_t(records.size()), uint8_t(records.size() >> 8)};
        auto two = [&](int x) { out.push_back(x), out.push_back(x >> 8); };
        for (int v = 0; v < n; v++) {
            out.push_back(ticks[v] < 0 ? 1 : ticks[v] > 0 ? 2 : 0);
            if (ticks[v] > 0) two(ticks[v]);
        }
        for (const auto &[pair, r] : records) {
            out.push_back((r.after ? 1 : 0) | (r.at_least >= 0 ? 2 : 0) | (r.at_most >= 0 ? 4 : 0));
            out.push_back(pair.first), out.push_back(pair.second);
            if (r.at_least >= 0) two(r.at_least);
            if (r.at_most >= 0) two(r.at_most);
        }
        return out;
    }
};

uint32_t judged(const Sheet &s) { return planner::judge<Kernel>(s.data(), s.size(), true); }

struct Random {
    std::mt19937_64 engine;
    int below(int top) { return int(engine() % uint64_t(top)); }
    int from(int low, int high) { return low + below(high - low + 1); }
    bool chance(int percent) { return below(100) < percent; }
};

// Heaviest walks from step 0, all open durations 0.
std::vector<int> starts(const Draft &d) {
    const Sheet s = d.bytes();
    std::vector<uint32_t> list(d.n, 0), out(d.n, 0);
    planner::starts<Kernel>(s.data(), s.size(), true, list.data(), list.size(), out.data(), out.size());
    return {out.begin(), out.end()};
}

void begin(Draft &d, Random &rng, int n, int open) {
    d.n = n;
    d.ticks.assign(n, 0);
    d.order.clear();
    for (int v = 0; v < n; v++) d.order.push_back(v);
    for (int k = n - 1; k > 1; k--) std::swap(d.order[k], d.order[rng.from(1, k)]);
    for (int v = 0; v < n; v++) d.ticks[v] = v == 0 ? -1 : rng.from(1, 60);
    for (int left = open; left > 0;) {
        const int v = rng.from(1, n - 1);
        if (d.ticks[v] >= 0) d.ticks[v] = -1, left--;
    }
    d.records.clear();
}

// Forward links up to so many records, each step behind an earlier one.
void forward(Draft &d, Random &rng, int records) {
    auto put = [&](int a, int b) {
        Record &r = d.records[{d.order[a], d.order[b]}];
        const int kind = rng.below(8);
        r.after = kind < 6;
        if (kind >= 5) r.at_least = rng.from(0, 90);
    };
    for (int b = 1; b < d.n; b++) put(std::max(0, b - rng.from(1, 6)), b);
    const int room = d.n * (d.n - 1) / 2;
    while (int(d.records.size()) < std::min(records, room)) {
        const int a = rng.below(d.n - 1), b = rng.from(a + 1, d.n - 1);
        if (!d.records.count({d.order[a], d.order[b]})) put(a, b);
    }
}

// Adds an at-most link on a pair, with a limit near the least that the sheet leaves; taken back where the sheet is then turned away.
bool add_limit(Draft &d, Random &rng, bool on_new_pair) {
    const int i = rng.below(d.n), j = rng.below(d.n);
    if (i == j) return false;
    const std::pair<int, int> pair{i, j};
    const bool there = d.records.count(pair) != 0;
    if (there && (on_new_pair || d.records[pair].at_most >= 0)) return false;
    const std::vector<int> start = starts(d);
    const int most = std::max(0, start[j] - start[i]) + (rng.chance(60) ? rng.below(20) : 0);
    if (most > 65535) return false;
    d.records[pair].at_most = most;
    if (judged(d.bytes()) <= 1) return true;
    if (there) d.records[pair].at_most = -1;
    else d.records.erase(pair);
    return false;
}

Draft accepted(Random &rng, int n, int r, int open, int limits) {
    for (;;) {
        Draft d;
        begin(d, rng, n, open);
        forward(d, rng, std::max(n - 1, r - limits));
        int put = 0;
        for (int tries = 0; tries < limits * 60 && int(d.records.size()) < r; tries++) put += add_limit(d, rng, put >= limits / 8);
        const int room = n * (n - 1) / 2;
        const size_t before = d.records.size();
        for (int tries = 0; int(d.records.size()) < r && tries < 4 * room; tries++) {    // filled up by links that ask for nothing new
            const int a = rng.below(n - 1), b = rng.from(a + 1, n - 1);
            if (!d.records.count({d.order[a], d.order[b]})) d.records[{d.order[a], d.order[b]}].at_least = 0;
        }
        if (before + 8 < d.records.size() && judged(d.bytes()) > 1) continue;
        if (judged(d.bytes()) <= 1) return d;
    }
}

// Many rounds for Bellman-Ford: forward links x(k) to y(k) and returns y(k) to x(k + 1) make a walk that turns back at each step of it;
// each turn gains one tick. Other limits are wide, and call for waits.
Draft worst(Random &rng) {
    for (;;) {
        Draft d;
        const int n = 64, open = 20, turns = 21;
        begin(d, rng, n, 0);
        for (int v = 1; v < n; v++) d.ticks[v] = 0;
        // places: 1 to 20 open; then x(turns) down to x(0), then the y
        std::vector<int> at = d.order;
        for (int k = 1; k <= open; k++) d.ticks[at[k]] = -1;
        auto x = [&](int k) { return at[open + 1 + turns - k]; };
        auto y = [&](int k) { return at[open + turns + 2 + k]; };
        for (int k = 1; k <= open; k++) d.records[{at[k == 1 || rng.chance(50) ? 0 : rng.from(1, k - 1)], at[k]}].after = true;
        for (int k = 0; k <= turns; k++) d.records[{at[rng.from(1, open)], x(k)}].after = true;
        for (int k = 0; k < turns; k++) {
            const int gain = rng.from(300, 1200);
            d.records[{x(k), y(k)}].at_least = gain;
            d.records[{x(k + 1), y(k)}].at_most = gain - 1;
        }
        if (judged(d.bytes()) > 1) continue;
        for (int tries = 0; tries < 4000 && int(d.records.size()) < 122 + turns; tries++) {
            const int a = rng.below(n - 1), b = rng.from(a + 1, n - 1);
            if (d.records.count({at[a], at[b]})) continue;
            d.records[{at[a], at[b]}].at_least = rng.from(0, 20);
            if (judged(d.bytes()) > 1) d.records.erase({at[a], at[b]});
        }
        for (int tries = 0; tries < 20000 && d.records.size() < 512; tries++) {
            const int i = at[rng.from(1, n - 1)], j = at[rng.from(1, n - 1)];
            if (i == j || d.records.count({i, j})) continue;
            d.records[{i, j}].at_most = rng.from(5000, 65535);
            if (judged(d.bytes()) > 1) d.records.erase({i, j});
        }
        if (d.records.size() == 512) return d;
    }
}

// One limit more: below what other links ask for, by time (10), or over an open step (11).
void spoil(Draft &d, Random &rng, bool by_time) {
    const std::vector<int> start = starts(d);
    for (;;) {
        const int i = rng.from(1, 63), j = rng.from(1, 63);
        if (i == j || (by_time ? start[j] < start[i] + 60 : d.ticks[i] >= 0)) continue;
        const Draft before = d;
        d.records[{i, j}].at_most = by_time ? rng.below(40) : 60000;
        if (judged(d.bytes()) == (by_time ? 256 + 10 : 256 + 11)) return;
        d = before;
    }
}

// An impossible sheet of 64 steps and 512 records.
Draft clash(Random &rng, bool by_time) {
    for (;;) {
        Draft d = accepted(rng, 64, 511, 15, 90);
        spoil(d, rng, by_time);
        if (d.records.size() == 512) return d;
    }
}

// Parts of a large impossible sheet, as a search for a small impossible part asks for them: one record after the other is left out, and put back where
// the rest is no longer impossible. A run of such parts, from anywhere in the search.
void parts(Random &rng, Set &out, size_t sheets) {
    Draft d = accepted(rng, 64, 511, 15, 90);
    const bool by_time = rng.chance(50);
    spoil(d, rng, by_time);
    std::vector<std::pair<int, int>> left;
    for (const auto &record : d.records) left.push_back(record.first);
    for (size_t k = left.size() - 1; k > 0; k--) std::swap(left[k], left[rng.below(int(k) + 1)]);
    const size_t begin = rng.below(int(left.size()) - 16), wanted = std::min(sheets, out.size() + 16);
    for (size_t k = 0; out.size() < wanted; k++) {
        const Record record = d.records[left[k]];
        d.records.erase(left[k]);
        const Sheet part = d.bytes();
        if (k >= begin) out.push_back(part);
        const uint32_t verdict = judged(part);
        if (verdict != 256 + 10 && verdict != 256 + 11) d.records[left[k]] = record;
    }
}

} // namespace

Set make(const std::string &kind, uint64_t seed, size_t sheets) {
    Random rng{std::mt19937_64(seed)};
    Set set;
    while (set.size() < sheets) {
        if (kind == "small") {
            const int n = rng.from(4, 12);
            set.push_back(accepted(rng, n, std::max(n, n * 3 / 2), rng.from(1, 3), rng.from(1, 6)).bytes());
        } else if (kind == "medium") {
            const int n = rng.from(16, 32);
            set.push_back(accepted(rng, n, n * 3, rng.from(4, 7), n * 9 / 10).bytes());
        } else if (kind == "large") {
            set.push_back(accepted(rng, 64, 512, 16, 116).bytes());
        } else if (kind == "worst") {
            set.push_back(worst(rng).bytes());
        } else if (kind == "l14") {
            parts(rng, set, sheets);
        } else if (kind == "clash") {
            set.push_back(clash(rng, 2 * set.size() < sheets).bytes());
        } else {
            std::fprintf(stderr, "no kind %s\n", kind.c_str());
            std::exit(2);
        }
    }
    return set;
}

Set make_sized(int n, int r, uint64_t seed, size_t sheets) {
    Random rng{std::mt19937_64(seed)};
    Set set;
    while (set.size() < sheets) set.push_back(accepted(rng, n, r, std::max(1, n / 4), std::max(1, r / 4)).bytes());
    return set;
}

Set load(const std::string &path) {
    std::ifstream in(path, std::ios::binary);
    const std::vector<char> data{std::istreambuf_iterator<char>(in), {}};
    Set set;
    size_t at = 0;
    while (in && at + 2 <= data.size()) {
        const size_t length = uint8_t(data[at]) | size_t(uint8_t(data[at + 1])) << 8;
        if (at + 2 + length > data.size()) break;
        set.emplace_back(data.begin() + at + 2, data.begin() + at + 2 + length);
        at += 2 + length;
    }
    if (at != data.size() || set.empty()) {
        std::fprintf(stderr, "%s is not a set of sheets\n", path.c_str());
        std::exit(2);
    }
    return set;
}

void store(const std::string &path, const Set &set) {
    std::ofstream out(path, std::ios::binary);
    for (const Sheet &s : set) {
        out.put(char(s.size())).put(char(s.size() >> 8));
        out.write(reinterpret_cast<const char *>(s.data()), std::streamsize(s.size()));
    }
}

std::string facts(const Set &set) {
    size_t bytes = 0, steps = 0, records = 0, open = 0, limits = 0, waits = 0, members = 0, deciding = 0, good = 0;
    uint64_t hash = 1469598103934665603u;            // the container's bytes, each xored in and then multiplied by the FNV prime
    auto add = [&](uint8_t b) { hash = (hash ^ b) * 1099511628211u; };
    std::map<uint32_t, size_t> results;
    for (const Sheet &s : set) {
        bytes += s.size() + 2;
        add(uint8_t(s.size())), add(uint8_t(s.size() >> 8));
        for (uint8_t b : s) add(b);
        planner::Graph g;
        int32_t walk[planner::most_steps * planner::most_steps];
        results[judged(s)]++;
        if (planner::read(g, s.data(), s.size())) continue;
        steps += g.steps, records += s[1] | s[2] << 8, open += __builtin_popcountll(g.open), limits += g.returns;
        if (planner::offsets<Kernel>(g, s.data(), s.size(), walk)) continue;
        good++;
        for (int v = 0; v < g.steps; v++) {
            waits += __builtin_popcountll(g.need[v]), members += __builtin_popcountll(g.set[v]);
            deciding += __builtin_popcountll(planner::deciding(g, walk, Kernel::stride(g), v));
        }
    }
    char line[400];
    const double all = double(set.size()), each = good ? double(good) : 1;
    int at = std::snprintf(line, sizeof line, "sheets %4zu bytes %8zu fnv %016llx  mean N %.1f R %.1f open %.1f at-most %.1f; per accepted sheet: waits %.1f, set members %.0f, deciding %.0f; results",
        set.size(), bytes, static_cast<unsigned long long>(hash), steps / all, records / all, open / all, limits / all, waits / each, members / each, deciding / each);
    std::string out(line, at);
    for (const auto &[verdict, count] : results) {
        std::snprintf(line, sizeof line, " %s %u:%zu", verdict > 255 ? "refused" : "verdict", verdict & 255, count);
        out += line;
    }
    return out;
}
