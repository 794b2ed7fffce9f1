// The second runner: begin, tick and finish as document 01 and request L6 tell them, on any state and any table.
#include "runner.h"

#include <algorithm>

namespace {

constexpr uint32_t undecided = 4294967295u;
constexpr uint32_t clock_end = 4294967295u;

// A refusal writes nothing.
uint32_t refused(uint32_t number) { return 256 + number; }

bool has(uint64_t map, size_t step) { return map >> step & 1; }

// The state that a caller lends, by name.
struct State {
    uint64_t *words;
    uint32_t *tick, *start, *finish;
    uint16_t *least;

    uint64_t count() const { return words[0]; }
    uint64_t open() const { return words[1]; }
    uint64_t &started() { return words[2]; }
    uint64_t &finished() { return words[3]; }
    bool begun() { return has(started(), 0); }
    bool count_is_good() const { return count() >= 1 && count() <= 64; }

    // Whether step s has lasted its least by now.
    bool long_enough(size_t s) const { return uint64_t(start[s]) + least[s] <= *tick; }

    // Whether step v, not yet started, starts now.
    bool due(size_t v, const uint32_t *table) {
        const uint32_t *row = table + v * count();
        bool names_one = false;
        for (size_t a = 0; a < count(); a++) {
            if (row[a] == undecided) continue;
            names_one = true;
            if (!has(finished(), a)) return false;
            if (uint64_t(finish[a]) + row[a] > *tick) return false;
        }
        return names_one;
    }

    // Starts what is due and returns its map. Nothing that starts here finishes here, so each step is looked at once.
    uint64_t sweep(const uint32_t *table) {
        uint64_t now = 0;
        for (size_t v = 0; v < count(); v++)
            if (!has(started(), v) && due(v, table)) now |= uint64_t(1) << v;
        for (size_t v = 0; v < count(); v++)
            if (has(now, v)) start[v] = *tick;
        started() |= now;
        return now;
    }
};

} // namespace

uint32_t second_begin(uint64_t words[4], uint32_t *tick, uint32_t start[64], uint32_t finish[64], uint16_t least[64], uint64_t *map, size_t n, uint64_t open, const uint16_t *leasts, size_t leasts_len, const uint32_t *table, size_t table_len) {
    State state{words, tick, start, finish, least};
    if (state.begun()) return refused(16);
    if (n < 1 || n > 64) return refused(2);
    if (table_len < n * n || leasts_len < n) return refused(14);
    words[0] = n;
    words[1] = open;
    words[2] = 1;
    words[3] = 1;
    *tick = 0;
    std::fill(start, start + 64, 0);
    std::fill(finish, finish + 64, 0);
    std::fill(std::copy(leasts, leasts + n, least), least + 64, 0);
    *map = 1 | state.sweep(table);
    return 0;
}

uint32_t second_tick(uint64_t words[4], uint32_t *tick, uint32_t start[64], uint32_t finish[64], uint16_t least[64], uint64_t *map, const uint32_t *table, size_t table_len) {
    State state{words, tick, start, finish, least};
    if (!state.begun() || !state.count_is_good()) return refused(15);
    if (table_len < state.count() * state.count()) return refused(14);
    if (*tick == clock_end) return refused(18);
    *tick += 1;
    *map = state.sweep(table);
    return 0;
}

uint32_t second_finish(uint64_t words[4], uint32_t *tick, uint32_t start[64], uint32_t finish[64], uint16_t least[64], uint64_t *map, size_t s, const uint32_t *table, size_t table_len) {
    State state{words, tick, start, finish, least};
    if (!state.begun() || !state.count_is_good()) return refused(15);
    if (table_len < state.count() * state.count()) return refused(14);
    if (s == 0 || s >= state.count() || !has(state.open(), s) || !has(state.started(), s) || has(state.finished(), s)) return refused(17);
    if (!state.long_enough(s)) return refused(20);
    state.finished() |= uint64_t(1) << s;
    finish[s] = *tick;
    *map = state.sweep(table);
    return 0;
}
