// A planner from document 01 and requests L1, L3, L5, L6, L11 and L14, generic in how heaviest walks are found.
//
// A Kernel has three functions over a Graph (below):
//   static int stride(const Graph &g)    the cells of a row, at least g.anchors and at most 64;
//   static bool circle(const Graph &g)    whether a circle of links, waits left out, weighs above 0;
//   static bool walks(const Graph &g, int32_t *walk)    fills walk with the offsets, waits in, or says false: a circle weighs above 0.
// walk has a row of Kernel::stride(g) cells for each step; the cell of step v and anchor k counts where bit k of g.set[v] stands.
#ifndef PLANNER_HPP
#define PLANNER_HPP

#include <cstddef>
#include <cstdint>
#include <cstdio>
#include <cstring>

namespace planner {

using std::size_t;
using std::uint16_t;
using std::uint32_t;
using std::uint64_t;
using std::uint8_t;
using std::int32_t;

constexpr int most_steps = 64, most_records = 512;
constexpr int most_loose = most_steps - 1;                       // steps that follow nothing
constexpr int most_forward = most_loose + most_records, most_returns = 2 * most_records;
constexpr uint32_t longest = 16777215u, refused = 256, undecided = 4294967295u;
constexpr int price_entries = 1024;                              // of a register table

inline uint64_t bit(int k) { return uint64_t(1) << k; }
inline int lowest(uint64_t map) { return __builtin_ctzll(map); }
inline int highest(uint64_t map) { return 63 - __builtin_clzll(map); }

// The after and at-least of one record, open durations at their least; a walk that counts from the end of an open step takes an after link, and begins with
// its gap alone.
struct Forward { uint8_t to, after; uint16_t gap; int32_t weight; };
struct Return { uint8_t from, to, late; int32_t weight; }; // an at-most on (to, from); from the finish: less the duration or the least of to

// The sheet as links. Anchors, step 0 and the open steps, are numbered in the order of the steps' forward order; anchor 0 is step 0.
// Maps of anchors have bit k for anchor k, maps of steps have bit v for step v.
struct Graph {
    int steps, anchors, returns;
    bool late;                              // some return is from the finish of an open step other than 0
    bool gaps;                              // some record has a gap
    uint64_t open;                          // open steps, without 0
    uint16_t first[most_steps + 1];         // forward links out of v: first[v] to first[v + 1]
    Forward forward[most_forward];          // those that are put in stand before those of the records
    Return back[most_returns];
    uint16_t duration[most_steps];          // of an open step the least, 0 where none is given
    uint8_t incoming[most_steps];           // forward links into v
    uint8_t order[most_steps];              // steps in forward order
    uint8_t anchor[most_steps];             // the number of an open step
    uint8_t step[most_steps];               // the step of an anchor
    uint64_t set[most_steps];               // start set: anchors, first without and then with the waits
    uint64_t need[most_steps];              // waits into a step: anchors
    uint64_t out[most_steps];               // waits out of an anchor: steps
    bool waits;
};

inline int two(const uint8_t *p) { return p[0] | p[1] << 8; }

// The bytes of a link record, by its map; 0: refusal 4, 1: refusal 26.
constexpr uint8_t record_bytes[256] = {
    0, 3, 5, 5, 5, 5, 7, 7, 0, 5, 0, 7, 0, 7, 0, 9,
    1, 5, 1, 7, 1, 7, 1, 9, 0, 7, 0, 9, 0, 9, 0, 11,
};
constexpr int longest_record = 11;

// Whether the bytes end within a record, and no fault of it is met before: refusal 1.
inline bool cut(const uint8_t *p, const uint8_t *end, int n, int last) {
    if (p == end) return true;
    const int size = record_bytes[*p];
    if (size < 3 || end - p >= size) return false;
    return end - p < 3 || (p[1] < n && p[2] < n && p[1] != p[2] && (p[1] << 8 | p[2]) > last);
}

// Bytes to links: refusals 1 to 7 and 26.
inline int read(Graph &g, const uint8_t *p, size_t length) {
    const uint8_t *end = p + length;
    if (end - p < 1) return 1;
    const int n = *p++;
    if (n == 0 || n > most_steps) return 2;
    if (end - p < 2) return 1;
    const int records = two(p);
    p += 2;
    if (records > most_records) return 3;
    g.steps = n;
    g.open = 0;
    for (int v = 0; v < n; v++) {
        if (p == end) return 1;
        const int map = *p++;
        if ((map > 2 && map != 5) || (v == 0 && map != 1)) return 4;
        int ticks = 0;
        if (map & 6) {
            if (end - p < 2) return 1;
            ticks = two(p);
            p += 2;
        }
        if (map & 1) g.open |= bit(v);
        g.duration[v] = ticks;
        g.incoming[v] = 0;
    }
    g.open &= ~uint64_t(1);
    g.late = g.gaps = false;
    int links = most_loose, returns = 0, source = 0, last = -1;
    g.first[0] = links;
    for (int r = 0; r < records; r++) {
        if (end - p < longest_record && cut(p, end, n, last)) return 1;
        const int map = *p, size = record_bytes[map];
        if (size < 3) return size == 0 ? 4 : 26;
        const int i = p[1], j = p[2], pair = i << 8 | j;
        if (i >= n || j >= n || i == j) return 5;
        if (pair <= last) return 6;
        last = pair;
        p += 3;
        while (source < i) g.first[++source] = links;
        if (map & 3) {
            int weight = map & 1 ? g.duration[i] : 0;
            if (map & 2) {
                const int at_least = two(p);
                if (at_least > weight) weight = at_least;
                p += 2;
            }
            g.forward[links++] = Forward{uint8_t(j), uint8_t(map & 1), 0, weight};
            g.incoming[j]++;
        }
        if (map & 0x1c) {
            if (map & 4) {
                g.back[returns++] = Return{uint8_t(j), uint8_t(i), 0, -two(p)};
                p += 2;
            }
            if (map & 8) {
                Forward &f = g.forward[links - 1];
                f.gap = two(p);
                if (g.duration[i] + f.gap > f.weight) f.weight = g.duration[i] + f.gap;
                g.gaps = true;
                p += 2;
            }
            if (map & 16) {
                const bool late = g.open >> i & 1;
                g.back[returns++] = Return{uint8_t(j), uint8_t(i), late, -(two(p) + g.duration[i])};
                g.late |= late;
                p += 2;
            }
        }
    }
    while (source < n) g.first[++source] = links;
    g.returns = returns;
    return p == end ? 0 : 7;
}

// Puts in an after link from step 0 into each other step that no forward link enters.
inline void complete(Graph &g) {
    int first = g.first[0];
    for (int v = g.steps - 1; v > 0; v--) {
        if (g.incoming[v]) continue;
        g.forward[--first] = Forward{uint8_t(v), 1, 0, 0};
        g.incoming[v] = 1;
    }
    g.first[0] = first;
}

// Forward order, numbers of anchors and start sets without waits; false where forward links close a circle. The order can begin with step 0 alone, and
// does not begin where a link enters it.
inline bool sort(Graph &g) {
    uint8_t left[most_steps];
    for (int v = 0; v < g.steps; v++) {
        left[v] = g.incoming[v];
        g.set[v] = 1;
    }
    int ready = left[0] == 0, ends = 0;
    g.order[0] = 0;
    g.anchors = 1;
    g.step[0] = 0;
    g.anchor[0] = 0;
    while (ends < ready) {
        const int v = g.order[ends++];
        const uint64_t plain = g.set[v];
        uint64_t after = plain;
        if (g.open >> v & 1) {
            g.step[g.anchors] = v;
            g.anchor[v] = g.anchors;
            after |= bit(g.anchors & 63);
            g.anchors++;
        }
        for (int l = g.first[v]; l < g.first[v + 1]; l++) {
            const Forward &f = g.forward[l];
            g.set[f.to] |= f.after ? after : plain;
            if (--left[f.to] == 0) g.order[ready++] = f.to;
        }
    }
    return ready == g.steps;
}

// What walks from the end of each anchor reach, into g.set, and the waits that this calls for. Says whether such a walk comes back to its anchor: 11.
inline bool reach(Graph &g) {
    uint64_t walk[most_steps], dirty = 0;
    for (int v = 0; v < g.steps; v++) walk[v] = g.set[v];
    auto along = [&](const Return &r) {
        uint64_t more = walk[r.from] & ~walk[r.to];
        if (r.late) more &= ~bit(g.anchor[r.to]);
        walk[r.to] |= more;
        return more != 0;
    };
    for (bool changed = true; changed;) {
        changed = false;
        for (int r = 0; r < g.returns; r++)
            if (along(g.back[r])) dirty |= bit(g.back[r].to), changed = true;
        if (!changed) break;
        for (int at = 0; at < g.steps; at++) {
            const int v = g.order[at];
            if (!(dirty >> v & 1)) continue;
            for (int l = g.first[v]; l < g.first[v + 1]; l++) {
                const int to = g.forward[l].to;
                if (walk[v] & ~walk[to]) walk[to] |= walk[v], dirty |= bit(to);
            }
        }
        dirty = 0;
    }
    for (int k = 1; k < g.anchors; k++)
        if (walk[g.step[k]] >> k & 1) return true;
    for (int v = 0; v < g.steps; v++) g.need[v] = 0;
    uint64_t any = 0;
    for (int r = 0; r < g.returns; r++) {
        const Return &b = g.back[r];
        uint64_t need = walk[b.from] & ~g.set[b.to];
        if (b.late) need &= ~bit(g.anchor[b.to]);
        g.need[b.to] |= need;
        any |= need;
    }
    g.waits = any != 0;
    for (int v = 0; v < g.steps; v++) g.set[v] = walk[v];
    return false;
}

// Forward order with the waits in; false where they close a circle.
inline bool sort_waits(Graph &g) {
    uint8_t left[most_steps];
    for (int k = 0; k < g.anchors; k++) g.out[k] = 0;
    for (int v = 0; v < g.steps; v++) {
        left[v] = g.incoming[v];
        for (uint64_t map = g.need[v]; map; map &= map - 1) {
            g.out[lowest(map)] |= bit(v);
            left[v]++;
        }
    }
    int ready = 1, ends = 0;
    g.order[0] = 0;
    while (ends < ready) {
        const int v = g.order[ends++];
        for (int l = g.first[v]; l < g.first[v + 1]; l++) {
            const int to = g.forward[l].to;
            if (--left[to] == 0) g.order[ready++] = to;
        }
        if (g.open >> v & 1)
            for (uint64_t map = g.out[g.anchor[v]]; map; map &= map - 1)
                if (--left[lowest(map)] == 0) g.order[ready++] = lowest(map);
    }
    return ready == g.steps;
}

// Refusals up to 11, and the waits. Circles are looked for only if wanted: without late returns no circle uses a wait, so that the offsets tell 10 too.
template <class Kernel> int prepare(Graph &g, const uint8_t *sheet, size_t length, bool offsets_follow) {
    if (int k = read(g, sheet, length)) return k;
    complete(g);
    if (!sort(g)) return 8;
    const bool back = reach(g);
    if ((back || g.late || !offsets_follow) && Kernel::circle(g)) return 10;
    return back ? 11 : 0;
}

// Refusals up to 28, and the offsets.
template <class Kernel> int offsets(Graph &g, const uint8_t *sheet, size_t length, int32_t *walk) {
    if (int k = prepare<Kernel>(g, sheet, length, true)) return k;
    if (g.waits && !sort_waits(g)) return 28;
    if (!Kernel::walks(g, walk)) return g.late ? 28 : 10;
    return 0;
}

// Refusals up to 28 and no offsets.
template <class Kernel> int judged(Graph &g, const uint8_t *sheet, size_t length, int32_t *walk) {
    if (int k = prepare<Kernel>(g, sheet, length, false)) return k;
    if (g.late && g.waits && (!sort_waits(g) || !Kernel::walks(g, walk))) return 28;
    return 0;
}

// The members that decide v: each is tested against those that decide, the latest first. Between two offsets lies the least of the step in the middle.
inline uint64_t deciding(const Graph &g, const int32_t *walk, int stride, int v) {
    const int32_t *row = walk + v * stride;
    uint64_t kept = g.set[v], left = kept;
    while (left) {
        const int b = highest(left);
        const int32_t *before = walk + g.step[b] * stride, rest = g.duration[g.step[b]] + row[b];
        left &= ~bit(b);
        if (b == 0) break;
        for (uint64_t map = g.set[g.step[b]] & kept & ~bit(b); map; map &= map - 1) {
            const int a = lowest(map);
            if (before[a] + rest >= row[a]) kept &= ~bit(a);
        }
        left &= kept;
    }
    return kept;
}

template <class Kernel> uint32_t judge(const uint8_t *sheet, size_t length, bool allow) {
    Graph g;
    int32_t walk[most_steps * most_steps];
    if (int k = judged<Kernel>(g, sheet, length, walk)) return refused + k;
    if (g.waits && !allow) return refused + 12;
    return g.waits;
}

template <class Kernel> uint32_t waits(const uint8_t *sheet, size_t length, uint64_t *maps, uint32_t *count) {
    Graph g;
    int32_t walk[most_steps * most_steps];
    if (int k = judged<Kernel>(g, sheet, length, walk)) return refused + k;
    std::memset(maps, 0, 64 * sizeof *maps);
    uint32_t total = 0;
    for (int v = 0; v < g.steps; v++)
        for (uint64_t map = g.need[v]; map; map &= map - 1, total++) maps[v] |= bit(g.step[lowest(map)]);
    *count = total;
    return g.waits;
}

template <class Kernel> uint32_t plan(const uint8_t *sheet, size_t length, bool allow, uint32_t *table, size_t table_len) {
    Graph g;
    int32_t walk[most_steps * most_steps];
    if (int k = offsets<Kernel>(g, sheet, length, walk)) return refused + k;
    if (g.waits && !allow) return refused + 12;
    const int n = g.steps;
    if (table_len < size_t(n * n)) return refused + 14;
    const int stride = Kernel::stride(g);
    for (int at = 0; at < n * n; at++) table[at] = undecided;
    for (int v = 0; v < n; v++)
        for (uint64_t map = deciding(g, walk, stride, v); map; map &= map - 1)
            table[v * n + g.step[lowest(map)]] = walk[v * stride + lowest(map)];
    return g.waits;
}

template <class Kernel>
uint32_t starts(const uint8_t *sheet, size_t length, bool allow, const uint32_t *list, size_t list_len, uint32_t *out, size_t out_len) {
    Graph g;
    int32_t walk[most_steps * most_steps];
    if (int k = offsets<Kernel>(g, sheet, length, walk)) return refused + k;
    if (g.waits && !allow) return refused + 12;
    const size_t n = g.steps;
    const int stride = Kernel::stride(g);
    for (size_t v = 0; v < n && v < list_len; v++)
        if (g.open >> v & 1 ? list[v] < g.duration[v] || list[v] > longest : list[v] != 0) return refused + 13;
    if (list_len < n || out_len < n) return refused + 14;
    uint32_t end[most_steps];               // when an anchor ends
    for (size_t at = 0; at < n; at++) {
        const int v = g.order[at];
        uint32_t start = 0;
        for (uint64_t map = g.set[v]; v != 0 && map; map &= map - 1) {
            const uint32_t t = end[lowest(map)] + walk[v * stride + lowest(map)];
            if (t > start) start = t;
        }
        out[v] = start;
        if (v == 0 || (g.open >> v & 1)) end[g.anchor[v]] = start + list[v];
    }
    return g.waits;
}

// The printed register table: one more power of two is needed for n than for half of n, rounded up.
inline void printed(uint16_t *entries) {
    entries[0] = entries[1] = 0;
    for (int n = 2; n < price_entries; n++) entries[n] = entries[(n + 1) / 2] + 1;
}

// The price by maps of anchors: each deciding map adds its count of bits to the comparisons, and raises the largest offset of each of its anchors.
template <class Kernel>
uint32_t price(const uint8_t *sheet, size_t length, bool allow, const uint16_t *entries, uint32_t *registers, size_t registers_len, uint32_t *comparisons,
               size_t comparisons_len, uint32_t *totals) {
    Graph g;
    int32_t walk[most_steps * most_steps], largest[most_steps] = {};
    if (int k = offsets<Kernel>(g, sheet, length, walk)) return refused + k;
    if (g.waits && !allow) return refused + 12;
    const int stride = Kernel::stride(g);
    uint64_t map[most_steps];
    for (int v = 0; v < g.steps; v++) {
        map[v] = deciding(g, walk, stride, v);
        for (uint64_t left = map[v]; left; left &= left - 1) {
            const int32_t offset = walk[v * stride + lowest(left)];
            if (offset >= price_entries) return refused + 19;
            if (offset > largest[lowest(left)]) largest[lowest(left)] = offset;
        }
    }
    const size_t n = g.steps;
    if (registers_len < n || comparisons_len < n) return refused + 14;
    totals[0] = totals[1] = 0;
    for (size_t v = 0; v < n; v++) {
        registers[v] = 0;
        totals[1] += comparisons[v] = __builtin_popcountll(map[v]);
    }
    for (int k = 0; k < g.anchors; k++) totals[0] += registers[g.step[k]] = entries[largest[k]];
    return g.waits;
}

// The report as text, its end marked by 0, from the plan's table: of each column its largest number, of each row how many numbers there are. The text has
// room for longest_report bytes.
constexpr int longest_report = 4096;

template <class Kernel> void report(const uint8_t *sheet, size_t length, const uint16_t *entries, char *text) {
    uint32_t table[most_steps * most_steps], largest[most_steps] = {}, rows[most_steps] = {}, farthest = 0;
    const uint32_t verdict = plan<Kernel>(sheet, length, true, table, most_steps * most_steps);
    if (verdict >= refused) {
        std::sprintf(text, "refused %u\n", verdict - refused);
        return;
    }
    Graph g;
    read(g, sheet, length);
    const int n = g.steps;
    for (int at = 0; at < n * n; at++) {
        if (table[at] == undecided) continue;
        rows[at / n]++;
        if (table[at] > largest[at % n]) largest[at % n] = table[at];
        if (table[at] > farthest) farthest = table[at];
    }
    if (farthest >= uint32_t(price_entries)) {
        std::strcpy(text, "refused 19\n");
        return;
    }
    uint32_t total = 0, compared = 0;
    for (int a = 0; a < n; a++) {
        if (!((g.open | 1) >> a & 1)) continue;
        text += std::sprintf(text, "registers %d %d\n", a, entries[largest[a]]);
        total += entries[largest[a]];
    }
    for (int v = 0; v < n; v++) {
        text += std::sprintf(text, "comparisons %d %u\n", v, rows[v]);
        compared += rows[v];
    }
    std::sprintf(text, "total %u %u\n", total, compared);
}

// What a run is begun with: the steps, the map of the open ones, step 0 among them, and their leasts.
inline uint32_t steps(const uint8_t *sheet, size_t length, size_t *n, uint64_t *open, uint16_t *leasts, size_t leasts_len) {
    Graph g;
    if (int k = read(g, sheet, length)) return refused + k;
    if (leasts_len < size_t(g.steps)) return refused + 14;
    *n = g.steps;
    *open = g.open | 1;
    for (int v = 0; v < g.steps; v++) leasts[v] = g.open >> v & 1 ? g.duration[v] : 0;
    return 0;
}

// The link records of a sheet that can be read, in their order: of each its map and its i.
struct Records { int count; uint8_t map[most_records], from[most_records]; };

inline void list_records(Records &r, const uint8_t *p) {
    const int n = p[0];
    r.count = two(p + 1);
    p += 3;
    for (int v = 0; v < n; v++) p += *p & 6 ? 3 : 1;
    for (int k = 0; k < r.count; k++) {
        r.map[k] = p[0];
        r.from[k] = p[1];
        p += record_bytes[p[0]];
    }
}

// The sheet with the records that are kept alone, completed afresh; whole is the sheet as read, with the links of the records in the order of these.
inline void part(Graph &g, const Graph &whole, const Records &records, const bool *kept) {
    const int n = whole.steps;
    g.steps = n;
    g.open = whole.open;
    g.late = g.gaps = false;
    for (int v = 0; v < n; v++) {
        g.duration[v] = whole.duration[v];
        g.incoming[v] = 0;
    }
    const Forward *forward = whole.forward + most_loose;
    const Return *back = whole.back;
    int links = most_loose, returns = 0, source = 0;
    g.first[0] = links;
    for (int k = 0; k < records.count; k++) {
        const int map = records.map[k];
        const Forward *forward_end = forward + ((map & 3) != 0);
        const Return *back_end = back + ((map & 4) != 0) + ((map & 16) != 0);
        if (kept[k]) {
            while (source < records.from[k]) g.first[++source] = links;
            for (; forward < forward_end; forward++) {
                g.forward[links++] = *forward;
                g.incoming[forward->to]++;
            }
            for (; back < back_end; back++) {
                g.back[returns++] = *back;
                g.late |= back->late;
            }
            g.gaps |= (map & 8) != 0;
        }
        forward = forward_end;
        back = back_end;
    }
    while (source < n) g.first[++source] = links;
    g.returns = returns;
    complete(g);
}

// The records that clash: the greatest number is tried first, and a record goes where the others that are still kept are refused as 10 or 11.
template <class Kernel> uint32_t clashes(const uint8_t *sheet, size_t length, uint32_t *numbers, size_t numbers_len, size_t *count) {
    Graph whole, g;
    const int k = prepare<Kernel>(g, sheet, length, false);
    if (k != 10 && k != 11) return refused + (k ? k : 31);
    read(whole, sheet, length);
    Records records;
    list_records(records, sheet);
    bool kept[most_records];
    for (int r = 0; r < records.count; r++) kept[r] = true;
    size_t stay = 0;
    for (int r = records.count - 1; r >= 0; r--) {
        kept[r] = false;
        part(g, whole, records, kept);
        const bool impossible = sort(g) && (reach(g) || Kernel::circle(g));
        if (!impossible) kept[r] = true, stay++;
    }
    if (numbers_len < stay) return refused + 14;
    for (int r = 0; r < records.count; r++)
        if (kept[r]) *numbers++ = r;
    *count = stay;
    return 0;
}

} // namespace planner

#endif
