// Heaviest walks by Bellman-Ford: one search per anchor over a list of links, those in forward order first, until a round changes nothing.
#ifndef BELLMAN_FORD_HPP
#define BELLMAN_FORD_HPP

#include "planner.hpp"

namespace planner {

struct BellmanFord {
    struct Link { uint8_t from, to; int8_t late; int32_t weight; };    // late: the anchor whose own walks do not take it, or -1
    struct List { int count; Link link[most_forward + most_returns + most_steps * most_steps]; };
    static constexpr int32_t unreached = INT32_MIN;

    static int stride(const Graph &g) { return g.anchors; }

    static void list(const Graph &g, bool waits, List &l) {
        l.count = 0;
        for (int at = 0; at < g.steps; at++) {
            const uint8_t v = g.order[at];
            for (int f = g.first[v]; f < g.first[v + 1]; f++) l.link[l.count++] = Link{v, g.forward[f].to, -1, g.forward[f].weight};
            if (waits && (g.open >> v & 1))
                for (uint64_t map = g.out[g.anchor[v]]; map; map &= map - 1) l.link[l.count++] = Link{v, uint8_t(lowest(map)), -1, g.duration[v]};
        }
        for (int r = 0; r < g.returns; r++) {
            const Return &b = g.back[r];
            l.link[l.count++] = Link{b.from, b.to, int8_t(b.late ? g.anchor[b.to] : -1), b.weight};
        }
    }

    // Rounds until nothing changes; false where a circle weighs above 0.
    static bool search(const Graph &g, const List &l, int anchor, int32_t *heaviest) {
        for (int round = 0; round <= g.steps; round++) {
            bool changed = false;
            for (int k = 0; k < l.count; k++) {
                const Link &e = l.link[k];
                if (heaviest[e.from] == unreached || e.late == anchor) continue;
                const int32_t weight = heaviest[e.from] + e.weight;
                if (weight > heaviest[e.to]) heaviest[e.to] = weight, changed = true;
            }
            if (!changed) return true;
        }
        return false;
    }

    static bool circle(const Graph &g) {
        List l;
        list(g, false, l);
        int32_t heaviest[most_steps];
        for (int v = 0; v < g.steps; v++) heaviest[v] = unreached;
        heaviest[0] = 0;
        return !search(g, l, 0, heaviest);
    }

    static bool walks(const Graph &g, int32_t *walk) {
        List l;
        list(g, g.waits, l);
        for (int k = 0; k < g.anchors; k++) {
            int32_t heaviest[most_steps];
            for (int v = 0; v < g.steps; v++) heaviest[v] = unreached;
            const int a = g.step[k];
            if (k == 0) {
                heaviest[0] = 0;
            } else {
                for (int f = g.first[a]; f < g.first[a + 1]; f++)
                    if (g.forward[f].after) heaviest[g.forward[f].to] = g.forward[f].gap;
                if (g.waits)
                    for (uint64_t map = g.out[k]; map; map &= map - 1) heaviest[lowest(map)] = 0;
            }
            if (!search(g, l, k, heaviest)) return false;
            for (int v = 0; v < g.steps; v++) walk[v * g.anchors + k] = heaviest[v];
        }
        return true;
    }
};

} // namespace planner

#endif
