// Heaviest walks by Floyd-Warshall over a dense table of all steps.
#ifndef FLOYD_WARSHALL_HPP
#define FLOYD_WARSHALL_HPP

#include "../tests/second/planner.hpp"

namespace planner {

struct FloydWarshall {
    static constexpr int32_t unreached = -(1 << 28), reached = -(1 << 27);     // walks weigh above reached; unreached and a walk do not
    static constexpr int block = 4;
    using Table = int32_t[most_steps][most_steps];

    static int stride(const Graph &g) { return g.anchors; }

    // All pairs, without the late returns into the step given (-1: none is left out); stops at the first circle that weighs above 0.
    static bool close(const Graph &g, bool waits, int without, Table &t) {
        const int n = g.steps, wide = (n + block - 1) / block * block;
        for (int v = 0; v < n; v++)
            for (int w = 0; w < wide; w++) t[v][w] = unreached;
        for (int v = 0; v < n; v++) {
            t[v][v] = 0;
            for (int l = g.first[v]; l < g.first[v + 1]; l++) t[v][g.forward[l].to] = g.forward[l].weight;
            if (waits && (g.open >> v & 1))
                for (uint64_t map = g.out[g.anchor[v]]; map; map &= map - 1)
                    if (t[v][lowest(map)] < g.duration[v]) t[v][lowest(map)] = g.duration[v];
        }
        for (int r = 0; r < g.returns; r++) {
            const Return &b = g.back[r];
            if (b.late && b.to == without) continue;
            if (b.weight > t[b.from][b.to]) t[b.from][b.to] = b.weight;
        }
        for (int k = 0; k < n; k++) {
            int32_t via[most_steps];
            std::memcpy(via, t[k], sizeof via);
            for (int v = 0; v < n; v++) {
                const int32_t reach = t[v][k];
                if (reach < reached) continue;
                for (int w = 0; w < wide; w += block)
                    for (int m = 0; m < block; m++) {
                        const int32_t weight = reach + via[w + m];
                        t[v][w + m] = weight > t[v][w + m] ? weight : t[v][w + m];
                    }
                if (t[v][v] > 0) return false;
            }
        }
        return true;
    }

    static bool circle(const Graph &g) {
        Table t;
        return !close(g, false, -1, t);
    }

    static bool walks(const Graph &g, int32_t *walk) {
        Table t, own;
        if (!close(g, g.waits, -1, t)) return false;
        uint64_t late = 0;
        for (int r = 0; g.late && r < g.returns; r++)
            if (g.back[r].late) late |= bit(g.back[r].to);
        for (int k = 0; k < g.anchors; k++) {
            const int a = g.step[k];
            Table *from = &t;
            if (late >> a & 1) close(g, g.waits, a, own), from = &own;
            for (int v = 0; v < g.steps; v++) walk[v * g.anchors + k] = k == 0 ? t[0][v] : unreached;
            if (k == 0) continue;
            auto first = [&](int s, int32_t gap) {
                for (int v = 0; v < g.steps; v++)
                    if (gap + (*from)[s][v] > walk[v * g.anchors + k]) walk[v * g.anchors + k] = gap + (*from)[s][v];
            };
            for (int l = g.first[a]; l < g.first[a + 1]; l++)
                if (g.forward[l].after) first(g.forward[l].to, g.forward[l].gap);
            if (g.waits)
                for (uint64_t map = g.out[k]; map; map &= map - 1) first(lowest(map), 0);
        }
        return true;
    }
};

} // namespace planner

#endif
