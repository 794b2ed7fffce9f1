// Heaviest walks by LEMON's Bellman-Ford: shortest paths over weights with the sign turned.
#ifndef LEMON_HPP
#define LEMON_HPP

#include <lemon/bellman_ford.h>
#include <lemon/smart_graph.h>

#include "../tests/second/planner.hpp"

namespace planner {

struct Lemon {
    using Digraph = lemon::SmartDigraph;
    using Length = Digraph::ArcMap<int>;
    using Search = lemon::BellmanFord<Digraph, Length>;

    static int stride(const Graph &g) { return g.anchors; }

    // The links, without the late returns into the step given.
    static void fill(const Graph &g, bool waits, int without, Digraph &d, Length &length) {
        d.reserveNode(g.steps);
        for (int v = 0; v < g.steps; v++) d.addNode();
        auto add = [&](int v, int to, int weight) { length[d.addArc(d.nodeFromId(v), d.nodeFromId(to))] = -weight; };
        for (int v = 0; v < g.steps; v++) {
            for (int l = g.first[v]; l < g.first[v + 1]; l++) add(v, g.forward[l].to, g.forward[l].weight);
            if (waits && (g.open >> v & 1))
                for (uint64_t map = g.out[g.anchor[v]]; map; map &= map - 1) add(v, lowest(map), g.duration[v]);
        }
        for (int r = 0; r < g.returns; r++)
            if (!g.back[r].late || g.back[r].to != without) add(g.back[r].from, g.back[r].to, g.back[r].weight);
    }

    static bool circle(const Graph &g) {
        Digraph d;
        Length length(d);
        fill(g, false, -1, d, length);
        Search search(d, length);
        search.init();
        search.addSource(d.nodeFromId(0), 0);
        return !search.checkedStart();
    }

    static void from(const Graph &g, Digraph &d, Search &search, int k, int32_t *walk) {
        const int a = g.step[k];
        search.init();
        for (int l = g.first[a]; l < g.first[a + 1]; l++)
            if (g.forward[l].after) search.addSource(d.nodeFromId(g.forward[l].to), -g.forward[l].gap);
        if (g.waits)
            for (uint64_t map = g.out[k]; map; map &= map - 1) search.addSource(d.nodeFromId(lowest(map)), 0);
        search.start();
        for (int v = 0; v < g.steps; v++)
            if (g.set[v] >> k & 1) walk[v * g.anchors + k] = -search.dist(d.nodeFromId(v));
    }

    static bool walks(const Graph &g, int32_t *walk) {
        Digraph d;
        Length length(d);
        fill(g, g.waits, -1, d, length);
        Search search(d, length);
        search.init();
        search.addSource(d.nodeFromId(0), 0);
        if (!search.checkedStart()) return false;
        for (int v = 0; v < g.steps; v++) walk[v * g.anchors] = -search.dist(d.nodeFromId(v));
        uint64_t late = 0;
        for (int r = 0; g.late && r < g.returns; r++)
            if (g.back[r].late) late |= bit(g.back[r].to);
        for (int k = 1; k < g.anchors; k++) {
            if (late >> g.step[k] & 1) {
                Digraph own;
                Length own_length(own);
                fill(g, g.waits, g.step[k], own, own_length);
                Search own_search(own, own_length);
                from(g, own, own_search, k, walk);
            } else {
                from(g, d, search, k, walk);
            }
        }
        return true;
    }
};

} // namespace planner

#endif
