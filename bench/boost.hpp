// Heaviest walks by Boost Graph's Bellman-Ford: shortest paths over weights with the sign turned.
#ifndef BOOST_HPP
#define BOOST_HPP

#include <boost/graph/adjacency_list.hpp>
#include <boost/graph/bellman_ford_shortest_paths.hpp>
#include <limits>

#include "../tests/second/planner.hpp"

namespace planner {

struct Boost {
    using Digraph = boost::adjacency_list<boost::vecS, boost::vecS, boost::directedS, boost::no_property, boost::property<boost::edge_weight_t, int>>;
    static constexpr int unreached = std::numeric_limits<int>::max();

    static int stride(const Graph &g) { return g.anchors; }

    // The links, without the late returns into the step given.
    static Digraph graph(const Graph &g, bool waits, int without) {
        Digraph d(g.steps);
        for (int v = 0; v < g.steps; v++) {
            for (int l = g.first[v]; l < g.first[v + 1]; l++) boost::add_edge(v, g.forward[l].to, -g.forward[l].weight, d);
            if (waits && (g.open >> v & 1))
                for (uint64_t map = g.out[g.anchor[v]]; map; map &= map - 1) boost::add_edge(v, lowest(map), -int(g.duration[v]), d);
        }
        for (int r = 0; r < g.returns; r++)
            if (!g.back[r].late || g.back[r].to != without) boost::add_edge(g.back[r].from, g.back[r].to, -g.back[r].weight, d);
        return d;
    }

    static bool search(const Graph &g, const Digraph &d, int *distance) {
        return boost::bellman_ford_shortest_paths(d, g.steps, boost::distance_map(distance)
            .weight_map(boost::get(boost::edge_weight, d)).distance_combine(boost::closed_plus<int>(unreached)));
    }

    static bool from_start(const Graph &g, const Digraph &d, int *distance) {
        for (int v = 0; v < g.steps; v++) distance[v] = unreached;
        distance[0] = 0;
        return search(g, d, distance);
    }

    static bool circle(const Graph &g) {
        int distance[most_steps];
        return !from_start(g, graph(g, false, -1), distance);
    }

    static bool walks(const Graph &g, int32_t *walk) {
        const Digraph d = graph(g, g.waits, -1);
        int distance[most_steps];
        if (!from_start(g, d, distance)) return false;
        for (int v = 0; v < g.steps; v++) walk[v * g.anchors] = -distance[v];
        uint64_t late = 0;
        for (int r = 0; g.late && r < g.returns; r++)
            if (g.back[r].late) late |= bit(g.back[r].to);
        for (int k = 1; k < g.anchors; k++) {
            const int a = g.step[k];
            for (int v = 0; v < g.steps; v++) distance[v] = unreached;
            for (int l = g.first[a]; l < g.first[a + 1]; l++)
                if (g.forward[l].after) distance[g.forward[l].to] = -g.forward[l].gap;
            if (g.waits)
                for (uint64_t map = g.out[k]; map; map &= map - 1) distance[lowest(map)] = 0;
            if (late >> a & 1) search(g, graph(g, g.waits, a), distance);
            else search(g, d, distance);
            for (int v = 0; v < g.steps; v++) walk[v * g.anchors + k] = -distance[v];
        }
        return true;
    }
};

} // namespace planner

#endif
