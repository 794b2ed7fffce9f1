// Start times of one list of durations, beside what a user would pick instead: GLPK (a linear program) and Z3 (least sum of start times).
//   lists SHARE ROUNDS FILE     checks that all give our start times on the first SHARE sheets of a set, then prints a line `row least` in microseconds per list,
//                             the least of ROUNDS rounds, and of as many more as there are in 0.2 s
// Each row goes from the sheet's bytes and the list to start times. GLPK and Z3 get the links and waits from the reader of tests/second.
#include <algorithm>
#include <cmath>
#include <cstdio>
#include <cstdlib>
#include <ctime>
#include <random>
#include <string>
#include <vector>

#include "../include/standplan.h"
#include "all_anchors.hpp"
#include "sets.hpp"
#ifdef WITH_GLPK
#include <glpk.h>
#endif
#ifdef WITH_Z3
#include <z3++.h>
#endif

using List = std::vector<uint32_t>;
using Starts = std::vector<uint32_t>;

static Starts ours(const Sheet &s, const List &list) {
    Starts out(list.size());
    if (standplan_starts(s.data(), s.size(), true, list.data(), list.size(), out.data(), out.size()) > 1) out.clear();
    return out;
}

#if defined WITH_GLPK || defined WITH_Z3
struct Line { int from, to; int weight; };      // start(to) >= start(from) + weight

static std::vector<Line> lines(const Sheet &s, const List &list) {
    planner::Graph g;
    int32_t walk[planner::most_steps * planner::most_steps];
    std::vector<Line> out;
    if (planner::judged<planner::AllAnchors>(g, s.data(), s.size(), walk)) return out;
    for (int v = 0; v < g.steps; v++) {
        const int lasts = int(list[v]);
        for (int l = g.first[v]; l < g.first[v + 1]; l++) {
            const planner::Forward &f = g.forward[l];
            out.push_back({v, f.to, f.after ? std::max(f.weight, lasts + f.gap) : f.weight});
        }
        for (uint64_t map = g.need[v]; map; map &= map - 1) {
            const int a = g.step[planner::lowest(map)];
            out.push_back({a, v, int(list[a])});
        }
    }
    for (int r = 0; r < g.returns; r++) {
        const planner::Return &b = g.back[r];
        out.push_back({b.from, b.to, b.weight - (b.late ? int(list[b.to]) - g.duration[b.to] : 0)}); // the weight has the least in it
    }
    return out;
}
#endif

#ifdef WITH_GLPK
static Starts glpk(const Sheet &s, const List &list) {
    const std::vector<Line> all = lines(s, list);
    const int n = int(list.size());
    glp_prob *p = glp_create_prob();
    glp_set_obj_dir(p, GLP_MIN);
    glp_add_cols(p, n);
    for (int v = 0; v < n; v++) {
        glp_set_col_bnds(p, v + 1, v == 0 ? GLP_FX : GLP_LO, 0, 0);
        glp_set_obj_coef(p, v + 1, 1);
    }
    std::vector<int> row(1), column(1);
    std::vector<double> value(1);
    if (!all.empty()) glp_add_rows(p, int(all.size()));
    for (size_t k = 0; k < all.size(); k++) {
        glp_set_row_bnds(p, int(k) + 1, GLP_LO, all[k].weight, 0);
        row.insert(row.end(), 2, int(k) + 1);
        column.insert(column.end(), {all[k].to + 1, all[k].from + 1});
        value.insert(value.end(), {1, -1});
    }
    glp_load_matrix(p, int(row.size()) - 1, row.data(), column.data(), value.data());
    glp_smcp how;
    glp_init_smcp(&how);
    how.msg_lev = GLP_MSG_OFF;
    how.meth = GLP_DUALP;                       // all starts at 0 is dual feasible
    glp_simplex(p, &how);
    Starts out(n);
    for (int v = 0; v < n; v++) out[v] = uint32_t(std::lround(glp_get_col_prim(p, v + 1)));
    glp_delete_prob(p);
    return out;
}
#endif

#ifdef WITH_Z3
static Starts z3_starts(const Sheet &s, const List &list) {
    const std::vector<Line> all = lines(s, list);
    z3::context c;
    z3::optimize o(c);
    z3::expr_vector start(c);
    z3::expr sum = c.int_val(0);
    for (size_t v = 0; v < list.size(); v++) {
        start.push_back(c.int_const(("s" + std::to_string(v)).c_str()));
        o.add(v == 0 ? start[int(v)] == 0 : start[int(v)] >= 0);
        sum = sum + start[int(v)];
    }
    for (const Line &l : all) o.add(start[l.to] - start[l.from] >= l.weight);
    o.minimize(sum);
    Starts out(list.size());
    if (o.check() != z3::sat) return {};
    const z3::model m = o.get_model();
    for (size_t v = 0; v < list.size(); v++) out[v] = uint32_t(m.eval(start[int(v)], true).get_numeral_int());
    return out;
}
#endif

struct Row { const char *name; Starts (*starts)(const Sheet &, const List &); };
static const Row rows[] = {
    {"standplan", ours},
#ifdef WITH_GLPK
    {"GLPK", glpk},
#endif
#ifdef WITH_Z3
    {"Z3", z3_starts},
#endif
};

static double now() {
    timespec t;
    clock_gettime(CLOCK_THREAD_CPUTIME_ID, &t);
    return double(t.tv_sec) * 1e6 + double(t.tv_nsec) / 1e3;
}

int main(int argc, char **argv) {
    if (argc != 4) return 2;
    const std::string file = argv[3];
    Set set = load(file);
    set.resize(std::min(set.size(), size_t(std::stoul(argv[1]))));
    const int rounds = std::stoi(argv[2]);
    std::vector<List> list;
    std::mt19937_64 engine(1);
    for (size_t k = 0; k < set.size(); k++) {
        planner::Graph g;
        List one(set[k][0], 0);
        if (planner::read(g, set[k].data(), set[k].size()) == 0)
            for (int v = 0; v < g.steps; v++)
                if (g.open >> v & 1) one[v] = uint32_t(g.duration[v] + engine() % 200); // from its least on
        list.push_back(one);
        const Starts right = ours(set[k], one);
        for (const Row &row : rows)
            if (right.empty() || row.starts(set[k], one) != right) {
                std::fprintf(stderr, "start times differ: %s, sheet %zu, row %s\n", file.c_str(), k, row.name);
                return 1;
            }
    }
    for (const Row &row : rows) {
        double least = 0;
        const double start = now();
        for (int round = 0; round < rounds || now() - start < 2e5; round++) {     // 0.2 s at least
            const double begin = now();
            for (size_t k = 0; k < set.size(); k++) row.starts(set[k], list[k]);
            const double took = (now() - begin) / double(set.size());
            if (round == 0 || took < least) least = took;
        }
        std::printf("%s\t%.3f\n", row.name, least);
    }
}
