#include "../tests/second/bellman_ford.hpp"
#include "rows.hpp"

PLANNER_ROW(bellman_ford_row, "Bellman-Ford", "by hand, a list of links in forward order", planner::BellmanFord);
