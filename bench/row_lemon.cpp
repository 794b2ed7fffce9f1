#include "lemon.hpp"
#include "rows.hpp"

PLANNER_ROW(lemon_row, "LEMON", "LEMON's Bellman-Ford", planner::Lemon);
