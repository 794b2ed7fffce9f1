#include "boost.hpp"
#include "rows.hpp"

PLANNER_ROW(boost_row, "Boost", "Boost Graph's Bellman-Ford", planner::Boost);
