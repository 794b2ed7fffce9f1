#include "floyd_warshall.hpp"
#include "rows.hpp"

PLANNER_ROW(floyd_warshall_row, "Floyd-Warshall", "by hand, a dense table", planner::FloydWarshall);
