#include "all_anchors.hpp"
#include "rows.hpp"

// bench/run compiles this without vector instructions.
PLANNER_ROW(cell_by_cell_row, "all anchors, cell by cell", "the same without vector instructions", planner::AllAnchorsBy<1>);
