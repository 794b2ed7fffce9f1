#include "all_anchors.hpp"
#include "rows.hpp"

PLANNER_ROW(all_anchors_row, "all anchors", "by hand, all anchors at once", planner::AllAnchors);
