#include "all_anchors.hpp"
#include "rows.hpp"

using Kernel = planner::AllAnchors;

extern const Row each_copied_row = {"each part copied", "by hand, the links of each part copied and ordered", planner::judge<Kernel>, nullptr, nullptr, nullptr, planner::clashes<Kernel>};
