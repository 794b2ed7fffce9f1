#include "all_anchors.hpp"
#include "filter.hpp"
#include "rows.hpp"

using Kernel = planner::AllAnchors;

extern const Row front_row = {"front and rest", "by hand, the front of the links and those that stay", planner::judge<Kernel>, nullptr, nullptr, nullptr, planner::filter<Kernel>};
