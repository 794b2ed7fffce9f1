#include "../include/standplan.h"
#include "rows.hpp"

extern const Row library_row = {"standplan", "this library, proved", standplan_judge, standplan_waits, standplan_plan, standplan_starts, standplan_clashes};
