// The library's calls with one fault planted in each, to see that it is noticed.
#pragma once

#include "check.hpp"

#include <vector>

struct Planted {
    const char *fault;
    const char *noticed; // a part of what is said of it
    Calls calls;
    Kind kind; // of the cases that are to notice it
};

std::vector<Planted> planted_faults();
std::vector<Planted> planted_in_writes();
std::vector<Planted> planted_in_prices();
