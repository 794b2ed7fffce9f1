// Sets of sheets: the container (two bytes of length, low byte first, then the sheet, repeated), facts about a set, and sets made from a seed.
#ifndef SETS_HPP
#define SETS_HPP

#include <cstdint>
#include <random>
#include <string>
#include <vector>

using Sheet = std::vector<uint8_t>;
using Set = std::vector<Sheet>;

Set load(const std::string &path);                   // ends the program where the file is not a container
void store(const std::string &path, const Set &set);
std::string facts(const Set &set);                   // one line

// kind: small, medium, large, worst, l14 or clash.
Set make(const std::string &kind, uint64_t seed, size_t sheets);

// Accepted sheets of n steps and r link records, or as many as there is room for.
Set make_sized(int n, int r, uint64_t seed, size_t sheets);

#endif
