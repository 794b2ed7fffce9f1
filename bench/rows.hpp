// The rows of the tables: planners that are called alike.
#ifndef ROWS_HPP
#define ROWS_HPP

#include <cstddef>
#include <cstdint>

struct Row {
    const char *name, *what;
    uint32_t (*judge)(const uint8_t *, size_t, bool);
    uint32_t (*waits)(const uint8_t *, size_t, uint64_t *, uint32_t *);
    uint32_t (*plan)(const uint8_t *, size_t, bool, uint32_t *, size_t);
    uint32_t (*starts)(const uint8_t *, size_t, bool, const uint32_t *, size_t, uint32_t *, size_t);
    uint32_t (*clashes)(const uint8_t *, size_t, uint32_t *, size_t, size_t *);
};
// A call that a row does not have is null.

extern const Row library_row, all_anchors_row, cell_by_cell_row, bellman_ford_row, floyd_warshall_row, lemon_row, boost_row;

// Rows that report records that clash, beside the library's.
extern const Row front_row, each_copied_row, each_written_row;

#define PLANNER_ROW(row, name, what, Kernel) \
    extern const Row row; \
    const Row row = {name, what, planner::judge<Kernel>, planner::waits<Kernel>, planner::plan<Kernel>, planner::starts<Kernel>, nullptr}

#endif
