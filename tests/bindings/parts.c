/* Writes sheets by the structs and functions of the header. Words on standard input: n, r and the bytes of room; of each step o (open), l TICKS (open, at
 * least) or f TICKS (fixed); of each link i, j, then a (after), g TICKS (its gap), l TICKS (at least), m TICKS (at most), f TICKS (at most from the finish),
 * in any order, up to a full stop. Prints a line for each: what the call returned, the length, lent as 1000, and the buffer, lent as 100, 101 and so on. */
#include <inttypes.h>
#include <stdio.h>

#include "standplan.h"

enum { MOST = 600 };

static standplan_step steps[MOST];
static standplan_link links[MOST];
static uint8_t buffer[2 * STANDPLAN_MAX_SHEET];

static char letter(void) {
    char found = '.';
    return scanf(" %c", &found) == 1 ? found : '.';
}

static uint64_t number(void) {
    uint64_t found = 0;
    return scanf("%" SCNu64, &found) == 1 ? found : 0;
}

static standplan_step step(void) {
    switch (letter()) {
    case 'l': return standplan_step_open_least(number());
    case 'f': return standplan_step_fixed(number());
    default: return standplan_step_open();
    }
}

static standplan_link link_of_pair(void) {
    uint64_t i = number(), j = number();
    standplan_link made = standplan_link_pair(i, j);
    for (;;)
        switch (letter()) {
        case 'a': made = standplan_link_after(made); break;
        case 'g': made = standplan_link_gap(made, number()); break;
        case 'l': made = standplan_link_at_least(made, number()); break;
        case 'm': made = standplan_link_at_most(made, number()); break;
        case 'f': made = standplan_link_at_most_from_finish(made, number()); break;
        default: return made;
        }
}

/* Counts above the limits are refused by themselves, however large: nothing is lent for them. */
static int counts_refused(void) {
    standplan_step one = standplan_step_open();
    size_t length = 1000;
    return standplan_write_sheet(NULL, SIZE_MAX, NULL, SIZE_MAX, buffer, sizeof buffer, &length) == STANDPLAN_REFUSED + STANDPLAN_STEP_COUNT &&
           standplan_write_sheet(&one, 1, NULL, SIZE_MAX, buffer, sizeof buffer, &length) == STANDPLAN_REFUSED + STANDPLAN_RECORD_COUNT && length == 1000;
}

int main(void) {
    if (!counts_refused())
        return 3;
    for (size_t n, r, room; scanf("%zu %zu %zu", &n, &r, &room) == 3;) {
        if (n > MOST || r > MOST || room > sizeof buffer)
            return 2;
        for (size_t v = 0; v < n; v++)
            steps[v] = step();
        for (size_t k = 0; k < r; k++)
            links[k] = link_of_pair();
        for (size_t at = 0; at < room; at++)
            buffer[at] = (uint8_t)(100 + at);
        size_t length = 1000;
        uint32_t verdict = standplan_write_sheet(n > 0 ? steps : NULL, n, r > 0 ? links : NULL, r, buffer, room, &length);
        printf("%u %zu ", verdict, length);
        for (size_t at = 0; at < room; at++)
            printf("%02x", buffer[at]);
        printf("\n");
    }
    return 0;
}
