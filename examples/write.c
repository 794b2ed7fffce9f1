/* Writes the stand sheet from its steps and links, in bytes to standard output: write > SHEET
 *
 *     tools/library && cc -std=c11 -I include examples/write.c target/staticlib/libstandplan.a -o target/write
 */
#include <stdio.h>

#include "standplan.h"

enum { START, LAMPS, HAND, GLASS_DOWN, EXPOSURE, STEPS };

int main(void) {
    standplan_step steps[STEPS];
    steps[START] = standplan_step_open();
    steps[LAMPS] = standplan_step_fixed(3);
    steps[HAND] = standplan_step_open(); /* where no hand is done in under eight ticks: standplan_step_open_least(8) */
    steps[GLASS_DOWN] = standplan_step_fixed(2);
    steps[EXPOSURE] = standplan_step_fixed(1);

    /* In any order. What is said of one pair stands in one link. */
    standplan_link links[] = {
        standplan_link_at_most(standplan_link_after(standplan_link_pair(GLASS_DOWN, EXPOSURE)), 2),
        standplan_link_after(standplan_link_pair(HAND, GLASS_DOWN)),
        standplan_link_after(standplan_link_pair(LAMPS, EXPOSURE)),
        standplan_link_after(standplan_link_pair(START, LAMPS)),
        standplan_link_after(standplan_link_pair(START, HAND)),
    };

    uint8_t sheet[STANDPLAN_MAX_SHEET];
    size_t length;
    uint32_t verdict = standplan_write_sheet(steps, STEPS, links, sizeof links / sizeof *links, sheet, sizeof sheet, &length);
    if (standplan_refused(verdict) != 0) {
        fprintf(stderr, "write: refused %u: %s\n", standplan_refused(verdict), standplan_sentence(verdict));
        return 1;
    }
    if (fwrite(sheet, 1, length, stdout) != length || fflush(stdout) != 0) {
        perror("write");
        return 2;
    }
    return 0;
}
