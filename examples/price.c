/* Prints the price of the control box of the sheet in FILE, waits allowed, as ./standprice does: price FILE
 *
 *     tools/library && cc -std=c11 -I include examples/price.c target/staticlib/libstandplan.a -o target/price
 */
#include <stdio.h>

#include "standplan.h"

static int refused(uint32_t verdict) {
    fprintf(stderr, "price: refused %u: %s\n", standplan_refused(verdict), standplan_sentence(verdict));
    printf("refused %u\n", standplan_refused(verdict));
    return 1;
}

int main(int argc, char **argv) {
    static uint8_t sheet[STANDPLAN_MAX_SHEET + 1]; /* one byte more, so that a file that is too long is not taken for a sheet */
    FILE *file = argc == 2 ? fopen(argv[1], "rb") : NULL;
    if (file == NULL) {
        fprintf(stderr, "usage: price FILE\n");
        return 2;
    }
    size_t length = fread(sheet, 1, sizeof sheet, file);
    fclose(file);

    uint32_t registers[STANDPLAN_MAX_STEPS], comparisons[STANDPLAN_MAX_STEPS], totals[2];
    uint32_t verdict = standplan_price(sheet, length, true, registers, STANDPLAN_MAX_STEPS, comparisons, STANDPLAN_MAX_STEPS, totals);
    if (standplan_refused(verdict) != 0)
        return refused(verdict);

    /* The number of steps, and which of them are open. */
    size_t n;
    uint64_t open;
    uint16_t leasts[STANDPLAN_MAX_STEPS];
    verdict = standplan_steps(sheet, length, &n, &open, leasts, STANDPLAN_MAX_STEPS);
    if (standplan_refused(verdict) != 0)
        return refused(verdict);

    for (size_t a = 0; a < n; a++)
        if (open >> a & 1)
            printf("registers %zu %u\n", a, registers[a]);
    for (size_t v = 0; v < n; v++)
        printf("comparisons %zu %u\n", v, comparisons[v]);
    printf("total %u %u\n", totals[STANDPLAN_REGISTERS], totals[STANDPLAN_COMPARISONS]);
    return 0;
}
