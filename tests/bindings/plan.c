/* Prints the plan of the sheet in FILE by the calls of the library, as ./standplan prints it: plan FILE */
#include <stdio.h>
#include <stdlib.h>

#include <standplan.h>

static uint8_t sheet[STANDPLAN_MAX_SHEET + 1];
static uint32_t table[STANDPLAN_MAX_TABLE];

int main(int argc, char **argv) {
    FILE *file = argc == 2 ? fopen(argv[1], "rb") : NULL;
    if (file == NULL)
        return 2;
    size_t length = fread(sheet, 1, sizeof sheet, file);
    fclose(file);
    uint64_t maps[STANDPLAN_MAX_STEPS];
    uint32_t count, verdict = standplan_plan(sheet, length, true, table, STANDPLAN_MAX_TABLE);
    if (standplan_refused(verdict) || standplan_waits(sheet, length, maps, &count) != verdict) {
        printf("refused %u\n", standplan_refused(verdict));
        return 1;
    }
    size_t n = sheet[0];
    printf("verdict %u\nwaits %u\n", verdict, count);
    for (size_t a = 0; a < n; a++)
        for (size_t i = 0; i < n; i++)
            if (maps[i] >> a & 1)
                printf("wait %zu %zu\n", a, i);
    for (size_t v = 0; v < n; v++)
        for (size_t a = 0; a < n; a++)
            if (table[v * n + a] != STANDPLAN_UNDECIDED)
                printf("start %zu %zu %u\n", v, a, table[v * n + a]);
    return 0;
}
