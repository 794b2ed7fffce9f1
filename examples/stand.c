/* Judges, plans and runs a sheet, each of its open steps lasting TICKS ticks, or its least duration where that is more: stand SHEET TICKS
 * Of an impossible sheet it prints the few records that clash.
 *
 *     tools/library && cc -std=c11 -I include examples/stand.c target/staticlib/libstandplan.a -o target/stand
 */
#include <errno.h>
#include <stdio.h>
#include <stdlib.h>
#include <string.h>

#include "standplan.h"

enum { MOST = STANDPLAN_MAX_STEPS };

static uint8_t sheet[STANDPLAN_MAX_SHEET + 1]; /* a byte more than the longest sheet: what is longer is refused */
static uint32_t table[STANDPLAN_MAX_TABLE], list[MOST], starts[MOST], records[STANDPLAN_MAX_RECORDS];
static uint16_t leasts[MOST];
static standplan_run run;

static void print_steps(const char *before, uint64_t map) {
    if (map != 0)
        printf("%s", before);
    for (int v = 0; v < MOST; v++)
        if (map >> v & 1)
            printf(" %d", v);
}

/* Hands on a verdict; a refusal ends the program: there is no answer then. */
static uint32_t taken(uint32_t verdict) {
    uint32_t refusal = standplan_refused(verdict);
    if (refusal != 0) {
        printf("refused %u\n", refusal);
        fprintf(stderr, "stand: refused %u: %s\n", refusal, standplan_sentence(verdict));
        exit(1);
    }
    return verdict;
}

int main(int argc, char **argv) {
    char *end = NULL;
    errno = 0;
    unsigned long ticks = argc == 3 ? strtoul(argv[2], &end, 10) : 0;
    if (end == NULL || end == argv[2] || *end != '\0' || errno != 0 || ticks > UINT32_MAX) {
        fprintf(stderr, "usage: stand SHEET TICKS\n");
        return 2;
    }
    FILE *file = fopen(argv[1], "rb");
    size_t length = file != NULL ? fread(sheet, 1, sizeof sheet, file) : 0;
    if (file == NULL || ferror(file)) {
        fprintf(stderr, "%s: %s\n", argv[1], strerror(errno));
        return 2;
    }
    fclose(file);

    /* Judge, waits allowed. Planning and working out starts judge too; this call is for who wants the verdict alone. */
    uint32_t verdict = standplan_judge(sheet, length, true), refusal = standplan_refused(verdict);

    /* Where no times keep every link: the few records that clash, by their numbers. */
    if (refusal == STANDPLAN_NEVER_KEPT || refusal == STANDPLAN_NOT_ALWAYS_KEPT) {
        size_t few;
        taken(standplan_clashes(sheet, length, records, STANDPLAN_MAX_RECORDS, &few));
        printf("records that clash");
        for (size_t k = 0; k < few; k++)
            printf(" %u", records[k]);
        printf("\n");
    }
    printf("verdict %u\n", taken(verdict));

    /* What a run is begun with: N, the map of the open steps, step 0 among them, and the least durations. The list has what open steps last here. */
    size_t n;
    uint64_t open;
    taken(standplan_steps(sheet, length, &n, &open, leasts, MOST));
    for (size_t v = 1; v < n; v++)
        if (open >> v & 1)
            list[v] = ticks < leasts[v] ? leasts[v] : (uint32_t)ticks;

    /* Waits. */
    uint64_t waits[MOST];
    uint32_t count;
    taken(standplan_waits(sheet, length, waits, &count));
    printf("waits %u\n", count);
    for (size_t i = 0; i < n; i++)
        if (waits[i] != 0) {
            printf("step %zu waits for", i);
            print_steps("", waits[i]);
            printf("\n");
        }

    /* Plan: row v names the steps that decide when step v starts. */
    taken(standplan_plan(sheet, length, true, table, STANDPLAN_MAX_TABLE));
    for (size_t v = 0; v < n; v++) {
        const char *before = " the latest of";
        printf("step %zu starts at", v);
        for (size_t a = 0; a < n; a++)
            if (table[v * n + a] != STANDPLAN_UNDECIDED) {
                printf("%s end of %zu + %u", before, a, table[v * n + a]);
                before = ",";
            }
        printf("\n");
    }

    /* Start times, for durations that are known. */
    taken(standplan_starts(sheet, length, true, list, n, starts, n));
    printf("start times");
    for (size_t v = 0; v < n; v++)
        printf(" %u", starts[v]);
    printf("\n");

    /* Run: here a step ends when it has lasted what the list says; at a stand, when somebody says so, and not below its least duration (refusal 20). */
    uint64_t all = UINT64_MAX >> (MOST - n), map;
    taken(standplan_run_begin(&run, n, open, leasts, n, table, n * n, &map));
    print_steps("tick 0: starts", map);
    printf("\n");
    while (run.words[STANDPLAN_STARTED] != all) {
        for (size_t v = 1; v < n; v++) {
            uint64_t at_work = open & run.words[STANDPLAN_STARTED] & ~run.words[STANDPLAN_FINISHED];
            if ((at_work >> v & 1) == 0 || run.tick - run.start[v] < list[v])
                continue;
            taken(standplan_run_finish(&run, v, table, n * n, &map));
            printf("tick %u: step %zu ends", run.tick, v);
            print_steps(", starts", map);
            printf("\n");
            v = 0; /* what has just started may end at this tick too */
        }
        taken(standplan_run_tick(&run, table, n * n, &map));
        if (map != 0) {
            printf("tick %u:", run.tick);
            print_steps(" starts", map);
            printf("\n");
        }
    }
    return 0;
}
