/* The stack that each call needs: it is made on a stack of its own, filled before and looked at after. Prints a line `call bytes` for each,
 * the most over the sheets of the files that are named, which are in the form of bench/sets; the status is 1 where one needs more than
 * STANDPLAN_STACK. */
#define _GNU_SOURCE
#include <stdio.h>
#include <string.h>
#include <ucontext.h>

#include "standplan.h"

enum { ROOM = 1 << 20, FILL = 0xa5, CALLS = 11 };

static const char *const names[CALLS + 1] = {"judge", "waits", "plan", "starts", "steps", "clashes", "price", "write", "begin", "tick", "finish", "nothing"};
static _Alignas(64) unsigned char stack[ROOM];
static uint8_t sheet[STANDPLAN_MAX_SHEET], buffer[STANDPLAN_MAX_SHEET];
static size_t length, steps, few, written;
static standplan_step parts[STANDPLAN_MAX_STEPS];
static standplan_link links[STANDPLAN_MAX_RECORDS];
static uint64_t maps[STANDPLAN_MAX_STEPS], map, open_map;
static uint16_t leasts[STANDPLAN_MAX_STEPS];
static uint32_t count, table[STANDPLAN_MAX_TABLE], list[STANDPLAN_MAX_STEPS], out[STANDPLAN_MAX_STEPS], numbers[STANDPLAN_MAX_RECORDS], verdict;
static uint32_t registers[STANDPLAN_MAX_STEPS], comparisons[STANDPLAN_MAX_STEPS], totals[2];
static standplan_run run;
static ucontext_t here, there;
static int called;

static void call(void) {
    size_t n = sheet[0];
    switch (called) {
    case 0: verdict = standplan_judge(sheet, length, true); break;
    case 1: verdict = standplan_waits(sheet, length, maps, &count); break;
    case 2: verdict = standplan_plan(sheet, length, true, table, STANDPLAN_MAX_TABLE); break;
    case 3: verdict = standplan_starts(sheet, length, true, list, n, out, n); break;
    case 4: verdict = standplan_steps(sheet, length, &steps, &open_map, leasts, STANDPLAN_MAX_STEPS); break;
    case 5: verdict = standplan_clashes(sheet, length, numbers, STANDPLAN_MAX_RECORDS, &few); break;
    case 6: verdict = standplan_price(sheet, length, true, registers, n, comparisons, n, totals); break;
    case 7: verdict = standplan_write_sheet(parts, STANDPLAN_MAX_STEPS, links, STANDPLAN_MAX_RECORDS, buffer, sizeof buffer, &written); break;
    case 8: memset(&run, 0, sizeof run); verdict = standplan_run_begin(&run, n, UINT64_MAX, leasts, n, table, n * n, &map); break;
    case 9: verdict = standplan_run_tick(&run, table, n * n, &map); break;
    case 10: verdict = standplan_run_finish(&run, 1, table, n * n, &map); break;
    }
}

/* The parts of a sheet as long as there can be one: every field is there, the records fall. */
static void longest(void) {
    parts[0] = standplan_step_open();
    for (size_t v = 1; v < STANDPLAN_MAX_STEPS; v++)
        parts[v] = standplan_step_open_least(v);
    for (size_t k = 0, i = 1, j = 0; k < STANDPLAN_MAX_RECORDS; k++) {
        links[STANDPLAN_MAX_RECORDS - 1 - k] = standplan_link_at_most_from_finish(standplan_link_at_most(standplan_link_at_least(standplan_link_gap(standplan_link_after(
            standplan_link_pair(i, j)), 1), 2), 3), 4);
        j += j + 1 == i ? 2 : 1;
        if (j >= STANDPLAN_MAX_STEPS) {
            i++;
            j = 0;
        }
    }
}

/* The bytes of stack that a call has touched, from the top of the stack on. */
static size_t touched(int which) {
    called = which;
    memset(stack, FILL, ROOM);
    getcontext(&there);
    there.uc_stack.ss_sp = stack;
    there.uc_stack.ss_size = ROOM;
    there.uc_link = &here;
    makecontext(&there, call, 0);
    swapcontext(&here, &there);
    size_t at = 0;
    while (at < ROOM && stack[at] == FILL)
        at++;
    return ROOM - at;
}

int main(int argc, char **argv) {
    size_t most[CALLS] = {0}, sheets = 0;
    longest();
    touched(CALLS); /* so that what the first swap links is linked */
    size_t without = touched(CALLS);
    for (int i = 1; i < argc; i++) {
        FILE *file = fopen(argv[i], "rb");
        if (file == NULL)
            return 2;
        for (int low; (low = getc(file)) != EOF; sheets++) {
            length = (size_t)low + 256 * (size_t)getc(file);
            if (length > sizeof sheet || fread(sheet, 1, length, file) != length)
                return 2;
            for (int c = 0; c < CALLS; c++) {
                size_t needs = touched(c) - without;
                if (needs > most[c])
                    most[c] = needs;
            }
        }
        fclose(file);
    }
    int status = sheets == 0 || written != STANDPLAN_MAX_SHEET;
    for (int c = 0; c < CALLS; c++) {
        printf("%s %zu\n", names[c], most[c]);
        if (most[c] > STANDPLAN_STACK)
            status = 1;
    }
    return status;
}
