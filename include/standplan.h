/* The verified stand planner, for C and C++ (x86-64 Linux). tools/library builds what it is linked with: libstandplan.a and libstandplan.so in
 * target/staticlib; docs/GUIDE.md has the commands, examples/stand.c, examples/write.c and examples/price.c use every call.
 *
 * A call returns a verdict, one number: 0, the sheet is sound, or, of steps, clashes, write and the runner, the call is done; 1, the sheet is sound with
 * waits; 256 + k, refused by refusal k (docs/REFUSALS.md). Every input is answered. On a refusal nothing that is lent changes.
 *
 * Memory is lent by a pointer and a count of elements. A pointer is aligned and not null, also where the count is 0;
 * what a call writes to overlaps nothing else that it is lent. No call allocates, keeps a pointer, or has a state of its own.
 *
 * Threads: calls are safe from several threads at once, unless one writes to memory that another has lent at that time. So a plan may be
 * shared by any number of runs; a run is held by one thread at a time.
 *
 * Stack, measured on x86-64 Linux (docs/GUIDE.md has the command), at most: judge and waits 78 kB, plan and starts 80 kB, steps 18 kB, clashes 64 kB, price 100 kB, write 24 kB, begin, tick and finish 4 kB.
 * STANDPLAN_STACK bytes are enough for any call; the least stack that a thread may have (PTHREAD_STACK_MIN) is not.
 *
 * Version 2.0.0 changed the runner's calls (request L6): standplan_begin is lent the least durations, the state has them, and standplan_steps is new; it gives
 * what a run of a sheet is begun with. A program for an earlier version that runs plans has to be changed and compiled anew.
 *
 * The functions that are declared are proved; what is written out in this header (static inline) is not: it hands on its arguments. */
#ifndef STANDPLAN_H
#define STANDPLAN_H

#include <stdbool.h>
#include <stddef.h>
#include <stdint.h>

#ifdef __cplusplus
extern "C" {
#endif

#define STANDPLAN_VERSION "2.4.0"
#define STANDPLAN_VERSION_MAJOR 2
#define STANDPLAN_VERSION_MINOR 4
#define STANDPLAN_VERSION_PATCH 0

/* The most that there can be: steps and link records of a sheet, bytes of a sheet, numbers of a plan, ticks in a list of durations. */
#define STANDPLAN_MAX_STEPS 64
#define STANDPLAN_MAX_RECORDS 512
#define STANDPLAN_MAX_SHEET 5825
#define STANDPLAN_MAX_TABLE 4096
#define STANDPLAN_MAX_DURATION UINT32_C(16777215)

/* Bytes of stack that are enough for any call. */
#define STANDPLAN_STACK 102400

/* The number in a plan where a step does not decide another. */
#define STANDPLAN_UNDECIDED UINT32_C(4294967295)

/* A verdict of 256 or more is a refusal. */
#define STANDPLAN_REFUSED UINT32_C(256)

/* The refusals, by number; in the order in which they are judged they stand in docs/REFUSALS.md.
 * STANDPLAN_UNREACHED is retired: no call returns it since version 1.5.0. It is here for programs that name it. */
enum standplan_refusal {
    STANDPLAN_TRUNCATED = 1,
    STANDPLAN_STEP_COUNT = 2,
    STANDPLAN_RECORD_COUNT = 3,
    STANDPLAN_BAD_MAP = 4,
    STANDPLAN_BAD_PAIR = 5,
    STANDPLAN_BAD_ORDER = 6,
    STANDPLAN_TRAILING = 7,
    STANDPLAN_CIRCLE = 8,
    STANDPLAN_UNREACHED = 9,
    STANDPLAN_NEVER_KEPT = 10,
    STANDPLAN_NOT_ALWAYS_KEPT = 11,
    STANDPLAN_WAITS_NEEDED = 12,
    STANDPLAN_BAD_DURATION = 13,
    STANDPLAN_TOO_SHORT = 14,
    STANDPLAN_NOT_BEGUN = 15,
    STANDPLAN_HAS_BEGUN = 16,
    STANDPLAN_CANNOT_FINISH = 17,
    STANDPLAN_CLOCK_END = 18,
    STANDPLAN_LARGE_OFFSET = 19,
    STANDPLAN_TOO_EARLY = 20,
    STANDPLAN_LIMIT_WITHOUT_AFTER = 26,
    STANDPLAN_WAITS_CLASH = 28,
    STANDPLAN_NOT_IMPOSSIBLE = 31
};

/* The compiler warns where what a call returned is not looked at: on a refusal there is no answer, and nothing that was lent has changed. */
#ifdef __GNUC__
#define STANDPLAN_CHECKED __attribute__((warn_unused_result))
#else
#define STANDPLAN_CHECKED
#endif

/* The number of the refusal that a call returned; 0 if it was none. */
static inline uint32_t standplan_refused(uint32_t verdict) {
    return verdict >= STANDPLAN_REFUSED ? verdict - STANDPLAN_REFUSED : 0;
}

/* What a call returned, as a sentence; for a refusal, that of docs/REFUSALS.md. Never null. */
static inline const char *standplan_sentence(uint32_t verdict) {
    switch (standplan_refused(verdict)) {
    case 0: return "not refused";
    case STANDPLAN_TRUNCATED: return "the bytes end before a field is complete";
    case STANDPLAN_STEP_COUNT: return "N is 0 or above 64";
    case STANDPLAN_RECORD_COUNT: return "R is above 512";
    case STANDPLAN_BAD_MAP: return "a map that is not allowed or has an unknown bit";
    case STANDPLAN_BAD_PAIR: return "i or j is N or more, or i = j";
    case STANDPLAN_BAD_ORDER: return "the pair does not rise, or, in parts to be written, comes twice";
    case STANDPLAN_TRAILING: return "bytes follow the last record";
    case STANDPLAN_CIRCLE: return "forward links close a circle";
    case STANDPLAN_UNREACHED: return "retired: no sheet is refused so";
    case STANDPLAN_NEVER_KEPT: return "with each open step at its least, no start times keep every link";
    case STANDPLAN_NOT_ALWAYS_KEPT: return "for some list of durations no start times keep every link";
    case STANDPLAN_WAITS_NEEDED: return "waits are needed and the caller did not allow them";
    case STANDPLAN_BAD_DURATION: return "a duration is above 16,777,215 or below its step's least duration, or is not 0 and belongs to step 0 or to a fixed step";
    case STANDPLAN_TOO_SHORT: return "a lent table, list or buffer is too short";
    case STANDPLAN_NOT_BEGUN: return "no run has begun, or the state's step count is not 1 to 64";
    case STANDPLAN_HAS_BEGUN: return "Begin on a run that has begun";
    case STANDPLAN_CANNOT_FINISH: return "Finish of a step that is not open, is 0, has not started, or has finished";
    case STANDPLAN_CLOCK_END: return "Tick when the tick is 4,294,967,295";
    case STANDPLAN_LARGE_OFFSET: return "a largest offset is 1,024 or more";
    case STANDPLAN_TOO_EARLY: return "Finish at a tick below its start tick plus its least duration";
    case STANDPLAN_LIMIT_WITHOUT_AFTER: return "a link map with bit 4, at most from the finish, and without bit 0, after";
    case STANDPLAN_WAITS_CLASH: return "the waits close a circle of forward links, or leave no start times with each open step at its least";
    case STANDPLAN_NOT_IMPOSSIBLE: return "the sheet is not refused as 10 or 11";
    default: return "a number that no call returns";
    }
}

/* Judges a sheet. allow_waits says whether waits are allowed. Refusals 1 to 8, 10 to 12, 26 and 28. */
STANDPLAN_CHECKED uint32_t standplan_judge(const uint8_t *sheet, size_t sheet_len, bool allow_waits);

/* Lists the waits of a sheet: step i waits for step a where bit a of maps[i] stands; *count is their number. All 64 maps are written.
 * On a refusal, 1 to 8, 10, 11, 26 or 28, maps and count stay as lent. Refusal 12 is never given: whoever asks for waits allows them. */
STANDPLAN_CHECKED uint32_t standplan_waits(const uint8_t *sheet, size_t sheet_len, uint64_t maps[64], uint32_t *count);

/* Plans a sheet of N steps: the first N * N numbers of the table become its plan, row by row, and the rest stays as lent.
 * On a refusal, 1 to 8, 10 to 12, 26, 28 or 14 (fewer than N * N numbers are lent), all stay as lent. */
STANDPLAN_CHECKED uint32_t standplan_plan(const uint8_t *sheet, size_t sheet_len, bool allow_waits, uint32_t *table, size_t table_len);

/* Works out the start times of a sheet of N steps for a list of durations: the first N numbers of out become the starts, and the rest stays as lent.
 * On a refusal, 1 to 8, 10 to 12, 26, 28, 13 (a duration that the list may not have, one below its step's least among them) or 14 (list or out is shorter than N), all stay as lent. */
STANDPLAN_CHECKED uint32_t standplan_starts(const uint8_t *sheet, size_t sheet_len, bool allow_waits, const uint32_t *list, size_t list_len, uint32_t *out, size_t out_len);

/* What a run of a sheet of N steps is begun with: *n becomes N, *open the map of its open steps, step 0 among them, and the first N numbers of leasts the least
 * durations, 0 for a step without one; the rest stays as lent. A sheet that judging would refuse 8, 10 to 12 or 28 is answered too.
 * On a refusal, 1 to 7, 26 or 14 (fewer than N numbers are lent), all stay as lent. STANDPLAN_MAX_STEPS numbers are enough for any sheet. */
STANDPLAN_CHECKED uint32_t standplan_steps(const uint8_t *sheet, size_t sheet_len, size_t *n, uint64_t *open, uint16_t *leasts, size_t leasts_len);

/* The few records that clash (request L14), of a sheet that judging refuses as 10 or 11: from the last link record to the first each one is dropped whose loss leaves the sheet
 * still refused as 10 or 11. What stays is itself refused so, and without any one of its records it is not. Its record numbers, counted from 0, rising, are
 * written to the front of numbers, and *count becomes how many they are; the rest stays as lent. Returns 0.
 * On a refusal, 1 to 8, 26, 31 (the sheet is not refused as 10 or 11) or 14 (the list is shorter than the report), numbers and count stay as lent.
 * STANDPLAN_MAX_RECORDS numbers are enough for any sheet. */
STANDPLAN_CHECKED uint32_t standplan_clashes(const uint8_t *sheet, size_t sheet_len, uint32_t *numbers, size_t numbers_len, size_t *count);

/* Prices the control box of a sheet of N steps (request L5): the first N numbers of registers become the registers of each step, those that the printed table has
 * for the largest offset at which it stands in the plan, 0 for a fixed step; the first N numbers of comparisons the members of each step's deciding set; totals
 * the two sums, in the places below. The rest stays as lent. Returns the verdict, 0 or 1.
 * On a refusal, 1 to 8, 10 to 12, 26, 28, 19 (a largest offset is 1,024 or more) or 14 (a list is shorter than N), all stay as lent.
 * STANDPLAN_MAX_STEPS numbers are enough for any sheet. */
STANDPLAN_CHECKED uint32_t standplan_price(const uint8_t *sheet, size_t sheet_len, bool allow_waits, uint32_t *registers, size_t registers_len, uint32_t *comparisons, size_t comparisons_len, uint32_t totals[2]);

/* The places in totals. */
enum { STANDPLAN_REGISTERS, STANDPLAN_COMPARISONS };

/* Writes a sheet (request L4): its bytes, from its steps and link records. The parts are numbers of 16 bits here; programs in C call standplan_write_sheet,
 * below, which takes them as structs. steps has two numbers for each of the n steps, its map and its ticks; records seven for each of the r link records: its
 * map, i, j, at least, at most, the gap, at most from the finish. The maps are those of docs/FORMAT.md; a field whose bit does not stand is not looked at.
 * Records come in any order and are written rising. A fixed duration of 0 is left out, any other field is kept, 0 or not.
 * The bytes become the first ones of buffer, and *length how many they are; the rest stays as lent. Returns 0.
 * On a refusal buffer and length stay as lent. Each is judged over all the parts, in this order: 2; 3; 4 (a map of a step that is not allowed, that of step 0 is
 * 1; a record with no link, or a gap without after); 26; 5; 6 (a pair comes twice); 14 (the buffer is shorter than the sheet, or there are fewer steps or
 * records than n or r; what is there is judged before). STANDPLAN_MAX_SHEET bytes are enough for any sheet. */
STANDPLAN_CHECKED uint32_t standplan_write(size_t n, const uint16_t *steps, size_t steps_len, size_t r, const uint16_t *records, size_t records_len, uint8_t *buffer, size_t buffer_len, size_t *length);

/* A step and a link record, each as the numbers that standplan_write takes, in their order. They are made by the functions below: these set the bits of a map. */
typedef struct standplan_step {
    uint16_t map, ticks;
} standplan_step;

typedef struct standplan_link {
    uint16_t map, i, j, at_least, at_most, gap, at_most_from_finish;
} standplan_link;

/* An array of them is an array of numbers. */
enum { STANDPLAN_STEP_NUMBERS = 2, STANDPLAN_LINK_NUMBERS = 7 };
#if defined(__cplusplus) && __cplusplus >= 201103L
static_assert(sizeof(standplan_step) == STANDPLAN_STEP_NUMBERS * sizeof(uint16_t), "a step is its numbers");
static_assert(sizeof(standplan_link) == STANDPLAN_LINK_NUMBERS * sizeof(uint16_t), "a link is its numbers");
#elif defined(__STDC_VERSION__) && __STDC_VERSION__ >= 201112L
_Static_assert(sizeof(standplan_step) == STANDPLAN_STEP_NUMBERS * sizeof(uint16_t), "a step is its numbers");
_Static_assert(sizeof(standplan_link) == STANDPLAN_LINK_NUMBERS * sizeof(uint16_t), "a link is its numbers");
#endif

/* A map that no step and no link has: for ticks that 16 bits do not hold, so that nothing is cut off; writing is refused 4. */
#define STANDPLAN_NO_MAP UINT16_C(65535)

/* A step of a map, with its ticks. */
static inline standplan_step standplan_step_of(uint16_t map, uint64_t ticks) {
    standplan_step step;
    step.map = ticks <= UINT16_MAX ? map : STANDPLAN_NO_MAP;
    step.ticks = (uint16_t)ticks;
    return step;
}

/* A step that is open; step 0 is one. */
STANDPLAN_CHECKED static inline standplan_step standplan_step_open(void) {
    return standplan_step_of(1, 0);
}

/* An open step that lasts at least so many ticks, 0 to 65,535. */
STANDPLAN_CHECKED static inline standplan_step standplan_step_open_least(uint64_t ticks) {
    return standplan_step_of(5, ticks);
}

/* A step that lasts so many ticks, 0 to 65,535. */
STANDPLAN_CHECKED static inline standplan_step standplan_step_fixed(uint64_t ticks) {
    return standplan_step_of(2, ticks);
}

/* A record for the pair (i, j), as yet with no link: the functions below add one each, and return it. A number above 255 is 255, which is no step. */
STANDPLAN_CHECKED static inline standplan_link standplan_link_pair(size_t i, size_t j) {
    standplan_link link;
    link.map = 0;
    link.i = (uint16_t)(i < 255 ? i : 255);
    link.j = (uint16_t)(j < 255 ? j : 255);
    link.at_least = link.at_most = link.gap = link.at_most_from_finish = 0;
    return link;
}

/* The map of a link with one more bit, for a field of so many ticks. */
static inline uint16_t standplan_link_map(uint16_t map, uint16_t bit, uint64_t ticks) {
    return ticks <= UINT16_MAX ? (uint16_t)(map | bit) : STANDPLAN_NO_MAP;
}

/* j starts after i ends. */
STANDPLAN_CHECKED static inline standplan_link standplan_link_after(standplan_link link) {
    link.map = standplan_link_map(link.map, 1, 0);
    return link;
}

/* The after link has a gap: j starts at least so many ticks, 0 to 65,535, after i ends. Without an after link writing is refused 4. */
STANDPLAN_CHECKED static inline standplan_link standplan_link_gap(standplan_link link, uint64_t ticks) {
    link.map = standplan_link_map(link.map, 8, ticks);
    link.gap = (uint16_t)ticks;
    return link;
}

/* j starts at least so many ticks, 0 to 65,535, after i starts. */
STANDPLAN_CHECKED static inline standplan_link standplan_link_at_least(standplan_link link, uint64_t ticks) {
    link.map = standplan_link_map(link.map, 2, ticks);
    link.at_least = (uint16_t)ticks;
    return link;
}

/* j starts at most so many ticks, 0 to 65,535, after i starts. */
STANDPLAN_CHECKED static inline standplan_link standplan_link_at_most(standplan_link link, uint64_t ticks) {
    link.map = standplan_link_map(link.map, 4, ticks);
    link.at_most = (uint16_t)ticks;
    return link;
}

/* j starts at most so many ticks, 0 to 65,535, after i ends. Without an after link writing is refused 26. */
STANDPLAN_CHECKED static inline standplan_link standplan_link_at_most_from_finish(standplan_link link, uint64_t ticks) {
    link.map = standplan_link_map(link.map, 16, ticks);
    link.at_most_from_finish = (uint16_t)ticks;
    return link;
}

/* Writes the sheet of n steps and r links to the front of buffer; *length becomes how many bytes it has. Refusals 2, 3, 4, 26, 5, 6 (a pair comes twice) and 14
 * (the buffer is too short), in this order, as standplan_write gives them; then buffer and length stay as lent. steps may be null where n is 0, and links where
 * r is 0. */
STANDPLAN_CHECKED static inline uint32_t standplan_write_sheet(const standplan_step *steps, size_t n, const standplan_link *links, size_t r, uint8_t *buffer, size_t buffer_len, size_t *length) {
    /* In the place of no step and no link: what is lent is not null. More than there can be are refused by their count, and none is lent, so that no length wraps. */
    const uint16_t none = 0;
    const size_t steps_lent = n <= STANDPLAN_MAX_STEPS ? n : 0, links_lent = r <= STANDPLAN_MAX_RECORDS ? r : 0;
    return standplan_write(n, steps_lent > 0 ? &steps->map : &none, STANDPLAN_STEP_NUMBERS * steps_lent, r, links_lent > 0 ? &links->map : &none, STANDPLAN_LINK_NUMBERS * links_lent, buffer, buffer_len, length);
}

/* The runner. Its state is held by the caller, in memory of fixed size.
 * words: the step count, the map of open steps, the map of steps that have started, the map of those that have finished.
 * start and finish: the tick at which each step started and finished. least: the least duration of each step.
 * All zeros is the state of no run; any other state is answered too. */
typedef struct standplan_run {
    uint64_t words[4];
    uint32_t tick;
    uint32_t start[64];
    uint32_t finish[64];
    uint16_t least[64];
} standplan_run;

/* The places in words. */
enum { STANDPLAN_STEPS, STANDPLAN_OPEN, STANDPLAN_STARTED, STANDPLAN_FINISHED };

/* n, open and leasts are what standplan_steps gives of the sheet, table is its plan, as lent at each call. A call returns 0 and puts the map of the steps that it
 * started into *map, or returns 256 + k, a refusal: then *map and the state stay as lent.
 * The state in parts: for those who hold it otherwise than as a standplan_run. */
STANDPLAN_CHECKED uint32_t standplan_begin(uint64_t words[4], uint32_t *tick, uint32_t start[64], uint32_t finish[64], uint16_t least[64], uint64_t *map, size_t n, uint64_t open, const uint16_t *leasts, size_t leasts_len, const uint32_t *table, size_t table_len);
STANDPLAN_CHECKED uint32_t standplan_tick(uint64_t words[4], uint32_t *tick, uint32_t start[64], uint32_t finish[64], uint16_t least[64], uint64_t *map, const uint32_t *table, size_t table_len);
STANDPLAN_CHECKED uint32_t standplan_finish(uint64_t words[4], uint32_t *tick, uint32_t start[64], uint32_t finish[64], uint16_t least[64], uint64_t *map, size_t s, const uint32_t *table, size_t table_len);

/* Begins a run of n steps with the map of the open ones and the first n of the least durations; the state's least is 0 past them.
 * Refusals 16 (a run has begun), 2 (n is not 1 to 64), 14 (the table has fewer than n * n numbers, or leasts fewer than n). */
STANDPLAN_CHECKED static inline uint32_t standplan_run_begin(standplan_run *run, size_t n, uint64_t open, const uint16_t *leasts, size_t leasts_len, const uint32_t *table, size_t table_len, uint64_t *map) {
    return standplan_begin(run->words, &run->tick, run->start, run->finish, run->least, map, n, open, leasts, leasts_len, table, table_len);
}

/* The tick grows by one. Refusals 15 (no run has begun), 14, 18 (the clock's end). */
STANDPLAN_CHECKED static inline uint32_t standplan_run_tick(standplan_run *run, const uint32_t *table, size_t table_len, uint64_t *map) {
    return standplan_tick(run->words, &run->tick, run->start, run->finish, run->least, map, table, table_len);
}

/* Open step s ends at this tick. Refusals 15, 14, 17 (s cannot finish now), 20 (it has not lasted its least duration). */
STANDPLAN_CHECKED static inline uint32_t standplan_run_finish(standplan_run *run, size_t s, const uint32_t *table, size_t table_len, uint64_t *map) {
    return standplan_finish(run->words, &run->tick, run->start, run->finish, run->least, map, s, table, table_len);
}

#ifdef __cplusplus
}
#endif

#endif
