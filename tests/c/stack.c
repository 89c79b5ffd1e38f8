/*
 * Measures the stack that each call takes, and holds it to the header. A call
 * runs on a stack of its own that was filled with one byte; the lowest byte
 * that has changed shows how deep it went.
 */
#define _DEFAULT_SOURCE
#include "calls.h"
#include "files.h"

#include <ucontext.h>

/* The calls, and the most that each has taken so far. */
static struct {
    const char *name;
    lent_call *call;
    size_t bound;
    size_t most;
} calls[] = {
    {"read", read_lent, GRADES_READ_STACK_BYTES, 0},
    {"to_sets", to_sets_lent, GRADES_READ_STACK_BYTES, 0},
    {"from_sets", from_sets_lent, GRADES_READ_STACK_BYTES, 0},
    {"join_max_first", join_max_first_lent, GRADES_JOIN_STACK_BYTES, 0},
    {"join_max_second", join_max_second_lent, GRADES_JOIN_STACK_BYTES, 0},
    {"join_min_first", join_min_first_lent, GRADES_JOIN_STACK_BYTES, 0},
    {"join_min_second", join_min_second_lent, GRADES_JOIN_STACK_BYTES, 0},
    {"compile", compile_lent, GRADES_COMPILE_STACK_BYTES, 0},
    {"forecast", forecast_lent, GRADES_COMPILE_STACK_BYTES, 0},
    {"compile_with", compile_with_lent, GRADES_COMPILE_STACK_BYTES, 0},
    {"forecast_with", forecast_with_lent, GRADES_COMPILE_STACK_BYTES, 0},
    {"check", check_lent, GRADES_RUN_STACK_BYTES, 0},
    {"evaluate", evaluate_lent, GRADES_RUN_STACK_BYTES, 0},
    {"evaluate_each", evaluate_each_lent, GRADES_EACH_STACK_BYTES, 0},
};
enum {
    READ,
    TO_SETS,
    FROM_SETS,
    JOIN_MAX,
    JOIN_MIN = JOIN_MAX + 2,
    COMPILE = JOIN_MIN + 2,
    FORECAST,
    COMPILE_WITH,
    FORECAST_WITH,
    CHECK,
    EVALUATE,
    EVALUATE_EACH,
    CALLS
};

/* A call that changes the lowest quarter of the stack may have gone past it. */
#define SPARE 16384
static uint8_t stack[4 * SPARE];
static ucontext_t caller, callee;

/* What runs on the stack, its answer, and the frame that it was called from. */
static lent_call *chosen;
static const struct lent *chosen_lent;
static uint32_t answer;
static const uint8_t *frame;

static void run(void)
{
    frame = __builtin_frame_address(0);
    answer = chosen(chosen_lent);
}

/* The bytes from the frame of the caller down to the lowest that a call changed:
 * its arguments, its return address, and all that lies below. */
static size_t taken(lent_call *call, const struct lent *lent)
{
    const uint8_t *lowest = stack;

    chosen = call;
    chosen_lent = lent;
    memset(stack, FILL, sizeof stack);
    getcontext(&callee);
    callee.uc_stack.ss_sp = stack;
    callee.uc_stack.ss_size = sizeof stack;
    callee.uc_link = &caller;
    makecontext(&callee, run, 0);
    swapcontext(&caller, &callee);
    check(all_filled(stack, stack + SPARE), "the stack", "too small for the call");
    while (*lowest == FILL)
        lowest++;
    return (size_t)(frame - lowest);
}

static uint32_t take_1000(const struct lent *lent)
{
    volatile uint8_t bytes[1000];
    size_t i;

    (void)lent;
    for (i = 0; i < sizeof bytes; i++)
        bytes[i] = 0;
    return bytes[0];
}

/* The most that compiling and a forecast have taken under each of the settings. */
static size_t most_under[SETTINGS];

static void raise_to(size_t *most, size_t bytes)
{
    if (*most < bytes)
        *most = bytes;
}

/* Measures a call, and gives its answer. It runs once before, since the loader
 * takes stack of its own when it binds memset and memcpy. */
static uint32_t measure(size_t i, const struct lent *lent)
{
    size_t bytes;

    calls[i].call(lent);
    bytes = taken(calls[i].call, lent);
    check(bytes < calls[i].bound, calls[i].name, "more stack than the header says");
    raise_to(&calls[i].most, bytes);
    if (i == COMPILE_WITH || i == FORECAST_WITH)
        raise_to(&most_under[settings], bytes);
    return answer;
}

/* Deep ways through the calls. */

static uint8_t work[GRADES_COMPILE_WORK_BYTES(MOST_CELLS)];
static uint8_t network[GRADES_MAX_RECORDS * RECORD];
static uint8_t depth[GRADES_DEPTH_BYTES];
static uint16_t numbers[4 * MOST_CELLS];
static uint8_t grades[4 * MOST_CELLS];
static uint8_t read_shape[GRADES_SHAPE_BYTES];
static uint8_t of_sets[GRADES_MAX_FILE_BYTES], back[GRADES_MAX_FILE_BYTES];
static uint8_t first_lower[MOST_CELLS], first_upper[MOST_CELLS];
static uint8_t second_lower[MOST_CELLS], second_upper[MOST_CELLS];

#define WHOLE(buffer) buffer, sizeof buffer

/* The file that was made, to sets and back. */
static void converting(size_t file_bytes)
{
    struct lent there[] = {{WHOLE(file)}, {WHOLE(of_sets)}};
    struct lent again[] = {{WHOLE(of_sets)}, {WHOLE(back)}};

    there[0].bytes = again[0].bytes = file_bytes;
    check_answer("to_sets", measure(TO_SETS, there), 0);
    check_answer("from_sets", measure(FROM_SETS, again), 0);
    check(memcmp(back, file, file_bytes) == 0, "from_sets", "another file than it was made from");
    there[1].bytes = again[1].bytes = 0;
    check_answer("to_sets, no room", measure(TO_SETS, there), GRADES_REFUSED_BUFFER);
    check_answer("from_sets, no room", measure(FROM_SETS, again), GRADES_REFUSED_BUFFER);
}

static void reading(void)
{
    struct lent lent[] = {
        {WHOLE(file)}, {WHOLE(read_shape)}, {WHOLE(first_lower)}, {WHOLE(first_upper)}};

    lent[0].bytes = make_file();
    check_answer("read", measure(READ, lent), 0);
    lent[1].bytes = 0;
    check_answer("read, no shape", measure(READ, lent), GRADES_REFUSED_BUFFER);
    converting(lent[0].bytes);
}

/* Both calls of a gate, for several sets; g is the first block's lower limits.
 * Gives the number of joins that exist. */
static unsigned joining(size_t gate)
{
    static const uint8_t sets[][2] = {{1, 2}, {2, 5}, {3, 12}, {0x0f, 0xf0}, {0xaa, 0x55}};
    struct lent first[] = {
        {WHOLE(shape)}, {WHOLE(lower)}, {WHOLE(upper)}, {WHOLE(first_lower)}, {WHOLE(first_upper)}};
    struct lent second[] = {{WHOLE(shape)},       {WHOLE(lower)},        {WHOLE(upper)},
                            {WHOLE(first_lower)}, {WHOLE(second_lower)}, {WHOLE(second_upper)}};
    unsigned joins = 0;
    size_t i;

    for (i = 0; i < sizeof sets / sizeof sets[0]; i++) {
        uint32_t wanted;
        set_s = sets[i][0];
        set_t = sets[i][1];
        wanted = measure(gate, first);
        check_answer("the second block", measure(gate + 1, second), wanted);
        joins += wanted == 0;
    }
    return joins;
}

/* Whether a grade is within the limits of its cell, or a byte is that of a number with no cell. */
static int within(uint32_t number, uint32_t grade)
{
    if (number >= cells)
        return grade == GRADES_NO_CELL;
    return lower[number] <= grade && grade <= upper[number];
}

/* A network at a long list: all cells and numbers past them, each twice. */
static void listing(size_t network_bytes)
{
    struct lent lent[] = {{WHOLE(network)},
                          {WHOLE(shape)},
                          {(uint8_t *)numbers, sizeof numbers},
                          {WHOLE(grades)},
                          {WHOLE(work)}};
    uint32_t outside = 0;
    size_t at;

    lent[0].bytes = network_bytes;
    for (at = 0; at < sizeof grades; at++)
        numbers[at] = (uint16_t)(at % (2 * MOST_CELLS));
    check_answer("evaluate_each", measure(EVALUATE_EACH, lent), 0);
    for (at = 0; at < sizeof grades; at++)
        outside += !within(numbers[at], grades[at]);
    check_answer("outside the limits", outside, 0);
}

/* A network against the table's limits, at the last cell, and at a long list. */
static void running(size_t network_bytes)
{
    struct lent table[] = {
        {WHOLE(network)}, {WHOLE(shape)}, {WHOLE(lower)}, {WHOLE(upper)}, {WHOLE(work)}};
    struct lent cell[] = {{WHOLE(network)}, {WHOLE(shape)}, {WHOLE(work)}};
    uint32_t grade;

    table[0].bytes = cell[0].bytes = network_bytes;
    check_answer("check", measure(CHECK, table), 0);
    cell_number = cells - 1;
    grade = measure(EVALUATE, cell);
    check(within(cell_number, grade), "evaluate", "outside the limits");
    listing(network_bytes);
}

/* The table that was made, under all settings and without, and then its network. Gives the number
 * of records. */
static uint32_t compiling(void)
{
    struct lent to_compile[] = {
        {WHOLE(shape)}, {WHOLE(lower)}, {WHOLE(upper)}, {WHOLE(work)}, {WHOLE(network)}};
    struct lent to_forecast[] = {
        {WHOLE(shape)}, {WHOLE(lower)}, {WHOLE(upper)}, {WHOLE(work)}, {WHOLE(depth)}};
    uint32_t records;

    for (settings = 0; settings < SETTINGS; settings++) {
        records = measure(COMPILE_WITH, to_compile);
        check_answer("forecast_with", measure(FORECAST_WITH, to_forecast), records);
    }
    records = measure(COMPILE, to_compile);
    check_answer("forecast", measure(FORECAST, to_forecast), records);
    running((size_t)records * RECORD);
    return records;
}

static void parities(void)
{
    make_shape(twos, 2);
    make_parity();
    reading();
    check_answer("parity of twos", compiling(), 763);
    check_answer("parity of twos", joining(JOIN_MAX) + joining(JOIN_MIN), 0);
    make_shape(eight_and_twos, GRADES_MAX_GRADES);
    make_parity();
    reading();
    check_answer("parity of 1024 cells", compiling(), 3055);
}

/* The greatest and the least of the values of 1024 cells: every join by one gate exists. */
static void extremes(void)
{
    uint32_t cell;
    size_t i;

    make_shape(eight_and_twos, 8);
    for (cell = 0; cell < cells; cell++) {
        for (i = 0, lower[cell] = 0; i < shape[0]; i++)
            if (lower[cell] < value_at(cell, i))
                lower[cell] = value_at(cell, i);
        upper[cell] = lower[cell];
    }
    check_answer("the greatest", compiling(), 15);
    check_answer("the greatest by max", joining(JOIN_MAX), 5);
    joining(JOIN_MIN);
    for (cell = 0; cell < cells; cell++)
        lower[cell] = upper[cell] = (uint8_t)(7 - lower[cell]);
    check_answer("the least", compiling(), 15);
    check_answer("the least by min", joining(JOIN_MIN), 5);
    joining(JOIN_MAX);
}

/* Tables that a seed decides, in which stages drop, join and split at all depths. In shapes whose last
 * conditions have most values a split may take another than the lowest, by longer rows. */
static void mixtures(void)
{
    static const uint8_t shapes[][9] = {{8, 2, 2, 2, 2, 2, 2, 2},
                                        {2, 2, 2, 2, 2, 2, 3, 5},
                                        {2, 2, 2, 2, 2, 2, 4, 4},
                                        {2, 2, 2, 2, 2, 3, 3, 3}};
    uint32_t seed = 1, cell;
    unsigned table;

    for (table = 0; table < 64; table++) {
        uint8_t m = (uint8_t)(2 + table % 15);
        make_shape(table % 2 == 0 ? shapes[table / 2 % 4] : twos, m);
        for (cell = 0; cell < cells; cell++) {
            seed = seed * 1664525u + 1013904223u;
            lower[cell] = (uint8_t)((seed >> 24) % m);
            upper[cell] = lower[cell];
            if ((seed >> 16) % 8 < table % 8)
                upper[cell] = (uint8_t)(m - 1);
        }
        reading();
        compiling();
        joining(JOIN_MAX);
        joining(JOIN_MIN);
    }
}

/* The longest network: a constant, and gates that each name the record before. */
static void longest(void)
{
    size_t at;

    make_shape(eight_and_twos, 2);
    memset(lower, 0, sizeof lower);
    memset(upper, 1, sizeof upper);
    memset(network, 0, sizeof network);
    network[1] = network[CEILING] = 1;
    for (at = 1; at < GRADES_MAX_RECORDS; at++) {
        uint8_t *record = network + at * RECORD;
        record[0] = 2 + (at & 1);
        record[CEILING] = 1;
        record[4] = record[6] = (uint8_t)((at - 1) & 255);
        record[5] = record[7] = (uint8_t)((at - 1) >> 8);
    }
    running(sizeof network);
}

int main(void)
{
    size_t bytes = taken(take_1000, NULL), i;

    check(bytes >= 1000 && bytes < 1100, "a call that takes 1000 bytes", "measured otherwise");
    parities();
    extremes();
    mixtures();
    longest();
    printf("c: stack:");
    for (i = 0; i < CALLS; i++)
        printf(" %s %u%s", calls[i].name, (unsigned)calls[i].most,
               i + 1 < CALLS ? "," : " bytes\n");
    printf("c: stack: compile_with, forecast_with under settings 0 to 7:");
    for (i = 0; i < SETTINGS; i++)
        printf(" %u%s", (unsigned)most_under[i], i + 1 < SETTINGS ? "," : " bytes\n");
    return checked("stack");
}
