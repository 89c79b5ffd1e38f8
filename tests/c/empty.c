/*
 * Lends every call each of its buffers empty, the others being as the call
 * asks: a pointer that is not NULL, and 0 bytes. Each call is held to its
 * answer, and to every byte of all buffers and around them: an empty list of
 * cells is accepted and anything else refused, and no byte changes.
 */
#define _DEFAULT_SOURCE
#include "calls.h"
#include "check.h"

#include <sys/mman.h>

#define MOST_BUFFERS 6
#define MOST_BYTES 128
#define GUARD 64

/* A call's buffers: what each holds, or NULL where the call is to write it, and
 * what the call answers when it is empty. */
static struct {
    const char *name;
    const void *holds;
    size_t bytes;
    uint32_t empty;
} buffers[MOST_BUFFERS];
static size_t count;

/* Their memory, each between two guards and at an even address, and how they are lent. */
static uint8_t memory[MOST_BUFFERS][GUARD + MOST_BYTES + GUARD] __attribute__((aligned(2)));
static struct lent lent[MOST_BUFFERS];

/* A page that may be neither read nor written. */
static uint8_t *forbidden;

static void lend(const char *name, const void *holds, size_t bytes, uint32_t empty)
{
    buffers[count].name = name;
    buffers[count].holds = holds;
    buffers[count].bytes = bytes;
    buffers[count].empty = empty;
    count++;
}

static void lend_table(const uint8_t *limits)
{
    lend("shape", square, sizeof square, GRADES_REFUSED_SHAPE);
    lend("lower", limits, CELLS, GRADES_REFUSED_BUFFER);
    lend("upper", limits, CELLS, GRADES_REFUSED_BUFFER);
}

static void prepare(void)
{
    size_t i;

    memset(memory, FILL, sizeof memory);
    for (i = 0; i < count; i++) {
        lent[i].at = memory[i] + GUARD;
        lent[i].bytes = buffers[i].bytes;
        if (buffers[i].holds != NULL)
            memcpy(lent[i].at, buffers[i].holds, buffers[i].bytes);
    }
}

/* Buffer i empty: where it was, or at a place of its own. */
static void expect_empty(const char *call_name, lent_call *call, size_t i, uint8_t *place)
{
    static uint8_t before[sizeof memory];
    char name[64];

    sprintf(name, "%s, %s empty", call_name, buffers[i].name);
    prepare();
    lent[i].bytes = 0;
    if (place != NULL)
        lent[i].at = place;
    memcpy(before, memory, sizeof memory);
    check_answer(name, call(lent), buffers[i].empty);
    check(memcmp(memory, before, sizeof memory) == 0, name, "a byte changed");
}

/* A call with none of the buffers empty, and then with each of them. */
static void expect_each(const char *name, lent_call *call, uint32_t accepted)
{
    size_t i;

    prepare();
    check_answer(name, call(lent), accepted);
    for (i = 0; i < count; i++) {
        const uint8_t *end = lent[i].at + lent[i].bytes;
        check(all_filled(memory[i], lent[i].at), name, "a byte before a buffer changed");
        check(all_filled(end, memory[i] + sizeof memory[i]), name, "a byte after a buffer changed");
    }
    for (i = 0; i < count; i++) {
        expect_empty(name, call, i, NULL);
        expect_empty(name, call, i, forbidden);
    }
    count = 0;
}

static void reading(void)
{
    lend("file", file_of_e, sizeof file_of_e, GRADES_REFUSED_FILE_LENGTH);
    lend("shape", NULL, GRADES_SHAPE_BYTES, GRADES_REFUSED_BUFFER);
    lend("lower", NULL, CELLS, GRADES_REFUSED_BUFFER);
    lend("upper", NULL, CELLS, GRADES_REFUSED_BUFFER);
    expect_each("read", read_lent, 0);
}

static void converting(const char *name, lent_call *call, const void *file)
{
    lend("file", file, sizeof file_of_e, GRADES_REFUSED_FILE_LENGTH);
    lend("out", NULL, sizeof file_of_e, GRADES_REFUSED_BUFFER);
    expect_each(name, call, 0);
}

static void joining_first(const char *name, lent_call *call, const uint8_t *table)
{
    lend_table(table);
    lend("out_lower", NULL, CELLS, GRADES_REFUSED_BUFFER);
    lend("out_upper", NULL, CELLS, GRADES_REFUSED_BUFFER);
    expect_each(name, call, 0);
}

static void joining_second(const char *name, lent_call *call, const uint8_t *table)
{
    lend_table(table);
    lend("g", of_first, CELLS, GRADES_REFUSED_BUFFER);
    lend("out_lower", NULL, CELLS, GRADES_REFUSED_BUFFER);
    lend("out_upper", NULL, CELLS, GRADES_REFUSED_BUFFER);
    expect_each(name, call, 0);
}

/* Compiling and a forecast, alike but for what they write. E has 7 records under all settings. */
static void compiling(const char *name, lent_call *call, const char *written, size_t bytes)
{
    lend_table(odd);
    lend("work", NULL, GRADES_COMPILE_WORK_BYTES(CELLS), GRADES_REFUSED_BUFFER);
    lend(written, NULL, bytes, GRADES_REFUSED_BUFFER);
    expect_each(name, call, 7);
}

/* No network asks for no work, so that an empty one is refused for itself. */
static void checking(void)
{
    lend("network", parity, parity_bytes, GRADES_REFUSED_NETWORK);
    lend_table(odd);
    lend("work", NULL, GRADES_RUN_WORK_BYTES(parity_bytes), GRADES_REFUSED_BUFFER);
    expect_each("check", check_lent, 0);
}

static void evaluating(void)
{
    cell_number = 1;
    lend("network", parity, parity_bytes, GRADES_EVALUATE_REFUSED_NETWORK);
    lend("shape", square, sizeof square, GRADES_EVALUATE_REFUSED_SHAPE);
    lend("work", NULL, GRADES_RUN_WORK_BYTES(parity_bytes), GRADES_EVALUATE_REFUSED_BUFFER);
    expect_each("evaluate", evaluate_lent, 1);
}

static void evaluating_each(void)
{
    static const uint16_t numbers[] = {3, CELLS, 1};

    lend("network", parity, parity_bytes, GRADES_REFUSED_NETWORK);
    lend("shape", square, sizeof square, GRADES_REFUSED_SHAPE);
    lend("cells", numbers, sizeof numbers, 0);
    lend("grades", NULL, sizeof numbers / sizeof numbers[0], GRADES_REFUSED_BUFFER);
    lend("work", NULL, GRADES_RUN_WORK_BYTES(parity_bytes), GRADES_REFUSED_BUFFER);
    expect_each("evaluate_each", evaluate_each_lent, 0);
}

int main(void)
{
    void *page = mmap(NULL, 1, PROT_NONE, MAP_PRIVATE | MAP_ANONYMOUS, -1, 0);

    if (page == MAP_FAILED) {
        perror("c: empty");
        return 1;
    }
    forbidden = page;
    reading();
    converting("to_sets", to_sets_lent, file_of_e);
    converting("from_sets", from_sets_lent, sets_of_e);
    joining_first("join_max_first", join_max_first_lent, either);
    joining_first("join_min_first", join_min_first_lent, both);
    joining_second("join_max_second", join_max_second_lent, either);
    joining_second("join_min_second", join_min_second_lent, both);
    compiling("compile", compile_lent, "network", GRADES_COMPILE_NETWORK_BYTES(CELLS));
    compiling("forecast", forecast_lent, "depth", GRADES_DEPTH_BYTES);
    for (settings = 0; settings < SETTINGS; settings++) {
        compiling("compile_with", compile_with_lent, "network",
                  GRADES_COMPILE_NETWORK_BYTES(CELLS));
        compiling("forecast_with", forecast_with_lent, "depth", GRADES_DEPTH_BYTES);
    }
    checking();
    evaluating();
    evaluating_each();
    return checked("empty");
}
