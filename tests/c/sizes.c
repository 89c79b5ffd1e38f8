/*
 * Holds the header's sizes to the library: the most of each thing is taken and
 * one more is refused; the bytes that a call asks for are enough, and one byte
 * less is refused.
 */
#include "depths.h"
#include "files.h"
#include "under.h"

/* A record more than a compiled network can have. */
static uint8_t network[GRADES_COMPILE_NETWORK_BYTES(MOST_CELLS) + RECORD];

static uint8_t work[GRADES_COMPILE_WORK_BYTES(MOST_CELLS)];

static uint8_t depth[GRADES_DEPTH_BYTES];

/* All cells, and the first number that has none. */
static uint16_t numbers[MOST_CELLS + 1];
static uint8_t grades[MOST_CELLS + 1];

/* A shape, by a network of one constant at a cell. */
static void expect_shape(const char *name, uint32_t cell, uint32_t wanted)
{
    memset(network, 0, RECORD);
    check_answer(name,
                 grades_evaluate(network, RECORD, shape, GRADES_SHAPE_BYTES, work,
                                 GRADES_RUN_WORK_BYTES(RECORD), cell),
                 wanted);
}

static void shapes(void)
{
    static const uint8_t most_values[9] = {GRADES_MAX_VALUES};
    static const uint8_t a_value_more[9] = {GRADES_MAX_VALUES + 1};
    static const uint8_t cells_1029[9] = {3, 7, 7, 7};

    make_shape(twos, GRADES_MAX_GRADES);
    check(shape[0] == GRADES_MAX_CONDITIONS, "the most conditions", "not as many as were listed");
    expect_shape("the most conditions", 0, 0);
    shape[0]++;
    expect_shape("a condition more", 0, GRADES_EVALUATE_REFUSED_SHAPE);
    make_shape(most_values, GRADES_MAX_GRADES);
    expect_shape("the most values", 0, 0);
    make_shape(a_value_more, GRADES_MAX_GRADES);
    expect_shape("a value more", 0, GRADES_EVALUATE_REFUSED_SHAPE);
    make_shape(twos, GRADES_MAX_GRADES + 1);
    expect_shape("a grade more", 0, GRADES_EVALUATE_REFUSED_SHAPE);
    make_shape(eights, GRADES_MAX_GRADES);
    expect_shape("the last of the most cells", MOST_CELLS - 1, 0);
    expect_shape("past the most cells", MOST_CELLS, GRADES_EVALUATE_REFUSED_CELL);
    /* No shape has from 1025 to 1028. */
    make_shape(cells_1029, GRADES_MAX_GRADES);
    expect_shape("more cells than the most", 0, GRADES_EVALUATE_REFUSED_SHAPE);
}

/* Reading: the longest file lists the most conditions and the most cells. */

static uint8_t read_shape[GRADES_SHAPE_BYTES], read_lower[MOST_CELLS], read_upper[MOST_CELLS];

static uint32_t read_file(size_t file_bytes, size_t shape_bytes, size_t limit_bytes)
{
    return grades_read(file, file_bytes, read_shape, shape_bytes, read_lower, limit_bytes,
                       read_upper, limit_bytes);
}

static void files(void)
{
    const char *name = "the longest file";
    const size_t bytes = GRADES_MAX_FILE_BYTES;

    make_shape(eight_and_twos, 2);
    make_parity();
    check(make_file() == bytes, name, "not of the most bytes");
    check(GRADES_MAX_FILE_RECORDS * RECORD == bytes, name, "not of the most records");
    check_answer(name, read_file(bytes, GRADES_SHAPE_BYTES, MOST_CELLS), 0);
    check(memcmp(read_shape, shape, sizeof shape) == 0, name, "another shape");
    check(memcmp(read_lower, lower, sizeof lower) == 0, name, "other lower limits");
    check(memcmp(read_upper, upper, sizeof upper) == 0, name, "other upper limits");
    check_answer("a byte less of shape", read_file(bytes, GRADES_SHAPE_BYTES - 1, MOST_CELLS),
                 GRADES_REFUSED_BUFFER);
    check_answer("a byte less of limits", read_file(bytes, GRADES_SHAPE_BYTES, MOST_CELLS - 1),
                 GRADES_REFUSED_BUFFER);
    check_answer("a record more", read_file(bytes + RECORD, GRADES_SHAPE_BYTES, MOST_CELLS),
                 GRADES_REFUSED_FILE_LENGTH);
}

/* Converting: the longest file, there and back. */

static uint8_t of_sets[GRADES_MAX_FILE_BYTES + RECORD], back[GRADES_MAX_FILE_BYTES];

static void conversions(void)
{
    const size_t bytes = GRADES_MAX_FILE_BYTES;
    const char *name = "the longest file to sets";
    uint32_t cell;

    /* Up to the greatest grade, from each grade in turn. */
    make_shape(eight_and_twos, GRADES_MAX_GRADES);
    for (cell = 0; cell < cells; cell++) {
        lower[cell] = (uint8_t)(cell % GRADES_MAX_GRADES);
        upper[cell] = GRADES_MAX_GRADES - 1;
    }
    check(make_file() == bytes, name, "not of the most bytes");
    check_answer("a byte less to write", grades_to_sets(file, bytes, of_sets, bytes - 1),
                 GRADES_REFUSED_BUFFER);
    check_answer("a record more", grades_to_sets(file, bytes + RECORD, of_sets, sizeof of_sets),
                 GRADES_REFUSED_FILE_LENGTH);
    check_answer(name, grades_to_sets(file, bytes, of_sets, bytes), 0);
    for (cell = 0; cell < cells; cell++) {
        const uint8_t *record = of_sets + (size_t)(GRADES_MAX_CONDITIONS + 1 + cell) * RECORD;
        check_answer(name, record[0], 4);
        check_answer(name, two_bytes(record + 2), 65536u - (1u << lower[cell]));
    }

    name = "the longest file of sets";
    check_answer("a byte less to write", grades_from_sets(of_sets, bytes, back, bytes - 1),
                 GRADES_REFUSED_BUFFER);
    check_answer("a record more", grades_from_sets(of_sets, bytes + RECORD, back, sizeof back),
                 GRADES_REFUSED_FILE_LENGTH);
    check_answer(name, grades_from_sets(of_sets, bytes, back, bytes), 0);
    check(memcmp(back, file, bytes) == 0, name, "another file than it was made from");
}

/* Compiling and a forecast under settings, checking and a list, with exactly the bytes that they
 * ask for. */

static unsigned settings;

static uint32_t compile(size_t work_bytes, size_t network_bytes)
{
    memset(network, FILL, sizeof network);
    return compile_under(settings, shape, sizeof shape, lower, cells, upper, cells, work,
                         work_bytes, network, network_bytes);
}

static uint32_t forecast(size_t work_bytes, size_t depth_bytes)
{
    return forecast_under(settings, shape, sizeof shape, lower, cells, upper, cells, work,
                          work_bytes, depth, depth_bytes);
}

static uint32_t check_network(size_t network_bytes, size_t work_bytes)
{
    return grades_check(network, network_bytes, shape, sizeof shape, lower, cells, upper, cells,
                        work, work_bytes);
}

static uint32_t evaluate_each(size_t network_bytes, size_t grades_bytes, size_t work_bytes)
{
    memset(grades, FILL, sizeof grades);
    return grades_evaluate_each(network, network_bytes, shape, sizeof shape, numbers,
                                (size_t)cells + 1, grades, grades_bytes, work, work_bytes);
}

/* The list of all cells and one number more, by a network of the table. */
static void expect_listed(size_t network_bytes)
{
    const size_t grades_bytes = (size_t)cells + 1;
    const size_t work_bytes = GRADES_RUN_WORK_BYTES(network_bytes);
    char name[32];
    uint32_t cell;

    sprintf(name, "a list of %u cells", (unsigned)cells);
    for (cell = 0; cell <= cells; cell++)
        numbers[cell] = (uint16_t)cell;
    check_answer(name, evaluate_each(network_bytes, grades_bytes - 1, work_bytes),
                 GRADES_REFUSED_BUFFER);
    check_answer(name, evaluate_each(network_bytes, grades_bytes, work_bytes - 1),
                 GRADES_REFUSED_BUFFER);
    check_answer(name, evaluate_each(network_bytes, grades_bytes, work_bytes), 0);
    check(memcmp(grades, lower, cells) == 0, name, "other grades than the table's");
    check(grades[cells] == GRADES_NO_CELL, name, "a grade of no cell");
}

/* Compiles and forecasts the parity of the shape's values, and answers the number of records. */
static uint32_t expect_compiled(void)
{
    const size_t work_bytes = GRADES_COMPILE_WORK_BYTES(cells);
    const size_t network_bytes = GRADES_COMPILE_NETWORK_BYTES(cells);
    size_t bytes;
    uint32_t records;
    char name[64];

    sprintf(name, "compile %u cells, settings %u", (unsigned)cells, settings);
    make_parity();
    check_answer(name, compile(work_bytes - 1, network_bytes), GRADES_REFUSED_BUFFER);
    check_answer(name, compile(work_bytes, network_bytes - 1), GRADES_REFUSED_BUFFER);
    records = compile(work_bytes, network_bytes);
    bytes = (size_t)records * RECORD;
    check(records >= 1 && bytes <= network_bytes, name, "a number of records out of range");
    if (bytes > network_bytes)
        return records;
    check(all_filled(network + bytes, network + sizeof network), name, "bytes past the records");
    check_answer(name, check_network(bytes, GRADES_RUN_WORK_BYTES(bytes)), 0);
    check_answer(name, check_network(bytes, GRADES_RUN_WORK_BYTES(bytes) - 1),
                 GRADES_REFUSED_BUFFER);
    expect_listed(bytes);
    sprintf(name, "forecast %u cells, settings %u", (unsigned)cells, settings);
    check_answer(name, forecast(work_bytes - 1, GRADES_DEPTH_BYTES), GRADES_REFUSED_BUFFER);
    check_answer(name, forecast(work_bytes, GRADES_DEPTH_BYTES - 1), GRADES_REFUSED_BUFFER);
    check_answer(name, forecast(work_bytes, GRADES_DEPTH_BYTES), records);
    check_answer(name, two_bytes(depth), depth_of_last(network, records));
    return records;
}

static void compiling(void)
{
    uint8_t values[9] = {0};
    size_t n;

    check(GRADES_COMPILE_NETWORK_BYTES(MOST_CELLS) == GRADES_MAX_COMPILED_RECORDS * RECORD,
          "the most records", "not those of the most cells");
    make_shape(eights, GRADES_MAX_GRADES);
    expect_compiled();
    make_shape(eight_and_twos, GRADES_MAX_GRADES);
    expect_compiled();

    /* Up to three conditions of every number of values. */
    make_shape(values, 2);
    check_answer("one cell", expect_compiled(), 1);
    for (values[0] = 2; values[0] <= GRADES_MAX_VALUES; values[0]++) {
        values[1] = values[2] = 0;
        make_shape(values, 2);
        expect_compiled();
        for (values[1] = 2; values[1] <= GRADES_MAX_VALUES; values[1]++) {
            values[2] = 0;
            make_shape(values, 2);
            expect_compiled();
            for (values[2] = 2; values[2] <= GRADES_MAX_VALUES; values[2]++) {
                make_shape(values, 2);
                expect_compiled();
            }
        }
    }

    /* The parity of conditions of two values needs all records that there can be. */
    for (n = 1; n <= GRADES_MAX_CONDITIONS; n++) {
        make_shape(twos + GRADES_MAX_CONDITIONS - n, 2);
        check_answer("parity", expect_compiled(), GRADES_COMPILE_NETWORK_BYTES(cells) / RECORD);
    }
}

/* A constant of the greatest grade, outside the limits of one cell. */
static void outside(void)
{
    const uint8_t grade = GRADES_MAX_GRADES - 1;
    uint32_t cell;

    make_shape(eights, GRADES_MAX_GRADES);
    memset(network, 0, RECORD);
    network[1] = network[CEILING] = grade;
    memset(lower, 0, sizeof lower);
    memset(upper, grade, sizeof upper);
    for (cell = 0; cell < MOST_CELLS; cell++) {
        uint32_t answer;
        upper[cell] = (uint8_t)(grade - 1);
        answer = check_network(RECORD, GRADES_RUN_WORK_BYTES(RECORD));
        check(answer != 0 && answer < GRADES_REFUSED, "outside", "not an answer for a cell");
        check_answer("the cell outside", GRADES_OUTSIDE_CELL(answer), cell);
        check_answer("its grade", GRADES_OUTSIDE_GRADE(answer), grade);
        upper[cell] = grade;
    }
}

int main(void)
{
    shapes();
    files();
    conversions();
    for (settings = 0; settings < SETTINGS; settings++)
        compiling();
    settings = NO_SETTINGS;
    compiling();
    outside();
    return checked("sizes");
}
