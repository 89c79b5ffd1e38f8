/*
 * The whole library, on tables of four cells, one of eight and some of one:
 * reads, converts, forecasts, compiles, checks and evaluates table E of
 * document 01, joins where it can be done, and asks each call for its refusals;
 * forecasts and compiles without settings, and under each byte of them. Each
 * call is held to its answer, and to every byte of the buffers that it may
 * write.
 */
#include "check.h"
#include "under.h"

/* Limits that no table has, and the grades of the second condition alone. */
static const uint8_t not_grades[CELLS] = {0, 0, 0, 2};
static const uint8_t of_second[CELLS] = {0, 0, 1, 1};

/* The shape of E with a grade more, and the sum of its two values. */
static const uint8_t three_grades[GRADES_SHAPE_BYTES] = {2, 2, 2, 0, 0, 0, 0, 0, 0, 3};
static const uint8_t sum[CELLS] = {0, 1, 1, 2};

/* Buffers to write: each is longer than a call asks for. */
static uint8_t shape[16], lower[16], upper[16], work[320], network[256], depth[16], grades[16];
static uint8_t out[128];

static void fill_buffers(void)
{
    memset(shape, FILL, sizeof shape);
    memset(lower, FILL, sizeof lower);
    memset(upper, FILL, sizeof upper);
    memset(work, FILL, sizeof work);
    memset(network, FILL, sizeof network);
    memset(depth, FILL, sizeof depth);
    memset(grades, FILL, sizeof grades);
    memset(out, FILL, sizeof out);
}

/* The bytes wanted stand at the front of a buffer, and nothing behind them has changed. */
static void check_front(const char *name, const uint8_t *buffer, size_t size, const void *wanted,
                        size_t bytes)
{
    check(memcmp(buffer, wanted, bytes) == 0, name, "other bytes written than wanted");
    check(all_filled(buffer + bytes, buffer + size), name, "bytes changed that must stay");
}

static void check_refused(const char *name, uint32_t answer, uint32_t wanted)
{
    check_answer(name, answer, wanted);
    check_front(name, shape, sizeof shape, "", 0);
    check_front(name, lower, sizeof lower, "", 0);
    check_front(name, upper, sizeof upper, "", 0);
    check_front(name, work, sizeof work, "", 0);
    check_front(name, network, sizeof network, "", 0);
    check_front(name, depth, sizeof depth, "", 0);
    check_front(name, grades, sizeof grades, "", 0);
    check_front(name, out, sizeof out, "", 0);
}

/* Reading. */

static uint32_t read_file(const void *file, size_t file_bytes, size_t shape_bytes,
                          size_t lower_bytes, size_t upper_bytes)
{
    fill_buffers();
    return grades_read(file, file_bytes, shape, shape_bytes, lower, lower_bytes, upper,
                       upper_bytes);
}

/* The file of E with another byte in a record. */
static void expect_damaged(const char *name, size_t record, size_t byte, uint8_t value,
                           uint32_t wanted)
{
    uint8_t file[7][RECORD];

    memcpy(file, file_of_e, sizeof file);
    file[record][byte] = value;
    check_refused(name, read_file(file, sizeof file, 10, CELLS, CELLS), wanted);
    check_refused(name, read_file(file, sizeof file, 0, 0, 0), wanted);
}

/* A cell that is not listed is 1 to m - 1; listed ones, of grade 0 too, are as listed. */
static void unlisted(void)
{
    const char *name = "E without its last cell";
    static const uint8_t four_grades[GRADES_SHAPE_BYTES] = {2, 2, 2, 0, 0, 0, 0, 0, 0, 4};
    static const uint8_t least[CELLS] = {0, 1, 1, 1}, most[CELLS] = {0, 1, 1, 3};
    uint8_t file[6][RECORD];

    check_answer(name, read_file(file_of_e, sizeof file, 10, CELLS, CELLS), 0);
    check_front(name, shape, sizeof shape, square, sizeof square);
    check_front(name, lower, sizeof lower, either, CELLS);
    check_front(name, upper, sizeof upper, either, CELLS);

    name = "the same of four grades";
    memcpy(file, file_of_e, sizeof file);
    file[2][1] = 4;
    check_answer(name, read_file(file, sizeof file, 10, CELLS, CELLS), 0);
    check_front(name, shape, sizeof shape, four_grades, sizeof four_grades);
    check_front(name, lower, sizeof lower, least, CELLS);
    check_front(name, upper, sizeof upper, most, CELLS);
}

static void reading(void)
{
    const char *name = "reading";
    size_t all = sizeof file_of_e;

    check_answer(name, read_file(file_of_e, all, 10, CELLS, CELLS), 0);
    check_front(name, shape, sizeof shape, square, sizeof square);
    check_front(name, lower, sizeof lower, odd, CELLS);
    check_front(name, upper, sizeof upper, odd, CELLS);

    unlisted();

    check_refused("a file one byte short", read_file(file_of_e, all - 1, 10, CELLS, CELLS),
                  GRADES_REFUSED_FILE_LENGTH);
    check_refused("no file, no buffers", read_file(file_of_e, 0, 0, 0, 0),
                  GRADES_REFUSED_FILE_LENGTH);
    expect_damaged("a record of kind 4", 3, 0, 4, GRADES_REFUSED_RECORD_BYTES);
    check_refused("conditions alone", read_file(file_of_e, 2 * RECORD, 10, CELLS, CELLS),
                  GRADES_REFUSED_RECORD_ORDER);
    expect_damaged("a condition of nine values", 1, 2, 9, GRADES_REFUSED_SHAPE);
    expect_damaged("an upper grade that is none", 6, 2, 2, GRADES_REFUSED_LIMITS);
    expect_damaged("a value that is none", 6, 9, 2, GRADES_REFUSED_CELL_VALUES);
    check_refused("nine bytes for the shape", read_file(file_of_e, all, 9, CELLS, CELLS),
                  GRADES_REFUSED_BUFFER);
    check_refused("three bytes for lower", read_file(file_of_e, all, 10, CELLS - 1, CELLS),
                  GRADES_REFUSED_BUFFER);
    check_refused("three bytes for upper", read_file(file_of_e, all, 10, CELLS, CELLS - 1),
                  GRADES_REFUSED_BUFFER);
}

/* Converting, from each of the two editions. */

struct edition {
    const char *name;
    uint32_t (*convert)(const uint8_t *, size_t, uint8_t *, size_t);
    const uint8_t (*file)[RECORD];
    const uint8_t (*converted)[RECORD];
};

static const struct edition from_limits = {"to_sets", grades_to_sets, file_of_e, sets_of_e};
static const struct edition from_sets = {"from_sets", grades_from_sets, sets_of_e, file_of_e};

static uint32_t convert(const struct edition *from, const void *file, size_t file_bytes,
                        size_t out_bytes)
{
    fill_buffers();
    return from->convert(file, file_bytes, out, out_bytes);
}

/* Into a buffer as long as asked, and into a longer one. */
static void expect_converted(const struct edition *from, const void *file, const void *wanted,
                             size_t bytes)
{
    check_answer(from->name, convert(from, file, bytes, bytes), 0);
    check_front(from->name, out, sizeof out, wanted, bytes);
    check_answer(from->name, convert(from, file, bytes, sizeof out), 0);
    check_front(from->name, out, sizeof out, wanted, bytes);
}

/* The file of E with other bytes in its last record, from one on. */
static void expect_unconverted(const struct edition *from, size_t byte, const char *bytes,
                               size_t count, uint32_t wanted)
{
    uint8_t file[7][RECORD];

    memcpy(file, from->file, sizeof file);
    memcpy(file[6] + byte, bytes, count);
    check_refused(from->name, convert(from, file, sizeof file, sizeof file), wanted);
    check_refused(from->name, convert(from, file, sizeof file, 0), wanted);
}

/* What the two editions have in common. */
static void converting(const struct edition *from)
{
    static const uint8_t nine_values[2][RECORD] = {{1, 0, 9}, {2, 2}};
    const char *name = from->name;
    size_t all = sizeof file_of_e;

    expect_converted(from, from->file, from->converted, all);
    expect_converted(from, from->file, from->file, 3 * RECORD);
    check_refused(name, convert(from, from->file, all - 1, all), GRADES_REFUSED_FILE_LENGTH);
    check_refused(name, convert(from, from->file, 0, 0), GRADES_REFUSED_FILE_LENGTH);
    check_refused(name, convert(from, from->converted, all, all), GRADES_REFUSED_RECORD_BYTES);
    check_refused(name, convert(from, from->file, 2 * RECORD, all), GRADES_REFUSED_RECORD_ORDER);
    check_refused(name, convert(from, nine_values, 2 * RECORD, all), GRADES_REFUSED_SHAPE);
    check_refused(name, convert(from, from->file, all, all - 1), GRADES_REFUSED_BUFFER);
    /* A kind that there is not; bytes that must be 0. */
    expect_unconverted(from, 0, "\5", 1, GRADES_REFUSED_RECORD_BYTES);
    expect_unconverted(from, 4, "\1", 1, GRADES_REFUSED_RECORD_BYTES);
    expect_unconverted(from, 7, "\1", 1, GRADES_REFUSED_RECORD_BYTES);
    expect_unconverted(from, 10, "\1", 1, GRADES_REFUSED_RECORD_BYTES);
    /* A value that is none; the cell before. */
    expect_unconverted(from, 9, "\2", 1, GRADES_REFUSED_CELL_VALUES);
    expect_unconverted(from, 8, "\0", 1, GRADES_REFUSED_CELL_VALUES);
}

/* What they do not: the byte that one names and the other does not, and grades that none can have,
 * alone and with a value that is none. */
static void converting_grades(void)
{
    expect_unconverted(&from_limits, 3, "\1", 1, GRADES_REFUSED_RECORD_BYTES);
    expect_unconverted(&from_limits, 1, "\1\0", 2, GRADES_REFUSED_LIMITS);
    expect_unconverted(&from_limits, 1, "\0\2", 2, GRADES_REFUSED_LIMITS);
    expect_unconverted(&from_limits, 1, "\0\2\0\0\0\0\0\1\2", 9, GRADES_REFUSED_CELL_VALUES);
    expect_unconverted(&from_sets, 1, "\1", 1, GRADES_REFUSED_RECORD_BYTES);
    expect_unconverted(&from_sets, 2, "\0", 1, GRADES_REFUSED_GRADE_SET);
    expect_unconverted(&from_sets, 2, "\4", 1, GRADES_REFUSED_GRADE_SET);
    expect_unconverted(&from_sets, 2, "\0\0\0\0\0\0\1\2", 8, GRADES_REFUSED_CELL_VALUES);
}

/* One cell of so many grades: its limits and its set; and sets that have none. */
static void converting_one_cell(void)
{
    static const uint8_t sound[][5] = {
        {16, 0, 0, 0x01, 0x00},  {16, 0, 7, 0xff, 0x00},   {16, 7, 8, 0x80, 0x01},
        {16, 8, 8, 0x00, 0x01},  {16, 5, 12, 0xe0, 0x1f},  {16, 1, 14, 0xfe, 0x7f},
        {16, 0, 15, 0xff, 0xff}, {16, 15, 15, 0x00, 0x80}, {9, 0, 8, 0xff, 0x01},
        {8, 0, 7, 0xff, 0x00},   {8, 7, 7, 0x80, 0x00},    {2, 0, 1, 0x03, 0x00},
    };
    static const uint8_t unsound[][3] = {
        {16, 0x00, 0x00}, {16, 0x05, 0x00}, {16, 0x80, 0x02}, {16, 0x01, 0x80}, {16, 0xff, 0xfe},
        {15, 0xff, 0xff}, {15, 0x00, 0x80}, {9, 0xff, 0x03},  {8, 0x80, 0x01},  {8, 0x00, 0x01},
    };
    size_t i;

    for (i = 0; i < sizeof sound / sizeof sound[0]; i++) {
        uint8_t file[2][RECORD] = {{2}, {3}}, of_sets[2][RECORD] = {{2}, {4}};
        file[0][1] = of_sets[0][1] = sound[i][0];
        memcpy(file[1] + 1, sound[i] + 1, 2);
        memcpy(of_sets[1] + 2, sound[i] + 3, 2);
        expect_converted(&from_limits, file, of_sets, sizeof file);
        expect_converted(&from_sets, of_sets, file, sizeof file);
    }
    for (i = 0; i < sizeof unsound / sizeof unsound[0]; i++) {
        uint8_t of_sets[2][RECORD] = {{2}, {4}};
        of_sets[0][1] = unsound[i][0];
        memcpy(of_sets[1] + 2, unsound[i] + 1, 2);
        check_refused("a set", convert(&from_sets, of_sets, sizeof of_sets, sizeof out),
                      GRADES_REFUSED_GRADE_SET);
    }
}

/* Joins: both calls of a gate, the first where g is NULL. */

struct join {
    const char *name;
    uint32_t (*first)(const uint8_t *, size_t, const uint8_t *, size_t, const uint8_t *, size_t,
                      uint8_t, uint8_t, uint8_t *, size_t, uint8_t *, size_t);
    uint32_t (*second)(const uint8_t *, size_t, const uint8_t *, size_t, const uint8_t *, size_t,
                       uint8_t, uint8_t, const uint8_t *, size_t, uint8_t *, size_t, uint8_t *,
                       size_t);
    /* A table that it joins at {0} and {1}. */
    const uint8_t *table;
};

static const struct join joins[2] = {
    {"max", grades_join_max_first, grades_join_max_second, either},
    {"min", grades_join_min_first, grades_join_min_second, both},
};

static uint32_t join(const struct join *gate, size_t shape_bytes, const uint8_t *low,
                     const uint8_t *high, uint8_t s, uint8_t t, const uint8_t *g, size_t out_bytes)
{
    fill_buffers();
    if (g == NULL)
        return gate->first(square, shape_bytes, low, CELLS, high, CELLS, s, t, lower, out_bytes,
                           upper, CELLS);
    return gate->second(square, shape_bytes, low, CELLS, high, CELLS, s, t, g, CELLS, lower,
                        out_bytes, upper, CELLS);
}

static void check_join(const struct join *gate, const uint8_t *g, const uint8_t *wanted)
{
    check_answer(gate->name, join(gate, 10, gate->table, gate->table, 1, 2, g, CELLS), 0);
    check_front(gate->name, lower, sizeof lower, wanted, CELLS);
    check_front(gate->name, upper, sizeof upper, wanted, CELLS);
}

static void joining(const struct join *gate)
{
    const uint8_t *table = gate->table;
    const uint8_t *blocks[2] = {NULL, of_first};
    size_t i;

    check_join(gate, NULL, of_first);
    check_join(gate, of_first, of_second);
    for (i = 0; i < 2; i++) {
        const uint8_t *g = blocks[i];
        check_refused(gate->name, join(gate, 9, table, table, 1, 2, g, CELLS),
                      GRADES_REFUSED_SHAPE);
        check_refused(gate->name, join(gate, 10, table, table, 1, 2, g, CELLS - 1),
                      GRADES_REFUSED_BUFFER);
        check_refused(gate->name, join(gate, 10, table, not_grades, 1, 2, g, CELLS),
                      GRADES_REFUSED_LIMITS);
        check_refused(gate->name, join(gate, 10, table, table, 1, 0, g, CELLS),
                      GRADES_REFUSED_SETS);
        check_refused(gate->name, join(gate, 10, table, table, 3, 2, g, CELLS),
                      GRADES_REFUSED_SETS);
        check_refused(gate->name, join(gate, 10, table, table, 1, 4, g, CELLS),
                      GRADES_REFUSED_SETS);
        check_refused(gate->name, join(gate, 10, odd, odd, 1, 2, g, CELLS), GRADES_REFUSED_NO_JOIN);
    }
    check_refused(gate->name, join(gate, 10, table, table, 1, 2, of_second, CELLS),
                  GRADES_REFUSED_FIRST_BLOCK);
}

/* Compiling and a forecast, under these settings. A forecast is lent no network. */

static unsigned settings;

typedef uint32_t grow(const uint8_t *of, size_t shape_bytes, const uint8_t *low, size_t low_bytes,
                      const uint8_t *high, size_t high_bytes, size_t work_bytes,
                      size_t written_bytes);

static uint32_t compile(const uint8_t *of, size_t shape_bytes, const uint8_t *low, size_t low_bytes,
                        const uint8_t *high, size_t high_bytes, size_t work_bytes,
                        size_t network_bytes)
{
    fill_buffers();
    return compile_under(settings, of, shape_bytes, low, low_bytes, high, high_bytes, work,
                         work_bytes, network, network_bytes);
}

static uint32_t forecast(const uint8_t *of, size_t shape_bytes, const uint8_t *low,
                         size_t low_bytes, const uint8_t *high, size_t high_bytes,
                         size_t work_bytes, size_t depth_bytes)
{
    fill_buffers();
    return forecast_under(settings, of, shape_bytes, low, low_bytes, high, high_bytes, work,
                          work_bytes, depth, depth_bytes);
}

/* The refusals of either, which asks for so many bytes to write. */
static void refusing(grow *call, size_t bytes)
{
    static const uint8_t one_value[GRADES_SHAPE_BYTES] = {2, 2, 1, 0, 0, 0, 0, 0, 0, 2};

    check_refused("nine bytes of shape", call(square, 9, odd, CELLS, odd, CELLS, 128, bytes),
                  GRADES_REFUSED_SHAPE);
    check_refused("a condition of one value",
                  call(one_value, 10, odd, CELLS, odd, CELLS, 128, bytes), GRADES_REFUSED_SHAPE);
    check_refused("three lower limits", call(square, 10, odd, CELLS - 1, odd, CELLS, 128, bytes),
                  GRADES_REFUSED_BUFFER);
    check_refused("three upper limits", call(square, 10, odd, CELLS, odd, CELLS - 1, 128, bytes),
                  GRADES_REFUSED_BUFFER);
    check_refused("a work byte too few", call(square, 10, odd, CELLS, odd, CELLS, 127, bytes),
                  GRADES_REFUSED_BUFFER);
    check_refused("a byte too few to write",
                  call(square, 10, odd, CELLS, odd, CELLS, 128, bytes - 1), GRADES_REFUSED_BUFFER);
    check_refused("limits in disorder", call(square, 10, either, CELLS, odd, CELLS, 128, bytes),
                  GRADES_REFUSED_LIMITS);
    check_refused("a limit that is no grade",
                  call(square, 10, both, CELLS, not_grades, CELLS, 128, bytes),
                  GRADES_REFUSED_LIMITS);
    /* Of two faults, the one that is tested for first. */
    check_refused("nine bytes of shape, no other bytes", call(square, 9, either, 0, odd, 0, 0, 0),
                  GRADES_REFUSED_SHAPE);
    check_refused("nine bytes of shape, limits in disorder",
                  call(square, 9, either, CELLS, odd, CELLS, 128, bytes), GRADES_REFUSED_SHAPE);
    check_refused("limits in disorder, three of them lower",
                  call(square, 10, either, CELLS - 1, odd, CELLS, 128, bytes),
                  GRADES_REFUSED_BUFFER);
    check_refused("limits in disorder, three of them upper",
                  call(square, 10, either, CELLS, odd, CELLS - 1, 128, bytes),
                  GRADES_REFUSED_BUFFER);
    check_refused("limits in disorder, a work byte too few",
                  call(square, 10, either, CELLS, odd, CELLS, 127, bytes), GRADES_REFUSED_BUFFER);
    check_refused("limits in disorder, a byte too few to write",
                  call(square, 10, either, CELLS, odd, CELLS, 128, bytes - 1),
                  GRADES_REFUSED_BUFFER);
}

/* Compiling, and what the network then is: E's is the same under all settings. */
static void compiling(void)
{
    static const uint16_t numbers[CELLS] = {0, 1, 2, 3};
    const char *name = "compiling";
    uint32_t cell;

    refusing(compile, parity_bytes);
    check_answer(name, compile(square, 10, odd, CELLS, odd, CELLS, 128, parity_bytes), 7);
    check_front(name, network, sizeof network, parity, parity_bytes);
    check(all_filled(work + 128, work + sizeof work), name, "work bytes changed that must stay");
    for (cell = 0; cell < CELLS; cell++)
        check_answer("a compiled grade",
                     grades_evaluate(network, parity_bytes, square, 10, work, 7, cell), odd[cell]);
    name = "compiled grades";
    check_answer(name,
                 grades_evaluate_each(network, parity_bytes, square, 10, numbers, CELLS, grades,
                                      CELLS, work, 7),
                 0);
    check_front(name, grades, sizeof grades, odd, CELLS);
}

/* Where no two sets join: the records of a weak join that has fewer than the
 * split, and of a split whose weak join has more; then no byte is written
 * behind the split's, though the weak join's would have reached there. */
static void compiling_weakly(void)
{
    static const uint8_t joined[5][RECORD] = {
        {1, 0, 2, 0, 0, 0, 0, 0, 0, 2}, {1, 1, 2, 0, 0, 0, 0, 0, 1, 2}, {2, 0, 2, 0, 0, 0, 1, 0},
        {1, 1, 1, 0, 0, 0, 0, 0, 0, 1}, {3, 0, 2, 0, 2, 0, 3, 0},
    };
    uint8_t split[7][RECORD];
    const char *name = "a weak join that is kept";

    check_answer(name, compile(three_grades, 10, sum, CELLS, sum, CELLS, 128, sizeof network), 5);
    check_front(name, network, sizeof network, joined, sizeof joined);

    /* As E's network, but for the literals that select a value: they have 2 for 1. The min gates
     * still have 1 as their ceiling, from their other records. */
    name = "a weak join that is not kept";
    memcpy(split, parity, sizeof split);
    split[0][8] = split[3][9] = 2;
    split[0][CEILING] = split[3][CEILING] = 2;
    check_answer(name, compile(three_grades, 10, odd, CELLS, odd, CELLS, 128, sizeof network), 7);
    check_front(name, network, sizeof network, split, sizeof split);
}

/* A table with one grade for each cell; in a depth buffer as long as asked, and in a longer one. */
static void expect_forecast(const char *name, const uint8_t *of, const uint8_t *table, size_t cells,
                            uint32_t records, uint8_t deepest)
{
    const uint8_t wanted[GRADES_DEPTH_BYTES] = {deepest, 0};
    const size_t work_bytes = GRADES_COMPILE_WORK_BYTES(cells);
    size_t depth_bytes;

    for (depth_bytes = sizeof wanted; depth_bytes <= sizeof depth;
         depth_bytes += sizeof depth - sizeof wanted) {
        check_answer(name, forecast(of, 10, table, cells, table, cells, work_bytes, depth_bytes),
                     records);
        check_front(name, depth, sizeof depth, wanted, sizeof wanted);
        check(all_filled(work + work_bytes, work + sizeof work), name,
              "work bytes changed that must stay");
        check(all_filled(network, network + sizeof network), name, "a network was written");
    }
}

static void forecasting(void)
{
    static const uint8_t cube[GRADES_SHAPE_BYTES] = {3, 2, 2, 2, 0, 0, 0, 0, 0, 2};
    static const uint8_t odd_of_three[8] = {0, 1, 1, 0, 1, 0, 0, 1};
    static const uint8_t always[CELLS] = {1, 1, 1, 1};
    const int weak_joins = (settings & GRADES_NO_WEAK_JOINS) == 0;

    refusing(forecast, GRADES_DEPTH_BYTES);
    expect_forecast("E", square, odd, CELLS, 7, 2);
    expect_forecast("parity of three", cube, odd_of_three, 8, 19, 4);
    expect_forecast("a max of two literals", square, either, CELLS, 3, 1);
    expect_forecast("a min of two literals", square, both, CELLS, 3, 1);
    expect_forecast("a literal", square, of_first, CELLS, 1, 0);
    expect_forecast("a constant", square, always, CELLS, 1, 0);
    expect_forecast("a weak join that is kept", three_grades, sum, CELLS, weak_joins ? 5 : 7, 2);
    expect_forecast("a weak join that is not kept", three_grades, odd, CELLS, 7, 2);
}

/* Both under each byte of settings, and last without. */
static void growing(void)
{
    for (settings = 0; settings <= NO_SETTINGS; settings++) {
        const unsigned before = failures;
        compiling();
        if ((settings & GRADES_NO_WEAK_JOINS) == 0)
            compiling_weakly();
        forecasting();
        if (failures != before)
            printf("c: panel: this was under settings %u; %u are none\n", settings, NO_SETTINGS);
    }
}

/* Checking E's network. */

static uint32_t check_table(size_t network_bytes, size_t shape_bytes, const uint8_t *limits,
                            size_t limit_bytes, size_t work_bytes)
{
    fill_buffers();
    return grades_check(parity[0], network_bytes, square, shape_bytes, limits, limit_bytes, limits,
                        limit_bytes, work, work_bytes);
}

/* The first records of a network, at the limits of E. */
static uint32_t check_first(uint8_t (*records)[RECORD], size_t count)
{
    fill_buffers();
    return grades_check(records[0], count * RECORD, square, 10, odd, CELLS, odd, CELLS, work, 7);
}

/* E's network with every other ceiling in one record, which is the last, and with none in all. */
static void other_ceilings(void)
{
    uint8_t other[7][RECORD];
    size_t record;
    unsigned more;

    memcpy(other, parity, sizeof other);
    for (record = 0; record < 7; record++) {
        for (more = 1; more < 256; more++) {
            other[record][CEILING]++;
            check_refused("another ceiling", check_first(other, record + 1),
                          GRADES_REFUSED_NETWORK);
        }
        other[record][CEILING]++;
    }
    check_answer("the same ceilings", check_first(other, 7), 0);
    for (record = 0; record < 7; record++)
        other[record][CEILING] = 0;
    check_refused("from before there were ceilings", check_first(other, 7), GRADES_REFUSED_NETWORK);
}

static void checking(void)
{
    check_answer("within", check_table(parity_bytes, 10, odd, CELLS, 7), 0);
    check(all_filled(work + 7, work + sizeof work), "within", "work bytes changed that must stay");
    check_answer("outside at cell 3", check_table(parity_bytes, 10, either, CELLS, 7),
                 1 + 16 * 3 + 0);
    check_answer("outside at cell 1", check_table(parity_bytes, 10, both, CELLS, 7),
                 1 + 16 * 1 + 1);

    check_refused("nine bytes of shape", check_table(parity_bytes, 9, odd, CELLS, 7),
                  GRADES_REFUSED_SHAPE);
    check_refused("three limits", check_table(parity_bytes, 10, odd, CELLS - 1, 7),
                  GRADES_REFUSED_BUFFER);
    check_refused("a work byte too few", check_table(parity_bytes, 10, odd, CELLS, 6),
                  GRADES_REFUSED_BUFFER);
    check_refused("a limit that is no grade", check_table(parity_bytes, 10, not_grades, CELLS, 7),
                  GRADES_REFUSED_LIMITS);
    check_refused("no record", check_table(0, 10, odd, CELLS, 7), GRADES_REFUSED_NETWORK);
    other_ceilings();
}

int main(void)
{
    reading();
    converting(&from_limits);
    converting(&from_sets);
    converting_grades();
    converting_one_cell();
    joining(&joins[0]);
    joining(&joins[1]);
    growing();
    checking();
    return checked("panel");
}
