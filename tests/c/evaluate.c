/*
 * Calls grades_evaluate on a sound network at all its cells, and once or more
 * for each refusal; each time grades_evaluate_each too, with that cell alone in
 * a list and with an empty list; and then the latter with longer lists. Each
 * call is held to its answer, and to what it may change.
 */
#include "check.h"

#define GUARD 64

/* One record more than a network may have. */
static uint8_t network[(GRADES_MAX_RECORDS + 1) * RECORD];

/* The work buffer, between two guards. */
static uint8_t around[GUARD + GRADES_MAX_RECORDS + 1 + GUARD];

/* The grades of a list, between two guards: at most two for each number there is. */
#define NUMBERS 65536
static uint8_t around_grades[GUARD + 2 * NUMBERS + GUARD];

/* By kind, the bytes that must be zero. */
static const char must_be_zero[4][RECORD + 1] = {
    "...0000000000000",
    "...00000........",
    ".0.0....00000000",
    ".0.0....00000000",
};

static void check_work(const char *name, size_t work_bytes, size_t written)
{
    const uint8_t *work = around + GUARD;

    check(all_filled(around, work), name, "bytes before the work buffer changed");
    check(all_filled(work + work_bytes, around + sizeof around), name,
          "bytes after the work buffer changed");
    check(all_filled(work + written, work + work_bytes), name,
          "bytes of the work buffer changed that must stay");
}

/* What grades_evaluate_each is lent, with the network. */
struct list {
    size_t network_bytes;
    const uint8_t *shape;
    size_t shape_bytes;
    const uint16_t *cells;
    size_t count, grades_bytes, work_bytes;
};

/* A list that gets these grades, or that is refused. */
static void expect_list(const char *name, const struct list *list, uint32_t wanted,
                        const uint8_t *wanted_grades)
{
    const size_t count = wanted == 0 ? list->count : 0;
    uint8_t *grades = around_grades + GUARD;
    uint32_t answer;

    memset(around, FILL, sizeof around);
    memset(around_grades, FILL, sizeof around_grades);
    answer = grades_evaluate_each(network, list->network_bytes, list->shape, list->shape_bytes,
                                  list->cells, list->count, grades, list->grades_bytes,
                                  around + GUARD, list->work_bytes);
    check_answer(name, answer, wanted);
    check_work(name, list->work_bytes, count > 0 ? GRADES_RUN_WORK_BYTES(list->network_bytes) : 0);
    check(all_filled(around_grades, grades), name, "bytes before the grades changed");
    check(memcmp(grades, wanted_grades, count) == 0, name, "other grades than wanted");
    check(all_filled(grades + count, around_grades + sizeof around_grades), name,
          "bytes past the grades changed");
}

/* Where grades_evaluate gives an answer for a cell: what a list with it is answered, and the byte
 * at its place. */
static uint32_t list_answer(uint32_t answer)
{
    if (answer < GRADES_EVALUATE_REFUSED || answer == GRADES_EVALUATE_REFUSED_CELL)
        return 0;
    return answer - GRADES_EVALUATE_REFUSED + GRADES_REFUSED;
}

static uint8_t list_byte(uint32_t answer)
{
    return (uint8_t)(answer < GRADES_EVALUATE_REFUSED ? answer : GRADES_NO_CELL);
}

/* A list of one cell, and the same call with an empty list, where grades_evaluate answers this. */
static void expect_alone(const char *cell_name, struct list list, uint32_t answer)
{
    const uint32_t wanted = list_answer(answer);
    const uint8_t byte = list_byte(answer);
    char name[96];

    sprintf(name, "%s, in a list", cell_name);
    expect_list(name, &list, wanted, &byte);
    list.count = list.grades_bytes = 0;
    sprintf(name, "%s, with an empty list", cell_name);
    expect_list(name, &list, wanted, &byte);
}

static void expect(const char *name, size_t network_bytes, const uint8_t *shape, size_t shape_bytes,
                   size_t work_bytes, uint32_t cell, uint32_t wanted)
{
    const size_t written =
        wanted < GRADES_EVALUATE_REFUSED ? GRADES_RUN_WORK_BYTES(network_bytes) : 0;
    const uint16_t number = (uint16_t)(cell < UINT16_MAX ? cell : UINT16_MAX);
    const struct list alone = {network_bytes, shape, shape_bytes, &number, 1, 1, work_bytes};

    memset(around, FILL, sizeof around);
    check_answer(name,
                 grades_evaluate(network, network_bytes, shape, shape_bytes, around + GUARD,
                                 work_bytes, cell),
                 wanted);
    check_work(name, work_bytes, written);
    expect_alone(name, alone, wanted);
}

static void lend_parity(void)
{
    memset(network, 0, sizeof network);
    memcpy(network, parity, sizeof parity);
}

/* The parity network with another byte in a record, at cell 0. */
static void expect_damaged(const char *name, size_t record, size_t byte, uint8_t value)
{
    lend_parity();
    network[record * RECORD + byte] = value;
    expect(name, parity_bytes, square, sizeof square, 7, 0, GRADES_EVALUATE_REFUSED_NETWORK);
}

static void expect_shape(const char *name, const uint8_t *shape, uint32_t cell, uint32_t wanted)
{
    expect(name, parity_bytes, shape, GRADES_SHAPE_BYTES, 7, cell, wanted);
}

static void grades(void)
{
    static const uint32_t wanted[4] = {0, 1, 1, 0};
    uint32_t cell;

    lend_parity();
    for (cell = 0; cell < 4; cell++) {
        expect("parity", parity_bytes, square, sizeof square, 7, cell, wanted[cell]);
        expect("parity, longer work", parity_bytes, square, sizeof square, 20, cell, wanted[cell]);
    }
}

static void shapes(void)
{
    static const uint8_t eleven[11] = {2, 2, 2, 0, 0, 0, 0, 0, 0, 2, 2};
    static const uint8_t nine_conditions[10] = {9, 2, 2, 2, 2, 2, 2, 2, 2, 2};
    static const uint8_t one_value[10] = {2, 2, 1, 0, 0, 0, 0, 0, 0, 2};
    static const uint8_t nine_values[10] = {2, 9, 2, 0, 0, 0, 0, 0, 0, 2};
    static const uint8_t past_the_last[10] = {2, 2, 2, 0, 0, 0, 0, 0, 2, 2};
    static const uint8_t one_grade[10] = {2, 2, 2, 0, 0, 0, 0, 0, 0, 1};
    static const uint8_t seventeen_grades[10] = {2, 2, 2, 0, 0, 0, 0, 0, 0, 17};
    static const uint8_t too_many_cells[10] = {4, 8, 8, 8, 3, 0, 0, 0, 0, 2};
    static const uint8_t most_cells[10] = {4, 8, 8, 8, 2, 0, 0, 0, 0, 2};
    static const uint8_t no_conditions[10] = {0, 0, 0, 0, 0, 0, 0, 0, 0, 16};

    lend_parity();
    expect("no shape bytes", parity_bytes, square, 0, 7, 0, GRADES_EVALUATE_REFUSED_SHAPE);
    expect("nine shape bytes", parity_bytes, square, 9, 7, 0, GRADES_EVALUATE_REFUSED_SHAPE);
    expect("eleven shape bytes", parity_bytes, eleven, 11, 7, 0, GRADES_EVALUATE_REFUSED_SHAPE);
    expect_shape("nine conditions", nine_conditions, 0, GRADES_EVALUATE_REFUSED_SHAPE);
    expect_shape("a condition of one value", one_value, 0, GRADES_EVALUATE_REFUSED_SHAPE);
    expect_shape("a condition of nine values", nine_values, 0, GRADES_EVALUATE_REFUSED_SHAPE);
    expect_shape("values past the last condition", past_the_last, 0, GRADES_EVALUATE_REFUSED_SHAPE);
    expect_shape("one grade", one_grade, 0, GRADES_EVALUATE_REFUSED_SHAPE);
    expect_shape("seventeen grades", seventeen_grades, 0, GRADES_EVALUATE_REFUSED_SHAPE);
    expect_shape("1536 cells", too_many_cells, 0, GRADES_EVALUATE_REFUSED_SHAPE);
    expect_shape("the first of 1024 cells", most_cells, 0, 0);
    expect_shape("the ninth of 1024 cells", most_cells, 8, 1);
    expect_shape("the last of 1024 cells", most_cells, 1023, 0);
    expect_shape("past 1024 cells", most_cells, 1024, GRADES_EVALUATE_REFUSED_CELL);

    memset(network, 0, RECORD);
    network[1] = network[CEILING] = 15;
    expect("one cell", RECORD, no_conditions, sizeof no_conditions, 1, 0, 15);
    expect("past one cell", RECORD, no_conditions, sizeof no_conditions, 1, 1,
           GRADES_EVALUATE_REFUSED_CELL);
}

static void works(void)
{
    lend_parity();
    expect("one work byte too few", parity_bytes, square, sizeof square, 6, 0,
           GRADES_EVALUATE_REFUSED_BUFFER);
    expect("no work bytes", parity_bytes, square, sizeof square, 0, 0,
           GRADES_EVALUATE_REFUSED_BUFFER);
    expect("seventeen bytes, no work bytes", 17, square, sizeof square, 0, 0,
           GRADES_EVALUATE_REFUSED_BUFFER);
}

static void lengths(void)
{
    size_t at;

    lend_parity();
    expect("no records", 0, square, sizeof square, 7, 0, GRADES_EVALUATE_REFUSED_NETWORK);
    expect("no records, no work bytes", 0, square, sizeof square, 0, 0,
           GRADES_EVALUATE_REFUSED_NETWORK);
    expect("fifteen bytes", 15, square, sizeof square, 0, 0, GRADES_EVALUATE_REFUSED_NETWORK);
    expect("seventeen bytes", 17, square, sizeof square, 1, 0, GRADES_EVALUATE_REFUSED_NETWORK);
    expect("one byte too few", parity_bytes - 1, square, sizeof square, 6, 0,
           GRADES_EVALUATE_REFUSED_NETWORK);

    /* A constant, and then gates that each name the record before. */
    memset(network, 0, sizeof network);
    network[1] = network[CEILING] = 1;
    for (at = 1; at <= GRADES_MAX_RECORDS; at++) {
        uint8_t *record = network + at * RECORD;
        record[0] = 3;
        record[CEILING] = 1;
        record[4] = record[6] = (uint8_t)((at - 1) & 255);
        record[5] = record[7] = (uint8_t)((at - 1) >> 8);
    }
    expect("4096 records", (size_t)GRADES_MAX_RECORDS * RECORD, square, sizeof square,
           GRADES_MAX_RECORDS, 3, 1);
    expect("4097 records", (size_t)(GRADES_MAX_RECORDS + 1) * RECORD, square, sizeof square,
           GRADES_MAX_RECORDS + 1, 3, GRADES_EVALUATE_REFUSED_NETWORK);
    network[(GRADES_MAX_RECORDS - 1) * RECORD + CEILING] = 0;
    expect("4096 records, the last with another ceiling", (size_t)GRADES_MAX_RECORDS * RECORD,
           square, sizeof square, GRADES_MAX_RECORDS, 3, GRADES_EVALUATE_REFUSED_NETWORK);
}

/* The parity network's record of each kind; a constant takes the place of its first literal. */
static const size_t of_kind[4] = {0, 0, 2, 6};

static uint8_t *lend_kind(size_t kind)
{
    lend_parity();
    if (kind == 0) {
        memset(network, 0, RECORD);
        network[1] = network[CEILING] = 1;
    }
    return network + of_kind[kind] * RECORD;
}

static void records(void)
{
    size_t kind, byte;

    expect_damaged("an unknown kind", 6, 0, 4);
    expect_damaged("kind 255", 6, 0, 255);
    expect_damaged("a min whose left record is itself", 2, 4, 2);
    expect_damaged("a min whose right record is itself", 2, 6, 2);
    expect_damaged("a max whose left record is itself", 6, 4, 6);
    expect_damaged("a max whose right record is itself", 6, 6, 6);
    expect_damaged("a gate whose left record comes later", 2, 4, 3);
    expect_damaged("a gate whose right record comes later", 2, 6, 3);
    expect_damaged("a gate whose left record is 256", 2, 5, 1);
    expect_damaged("a gate whose right record is 257", 2, 7, 1);
    expect_damaged("a literal of a condition that is not there", 0, 1, 2);
    expect_damaged("a literal of condition 8", 0, 1, 8);
    expect_damaged("a literal of condition 255", 0, 1, 255);
    expect_damaged("a literal with a grade past its values", 0, 10, 1);
    expect_damaged("a literal with a grade in its last byte", 0, 15, 1);
    expect_damaged("a literal turned into a constant", 0, 0, 0);

    for (kind = 0; kind < 4; kind++) {
        uint8_t *record = lend_kind(kind);
        expect("before a byte is set", parity_bytes, square, sizeof square, 7, 0, 0);
        for (byte = 0; byte < RECORD; byte++) {
            char name[64];
            if (must_be_zero[kind][byte] != '0')
                continue;
            sprintf(name, "byte %u of kind %u", (unsigned)byte, (unsigned)kind);
            record[byte] = 1;
            expect(name, parity_bytes, square, sizeof square, 7, 0,
                   GRADES_EVALUATE_REFUSED_NETWORK);
            record[byte] = 0;
        }
    }

    lend_parity();
    network[8] = network[CEILING] = 2;
    expect("a literal with the grade m", parity_bytes, square, sizeof square, 7, 0,
           GRADES_EVALUATE_REFUSED_NETWORK);
    memset(network, 0, RECORD);
    network[1] = network[CEILING] = 1;
    expect("a constant with the grade m - 1", RECORD, square, sizeof square, 1, 0, 1);
    network[1] = network[CEILING] = 2;
    expect("a constant with the grade m", RECORD, square, sizeof square, 1, 0,
           GRADES_EVALUATE_REFUSED_NETWORK);
}

/* A record of each kind with every ceiling, of which one is its own. It is the last record, so that
 * no gate behind it can tell. */
static void ceilings(void)
{
    static const uint32_t grades_of_kind[4] = {1, 1, 0, 0};
    size_t kind, at;
    unsigned ceiling;
    char name[64];

    for (kind = 0; kind < 4; kind++) {
        const size_t count = of_kind[kind] + 1;
        uint8_t *record = lend_kind(kind);
        const uint8_t own = record[CEILING];
        for (ceiling = 0; ceiling < 256; ceiling++) {
            record[CEILING] = (uint8_t)ceiling;
            sprintf(name, "kind %u with ceiling %u", (unsigned)kind, ceiling);
            expect(name, count * RECORD, square, sizeof square, count, 0,
                   ceiling == own ? grades_of_kind[kind] : GRADES_EVALUATE_REFUSED_NETWORK);
        }
    }

    lend_parity();
    for (at = 0; at < parity_bytes; at += RECORD)
        network[at + CEILING] = 0;
    expect("from before there were ceilings", parity_bytes, square, sizeof square, 7, 0,
           GRADES_EVALUATE_REFUSED_NETWORK);
    /* A constant 0 is as it was before. */
    memset(network, 0, RECORD);
    expect("a ceiling that is 0", RECORD, square, sizeof square, 1, 0, 0);
}

static void cells(void)
{
    lend_parity();
    expect("cell 4 of four", parity_bytes, square, sizeof square, 7, 4,
           GRADES_EVALUATE_REFUSED_CELL);
    expect("the largest cell number", parity_bytes, square, sizeof square, 7, UINT32_MAX,
           GRADES_EVALUATE_REFUSED_CELL);
}

/* Of two faults, the one that is tested for first. */
static void order(void)
{
    lend_parity();
    expect("nine shape bytes, no work bytes", parity_bytes, square, 9, 0, 4,
           GRADES_EVALUATE_REFUSED_SHAPE);
    network[0] = 4;
    expect("an unknown kind, no work bytes", parity_bytes, square, sizeof square, 0, 4,
           GRADES_EVALUATE_REFUSED_BUFFER);
    expect("an unknown kind, cell 4", parity_bytes, square, sizeof square, 7, 4,
           GRADES_EVALUATE_REFUSED_NETWORK);
}

/* Lists of E's cells in no order, some twice, and of the first and the last number with no cell. */
static const uint16_t visits[] = {3, 1, 4, 1, 65535, 0, 2, 2};
static const uint8_t wanted_of_visits[] = {0, 1, 255, 1, 255, 0, 1, 1};
#define VISITS (sizeof wanted_of_visits)

static void expect_visits(const char *name, size_t shape_bytes, size_t count, size_t grades_bytes,
                          size_t work_bytes, uint32_t wanted)
{
    const struct list list = {parity_bytes, square,       shape_bytes, visits,
                              count,        grades_bytes, work_bytes};

    expect_list(name, &list, wanted, wanted_of_visits);
}

static void lists(void)
{
    struct list list = {parity_bytes, square, sizeof square, visits, VISITS, VISITS, 7};
    size_t count;

    lend_parity();
    expect_visits("visits", 10, VISITS, VISITS, 7, 0);
    expect_visits("visits, longer grades", 10, VISITS, VISITS + 20, 7, 0);
    expect_visits("visits, longer work", 10, VISITS, VISITS, 20, 0);
    expect_visits("no visits", 10, 0, 0, 7, 0);
    expect_visits("no visits, longer buffers", 10, 0, 20, 20, 0);
    for (count = 1; count < VISITS; count++) {
        const size_t rest = VISITS - count;
        expect_visits("the first visits", 10, count, VISITS, 7, 0);
        list.cells = visits + rest;
        list.count = count;
        expect_list("the last visits", &list, 0, wanted_of_visits + rest);
    }
}

/* Of two faults, the one that is tested for first; numbers with no cell are none. */
static void list_refusals(void)
{
    lend_parity();
    expect_visits("one grade byte too few", 10, VISITS, VISITS - 1, 7, GRADES_REFUSED_BUFFER);
    expect_visits("no grade bytes", 10, VISITS, 0, 7, GRADES_REFUSED_BUFFER);
    expect_visits("one work byte too few", 10, VISITS, VISITS, 6, GRADES_REFUSED_BUFFER);
    expect_visits("no visits, one work byte too few", 10, 0, 0, 6, GRADES_REFUSED_BUFFER);
    expect_visits("nine shape bytes", 9, VISITS, VISITS, 7, GRADES_REFUSED_SHAPE);
    expect_visits("nine shape bytes, no grade bytes", 9, VISITS, 0, 7, GRADES_REFUSED_SHAPE);
    expect_visits("nine shape bytes, no work bytes", 9, VISITS, VISITS, 0, GRADES_REFUSED_SHAPE);
    expect_visits("nine shape bytes, no visits", 9, 0, 0, 7, GRADES_REFUSED_SHAPE);
    network[6 * RECORD] = 4;
    expect_visits("an unknown kind", 10, VISITS, VISITS, 7, GRADES_REFUSED_NETWORK);
    expect_visits("an unknown kind, one grade byte too few", 10, VISITS, VISITS - 1, 7,
                  GRADES_REFUSED_BUFFER);
    expect_visits("an unknown kind, one work byte too few", 10, VISITS, VISITS, 6,
                  GRADES_REFUSED_BUFFER);
    expect_visits("an unknown kind, no visits", 10, 0, 0, 7, GRADES_REFUSED_NETWORK);
}

/* Every number twice, in no order, by literals and gates that give many grades: at each place what
 * grades_evaluate has for that number. */
static void every_number(void)
{
    static const uint8_t shape[10] = {4, 8, 8, 8, 2, 0, 0, 0, 0, 16};
    static const uint8_t records[7][RECORD] = {
        {1, 0, 14, 0, 0, 0, 0, 0, 0, 2, 4, 6, 8, 10, 12, 14},
        {1, 1, 15, 0, 0, 0, 0, 0, 15, 13, 11, 9, 7, 5, 3, 1},
        {2, 0, 14, 0, 0, 0, 1, 0},
        {1, 2, 11, 0, 0, 0, 0, 0, 5, 0, 7, 2, 9, 4, 11, 6},
        {1, 3, 12, 0, 0, 0, 0, 0, 3, 12},
        {2, 0, 11, 0, 3, 0, 4, 0},
        {3, 0, 14, 0, 2, 0, 5, 0},
    };
    static uint16_t numbers[2 * NUMBERS];
    static uint8_t wanted[2 * NUMBERS];
    struct list list = {sizeof records, shape, sizeof shape, numbers, 2 * NUMBERS,
                        sizeof wanted,  7};
    size_t at;

    memcpy(network, records, sizeof records);
    for (at = 0; at < sizeof wanted; at++) {
        /* Odd, so that all numbers come before one comes again. */
        numbers[at] = (uint16_t)(at * 40503u % NUMBERS);
        wanted[at] = list_byte(grades_evaluate(network, sizeof records, shape, sizeof shape,
                                               around + GUARD, 7, numbers[at]));
    }
    expect_list("every number", &list, 0, wanted);
    list.grades_bytes--;
    expect_list("every number, one grade byte too few", &list, GRADES_REFUSED_BUFFER, wanted);
}

int main(void)
{
    grades();
    shapes();
    works();
    lengths();
    records();
    ceilings();
    cells();
    order();
    lists();
    list_refusals();
    every_number();
    return checked("evaluate");
}
