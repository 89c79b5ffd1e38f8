/*
 * Ceilings, byte 2 of every record of a network. Of networks that are compiled,
 * and of others, each is as the header says; the records up to any of them are
 * a network too, whose grade is above its last record's ceiling at no cell; and
 * with another ceiling it is refused, and as it was before there were any,
 * unless all of them are 0.
 */
#include "check.h"

#define MOST_CELLS 64
#define MOST_RECORDS (GRADES_COMPILE_NETWORK_BYTES(MOST_CELLS) / RECORD)

static uint8_t shape[GRADES_SHAPE_BYTES], lower[MOST_CELLS], upper[MOST_CELLS];
static uint32_t cells;

static uint8_t network[MOST_RECORDS * RECORD];
static uint8_t work[GRADES_COMPILE_WORK_BYTES(MOST_CELLS)];
static uint16_t numbers[MOST_CELLS];
static uint8_t grades[MOST_CELLS];

/* A number below the bound, which the numbers before it decide. */
static unsigned below(unsigned bound)
{
    static uint32_t seed = 1;

    seed = seed * 1664525u + 1013904223u;
    return (seed >> 16) % bound;
}

/* Up to six conditions with the numbers of values that are listed up to a 0, and m grades. */
static void make_shape(const uint8_t *values, uint8_t m)
{
    memset(shape, 0, sizeof shape);
    for (cells = 1; values[shape[0]] != 0; shape[0]++) {
        shape[1 + shape[0]] = values[shape[0]];
        cells *= values[shape[0]];
    }
    shape[9] = m;
}

static uint8_t *record_at(size_t number)
{
    return network + number * RECORD;
}

/* The ceiling of the record that two bytes name, low byte first. */
static uint8_t ceiling_named(const uint8_t *low)
{
    return record_at(low[0] + 256u * low[1])[CEILING];
}

/* What the ceiling of a record must be. */
static uint8_t ceiling_of(const uint8_t *record)
{
    uint8_t left, right, value, largest = 0;

    if (record[0] == 0)
        return record[1];
    if (record[0] == 1) {
        for (value = 0; value < shape[1 + record[1]]; value++)
            if (largest < record[8 + value])
                largest = record[8 + value];
        return largest;
    }
    left = ceiling_named(record + 4);
    right = ceiling_named(record + 6);
    return (record[0] == 2) == (left < right) ? left : right;
}

/* Whether the first records are refused by all three calls that run a network, or accepted by all:
 * then the limits, which are those of any grade, have nothing against it. */
static void expect_answer(const char *name, size_t count, uint32_t wanted)
{
    const size_t bytes = count * RECORD;
    const uint32_t cell = below(cells);
    uint32_t alone;

    memset(lower, 0, sizeof lower);
    memset(upper, shape[9] - 1, sizeof upper);
    memset(grades, FILL, sizeof grades);
    check_answer(
        name,
        grades_check(network, bytes, shape, sizeof shape, lower, cells, upper, cells, work, count),
        wanted);
    check_answer(name,
                 grades_evaluate_each(network, bytes, shape, sizeof shape, numbers, cells, grades,
                                      cells, work, count),
                 wanted);
    check(all_filled(grades + (wanted == 0 ? cells : 0), grades + sizeof grades), name,
          "grades changed that must stay");
    alone = grades_evaluate(network, bytes, shape, sizeof shape, work, count, cell);
    if (wanted == 0)
        check_answer(name, alone, grades[cell]);
    else
        check_answer(name, alone, wanted - GRADES_REFUSED + GRADES_EVALUATE_REFUSED);
}

/* The first records as a network, which is at no cell above the ceiling of the last. */
static void expect_below_ceiling(const char *name, size_t count)
{
    const uint8_t *last = record_at(count - 1);
    uint32_t cell, above = 0;

    check_answer(name, last[CEILING], ceiling_of(last));
    expect_answer(name, count, 0);
    for (cell = 0; cell < cells; cell++)
        above += grades[cell] > last[CEILING];
    check_answer(name, above, 0);
}

/* The first records, the last with another ceiling than its own. */
static void expect_other_ceiling(const char *name, size_t count, unsigned ceiling)
{
    uint8_t *last = record_at(count - 1);
    const uint8_t own = last[CEILING];

    if (ceiling == own)
        return;
    last[CEILING] = (uint8_t)ceiling;
    expect_answer(name, count, GRADES_REFUSED_NETWORK);
    last[CEILING] = own;
}

/* A gate with the other kind: accepted where its two records have the same ceiling. */
static void expect_other_gate(const char *name, size_t count)
{
    uint8_t *last = record_at(count - 1);
    const uint8_t kind = last[0];

    if (kind < 2)
        return;
    expect_other_ceiling(name, count, ceiling_named(last + 4));
    expect_other_ceiling(name, count, ceiling_named(last + 6));
    last[0] = (uint8_t)(5 - kind);
    expect_answer(name, count,
                  ceiling_named(last + 4) == ceiling_named(last + 6) ? 0 : GRADES_REFUSED_NETWORK);
    last[0] = kind;
}

/* A literal with a grade past its last value, and with a ceiling that counts it. */
static void expect_past_values(const char *name, size_t count)
{
    uint8_t *last = record_at(count - 1);
    size_t past;

    if (last[0] != 1 || shape[1 + last[1]] == GRADES_MAX_VALUES)
        return;
    past = 8u + shape[1 + last[1]];
    last[past] = (uint8_t)(shape[9] - 1);
    expect_answer(name, count, GRADES_REFUSED_NETWORK);
    expect_other_ceiling(name, count, last[past]);
    last[past] = 0;
}

/* A network of so many records. */
static void expect_ceilings(const char *name, size_t records)
{
    static uint8_t sound[sizeof network];
    int ceilings = 0;
    size_t count;

    for (count = 1; count <= records; count++) {
        const uint8_t own = record_at(count - 1)[CEILING];
        ceilings |= own;
        expect_below_ceiling(name, count);
        expect_other_ceiling(name, count, own + 1u);
        expect_other_ceiling(name, count, own == 0 ? 255u : own - 1u);
        expect_other_ceiling(name, count, 0);
        expect_other_ceiling(name, count, 255);
        expect_other_ceiling(name, count, below(256));
        expect_other_gate(name, count);
        expect_past_values(name, count);
    }
    memcpy(sound, network, sizeof network);
    for (count = 0; count < records; count++)
        record_at(count)[CEILING] = 0;
    expect_answer("from before", records, ceilings == 0 ? 0 : GRADES_REFUSED_NETWORK);
    memcpy(network, sound, sizeof network);
}

/* A table in which stages drop, join and split: one cell in so many has one grade, the others any
 * from one on. Its networks under all settings. */
static void compiled(unsigned one_in)
{
    uint8_t least[MOST_CELLS], most[MOST_CELLS], settings;
    uint32_t cell, records;

    for (cell = 0; cell < cells; cell++) {
        least[cell] = (uint8_t)below(shape[9]);
        most[cell] = below(one_in) == 0 ? least[cell] : (uint8_t)(shape[9] - 1);
    }
    for (settings = 0; settings < SETTINGS; settings++) {
        records = grades_compile_with(shape, sizeof shape, least, cells, most, cells, settings,
                                      work, sizeof work, network, sizeof network);
        check(records >= 1 && records <= MOST_RECORDS, "compiled", "not a number of records");
        if (records <= MOST_RECORDS)
            expect_ceilings("compiled", records);
    }
}

/* Records that no compile made, each with the ceiling that it must have. */
static void made_up(size_t records)
{
    size_t number;
    uint8_t value;

    memset(network, 0, sizeof network);
    for (number = 0; number < records; number++) {
        uint8_t *record = record_at(number);
        record[0] = (uint8_t)below(number == 0 ? 2 : 4);
        if (record[0] == 1 && shape[0] > 0) {
            record[1] = (uint8_t)below(shape[0]);
            for (value = 0; value < shape[1 + record[1]]; value++)
                record[8 + value] = (uint8_t)below(shape[9]);
        } else if (record[0] <= 1) {
            record[0] = 0;
            record[1] = (uint8_t)below(shape[9]);
        } else {
            record[4] = (uint8_t)below((unsigned)number);
            record[6] = (uint8_t)below((unsigned)number);
        }
        record[CEILING] = ceiling_of(record);
    }
    expect_ceilings("made up", records);
}

int main(void)
{
    static const uint8_t shapes[][7] = {
        {0}, {2}, {8}, {2, 2}, {3, 4}, {2, 3, 2}, {8, 8}, {4, 2, 3, 2}, {2, 2, 2, 2, 2, 2},
    };
    static const uint8_t ms[] = {2, 3, 5, 8, GRADES_MAX_GRADES};
    size_t i, j;

    for (i = 0; i < MOST_CELLS; i++)
        numbers[i] = (uint16_t)i;
    for (i = 0; i < sizeof shapes / sizeof shapes[0]; i++) {
        for (j = 0; j < sizeof ms; j++) {
            make_shape(shapes[i], ms[j]);
            compiled(1);
            compiled(2);
            compiled(8);
            made_up(1 + below(60));
        }
    }
    return checked("ceilings");
}
