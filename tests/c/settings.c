/*
 * Settings for how a network is grown. Small tables are held to stored
 * networks, which show what a setting decides and where it decides nothing;
 * some larger ones, with another network under each of the settings, to figures
 * of these. All of them were worked out apart from the library. For every table
 * 0 gives what the calls without settings do, a byte what its three low bits
 * give, to the last byte of each buffer; the network is within the limits, and
 * the forecast has told its figures. The refusals are in panel.c.
 */
#include "depths.h"
#include "tables.h"
#include "under.h"

/* Every buffer to write is so much longer than a call asks for. */
#define SPARE 32

static uint8_t work[GRADES_COMPILE_WORK_BYTES(MOST_CELLS) + SPARE];

/* What compiling and a forecast gave for the table that was made. */
struct grown {
    uint32_t records, forecast;
    uint8_t network[GRADES_COMPILE_NETWORK_BYTES(MOST_CELLS) + SPARE];
    uint8_t depth[GRADES_DEPTH_BYTES + SPARE];
};

static struct grown by_settings[SETTINGS], other;

/* Both calls. What the work buffer holds must not matter: another byte each time, and then what
 * compiling has left there. */
static void grow(const char *name, unsigned settings, struct grown *to)
{
    const size_t network_bytes = GRADES_COMPILE_NETWORK_BYTES(cells) + SPARE;
    const size_t work_bytes = GRADES_COMPILE_WORK_BYTES(cells);

    memset(work, (int)(settings & 255u), work_bytes);
    memset(work + work_bytes, FILL, SPARE);
    memset(to->network, FILL, network_bytes);
    memset(to->depth, FILL, sizeof to->depth);
    to->records = compile_under(settings, shape, sizeof shape, lower, cells, upper, cells, work,
                                work_bytes + SPARE, to->network, network_bytes);
    to->forecast = forecast_under(settings, shape, sizeof shape, lower, cells, upper, cells, work,
                                  work_bytes + SPARE, to->depth, sizeof to->depth);
    check(all_filled(work + work_bytes, work + work_bytes + SPARE), name,
          "work bytes changed that must stay");
}

static int same(const struct grown *one, const struct grown *two)
{
    const size_t network_bytes = GRADES_COMPILE_NETWORK_BYTES(cells) + SPARE;

    return one->records == two->records && one->forecast == two->forecast &&
           memcmp(one->network, two->network, network_bytes) == 0 &&
           memcmp(one->depth, two->depth, sizeof one->depth) == 0;
}

static void expect_sound(const char *name, const struct grown *grown)
{
    const size_t most = GRADES_COMPILE_NETWORK_BYTES(cells);
    const size_t bytes = (size_t)grown->records * RECORD;
    const uint8_t *network = grown->network, *depth = grown->depth;

    check(grown->records >= 1 && bytes <= most, name, "a number of records out of range");
    if (bytes > most)
        return;
    check(all_filled(network + bytes, network + most + SPARE), name, "bytes past the records");
    check_answer(name,
                 grades_check(network, bytes, shape, sizeof shape, lower, cells, upper, cells, work,
                              grown->records),
                 0);
    check_answer(name, grown->forecast, grown->records);
    check_answer(name, two_bytes(depth), depth_of_last(network, grown->records));
    check(all_filled(depth + GRADES_DEPTH_BYTES, depth + sizeof grown->depth), name,
          "bytes past the depth");
}

/* The table under the settings that can differ. */
static void expect_eight(const char *table)
{
    unsigned settings;
    char name[64];

    for (settings = 0; settings < SETTINGS; settings++) {
        sprintf(name, "%s, settings %u", table, settings);
        grow(name, settings, &by_settings[settings]);
        expect_sound(name, &by_settings[settings]);
    }
    grow(table, NO_SETTINGS, &other);
    check(same(&other, &by_settings[0]), table, "settings 0 are not as none");
}

/* The same, and under every other byte. */
static void expect_every_byte(const char *table)
{
    unsigned byte;
    char name[64];

    expect_eight(table);
    for (byte = SETTINGS; byte < 256; byte++) {
        sprintf(name, "%s, settings %u", table, byte);
        grow(name, byte, &other);
        check(same(&other, &by_settings[byte % SETTINGS]), name, "not as their three low bits");
    }
}

/* Stored networks. */

#define CONSTANT(grade) {0, grade, grade}
#define LITERAL(condition, ceiling, ...) {1, condition, ceiling, 0, 0, 0, 0, 0, __VA_ARGS__}
#define MIN_GATE(ceiling, left, right) {2, 0, ceiling, 0, left, 0, right, 0}
#define MAX_GATE(ceiling, left, right) {3, 0, ceiling, 0, left, 0, right, 0}

struct network {
    const void *records;
    size_t bytes;
};
#define NETWORK(records) {records, sizeof records}

/* A table of the shape that was made. It has the first of the networks where one bit is clear, the
 * second where that bit is set, and the third where another bit is set with it. */
static void expect_stored(const char *table, const uint8_t *low, const uint8_t *high, unsigned bit,
                          unsigned other_bit, const struct network *networks)
{
    unsigned settings;
    char name[64];

    memcpy(lower, low, cells);
    memcpy(upper, high, cells);
    expect_every_byte(table);
    for (settings = 0; settings < SETTINGS; settings++) {
        const size_t set = (settings & bit) == 0 ? 0 : (settings & other_bit) == 0 ? 1 : 2;
        const struct network *wanted = &networks[set];
        const struct grown *grown = &by_settings[settings];
        sprintf(name, "%s, settings %u", table, settings);
        check_answer(name, grown->records, (uint32_t)(wanted->bytes / RECORD));
        check(memcmp(grown->network, wanted->records, wanted->bytes) == 0, name,
              "another network than is stored");
    }
}

/* So many conditions of two values. */
static void make_twos(size_t conditions, uint8_t m)
{
    make_shape(twos + GRADES_MAX_CONDITIONS - conditions, m);
}

/* Both gates have the sets {0} and {1}. */
static void full_tie(void)
{
    static const uint8_t low[] = {0, 0, 1, 2}, high[] = {0, 2, 1, 2};
    static const uint8_t by_max[][RECORD] = {
        LITERAL(0, 2, 0, 2),
        LITERAL(1, 1, 0, 1),
        MAX_GATE(2, 0, 1),
    };
    static const uint8_t by_min[][RECORD] = {
        LITERAL(0, 2, 1, 2),
        LITERAL(1, 2, 0, 2),
        MIN_GATE(2, 0, 1),
    };
    static const struct network networks[] = {NETWORK(by_max), NETWORK(by_min)};

    make_twos(2, 3);
    expect_stored("a full tie", low, high, GRADES_MIN_WINS_TIES, 0, networks);
}

/* Max has {0, 1} and {2}, min {0, 2} and {1}. By min, the first block has a full tie too. */
static void full_ties(void)
{
    static const uint8_t low[] = {0, 0, 0, 0, 1, 1, 1, 2}, high[] = {0, 2, 2, 2, 2, 1, 1, 2};
    static const uint8_t by_max[][RECORD] = {
        LITERAL(0, 2, 0, 2), LITERAL(1, 2, 0, 2), MIN_GATE(2, 0, 1),
        LITERAL(2, 1, 0, 1), MAX_GATE(2, 2, 3),
    };
    static const uint8_t by_min[][RECORD] = {
        LITERAL(0, 2, 1, 2), LITERAL(2, 2, 0, 2), MIN_GATE(2, 0, 1),
        LITERAL(1, 2, 1, 2), MIN_GATE(2, 2, 3),
    };
    static const struct network networks[] = {NETWORK(by_max), NETWORK(by_min)};

    make_twos(3, 3);
    expect_stored("full ties at two depths", low, high, GRADES_MIN_WINS_TIES, 0, networks);
}

/* Max has {0, 2} and {1}, min {0} and {2}. */
static void more_conditions(void)
{
    static const uint8_t low[] = {0, 0, 1, 2, 1, 0, 2, 2}, high[] = {0, 2, 2, 2, 1, 0, 2, 2};
    static const uint8_t by_max[][RECORD] = {
        LITERAL(0, 1, 1, 0), LITERAL(2, 1, 0, 1), MIN_GATE(1, 0, 1),
        LITERAL(1, 2, 0, 2), MAX_GATE(2, 2, 3),
    };
    static const struct network networks[] = {NETWORK(by_max)};

    make_twos(3, 3);
    expect_stored("more conditions by max", low, high, 0, 0, networks);
}

/* Max has {0, 2} and {1, 3}, min {0, 2, 3} and {1}: as many, but no full tie. */
static void smaller_difference(void)
{
    static const uint8_t low[] = {0, 0, 0, 1, 0, 0, 0, 1, 0, 0, 1, 0, 0, 0, 0, 0};
    static const uint8_t high[] = {1, 0, 1, 1, 0, 0, 1, 1, 1, 1, 1, 0, 1, 1, 0, 0};
    static const uint8_t by_max[][RECORD] = {
        LITERAL(0, 1, 1, 0), LITERAL(2, 1, 1, 0), MIN_GATE(1, 0, 1), LITERAL(1, 1, 0, 1),
        LITERAL(3, 1, 1, 0), MIN_GATE(1, 3, 4),   MAX_GATE(1, 2, 5),
    };
    static const struct network networks[] = {NETWORK(by_max)};

    make_twos(4, 2);
    expect_stored("a smaller difference by max", low, high, 0, 0, networks);
}

/* A split on condition 0, or on condition 1, which has a value more. The same again for each value
 * of a condition 2: it has most values, but is dropped. */
static void splits(void)
{
    static const uint8_t shapes[2][9] = {{2, 3}, {2, 3, 4}};
    static const uint8_t table[] = {0, 0, 0, 1, 1, 0, 0, 0, 0, 1, 1, 0,
                                    0, 0, 0, 1, 1, 0, 0, 0, 0, 1, 1, 0};
    static const uint8_t on_lowest[][RECORD] = {
        LITERAL(0, 1, 1, 0),    LITERAL(1, 1, 0, 0, 1), MIN_GATE(1, 0, 1), LITERAL(0, 1, 0, 1),
        LITERAL(1, 1, 0, 1, 0), MIN_GATE(1, 3, 4),      MAX_GATE(1, 2, 5),
    };
    static const uint8_t on_most[][RECORD] = {
        LITERAL(1, 1, 1, 0, 0), CONSTANT(0),       MIN_GATE(0, 0, 1), LITERAL(1, 1, 0, 1, 0),
        LITERAL(0, 1, 0, 1),    MIN_GATE(1, 3, 4), MAX_GATE(1, 2, 5), LITERAL(1, 1, 0, 0, 1),
        LITERAL(0, 1, 1, 0),    MIN_GATE(1, 7, 8), MAX_GATE(1, 6, 9),
    };
    static const struct network networks[] = {NETWORK(on_lowest), NETWORK(on_most)};
    static const struct network of_e[] = {NETWORK(parity)};

    make_shape(shapes[0], 2);
    expect_stored("a split", table, table, GRADES_SPLITS_ON_MOST, 0, networks);
    make_shape(shapes[1], 2);
    expect_stored("a split after a drop", table, table, GRADES_SPLITS_ON_MOST, 0, networks);
    make_twos(2, 2);
    expect_stored("a split of equals", odd, odd, 0, 0, of_e);
}

/* The sum of two values. */
static void weak_join(void)
{
    static const uint8_t table[] = {0, 1, 1, 2};
    static const uint8_t joined[][RECORD] = {
        LITERAL(0, 2, 0, 2), LITERAL(1, 2, 1, 2), MIN_GATE(2, 0, 1),
        LITERAL(1, 1, 0, 1), MAX_GATE(2, 2, 3),
    };
    static const uint8_t split[][RECORD] = {
        LITERAL(0, 2, 2, 0), LITERAL(1, 1, 0, 1), MIN_GATE(1, 0, 1), LITERAL(0, 2, 0, 2),
        LITERAL(1, 2, 1, 2), MIN_GATE(2, 3, 4),   MAX_GATE(2, 2, 5),
    };
    static const struct network networks[] = {NETWORK(joined), NETWORK(split)};

    make_twos(2, 3);
    expect_stored("a weak join", table, table, GRADES_NO_WEAK_JOINS, 0, networks);
}

/* In the second block of a join. */
static void weak_join_below(void)
{
    static const uint8_t low[] = {0, 0, 1, 1, 2, 2, 0, 1}, high[] = {1, 1, 1, 1, 2, 2, 0, 2};
    static const uint8_t joined[][RECORD] = {
        LITERAL(0, 1, 0, 1), LITERAL(1, 2, 2, 0), LITERAL(2, 2, 0, 2), MIN_GATE(2, 1, 2),
        LITERAL(2, 1, 1, 0), MAX_GATE(2, 3, 4),   MAX_GATE(2, 0, 5),
    };
    static const uint8_t split[][RECORD] = {
        LITERAL(0, 1, 0, 1), LITERAL(1, 2, 2, 0), LITERAL(2, 2, 0, 2),
        MIN_GATE(2, 1, 2),   LITERAL(1, 2, 0, 2), LITERAL(2, 1, 1, 0),
        MIN_GATE(1, 4, 5),   MAX_GATE(2, 3, 6),   MAX_GATE(2, 0, 7),
    };
    static const struct network networks[] = {NETWORK(joined), NETWORK(split)};

    make_twos(3, 3);
    expect_stored("a weak join below a join", low, high, GRADES_NO_WEAK_JOINS, 0, networks);
}

/* Whether at least two of these hold: condition 0 is 1, condition 1 is not 1, condition 2 is 0. A
 * weak join; else a split on condition 0, or on condition 1, the lower of two with three values. */
static void majority(void)
{
    static const uint8_t values[9] = {2, 3, 3};
    static const uint8_t table[] = {1, 1, 0, 1, 1, 1, 0, 1, 0, 0, 0, 1, 0, 1, 0, 0, 0, 1};
    static const uint8_t joined[][RECORD] = {
        LITERAL(0, 1, 0, 1),    LITERAL(1, 1, 1, 0, 1), LITERAL(2, 1, 1, 0, 0),
        MAX_GATE(1, 1, 2),      MIN_GATE(1, 0, 3),      LITERAL(1, 1, 1, 0, 1),
        LITERAL(2, 1, 1, 0, 0), MIN_GATE(1, 5, 6),      MAX_GATE(1, 4, 7),
    };
    static const uint8_t on_lowest[][RECORD] = {
        LITERAL(0, 1, 1, 0), LITERAL(1, 1, 1, 0, 1), LITERAL(2, 1, 1, 0, 0), MIN_GATE(1, 1, 2),
        MIN_GATE(1, 0, 3),   LITERAL(0, 1, 0, 1),    LITERAL(1, 1, 1, 0, 1), LITERAL(2, 1, 1, 0, 0),
        MAX_GATE(1, 6, 7),   MIN_GATE(1, 5, 8),      MAX_GATE(1, 4, 9),
    };
    static const uint8_t on_most[][RECORD] = {
        LITERAL(1, 1, 1, 0, 0), LITERAL(0, 1, 0, 1),    LITERAL(2, 1, 1, 0, 0),
        MAX_GATE(1, 1, 2),      MIN_GATE(1, 0, 3),      LITERAL(1, 1, 0, 1, 0),
        LITERAL(0, 1, 0, 1),    LITERAL(2, 1, 1, 0, 0), MIN_GATE(1, 6, 7),
        MIN_GATE(1, 5, 8),      MAX_GATE(1, 4, 9),      LITERAL(1, 1, 0, 0, 1),
        LITERAL(0, 1, 0, 1),    LITERAL(2, 1, 1, 0, 0), MAX_GATE(1, 12, 13),
        MIN_GATE(1, 11, 14),    MAX_GATE(1, 10, 15),
    };
    static const struct network networks[] = {NETWORK(joined), NETWORK(on_lowest),
                                              NETWORK(on_most)};

    make_shape(values, 2);
    expect_stored("a majority", table, table, GRADES_NO_WEAK_JOINS, GRADES_SPLITS_ON_MOST,
                  networks);
}

/* Draws a table, by a seed: of eight cells about so many may have any grade from one on, the others
 * have one grade. */
static void draw(uint32_t seed, unsigned open)
{
    const uint8_t m = shape[9];
    uint32_t cell;

    for (cell = 0; cell < cells; cell++) {
        seed = seed * 1664525u + 1013904223u;
        lower[cell] = (uint8_t)((seed >> 24) % m);
        upper[cell] = (seed >> 16) % 8 < open ? (uint8_t)(m - 1) : lower[cell];
    }
}

/* Of a network: the number of its records, its depth, and a sum of its bytes (FNV-1a). */
struct figures {
    uint32_t records;
    unsigned depth;
    uint32_t sum;
};

static uint32_t sum_of(const uint8_t *bytes, size_t count)
{
    uint32_t sum = 2166136261u;

    while (count-- > 0)
        sum = (sum ^ *bytes++) * 16777619u;
    return sum;
}

/* A drawn table of the shape that was made, and its figures under settings 0 to 7. */
static void expect_figures(const char *table, uint32_t seed, unsigned open,
                           const struct figures *figures)
{
    unsigned settings;
    char name[64];

    draw(seed, open);
    expect_every_byte(table);
    for (settings = 0; settings < SETTINGS; settings++) {
        const struct grown *grown = &by_settings[settings];
        const struct figures *wanted = &figures[settings];
        sprintf(name, "%s, settings %u", table, settings);
        check_answer(name, grown->records, wanted->records);
        check_answer(name, two_bytes(grown->depth), wanted->depth);
        check_answer(name, sum_of(grown->network, (size_t)wanted->records * RECORD), wanted->sum);
    }
}

/* Tables with another network under each of the settings. */
static void drawn(void)
{
    static const uint8_t shapes[][9] = {{3, 2, 2, 4}, {2, 2, 3, 2, 2}, {2, 3, 2, 2}, {2, 3, 2, 3}};
    static const struct figures figures[][SETTINGS] = {
        {{45, 7, 0x5e50c6b8},
         {41, 7, 0xcad7518d},
         {49, 8, 0xf08b094b},
         {53, 8, 0xe035bb0e},
         {47, 7, 0x107a9d1b},
         {43, 7, 0x9f08458e},
         {55, 8, 0x07f304cc},
         {55, 8, 0x85fd82d8}},
        {{55, 7, 0x6df0ea6e},
         {49, 7, 0x7b0cbe6b},
         {59, 7, 0x86ba6fa7},
         {47, 7, 0xd7877f0e},
         {65, 7, 0xd3dae4c3},
         {53, 7, 0x14876825},
         {67, 7, 0x83ecbdd6},
         {53, 7, 0x306355da}},
        {{29, 6, 0x3496479a},
         {29, 6, 0xd3d3a3ad},
         {33, 6, 0x60d39c39},
         {33, 6, 0xfe43eb8a},
         {31, 6, 0xcef40432},
         {31, 6, 0x8d4c7bdd},
         {35, 6, 0x7dcc1a29},
         {35, 6, 0xdda927c2}},
        {{31, 6, 0x7736a3e6},
         {31, 6, 0x173c46c0},
         {45, 7, 0x4971459b},
         {45, 7, 0x205bee87},
         {33, 6, 0xb36b3d3a},
         {33, 6, 0x18d655e4},
         {47, 7, 0xbc8b4803},
         {47, 7, 0x874d23af}},
    };

    make_shape(shapes[0], 3);
    expect_figures("3 2 2 4", 10, 4, figures[0]);
    make_shape(shapes[1], 2);
    expect_figures("2 2 3 2 2", 7, 3, figures[1]);
    make_shape(shapes[2], 4);
    expect_figures("2 3 2 2", 3, 5, figures[2]);
    make_shape(shapes[3], 3);
    expect_figures("2 3 2 3", 11, 5, figures[3]);
}

/* Every table of two conditions of two values, and three grades. */
static void every_table(void)
{
    static const uint8_t limits[6][2] = {{0, 0}, {0, 1}, {0, 2}, {1, 1}, {1, 2}, {2, 2}};
    const unsigned count = 6 * 6 * 6 * 6;
    unsigned table;
    char name[32];

    make_twos(2, 3);
    for (table = 0; table < count; table++) {
        unsigned rest = table;
        uint32_t cell;
        for (cell = 0; cell < cells; cell++, rest /= 6) {
            lower[cell] = limits[rest % 6][0];
            upper[cell] = limits[rest % 6][1];
        }
        sprintf(name, "table %u of four cells", table);
        expect_eight(name);
    }
}

/* Tables of several shapes: parities, and drawn ones with few and with many open cells. */
static void mixtures(void)
{
    static const uint8_t shapes[][9] = {
        {0}, {2}, {8}, {2, 8}, {8, 2}, {3, 4}, {2, 3, 3}, {4, 2, 3}, {2, 2, 2, 2}, {2, 3, 2, 4},
    };
    size_t i;
    unsigned open;
    char name[32];

    for (i = 0; i < sizeof shapes / sizeof shapes[0]; i++) {
        make_shape(shapes[i], (uint8_t)(2 + i % 4));
        make_parity();
        sprintf(name, "parity %u", (unsigned)i);
        expect_every_byte(name);
        for (open = 1; open < 8; open += 3) {
            draw((uint32_t)(i + 1), open);
            sprintf(name, "mixture %u %u", (unsigned)i, open);
            expect_every_byte(name);
        }
    }
}

int main(void)
{
    full_tie();
    full_ties();
    more_conditions();
    smaller_difference();
    splits();
    weak_join();
    weak_join_below();
    majority();
    drawn();
    every_table();
    mixtures();
    return checked("settings");
}
