/*
 * What the C programs share: a count of checks, table E of document 01 with
 * its file in both editions and its network, and other tables of four cells.
 */
#ifndef CHECK_H
#define CHECK_H

#include "grades.h"

#include <stdio.h>
#include <string.h>

#define RECORD GRADES_RECORD_BYTES
#define CELLS 4
#define FILL 99

static unsigned checks;
static unsigned failures;

static void check(int holds, const char *name, const char *what)
{
    checks++;
    if (!holds) {
        failures++;
        printf("c: %s: %s\n", name, what);
    }
}

static void check_answer(const char *name, uint32_t answer, uint32_t wanted)
{
    checks++;
    if (answer != wanted) {
        failures++;
        printf("c: %s: %u, not %u\n", name, (unsigned)answer, (unsigned)wanted);
    }
}

static int all_filled(const uint8_t *from, const uint8_t *to)
{
    while (from < to)
        if (*from++ != FILL)
            return 0;
    return 1;
}

/* How many bytes of settings differ: those of the three bits that are looked at. */
#define SETTINGS 8

/* Says how it went, and is main's result. */
static int checked(const char *program)
{
    if (failures != 0) {
        printf("c: %s: %u of %u checks failed\n", program, failures, checks);
        return 1;
    }
    printf("c: %s: %u checks\n", program, checks);
    return 0;
}

/* E: parity of two conditions of two values. */
static const uint8_t square[GRADES_SHAPE_BYTES] = {2, 2, 2, 0, 0, 0, 0, 0, 0, 2};
static const uint8_t odd[CELLS] = {0, 1, 1, 0};

static const uint8_t file_of_e[7][RECORD] = {
    {1, 0, 2},
    {1, 1, 2},
    {2, 2},
    {3, 0, 0, 0, 0, 0, 0, 0, 0, 0},
    {3, 1, 1, 0, 0, 0, 0, 0, 1, 0},
    {3, 1, 1, 0, 0, 0, 0, 0, 0, 1},
    {3, 0, 0, 0, 0, 0, 0, 0, 1, 1},
};

static const uint8_t sets_of_e[7][RECORD] = {
    {1, 0, 2},
    {1, 1, 2},
    {2, 2},
    {4, 0, 1, 0, 0, 0, 0, 0, 0, 0},
    {4, 0, 2, 0, 0, 0, 0, 0, 1, 0},
    {4, 0, 2, 0, 0, 0, 0, 0, 0, 1},
    {4, 0, 1, 0, 0, 0, 0, 0, 1, 1},
};

/* Each record has 1 as its ceiling. */
static const uint8_t parity[7][RECORD] = {
    {1, 0, 1, 0, 0, 0, 0, 0, 1, 0},
    {1, 1, 1, 0, 0, 0, 0, 0, 0, 1},
    {2, 0, 1, 0, 0, 0, 1, 0},
    {1, 0, 1, 0, 0, 0, 0, 0, 0, 1},
    {1, 1, 1, 0, 0, 0, 0, 0, 1, 0},
    {2, 0, 1, 0, 3, 0, 4, 0},
    {3, 0, 1, 0, 2, 0, 5, 0},
};
static const size_t parity_bytes = sizeof parity;

/* The byte of a record that has its ceiling. */
#define CEILING 2

/* The greater and the lesser of the two conditions; the first alone. */
static const uint8_t either[CELLS] = {0, 1, 1, 1};
static const uint8_t both[CELLS] = {0, 0, 0, 1};
static const uint8_t of_first[CELLS] = {0, 1, 0, 1};

#endif
