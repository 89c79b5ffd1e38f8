/*
 * Tables of any shape, made by a program: a shape and limits.
 */
#ifndef TABLES_H
#define TABLES_H

#include "check.h"

#define MOST_CELLS GRADES_MAX_CELLS

static uint8_t shape[GRADES_SHAPE_BYTES], lower[MOST_CELLS], upper[MOST_CELLS];

/* How many cells there are, and by how many a value more of each condition goes on. */
static uint32_t cells, steps[GRADES_MAX_CONDITIONS];

static const uint8_t eights[9] = {8, 8, 8, 2};
static const uint8_t eight_and_twos[9] = {8, 2, 2, 2, 2, 2, 2, 2};
static const uint8_t twos[9] = {2, 2, 2, 2, 2, 2, 2, 2};

/* Conditions with the numbers of values that are listed up to a 0, and m grades. */
static void make_shape(const uint8_t *values, uint8_t m)
{
    uint8_t n;

    memset(shape, 0, sizeof shape);
    cells = 1;
    for (n = 0; n < GRADES_MAX_CONDITIONS && values[n] != 0; n++) {
        shape[1 + n] = values[n];
        steps[n] = cells;
        cells *= values[n];
    }
    shape[0] = n;
    shape[9] = m;
}

static uint8_t value_at(uint32_t cell, size_t condition)
{
    return (uint8_t)(cell / steps[condition] % shape[1 + condition]);
}

/* Parity: at each cell, whether the sum of its values is odd. */
static void make_parity(void)
{
    uint32_t cell;
    size_t i;

    for (cell = 0; cell < cells; cell++) {
        unsigned sum = 0;
        for (i = 0; i < shape[0]; i++)
            sum += value_at(cell, i);
        lower[cell] = upper[cell] = sum & 1;
    }
}

#endif
