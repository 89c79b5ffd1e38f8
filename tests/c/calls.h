/*
 * The fourteen calls, each over a list of its buffers in the order of its
 * parameters, so that a test can go through calls and buffers alike.
 */
#ifndef CALLS_H
#define CALLS_H

#include "grades.h"

/* A buffer as it is lent: where it starts, and its number of bytes. */
struct lent {
    uint8_t *at;
    size_t bytes;
};

typedef uint32_t lent_call(const struct lent *lent);

/* What the calls take besides buffers. */
static uint8_t set_s = 1, set_t = 2, settings;
static uint32_t cell_number;

#define LENT(i) lent[i].at, lent[i].bytes

static uint32_t read_lent(const struct lent *lent)
{
    return grades_read(LENT(0), LENT(1), LENT(2), LENT(3));
}

static uint32_t to_sets_lent(const struct lent *lent)
{
    return grades_to_sets(LENT(0), LENT(1));
}

static uint32_t from_sets_lent(const struct lent *lent)
{
    return grades_from_sets(LENT(0), LENT(1));
}

static uint32_t join_max_first_lent(const struct lent *lent)
{
    return grades_join_max_first(LENT(0), LENT(1), LENT(2), set_s, set_t, LENT(3), LENT(4));
}

static uint32_t join_min_first_lent(const struct lent *lent)
{
    return grades_join_min_first(LENT(0), LENT(1), LENT(2), set_s, set_t, LENT(3), LENT(4));
}

static uint32_t join_max_second_lent(const struct lent *lent)
{
    return grades_join_max_second(LENT(0), LENT(1), LENT(2), set_s, set_t, LENT(3), LENT(4),
                                  LENT(5));
}

static uint32_t join_min_second_lent(const struct lent *lent)
{
    return grades_join_min_second(LENT(0), LENT(1), LENT(2), set_s, set_t, LENT(3), LENT(4),
                                  LENT(5));
}

static uint32_t compile_lent(const struct lent *lent)
{
    return grades_compile(LENT(0), LENT(1), LENT(2), LENT(3), LENT(4));
}

static uint32_t forecast_lent(const struct lent *lent)
{
    return grades_forecast(LENT(0), LENT(1), LENT(2), LENT(3), LENT(4));
}

static uint32_t compile_with_lent(const struct lent *lent)
{
    return grades_compile_with(LENT(0), LENT(1), LENT(2), settings, LENT(3), LENT(4));
}

static uint32_t forecast_with_lent(const struct lent *lent)
{
    return grades_forecast_with(LENT(0), LENT(1), LENT(2), settings, LENT(3), LENT(4));
}

static uint32_t check_lent(const struct lent *lent)
{
    return grades_check(LENT(0), LENT(1), LENT(2), LENT(3), LENT(4));
}

static uint32_t evaluate_lent(const struct lent *lent)
{
    return grades_evaluate(LENT(0), LENT(1), LENT(2), cell_number);
}

/* The cells as the bytes of their numbers, at an even address. */
static uint32_t evaluate_each_lent(const struct lent *lent)
{
    const void *numbers = lent[2].at;

    return grades_evaluate_each(LENT(0), LENT(1), numbers, lent[2].bytes / sizeof(uint16_t),
                                LENT(3), LENT(4));
}

#endif
