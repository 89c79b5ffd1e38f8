/*
 * Compiling and a forecast under settings, or by the calls that take none.
 */
#ifndef UNDER_H
#define UNDER_H

#include "grades.h"

/* In the place of a byte of settings: none are taken. */
#define NO_SETTINGS 256u

static uint32_t compile_under(unsigned settings, const uint8_t *shape, size_t shape_bytes,
                              const uint8_t *lower, size_t lower_bytes, const uint8_t *upper,
                              size_t upper_bytes, uint8_t *work, size_t work_bytes,
                              uint8_t *network, size_t network_bytes)
{
    if (settings == NO_SETTINGS)
        return grades_compile(shape, shape_bytes, lower, lower_bytes, upper, upper_bytes, work,
                              work_bytes, network, network_bytes);
    return grades_compile_with(shape, shape_bytes, lower, lower_bytes, upper, upper_bytes,
                               (uint8_t)settings, work, work_bytes, network, network_bytes);
}

static uint32_t forecast_under(unsigned settings, const uint8_t *shape, size_t shape_bytes,
                               const uint8_t *lower, size_t lower_bytes, const uint8_t *upper,
                               size_t upper_bytes, uint8_t *work, size_t work_bytes, uint8_t *depth,
                               size_t depth_bytes)
{
    if (settings == NO_SETTINGS)
        return grades_forecast(shape, shape_bytes, lower, lower_bytes, upper, upper_bytes, work,
                               work_bytes, depth, depth_bytes);
    return grades_forecast_with(shape, shape_bytes, lower, lower_bytes, upper, upper_bytes,
                                (uint8_t)settings, work, work_bytes, depth, depth_bytes);
}

#endif
