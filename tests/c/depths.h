/*
 * The depth of a network, from its records.
 */
#ifndef DEPTHS_H
#define DEPTHS_H

#include "check.h"

/* A number of two bytes, low byte first. */
static unsigned two_bytes(const uint8_t *low)
{
    return low[0] + 256u * low[1];
}

/* The depth of the last of some records, from those of the records before it. */
static unsigned depth_of_last(const uint8_t *network, uint32_t records)
{
    /* One for each number that a gate can name. */
    static unsigned depths[65536];
    unsigned last = 0;
    uint32_t at;

    for (at = 0; at < records; at++) {
        const uint8_t *record = network + (size_t)at * RECORD;
        last = 0;
        if (record[0] >= 2) {
            unsigned left = depths[two_bytes(record + 4)], right = depths[two_bytes(record + 6)];
            last = 1 + (left < right ? right : left);
        }
        depths[at] = last;
    }
    return last;
}

#endif
