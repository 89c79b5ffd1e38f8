/*
 * The file of a table that was made.
 */
#ifndef FILES_H
#define FILES_H

#include "tables.h"

/* A record more than a file can have. */
static uint8_t file[GRADES_MAX_FILE_BYTES + RECORD];

/* Lists all cells, and answers the number of bytes. */
static size_t make_file(void)
{
    uint8_t *record = file;
    uint32_t cell;
    uint8_t i;

    memset(file, 0, sizeof file);
    for (i = 0; i < shape[0]; i++, record += RECORD) {
        record[0] = 1;
        record[1] = i;
        record[2] = shape[1 + i];
    }
    record[0] = 2;
    record[1] = shape[9];
    for (cell = 0; cell < cells; cell++) {
        record += RECORD;
        record[0] = 3;
        record[1] = lower[cell];
        record[2] = upper[cell];
        for (i = 0; i < shape[0]; i++)
            record[8 + i] = value_at(cell, i);
    }
    return (size_t)(record + RECORD - file);
}

#endif
