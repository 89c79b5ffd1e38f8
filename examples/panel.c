/*
 * A door panel in small: reads a table file on standard input, compiles it,
 * checks the network against the table's limits, and prints the grade of every
 * cell. Its status is 1 where a call is refused, where the network is outside
 * the limits, and where input or output fails.
 *
 *   tools/build panel
 *   cc -I include -o target/panel examples/panel.c target/staticlib/libpanel.a
 *   target/panel < examples/rota.table
 */
#include "grades.h"

#include <stdio.h>

/* Long enough for every table; work serves compiling, checking and evaluating.
 * The file's buffer has a byte more than a file, so a longer one is refused. */
static uint8_t file[GRADES_MAX_FILE_BYTES + 1];
static uint8_t shape[GRADES_SHAPE_BYTES];
static uint8_t lower[GRADES_MAX_CELLS], upper[GRADES_MAX_CELLS];
static uint8_t work[GRADES_COMPILE_WORK_BYTES(GRADES_MAX_CELLS)];
static uint8_t network[GRADES_COMPILE_NETWORK_BYTES(GRADES_MAX_CELLS)];

static int refused(const char *call, uint32_t number)
{
    fprintf(stderr, "%s: refused %u\n", call, (unsigned)number);
    return 1;
}

int main(void)
{
    size_t file_bytes = fread(file, 1, sizeof file, stdin), network_bytes;
    uint32_t answer, cell;

    if (ferror(stdin)) {
        perror("standard input");
        return 1;
    }
    answer = grades_read(file, file_bytes, shape, sizeof shape, lower, sizeof lower, upper,
                         sizeof upper);
    if (answer >= GRADES_REFUSED)
        return refused("read", answer - GRADES_REFUSED);
    answer = grades_compile(shape, sizeof shape, lower, sizeof lower, upper, sizeof upper, work,
                            sizeof work, network, sizeof network);
    if (answer >= GRADES_REFUSED)
        return refused("compile", answer - GRADES_REFUSED);
    network_bytes = (size_t)answer * GRADES_RECORD_BYTES;

    /* What was compiled is within the limits; a network from elsewhere may not be. */
    answer = grades_check(network, network_bytes, shape, sizeof shape, lower, sizeof lower, upper,
                          sizeof upper, work, sizeof work);
    if (answer >= GRADES_REFUSED)
        return refused("check", answer - GRADES_REFUSED);
    if (answer != 0) {
        fprintf(stderr, "cell %u: grade %u is outside the limits\n",
                (unsigned)GRADES_OUTSIDE_CELL(answer), (unsigned)GRADES_OUTSIDE_GRADE(answer));
        return 1;
    }

    /* Refusals of evaluating are a family of their own; that of the first cell
     * which is not there ends the list. */
    for (cell = 0;; cell++) {
        answer =
            grades_evaluate(network, network_bytes, shape, sizeof shape, work, sizeof work, cell);
        if (answer >= GRADES_EVALUATE_REFUSED)
            break;
        printf("cell %u: limits %u to %u, grade %u\n", (unsigned)cell, lower[cell], upper[cell],
               (unsigned)answer);
    }
    if (answer != GRADES_EVALUATE_REFUSED_CELL)
        return refused("evaluate", answer - GRADES_EVALUATE_REFUSED);
    return fflush(stdout) != 0 || ferror(stdout);
}
