/*
 * Grade networks, for a C program on x86-64.
 *
 * libpanel.a holds the calls: ELF code for x86-64 with the System V calling
 * convention, which needs nothing but memset and memcpy of a C library. To
 * build it, and a program with it:
 *
 *   tools/build panel
 *   cc -I include -o program program.c target/staticlib/libpanel.a
 *
 * Name the archive by its path: -lpanel may find the one of ncurses, which has
 * the same name. examples/panel.c is a whole program.
 *
 * A table has conditions, each with a few values. A cell is one choice of a
 * value for every condition. A table gives a lower and an upper grade for each
 * cell, a network one grade.
 *
 * In every call each buffer is a pointer and the number of bytes behind it;
 * the cells of grades_evaluate_each are a pointer, aligned as C has uint16_t,
 * and the number of elements behind it:
 *   - the pointer is not NULL, even where the number is 0;
 *   - all the bytes may be read, and those of a buffer that is not const
 *     written;
 *   - a buffer that is not const shares no byte with another buffer;
 *   - nothing else writes to the buffers before the call returns.
 * Any contents are safe: a fault in them is answered by a refusal, a number in
 * a list that no cell has by GRADES_NO_CELL at its place. A call that is
 * refused changes no byte of any buffer. Buffers of limits, blocks and work,
 * and all that a call writes, may be longer than asked for: the bytes past
 * those that it writes stay as they are. A call keeps nothing when it returns,
 * so threads may call at once, each with buffers of its own to write.
 */
#ifndef GRADES_H
#define GRADES_H

#include <stddef.h>
#include <stdint.h>

#ifdef __cplusplus
extern "C" {
#endif

/*
 * What the buffers hold.
 *
 * shape: ten bytes.
 *   byte 0        the number of conditions, n, 0 to 8
 *   bytes 1 to 8  how many values each condition has, 2 to 8, in the order of
 *                 the conditions' numbers; 0 in the places past n
 *   byte 9        the number of grades, m, 2 to 16; grades are 0 to m - 1
 * The cells are the product of the n numbers of values, 1 where n is 0, and
 * at most 1024. Cells are numbered from 0: with v0, v1, v2, .. a value of each
 * condition, from 0, and k0, k1, .. how many each has, the cell's number is
 *   v0 + k0 * v1 + k0 * k1 * v2 + ..
 *
 * limits, and a block: a byte for each cell, a grade. lower and upper are a
 * table's limits; in each cell the lower grade is not above the upper.
 *
 * A set of conditions is one byte, bit i for condition i.
 *
 * network: 1 to 4096 records of sixteen bytes, numbered from 0. Byte 0 is the
 * kind, byte 2 the record's ceiling. Bytes that a kind does not name are 0.
 *   0  constant  byte 1: its grade
 *                byte 2: the same grade
 *   1  literal   byte 1: the number of a condition of the shape, from 0
 *                byte 2: the greatest of its grades
 *                bytes 8 to 15: a grade for each value of that condition;
 *                0 past its last value
 *   2  min       byte 2: the lesser of byte 2 of its two records
 *                bytes 4 and 5, 6 and 7: the numbers of two earlier records,
 *                low byte first; the lesser of their grades
 *   3  max       the same; the greater of their grades, and of their byte 2
 * The last record's grade is the network's. At no cell is a record's grade
 * above its byte 2, in any network that the calls accept, whoever made it. So
 * where the grade of one record of a max gate is not below byte 2 of the
 * other, it is the gate's grade: a panel that runs records by itself need not
 * work out the other for this gate. Another gate may still name it.
 *
 * file: at most 1033 records of sixteen bytes. Byte 0 is the kind. Bytes that
 * a kind does not name are 0.
 *   1  condition  byte 1: its number; byte 2: how many values it has
 *   2  grades     byte 1: m
 *   3  cell       byte 1: lower grade; byte 2: upper grade
 *                 bytes 8 to 15: the values of conditions 0 to 7
 * First the conditions, in the order of their numbers; then the grades, once;
 * then cells, each with a greater number than the one before. A cell that is
 * not listed has the limits 1 and m - 1: a visit that nobody foresaw leaves
 * at least a plain line. One that may leave nothing must be listed.
 *
 * file of sets: a file in the edition that the spreadsheet exports. All is as
 * in a file, but its cells are of another kind, and none are of kind 3:
 *   4  cell       bytes 2 and 3: a set of grades, low byte first, bit g for
 *                 grade g
 *                 bytes 8 to 15: the values of conditions 0 to 7
 * A set has one grade or more, none is missing between two of them, and each
 * is below m.
 */
#define GRADES_SHAPE_BYTES 10
#define GRADES_RECORD_BYTES 16

/* The most of a shape: conditions, values of a condition, grades, cells. */
#define GRADES_MAX_CONDITIONS 8
#define GRADES_MAX_VALUES 8
#define GRADES_MAX_GRADES 16
#define GRADES_MAX_CELLS 1024

/* The most of a file, in records and in bytes. */
#define GRADES_MAX_FILE_RECORDS 1033
#define GRADES_MAX_FILE_BYTES 16528

/* The most records of a network, and of one that grades_compile or
 * grades_compile_with writes. */
#define GRADES_MAX_RECORDS 4096
#define GRADES_MAX_COMPILED_RECORDS 3067

/*
 * The bytes that a call asks for; one byte less is refused. For a table of
 * any shape take cells as GRADES_MAX_CELLS. The second uses cells twice.
 *   GRADES_COMPILE_WORK_BYTES     work of grades_compile, grades_forecast,
 *                                 grades_compile_with, grades_forecast_with
 *   GRADES_COMPILE_NETWORK_BYTES  network of grades_compile and
 *                                 grades_compile_with
 *   GRADES_DEPTH_BYTES            depth of grades_forecast and
 *                                 grades_forecast_with
 *   GRADES_RUN_WORK_BYTES         work of grades_check, grades_evaluate and
 *                                 grades_evaluate_each
 */
#define GRADES_COMPILE_WORK_BYTES(cells) (32u * (cells))
#define GRADES_COMPILE_NETWORK_BYTES(cells) \
    (16u * ((cells) == 1u ? 1u : 3u * (cells) - 5u))
#define GRADES_DEPTH_BYTES 2
#define GRADES_RUN_WORK_BYTES(network_bytes) ((network_bytes) / 16u)

/*
 * Stack: a call takes fewer bytes than these, with its arguments and its
 * return address. What memset and memcpy take, and the loader when it binds
 * them, comes on top.
 *   GRADES_READ_STACK_BYTES     grades_read, grades_to_sets, grades_from_sets
 *   GRADES_RUN_STACK_BYTES      grades_check and grades_evaluate
 *   GRADES_EACH_STACK_BYTES     grades_evaluate_each
 *   GRADES_COMPILE_STACK_BYTES  grades_compile, grades_forecast,
 *                               grades_compile_with, grades_forecast_with
 *   GRADES_JOIN_STACK_BYTES     each of the four joins
 */
#define GRADES_READ_STACK_BYTES 1024
#define GRADES_RUN_STACK_BYTES 5120
#define GRADES_EACH_STACK_BYTES 6144
#define GRADES_COMPILE_STACK_BYTES 12288
#define GRADES_JOIN_STACK_BYTES 9216

/*
 * Refusals are in two families, each a number of its own plus the refusal's,
 * 1 to 13. An answer that is not below the family's number is a refusal.
 *   GRADES_REFUSED           every call but grades_evaluate, so also
 *                            grades_evaluate_each: above every count of
 *                            records and every answer of grades_check
 *   GRADES_EVALUATE_REFUSED  grades_evaluate: above every grade
 * No answer of grades_evaluate reaches GRADES_REFUSED, so to compare the two
 * would take a refusal for a grade.
 *
 * Each call names its refusals in the order in which it tests for them, and
 * answers the first that applies.
 */
#define GRADES_REFUSED 65536u
/* No record, a length that is no multiple of 16, more than 1033 records. */
#define GRADES_REFUSED_FILE_LENGTH (GRADES_REFUSED + 1u)
/* A record of a file: an unknown kind, or a byte set that must be 0. */
#define GRADES_REFUSED_RECORD_BYTES (GRADES_REFUSED + 2u)
/* A record out of the order above, or no grades record in the file. */
#define GRADES_REFUSED_RECORD_ORDER (GRADES_REFUSED + 3u)
/* A shape, or the record that would make it, outside the limits above; a
 * shape lent in more or fewer than ten bytes. */
#define GRADES_REFUSED_SHAPE (GRADES_REFUSED + 4u)
/* A lower grade above the upper, or an upper grade that is not below m. */
#define GRADES_REFUSED_LIMITS (GRADES_REFUSED + 5u)
/* A record of a cell: a value that its condition does not have, or a cell
 * that is not after the one before. */
#define GRADES_REFUSED_CELL_VALUES (GRADES_REFUSED + 6u)
/* A set that is empty, that overlaps the other, or that has a condition which
 * the shape does not have. */
#define GRADES_REFUSED_SETS (GRADES_REFUSED + 7u)
/* The join does not exist. */
#define GRADES_REFUSED_NO_JOIN (GRADES_REFUSED + 8u)
/* A first block outside its limits, or that depends on a condition of t. */
#define GRADES_REFUSED_FIRST_BLOCK (GRADES_REFUSED + 9u)
/* A buffer that is too short. */
#define GRADES_REFUSED_BUFFER (GRADES_REFUSED + 10u)
/* No record, more than 4096, a length that is no multiple of 16, or a record
 * that is not as above: an unknown kind, a byte set that must be 0, a grade
 * not below m, a condition that the shape does not have, the number of a
 * record that does not come before, or a byte 2 that is not the ceiling. A
 * network that was compiled when byte 2 had to be 0 is refused too, unless all
 * its ceilings are 0: compile its table anew. */
#define GRADES_REFUSED_NETWORK (GRADES_REFUSED + 11u)
/* A cell's set of grades that is empty, that lacks a grade between two of its
 * own, or that has a grade not below m. */
#define GRADES_REFUSED_GRADE_SET (GRADES_REFUSED + 13u)

/* Of grades_evaluate: a name that ends alike is the same refusal. The last is
 * for the number of a cell that is not below the number of cells. */
#define GRADES_EVALUATE_REFUSED 256u
#define GRADES_EVALUATE_REFUSED_SHAPE (GRADES_EVALUATE_REFUSED + 4u)
#define GRADES_EVALUATE_REFUSED_BUFFER (GRADES_EVALUATE_REFUSED + 10u)
#define GRADES_EVALUATE_REFUSED_NETWORK (GRADES_EVALUATE_REFUSED + 11u)
#define GRADES_EVALUATE_REFUSED_CELL (GRADES_EVALUATE_REFUSED + 12u)

/*
 * Reads a table file: writes the shape's ten bytes and the limits of all
 * cells. GRADES_SHAPE_BYTES for the shape and GRADES_MAX_CELLS for each of the
 * limits are enough for every file.
 *
 * Answers 0. Refusals: FILE_LENGTH; then record by record RECORD_BYTES,
 * RECORD_ORDER, and SHAPE for a condition or the grades, CELL_VALUES and
 * LIMITS for a cell; RECORD_ORDER if the grades are missing; last BUFFER, for
 * fewer than 10 bytes of shape, or fewer bytes of limits than cells.
 */
uint32_t grades_read(const uint8_t *file, size_t file_bytes,
                     uint8_t *shape, size_t shape_bytes,
                     uint8_t *lower, size_t lower_bytes,
                     uint8_t *upper, size_t upper_bytes);

/*
 * Convert a table between its two editions: grades_to_sets writes the file of
 * sets that a file becomes, grades_from_sets the file that a file of sets
 * becomes. In a file of sets a cell has every grade between its limits, these
 * included, and no other; no gap is ever filled. Every other record, and the
 * values of every cell, are in both alike.
 *
 * out: as many bytes as the file has; these are written. Each call accepts
 * what the other has written, and gives back the very bytes that it came from.
 *
 * Answers 0. Refusals: FILE_LENGTH; then record by record RECORD_BYTES, for
 * the other edition's cells too, RECORD_ORDER, and SHAPE for a condition or
 * the grades, CELL_VALUES and then LIMITS or, of sets, GRADE_SET for a cell;
 * RECORD_ORDER if the grades are missing; last BUFFER, for out_bytes less than
 * file_bytes. Nothing is written before all of these are ruled out.
 */
uint32_t grades_to_sets(const uint8_t *file, size_t file_bytes,
                        uint8_t *out, size_t out_bytes);

uint32_t grades_from_sets(const uint8_t *file, size_t file_bytes,
                          uint8_t *out, size_t out_bytes);

/*
 * Joins. Two functions give a grade for each cell, the first not depending on
 * the conditions in t, the second not on those in s. Joined by max, that is
 * the greater of their grades in each cell, or by min, the lesser, they may
 * keep within the limits of a table.
 *
 * These calls write limits of all cells to out_lower and out_upper. Those of
 * the first block hold exactly the functions that can be the first of two.
 * Those of the second hold exactly the functions that can be the second, when
 * the first is the block g.
 *
 * Answers 0. Refusals: SHAPE; BUFFER, for any buffer but the shape's with
 * fewer bytes than there are cells; LIMITS; SETS; NO_JOIN, exactly when there
 * are no two such functions; FIRST_BLOCK, for g.
 */
uint32_t grades_join_max_first(const uint8_t *shape, size_t shape_bytes,
                               const uint8_t *lower, size_t lower_bytes,
                               const uint8_t *upper, size_t upper_bytes,
                               uint8_t s, uint8_t t,
                               uint8_t *out_lower, size_t out_lower_bytes,
                               uint8_t *out_upper, size_t out_upper_bytes);

uint32_t grades_join_min_first(const uint8_t *shape, size_t shape_bytes,
                               const uint8_t *lower, size_t lower_bytes,
                               const uint8_t *upper, size_t upper_bytes,
                               uint8_t s, uint8_t t,
                               uint8_t *out_lower, size_t out_lower_bytes,
                               uint8_t *out_upper, size_t out_upper_bytes);

uint32_t grades_join_max_second(const uint8_t *shape, size_t shape_bytes,
                                const uint8_t *lower, size_t lower_bytes,
                                const uint8_t *upper, size_t upper_bytes,
                                uint8_t s, uint8_t t,
                                const uint8_t *g, size_t g_bytes,
                                uint8_t *out_lower, size_t out_lower_bytes,
                                uint8_t *out_upper, size_t out_upper_bytes);

uint32_t grades_join_min_second(const uint8_t *shape, size_t shape_bytes,
                                const uint8_t *lower, size_t lower_bytes,
                                const uint8_t *upper, size_t upper_bytes,
                                uint8_t s, uint8_t t,
                                const uint8_t *g, size_t g_bytes,
                                uint8_t *out_lower, size_t out_lower_bytes,
                                uint8_t *out_upper, size_t out_upper_bytes);

/*
 * Compiles a table: writes the records of a network whose grade is within the
 * limits in every cell.
 *
 * work: GRADES_COMPILE_WORK_BYTES(cells), 32 for each cell; any contents. They
 * hold anything after records were written.
 * network: GRADES_COMPILE_NETWORK_BYTES(cells), sixteen for each of
 * 3 * cells - 5 records, or for one record where there is one cell.
 *
 * Answers the number of records, 1 to GRADES_MAX_COMPILED_RECORDS. Refusals:
 * SHAPE; BUFFER, for limits, work or network; LIMITS.
 */
uint32_t grades_compile(const uint8_t *shape, size_t shape_bytes,
                        const uint8_t *lower, size_t lower_bytes,
                        const uint8_t *upper, size_t upper_bytes,
                        uint8_t *work, size_t work_bytes,
                        uint8_t *network, size_t network_bytes);

/*
 * Forecasts a table's network, so that its room is known before compiling:
 * writes how deep gates stand under the last record that grades_compile would
 * write, and answers how many records these would be. No network is lent.
 *
 * work: GRADES_COMPILE_WORK_BYTES(cells), as for grades_compile; any contents.
 * They hold anything after an answer that is no refusal.
 * depth: GRADES_DEPTH_BYTES, low byte first. The depth of a constant and of a
 * literal is 0, that of a gate one more than of the deeper of its two records.
 *
 * Answers the number of records, 1 to GRADES_MAX_COMPILED_RECORDS. Refusals:
 * SHAPE; BUFFER, for limits, work or depth; LIMITS.
 */
uint32_t grades_forecast(const uint8_t *shape, size_t shape_bytes,
                         const uint8_t *lower, size_t lower_bytes,
                         const uint8_t *upper, size_t upper_bytes,
                         uint8_t *work, size_t work_bytes,
                         uint8_t *depth, size_t depth_bytes);

/*
 * The same two calls under settings for how a network is grown: one byte, with
 * a bit for each habit that is not the usual one. Any of the bits may be set
 * together. With 0 the calls are grades_compile and grades_forecast.
 *
 * A network is grown in stages, of which the first has the whole table
 * (docs/RULES.md, "Stages", has every step). A stage drops the conditions that
 * its limits can do without. With two or more left, it looks for two sets of
 * them, like s and t above, that join by max, and for two that join by min. If
 * either gate has found some, the stage joins. If neither has, it splits: it
 * takes one condition, and grows a part for each of its values; or it joins
 * weakly, where s is one condition and t is empty, if that is found to have
 * fewer records. All of these start further stages. The settings hold in every
 * stage:
 *   GRADES_MIN_WINS_TIES   which gate wins a full tie: min; usual is max. Where
 *                          both gates have found two sets, the stage joins by
 *                          the one with more conditions in its sets; if they
 *                          have as many, by the one whose sets differ less in
 *                          size. If they differ as much too, it is a full tie.
 *   GRADES_SPLITS_ON_MOST  which condition a split takes: of those that are
 *                          left in its stage the one with most values, and of
 *                          several such the one with the lowest number; usual
 *                          is the lowest number of all that are left.
 *   GRADES_NO_WEAK_JOINS   no weak join is tried: where neither gate has found
 *                          two sets, the stage splits.
 * Bits 3 to 7 are not looked at.
 *
 * Under any settings the network's grade is within the limits in every cell,
 * and a forecast is that of the network which grades_compile_with writes under
 * the same settings. Buffers are as for grades_compile and grades_forecast,
 * with as many bytes. Both calls answer the number of records, 1 to
 * GRADES_MAX_COMPILED_RECORDS. Refusals: SHAPE; BUFFER, for limits, work,
 * network or depth; LIMITS. No settings are refused.
 */
#define GRADES_MIN_WINS_TIES 1u
#define GRADES_SPLITS_ON_MOST 2u
#define GRADES_NO_WEAK_JOINS 4u

uint32_t grades_compile_with(const uint8_t *shape, size_t shape_bytes,
                             const uint8_t *lower, size_t lower_bytes,
                             const uint8_t *upper, size_t upper_bytes,
                             uint8_t settings,
                             uint8_t *work, size_t work_bytes,
                             uint8_t *network, size_t network_bytes);

uint32_t grades_forecast_with(const uint8_t *shape, size_t shape_bytes,
                              const uint8_t *lower, size_t lower_bytes,
                              const uint8_t *upper, size_t upper_bytes,
                              uint8_t settings,
                              uint8_t *work, size_t work_bytes,
                              uint8_t *depth, size_t depth_bytes);

/*
 * Checks a network, whoever made it, against a table's limits.
 *
 * work: GRADES_RUN_WORK_BYTES(network_bytes), a byte for each record; any
 * contents. They hold anything after a call that was not refused.
 *
 * Answers 0 if in every cell the network's grade is within the limits; else,
 * of the first cell where it is not,
 *   1 + 16 * cell + grade
 * from which GRADES_OUTSIDE_CELL and GRADES_OUTSIDE_GRADE take the two.
 * Refusals: SHAPE; BUFFER, for limits, or for work_bytes less than
 * network_bytes / 16, rounded down; LIMITS; NETWORK.
 */
#define GRADES_OUTSIDE_CELL(answer) (((answer) - 1u) / 16u)
#define GRADES_OUTSIDE_GRADE(answer) (((answer) - 1u) % 16u)

uint32_t grades_check(const uint8_t *network, size_t network_bytes,
                      const uint8_t *shape, size_t shape_bytes,
                      const uint8_t *lower, size_t lower_bytes,
                      const uint8_t *upper, size_t upper_bytes,
                      uint8_t *work, size_t work_bytes);

/*
 * The grade of a network at a cell.
 *
 * work: GRADES_RUN_WORK_BYTES(network_bytes), a byte for each record; any
 * contents. They hold anything after a grade.
 * cell: the number of a cell.
 *
 * Answers the grade, 0 to 15. Refusals, here of GRADES_EVALUATE_REFUSED:
 * SHAPE; BUFFER, for work_bytes less than network_bytes / 16, rounded down;
 * NETWORK; CELL, for a cell that is not below the number of cells.
 */
uint32_t grades_evaluate(const uint8_t *network, size_t network_bytes,
                         const uint8_t *shape, size_t shape_bytes,
                         uint8_t *work, size_t work_bytes,
                         uint32_t cell);

/*
 * The grades of a network at each cell of a list, as for a day of visits.
 *
 * cells: count numbers, in any order. The network runs once for each cell,
 * however often its number is there.
 * grades: a byte for each number, at its place in the list: the grade that
 * grades_evaluate answers, or GRADES_NO_CELL where the number is not below the
 * number of cells.
 * work: GRADES_RUN_WORK_BYTES(network_bytes), a byte for each record; any
 * contents. They hold anything after a call that was not refused, but stay as
 * they are where count is 0.
 *
 * Answers 0. Refusals, also where count is 0: SHAPE; BUFFER, for work_bytes
 * less than network_bytes / 16, rounded down, or for grades_bytes less than
 * count; NETWORK.
 */
#define GRADES_NO_CELL 255u

uint32_t grades_evaluate_each(const uint8_t *network, size_t network_bytes,
                              const uint8_t *shape, size_t shape_bytes,
                              const uint16_t *cells, size_t count,
                              uint8_t *grades, size_t grades_bytes,
                              uint8_t *work, size_t work_bytes);

#ifdef __cplusplus
}
#endif

#endif
