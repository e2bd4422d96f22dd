/* reading.h: Code 128 the other way round, from bars to data, and its writing told a second time, by rows of digits. Nothing of bars.c is used. */
#ifndef READING_H
#define READING_H

#include <stdbool.h>
#include <stdint.h>

enum { MOST_VALUES = 256 };

/* A symbol as it was read: its values from the start to the last one before the check, the check, and the data. */
struct reading {
    uint8_t value[MOST_VALUES], check, data[2 * MOST_VALUES];
    unsigned count, length;
};

/* Bars and spaces in turn, a bar first, in dots, with modules of so many dots. False if they are no whole symbol of sets B and C, or its check is wrong. */
bool read_bars(const uint8_t *widths, unsigned count, unsigned narrow, struct reading *r);

/* The widths in a row of a page, from its first black dot to its last, and where the first stands. */
unsigned row_widths(const uint8_t *row, unsigned width, uint8_t *widths, unsigned *first);

/* How often the set changes behind the start. */
unsigned changes_of_set(const struct reading *r);

/* The values that write this data, row of digits by row of digits. Gives their number. */
unsigned write_by_rows(const uint8_t *data, unsigned length, uint8_t *values);

#endif
