/* writings.h: which writing of Code 128 is asked for, told twice more from the paper's sentence: by making all writings, and by lists of so many values. Nothing of
 * bars.c or reading.c is used. Each gives the number of values, from the start to the last one before the check. */
#ifndef WRITINGS_H
#define WRITINGS_H

#include <stdint.h>

enum { MOST_WRITTEN = 128 };

/* Of up to 20 bytes or so: their number doubles with each byte. made grows by the number of writings. */
unsigned least_of_all(const uint8_t *data, unsigned length, uint8_t *values, uint64_t *made);

/* Of up to MOST_WRITTEN bytes. */
unsigned least_of_lists(const uint8_t *data, unsigned length, uint8_t *values);

#endif
