/* verdicts.h: what becomes of each entry of a damaged store, told a second time, sentence by sentence; and what a repair owes beside it. */
#ifndef VERDICTS_H
#define VERDICTS_H

#include <stdbool.h>

#include "desk.h"
#include "peer.h"

enum { TOLD_NOTHING, TOLD_KEPT, TOLD_NAME, TOLD_CHAIN, TOLD_SIZE, TOLD_SHARED, TOLD_CONTENT, TELLINGS };

extern const char *const told_words[TELLINGS];

/* A store as it comes from a card: links are two bytes each, low byte first. */
struct card {
    uint8_t *store, *links, *directory;
    unsigned portions, entries;
};

struct telling {
    uint8_t of[MOST_ENTRIES];
    char list[16 * MOST_ENTRIES];
    size_t length;
};

/* The card that lies on a desk, with these lengths, which are right. */
struct card card_on(const struct desk *d, const size_t length[SLICES]);

void tell_verdicts(const struct card *c, struct telling *t);

/* The lent lengths and the rows are such that a repair may not answer 1. */
bool repair_lengths_right(const size_t length[SLICES], uint64_t rows);

/* Of a repair that gave this answer to memory that was as on the desk before and is now as on the desk after: NULL if all that it owes holds, or what does
 * not. t is what is told of the memory before, if the lengths are right. */
const char *repair_fault(const struct desk *before, const struct desk *after, const size_t length[SLICES], uint64_t rows, unsigned answer,
                         const struct telling *t);

#endif
