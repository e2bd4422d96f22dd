/* stores.h: stores by chance, whole ones and damaged ones, for programs that have them repaired. */
#ifndef STORES_H
#define STORES_H

#include "verdicts.h"

/* Chances of one's own. */
uint64_t next_chance(uint64_t *state);

/* Forms and pictures over the card, which is then sound, mostly with portions left. Now and then a form or picture is one only nearly, and the card not sound by that alone. */
void make_card(uint64_t *state, const struct card *c);

enum card_damage {
    FLIPPED_DIRECTORY, FLIPPED_LINKS, FLIPPED_STORE, CROSSED_LINKS, A_CIRCLE, JOINED_CHAINS, INTO_FREE, OUT_OF_RANGE, CUT_CHAIN, SAME_NAME, SAME_FIRST, COPIED_ENTRY, MOVED_ENTRY, OTHER_SIZE, LONG_CHAIN,
    UNUSED_BYTES, OTHER_KIND, OTHER_NAME, OTHER_LINE, OTHER_PICTURE, CUT_FILE, CARD_DAMAGES
};

extern const char *const damage_names[CARD_DAMAGES];

void damage_card(uint64_t *state, const struct card *c, enum card_damage d);

/* Any of them, entries and links a little likelier than cut files, and long chains where there is room for them. */
enum card_damage some_damage(uint64_t *state, const struct card *c);

/* Content of a form by chance, about so many bytes or just so many; spoilt: one line is not what recording takes, or keeps, mostly. */
size_t make_form(uint64_t *state, uint8_t *out, size_t size, bool exactly, bool spoilt);

#endif
