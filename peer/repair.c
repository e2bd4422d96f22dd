/* repair.c: a store that came back from a bad card.
 *
 * No chain is walked entry by entry. A portion names at most one other, so how a walk goes on from it is a fact of the portion alone: one pass over the
 * links tells for each portion whether the walk from there comes to an end, how many portions it meets and which is the last. Two walks that meet in one portion go
 * on together to the same last one; so a whole chain shares a portion with another exactly when it ends in the same. */
#include <stdio.h>
#include <string.h>

#include "peer.h"

/* ---- walks ---- */

/* Of the walk from a portion. */
struct walk {
    enum { NOT_MET, ON_THE_WAY, WRONG, WHOLE } state;
    uint16_t portions, last;
};

/* What is behind a walk that has come to this number: an end, a portion of which all is told, or one that it has met before. A number that is no portion's, a
 * free link too, is wrong. */
static struct walk rest_of(const struct walk *walks, unsigned portions, unsigned at)
{
    struct walk rest = {at == CHAIN_END ? WHOLE : WRONG, 0, 0};

    return at < portions && walks[at].state != ON_THE_WAY ? walks[at] : rest;
}

/* Each portion is met once. */
static void follow_links(const uint16_t *links, unsigned portions, struct walk *walks)
{
    uint16_t way[MOST_PORTIONS];

    memset(walks, 0, portions * sizeof walks[0]);
    for (unsigned i = 0; i < portions; i++) {
        unsigned at = i, met = 0;
        struct walk rest;
        while (at < portions && walks[at].state == NOT_MET) {
            walks[at].state = ON_THE_WAY;
            way[met++] = (uint16_t)at;
            at = links[at];
        }
        rest = rest_of(walks, portions, at);
        while (met-- > 0) {
            if (rest.portions == 0)
                rest.last = way[met];
            rest.portions++;
            walks[way[met]] = rest;
        }
    }
}

/* ---- what becomes of an entry ---- */

enum fate { NOT_LISTED, KEPT, BY_NAME, BY_CHAIN, BY_SIZE, BY_SHARED, BY_CONTENT };

static const char *const fate_words[] = {"", "kept", "name", "chain", "size", "shared", "content"};

struct fates {
    struct walk walks[MOST_PORTIONS];
    bool kept_end[MOST_PORTIONS];  /* the last portion of a kept entry */
    uint8_t of[MOST_ENTRIES];
};

/* "a name that an earlier kept entry of its kind has (3 counts as 1)"; none of kind 3 is ever kept. */
static bool name_kept(const struct memory *m, const struct fates *f, unsigned i)
{
    const uint8_t *entry = entry_at(m, i);

    for (unsigned k = 0; k < i; k++) {
        const uint8_t *earlier = entry_at(m, k);
        if (f->of[k] == KEPT && (earlier[0] == PICTURE) == (entry[0] == PICTURE) && memcmp(earlier + 1, entry + 1, 9) == 0)
            return true;
    }
    return false;
}

static struct walk walk_of(const struct memory *m, const struct fates *f, const uint8_t *entry)
{
    return entry_first(entry) < m->portions ? f->walks[entry_first(entry)] : (struct walk){WRONG, 0, 0};
}

/* The chain is whole and of the right number of portions. */
static bool legal_content(const struct memory *m, const uint8_t *entry)
{
    struct declarations d = nothing_declared(&example_formats);

    switch (entry[0]) {
    case FORM: return sound_form(m, entry, &d, NULL);
    case PICTURE: return legal_picture_chain(start_of(m, entry));
    default: return false;
    }
}

static enum fate fate_of(const struct memory *m, const struct fates *f, unsigned i)
{
    const uint8_t *entry = entry_at(m, i);
    struct walk walk = walk_of(m, f, entry);

    if (entry[0] == EMPTY)
        return NOT_LISTED;
    if (entry[0] > RECORDING || !legal_entry_name(entry) || name_kept(m, f, i))
        return BY_NAME;
    if (walk.state != WHOLE)
        return BY_CHAIN;
    if (walk.portions != portions_for(entry_size(entry)) || (entry[0] == PICTURE && entry_size(entry) > MOST_PICTURE))
        return BY_SIZE;
    if (f->kept_end[walk.last])
        return BY_SHARED;
    return legal_content(m, entry) ? KEPT : BY_CONTENT;
}

static void judge_entries(const struct memory *m, struct fates *f)
{
    follow_links(m->links, m->portions, f->walks);
    memset(f->kept_end, 0, sizeof f->kept_end);
    for (unsigned i = 0; i < m->entries; i++) {
        f->of[i] = (uint8_t)fate_of(m, f, i);
        if (f->of[i] == KEPT)
            f->kept_end[walk_of(m, f, entry_at(m, i)).last] = true;
    }
}

/* ---- the list ---- */

enum { MOST_LIST = MOST_ENTRIES * 16 };

static size_t write_list(const struct fates *f, unsigned entries, char *list)
{
    size_t length = 0;

    for (unsigned i = 0; i < entries; i++)
        if (f->of[i] != NOT_LISTED)
            length += (size_t)sprintf(list + length, "%u %s\n", i, fate_words[f->of[i]]);
    return length;
}

/* ---- what is left ---- */

static void free_portion(const struct memory *m, unsigned portion)
{
    memset(m->store + (size_t)portion * PORTION, 0, PORTION);
    m->links[portion] = FREE;
}

/* The portions of a kept entry are marked, and what its content does not fill of the last one is zeroed. */
static void leave_entry(const struct memory *m, const struct walk *walk, const uint8_t *entry, bool *used)
{
    size_t filled = entry_size(entry) - (size_t)(walk->portions - 1) * PORTION;

    for (unsigned portion = entry_first(entry); portion != CHAIN_END; portion = m->links[portion])
        used[portion] = true;
    memset(m->store + (size_t)walk->last * PORTION + filled, 0, PORTION - filled);
}

/* Gives how many portions are free then. */
static unsigned leave_store(const struct memory *m, const struct fates *f)
{
    bool used[MOST_PORTIONS] = {false};
    unsigned free_portions = 0;

    for (unsigned i = 0; i < m->entries; i++) {
        struct walk walk = walk_of(m, f, entry_at(m, i));
        if (f->of[i] == KEPT)
            leave_entry(m, &walk, entry_at(m, i), used);
        else
            memset(entry_at(m, i), 0, ENTRY);
    }
    for (unsigned i = 0; i < m->portions; i++)
        if (!used[i]) {
            free_portion(m, i);
            free_portions++;
        }
    return free_portions;
}

/* ---- the call ---- */

/* "Refusals: 1, then 20 if the list does not fit, with nothing touched." The counts are stored at every answer, if there are three. */
uint8_t peer_repair(uint8_t *session, size_t session_len, uint64_t *counts, size_t counts_len, uint64_t rows, uint8_t *store,
                    size_t store_len, uint16_t *links, size_t links_len, uint8_t *directory, size_t directory_len, uint8_t *values,
                    size_t values_len, uint8_t *output, size_t output_len)
{
    char list[MOST_LIST];
    struct fates fates;
    struct session s;
    size_t length;

    if (counts_len == 3)
        counts[0] = counts[1] = counts[2] = 0;
    if (session_len != IMAGE || counts_len != 3 || rows < 1 || rows > MOST_ROWS || !store_right(store_len, links_len, directory_len, values_len))
        return BAD_LENGTH;
    struct memory m = {NULL, (unsigned)rows, store, links, (unsigned)links_len, directory, (unsigned)(directory_len / ENTRY), values};
    judge_entries(&m, &fates);
    length = write_list(&fates, m.entries, list);
    if (length > output_len)
        return OUTPUT_TOO_SHORT;
    if (length > 0)
        memcpy(output, list, length);
    counts[1] = length;
    s = opened((unsigned)rows, leave_store(&m, &fates));
    write_image(&s, session);
    memset(values, 0, VALUES);
    return TAKEN;
}
