/* store.c: portions, links and chains, directory entries and names, erasing, adding, listing. */
#include <stdio.h>
#include <string.h>

#include "peer.h"

/* ---- entries ---- */

uint8_t *entry_at(const struct memory *m, unsigned i)
{
    return m->directory + (size_t)i * ENTRY;
}

unsigned entry_first(const uint8_t *entry)
{
    return entry[10] | (unsigned)entry[11] << 8;
}

uint32_t entry_size(const uint8_t *entry)
{
    return entry[12] | (uint32_t)entry[13] << 8 | (uint32_t)entry[14] << 16 | (uint32_t)entry[15] << 24;
}

static void set_size(uint8_t *entry, uint32_t size)
{
    for (unsigned i = 0; i < 4; i++)
        entry[12 + i] = (uint8_t)(size >> (8 * i));
}

unsigned find_entry(const struct memory *m, uint8_t kind, const struct name *name)
{
    for (unsigned i = 0; i < m->entries; i++) {
        const uint8_t *entry = entry_at(m, i);
        if (entry[0] == kind && memcmp(entry + 1, name->bytes, 9) == 0)
            return i;
    }
    return NOT_THERE;
}

static unsigned lowest_empty(const struct memory *m)
{
    for (unsigned i = 0; i < m->entries; i++)
        if (entry_at(m, i)[0] == EMPTY)
            return i;
    return NOT_THERE;
}

/* ---- chains ---- */

/* "size/256 rounded up, at least one" */
unsigned portions_for(uint32_t size)
{
    return size == 0 ? 1 : (size - 1) / PORTION + 1;
}

static uint8_t *portion_at(const struct memory *m, unsigned portion)
{
    return m->store + (size_t)portion * PORTION;
}

static unsigned lowest_free(const struct memory *m, unsigned from)
{
    while (from < m->portions && m->links[from] != FREE)
        from++;
    return from;
}

struct cursor start_of(const struct memory *m, const uint8_t *entry)
{
    struct cursor at = {m->store, m->links, entry_first(entry), 0, entry_size(entry)};

    return at;
}

unsigned next_bytes(struct cursor *at, const uint8_t **bytes)
{
    unsigned count = PORTION - at->place;

    if (at->left == 0)
        return 0;
    if (count > at->left)
        count = at->left;
    *bytes = at->store + (size_t)at->portion * PORTION + at->place;
    at->left -= count;
    at->place = 0;
    at->portion = at->links[at->portion];  /* past the end only when nothing is left */
    return count;
}

/* Goes on by count bytes, which all stand in the portion. */
static void step_over(struct cursor *at, unsigned count)
{
    at->left -= count;
    at->place += count;
    if (at->place == PORTION && at->left > 0) {
        at->place = 0;
        at->portion = at->links[at->portion];
    }
}

/* A line inside one portion is handed out where it stands; one across two portions is gathered in the room. */
const uint8_t *next_line(struct cursor *at, uint8_t room[MOST_LINE + 1], unsigned *length)
{
    unsigned gathered = 0;

    while (at->left > 0) {
        const uint8_t *here = at->store + (size_t)at->portion * PORTION + at->place;
        unsigned count = PORTION - at->place;
        const uint8_t *lf;

        if (count > at->left)
            count = at->left;
        lf = memchr(here, '\n', count);
        if (lf)
            count = (unsigned)(lf - here) + 1;
        step_over(at, count);
        if (lf && gathered == 0) {
            *length = count - 1;
            return here;
        }
        if (gathered + count > MOST_LINE + 1)
            return NULL;
        memcpy(room + gathered, here, count);
        gathered += count;
        if (lf) {
            *length = gathered - 1;
            return room;
        }
    }
    return NULL;
}

/* ---- erasing and adding ---- */

/* Portions and entry are zeroed in their place; no other entry moves. */
void erase_entry(const struct memory *m, uint16_t *free_portions, unsigned i)
{
    uint8_t *entry = entry_at(m, i);
    unsigned portion = entry_first(entry);

    *free_portions = (uint16_t)(*free_portions + portions_for(entry_size(entry)));
    while (portion != CHAIN_END) {
        unsigned after = m->links[portion];
        memset(portion_at(m, portion), 0, PORTION);
        m->links[portion] = FREE;
        portion = after;
    }
    memset(entry, 0, ENTRY);
}

/* A chain of the lowest free portions in rising order. There are enough. */
static unsigned take_portions(const struct memory *m, unsigned count, const uint8_t *content, uint32_t size)
{
    unsigned first = lowest_free(m, 0), portion = first;

    for (;;) {
        unsigned part = size < PORTION ? size : PORTION;
        unsigned after = CHAIN_END;

        if (part > 0)
            memcpy(portion_at(m, portion), content, part);
        if (--count > 0)
            after = lowest_free(m, portion + 1);
        m->links[portion] = (uint16_t)after;
        if (count == 0)
            return first;
        content += part;
        size -= part;
        portion = after;
    }
}

/* "When both hold, 19 is given": so the portions are asked for first. */
enum answer new_entry(const struct memory *m, uint16_t *free_portions, uint8_t kind, const struct name *name, const uint8_t *content,
                      uint32_t size)
{
    unsigned i = lowest_empty(m), needed = portions_for(size), first;
    uint8_t *entry;

    if (*free_portions < needed)
        return TOO_FEW_PORTIONS;
    if (i == NOT_THERE)
        return NO_EMPTY_ENTRY;
    first = take_portions(m, needed, content, size);
    *free_portions = (uint16_t)(*free_portions - needed);
    entry = entry_at(m, i);
    entry[0] = kind;
    memcpy(entry + 1, name->bytes, 9);
    entry[10] = (uint8_t)first;
    entry[11] = (uint8_t)(first >> 8);
    set_size(entry, size);
    return TAKEN;
}

static unsigned last_portion(const struct memory *m, const uint8_t *entry)
{
    unsigned portion = entry_first(entry);

    while (m->links[portion] != CHAIN_END)
        portion = m->links[portion];
    return portion;
}

/* A line never needs more than one new portion: it has at most 256 bytes with its LF. */
enum answer append(const struct memory *m, uint16_t *free_portions, unsigned i, const uint8_t *bytes, unsigned length)
{
    uint8_t *entry = entry_at(m, i);
    uint32_t size = entry_size(entry);
    unsigned room = portions_for(size) * PORTION - size;
    unsigned part = length < room ? length : room, last;

    if (part < length && *free_portions == 0)
        return TOO_FEW_PORTIONS;
    last = last_portion(m, entry);
    if (part < length) {
        unsigned taken = lowest_free(m, 0);
        --*free_portions;
        m->links[last] = (uint16_t)taken;
        m->links[taken] = CHAIN_END;
        memcpy(portion_at(m, taken), bytes + part, length - part);
    }
    memcpy(portion_at(m, last) + (PORTION - room), bytes, part);
    set_size(entry, size + length);
    return TAKEN;
}

/* ---- listings ---- */

/* "A listing line is size, comma, quoted name"; with its LF at most 22 bytes. */
static unsigned listing_line(const uint8_t *entry, char *line)
{
    return (unsigned)sprintf(line, "%u,\"%.*s\"\n", (unsigned)entry_size(entry), entry[1], (const char *)entry + 2);
}

enum answer list_kind(const struct memory *m, uint8_t kind, uint8_t *output, size_t room, uint64_t *written)
{
    char line[32];
    size_t total = 0, place = 0;

    for (unsigned i = 0; i < m->entries; i++)
        if (entry_at(m, i)[0] == kind)
            total += listing_line(entry_at(m, i), line);
    if (total > room)
        return OUTPUT_TOO_SHORT;
    for (unsigned i = 0; i < m->entries; i++)
        if (entry_at(m, i)[0] == kind) {
            unsigned length = listing_line(entry_at(m, i), line);
            memcpy(output + place, line, length);
            place += length;
        }
    *written = total;
    return TAKEN;
}

enum answer list_form(const struct memory *m, unsigned i, uint8_t *output, size_t room, uint64_t *written)
{
    struct cursor at = start_of(m, entry_at(m, i));
    const uint8_t *bytes;
    unsigned count;

    if (at.left > room)
        return OUTPUT_TOO_SHORT;
    *written = at.left;
    while ((count = next_bytes(&at, &bytes)) > 0) {
        memcpy(output, bytes, count);
        output += count;
    }
    return TAKEN;
}
