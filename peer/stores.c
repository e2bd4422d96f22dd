/* stores.c: see stores.h. */
#include "stores.h"

#include <stdio.h>
#include <string.h>

uint64_t next_chance(uint64_t *state)
{
    uint64_t z = (*state += 0x9e3779b97f4a7c15u);

    z = (z ^ z >> 30) * 0xbf58476d1ce4e5b9u;
    z = (z ^ z >> 27) * 0x94d049bb133111ebu;
    return z ^ z >> 31;
}

static unsigned below(uint64_t *state, unsigned n)
{
    return (unsigned)(next_chance(state) % n);
}

static unsigned between(uint64_t *state, unsigned least, unsigned most)
{
    return least + below(state, most - least + 1);
}

static bool chance(uint64_t *state, unsigned in_hundred)
{
    return below(state, 100) < in_hundred;
}

/* ---- forms ---- */

/* What a line needs to stand before it, what it brings, what it takes away: variables, counters, a date and a time that are digits alone. */
enum { V0 = 1, V1 = 2, V2 = 4, C0 = 8, C1 = 16, DATE = 32, TIME = 64, DECLARED = V0 | V1 | V2 | C0 | C1 };

static const struct {
    const char *line;
    uint8_t needs, brings, takes;
} good_lines[] = {
    {"V0,5,L,\"name\"", 0, V0, 0}, {"V1,8,Z,\"\"", 0, V1, 0}, {"V2,3,N,\"n\"", 0, V2, 0}, {"C0,4,+1,\"\"", 0, C0, 0}, {"C1,6,-99999,\"NO\"", 0, C1, 0}, {"TDy2", 0, DATE, 0}, {"TDmnxDD", 0, 0, DATE}, {"TDdd-me-y4", 0, 0, DATE},
    {"TTs", 0, TIME, 0}, {"TTh:m:s", 0, 0, TIME}, {"R0,0", 0, 0, 0}, {"R2048,4096", 0, 0, 0}, {"LO1,2,3,4", 0, 0, 0}, {"LE0,0,2047,2047", 0, 0, 0}, {"LW5,5,1,1", 0, 0, 0}, {"LS1,2,3,4,5", 0, 0, 0}, {"LSE0,0,1,9,9", 0, 0, 0},
    {"LSW0,0,80,2047,4095", 0, 0, 0}, {"X10,10,3,360,250", 0, 0, 0}, {"GG0,0,\"P\"", 0, 0, 0}, {"GG2047,4095,\"LOGO1\"", 0, 0, 0}, {"A0,0,0,1,1,N,\"text\"", 0, 0, 0}, {"A5,6,3,6,9,R,\"\"", 0, 0, 0}, {"A0,0,1,2,3,N,TD\" \"TT", 0, 0, 0},
    {"B0,0,0,3,1,2,24,N,\"AB-1\"", 0, 0, 0}, {"B1,2,1,1,2,3,24,B,C,\"a b\"", 0, 0, 0}, {"B0,0,2,E30,1,2,24,B,R,\"123456789012\"", 0, 0, 0}, {"B0,0,3,2,6,10,1000,B,\"12\"", 0, 0, 0}, {"A0,0,0,1,1,N,V0", V0, 0, 0},
    {"A0,0,0,1,1,N,V0L1V0M3.2V0R1", V0, 0, 0}, {"B0,0,0,1,1,2,24,N,V0", V0, 0, 0}, {"B0,0,0,2,1,2,24,N,V1", V1, 0, 0}, {"B0,0,0,3,1,2,24,N,V1M2.3", V1, 0, 0}, {"A0,0,0,1,1,R,V2\"\"V2", V2, 0, 0}, {"B0,0,0,2,1,2,24,B,C0", C0, 0, 0},
    {"B0,0,0,E30,1,2,24,N,C0C0C0", C0, 0, 0}, {"A0,0,0,1,1,N,C1\"-\"C1L6", C1, 0, 0}, {"B0,0,0,2,1,2,24,N,TD", DATE, 0, 0}, {"B0,0,0,2,1,2,24,B,C,TTTT", TIME, 0, 0}, {"B9,9,0,E30,1,2,24,N,C0V1", C0 | V1, 0, 0},
    {"B0,0,0,2,1,2,24,N,TDTT", DATE | TIME, 0, 0}};

/* Lines that recording would not take, would not keep, or would write otherwise; some of them only where nothing is declared that they name, or where something is. */
static const char *const bad_lines[] = {
    "", ";", "; comment", "FE", "P1", "ZT", "N", "Q1,1", "q80", "VC", "FI", "FR\"A\"", "FS\"A\"", "TS1,1,1,1,1,1", "?V0,\"1\"", "GM\"A\",200", "GK\"*\"", "R1,1 ", " R1,1", "R00,0", "R0,00", "R2049,0", "LO01,2,3,4", "LO1,2,3", "LO1,2,3,0",
    "LO1,2,3,4,5", "LS1,2,03,4,5", "LS1,2,81,4,5", "LSX1,2,3,4,5", "X10,10,0,360,250", "X10,10,3,0360,250", "C2,1,-0,\"\"", "C2,1,0,\"\"", "C2,1,+00,\"\"", "C2,1,+100000,\"\"", "C2,0,+1,\"\"", "C02,1,+1,\"\"", "V3,05,L,\"\"", "V3,33,L,\"\"", "V3,5,X,\"\"",
    "V3,5,L,\"1234567890123456789012345\"", "V0,5,L,\"name\"", "C0,4,+1,\"\"", "GG0,0,\"p\"", "GG0,0,\"\"", "GG0,0,\"A*\"", "GG0,0,\"123456789\"", "GG0,00,\"P\"", "A0,0,0,1,1,N,V9", "A0,0,0,1,1,N,C9", "A0,0,0,1,1,N,V0", "A0,0,0,1,1,N,C0L5", "A0,0,0,1,1,N,V0M05.1",
    "A0,0,0,1,1,N,V0M3.4", "A0,0,0,1,1,B,\"x\"", "A0,0,0,7,1,N,\"x\"", "A0,0,0,1,1,N,", "A0,0,0,1,1,N,\"x", "A0,0,0,1,1,N,\"\x7f\"", "B0,0,0,2,1,2,24,N,\"1\"", "B0,0,0,3,1,2,24,N,\"a\"", "B0,0,0,E30,1,2,24,N,\"1\"", "B0,0,0,2,1,2,24,N,TD", "B0,0,0,2,1,2,24,N,TT",
    "B0,0,0,2,1,2,24,N,C0C1V0", "B0,0,0,1,1,2,24,N,\"\"", "B0,0,0,1,2,2,24,N,\"1\"", "B0,0,0,1,1,2,24,BC,\"1\"", "TDy2-y4", "TDdd-", "TDy3", "TTh:m:s:", "TT", "T", "\x01", "\xff\xff", "AB"};

static size_t put_line(uint8_t *out, const char *line)
{
    size_t length = strlen(line);

    memcpy(out, line, length);
    out[length] = '\n';
    return length + 1;
}

/* A text line of so many bytes with its LF, 16 to 144. */
static size_t put_text_line(uint64_t *state, uint8_t *out, size_t length)
{
    memcpy(out, "A1,2,0,1,1,N,\"", 14);
    memset(out + 14, (int)('0' + below(state, 75)), length - 16);
    memcpy(out + length - 2, "\"\n", 2);
    return length;
}

/* Text lines of so many bytes in all, which are 16 or more. */
static size_t fill_up(uint64_t *state, uint8_t *out, size_t size)
{
    size_t done = 0;

    while (size - done > 0) {
        size_t left = size - done, length = left <= 144 ? left : left < 160 ? left / 2 : between(state, 16, 128);
        done += put_text_line(state, out + done, length);
    }
    return done;
}

/* A line longer than one may be, with its LF 257 bytes or a few more. */
static size_t put_long_line(uint64_t *state, uint8_t *out)
{
    size_t length = between(state, 257, 262), at = 14;

    memcpy(out, "A1,2,0,1,1,N,\"", 14);
    while (at < length - 2) {
        out[at] = at % 50 == 0 ? '"' : 'x';
        if (at % 50 == 0 && at + 1 < length - 2)
            out[++at] = '"';
        at++;
    }
    memcpy(out + length - 2, "\"\n", 2);
    return length;
}

static size_t put_good_line(uint64_t *state, uint8_t *out, unsigned *have)
{
    for (;;) {
        unsigned i = below(state, sizeof good_lines / sizeof good_lines[0]);
        if ((good_lines[i].needs & ~*have) || (good_lines[i].brings & DECLARED & *have))
            continue;
        *have = (*have | good_lines[i].brings) & ~(unsigned)good_lines[i].takes;
        return put_line(out, good_lines[i].line);
    }
}

/* Without `exactly` it may be up to some 40 bytes more. */
size_t make_form(uint64_t *state, uint8_t *out, size_t size, bool exactly, bool spoilt)
{
    static const char *const declarations[] = {"V0,5,L,\"name\"", "V1,8,Z,\"\"", "V2,3,N,\"n\"", "C0,4,+1,\"\"", "C1,6,-99999,\"NO\""};
    size_t done = 0, spoil_at = spoilt ? below(state, (unsigned)size + 1) : ~(size_t)0;
    unsigned have = 0, first = below(state, 6);

    for (unsigned i = first; i < 5 && done + 60 < size; i++) {
        done += put_line(out + done, declarations[i]);
        have |= 1u << i;
    }
    while (exactly ? done + 60 < size : done < size) {
        if (done >= spoil_at) {
            done += chance(state, 6) ? put_long_line(state, out + done) : put_line(out + done, bad_lines[below(state, sizeof bad_lines / sizeof bad_lines[0])]);
            spoil_at = ~(size_t)0;
        } else if (size - done > 300 && chance(state, size > 3000 ? 80 : 30))
            done += fill_up(state, out + done, between(state, 100, 144));
        else
            done += put_good_line(state, out + done, &have);
    }
    if (exactly && done + 16 <= size)
        done += fill_up(state, out + done, size - done);
    if (spoilt && spoil_at != ~(size_t)0) {
        if (done > 0 && chance(state, 25))
            done--;  /* its last LF */
        else
            done += put_line(out + done, bad_lines[below(state, sizeof bad_lines / sizeof bad_lines[0])]);
    }
    return done;
}

/* ---- pictures ---- */

/* Legal, if its size is 130 to 32,768, with any bytes where it may have them. */
static size_t make_picture(uint64_t *state, uint8_t *out, size_t size)
{
    static uint8_t line[MOST_PICTURE + 600];
    size_t length = write_picture(line, "P", 1, size), head = length - size;

    memcpy(out, line + head, size);
    if (size < PICTURE_HEAD + 2)
        return size;
    for (size_t i = PICTURE_HEAD; i < size; i++) {
        if (out[i] == 193)
            i++;  /* its value stays 0 */
        else if (size < 2000 || chance(state, 3))
            out[i] = (uint8_t)below(state, 192);
    }
    for (unsigned i = 12; i < 65; i += 7)
        out[i] = (uint8_t)next_chance(state);  /* of no meaning */
    return size;
}

/* ---- a card ---- */

static const char *const names[] = {"A", "B", "C", "P", "LOGO1", "12345678", " ", "X Y", "A ", "~", "AA", "`{[@", "0", "TEST", "ABCDEFGH", "ABCDEFGI", "Z"};

static void put_two(uint8_t *at, unsigned number)
{
    at[0] = (uint8_t)number;
    at[1] = (uint8_t)(number >> 8);
}

static unsigned get_two(const uint8_t *at)
{
    return at[0] | (unsigned)at[1] << 8;
}

static void put_size(uint8_t *entry, uint32_t size)
{
    put_two(entry + 12, size & 65535);
    put_two(entry + 14, size >> 16);
}

static unsigned link_at(const struct card *c, unsigned portion)
{
    return get_two(c->links + 2 * portion);
}

static void put_link(const struct card *c, unsigned portion, unsigned link)
{
    put_two(c->links + 2 * portion, link);
}

static uint8_t *entry_of(const struct card *c, unsigned i)
{
    return c->directory + ENTRY * i;
}

static bool name_free(const struct card *c, uint8_t kind, const uint8_t *name)
{
    for (unsigned i = 0; i < c->entries; i++)
        if (entry_of(c, i)[0] == kind && memcmp(entry_of(c, i) + 1, name, 9) == 0)
            return false;
    return true;
}

/* One that no entry of the kind has. */
static void choose_name(uint64_t *state, const struct card *c, uint8_t kind, unsigned i, uint8_t name[9])
{
    const char *chosen = names[below(state, sizeof names / sizeof names[0])];

    memset(name, 0, 9);
    name[0] = (uint8_t)strlen(chosen);
    memcpy(name + 1, chosen, name[0]);
    if (c->entries > 40 || !name_free(c, kind, name)) {
        memset(name, 0, 9);
        name[0] = (uint8_t)snprintf((char *)name + 1, 8, "#%u", i);
    }
}

/* Chain and entry for content of so many bytes. The portions are the next of the row of free ones. */
static void put_entry(const struct card *c, unsigned i, uint8_t kind, const uint8_t name[9], const uint8_t *content, size_t size, const uint16_t *portions)
{
    size_t count = portions_for((uint32_t)size);
    uint8_t *e = entry_of(c, i);

    e[0] = kind;
    memcpy(e + 1, name, 9);
    put_two(e + 10, portions[0]);
    put_size(e, (uint32_t)size);
    for (size_t k = 0; k < count; k++) {
        size_t part = size - k * PORTION < PORTION ? size - k * PORTION : PORTION;
        memcpy(c->store + (size_t)portions[k] * PORTION, content + k * PORTION, part);
        put_link(c, portions[k], k + 1 < count ? portions[k + 1] : CHAIN_END);
    }
}

/* Mostly small; now and then at the end of a portion, or as much as there is. */
static size_t choose_size(uint64_t *state, unsigned portions_left, bool picture)
{
    size_t most = (size_t)portions_left * PORTION, size;

    if (picture && most > MOST_PICTURE)
        most = MOST_PICTURE;
    switch (below(state, 20)) {
    case 0: size = most; break;
    case 1: size = most > 300 ? most - below(state, 300) : most; break;
    case 2: case 3: case 4: size = PORTION * between(state, 1, portions_left < 4 ? portions_left : 4); break;
    case 5: size = PORTION * between(state, 1, 3) + between(state, 1, 20); break;
    case 6: size = picture ? between(state, chance(state, 60) ? 127 : 0, 131) : below(state, 3) * 5; break;
    default: size = picture ? between(state, 130, chance(state, 70) ? 300 : 900) : between(state, 0, chance(state, 60) ? 120 : 700); break;
    }
    return size < most ? size : most;
}

/* The portions in the order in which they are taken: rising, or anyhow. */
static void order_portions(uint64_t *state, const struct card *c, uint16_t *order)
{
    bool anyhow = chance(state, 60);

    for (unsigned i = 0; i < c->portions; i++) {
        unsigned k = anyhow ? below(state, i + 1) : i;
        order[i] = order[k];
        order[k] = (uint16_t)i;
    }
}

void make_card(uint64_t *state, const struct card *c)
{
    static uint8_t content[MOST_PORTIONS * PORTION + 600];
    uint16_t order[MOST_PORTIONS];
    unsigned taken = 0, sparing = c->entries > 30 ? c->portions / c->entries : c->portions, skip = chance(state, 30) ? 50 : 10, spoil = chance(state, 50) ? 0 : 15;

    memset(c->store, 0, (size_t)c->portions * PORTION);
    memset(c->links, 255, 2 * (size_t)c->portions);
    memset(c->directory, 0, ENTRY * (size_t)c->entries);
    order_portions(state, c, order);
    for (unsigned i = 0; i < c->entries && taken < c->portions; i++) {
        uint8_t kind = chance(state, 55) ? FORM : PICTURE, name[9];
        unsigned left = c->portions - taken, may = left < sparing || chance(state, 5) ? left : sparing;
        size_t size = choose_size(state, may ? may : 1, kind == PICTURE);
        bool spoilt = chance(state, spoil);
        if (chance(state, skip))
            continue;
        if (kind == PICTURE && size < PICTURE_HEAD + 2 && (spoil == 0 || chance(state, 70)))
            size = PICTURE_HEAD + 2;
        size = kind == PICTURE ? make_picture(state, content, size) : make_form(state, content, size, chance(state, 40), spoilt);
        if (portions_for((uint32_t)size) > left)
            continue;
        choose_name(state, c, kind, i, name);
        put_entry(c, i, spoilt && chance(state, 20) ? RECORDING : kind, name, content, size, order + taken);
        taken += portions_for((uint32_t)size);
    }
}

/* ---- damage ---- */

const char *const damage_names[CARD_DAMAGES] = {
    "bits of the directory", "bits of the links", "bits of the store", "crossed links", "a circle", "joined chains", "into free links", "links out of range", "a cut chain", "the same name", "the same first portion",
    "a copied entry", "moved entries", "another size", "a chain of 128 and more", "unused bytes", "another kind", "another name", "another line", "another picture", "a cut file"};

/* An entry that is not empty, if there is one near. */
static unsigned some_entry(uint64_t *state, const struct card *c)
{
    unsigned first = below(state, c->entries);

    for (unsigned i = 0; i < c->entries; i++)
        if (entry_of(c, (first + i) % c->entries)[0] != EMPTY)
            return (first + i) % c->entries;
    return first;
}

static unsigned some_empty_entry(uint64_t *state, const struct card *c)
{
    unsigned first = below(state, c->entries);

    for (unsigned i = 0; i < c->entries; i++)
        if (entry_of(c, (first + i) % c->entries)[0] == EMPTY)
            return (first + i) % c->entries;
    return first;
}

/* A portion of the entry's chain: the first, the last, or any on the way. */
static unsigned some_portion_of(uint64_t *state, const struct card *c, unsigned i)
{
    unsigned at = get_two(entry_of(c, i) + 10), steps = 0, length = 0;

    if (at >= c->portions)
        return below(state, c->portions);
    for (unsigned p = at; p < c->portions && length < c->portions; p = link_at(c, p))
        length++;
    steps = chance(state, 35) ? length - 1 : chance(state, 30) ? 0 : below(state, length);
    while (steps-- > 0)
        at = link_at(c, at);
    return at;
}

static unsigned some_portion(uint64_t *state, const struct card *c)
{
    return chance(state, 90) ? some_portion_of(state, c, some_entry(state, c)) : below(state, c->portions);
}

static unsigned some_free_portion(uint64_t *state, const struct card *c)
{
    unsigned first = below(state, c->portions);

    for (unsigned i = 0; i < c->portions; i++)
        if (link_at(c, (first + i) % c->portions) == FREE)
            return (first + i) % c->portions;
    return first;
}

/* Another than this one, if there is another. */
static unsigned other_entry(uint64_t *state, const struct card *c, unsigned not_this)
{
    unsigned i = some_entry(state, c);

    for (unsigned k = 0; k < 4 && i == not_this; k++)
        i = some_entry(state, c);
    return i;
}

/* Its size becomes one that its chain is right for, if that has an end: the same part of the last portion is filled, or another. */
static void fit_size(uint64_t *state, const struct card *c, unsigned i)
{
    uint8_t *e = entry_of(c, i);
    unsigned at = get_two(e + 10), length = 0, rest = chance(state, 70) ? e[12] : below(state, PORTION);

    while (at < c->portions && length < c->portions) {
        at = link_at(c, at);
        length++;
    }
    if (length > 0)
        put_size(e, PORTION * (length - 1) + (rest ? rest : PORTION));
}

static void flip(uint64_t *state, uint8_t *at)
{
    *at ^= (uint8_t)(1u << below(state, 8));
}

/* For one reason or another it will be dropped: so one behind it that is like it may be kept. */
static void spoil_entry(uint64_t *state, const struct card *c, unsigned i)
{
    uint8_t *e = entry_of(c, i);

    switch (below(state, 6)) {
    case 0: e[0] = RECORDING; break;
    case 1: e[1] = 9; break;
    case 2: put_two(e + 10, CHAIN_END); break;
    case 3: e[13]++; break;
    case 4:
        if (i > 0)
            memcpy(e + 10, entry_of(c, below(state, i)) + 10, 6);
        break;
    default:
        if (get_two(e + 10) < c->portions)
            c->store[(size_t)get_two(e + 10) * PORTION] ^= 1;
        break;
    }
}

static void copy_name(uint64_t *state, const struct card *c)
{
    unsigned from = some_entry(state, c), to = other_entry(state, c, from);

    memcpy(entry_of(c, to) + 1, entry_of(c, from) + 1, 9);
    if (chance(state, 50))
        entry_of(c, to)[0] = entry_of(c, from)[0];
    else if (entry_of(c, from)[0] == FORM && chance(state, 40))
        entry_of(c, to)[0] = RECORDING;
    if (chance(state, 45))
        spoil_entry(state, c, from < to ? from : to);
}

/* Its size goes along, or not. Or any portion of the other's chain is the first. */
static void copy_first(uint64_t *state, const struct card *c)
{
    unsigned from = some_entry(state, c), to = other_entry(state, c, from);

    if (chance(state, 30)) {
        put_two(entry_of(c, to) + 10, some_portion_of(state, c, from));
        if (chance(state, 60))
            fit_size(state, c, to);
    } else
        memcpy(entry_of(c, to) + 10, entry_of(c, from) + 10, chance(state, 75) ? 6 : 2);
}

/* A chain goes on in another's, and its size with it or not. */
static void join_chains(uint64_t *state, const struct card *c)
{
    unsigned one = some_entry(state, c), other = other_entry(state, c, one);

    put_link(c, some_portion_of(state, c, one), some_portion_of(state, c, other));
    if (chance(state, 50))
        fit_size(state, c, one);
}

/* Into an empty entry or over another, with another name or kind, or as it is; and now and then the first of the two is spoilt, so that the second is kept. */
static void copy_entry(uint64_t *state, const struct card *c)
{
    unsigned from = some_entry(state, c), to = chance(state, 80) ? some_empty_entry(state, c) : some_entry(state, c), first = from < to ? from : to;

    memmove(entry_of(c, to), entry_of(c, from), ENTRY);
    if (chance(state, 60))
        entry_of(c, to)[2] = (uint8_t)between(state, 'A', 'Z');
    if (chance(state, 25))
        entry_of(c, to)[0] = (uint8_t)between(state, 1, 3);
    if (chance(state, 30))
        spoil_entry(state, c, first);
}

static void exchange_entries(uint64_t *state, const struct card *c)
{
    unsigned one = some_entry(state, c), other = below(state, c->entries);
    uint8_t kept[ENTRY];

    memcpy(kept, entry_of(c, one), ENTRY);
    memmove(entry_of(c, one), entry_of(c, other), ENTRY);
    memcpy(entry_of(c, other), kept, ENTRY);
}

static void change_size(uint64_t *state, const struct card *c)
{
    uint8_t *e = entry_of(c, some_entry(state, c));
    uint32_t size = get_two(e + 12) | (uint32_t)get_two(e + 14) << 16, portions = portions_for(size);

    switch (below(state, 16)) {
    case 0: size++; break;
    case 1: size--; break;
    case 2: size += PORTION; break;
    case 3: size -= PORTION; break;
    case 4: size = PORTION * portions; break;
    case 5: size = PORTION * portions + 1; break;
    case 6: size = PORTION * (portions - 1); break;
    case 7: size = PORTION * (portions - 1) + 1; break;
    case 8: size += 65536u * between(state, 1, 255); break;
    case 9: size += 16777216u * between(state, 1, 255); break;
    case 10: size = 0xffffffffu - below(state, 600); break;
    case 11: size = chance(state, 50) ? 0 : 1; break;
    case 12: size = between(state, MOST_PICTURE - 1, MOST_PICTURE + 257); break;
    case 13: size ^= 1u << below(state, 32); break;
    default: size = between(state, PICTURE_HEAD - 1, PICTURE_HEAD + 3); break;
    }
    put_size(e, size);
}

/* A chain of 127 to 130 portions or so, and a size that it is right for, or nearly; of a form or a picture. What it was made of is lost. */
static void make_long_chain(uint64_t *state, const struct card *c)
{
    unsigned count = chance(state, 50) ? MOST_PICTURE / PORTION + 1 : between(state, 127, 131), first = below(state, c->portions), i = chance(state, 50) ? some_entry(state, c) : some_empty_entry(state, c);
    uint8_t *e = entry_of(c, i), name[9];

    if (count > c->portions) {
        change_size(state, c);
        return;
    }
    for (unsigned k = 0; k < count; k++)
        put_link(c, (first + k) % c->portions, k + 1 < count ? (first + k + 1) % c->portions : CHAIN_END);
    choose_name(state, c, PICTURE, i, name);
    memcpy(e + 1, name, 9);
    e[0] = chance(state, 80) ? PICTURE : (uint8_t)between(state, 1, 3);
    put_two(e + 10, first);
    put_size(e, PORTION * (count - 1) + (chance(state, 40) ? 1 : chance(state, 50) ? PORTION : between(state, 0, PORTION + 1)));
    if (chance(state, 50) && count == MOST_PICTURE / PORTION) {
        static uint8_t picture[MOST_PICTURE];
        make_picture(state, picture, MOST_PICTURE);
        for (unsigned k = 0; k < count; k++)
            memcpy(c->store + (size_t)((first + k) % c->portions) * PORTION, picture + PORTION * k, PORTION);
        put_size(e, MOST_PICTURE);
    }
}

/* Behind contents, in free portions, in empty entries. */
static void litter(uint64_t *state, const struct card *c)
{
    const uint8_t *e = entry_of(c, some_entry(state, c));
    unsigned at = get_two(e + 10), rest = get_two(e + 12) % PORTION, empty = some_empty_entry(state, c);

    for (unsigned i = 0; i < c->portions && at < c->portions && link_at(c, at) < c->portions; i++)
        at = link_at(c, at);
    if (at < c->portions && chance(state, 60)) {
        unsigned places[] = {rest, rest, PORTION - 1, between(state, rest, PORTION - 1)};
        c->store[(size_t)at * PORTION + places[below(state, 4)]] = (uint8_t)next_chance(state);
    }
    if (chance(state, 50))
        c->store[(size_t)some_free_portion(state, c) * PORTION + below(state, PORTION)] = (uint8_t)next_chance(state);
    if (chance(state, 50) && entry_of(c, empty)[0] == EMPTY)
        for (unsigned i = chance(state, 60) ? between(state, 1, 15) : 1; i < ENTRY; i++)
            entry_of(c, empty)[i] = (uint8_t)next_chance(state);
}

static void change_name(uint64_t *state, const struct card *c)
{
    static const uint8_t edges[] = {0, 31, 31, 32, 33, '"', '"', '#', '*', '*', '+', '@', '[', '`', '{', 'a', 'z', 'z', 126, 127, 127, 128, 255};
    uint8_t *e = entry_of(c, some_entry(state, c));
    unsigned length = e[1] < 1 || e[1] > 8 ? 8 : e[1];

    switch (below(state, 5)) {
    case 4:  /* as many bytes as there may be, and told as many, one more or fewer */
        memcpy(e + 2, "ABCDEFGH", 8);
        e[9] = (uint8_t)between(state, 'A', 'Z');
        e[1] = (uint8_t)(chance(state, 50) ? 9 : between(state, 7, 10));
        break;
    case 0: e[1] = chance(state, 40) ? (chance(state, 50) ? 0 : 9) : chance(state, 60) ? (uint8_t)between(state, 0, 10) : (uint8_t)next_chance(state); break;
    case 1: e[2 + below(state, 8)] = edges[below(state, sizeof edges)]; break;
    case 2: e[9] = (uint8_t)next_chance(state); break;
    default: e[2 + below(state, length)] = chance(state, 50) ? (uint8_t)between(state, 'a', 'z') : edges[below(state, sizeof edges)]; break;
    }
}

/* A byte of a form's content for one that may stand there. */
static void change_line(uint64_t *state, const struct card *c)
{
    static const char bytes[] = "00123456789NRLCZVBEOGMX,,\".+-a *;\nSWTDYymdhs:";
    unsigned i = some_entry(state, c), portion = some_portion_of(state, c, i), size = get_two(entry_of(c, i) + 12);
    unsigned most = link_at(c, portion) == CHAIN_END && size % PORTION ? size % PORTION : PORTION;

    c->store[(size_t)portion * PORTION + (chance(state, 15) ? most - 1 : below(state, most))] = (uint8_t)bytes[below(state, sizeof bytes - 1)];
}

/* A byte of a picture: of its head, at its end, a run of none, a run code. */
static void change_picture(uint64_t *state, const struct card *c)
{
    static const uint8_t heads[] = {0, 1, 2, 3, 4, 5, 6, 7, 8, 9, 10, 11, 65, 66, 67};
    unsigned i = some_entry(state, c), first = get_two(entry_of(c, i) + 10), last, size = get_two(entry_of(c, i) + 12);

    for (unsigned k = 0; k < 3 && entry_of(c, i)[0] != PICTURE; k++)
        first = get_two(entry_of(c, i = some_entry(state, c)) + 10), size = get_two(entry_of(c, i) + 12);
    if (first >= c->portions)
        return;
    last = first;
    for (unsigned k = 0; k < c->portions && link_at(c, last) < c->portions; k++)
        last = link_at(c, last);
    if (chance(state, 50))
        c->store[(size_t)first * PORTION + heads[below(state, sizeof heads)]] += chance(state, 70) ? 1 : (uint8_t)next_chance(state);
    else if (chance(state, 50))
        c->store[(size_t)last * PORTION + (size + PORTION - 1) % PORTION] = (uint8_t)(chance(state, 70) ? between(state, 192, 255) : next_chance(state));
    else
        c->store[(size_t)last * PORTION + below(state, (size + PORTION - 1) % PORTION + 1)] = (uint8_t)between(state, 190, 200);
}

/* "from some byte on": the three as one file, in one order or another. */
static void cut_file(uint64_t *state, const struct card *c)
{
    static uint8_t other_store[MOST_PORTIONS * PORTION], other_links[MOST_PORTIONS * 2], other_directory[MOST_ENTRIES * ENTRY];
    struct card other = {other_store, other_links, other_directory, c->portions, c->entries};
    uint8_t *const part[] = {c->store, c->links, c->directory}, *const another[] = {other_store, other_links, other_directory};
    const size_t size[] = {(size_t)c->portions * PORTION, 2 * (size_t)c->portions, (size_t)ENTRY * c->entries};
    static const uint8_t orders[][3] = {{0, 1, 2}, {2, 1, 0}, {1, 2, 0}, {2, 0, 1}};
    const uint8_t *order = orders[below(state, 4)];
    unsigned with = below(state, 3), where = below(state, 3);
    size_t from = 0, at = 0;

    for (unsigned i = 0; i < where; i++)
        from += size[order[i]];
    from += below(state, (unsigned)size[order[where]]);
    if (with == 2)
        make_card(state, &other);
    for (unsigned i = 0; i < 3; at += size[order[i++]]) {
        size_t kept = from <= at ? 0 : from - at < size[order[i]] ? from - at : size[order[i]];
        if (with == 2)
            memcpy(part[order[i]] + kept, another[order[i]] + kept, size[order[i]] - kept);
        else
            memset(part[order[i]] + kept, with ? 255 : 0, size[order[i]] - kept);
    }
}

void damage_card(uint64_t *state, const struct card *c, enum card_damage d)
{
    static const uint8_t kinds[] = {0, 1, 2, 3, 3, 3, 4, 5, 128, 129, 255};
    const unsigned outside[] = {c->portions, c->portions, c->portions, c->portions, c->portions + 1, 65533, 65533, 0x0100 + c->portions};
    unsigned one = some_portion(state, c), other = some_portion(state, c), kept;

    switch (d) {
    case FLIPPED_DIRECTORY:
        for (unsigned i = between(state, 1, 3); i > 0; i--)
            flip(state, entry_of(c, some_entry(state, c)) + below(state, ENTRY));
        break;
    case FLIPPED_LINKS:
        for (unsigned i = between(state, 1, 3); i > 0; i--)
            flip(state, c->links + 2 * some_portion(state, c) + below(state, 2));
        break;
    case FLIPPED_STORE:
        for (unsigned i = between(state, 1, 3); i > 0; i--)
            flip(state, c->store + (size_t)some_portion(state, c) * PORTION + below(state, PORTION));
        break;
    case CROSSED_LINKS:
        kept = link_at(c, one);
        put_link(c, one, link_at(c, other));
        put_link(c, other, kept);
        break;
    case A_CIRCLE:
        kept = some_entry(state, c);
        one = some_portion_of(state, c, kept);
        other = some_portion_of(state, c, kept);
        put_link(c, one, chance(state, 30) ? one : other);
        break;
    case JOINED_CHAINS: join_chains(state, c); break;
    case INTO_FREE: put_link(c, one, chance(state, 60) ? FREE : some_free_portion(state, c)); break;
    case OUT_OF_RANGE:
        if (chance(state, 60))
            put_link(c, one, outside[below(state, 8)]);
        else
            put_two(entry_of(c, some_entry(state, c)) + 10, chance(state, 60) ? outside[below(state, 8)] : chance(state, 50) ? CHAIN_END : FREE);
        break;
    case CUT_CHAIN:
        put_link(c, one, CHAIN_END);
        if (chance(state, 40))
            fit_size(state, c, some_entry(state, c));
        break;
    case SAME_NAME: copy_name(state, c); break;
    case SAME_FIRST: copy_first(state, c); break;
    case COPIED_ENTRY: copy_entry(state, c); break;
    case MOVED_ENTRY: exchange_entries(state, c); break;
    case OTHER_SIZE: change_size(state, c); break;
    case LONG_CHAIN: make_long_chain(state, c); break;
    case UNUSED_BYTES: litter(state, c); break;
    case OTHER_KIND: entry_of(c, some_entry(state, c))[0] = kinds[below(state, sizeof kinds)]; break;
    case OTHER_NAME: change_name(state, c); break;
    case OTHER_LINE: change_line(state, c); break;
    case OTHER_PICTURE: change_picture(state, c); break;
    default: cut_file(state, c); break;
    }
}

enum card_damage some_damage(uint64_t *state, const struct card *c)
{
    enum card_damage d = (enum card_damage)below(state, CARD_DAMAGES);

    if (c->portions > MOST_PICTURE / PORTION && chance(state, 25))
        return LONG_CHAIN;
    if (d == CUT_FILE && chance(state, 40))
        return COPIED_ENTRY;
    return d == MOVED_ENTRY && chance(state, 50) ? SAME_FIRST : d == UNUSED_BYTES && chance(state, 50) ? OTHER_NAME : d == LONG_CHAIN && chance(state, 50) ? SAME_NAME : d;
}
