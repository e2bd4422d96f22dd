/* sound.c: the session image, and the rule of a sound memory, judged in one pass over the store. */
#include <string.h>

#include "peer.h"

/* ---- the image ---- */

static uint16_t low_first(const uint8_t *bytes)
{
    return (uint16_t)(bytes[0] | bytes[1] << 8);
}

static void put_low_first(uint8_t *bytes, uint32_t number, unsigned count)
{
    for (unsigned i = 0; i < count; i++)
        bytes[i] = (uint8_t)(number >> (8 * i));
}

void read_image(const uint8_t *image, struct session *s)
{
    s->width = low_first(image);
    s->length = low_first(image + 2);
    s->turn = image[4];
    s->origin_x = low_first(image + 5);
    s->origin_y = low_first(image + 7);
    s->active = low_first(image + 9);
    s->owed = low_first(image + 11);
    s->drawn = low_first(image + 13);
    for (unsigned i = 0; i < 10; i++) {
        const uint8_t *at = image + 15 + 5 * i;
        s->counters[i].set = at[0];
        s->counters[i].value = low_first(at + 1) | (uint32_t)low_first(at + 3) << 16;
    }
    s->free_portions = low_first(image + 65);
    s->clock = read_clock(image + CLOCK_AT);
    memcpy(s->formats.date, image + DATE_FORMAT_AT, FORMAT);
    memcpy(s->formats.time, image + TIME_FORMAT_AT, FORMAT);
}

void write_image(const struct session *s, uint8_t *image)
{
    put_low_first(image, s->width, 2);
    put_low_first(image + 2, s->length, 2);
    image[4] = s->turn;
    put_low_first(image + 5, s->origin_x, 2);
    put_low_first(image + 7, s->origin_y, 2);
    put_low_first(image + 9, s->active, 2);
    put_low_first(image + 11, s->owed, 2);
    put_low_first(image + 13, s->drawn, 2);
    for (unsigned i = 0; i < 10; i++) {
        image[15 + 5 * i] = s->counters[i].set;
        put_low_first(image + 16 + 5 * i, s->counters[i].value, 4);
    }
    put_low_first(image + 65, s->free_portions, 2);
    write_clock(&s->clock, image + CLOCK_AT);
    memcpy(image + DATE_FORMAT_AT, s->formats.date, FORMAT);
    memcpy(image + TIME_FORMAT_AT, s->formats.time, FORMAT);
}

/* ---- small rules ---- */

static bool all_zero(const uint8_t *bytes, size_t count)
{
    return count == 0 || (bytes[0] == 0 && memcmp(bytes, bytes + 1, count - 1) == 0);
}

/* "these numbers in their ranges; length at most N"; "owed plus drawn at most 65,535"; and since paper 02 "Sound covers clock and formats." */
static bool numbers_in_range(const struct session *s, unsigned rows)
{
    return s->width >= 80 && s->width <= 608 && s->length >= 1 && s->length <= rows && s->turn <= 1
        && s->origin_x <= 2048 && s->origin_y <= 4096 && (unsigned)s->owed + s->drawn <= 65535
        && legal_clock(&s->clock) && legal_formats(&s->formats);
}

/* "no background dot outside width by length" */
static bool background_inside(const struct memory *m, const struct session *s)
{
    unsigned whole = s->width / 8u, rest = s->width % 8u;
    size_t below = (size_t)s->length * ROW_BYTES;

    for (unsigned y = 0; y < s->length; y++) {
        const uint8_t *row = m->background + (size_t)y * ROW_BYTES;
        if (rest != 0 && (row[whole] & (0xff >> rest)))
            return false;
        if (!all_zero(row + whole + (rest != 0), ROW_BYTES - whole - (rest != 0)))
            return false;
    }
    return all_zero(m->background + below, (size_t)m->rows * ROW_BYTES - below);
}

bool legal_entry_name(const uint8_t *entry)
{
    unsigned length = entry[1];

    if (length < 1 || length > 8)
        return false;
    for (unsigned i = 0; i < length; i++) {
        uint8_t byte = entry[2 + i];
        if (byte < 32 || byte > 126 || byte == '*' || byte == '"' || (byte >= 'a' && byte <= 'z'))
            return false;
    }
    return all_zero(entry + 2 + length, 8 - length);
}

/* Forms and the form being recorded are one kind. */
static bool same_kind(uint8_t one, uint8_t other)
{
    return (one == PICTURE) == (other == PICTURE);
}

static bool name_taken_before(const struct memory *m, unsigned i)
{
    const uint8_t *entry = entry_at(m, i);

    for (unsigned k = 0; k < i; k++) {
        const uint8_t *earlier = entry_at(m, k);
        if (memcmp(earlier + 1, entry + 1, 9) == 0 && same_kind(earlier[0], entry[0]))
            return true;
    }
    return false;
}

/* ---- chains ---- */

/* Walks exactly the portions that the size calls for and marks them; none may be marked already, free or out of the store. */
static bool whole_chain(const struct memory *m, const uint8_t *entry, uint8_t *marked)
{
    unsigned portion = entry_first(entry), last = 0, count = portions_for(entry_size(entry));

    if (count > m->portions)
        return false;
    for (unsigned i = 0; i < count; i++) {
        if (portion >= m->portions || marked[portion])
            return false;
        marked[portion] = 1;
        last = portion;
        portion = m->links[portion];
    }
    if (portion != CHAIN_END)
        return false;
    size_t used = entry_size(entry) - (size_t)(count - 1) * PORTION;
    return all_zero(m->store + (size_t)last * PORTION + used, PORTION - used);
}

static bool others_free(const struct memory *m, const uint8_t *marked)
{
    for (unsigned i = 0; i < m->portions; i++)
        if (!marked[i] && (m->links[i] != FREE || !all_zero(m->store + (size_t)i * PORTION, PORTION)))
            return false;
    return true;
}

/* ---- forms ---- */

static bool may_be_recorded(enum word word)
{
    switch (word) {
    case W_R: case W_V: case W_C: case W_A: case W_B: case W_LO: case W_LE: case W_LW: case W_LS: case W_LSE: case W_LSW: case W_X:
    case W_GG: case W_TD: case W_TT: return true;
    default: return false;
    }
}

static bool is_normal(const uint8_t *line, unsigned length, const struct normal_line *normal)
{
    return length == normal->length && memcmp(line, normal->bytes, length) == 0;
}

/* "each form a row of normalised lines that recording would take one after another (presence of pictures aside)". An
 * empty line and a comment have no written form, so they fail here too. */
bool sound_form(const struct memory *m, const uint8_t *entry, struct declarations *d, bool *pictures_exist)
{
    struct cursor at = start_of(m, entry);
    struct normal_line normal;
    struct command c;
    uint8_t room[MOST_LINE + 1];
    unsigned length;

    while (at.left > 0) {
        const uint8_t *line = next_line(&at, room, &length);
        if (!line || read_line(line, length, m->rows, &c, &normal).answer != TAKEN || !may_be_recorded(c.word)
            || !is_normal(line, length, &normal) || judge_line(&c, d).answer != TAKEN)
            return false;
        if (pictures_exist && *pictures_exist && c.word == W_GG)
            *pictures_exist = find_entry(m, PICTURE, &c.name) != NOT_THERE;
    }
    return true;
}

/* ---- entries ---- */

static bool sound_content(const struct memory *m, const struct session *s, unsigned i, struct facts *f)
{
    const uint8_t *entry = entry_at(m, i);
    struct declarations d = nothing_declared(&example_formats);

    switch (entry[0]) {
    case PICTURE: return legal_picture_chain(start_of(m, entry));
    case RECORDING:
        if (f->recording != NOT_THERE)
            return false;  /* "at most one entry of kind 3" */
        f->recording = i;
        return sound_form(m, entry, &f->of_recording, NULL);
    default:
        if (i == s->active)
            return sound_form(m, entry, &f->of_active, &f->pictures_exist);
        return sound_form(m, entry, &d, NULL);
    }
}

static bool sound_entry(const struct memory *m, const struct session *s, unsigned i, uint8_t *marked, struct facts *f)
{
    const uint8_t *entry = entry_at(m, i);

    if (entry[0] == EMPTY)
        return all_zero(entry, ENTRY);
    f->called_for += portions_for(entry_size(entry));  /* told by the size and not by the chain */
    return entry[0] <= RECORDING && legal_entry_name(entry) && !name_taken_before(m, i) && whole_chain(m, entry, marked)
        && sound_content(m, s, i, f);
}

/* ---- values and counters ---- */

static bool sound_value(const uint8_t *field, const struct variable *v)
{
    if (field[0] == 0)
        return all_zero(field, FIELD);
    return field[0] == 1 && v->declared && field[1] <= 32 && all_zero(field + 2 + field[1], 32 - field[1])
        && stored_value_fits(v, field);
}

static bool sound_counter(const struct counter *k, const struct declared_counter *d)
{
    if (k->set == 0)
        return k->value == 0;
    return k->set == 1 && d->declared && in_range(d, k->value);
}

/* With no active form nothing is declared, so everything must be unset. */
static bool sound_values(const struct memory *m, const struct session *s, const struct declarations *d)
{
    for (unsigned i = 0; i < 10; i++)
        if (!sound_value(m->values + i * FIELD, &d->v[i]) || !sound_counter(&s->counters[i], &d->c[i]))
            return false;
    return true;
}

bool all_declared_set(const struct memory *m, const struct session *s, const struct declarations *d)
{
    for (unsigned i = 0; i < 10; i++)
        if ((d->v[i].declared && m->values[i * FIELD] == 0) || (d->c[i].declared && s->counters[i].set == 0))
            return false;
    return true;
}

/* "for some counter of the active form, its value plus (k-1) times its step falls outside 0 to 10^w-1". The values between lie
 * between the first and the last, so these two decide, and the first is in range wherever memory is sound. */
bool counter_runs_out(const struct session *s, const struct declarations *d, unsigned labels)
{
    for (unsigned i = 0; i < 10; i++)
        if (d->c[i].declared && !in_range(&d->c[i], counter_after(&d->c[i], s->counters[i].value, labels - 1)))
            return true;
    return false;
}

/* "the active form a stored one" */
static bool active_is_stored(const struct memory *m, const struct session *s)
{
    return s->active == NO_FORM || (s->active < m->entries && entry_at(m, s->active)[0] == FORM);
}

/* "labels owed only when nothing is recorded, all declared values are set and the pictures exist"; and since paper 02 "While labels
 * are owed, sound now asks the same of each counter with k their number". */
static bool may_owe(const struct memory *m, const struct session *s, const struct facts *f)
{
    return f->recording == NOT_THERE && all_declared_set(m, s, &f->of_active) && f->pictures_exist
        && !counter_runs_out(s, &f->of_active, s->owed);
}

/* Since paper 02 it "also means that this number equals the portions of the lent store less those that the stored sizes call for". No
 * entry that is sound calls for more than there are, so their sum is no great number. */
bool sound(const struct memory *m, const struct session *s, struct facts *f)
{
    uint8_t marked[MOST_PORTIONS] = {0};

    memset(f, 0, sizeof *f);
    f->recording = NOT_THERE;
    f->of_recording = f->of_active = nothing_declared(&example_formats);  /* "and so does the check of each form" */
    f->pictures_exist = true;
    if (!numbers_in_range(s, m->rows) || !background_inside(m, s) || !active_is_stored(m, s))
        return false;
    for (unsigned i = 0; i < m->entries; i++)
        if (!sound_entry(m, s, i, marked, f))
            return false;
    return s->free_portions + f->called_for == m->portions && others_free(m, marked) && sound_values(m, s, &f->of_active)
        && (s->owed == 0 || may_owe(m, s, f));
}
