/* station.c: opening, command and label. */
#include <string.h>

#include "peer.h"

/* ---- lent lengths ---- */

static bool rows_right(size_t length)
{
    return length % ROW_BYTES == 0 && length / ROW_BYTES >= 1 && length / ROW_BYTES <= MOST_ROWS;
}

bool store_right(size_t store, size_t links, size_t directory, size_t values)
{
    return store % PORTION == 0 && store / PORTION >= 1 && store / PORTION <= MOST_PORTIONS && links == store / PORTION
        && directory % ENTRY == 0 && directory / ENTRY >= 1 && directory / ENTRY <= MOST_ENTRIES && values == VALUES;
}

/* ---- opening ---- */

struct session opened(unsigned rows, unsigned free_portions)
{
    struct session s = {0};

    s.width = 608;
    s.length = (uint16_t)rows;
    s.active = NO_FORM;
    s.free_portions = (uint16_t)free_portions;
    s.clock = (struct clock){0, 1, 1, 0, 0, 0};  /* "1 January 2000 at midnight" */
    s.formats = example_formats;
    return s;
}

uint8_t peer_open(uint8_t *session, size_t session_len, uint8_t *page, size_t page_len, uint8_t *background,
                  size_t background_len, uint8_t *store, size_t store_len, uint16_t *links, size_t links_len,
                  uint8_t *directory, size_t directory_len, uint8_t *values, size_t values_len)
{
    struct session s;

    if (session_len != IMAGE)
        return BAD_LENGTH;
    memset(session, 0, IMAGE);  /* "a refused opening returns zeros" */
    if (!rows_right(background_len) || page_len != background_len
        || !store_right(store_len, links_len, directory_len, values_len))
        return BAD_LENGTH;
    memset(page, 0, page_len);
    memset(background, 0, background_len);
    memset(store, 0, store_len);
    memset(directory, 0, directory_len);
    memset(values, 0, values_len);
    for (size_t i = 0; i < links_len; i++)
        links[i] = FREE;
    s = opened((unsigned)(background_len / ROW_BYTES), (unsigned)links_len);
    write_image(&s, session);
    return TAKEN;
}

/* ---- running a line of drawing ---- */

/* What a line may draw on and from. Origin and formats are the session's, or the label's own. */
struct run {
    const struct memory *memory;
    struct paper paper;
    unsigned origin_x, origin_y;
    const struct font *font;
    struct source source;
};

static void run_text(struct run *r, const struct command *c, struct turned corner)
{
    uint8_t shown[MOST_DATA];
    unsigned length = show_data(c, &r->source, shown);

    draw_text(&r->paper, corner, (int)c->n[3], (int)c->n[4], c->letter, r->font, shown, length);
}

static void run_bars(struct run *r, const struct command *c, struct turned corner)
{
    uint8_t shown[MOST_DATA];
    unsigned length = show_data(c, &r->source, shown);
    struct symbol s = {c->type, (int)c->n[3], (int)c->n[4], (int)c->n[5], c->letter, r->font, shown, length};

    draw_symbol(&r->paper, corner, &s);
}

static void run_picture(struct run *r, const struct command *c, int x, int y)
{
    unsigned i = find_entry(r->memory, PICTURE, &c->name);

    draw_picture(&r->paper, x, y, start_of(r->memory, entry_at(r->memory, i)));
}

/* "R is added to both ends." */
static void run_slanted(struct run *r, const struct command *c, enum ink ink)
{
    draw_slanted(&r->paper, (int)(r->origin_x + c->n[0]), (int)(r->origin_y + c->n[1]), (int)c->n[2], (int)(r->origin_x + c->n[3]),
                 (int)(r->origin_y + c->n[4]), ink);
}

/* A line that was judged and whose picture exists. V and C draw nothing; R, TD and TT hold for the lines behind them. */
static void run_line(struct run *r, const struct command *c)
{
    int x = (int)(r->origin_x + c->n[0]), y = (int)(r->origin_y + c->n[1]);
    struct turned corner = {x, y, 0, 0, (int)c->n[2]};

    switch (c->word) {
    case W_R:  /* "It replaces the earlier one" */
        r->origin_x = c->n[0];
        r->origin_y = c->n[1];
        break;
    case W_TD: memcpy(r->source.formats.date, c->format, FORMAT); break;
    case W_TT: memcpy(r->source.formats.time, c->format, FORMAT); break;
    case W_LO: draw_box(&r->paper, x, y, (int)c->n[2], (int)c->n[3], BLACK); break;
    case W_LW: draw_box(&r->paper, x, y, (int)c->n[2], (int)c->n[3], WHITE); break;
    case W_LE: draw_box(&r->paper, x, y, (int)c->n[2], (int)c->n[3], INVERT); break;
    case W_LS: run_slanted(r, c, BLACK); break;
    case W_LSW: run_slanted(r, c, WHITE); break;
    case W_LSE: run_slanted(r, c, INVERT); break;
    case W_X:
        draw_frame(&r->paper, x, y, (int)c->n[2], (int)(r->origin_x + c->n[3]), (int)(r->origin_y + c->n[4]));
        break;
    case W_A: run_text(r, c, corner); break;
    case W_B: run_bars(r, c, corner); break;
    case W_GG: run_picture(r, c, x, y); break;
    default: break;
    }
}

/* ---- commands ---- */

/* One command under way. */
struct call {
    struct session s;
    struct memory m;
    struct facts f;
    struct font font;
    uint8_t *output;
    size_t output_len;
    uint64_t written;
    unsigned place;        /* where a refusal points */
    const uint8_t *after;  /* the bytes after the line, for GM */
};

/* A refusal that points. Only 6, 7 and 12 to 15 come this way; "Other answers give place 0". */
static enum answer point(struct call *k, struct verdict v)
{
    k->place = v.place;
    return v.answer;
}

static void whiten(struct call *k)
{
    memset(k->m.background, 0, (size_t)k->m.rows * ROW_BYTES);
}

static void unset_values(struct call *k)
{
    memset(k->m.values, 0, VALUES);
    memset(k->s.counters, 0, sizeof k->s.counters);
}

static void end_activity(struct call *k)
{
    k->s.active = NO_FORM;
    unset_values(k);
}

/* A line of drawing sent outside a form goes to the background at once. Nothing is declared there, and the formats are those that were sent outside
 * forms. */
static enum answer draw_now(struct call *k, const struct command *c)
{
    struct declarations none = nothing_declared(&k->s.formats);
    struct run r = {&k->m, {k->m.background, k->s.width, k->s.length}, k->s.origin_x, k->s.origin_y, &k->font,
                    {&none, k->m.values, k->s.counters, k->s.clock, k->s.formats}};
    struct verdict v;

    if (c->word == W_GG && find_entry(&k->m, PICTURE, &c->name) == NOT_THERE)
        return NAME_NOT_FOUND;
    if ((v = judge_line(c, &none)).answer != TAKEN)
        return point(k, v);
    run_line(&r, c);
    k->s.origin_x = (uint16_t)r.origin_x;
    k->s.origin_y = (uint16_t)r.origin_y;
    k->s.formats = r.source.formats;
    return TAKEN;
}

static enum answer start_form(struct call *k, const struct command *c)
{
    if (find_entry(&k->m, FORM, &c->name) != NOT_THERE)
        return NAME_IN_USE;
    return new_entry(&k->m, &k->s.free_portions, RECORDING, &c->name, NULL, 0);
}

static enum answer load_form(struct call *k, const struct command *c)
{
    unsigned i = find_entry(&k->m, FORM, &c->name);

    if (i == NOT_THERE)
        return NAME_NOT_FOUND;
    unset_values(k);
    k->s.active = (uint16_t)i;
    return TAKEN;
}

static void erase(struct call *k, unsigned i)
{
    erase_entry(&k->m, &k->s.free_portions, i);
}

static void erase_every(struct call *k, uint8_t kind)
{
    for (unsigned i = 0; i < k->m.entries; i++)
        if (entry_at(&k->m, i)[0] == kind)
            erase(k, i);
}

static enum answer erase_form(struct call *k, const struct command *c)
{
    unsigned i;

    if (c->every) {
        erase_every(k, FORM);
        end_activity(k);
        return TAKEN;
    }
    i = find_entry(&k->m, FORM, &c->name);
    if (i == NOT_THERE)
        return NAME_NOT_FOUND;
    erase(k, i);
    if (k->s.active == i)
        end_activity(k);
    return TAKEN;
}

static enum answer erase_picture(struct call *k, const struct command *c)
{
    unsigned i;

    if (c->every) {
        erase_every(k, PICTURE);
        return TAKEN;
    }
    i = find_entry(&k->m, PICTURE, &c->name);
    if (i == NOT_THERE)
        return NAME_NOT_FOUND;
    erase(k, i);
    return TAKEN;
}

static enum answer print_form(struct call *k, const struct command *c)
{
    unsigned i = find_entry(&k->m, FORM, &c->name);

    if (i == NOT_THERE)
        return NAME_NOT_FOUND;
    return list_form(&k->m, i, k->output, k->output_len, &k->written);
}

static enum answer load_picture(struct call *k, const struct command *c)
{
    if (find_entry(&k->m, PICTURE, &c->name) != NOT_THERE)
        return NAME_IN_USE;
    if (!legal_picture_bytes(k->after, c->n[0]))
        return NOT_A_PICTURE;
    return new_entry(&k->m, &k->s.free_portions, PICTURE, &c->name, k->after, c->n[0]);
}

static enum answer set_variable(struct call *k, const struct command *c)
{
    const struct variable *v = &k->f.of_active.v[c->n[0]];

    if (!v->declared)
        return point(k, (struct verdict){NOT_DECLARED, c->n_at});
    if (!text_fits(v, c->text, c->text_length))
        return VALUE_UNFIT;
    store_value(v, c->text, c->text_length, k->m.values + c->n[0] * FIELD);
    return TAKEN;
}

static enum answer set_counter(struct call *k, const struct command *c)
{
    const struct declared_counter *d = &k->f.of_active.c[c->n[0]];

    if (!d->declared)
        return point(k, (struct verdict){NOT_DECLARED, c->n_at});
    if (!in_range(d, c->n[1]))
        return VALUE_UNFIT;
    k->s.counters[c->n[0]] = (struct counter){1, c->n[1]};
    return TAKEN;
}

/* "22, counter runs out, after 18 and before 19": of the answers from 19 on P gives none. */
static enum answer owe_labels(struct call *k, const struct command *c)
{
    if (!k->f.pictures_exist)
        return NAME_NOT_FOUND;
    if (!all_declared_set(&k->m, &k->s, &k->f.of_active))
        return VALUE_UNSET;
    if (counter_runs_out(&k->s, &k->f.of_active, c->n[0]))
        return RUNS_OUT;
    k->s.owed = (uint16_t)c->n[0];
    k->s.drawn = 0;
    return TAKEN;
}

/* "While recording only R, V, C, A, B, LO, LE, LW, X, GG and FE have a place; otherwise all but V, C and FE." And paper 02: "LS may be
 * recorded", "TD and TT may be recorded", "TS has no place while recording". */
static bool has_place(enum word word, bool recording)
{
    switch (word) {
    case W_R: case W_A: case W_B: case W_LO: case W_LE: case W_LW: case W_LS: case W_LSE: case W_LSW: case W_X: case W_GG:
    case W_TD: case W_TT: return true;
    case W_V: case W_C: case W_FE: return recording;
    default: return !recording;
    }
}

/* "A recorded line is checked and kept, not run." */
static enum answer record(struct call *k, const struct command *c, struct normal_line *normal)
{
    struct verdict v;

    if (c->word == W_FE) {
        entry_at(&k->m, k->f.recording)[0] = FORM;
        return TAKEN;
    }
    if (c->word == W_GG && find_entry(&k->m, PICTURE, &c->name) == NOT_THERE)
        return NAME_NOT_FOUND;
    if ((v = judge_line(c, &k->f.of_recording)).answer != TAKEN)
        return point(k, v);
    normal->bytes[normal->length] = '\n';
    return append(&k->m, &k->s.free_portions, k->f.recording, normal->bytes, normal->length + 1);
}

static struct clock clock_of(const struct command *c)
{
    return (struct clock){(uint8_t)c->n[2], (uint8_t)c->n[0], (uint8_t)c->n[1], (uint8_t)c->n[3], (uint8_t)c->n[4], (uint8_t)c->n[5]};
}

static enum answer obey(struct call *k, const struct command *c)
{
    switch (c->word) {
    case W_Q: k->s.length = (uint16_t)c->n[0]; whiten(k); return TAKEN;
    case W_q: k->s.width = (uint16_t)c->n[0]; whiten(k); return TAKEN;
    case W_N: whiten(k); end_activity(k); return TAKEN;
    case W_Z: k->s.turn = c->letter == 'B'; return TAKEN;
    case W_FS: return start_form(k, c);
    case W_FR: return load_form(k, c);
    case W_FK: return erase_form(k, c);
    case W_FI: return list_kind(&k->m, FORM, k->output, k->output_len, &k->written);
    case W_FP: return print_form(k, c);
    case W_GM: return load_picture(k, c);
    case W_GK: return erase_picture(k, c);
    case W_GI: return list_kind(&k->m, PICTURE, k->output, k->output_len, &k->written);
    case W_ASK_V: return set_variable(k, c);
    case W_ASK_C: return set_counter(k, c);
    case W_VC: memset(k->m.values, 0, VALUES); return TAKEN;
    case W_P: return owe_labels(k, c);
    case W_TS: k->s.clock = clock_of(c); return TAKEN;
    default: return draw_now(k, c);
    }
}

/* Reads the front of the input: how much is read stands in *read. */
static enum answer read_command(struct call *k, const uint8_t *input, size_t length, size_t *read)
{
    size_t front = length < MOST_LINE + 1 ? length : MOST_LINE + 1;
    const uint8_t *lf = front ? memchr(input, '\n', front) : NULL;
    struct normal_line normal;
    struct command c;
    struct verdict v;

    if (!lf && length <= MOST_LINE)
        return NOT_ALL_THERE;
    if (!lf) {
        lf = memchr(input + front, '\n', length - front);
        *read = lf ? (size_t)(lf - input) + 1 : length;
        return LINE_TOO_LONG;
    }
    *read = (size_t)(lf - input) + 1;
    if (lf == input || input[0] == ';')
        return TAKEN;
    v = read_line(input, (unsigned)(lf - input), k->m.rows, &c, &normal);
    if (v.answer != NOT_WRITTEN_SO && c.word == W_GM && c.n[0] >= 1 && c.n[0] <= MOST_PICTURE) {
        if (length - *read < c.n[0]) {
            *read = 0;
            return NOT_ALL_THERE;
        }
        k->after = lf + 1;
        *read += c.n[0];  /* "taken or refused" */
    }
    if (v.answer != TAKEN)
        return point(k, v);
    if (k->s.owed > 0)
        return LABELS_OWED;
    if (!has_place(c.word, k->f.recording != NOT_THERE))
        return NO_PLACE;
    return k->f.recording != NOT_THERE ? record(k, &c, &normal) : obey(k, &c);
}

uint8_t peer_command(uint8_t *session, size_t session_len, uint64_t *counts, size_t counts_len, const uint8_t *font,
                     size_t font_len, uint8_t *background, size_t background_len, uint8_t *store, size_t store_len,
                     uint16_t *links, size_t links_len, uint8_t *directory, size_t directory_len, uint8_t *values,
                     size_t values_len, uint8_t *output, size_t output_len, const uint8_t *input, size_t input_len)
{
    struct call k;
    size_t read = 0;
    enum answer a;

    if (counts_len == 3)
        counts[0] = counts[1] = counts[2] = 0;
    if (session_len != IMAGE || counts_len != 3 || !rows_right(background_len)
        || !store_right(store_len, links_len, directory_len, values_len))
        return BAD_LENGTH;
    if (!read_font(font, font_len, &k.font))
        return BAD_FONT;
    k.m = (struct memory){background, (unsigned)(background_len / ROW_BYTES), store, links, (unsigned)links_len, directory,
                          (unsigned)(directory_len / ENTRY), values};
    read_image(session, &k.s);
    if (!sound(&k.m, &k.s, &k.f))
        return NOT_SOUND;
    k.output = output;
    k.output_len = output_len;
    k.written = 0;
    k.place = 0;
    a = read_command(&k, input, input_len, &read);
    counts[0] = read;
    counts[1] = k.written;
    counts[2] = k.place;
    if (a == TAKEN)
        write_image(&k.s, session);
    return (uint8_t)a;
}

/* ---- labels ---- */

static void run_form(struct run *r, const uint8_t *entry)
{
    struct cursor at = start_of(r->memory, entry);
    struct normal_line normal;
    struct command c;
    uint8_t room[MOST_LINE + 1];
    unsigned length;

    while (at.left > 0) {
        const uint8_t *line = next_line(&at, room, &length);
        read_line(line, length, r->memory->rows, &c, &normal);
        run_line(r, &c);
    }
}

/* "If the move after the last label leaves that range, the counter becomes unset." No earlier move leaves it: sound has asked that of
 * the labels owed. */
static void move_counters(struct session *s, const struct declarations *d)
{
    for (unsigned i = 0; i < 10; i++)
        if (d->c[i].declared) {
            int64_t moved = counter_after(&d->c[i], s->counters[i].value, 1);
            s->counters[i] = in_range(&d->c[i], moved) ? (struct counter){1, (uint32_t)moved} : (struct counter){0, 0};
        }
}

uint8_t peer_label(uint8_t *session, size_t session_len, const uint8_t *font, size_t font_len, uint8_t *page, size_t page_len,
                   const uint8_t *background, size_t background_len, const uint8_t *store, size_t store_len,
                   const uint16_t *links, size_t links_len, const uint8_t *directory, size_t directory_len,
                   const uint8_t *values, size_t values_len)
{
    struct session s;
    struct memory m = {(uint8_t *)background, (unsigned)(background_len / ROW_BYTES), (uint8_t *)store, (uint16_t *)links,
                       (unsigned)links_len, (uint8_t *)directory, (unsigned)(directory_len / ENTRY), (uint8_t *)values};
    struct facts f;
    struct font letters;

    if (session_len != IMAGE || !rows_right(background_len) || page_len != background_len
        || !store_right(store_len, links_len, directory_len, values_len))
        return BAD_LENGTH;
    if (!read_font(font, font_len, &letters))
        return BAD_FONT;
    read_image(session, &s);
    if (!sound(&m, &s, &f))
        return NOT_SOUND;
    if (s.owed == 0)
        return NONE_OWED;

    /* "each label starts from the example formats" */
    struct run r = {&m, {page, s.width, s.length}, s.origin_x, s.origin_y, &letters, {&f.of_active, values, s.counters, s.clock, example_formats}};
    memcpy(page, background, page_len);
    if (s.active != NO_FORM)
        run_form(&r, entry_at(&m, s.active));
    if (s.turn == 1)
        turn_paper(&r.paper);
    move_counters(&s, &f.of_active);
    s.owed--;
    s.drawn++;
    write_image(&s, session);
    return TAKEN;
}
