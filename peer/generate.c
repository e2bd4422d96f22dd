/* generate.c: see generate.h. */
#include "generate.h"

#include <stdio.h>
#include <string.h>

#include "peer.h"
#include "stores.h"

/* ---- chance ---- */

static uint64_t random_number(struct generator *g)
{
    uint64_t z = (g->state += 0x9e3779b97f4a7c15u);

    z = (z ^ z >> 30) * 0xbf58476d1ce4e5b9u;
    z = (z ^ z >> 27) * 0x94d049bb133111ebu;
    return z ^ z >> 31;
}

static unsigned below(struct generator *g, unsigned n)
{
    return (unsigned)(random_number(g) % n);
}

static unsigned between(struct generator *g, unsigned least, unsigned most)
{
    return least + below(g, most - least + 1);
}

static bool chance(struct generator *g, unsigned in_hundred)
{
    return below(g, 100) < in_hundred;
}

static bool rarely(struct generator *g, unsigned in_thousand)
{
    return below(g, 1000) < in_thousand;
}

/* ---- what stands on the desk ---- */

/* The formats as the image has them. */
struct declared {
    bool v[10], c[10];
    unsigned m[10], w[10];
    char justify[10];
    int step[10];
    uint8_t date[FORMAT], time[FORMAT];
};

struct view {
    unsigned recording, active, owed;       /* 65535 none */
    struct declared of_recording, of_active;
    unsigned unset;                         /* declared values of the active form that are not set */
    unsigned portions, entries;             /* free and empty ones */
};

static const uint8_t *entry(const struct generator *g, unsigned i)
{
    return g->desk->bytes[DIRECTORY] + 16 * i;
}

static unsigned link_of(const struct generator *g, unsigned portion)
{
    const uint8_t *at = g->desk->bytes[LINKS] + 2 * portion;

    return at[0] | (unsigned)at[1] << 8;
}

/* The bytes of a form, as far as the chain goes. */
static size_t form_bytes(const struct generator *g, unsigned i, uint8_t *out, size_t room)
{
    const uint8_t *e = entry(g, i);
    uint32_t size = entry_size(e);
    unsigned portion = entry_first(e);
    size_t done = 0;

    while (done < size && done < room && portion < g->portions) {
        size_t part = size - done < 256 ? size - done : 256;
        if (part > room - done)
            part = room - done;
        memcpy(out + done, g->desk->bytes[STORE] + 256 * portion, part);
        done += part;
        portion = link_of(g, portion);
    }
    return done;
}

/* The format in a line of a form, which is written as it should be: `TD` or `TT`, fields of two letters or one, and a byte between them. */
static void note_format(struct declared *d, const char *line)
{
    static const char *const fields[] = {"Y2", "Y4", "ME", "MN", "DD"};
    bool date = line[1] == 'D';
    uint8_t *format = date ? d->date : d->time;
    const char *at = line + 2;

    memset(format, 0, FORMAT);
    for (unsigned i = 0; i < FORMAT && *at; i += 2) {
        if (i > 0)
            format[i - 1] = (uint8_t)*at++;
        for (unsigned k = 0; date && k < 5; k++)
            if (at[0] && (at[0] & 95) == fields[k][0] && (at[1] == fields[k][1] || (at[1] & 95) == fields[k][1]))
                format[i] = (uint8_t)(k + 1);
        if (!date)
            format[i] = (at[0] & 95) == 'H' ? HOUR : (at[0] & 95) == 'M' ? MINUTE : SECOND;
        at += date && at[0] && at[1] ? 2 : at[0] != 0;
    }
}

static void note_declaration(struct declared *d, const char *line)
{
    unsigned n, m;
    int step = 0;
    char j;

    if (sscanf(line, "V%1u,%2u,%c", &n, &m, &j) == 3 && n < 10 && m >= 1 && m <= 32) {
        d->v[n] = true;
        d->m[n] = m;
        d->justify[n] = j;
    }
    if (sscanf(line, "C%1u,%1u,%6d", &n, &m, &step) >= 2 && n < 10 && m >= 1) {
        d->c[n] = true;
        d->w[n] = m;
        d->step[n] = step;
    }
    if (line[0] == 'T' && (line[1] == 'D' || line[1] == 'T'))
        note_format(d, line);
}

/* Nothing declared, and the formats with which a form begins. */
static struct declared nothing_yet(void)
{
    return (struct declared){.date = {DD, '-', ME, '-', Y4}, .time = {HOUR, ':', MINUTE, ':', SECOND}};
}

/* Nothing declared, and the formats of commands outside forms. */
static struct declared nothing_outside(const struct generator *g)
{
    struct declared d = {0};

    memcpy(d.date, g->desk->bytes[SESSION] + DATE_FORMAT_AT, FORMAT);
    memcpy(d.time, g->desk->bytes[SESSION] + TIME_FORMAT_AT, FORMAT);
    return d;
}

static void declared_in(const struct generator *g, unsigned i, struct declared *d)
{
    static uint8_t text[8192];
    size_t length = form_bytes(g, i, text, sizeof text - 1), from = 0;

    text[length] = 0;
    for (size_t at = 0; at < length; at++)
        if (text[at] == '\n') {
            text[at] = 0;
            note_declaration(d, (const char *)text + from);
            from = at + 1;
        }
}

static unsigned low_first(const uint8_t *bytes)
{
    return bytes[0] | (unsigned)bytes[1] << 8;
}

static void look(const struct generator *g, struct view *v)
{
    const uint8_t *session = g->desk->bytes[SESSION];

    memset(v, 0, sizeof *v);
    v->of_recording = v->of_active = nothing_yet();
    v->recording = 65535;
    v->active = low_first(session + 9);
    v->owed = low_first(session + 11);
    for (unsigned i = 0; i < g->entries; i++) {
        if (entry(g, i)[0] == RECORDING)
            v->recording = i;
        v->entries += entry(g, i)[0] == EMPTY;
    }
    for (unsigned i = 0; i < g->portions; i++)
        v->portions += link_of(g, i) == FREE;
    if (v->recording != 65535)
        declared_in(g, v->recording, &v->of_recording);
    if (v->active < g->entries)
        declared_in(g, v->active, &v->of_active);
    for (unsigned i = 0; i < 10; i++) {
        v->unset += v->of_active.v[i] && g->desk->bytes[VALUE][34 * i] == 0;
        v->unset += v->of_active.c[i] && session[15 + 5 * i] == 0;
    }
}

/* ---- how far the counters go ---- */

static int64_t ten_to(unsigned w)
{
    int64_t power = 1;

    while (w--)
        power *= 10;
    return power;
}

static bool counter_set(const struct generator *g, unsigned i)
{
    return g->desk->bytes[SESSION][15 + 5 * i] == 1;
}

static int64_t counter_value(const struct generator *g, unsigned i)
{
    const uint8_t *at = g->desk->bytes[SESSION] + 16 + 5 * i;

    return low_first(at) | (int64_t)low_first(at + 2) << 16;
}

enum { NO_LIMIT = 1000000 };

/* How many labels there are before a counter of w digits runs out. */
static int64_t labels_left(int64_t value, int64_t step, unsigned w)
{
    int64_t left = step > 0 ? ten_to(w) - 1 - value : value;

    if (step == 0)
        return NO_LIMIT;
    return left < 0 ? 0 : left / (step < 0 ? -step : step) + 1;
}

/* The same of all counters of the active form that are set. */
static int64_t fewest_left(const struct generator *g, const struct view *v)
{
    int64_t fewest = NO_LIMIT;

    for (unsigned i = 0; i < 10; i++)
        if (v->of_active.c[i] && counter_set(g, i)) {
            int64_t left = labels_left(counter_value(g, i), v->of_active.step[i], v->of_active.w[i]);
            fewest = left < fewest ? left : fewest;
        }
    return fewest;
}

/* A value for which the counter's last number is reached by about so many labels: by the last of them exactly, by the one after
 * it, or the move behind the last label is the first that leaves the range, by one or by some. Mostly in range. */
static int64_t value_before_end(struct generator *g, int64_t step, unsigned w, unsigned labels)
{
    int64_t size = step < 0 ? -step : step, short_of[] = {0, size - 1, size, size > 0 ? below(g, (unsigned)size) : 0};
    int64_t way = short_of[below(g, 4)] + size * (labels - 1);

    return step < 0 ? way : ten_to(w) - 1 - way;
}

static unsigned labels_owed(const struct generator *g)
{
    return low_first(g->desk->bytes[SESSION] + 11);
}

/* ---- fields of a line ---- */

static void put(struct generator *g, uint8_t byte)
{
    g->line.bytes[g->line.length++] = byte;
}

static void put_words(struct generator *g, const char *text)
{
    while (*text)
        put(g, (uint8_t)*text++);
}

/* These bytes at a place of the line, what stood there behind them. */
static void put_in(struct generator *g, size_t at, const char *bytes, size_t count)
{
    struct line *l = &g->line;

    memmove(l->bytes + at + count, l->bytes + at, l->length - at);
    memcpy(l->bytes + at, bytes, count);
    l->length += count;
}

static bool spoilt(struct generator *g)
{
    bool now = g->spoil & 1;

    g->spoil >>= 1;
    return now;
}

/* One field, and now and then the next or another too: the leftmost of them must be told. */
static unsigned choose_spoil(struct generator *g)
{
    unsigned fields = 1u << below(g, 8);

    if (chance(g, 30))
        fields |= chance(g, 60) ? fields << 1 : 1u << below(g, 8);
    return fields;
}

/* A faulty line may end here, in the middle of something. */
static void may_end(struct generator *g, unsigned in_hundred)
{
    if (g->faulty && g->end == 0 && chance(g, in_hundred))
        g->end = g->line.length;
}

/* Near the word: its last byte doubled or missing, something put before or behind it; or quite another. */
static void put_other_word(struct generator *g, const char *word)
{
    static const char *const others[] = {"", "3C", "4", "31", "NN", "n", "BN", "X", "\"N\"", "C0", "1.", "\x7f", "123"};
    size_t length = strlen(word);

    switch (below(g, 8)) {
    case 0:
    case 1: put_words(g, word); put(g, (uint8_t)word[length - 1]); break;
    case 2: put(g, (uint8_t)"0 \"N"[below(g, 4)]); put_words(g, word); break;
    case 3: put_words(g, word); put(g, (uint8_t)"0 \"NC\x01"[below(g, 6)]); break;
    case 4: put(g, (uint8_t)(word[0] | 32)); put_words(g, word + 1); break;
    case 5: put_in(g, g->line.length, word, length - 1); break;
    default: put_words(g, others[below(g, sizeof others / sizeof others[0])]); break;
    }
}

/* A word of the line; in a faulty one now and then another. */
static void put_word(struct generator *g, const char *word)
{
    bool wrong = g->faulty && chance(g, 25);

    if (wrong)
        put_other_word(g, word);
    else
        put_words(g, word);
    may_end(g, wrong ? 50 : 5);
}

static void put_digits(struct generator *g, unsigned value)
{
    char digits[32];

    snprintf(digits, sizeof digits, "%s%u", rarely(g, g->plain ? 3 : 80) ? chance(g, 50) ? "0" : "000" : "", value);
    put_words(g, digits);
}

static void put_outside(struct generator *g, unsigned least, unsigned most)
{
    switch (below(g, least > 0 ? 5 : 4)) {
    case 0: put_words(g, "999999999"); break;
    case 1: put_words(g, !chance(g, 20) ? "100000" : chance(g, 50) ? "0000000001" : "123456789012"); break;
    case 4: put_digits(g, least - 1); break;
    default: put_digits(g, most + 1); break;
    }
}

/* A number within its limits, mostly up to usual. */
static void put_number(struct generator *g, unsigned least, unsigned most, unsigned usual)
{
    if (usual < least)
        usual = least;
    if (usual > most)
        usual = most;
    if (spoilt(g))
        put_outside(g, least, most);
    else if (chance(g, 4))
        put_digits(g, chance(g, 50) ? least : most);
    else
        put_digits(g, chance(g, 92) ? between(g, least, usual) : between(g, least, most));
}

/* This number, or one outside its limits. */
static void put_chosen(struct generator *g, unsigned least, unsigned most, unsigned number)
{
    if (spoilt(g))
        put_outside(g, least, most);
    else
        put_digits(g, number);
}

static void put_x(struct generator *g)
{
    put_number(g, 0, 2047, chance(g, 80) ? 100 : 620);
}

/* A row of the page, or now and then one a little below it. */
static unsigned usual_y(struct generator *g)
{
    return g->rows + (chance(g, 10) ? 20 : 0);
}

static void put_y(struct generator *g, unsigned most)
{
    put_number(g, 0, most, usual_y(g));
}

static void put_comma(struct generator *g)
{
    put(g, ',');
    may_end(g, 1);
}

static const char *const name_pool[] = {"A", "TEST", "a", "Test", "LOGO1", "X Y", " ", "12345678", "A ", "b", "C", "D", "e~", "zA@", "`{["};
static const char *const bad_names[] = {"", "123456789", "A*", "*", "**", "          ", "*a", "abcdefghijklmnop"};

static void put_cased(struct generator *g, uint8_t byte)
{
    if (byte >= 'A' && byte <= 'Z' && chance(g, g->plain ? 2 : 30))
        byte = (uint8_t)(byte + 32);
    put(g, byte);
}

/* A stored name of the kind, if there is one. */
static bool put_stored_name(struct generator *g, uint8_t kind)
{
    unsigned first = below(g, g->entries);

    for (unsigned i = 0; i < g->entries; i++) {
        const uint8_t *e = entry(g, (first + i) % g->entries);
        if (e[0] != kind)
            continue;
        for (unsigned k = 0; k < e[1] && k < 8; k++)
            put_cased(g, e[2 + k]);
        return true;
    }
    return false;
}

static void put_name(struct generator *g, uint8_t kind, unsigned stored_in_hundred)
{
    put(g, '"');
    if (spoilt(g))
        put_words(g, bad_names[below(g, 8)]);
    else if (!chance(g, stored_in_hundred) || !put_stored_name(g, kind))
        put_words(g, name_pool[below(g, sizeof name_pool / sizeof name_pool[0])]);
    put(g, '"');
}

/* A comma is a little likelier: inside quotes it parts nothing. */
static uint8_t text_byte(struct generator *g)
{
    uint8_t byte = chance(g, 3) ? ',' : (uint8_t)between(g, 32, 126);

    return byte == '"' ? 'Q' : byte;
}

static void put_text(struct generator *g, unsigned length)
{
    while (length--)
        put(g, text_byte(g));
}

static void put_prompt(struct generator *g)
{
    put(g, '"');
    put_text(g, spoilt(g) ? between(g, 25, 30) : chance(g, 10) ? 24 : below(g, 8));
    put(g, '"');
}

/* ---- date and time ---- */

/* Not in small sessions: those that are stored make the calls that they made. */
static bool moment_due(struct generator *g, unsigned in_hundred)
{
    return !g->small && chance(g, in_hundred);
}

/* Either case, the small letters likelier. */
static void put_letter(struct generator *g, char letter)
{
    put(g, (uint8_t)(letter >= 'A' && chance(g, 60) ? letter + 32 : letter));
}

/* Any that may stand there, those of Code 39, digits, commas and letters that begin fields a little likelier. */
static uint8_t some_separator(struct generator *g)
{
    static const char likely[] = "-./:,0123456789-/ymdhsYMDHS2Ee+%$A!~";
    uint8_t byte = (uint8_t)between(g, 33, 126);

    return chance(g, 75) ? (uint8_t)likely[below(g, sizeof likely - 1)] : byte == '"' ? '#' : byte;
}

/* What may not: space, quote, bytes outside 33 to 126. */
static uint8_t bad_separator(struct generator *g)
{
    static const uint8_t bad[] = {' ', '"', 1, 31, 127, 128, 255, '\r', '\t', 0};

    return bad[below(g, sizeof bad)];
}

/* One of three: how a date's year, month or day, or a time's hour, minute or second is written. */
static const char *field_word(struct generator *g, bool date, unsigned unit)
{
    static const char *const dates[][2] = {{"Y2", "Y4"}, {"ME", "MN"}, {"DD", "DD"}}, *const times[] = {"H", "M", "S"};

    return date ? dates[unit][below(g, 2)] : times[unit];
}

static void put_field(struct generator *g, bool date, unsigned unit)
{
    for (const char *at = field_word(g, date, unit); *at; at++) {
        put_letter(g, *at);
        may_end(g, 8);
    }
}

/* What looks like a field and is none. */
static void put_wrong_field(struct generator *g)
{
    static const char *const wrong[] = {"", "y", "Y3", "yy", "y ", "m", "mm", "mY", "d", "dx", "D2", "d\"", "x", "2", "4", "e", "n", "hh", "\"", " ", "-", ",", "s ", "\x01", "\x80", "dD", "h", "S", "mE"};

    put_words(g, wrong[below(g, sizeof wrong / sizeof wrong[0])]);
    may_end(g, 40);
}

/* TD or TT with one to three fields in any order. In a faulty line fields come again, lack, are four, or a separator is wrong, doubled or missing. */
static void put_format(struct generator *g)
{
    bool date = chance(g, 60), faulty = g->faulty && chance(g, 80);
    unsigned order[] = {0, 1, 2, below(g, 3)}, fields = chance(g, 25) ? 1 : between(g, 2, 3), digits = chance(g, 35);

    for (unsigned i = 0; i < 2; i++) {
        unsigned k = between(g, i, 2), unit = order[i];
        order[i] = order[k];
        order[k] = unit;
    }
    if (faulty && chance(g, 45))
        order[below(g, 3)] = order[below(g, 3)];
    if (faulty && chance(g, 15))
        fields = 4;
    put_words(g, date ? "TD" : "TT");
    may_end(g, 6);
    for (unsigned i = 0; i < fields; i++) {
        unsigned wrong = faulty && chance(g, 35) ? below(g, 6) : 6;
        if (i > 0 && wrong != 0)
            put(g, wrong == 1 ? bad_separator(g) : digits ? (uint8_t)('0' + below(g, 10)) : some_separator(g));
        if (i > 0 && wrong == 2)
            put(g, some_separator(g));
        may_end(g, 5);
        if (wrong >= 3 && wrong < 6)
            put_wrong_field(g);
        else
            put_field(g, date, order[i]);
    }
}

struct moment {
    unsigned year, month, day, hour, minute, second;
};

static unsigned days_in(unsigned year, unsigned month)
{
    return month == 2 ? 28 + (year % 4 == 0) : 30 + (month + month / 8) % 2;
}

/* Any, or near the end of a day, a month, February, a year, or all of them. */
static struct moment some_moment(struct generator *g)
{
    unsigned k = below(g, 100), leap[] = {0, 4, 96, 4 * below(g, 25)};
    struct moment m = {below(g, 100), between(g, 1, 12), 0, below(g, 24), below(g, 60), below(g, 60)};

    if (k < 25)
        m.month = 2;
    if (k < 15 || (k >= 25 && k < 30))
        m.year = leap[below(g, 4)];
    if (k >= 40 && k < 55)
        m.month = 12;
    if (k >= 50 && k < 60) {
        m.month = 12;
        m.year = 99;
    }
    m.day = k < 70 ? days_in(m.year, m.month) - (chance(g, 75) ? 0 : below(g, 3)) : between(g, 1, days_in(m.year, m.month));
    if (chance(g, 40)) {
        m.hour = 23;
        m.minute = 59;
        m.second = chance(g, 60) ? 59 : below(g, 60);
    } else if (chance(g, 20))
        m.hour = m.minute = m.second = 0;
    return m;
}

/* One number of the moment just outside its limits. */
static void pass_limit(struct generator *g, struct moment *m)
{
    switch (below(g, 6)) {
    case 0: m->month = chance(g, 50) ? 0 : 13; break;
    case 1: m->day = chance(g, 70) ? 0 : 32; break;
    case 2: m->year = 100; break;
    case 3: m->hour = 24; break;
    case 4: m->minute = 60; break;
    default: m->second = 60; break;
    }
}

/* TS of such a moment; now and then of a day that its month has not, by one or up to 32, and with a number outside its limits, or both. */
static void put_set_clock(struct generator *g)
{
    struct moment m = some_moment(g);

    if (chance(g, 15))
        m.day = days_in(m.year, m.month) + 1 < 31 && chance(g, 80) ? days_in(m.year, m.month) + 1 : between(g, 28, 32);
    if (chance(g, 15))
        pass_limit(g, &m);
    put_words(g, "TS");
    may_end(g, 3);
    put_chosen(g, 1, 12, m.month);
    put_comma(g);
    put_chosen(g, 1, 31, m.day);
    put_comma(g);
    put_chosen(g, 0, 99, m.year);
    put_comma(g);
    put_chosen(g, 0, 23, m.hour);
    put_comma(g);
    put_chosen(g, 0, 59, m.minute);
    put_comma(g);
    put_chosen(g, 0, 59, m.second);
}

/* It is still the day on which a session opens, so that all dates would be the same. */
static bool as_opened(const struct generator *g)
{
    return memcmp(g->desk->bytes[SESSION] + CLOCK_AT, (const uint8_t[]){0, 1, 1}, 3) == 0;
}

/* Of the three commands the formats come oftener, and while a form is recorded nearly always. */
static void put_moment_line(struct generator *g, bool recording)
{
    if (chance(g, recording ? 4 : 35))
        put_set_clock(g);
    else
        put_format(g);
}

static bool in_set(uint8_t byte, const char *set)
{
    return byte != 0 && strchr(set, byte) != NULL;
}

/* How many bytes a format shows, and whether all of them are digits, or of Code 39. */
struct shown {
    unsigned length;
    bool digits, code_39;
};

static struct shown shown_by(const uint8_t format[FORMAT], bool date)
{
    struct shown s = {0, true, true};

    for (unsigned i = 0; i < FORMAT; i += 2) {
        if (format[i] == 0)
            break;
        s.length += date && format[i] == Y4 ? 4 : date && format[i] == ME ? 3 : 2;
        s.digits &= !date || format[i] != ME;
        if (i == 0)
            continue;
        s.length++;
        s.digits &= in_set(format[i - 1], "0123456789");
        s.code_39 &= in_set(format[i - 1], "0123456789ABCDEFGHIJKLMNOPQRSTUVWXYZ-.$/+%");
    }
    return s;
}

/* ---- data ---- */

/* At most one modifier of a value of so many bytes; gives what it shows. */
static unsigned put_modifier(struct generator *g, unsigned length)
{
    unsigned n = between(g, 1, length), place = 1;
    bool past = chance(g, g->faulty ? 30 : 6);

    if (chance(g, 50))
        return length;
    if (past)
        n = between(g, length + 1, length + 3);
    switch (below(g, 3)) {
    case 0: put(g, 'L'); may_end(g, 5); break;
    case 1: put(g, 'R'); may_end(g, 5); break;
    default:
        place = past ? between(g, 1, 5) : between(g, 1, length - n + 1);
        put(g, 'M');
        if (spoilt(g))
            put_outside(g, 1, 32);
        else
            put_digits(g, place);
        may_end(g, 10);
        put(g, '.');
        may_end(g, 10);
    }
    if (spoilt(g))
        put_outside(g, 1, 32);
    else
        put_digits(g, n);
    return n;
}

/* A declared variable (of kind Z only, if digits are asked for) or counter with a modifier; gives what it shows, or 0. */
static unsigned put_value(struct generator *g, const struct declared *d, bool digits)
{
    unsigned first = below(g, 20);

    for (unsigned i = 0; i < 20; i++) {
        unsigned k = (first + i) % 20;
        if (k < 10 && d->v[k] && (!digits || d->justify[k] == 'Z')) {
            put(g, 'V');
            put(g, (uint8_t)('0' + k));
            return put_modifier(g, d->m[k]);
        }
        if (k >= 10 && d->c[k - 10]) {
            put(g, 'C');
            put(g, (uint8_t)('0' + k - 10));
            return put_modifier(g, d->w[k - 10]);
        }
    }
    return 0;
}

static void put_quoted(struct generator *g, unsigned length)
{
    put(g, '"');
    put_text(g, length);
    may_end(g, 3);
    put(g, '"');
}

static void put_from(struct generator *g, const char *bytes, unsigned length)
{
    put(g, '"');
    while (length--)
        put(g, (uint8_t)bytes[below(g, (unsigned)strlen(bytes))]);
    put(g, '"');
}

/* TD or TT, if digits or bytes of Code 39 are asked for mostly one that shows such; gives how many bytes it shows, or 0 if none is put. */
static unsigned put_moment(struct generator *g, const struct declared *d, char type)
{
    bool date = chance(g, 55);
    struct shown s = shown_by(date ? d->date : d->time, date), other = shown_by(date ? d->time : d->date, !date);
    bool fit = type == '1' || (type == '3' ? s.code_39 : s.digits), other_fit = type == '3' ? other.code_39 : other.digits;

    if (!fit && other_fit) {
        date = !date;
        s = other;
    } else if (!fit && !chance(g, 12))
        return 0;
    put_words(g, date ? "TD" : "TT");
    return s.length;
}

static void put_any_element(struct generator *g, const struct declared *d)
{
    if (moment_due(g, 30))
        put_moment(g, d, '1');
    else if (chance(g, 45) || put_value(g, d, false) == 0)
        put_quoted(g, !chance(g, 4) ? below(g, 10) : chance(g, 40) ? between(g, 126, 130) : between(g, 60, 135));
}

static void put_stray(struct generator *g)
{
    put(g, chance(g, 50) ? 'V' : 'C');
    put(g, (uint8_t)('0' + below(g, 10)));
    put_modifier(g, between(g, 1, 32));
}

/* What looks like an element and is none, in itself or with what follows it. */
static void put_wrong_element(struct generator *g)
{
    static const char *const wrong[] = {"V", "C", "Vx", "V,", "CC", "V0L", "V0Lx", "C0R,", "V0M", "V0M1", "V0M1.", "V0M1,1", "V0M.1", "V0M1.x",
                                        "C0Mx.1", "V0L1234567890", "C0M1.0000000001", "V0M1234567890.1", "C0R12345678901", "V01", "C0L1R1",
                                        "V0l1", "C0L1.2", "V0M1.2.3", "v0", "c1", "L1", "R", ",", " ", "\"", "x", ".", "1", "-", "\x01", "\x80",
                                        "\"\x1f\"", "\"a\x7f\"", "\"ab\xff", "V\"0\"", "C0L\"1\""};
    static const char *const moments[] = {"T", "TD1", "TDL2", "TTR1", "TDM1.1", "TD-1", "TD+V0", "Tx", "td", "Td", "tT", "TS", "T\"", "TT,", "TD ", "T,", "TTT", "TDT", "TV0", "T1"};

    if (moment_due(g, 35))
        put_words(g, moments[below(g, sizeof moments / sizeof moments[0])]);
    else
        put_words(g, wrong[below(g, sizeof wrong / sizeof wrong[0])]);
    may_end(g, 40);
}

/* Several elements of which some are declared and some not, some reach too far, some have modifiers outside their limits. */
static void put_faulty_data(struct generator *g, const struct declared *d)
{
    unsigned count = between(g, 1, 6), share = below(g, 30);
    bool strays = chance(g, 40);

    while (count--) {
        if (chance(g, share / 2))
            put_wrong_element(g);
        else if (strays && chance(g, 35))
            put_stray(g);
        else
            put_any_element(g, d);
        if (chance(g, share / 2))
            g->spoil |= 1u << below(g, 3);
    }
}

/* So many that the data shows about as many bytes as it may, and a text that makes up for what lacks. A damaged format may show none. */
static void put_many_moments(struct generator *g, const struct declared *d)
{
    unsigned to = between(g, MOST_DATA - 3, MOST_DATA + 3), total = 0;

    for (unsigned i = 0; i < MOST_DATA / 2 && total + 11 < to; i++)
        total += put_moment(g, d, '1');
    put_from(g, "0A", to - total);
}

static void put_any_data(struct generator *g, const struct declared *d)
{
    unsigned count = between(g, 1, chance(g, 10) ? 9 : 3);

    if (g->faulty && chance(g, 60)) {
        put_faulty_data(g, d);
        return;
    }

    while (count--)
        put_any_element(g, d);
    if (chance(g, 3))
        put_stray(g);
    if (moment_due(g, 4))
        put_many_moments(g, d);
}

/* ---- rows of digits, for type 1 ---- */

/* Not in small sessions: those that are stored make the calls that they made. */
static bool rows_due(struct generator *g, unsigned in_hundred)
{
    return !g->small && chance(g, in_hundred);
}

/* Short ones most of all, about the lengths at which set C begins to be worth its changes; every length and parity. */
static unsigned some_row(struct generator *g)
{
    unsigned k = below(g, 100);

    if (k < 45)
        return between(g, 1, 7);
    if (k < 80)
        return between(g, 4, 9);
    return k < 95 ? between(g, 1, 24) : between(g, 1, MOST_DATA);
}

/* No digit; those beside the digits, a space and both ends of what may be shown a little likelier. */
static uint8_t no_digit(struct generator *g)
{
    static const uint8_t likely[] = "/: A~!,B";
    uint8_t byte = chance(g, 60) ? likely[below(g, 8)] : text_byte(g);

    return byte >= '0' && byte <= '9' ? 'x' : byte;
}

/* A text is begun where it must be; end_text ends it, if one is begun. */
static void put_in_text(struct generator *g, bool *begun, uint8_t byte)
{
    if (!*begun)
        put(g, '"');
    *begun = true;
    put(g, byte);
}

static void end_text(struct generator *g, bool *begun)
{
    if (*begun)
        put(g, '"');
    *begun = false;
}

/* So many digits, as one text, as several, and as counters and variables of digits between them: a pair may have its digits from two elements. Gives how many are put. */
static unsigned put_row(struct generator *g, const struct declared *d, bool *begun, unsigned digits, unsigned parted)
{
    unsigned done = 0;

    while (done < digits) {
        unsigned shown = 0;
        if (chance(g, parted)) {
            end_text(g, begun);
            shown = chance(g, 80) ? put_value(g, d, true) : 0;
        }
        if (shown == 0)
            put_in_text(g, begun, (uint8_t)('0' + below(g, 10)));
        done += shown > 0 ? shown : 1;
    }
    return done;
}

/* Rows of digits and other bytes in turn, one to four of them, with any of both at either end. Gives how many bytes are shown. */
static unsigned put_rows(struct generator *g, const struct declared *d, bool *begun)
{
    unsigned pieces = chance(g, 35) ? 1 : between(g, 2, 4), shown = 0, parted = chance(g, 40) ? 0 : between(g, 3, 40);
    bool alone = pieces == 1, digits = alone || chance(g, 55);

    for (; pieces > 0; pieces--, digits = !digits) {
        unsigned left = shown < MOST_DATA ? MOST_DATA - shown : 0, length = chance(g, 70) ? 1 : between(g, 1, 5);
        if (digits)
            length = alone && chance(g, 50) ? between(g, 1, 5) : some_row(g);
        if (length > left && !chance(g, 3))
            length = left;
        if (digits)
            length = put_row(g, d, begun, length, parted);
        for (unsigned i = 0; i < length && !digits; i++)
            put_in_text(g, begun, no_digit(g));
        shown += length;
    }
    return shown;
}

/* Now and then filled up to the most that data may show, with digits or without, and now and then with some element of any kind behind it. */
static void put_row_data(struct generator *g, const struct declared *d)
{
    bool begun = false, digits = chance(g, 30);
    unsigned shown = put_rows(g, d, &begun), to = rarely(g, 60) ? MOST_DATA - (chance(g, 60) ? 0 : below(g, 4)) : 0;

    for (; shown < to; shown++)
        put_in_text(g, &begun, digits ? (uint8_t)('0' + below(g, 10)) : no_digit(g));
    end_text(g, &begun);
    if (shown == 0 || chance(g, 4))
        put_any_element(g, d);
}

/* What is put to so many bytes of values, 46 at most: now and then up to the most that data may show, or a little more. */
static unsigned usual_fill(struct generator *g, char type, unsigned total)
{
    if (type == 'E')
        return total < 12 ? 12 - total : 0;
    if (chance(g, 3))
        return 2 * between(g, 63, 65) - total + (type == '3' ? below(g, 2) : 0);
    if (type == '2')
        return total % 2 + 2 * below(g, chance(g, 5) ? 60 : 5);
    return below(g, chance(g, 5) ? 130 : 9);
}

/* Digits shown in all: a sum that fits type 2, E30 or 3, unless it is spoilt. */
static void put_digit_data(struct generator *g, const struct declared *d, char type)
{
    unsigned total = 0, fill, tries = below(g, 4);

    if (g->faulty && chance(g, 40)) {
        put_faulty_data(g, d);
        return;
    }
    while (tries-- && total < 12)
        total += moment_due(g, 45) ? put_moment(g, d, type) : put_value(g, d, true);
    fill = usual_fill(g, type, total);
    if (chance(g, 10))
        fill += below(g, 3);
    if (total + fill == 0 || (type == '2' && total + fill < 2))
        fill += 2;
    if (fill > 0 || chance(g, 5))
        put_from(g, type == '3' ? "0123456789ABCDEFGHIJKLMNOPQRSTUVWXYZ-. $/+%" : "0123456789", fill);
    if (chance(g, 4))
        put_from(g, "aA#*1", 1);
    if (chance(g, 4))
        put_any_element(g, d);
    if (chance(g, 2))
        put_stray(g);
}

/* ---- the commands ---- */

static void put_rectangle(struct generator *g)
{
    static const char *const words[] = {"LO", "LE", "LW"};

    put_words(g, words[below(g, 3)]);
    put_x(g);
    put_comma(g);
    put_y(g, 2047);
    put_comma(g);
    put_number(g, 1, 2047, 60);
    put_comma(g);
    put_number(g, 1, 2047, 12);
}

static void put_frame(struct generator *g)
{
    put(g, 'X');
    put_x(g);
    put_comma(g);
    put_y(g, 4095);
    put_comma(g);
    put_number(g, 1, 80, 5);
    put_comma(g);
    put_x(g);
    put_comma(g);
    put_y(g, 4095);
}

/* ---- slanted lines ---- */

struct segment {
    unsigned a, b, c, d, e;
};

/* A column or row of a page of this size: anywhere on it, about its edges, or anywhere in the limits. The origin is added to it later, so it is
 * mostly taken off before. */
static unsigned some_coordinate(struct generator *g, unsigned size, unsigned origin, unsigned most)
{
    unsigned k = below(g, 100), at = below(g, size), about = size + below(g, 90);

    if (k >= 60 && k < 78)
        at = about > 45 ? about - 45 : 0;
    else if (k >= 78 && k < 86)
        at = below(g, 6);
    else if (k >= 86)
        at = k < 96 ? below(g, most + 1) : k < 98 ? 0 : most;
    if (at >= origin && chance(g, 70))
        at -= origin;
    return at < most ? at : most;
}

/* So far to one side or the other, where the limits leave room for it. */
static unsigned aside(struct generator *g, unsigned from, unsigned by, unsigned most)
{
    bool up = chance(g, 50);

    if (up && from + by <= most)
        return from + by;
    return from >= by ? from - by : from + by <= most ? from + by : from;
}

/* Thin ones most of all, and an even c where dots may lie just c/2 away. */
static unsigned some_thickness(struct generator *g)
{
    unsigned k = below(g, 100);

    if (k < 35)
        return between(g, 1, 4);
    if (k < 65)
        return between(g, 1, 20);
    if (k < 80)
        return 2 * between(g, 1, 20);
    return k < 94 ? between(g, 1, 80) : k < 97 ? 80 : 79;
}

/* Two sides whose squares add up to a square: the length is a whole number, and with an even c some dots lie just c/2 away from the segment. */
static void lay_exact(struct generator *g, struct segment *s)
{
    static const unsigned sides[][2] = {{3, 4}, {5, 12}, {8, 15}, {7, 24}, {20, 21}, {12, 35}, {9, 40}};
    unsigned k = below(g, 7), times = between(g, 1, k < 3 ? 12 : 4), turned = below(g, 2);

    s->d = aside(g, s->a, times * sides[k][turned], 2047);
    s->e = aside(g, s->b, times * sides[k][1 - turned], 4095);
    if (chance(g, 70))
        s->c = 2 * between(g, 1, 20);
}

/* Segments with dots a little more than c/2 away from their ends, of which one belongs to the line because its foot just lies on the segment, and one beside it does
 * not because its foot just lies outside. */
static void lay_close(struct generator *g, struct segment *s)
{
    static const unsigned close[][3] = {{14, 5, 7}, {17, 6, 7}, {26, 9, 7}, {40, 14, 7}, {23, 6, 17}, {27, 7, 17}, {24, 11, 25}, {29, 6, 31}, {35, 6, 49}, {29, 9, 55}, {41, 6, 71}};
    unsigned k = below(g, sizeof close / sizeof close[0]), turned = below(g, 2);

    s->d = aside(g, s->a, close[k][turned], 2047);
    s->e = aside(g, s->b, close[k][1 - turned], 4095);
    s->c = close[k][2];
}

/* The other end: anywhere, near, level, upright, at 45 degrees or nearly so, at a whole length, at one of the close ones, or equal. */
static void lay_other_end(struct generator *g, struct segment *s)
{
    unsigned k = below(g, 100), by = below(g, chance(g, 50) ? 12 : 120), more = chance(g, 70) ? 0 : 1;

    if (k < 20) {
        s->d = aside(g, s->a, below(g, 30), 2047);
        s->e = aside(g, s->b, below(g, 30), 4095);
    } else if (k < 29)
        s->e = aside(g, s->b, more, 4095);
    else if (k < 38)
        s->d = aside(g, s->a, more, 2047);
    else if (k < 48) {
        s->d = aside(g, s->a, by, 2047);
        s->e = aside(g, s->b, by + more, 4095);
    } else if (k < 62)
        lay_exact(g, s);
    else if (k < 68)
        lay_close(g, s);
    else if (k < 75) {
        s->d = s->a;
        s->e = s->b;
    }
}

static void put_slanted(struct generator *g)
{
    static const char *const words[] = {"LS", "LSE", "LSW"};
    const uint8_t *image = g->desk->bytes[SESSION];
    unsigned width = low_first(image) | 1, length = low_first(image + 2) | 1, x = low_first(image + 5), y = low_first(image + 7);
    struct segment s = {some_coordinate(g, width, x, 2047), some_coordinate(g, length, y, 4095), some_thickness(g),
                        some_coordinate(g, width, x, 2047), some_coordinate(g, length, y, 4095)};

    lay_other_end(g, &s);
    put_words(g, words[below(g, 3)]);
    may_end(g, 5);
    put_chosen(g, 0, 2047, s.a);
    put_comma(g);
    put_chosen(g, 0, 4095, s.b);
    put_comma(g);
    put_chosen(g, 1, 80, s.c);
    put_comma(g);
    put_chosen(g, 0, 2047, s.d);
    put_comma(g);
    put_chosen(g, 0, 4095, s.e);
}

/* In small sessions none: those that are stored make the calls that they made. */
static bool slanted_due(struct generator *g, unsigned in_hundred)
{
    return !g->small && chance(g, in_hundred);
}

/* ---- more commands ---- */

static void put_corner(struct generator *g, char word, unsigned usual)
{
    put(g, (uint8_t)word);
    put_x(g);
    put_comma(g);
    put_number(g, 0, 4095, usual);
    put_comma(g);
    put_number(g, 0, 3, 3);
    put_comma(g);
}

/* Elements of no bytes until the line is as long as a line may be, or a little longer; in a faulty one a text without its end. */
static void pad_data(struct generator *g)
{
    size_t to = between(g, chance(g, 40) ? 253 : 235, 257);

    if (g->faulty && chance(g, 50)) {
        put(g, '"');
        put_text(g, to > g->line.length ? (unsigned)(to - g->line.length) : 0);
    }
    while (g->line.length + 2 <= to)
        put_words(g, "\"\"");
}

static void put_text_line(struct generator *g, const struct declared *d)
{
    put_corner(g, 'A', usual_y(g));
    put_number(g, 1, 6, 2);
    put_comma(g);
    put_number(g, 1, 9, 2);
    put_comma(g);
    put_word(g, chance(g, 70) ? "N" : "R");
    put_comma(g);
    put_any_data(g, d);
    if (chance(g, g->plain || g->faulty ? 12 : 5))
        pad_data(g);
}

/* Type, narrow, wide and height. */
static void put_bar_sizes(struct generator *g, char type)
{
    unsigned narrow = chance(g, 80) ? between(g, 1, 2) : between(g, 1, 6);

    put_word(g, type == 'E' ? "E30" : (const char[]){type, 0});
    put_comma(g);
    if (spoilt(g))
        put_outside(g, 1, 6);
    else
        put_digits(g, narrow);
    put_comma(g);
    if (spoilt(g) || (g->faulty && chance(g, 10))) {
        put_digits(g, chance(g, 70) ? between(g, 0, narrow) : 11);
        g->spoil |= chance(g, 30);  /* the height too */
    } else
        put_digits(g, between(g, narrow + 1, chance(g, 80) ? narrow + 2 : 10));
    put_comma(g);
    put_number(g, 24, 1000, chance(g, 50) ? 28 : 40);
    put_comma(g);
}

/* Words that are not written so, some of them only with what follows: a C that data follows, or nothing at all. */
static void put_wrong_word(struct generator *g, bool *ends)
{
    static const char *const before_data[] = {"BC,", "BR,", "B,L,", "N,C,", "N,R,", "BB,", "b,", "B,C", "B,R", "B,C,C,", "B,R,C,", "B,,",
                                              "B,c,", "BN,", "C,", "B", "N", "", "B,C0,", "B,Rx,", "B,R,R,", "B,CR,", "N,,", "NN,"};
    static const char *const at_end[] = {"B,", "B,C,", "B,R,", "B,C", "B,R", "B", "N,", "N", "N,R", "N,C", "BC", "B,Rx", "B,Cx", "B,RR",
                                         "B,L", "B,R,R", "B,C,C", "B,C,V", ""};

    *ends = chance(g, 35);
    put_words(g, *ends ? at_end[below(g, sizeof at_end / sizeof at_end[0])] : before_data[below(g, sizeof before_data / sizeof before_data[0])]);
}

/* Half of them ask for a line under the bars, and more of them stand in the upper rows, where there is room for it. */
static void put_bars_line(struct generator *g, const struct declared *d)
{
    static const char types[] = "32E1";
    static const char *const words[] = {"N,", "N,", "N,", "B,", "B,C,", "B,R,"};
    char type = types[below(g, 4)];
    bool ends = false;

    if (rows_due(g, 25))
        type = '1';
    put_corner(g, 'B', chance(g, 70) ? g->rows / 3 : usual_y(g));
    put_bar_sizes(g, type);
    if (chance(g, g->faulty ? 25 : 4))
        put_wrong_word(g, &ends);
    else
        put_words(g, words[below(g, 6)]);
    if (ends)
        return;
    if (chance(g, 2))
        put_stray(g);
    if (type == '1' && !g->faulty && rows_due(g, 75))
        put_row_data(g, d);
    else if (type == '1')
        put_any_data(g, d);
    else
        put_digit_data(g, d, type);
    if (chance(g, 3))
        pad_data(g);
}

static void put_picture_line(struct generator *g)
{
    put_words(g, "GG");
    put_x(g);
    put_comma(g);
    put_y(g, 4095);
    put_comma(g);
    put_name(g, PICTURE, 93);
}

static void put_origin(struct generator *g)
{
    put(g, 'R');
    put_number(g, 0, 2048, 40);
    put_comma(g);
    put_number(g, 0, 4096, g->rows / 3 + 1);
}

static unsigned pick_number(struct generator *g, const bool *declared)
{
    unsigned n = below(g, 10);

    for (unsigned i = 0; i < 10 && declared[n] && chance(g, 75); i++)
        n = (n + 1) % 10;
    return n;
}

static void put_variable(struct generator *g, const struct declared *d)
{
    static const char *const kinds[] = {"L", "R", "C", "N", "Z", "Z", "Z", "N"};

    put(g, 'V');
    if (spoilt(g))
        put_outside(g, 0, 9);
    else
        put_digits(g, pick_number(g, d->v));
    put_comma(g);
    put_number(g, 1, 32, 6);
    put_comma(g);
    put_word(g, kinds[below(g, 8)]);
    put_comma(g);
    put_prompt(g);
}

/* How great a step is at most: mostly small, now and then as great as the numbers of one, two, three or four digits. */
static unsigned some_step(struct generator *g)
{
    static const unsigned most[] = {3, 3, 3, 3, 3, 9, 30, 120, 1100, 99999, 99999};

    return most[below(g, sizeof most / sizeof most[0])];
}

static void put_counter(struct generator *g, const struct declared *d)
{
    static const char *const wrong[] = {"+", "-", "x", ",", " ", "000000000", "1234567890", "+1-", "\"", "."};  /* before the step's digits */
    bool wide = chance(g, 15);  /* such a job may reach numbers of more than 32 bits */

    put(g, 'C');
    if (spoilt(g))
        put_outside(g, 0, 9);
    else
        put_digits(g, pick_number(g, d->c));
    put_comma(g);
    put_number(g, wide ? 9 : 1, 9, chance(g, 60) ? 3 : 9);
    put_comma(g);
    put_words(g, chance(g, g->plain ? 55 : 30) ? "+" : chance(g, g->plain ? 95 : 60) ? "-" : "");
    may_end(g, 10);
    if (g->faulty && chance(g, 30)) {
        put_words(g, wrong[below(g, sizeof wrong / sizeof wrong[0])]);
        may_end(g, 40);
    }
    put_number(g, wide ? 50000 : 0, 99999, wide ? 99999 : some_step(g));
    put_comma(g);
    put_prompt(g);
}

/* A value for a variable of m bytes, mostly one that fits. */
static void put_value_text(struct generator *g, unsigned m, char justify)
{
    unsigned length = chance(g, 8) ? between(g, m + 1, m + 6) : between(g, 0, m);

    if (chance(g, 2))
        length = between(g, 100, 250);
    if (justify == 'Z' && length == 0 && chance(g, 90))
        length = 1;
    if (justify == 'Z' && chance(g, 95))
        put_from(g, "0123456789", length);
    else if (rows_due(g, 50))
        put_from(g, chance(g, 40) ? "0123456789" : "01234567890123456789 /:A", length);
    else
        put_quoted(g, length);
}

/* Half of them are a few labels before their end. */
static void put_counter_value(struct generator *g, unsigned w, int step)
{
    unsigned power = (unsigned)ten_to(w);
    int64_t value = value_before_end(g, step, w, between(g, 1, chance(g, 70) ? 4 : 20));

    if (chance(g, 5) && w < 9)
        put_digits(g, power + below(g, 20));
    else if (chance(g, 50) && value >= 0 && value < power)
        put_digits(g, (unsigned)value);
    else if (chance(g, 20))
        put_digits(g, power - 1 - below(g, power < 4 ? power : 4));
    else
        put_digits(g, below(g, power));
}

/* Sets a declared value, an unset one if there is one. */
static void put_ask(struct generator *g, const struct view *v)
{
    unsigned first = below(g, 20), found = 20;

    for (unsigned i = 0; i < 20 && found == 20; i++) {
        unsigned k = (first + i) % 20, n = k % 10;
        bool declared = k < 10 ? v->of_active.v[n] : v->of_active.c[n];
        bool set = k < 10 ? g->desk->bytes[VALUE][34 * n] != 0 : g->desk->bytes[SESSION][15 + 5 * n] != 0;
        if (declared && (!set || (v->unset == 0 && chance(g, 50))))
            found = k;
    }
    if (found == 20 || chance(g, 3))
        found = below(g, 20);
    put_words(g, found < 10 ? "?V" : "?C");
    if (spoilt(g))
        put_outside(g, 0, 9);
    else
        put_digits(g, found % 10);
    put_comma(g);
    if (found < 10)
        put_value_text(g, v->of_active.m[found] ? v->of_active.m[found] : 5, v->of_active.justify[found]);
    else
        put_counter_value(g, v->of_active.w[found - 10] ? v->of_active.w[found - 10] : 3, v->of_active.step[found - 10]);
}

/* As many labels as the counters have left, one more, or nearly so. Many labels take long to draw, so then mostly one more. */
static void put_last_labels(struct generator *g, int64_t left)
{
    int64_t labels = chance(g, left > 12 ? 93 : 25) ? left + 1 : left;

    if (chance(g, 15))
        labels += between(g, 0, 4);
    if (chance(g, 15))
        labels -= between(g, 0, 2);
    put_digits(g, (unsigned)(labels < 1 ? 1 : labels > 65535 ? 65535 : labels));
}

/* How many labels: often about as many as there are before a counter runs out, else a few, and seldom very many. */
static void put_print(struct generator *g, const struct view *v)
{
    int64_t left = fewest_left(g, v);

    put(g, 'P');
    if (spoilt(g))
        put_outside(g, 1, 65535);
    else if (left < 65536 && chance(g, 55))
        put_last_labels(g, left);
    else if (left < 65536 && chance(g, 18))
        put_digits(g, left < 40000 ? between(g, 40000, 65535) : 65535);
    else if (left < 65536 && chance(g, 8))
        put_digits(g, between(g, left > 0 ? (unsigned)left : 1, 65535));
    else if (chance(g, 1))
        put_words(g, "65535");
    else
        put_number(g, 1, 65535, chance(g, 80) || left < 65536 ? 3 : 8);
}

/* ---- pictures ---- */

static void put_word_at(uint8_t *head, unsigned at, unsigned value)
{
    head[at] = (uint8_t)value;
    head[at + 1] = (uint8_t)(value >> 8);
}

/* Packs so many bytes in runs of any length, across lines too. */
static size_t pack_runs(struct generator *g, uint8_t *out, size_t total, size_t room)
{
    size_t length = 0;

    while (total > 0 && length + 2 <= room) {
        unsigned run = chance(g, 50) ? 1 : between(g, 1, 63);
        uint8_t value = chance(g, 30) ? 0xff : chance(g, 30) ? 0 : (uint8_t)random_number(g);

        if (room - length < 8 + 2 * (total / 63 + 1))
            run = 63;  /* little room left */
        if (run > total)
            run = (unsigned)total;
        if (run > 1 || value >= 192)
            out[length++] = (uint8_t)(192 + run);
        out[length++] = value;
        total -= run;
    }
    return length;
}

/* So many bytes packed into exactly so much room: some as runs of one, so that the size comes out. */
static size_t pack_to_size(struct generator *g, uint8_t *out, size_t total, size_t room)
{
    size_t pairs = room - total, length = 0;

    while (total-- > 0) {
        if (pairs > total || (pairs > 0 && chance(g, 50))) {
            out[length++] = 193;
            out[length++] = (uint8_t)random_number(g);
            pairs--;
        } else {
            out[length++] = (uint8_t)below(g, 192);
        }
    }
    return length;
}

/* Now and then the packed size is a whole number of portions, or the most there may be. */
static size_t pack_picture(struct generator *g, uint8_t *out, size_t total, size_t room)
{
    size_t whole = room + PICTURE_HEAD == MOST_PICTURE && chance(g, 50) ? room : (total + PICTURE_HEAD + 255) / 256 * 256 - PICTURE_HEAD;

    if (chance(g, 30) && whole <= room && total <= whole && whole <= 2 * total)
        return pack_to_size(g, out, total, whole);
    return pack_runs(g, out, total, room);
}

struct shape {
    unsigned width, height, line;
};

static struct shape usual_shape(struct generator *g, size_t room)
{
    struct shape s = {chance(g, 90) ? between(g, 1, 80) : between(g, 1, 2048),
                      chance(g, 90) ? between(g, 1, 20) : between(g, 1, chance(g, 10) ? 4000 : 300), 0};

    s.line = (s.width + 15) / 16 * 2;
    if (s.line < 256 && chance(g, 20))
        s.line += 2;
    while ((size_t)s.line * s.height > (room - 200) * 20)
        s.height = (s.height + 1) / 2;
    return s;
}

/* At and just past the most dots, lines and line bytes. */
static struct shape edge_shape(struct generator *g)
{
    struct shape s = {between(g, 1, 16), between(g, 3999, 4001), 2};

    if (chance(g, 60)) {
        s.width = between(g, 2046, 2049);
        s.height = between(g, 1, 3);
        s.line = between(g, 255, 258);
    }
    return s;
}

/* Fills what a picture may have. */
static struct shape greatest_shape(struct generator *g)
{
    struct shape s = {between(g, 1, 2048), between(g, 65, 127), 256};

    return s;
}

static void put_head(struct generator *g, uint8_t *out, struct shape s)
{
    static const uint8_t versions[] = {0, 2, 3, 4, 5};
    unsigned left = below(g, 3), top = below(g, 3);

    for (unsigned i = 0; i < PICTURE_HEAD; i++)
        out[i] = chance(g, 50) ? 0 : (uint8_t)random_number(g);
    out[0] = 10;
    out[1] = chance(g, 2) ? (uint8_t)below(g, 8) : versions[below(g, 5)];
    out[2] = out[3] = out[65] = 1;
    put_word_at(out, 4, left);
    put_word_at(out, 6, top);
    put_word_at(out, 8, left + s.width - 1);
    put_word_at(out, 10, top + s.height - 1);
    put_word_at(out, 66, s.line);
}

/* A legal picture, but for some at the edge; its size is given. */
static size_t make_picture(struct generator *g, uint8_t *out, size_t room)
{
    struct shape s = chance(g, 4) ? edge_shape(g)
                   : room == MOST_PICTURE && chance(g, 15) ? greatest_shape(g)
                                                           : usual_shape(g, room);

    put_head(g, out, s);
    return PICTURE_HEAD + pack_picture(g, out + PICTURE_HEAD, (size_t)s.line * s.height, room - PICTURE_HEAD);
}

/* A legal picture of just so many bytes, 130 or more: half of them or more are bytes by themselves, the others make runs of one. */
static size_t make_sized_picture(struct generator *g, uint8_t *out, size_t size)
{
    unsigned body = (unsigned)size - PICTURE_HEAD, least = body / 2 / 4000 + 1, most = body / 4 < 128 ? body / 4 : 128;
    struct shape s = {0, 0, 2 * between(g, least, most < least ? least : most)};

    s.height = body / s.line;
    s.width = 8 * s.line - below(g, 8);
    put_head(g, out, s);
    return PICTURE_HEAD + pack_to_size(g, out + PICTURE_HEAD, (size_t)s.line * s.height, body);
}

/* The size of a picture that needs about as many portions as are free: one more, just as many, one less or some more. In its last portion
 * it has mostly one byte or all of them. */
static size_t size_about_full(struct generator *g, const struct view *v)
{
    unsigned portions = v->portions + (chance(g, 85) ? below(g, 3) : between(g, 3, 8)), most = MOST_PICTURE / PORTION;
    unsigned last = chance(g, 35) ? 1 : chance(g, 55) ? PORTION : between(g, 1, PORTION);
    size_t size;

    portions = portions < 2 ? 1 : portions - 1;
    if (portions > most)
        portions = most - (chance(g, 80) ? 0 : below(g, most));
    size = (portions - 1) * PORTION + last;
    return size < LEAST_PICTURE + 1 ? between(g, LEAST_PICTURE + 1, PORTION) : size;
}

static size_t damage_picture(struct generator *g, uint8_t *picture, size_t size)
{
    static const uint8_t places[] = {0, 1, 2, 3, 4, 5, 6, 7, 8, 9, 10, 11, 65, 66, 67, 128, 129};

    switch (below(g, 8)) {
    case 0: return size - 1;
    case 1: picture[size] = (uint8_t)random_number(g); return size + 1;
    case 2: picture[128] = 192; return size;
    case 3: picture[between(g, 128, (unsigned)size - 1)] = (uint8_t)random_number(g); return size;
    case 4: return between(g, 1, 130) < size ? between(g, 1, 130) : size;
    case 5: picture[places[below(g, 17)]] = (uint8_t)below(g, 13); return size;
    default: picture[places[below(g, 17)]] ^= (uint8_t)(1u << below(g, 8)); return size;
    }
}

static void put_load_line(struct generator *g, unsigned size)
{
    put_words(g, "GM");
    put_name(g, PICTURE, 10);
    put_comma(g);
    if (spoilt(g))
        put_outside(g, 1, MOST_PICTURE);
    else
        put_digits(g, size);
}

/* GM with its bytes after the LF. Near a full memory every second picture is as large as the room that is left, or about so. */
static void put_load(struct generator *g, const struct view *v)
{
    static uint8_t picture[MOST_PICTURE + 100];
    size_t room = g->small ? 400 : chance(g, g->portions > 300 ? 40 : 5) ? MOST_PICTURE : chance(g, 30) ? 3000 : 700;
    bool about = v->portions < (g->small ? 4 : 12) ? chance(g, 50) : !g->small && chance(g, 8);
    size_t size = about ? make_sized_picture(g, picture, size_about_full(g, v)) : make_picture(g, picture, room);
    size_t told;

    if (chance(g, about ? 12 : 30))
        size = damage_picture(g, picture, size);
    told = size;
    if (chance(g, 4))
        told = size + between(g, 1, 300);  /* bytes lack, unless more lines follow */
    put_load_line(g, (unsigned)told);
    put(g, '\n');
    memcpy(g->line.bytes + g->line.length, picture, size);
    g->line.length += size;
}

/* ---- which command ---- */

static void put_comment(struct generator *g)
{
    unsigned length = chance(g, 15) ? between(g, 250, 258) : below(g, 20);

    if (chance(g, 30))
        return;  /* an empty line */
    put(g, ';');
    while (--length < 300 && length > 0) {
        uint8_t byte = (uint8_t)random_number(g);
        put(g, byte == '\n' ? 0 : byte);
    }
}

static unsigned stored_of(const struct generator *g, uint8_t kind)
{
    unsigned stored = 0;

    for (unsigned i = 0; i < g->entries; i++)
        stored += entry(g, i)[0] == kind;
    return stored;
}

static bool has_stored(const struct generator *g, uint8_t kind)
{
    return stored_of(g, kind) > 0;
}

static void put_drawing(struct generator *g, const struct declared *d)
{
    unsigned k = below(g, 100);

    if (slanted_due(g, 35))
        put_slanted(g);
    else if (k < 26)
        put_text_line(g, d);
    else if (k < 62)
        put_bars_line(g, d);
    else if (k < 74)
        put_rectangle(g);
    else if (k < 80)
        put_frame(g);
    else if (k < 94 && (has_stored(g, PICTURE) || chance(g, 10)))
        put_picture_line(g);
    else
        put_origin(g);
}

static void put_small_word(struct generator *g)
{
    static const char *const words[] = {"ZT", "ZB", "VC", "FI", "GI", "FE", "N"};

    put_words(g, words[below(g, 7)]);
}

static void put_named(struct generator *g, const char *word, uint8_t kind, unsigned stored)
{
    put_words(g, word);
    put_name(g, kind, stored);
}

/* Mostly of 6: there is no such command, or it belongs to the manual and is not built, or it is written otherwise. */
static void put_strange(struct generator *g)
{
    static const char *const words[] = {"D6", "S4", "I1", "j1", "M", "FA", "GW0,0,1,1", "TS1,1,1,1,1,1", "U", "FI\"A\"", "PC", "P2,3",
                                        "RESET", "LS0,0,1,5,5", "?", "Q240,B40-8", "N1", "V", "C", "A", "B", "X", "L", "F", "G", "Z",
                                        "ZC", "ZTT", "FIX", "VC1", "VCC", "VX", "LX", "FX", "GX", "?X", "?VC", "GI ", "N ", "FS", "FEE", "NN", " FI", "fi", "zT", "P", "P+1", "P-1", "q", "?V0", "?C0,-1",
                                        "?V0,5", "?C0,\"5\"", "FK*", "FK\"", "GG1,1,A", "R1,2,3", "LO1,2,3", "LO1,2,3,4,5"};
    static const char *const slanted[] = {"LS", "LSE", "LSW", "LSx", "LSEx", "LSO0,0,1,5,5", "LSS0,0,1,5,5", "LSEE0,0,1,5,5", "LSEW0,0,1,5,5", "LSe0,0,1,5,5", "LS,0,1,5,5",
                                          "LSW,0,1,5,5", "LES0,0,1,5,5", "LS 0,0,1,5,5", "LS0,0,1,5", "LSE0,0,1,5", "LS0,0,1,5,", "LSW0,0,1,5,5,", "LS0,0,1,5,5,5",
                                          "LSE0,0,1,5,5E", "LO0,0,1,5,5", "LS1,2,3,4"};
    static const char *const moments[] = {"T", "TX", "Td", "tD", "TD", "TT", "TS", "TDy", "TDm", "TDd", "TDy2-", "TDme-m", "TDdd-d", "TDy2-y", "TDy2-y4", "TDdd-dd", "TDme-MN", "TDy2-me-dd-", "TDdd-me-y4x",
                                          "TDd\"", "TDy2\"", "TDy2 me", "TDy2m", "TDy2me", "TDy2--me", "TDy3", "TDyy", "TDmm", "TDdd-mm", "TDMm.dd", "TDde", "TDdd-me-m", "TDdd-me-y", "TDdd-me-d", "TDdd-me-", "TDY4YYYMN", "TD,", "TD y2", "TD\"y2\"",
                                          "TTh", "TThms", "TThm", "TThmm", "TTh:h", "TTh:H", "TTh:", "TTh:m:s:", "TTh:m:s ", "TThh", "TTx", "TTh m", "TT:h", "TTsss", "TTs-m-H", "TSx", "TS1", "TS1,",
                                          "TS1,1,1,1,1", "TS1,1,1,1,1,", "TS1,1,1,1,1,1,", "TS1,1,1,1,1,1x", "TS,1,1,1,1,1", "TS1,,1,1,1,1", "TS+1,1,1,1,1,1", "TS0,1,1,1,1,1", "TS13,32,100,24,60,60",
                                          "TS2,29,1,0,0,0", "TS2,29,0,0,0,0", "TS2,30,0,0,0,0", "TS2,30,100,0,0,0", "TS2,31,1,24,0,0", "TS13,31,0,0,0,0", "TS4,31,0,0,0,60", "TS2,29,1,0,0,x",
                                          "TS2,28,2000,0,0,0", "TDy2\x7f" "dd", "TTh\x7fm", "TDdd\x80me", "TDdd-me\x1fy2", "TTh:m\"s", "A0,0,0,1,1,N,tD", "A0,0,0,1,1,N,tT", "A0,0,0,1,1,N,Td", "A0,0,0,1,1,N,TS", "A0,0,0,1,1,N,TDL2",
                                          "A0,0,0,1,1,N,TTR1", "A0,0,0,1,1,N,T", "A0,0,0,1,1,N,TX", "A0,0,0,1,1,N,\"\"TDT", "B0,0,0,1,1,2,24,B,T", "B0,0,0,1,1,2,24,B,C,tD", "TS12,31,99,23,59,59", "TS0000000001,1,1,1,1,1", "TS000000012,000000031,000000099,000000023,000000059,000000059"};

    if (slanted_due(g, 15)) {
        put_words(g, slanted[below(g, sizeof slanted / sizeof slanted[0])]);
        return;
    }
    if (moment_due(g, 50)) {
        put_words(g, moments[below(g, sizeof moments / sizeof moments[0])]);
        return;
    }
    if (chance(g, 95)) {
        put_words(g, words[below(g, sizeof words / sizeof words[0])]);
        return;
    }
    put_words(g, "A0,0,0,1,1,N,\"");  /* as long as a line may be, and ends too soon */
    put_text(g, between(g, 238, 242));
}

static void put_named_or_load(struct generator *g, const struct view *v, unsigned stored)
{
    if (chance(g, 50))
        put_named(g, "FS", FORM, stored);
    else
        put_load(g, v);
}

/* Text of so many bytes with its LF, 16 to 256 of them: quoted, and behind it elements of no bytes. */
static void put_line_of(struct generator *g, unsigned length)
{
    unsigned text = length - 16, pairs = text > MOST_DATA ? (text - MOST_DATA + 1) / 2 : 0;

    put(g, 'A');
    put(g, (uint8_t)('0' + below(g, 10)));
    put(g, ',');
    put(g, (uint8_t)('0' + below(g, 10)));
    put_words(g, ",0,1,1,N,");
    put_quoted(g, text - 2 * pairs);
    while (pairs--)
        put_words(g, "\"\"");
}

/* A line that just fills the form's last portion, or has some bytes more and needs another. */
static void put_filling_line(struct generator *g, const struct view *v)
{
    uint32_t size = entry_size(entry(g, v->recording));
    unsigned length = portions_for(size) * PORTION - size + (chance(g, 35) ? 0 : chance(g, 55) ? 1 : between(g, 2, 40));

    put_line_of(g, length >= 16 && length <= 256 && chance(g, 85) ? length : chance(g, 20) ? 256 : between(g, 16, 256));
}

/* Nothing more goes in, or soon will not. */
static bool nearly_full(const struct view *v)
{
    return v->entries == 0 || v->portions < 2;
}

static void put_recording_line(struct generator *g, const struct view *v)
{
    unsigned k = below(g, 100);

    if (chance(g, nearly_full(v) ? 20 : 9)) {
        put_filling_line(g, v);
        return;
    }
    if (nearly_full(v) && chance(g, 3)) {
        put_named_or_load(g, v, 30);  /* which has no place now */
        return;
    }
    if (moment_due(g, 14)) {
        put_moment_line(g, true);
        return;
    }
    if (k < 12)
        put_variable(g, &v->of_recording);
    else if (k < 28)
        put_counter(g, &v->of_recording);
    else if (k < 88)
        put_drawing(g, &v->of_recording);
    else if (k < 97)
        put_words(g, "FE");
    else if (k < 98)
        put_small_word(g);
    else if (k < 99)
        put_print(g, v);
    else
        put_named_or_load(g, v, 10);
}

static void put_listing(struct generator *g)
{
    unsigned k = below(g, 3);

    if (k == 0)
        put_words(g, "FI");
    else if (k == 1)
        put_words(g, "GI");
    else
        put_named(g, "FP", FORM, 85);
}

static void put_erasure(struct generator *g)
{
    bool form = chance(g, 35);

    if (chance(g, stored_of(g, form ? FORM : PICTURE) > 1 ? 25 : 6))
        put_words(g, form ? "FK\"*\"" : "GK\"*\"");
    else
        put_named(g, form ? "FK" : "GK", form ? FORM : PICTURE, 85);
}

static void put_setting(struct generator *g)
{
    switch (below(g, 6)) {
    case 0: put(g, 'Q'); put_number(g, 1, g->rows, g->rows); put_comma(g); put_number(g, 0, 240, 240); break;
    case 1: put(g, 'q'); put_number(g, 80, 608, 608); break;
    case 2: put_origin(g); break;
    case 3: put_small_word(g); break;
    default: put_words(g, chance(g, 50) ? "ZT" : "ZB"); break;
    }
}

/* What leads to a label, more often than not; false if it is not put. */
static bool put_leading_line(struct generator *g, const struct view *v)
{
    if (v->active == 65535) {
        if (!has_stored(g, FORM) || !chance(g, 45))
            return false;
        put_named(g, "FR", FORM, 92);
        return true;
    }
    if (!chance(g, v->unset > 0 ? 75 : 40))
        return false;
    if (v->unset == 0 || chance(g, 10))
        put_print(g, v);  /* while values are unset: too early */
    else
        put_ask(g, v);
    return true;
}

/* TS, TD or TT, and rather TS while no date has been set; false if none is put. */
static bool put_idle_moment(struct generator *g)
{
    if (!moment_due(g, as_opened(g) ? 18 : 9))
        return false;
    if (as_opened(g) && chance(g, 60))
        put_set_clock(g);
    else
        put_moment_line(g, false);
    return true;
}

/* Nothing recorded, nothing owed: near a full memory often what would fill it, or an erasure; then what leads to a label, else anything. */
static void put_idle_line(struct generator *g, const struct view *v)
{
    const struct declared nothing = nothing_outside(g);
    unsigned k = below(g, 100);

    if (nearly_full(v) && chance(g, 25)) {
        if (chance(g, 85))
            put_named_or_load(g, v, 12);
        else
            put_erasure(g);
        return;
    }
    if (put_idle_moment(g) || put_leading_line(g, v))
        return;
    if (k < 18)
        put_named(g, "FS", FORM, 8);
    else if (k < 24)
        put_named(g, "FR", FORM, 80);
    else if (k < 48)
        put_drawing(g, &nothing);
    else if (k < 64)
        put_load(g, v);
    else if (k < 71)
        put_erasure(g);
    else if (k < 80)
        put_listing(g);
    else if (k < 88)
        put_setting(g);
    else if (k < 93)
        put_print(g, v);
    else if (k < 96)
        put_ask(g, v);
    else if (k < 97)
        put_variable(g, &v->of_active);
    else if (k < 98)
        put_counter(g, &v->of_active);
    else
        put_small_word(g);
}

/* ---- faults of form ---- */

/* The next place from there on, round the end, with a byte of the set; or that place itself. */
static size_t next_of(const struct generator *g, size_t from, const char *set)
{
    for (size_t i = 0; i < g->line.length; i++)
        if (in_set(g->line.bytes[(from + i) % g->line.length], set))
            return (from + i) % g->line.length;
    return from;
}

/* Any place of the line, or one near where a piece, a word or a modifier begins or ends. */
static size_t some_place(struct generator *g)
{
    size_t at = below(g, (unsigned)g->line.length + 1);

    if (chance(g, 60))
        at = next_of(g, at, chance(g, 50) ? ",\"" : "VCELRMBN+-.") + below(g, 3);
    return at < g->line.length ? at : g->line.length;
}

static char strange_byte(struct generator *g)
{
    static const char likely[] = ",,\"\"0129LRMVCN +-.;EAB*3ZTxSWDTymdhs4";  /* from S on of slanted lines and of date and time */

    if (chance(g, 85))
        return likely[below(g, sizeof likely - (g->small ? 11 : 1))];
    return (char)(chance(g, 40) ? below(g, 32) : chance(g, 50) ? between(g, 127, 255) : random_number(g));
}

/* So that a number has nine digits, ten or some more. */
static void lengthen_number(struct generator *g, size_t at)
{
    put_in(g, next_of(g, at, "0123456789"), "000000000000", between(g, 6, 12));
}

static void spoil_quoted(struct generator *g, size_t at)
{
    static const char bad[] = {0, 1, 31, 127, (char)128, (char)255};
    size_t quote = next_of(g, at, "\"");

    if (quote < g->line.length)
        put_in(g, quote + 1, &bad[below(g, 6)], 1);
}

static void lengthen_line(struct generator *g)
{
    static const char *const ends[] = {",", ",5", "x", " ", "0", "\"", "\"a\"", "V0", "C,", ",C", "L1", ".1", "\x01", "\r", ",\"\""};
    const char *end = ends[below(g, sizeof ends / sizeof ends[0])];

    put_in(g, g->line.length, end, strlen(end));
}

/* A byte dropped, put in, changed or doubled, the line cut or lengthened, and the like; the result mostly has no written form. */
static void disturb(struct generator *g)
{
    struct line *l = &g->line;
    size_t at = some_place(g);
    char byte = strange_byte(g);

    switch (below(g, 12)) {
    case 0:
    case 1:
        if (at < l->length)
            memmove(l->bytes + at, l->bytes + at + 1, --l->length - at);
        break;
    case 2:
    case 3: put_in(g, at, &byte, 1); break;
    case 4:
    case 5:
        if (at < l->length)
            l->bytes[at] = (uint8_t)byte;
        break;
    case 6: lengthen_number(g, at); break;
    case 7: spoil_quoted(g, at); break;
    case 8: lengthen_line(g); break;
    case 9:
        byte = (char)l->bytes[at];
        if (at < l->length)
            put_in(g, at, &byte, 1);
        break;
    default: l->length = at; break;
    }
}

/* A line of any command, whether it has a place now or not: 6 and 7 are judged before that. */
static void put_any_line(struct generator *g, const struct view *v)
{
    static const char *const named[] = {"FS", "FR", "FK", "FP", "GK"};
    const struct declared *d = v->recording != 65535 ? &v->of_recording : &v->of_active;

    if (slanted_due(g, 15)) {
        put_slanted(g);
        return;
    }
    if (moment_due(g, 25)) {
        put_moment_line(g, false);
        return;
    }
    switch (below(g, 16)) {
    case 0:
    case 1: put_setting(g); break;
    case 2: put_rectangle(g); break;
    case 3: put_frame(g); break;
    case 4: put_text_line(g, d); break;
    case 5: put_picture_line(g); break;
    case 6: put_named(g, named[below(g, 5)], FORM, 50); break;
    case 7: put_load_line(g, between(g, 129, 400)); break;
    case 8: put_variable(g, d); break;
    case 9: put_counter(g, d); break;
    case 10: put_ask(g, v); break;
    case 11: put_print(g, v); break;
    case 12: put_small_word(g); break;
    default: put_bars_line(g, d); break;
    }
}

static void end_there(struct generator *g)
{
    if (g->end > 0 && g->end < g->line.length)
        g->line.length = g->end;
    g->end = 0;
}

/* A line with a fault of form, mostly: a faulty one, or one disturbed once or more. */
static void put_disturbed(struct generator *g, const struct view *v)
{
    bool due = chance(g, 50);

    g->faulty = !due;
    put_any_line(g, v);
    end_there(g);
    for (; due || chance(g, 30); due = false)
        disturb(g);
}

/* A line of 256 bytes or more without an LF among them. */
static void put_long(struct generator *g)
{
    size_t to = chance(g, 50) ? 256 : between(g, 256, 400);

    while (g->line.length < to)
        put(g, (uint8_t)(g->line.length % 90 + 33));
    if (chance(g, 60))
        put_words(g, "\nFI\n");
}

static void put_rest(struct generator *g)
{
    if (chance(g, 25))
        put_words(g, "N\nFI\n;\nLO0,0,5,5");
}

static void make_input(struct generator *g)
{
    struct view v;
    unsigned k = below(g, 1000);

    look(g, &v);
    g->line.length = 0;
    g->spoil = chance(g, 8) ? choose_spoil(g) : 0;
    g->faulty = chance(g, 5);
    g->end = 0;
    if (k < 8) {
        put_long(g);
        return;
    }
    if (k < 38)
        put_comment(g);
    else if (k < 58)
        put_strange(g);
    else if (k < 98)
        put_disturbed(g, &v);
    else if (v.recording != 65535)
        put_recording_line(g, &v);
    else
        put_idle_line(g, &v);
    end_there(g);
    if (rarely(g, 30))
        disturb(g);
    if (rarely(g, 10))
        return;  /* no LF, or a GM that lacks bytes */
    put(g, '\n');
    put_rest(g);
    if (rarely(g, 4))
        g->line.length = below(g, (unsigned)g->line.length + 1);
}

/* ---- fonts ---- */

/* A font with cells of this size, and of its codes about so many in a hundred. */
static size_t write_font(struct generator *g, uint8_t *font, unsigned width, unsigned height, unsigned share)
{
    unsigned row = (width + 7) / 8;
    uint8_t spare = width % 8 ? (uint8_t)(0xff00 >> width % 8) : 0xff, *at = font;

    memcpy(at, (const uint8_t[]){1, 2, 0, (uint8_t)width, (uint8_t)height}, 5);
    at += 5;
    for (unsigned code = 32; code <= 126; code++) {
        unsigned content = 1 + height * row;
        if (!chance(g, share))
            continue;
        memcpy(at, (const uint8_t[]){2, (uint8_t)content, (uint8_t)(content >> 8), (uint8_t)code}, 4);
        at += 4;
        for (unsigned i = 0; i < height * row; i++)
            *at++ = (uint8_t)random_number(g) & (i % row == row - 1 ? spare : 0xff);
    }
    memcpy(at, (const uint8_t[]){255, 0, 0}, 3);
    return (size_t)(at + 3 - font);
}

static void make_font(struct generator *g)
{
    unsigned width = chance(g, 60) ? between(g, 1, 10) : between(g, 8, 32);  /* in wide cells a line is wider than its bars */
    unsigned height = chance(g, 85) ? between(g, 1, 9) : between(g, 1, 64);
    unsigned share = chance(g, 60) ? 90 : below(g, 100);

    if (g->small)
        g->font_length = write_font(g, g->font, between(g, 1, 10), between(g, 1, 5), below(g, 50));
    else
        g->font_length = write_font(g, g->font, width, height, share);
}

/* Cells at and past the limits, all else right. */
static size_t write_edge_font(struct generator *g, uint8_t *font)
{
    static const unsigned widths[] = {0, 1, 8, 32, 33}, heights[] = {0, 1, 64, 65};

    return write_font(g, font, widths[below(g, 5)], heights[below(g, 4)], g->small ? 2 : 20);
}

static void make_bad_font(struct generator *g)
{
    size_t length = g->font_length;
    uint8_t *font = g->bad_font;

    memcpy(font, g->font, length);
    switch (below(g, 9)) {
    case 8: length = write_edge_font(g, font); break;
    case 0: length = below(g, (unsigned)length + 1); break;
    case 1: font[length++] = (uint8_t)below(g, 3); break;
    case 2: font[length - 3 + below(g, 3)] = (uint8_t)random_number(g); break;
    case 3: font[below(g, length < 9 ? (unsigned)length : 9)] = (uint8_t)below(g, 70); break;
    case 4: font[below(g, 5)] = (uint8_t)random_number(g); break;
    case 5: length = below(g, 8); break;
    default: font[below(g, (unsigned)length)] = (uint8_t)random_number(g); break;
    }
    g->bad_font_length = length;
}

/* ---- damage ---- */

static void add_poke(struct generator *g, enum slice s, size_t at, uint8_t byte)
{
    if (g->poke_count == MOST_POKES || at >= g->desk->room[s])
        return;
    g->undo[g->poke_count] = (struct poke){s, at, g->desk->bytes[s][at]};
    g->pokes[g->poke_count++] = (struct poke){s, at, byte};
}

static void poke_number(struct generator *g, enum slice s, size_t at, unsigned value, unsigned bytes)
{
    for (unsigned i = 0; i < bytes; i++)
        add_poke(g, s, at + i, (uint8_t)(value >> (8 * i)));
}

/* From now on this many portions of the store are lent. */
static void lend_portions(struct generator *g, unsigned portions)
{
    g->portions = portions;
    g->length[STORE] = (size_t)portions * PORTION;
    g->length[LINKS] = portions;
}

static uint8_t near_byte(struct generator *g, uint8_t byte)
{
    switch (below(g, 4)) {
    case 0: return (uint8_t)(byte + 1);
    case 1: return (uint8_t)(byte - 1);
    case 2: return byte ^ (uint8_t)(1u << below(g, 8));
    default: return (uint8_t)random_number(g);
    }
}

static void damage_byte(struct generator *g, enum slice s, size_t at)
{
    add_poke(g, s, at, near_byte(g, g->desk->bytes[s][at]));
}

static unsigned some_of(struct generator *g, const unsigned *values, unsigned count)
{
    return values[below(g, count)];
}

/* ---- damage to the number of free portions ---- */

enum { NUMBER_AT = 65 };

static unsigned number_of(const struct generator *g)
{
    return low_first(g->desk->bytes[SESSION] + NUMBER_AT);
}

static void damage_number(struct generator *g)
{
    unsigned n = number_of(g), swapped = (n & 255) << 8 | n >> 8;
    unsigned to[] = {n + 1, n - 1, n + 1, n - 1, 0, 65535, swapped, g->number_before, g->portions, g->portions - n, n + 256, n - 256, n ^ 1u << below(g, 16),
                     n + between(g, 2, 8), n - between(g, 2, 8), (unsigned)random_number(g)};

    poke_number(g, SESSION, NUMBER_AT, some_of(g, to, sizeof to / sizeof to[0]), 2);
}

/* The number that the directory will call for when all pokes are done, so that the other clauses of sound decide alone; or one beside it. */
static void move_number_along(struct generator *g)
{
    static uint8_t directory[MOST_ENTRIES * ENTRY];
    unsigned number = g->portions;

    memcpy(directory, g->desk->bytes[DIRECTORY], ENTRY * g->entries);
    for (unsigned i = 0; i < g->poke_count; i++)
        if (g->pokes[i].slice == DIRECTORY && g->pokes[i].at < ENTRY * g->entries)
            directory[g->pokes[i].at] = g->pokes[i].byte;
    for (unsigned i = 0; i < g->entries; i++)
        if (directory[ENTRY * i] != EMPTY)
            number -= portions_for(entry_size(directory + ENTRY * i));
    if (chance(g, 5))
        number += chance(g, 50) ? 1 : -1u;
    poke_number(g, SESSION, NUMBER_AT, number, 2);
}

/* A store of some portions more or fewer for the next calls. Those that come to it are free and empty, or as they happen to be. */
static void lend_other_store(struct generator *g)
{
    unsigned room = (unsigned)(g->desk->room[STORE] / PORTION), to = chance(g, 50) ? g->portions + between(g, 1, 2) : g->portions - between(g, 1, 3);
    bool cleared = chance(g, 80);

    if (to < 1 || to > room || to > MOST_PORTIONS)
        return;
    for (unsigned i = g->portions; i < to && cleared; i++) {
        poke_number(g, LINKS, 2 * i, FREE, 2);
        for (unsigned k = 0; k < PORTION; k++)
            add_poke(g, STORE, PORTION * i + k, 0);
    }
    lend_portions(g, to);
    if (chance(g, 75))
        move_number_along(g);
}

static void damage_session(struct generator *g)
{
    unsigned n = below(g, 10);
    unsigned w[] = {0, 79, 80, 100, 607, 608, 609, 65535}, l[] = {0, 1, g->rows / 2, g->rows, g->rows + 1, 65535};
    unsigned o[] = {0, 5, 2048, 2049, 4096, 4097, 65535}, a[] = {0, 1, 2, g->entries - 1, g->entries, 65534, 65535};
    unsigned p[] = {0, 1, 2, 3, 65534, 65535}, c[] = {0, 1, 9, 10, 99, 100, 999, 1000, 999999999, 1000000000, 4294967295u};

    switch (below(g, 11)) {
    case 0: poke_number(g, SESSION, 0, some_of(g, w, 8), 2); break;
    case 1: poke_number(g, SESSION, 2, some_of(g, l, 6), 2); break;
    case 2: poke_number(g, SESSION, 4, below(g, 3), 1); break;
    case 3: poke_number(g, SESSION, 5, some_of(g, o, 7), 2); break;
    case 4: poke_number(g, SESSION, 7, some_of(g, o, 7), 2); break;
    case 5: poke_number(g, SESSION, 9, some_of(g, a, 7), 2); break;
    case 6: poke_number(g, SESSION, 11, some_of(g, p, 6), 2); break;
    case 7: poke_number(g, SESSION, 13, some_of(g, p, 6), 2); break;
    case 8: poke_number(g, SESSION, 15 + 5 * n, below(g, 3), 1); break;
    case 9:
        poke_number(g, SESSION, 15 + 5 * n, below(g, 3), 1);
        poke_number(g, SESSION, 16 + 5 * n, some_of(g, c, 11), 4);
        break;
    default: damage_byte(g, SESSION, below(g, g->small ? CLOCK_AT : IMAGE)); break;
    }
}

/* ---- damage to clock and formats ---- */

static void poke_clock(struct generator *g, struct moment m)
{
    const unsigned six[] = {m.year, m.month, m.day, m.hour, m.minute, m.second};

    for (unsigned i = 0; i < 6; i++)
        poke_number(g, SESSION, CLOCK_AT + i, six[i], 1);
}

/* Each number at and past its limits, the day at and past its month's; all else as it was or such a moment. */
static void damage_clock(struct generator *g)
{
    static const unsigned edges[6][6] = {{0, 99, 100, 255, 4, 96}, {0, 1, 2, 12, 13, 255}, {0, 1, 28, 29, 32, 255}, {0, 23, 24, 25, 128, 255}, {0, 59, 60, 61, 128, 255}, {0, 59, 60, 61, 128, 255}};
    struct moment m = some_moment(g);
    unsigned i = below(g, 6);

    if (chance(g, 60))
        poke_clock(g, m);
    if (chance(g, 45))
        poke_number(g, SESSION, CLOCK_AT + 2, days_in(m.year, m.month) + (chance(g, 80) ? 1 : below(g, 4)), 1);
    else if (chance(g, 75))
        poke_number(g, SESSION, CLOCK_AT + i, some_of(g, edges[i], 6), 1);
    else
        damage_byte(g, SESSION, CLOCK_AT + i);
}

/* Fields and separators of a format: right ones, absent ones, those at and past the limits, a field that comes again. Mostly one byte is changed, a separator that is there a
 * little likelier, now and then all. */
static void damage_format(struct generator *g)
{
    bool date = chance(g, 55);
    unsigned from = date ? DATE_FORMAT_AT : TIME_FORMAT_AT, most = date ? DD : SECOND, at = below(g, FORMAT);
    const uint8_t *now = g->desk->bytes[SESSION] + from;
    unsigned separators[] = {' ', '"', 127, ' ', '"', 127, '!', '~', '#', 0, 255, some_separator(g)};
    bool all = chance(g, 25);

    if (now[1] != 0 && chance(g, 40))
        at = now[3] != 0 && chance(g, 50) ? 3 : 1;

    for (unsigned i = 0; i < FORMAT; i++) {
        unsigned fields[] = {0, most + 1, most + 1, most + 1, 255, now[i > 2 ? 0 : i + 2], between(g, 1, most), between(g, 1, most)};
        if (all || i == at)
            poke_number(g, SESSION, from + i, i % 2 ? some_of(g, separators, 12) : some_of(g, fields, 8), 1);
    }
    if (chance(g, 25))  /* the last fields are absent, their separators too or not */
        for (unsigned i = chance(g, 50) ? 1 : 3; i < FORMAT; i++)
            poke_number(g, SESSION, from + i, rarely(g, 60) ? between(g, 1, 3) : 0, 1);
}

static void damage_moment(struct generator *g)
{
    if (chance(g, 45))
        damage_clock(g);
    else
        damage_format(g);
}

static void damage_links(struct generator *g)
{
    unsigned portion = below(g, g->portions);
    unsigned to[] = {65534, 65535, below(g, g->portions), g->portions, g->portions - 1, 65533};

    poke_number(g, LINKS, 2 * portion, some_of(g, to, 6), 2);
}

static void damage_entry(struct generator *g)
{
    static const unsigned edges[] = {31, 32, 33, 126, 127, '*', '"', 'a', 'z', '`', '{', 0};
    unsigned i = below(g, g->entries), k = below(g, g->entries);
    const uint8_t *e = entry(g, i);

    switch (below(g, 7)) {
    case 0: damage_byte(g, DIRECTORY, 16 * i + below(g, 16)); break;
    case 6: add_poke(g, DIRECTORY, 16 * i + 2 + below(g, e[1] ? e[1] : 8), (uint8_t)some_of(g, edges, 12)); break;
    case 1: poke_number(g, DIRECTORY, 16 * i, below(g, 5), 1); break;
    case 2: poke_number(g, DIRECTORY, 16 * i + 12, entry_size(e) + below(g, 600) - 300, 4); break;
    case 3: poke_number(g, DIRECTORY, 16 * i + 10, below(g, g->portions + 1), 2); break;
    case 4:  /* its name on another entry */
        for (unsigned b = 1; b < 10; b++)
            add_poke(g, DIRECTORY, 16 * k + b, e[b]);
        break;
    default:  /* two entries change places */
        for (unsigned b = 0; b < 16 && i != k; b++) {
            add_poke(g, DIRECTORY, 16 * k + b, e[b]);
            add_poke(g, DIRECTORY, 16 * i + b, entry(g, k)[b]);
        }
    }
}

/* A byte of the store: in a form or picture if there is one, often just behind its end. */
static void damage_store(struct generator *g)
{
    unsigned i = below(g, g->entries);
    const uint8_t *e = entry(g, i);
    unsigned portion = entry_first(e), size = entry_size(e), steps;

    if (e[0] == EMPTY || portion >= g->portions || chance(g, 20)) {
        damage_byte(g, STORE, below(g, g->portions * 256));
        return;
    }
    steps = size / 256 ? below(g, size / 256 + 1) : 0;
    while (steps-- && link_of(g, portion) < g->portions)
        portion = link_of(g, portion);
    if (e[0] == PICTURE && portion == entry_first(e) && chance(g, 50))
        damage_byte(g, STORE, portion * 256 + below(g, 12));
    else if (chance(g, 80) && size % 256 && link_of(g, portion) == 65534)
        damage_byte(g, STORE, portion * 256 + below(g, chance(g, 80) ? size % 256 : 256));
    else
        damage_byte(g, STORE, portion * 256 + below(g, 256));
}

/* A digit or letter in a form changed for one that may be in its place: often another legal form. */
static void damage_form_slightly(struct generator *g)
{
    static const char bytes[] = "00123456789NRLCZVBEOGMX,,\".+-a *;\nSWTDYymdhs:";  /* from S on of slanted lines and of date and time */
    unsigned i = below(g, g->entries);
    const uint8_t *e = entry(g, i);
    unsigned portion = entry_first(e), size = entry_size(e);

    if ((e[0] == FORM || e[0] == RECORDING) && size > 0 && portion < g->portions)
        add_poke(g, STORE, portion * 256 + below(g, size < 256 ? size : 256), (uint8_t)bytes[below(g, sizeof bytes - (g->small ? 12 : 1))]);
    else
        damage_store(g);
}

/* ---- a form put into the memory by hand ---- */

static void forged_line(struct generator *g, const struct declared *d)
{
    static const char *const strange[] = {"", ";", "FE", "P1", "ZT", "N", "Q1,1", "GM\"A\",200", "VC", "FS\"A\"", "R1,1 ", "C0,1,-0,\"\"",
                                          "C0,1,+0,\"\"", "C0,1,0,\"\"", "GG0,0,\"a\"", "GG0,0,\"A\"", "R00,0", "R0,00"};
    unsigned k = below(g, 100);

    g->line.length = 0;
    g->spoil = chance(g, 2) ? 1u << below(g, 6) : 0;
    if (moment_due(g, 16)) {
        g->faulty = chance(g, 6);
        put_moment_line(g, chance(g, 50));
        g->faulty = false;
        return;
    }
    if (k < 6)
        put_words(g, strange[below(g, sizeof strange / sizeof strange[0])]);
    else if (k < 22)
        put_variable(g, d);
    else if (k < 36)
        put_counter(g, d);
    else
        put_drawing(g, d);
}

static size_t forged_content(struct generator *g, uint8_t *content, size_t room)
{
    struct declared d = nothing_yet();
    size_t size = 0;
    unsigned lines = below(g, 6);

    g->plain = true;
    g->faulty = false;
    while (lines--) {
        forged_line(g, &d);
        if (size + g->line.length + 1 > room)
            break;
        memcpy(content + size, g->line.bytes, g->line.length);
        content[size + g->line.length] = 0;
        note_declaration(&d, (const char *)content + size);
        size += g->line.length;
        content[size++] = '\n';
    }
    g->plain = false;
    return size > 0 && chance(g, 3) ? size - 1 : size;
}

/* Any free portion, not only the lowest. */
static unsigned some_free(struct generator *g, const bool *taken)
{
    unsigned first = below(g, g->portions);

    for (unsigned i = 0; i < g->portions; i++) {
        unsigned portion = (first + i) % g->portions;
        if (link_of(g, portion) == 65535 && !taken[portion])
            return portion;
    }
    return 65535;
}

static unsigned some_empty(struct generator *g)
{
    unsigned first = below(g, g->entries);

    for (unsigned i = 0; i < g->entries; i++)
        if (entry(g, (first + i) % g->entries)[0] == EMPTY)
            return (first + i) % g->entries;
    return 65535;
}

/* The lines are as they might be sent, mostly in normal form: recording would have taken some rows of them and not others. */
static void forge_form(struct generator *g)
{
    static uint8_t content[1100];
    bool taken[MOST_PORTIONS] = {false};
    unsigned i = some_empty(g), portion = some_free(g, taken), first = portion;
    const char *name = name_pool[below(g, sizeof name_pool / sizeof name_pool[0])];
    size_t size = forged_content(g, content, g->small ? 200 : 1000), length = strlen(name);

    if (i == 65535 || portion == 65535)
        return;
    for (size_t from = 0;; from += 256) {
        unsigned after = 65534;
        taken[portion] = true;
        if (size > from + 256 && (after = some_free(g, taken)) == 65535)
            return;  /* too little room: what is poked so far stays, and is not sound */
        for (size_t k = from; k < size && k < from + 256; k++)
            add_poke(g, STORE, portion * 256 + (k - from), content[k]);
        poke_number(g, LINKS, 2 * portion, after, 2);
        if (after == 65534)
            break;
        portion = after;
    }
    poke_number(g, DIRECTORY, 16 * i, chance(g, 80) ? FORM : RECORDING, 1);
    poke_number(g, DIRECTORY, 16 * i + 1, (unsigned)length, 1);
    for (size_t k = 0; k < length; k++)
        add_poke(g, DIRECTORY, 16 * i + 2 + k, name[k] >= 'a' && name[k] <= 'z' && chance(g, 90) ? (uint8_t)(name[k] - 32) : (uint8_t)name[k]);
    poke_number(g, DIRECTORY, 16 * i + 10, first, 2);
    poke_number(g, DIRECTORY, 16 * i + 12, (unsigned)size, 4);
}

/* Forms of no lines are put into all empty entries or all but one, as far as there are free portions: so great directories are full at times too. */
static void fill_directory(struct generator *g)
{
    bool taken[MOST_PORTIONS] = {false};
    unsigned left = chance(g, g->entries > 30 ? 40 : 70) ? 65535 : some_empty(g);

    for (unsigned i = 0; i < g->entries; i++) {
        unsigned portion = some_free(g, taken);
        if (portion == 65535)
            return;
        if (entry(g, i)[0] != EMPTY || i == left)
            continue;
        taken[portion] = true;
        poke_number(g, LINKS, 2 * portion, CHAIN_END, 2);
        poke_number(g, DIRECTORY, 16 * i, FORM | 3 << 8, 2);
        poke_number(g, DIRECTORY, 16 * i + 2, '#' | (i % 26 + 'A') << 8 | (i / 26 + 'A') << 16, 3);
        poke_number(g, DIRECTORY, 16 * i + 10, portion, 2);
    }
}

static void damage_values(struct generator *g)
{
    unsigned n = below(g, 10);
    unsigned at[] = {0, 1, 2, 33, between(g, 2, 33), g->desk->bytes[VALUE][34 * n + 1] + 1u};

    damage_byte(g, VALUE, 34 * n + (at[5] < 34 ? some_of(g, at, 6) : 1));
}

/* ---- damage to a job ---- */

/* A counter of the active form, or 10 if it has none. */
static unsigned some_counter(struct generator *g, const struct view *v)
{
    unsigned first = below(g, 10);

    for (unsigned i = 0; i < 10; i++)
        if (v->of_active.c[(first + i) % 10])
            return (first + i) % 10;
    return 10;
}

/* The counter stands where the last label owed takes it to its last number, one past it, or near there. */
static void damage_counter(struct generator *g, const struct view *v, unsigned n)
{
    unsigned w = v->of_active.w[n], labels = v->owed > 0 ? v->owed : 1;
    int64_t step = v->of_active.step[n], value = (step < 0 ? 0 : ten_to(w) - 1) - step * (labels - 1);

    if (chance(g, 20))
        value = value_before_end(g, step, w, labels);
    else if (chance(g, 60))
        value += step < 0 ? -1 : 1;
    poke_number(g, SESSION, 15 + 5 * n, 1, 1);
    poke_number(g, SESSION, 16 + 5 * n, (unsigned)value, 4);
}

/* As many labels are owed as the counters have left, or one more; of many labels, which take long to draw, mostly one more. */
static void damage_owed(struct generator *g, const struct view *v)
{
    int64_t left = fewest_left(g, v), owed = chance(g, left > 12 ? 90 : 50) ? left + 1 : left;

    if (left < 40000 && chance(g, 15))
        owed = between(g, 40000, 65535);
    else if (owed > 65535 || chance(g, 20))
        owed = (int64_t)v->owed + 1;
    poke_number(g, SESSION, 11, (unsigned)owed, 2);
    if (chance(g, 50))
        poke_number(g, SESSION, 13, 0, 2);
}

/* Where a byte of an entry's content stands in the store. */
static size_t place_in_store(const struct generator *g, unsigned i, size_t at)
{
    unsigned portion = entry_first(entry(g, i));

    for (; at >= 256 && portion < g->portions; at -= 256)
        portion = link_of(g, portion);
    return 256u * portion + at;
}

/* A byte of a format in a form, for one that may be there: the data behind it may be fit no more, or the field come again, or the line be another. */
static void damage_recorded_format(struct generator *g)
{
    static const char bytes[] = "yYmMdD24eEnNhHsS-:0,\" TSDTX";
    static uint8_t text[8192];
    unsigned i = below(g, g->entries);
    size_t length = entry(g, i)[0] == FORM || entry(g, i)[0] == RECORDING ? form_bytes(g, i, text, sizeof text) : 0;

    for (size_t at = 0; at + 4 < length; at++) {
        bool format = (at == 0 || text[at - 1] == '\n') && text[at] == 'T';
        if (format && chance(g, 60))
            add_poke(g, STORE, place_in_store(g, i, at + below(g, text[at + 1] == 'D' ? 10 : 7)), (uint8_t)bytes[below(g, sizeof bytes - 1)]);
    }
}

/* Another width, sign or first digit of the step where the active form declares the counter: `Cn,w,+s`. */
static void damage_declaration(struct generator *g, const struct view *v, unsigned n)
{
    static uint8_t text[8192];
    size_t length = form_bytes(g, v->active, text, sizeof text);

    for (size_t at = 0; at + 6 < length; at++) {
        if ((at > 0 && text[at - 1] != '\n') || text[at] != 'C' || text[at + 1] != '0' + n)
            continue;
        if (chance(g, 30))
            add_poke(g, STORE, place_in_store(g, v->active, at + 5), text[at + 5] == '+' ? '-' : '+');
        else
            add_poke(g, STORE, place_in_store(g, v->active, at + (chance(g, 50) ? 3 : 6)), (uint8_t)('1' + below(g, 9)));
    }
}

/* With labels owed a counter, their number or a declaration is changed so that the counter runs out, or just does not. With none
 * owed nothing is asked of it. */
static void damage_job(struct generator *g)
{
    struct view v;
    unsigned n;

    look(g, &v);
    n = some_counter(g, &v);
    if (n == 10)
        damage_session(g);
    else if (chance(g, 40))
        damage_counter(g, &v, n);
    else if (chance(g, 60))
        damage_owed(g, &v);
    else
        damage_declaration(g, &v, n);
}

static void damage_background(struct generator *g)
{
    size_t length = low_first(g->desk->bytes[SESSION] + 2), width = low_first(g->desk->bytes[SESSION]);

    if (chance(g, 40) && length < g->rows)
        damage_byte(g, BACKGROUND, length * 76 + below(g, 76));
    else
        damage_byte(g, BACKGROUND, below(g, g->rows) * 76u + (width < 600 ? width / 8 : below(g, 76)));
}

/* What changes sizes changes the number too, mostly; else 3 would always be the number's. */
static void damage_something(struct generator *g)
{
    unsigned k = below(g, 100);

    if (moment_due(g, 22)) {
        damage_moment(g);
        return;
    }
    if (moment_due(g, 10)) {
        damage_recorded_format(g);
        return;
    }
    if (k < 14)
        damage_session(g);
    else if (k < 22)
        damage_number(g);
    else if (k < 27)
        lend_other_store(g);
    else if (k < 34)
        damage_links(g);
    else if (k < 47) {
        damage_entry(g);
        if (chance(g, 55))
            move_number_along(g);
    } else if (k < 57)
        damage_store(g);
    else if (k < 68)
        damage_form_slightly(g);
    else if (k < 85) {
        forge_form(g);
        if (chance(g, 90))
            move_number_along(g);
    } else if (k < 94)
        damage_values(g);
    else
        damage_background(g);
}

static void damage(struct generator *g)
{
    g->poke_count = g->poke_next = 0;
    g->portions_before = g->portions;
    if (chance(g, labels_owed(g) > 0 ? 60 : 10))
        damage_job(g);
    else if (chance(g, g->entries > 30 ? 60 : 10)) {
        fill_directory(g);
        if (chance(g, 95))
            move_number_along(g);
    } else
        damage_something(g);
    g->undo_count = g->poke_count;
    g->damaged = true;
    g->touched = false;
    g->calls_to_repair = between(g, 1, 3);
}

/* The pokes that put back what stood there before so many. */
static void put_back(struct generator *g, unsigned count)
{
    g->poke_count = g->poke_next = 0;
    while (count-- > 0)
        g->pokes[g->poke_count++] = g->undo[count];
}

/* What was changed is put back, unless a call has gone on from there. */
static void repair(struct generator *g)
{
    g->damaged = false;
    g->poke_count = g->poke_next = 0;
    if (g->touched)
        return;
    lend_portions(g, g->portions_before);
    put_back(g, g->undo_count);
}

/* ---- lengths ---- */

/* An image's length before the last of paper 02's requests that lengthened it, or about that. */
static unsigned former_image(struct generator *g)
{
    bool exactly = chance(g, 60);

    if (g->small)
        return exactly ? 65 : between(g, 64, 69);
    return exactly ? CLOCK_AT : chance(g, 50) ? between(g, 64, 69) : between(g, IMAGE - 5, IMAGE + 2);
}

/* A lent length that is not the session's: wrong, or right for another memory. Never more than there is room for. */
static void other_length(struct generator *g, struct event *e, enum slice s)
{
    static const unsigned units[SLICES] = {[SESSION] = 1, [COUNTS] = 1, [PAGE] = 76, [BACKGROUND] = 76, [STORE] = 256,
                                           [LINKS] = 1, [DIRECTORY] = 16, [VALUE] = 34, [OUTPUT] = 1};
    size_t most = s == COUNTS ? g->desk->room[s] / 8 : s == LINKS ? g->desk->room[s] / 2 : g->desk->room[s];
    size_t n = e->length[s];

    switch (below(g, 6)) {
    case 0: n = 0; break;
    case 1: n += units[s]; break;
    case 2: n = n >= units[s] ? n - units[s] : 0; break;
    case 3: n += 1; break;
    case 4: n = n >= 1 ? n - 1 : 0; break;
    default: n = s == SESSION && chance(g, 80) ? former_image(g) : below(g, (unsigned)most + 1); break;
    }
    e->length[s] = n < most ? n : most;
    if (s == STORE && chance(g, 50))
        e->length[LINKS] = e->length[STORE] / 256;
    if (s == BACKGROUND && chance(g, 50))
        e->length[PAGE] = e->length[BACKGROUND];
}

static void some_other_length(struct generator *g, struct event *e)
{
    static const enum slice which[] = {SESSION, COUNTS, PAGE, BACKGROUND, STORE, LINKS, DIRECTORY, VALUE, OUTPUT};

    other_length(g, e, which[below(g, 9)]);
}

/* ---- events ---- */

void start_generator(struct generator *g, uint64_t first_seed, bool small, const struct desk *desk)
{
    memset(g, 0, sizeof *g);
    g->seed = first_seed;
    g->small = small;
    g->desk = desk;
}

uint64_t session_seed(const struct generator *g)
{
    return g->seed - 1;
}

/* One kind of full comes soon: portions to spare and few entries, entries to spare and few portions, or few of both. Rarely a great directory,
 * which only forms put in by hand can fill, and portions for them. */
static void choose_tight(struct generator *g)
{
    g->entries = between(g, 1, 3);
    switch (below(g, 4)) {
    case 0: g->portions = g->entries + below(g, 4); break;
    case 1:
        g->entries = between(g, 3, 12);
        g->portions = between(g, 1, 4);
        break;
    default: g->portions = between(g, 6, chance(g, 80) ? 30 : 150); break;
    }
    if (chance(g, 6)) {
        g->entries = between(g, 31, chance(g, 60) ? 80 : 512);
        g->portions = g->entries + between(g, 0, 10) - (chance(g, 30) ? 5 : 0);
    }
}

static void choose_sizes(struct generator *g)
{
    g->rows = chance(g, 90) ? between(g, 1, chance(g, 40) ? 60 : 200) : chance(g, 90) ? between(g, 1, 400) : between(g, 1, 4000);
    g->portions = chance(g, 90) ? between(g, 1, 20) : chance(g, 85) ? between(g, 1, 150) : between(g, 1, 2024);
    g->entries = chance(g, 90) ? between(g, 1, 6) : chance(g, 85) ? between(g, 1, 30) : between(g, 1, 512);
    if (chance(g, 30))
        choose_tight(g);
    if (rarely(g, 4))
        g->rows = 4000;
    if (rarely(g, 4))
        g->portions = 2024;
    if (rarely(g, 4))
        g->entries = 512;
    if (rarely(g, 20))  /* the number's high byte will move */
        g->portions = 256 * (chance(g, 85) ? 1 : between(g, 1, 7)) + below(g, 6);
    if (g->small) {
        g->rows = 40;
        g->portions = chance(g, 50) ? 16 : between(g, 2, 8);
        g->entries = chance(g, 50) ? 4 : between(g, 1, 3);
    }
}

/* Two rows, two portions, two entries and more are there beyond what is lent. */
static void new_session(struct generator *g, struct event *e)
{
    size_t beyond[SLICES] = {[SESSION] = 2, [COUNTS] = 8, [PAGE] = 152, [BACKGROUND] = 152, [STORE] = 512, [LINKS] = 4,
                             [DIRECTORY] = 32, [VALUE] = 34, [OUTPUT] = 16};

    g->state = g->seed++ * 0x2545f4914f6cdd1du + 12345;
    g->asking_state = ~g->state;
    choose_sizes(g);
    g->calls_left = g->small ? 45 : between(g, 30, 150);
    g->opened = false;
    g->damaged = g->font_damaged = false;
    g->poke_count = g->poke_next = 0;
    g->font_due = true;
    make_font(g);
    usual_lengths(g->length, g->rows, g->portions, g->entries, chance(g, 30) ? below(g, 40) : below(g, g->small ? 200 : 3000));
    memset(e, 0, sizeof *e);
    e->kind = SET_UP;
    e->fill = chance(g, 60) ? 0 : chance(g, 30) ? 0xff : (uint8_t)random_number(g);
    usual_room(e->room, g->length, MOST_FONT, MOST_INPUT);
    for (int s = 0; s < SLICES; s++)
        e->room[s] += beyond[s];
    if (!g->small && e->room[OUTPUT] < 14u * g->entries + 16)
        e->room[OUTPUT] = 14u * g->entries + 16;  /* for the list of a repair */
    if (g->small) {
        e->room[STORE] = 18 * PORTION;
        e->room[LINKS] = 18 * 2;
        e->room[DIRECTORY] = 6 * ENTRY;
        e->room[OUTPUT] = 256;
    }
}

static void font_event(struct generator *g, struct event *e)
{
    e->kind = NEW_FONT;
    e->bytes = g->font_damaged ? g->bad_font : g->font;
    e->count = g->font_damaged ? g->bad_font_length : g->font_length;
    g->font_due = false;
    g->length[FONT] = e->count;
}

static void poke_event(struct generator *g, struct event *e)
{
    const struct poke *p = &g->pokes[g->poke_next++];

    e->kind = POKE;
    e->slice = p->slice;
    e->at = p->at;
    e->byte = p->byte;
}

static enum call_kind choose_call(struct generator *g)
{
    if (!g->opened)
        return OPEN;
    if (rarely(g, 4))
        return OPEN;
    if (labels_owed(g) > 0 && chance(g, 75))
        return LABEL;
    return chance(g, 3) ? LABEL : COMMAND;
}

static void call_event(struct generator *g, struct event *e)
{
    e->kind = CALL;
    e->call = choose_call(g);
    if (e->call == COMMAND) {
        make_input(g);
        e->bytes = g->line.bytes;
        e->count = g->line.length;
    }
    g->length[INPUT] = e->count;
    g->number_before = number_of(g);
    memcpy(e->length, g->length, sizeof e->length);
    if (chance(g, e->call == OPEN ? 20 : 3))
        some_other_length(g, e);
    g->last_call = e->call;
    g->last_usual = memcmp(e->length, g->length, sizeof e->length) == 0;
    g->calls_left--;
}

/* ---- will it fit? ---- */

/* The chances of the questions, or back to those of all else. */
static void change_chances(struct generator *g)
{
    uint64_t state = g->state;

    g->state = g->asking_state;
    g->asking_state = state;
}

static uint8_t name_byte(struct generator *g)
{
    uint8_t byte = text_byte(g);

    return byte == '*' ? '+' : byte;
}

/* A legal name in the line: one that is stored, one of those that commands use, or any; eight bytes a little likelier. */
static void put_legal_name(struct generator *g)
{
    static const uint8_t kinds[] = {FORM, PICTURE, RECORDING};
    unsigned length = chance(g, 30) ? 8 : between(g, 1, 8);

    if (chance(g, 45) && put_stored_name(g, kinds[below(g, 3)]) && g->line.length > 0)
        return;
    if (chance(g, 60))
        put_words(g, name_pool[below(g, sizeof name_pool / sizeof name_pool[0])]);
    else
        while (length--)
            put(g, name_byte(g));
}

/* The name that these questions are about; what is planted in the directory for them is about it too. */
static void choose_asked(struct generator *g)
{
    g->line.length = 0;
    put_legal_name(g);
    g->asked.length = g->line.length;
    memcpy(g->asked.bytes, g->line.bytes, g->line.length);
}

static uint8_t as_capital(uint8_t byte)
{
    return byte >= 'a' && byte <= 'z' ? (uint8_t)(byte - 32) : byte;
}

/* An entry gets that name, or nearly: of another kind, with small letters, another length byte, one above 8, a byte changed, any fill. */
static void plant_name(struct generator *g)
{
    unsigned at = ENTRY * below(g, g->entries), length = (unsigned)g->asked.length;
    unsigned kinds[] = {FORM, PICTURE, FORM, PICTURE, FORM, PICTURE, RECORDING, EMPTY, 4, 255};
    unsigned lengths[] = {length, length, length, length, length, length + 1, length - 1, 0, 9, between(g, 9, 255), length | 8, length + 128};
    bool folded = chance(g, 85), filled = chance(g, 50);

    poke_number(g, DIRECTORY, at, some_of(g, kinds, 10), 1);
    poke_number(g, DIRECTORY, at + 1, some_of(g, lengths, chance(g, 60) ? 1 : 12), 1);
    for (unsigned i = 0; i < 8; i++) {
        uint8_t fill = filled ? (uint8_t)random_number(g) : 0, byte = g->asked.bytes[i];
        add_poke(g, DIRECTORY, at + 2 + i, i >= length ? fill : folded ? as_capital(byte) : byte);
    }
    if (chance(g, 20))
        add_poke(g, DIRECTORY, at + 2 + below(g, 8), near_byte(g, as_capital(g->asked.bytes[below(g, length)])));
}

static uint8_t some_kind(struct generator *g)
{
    static const uint8_t kinds[] = {FORM, PICTURE, FORM, PICTURE, EMPTY, RECORDING, 4, 128, 255};

    return chance(g, 90) ? kinds[below(g, 9)] : (uint8_t)random_number(g);
}

static void plant_kinds(struct generator *g)
{
    for (unsigned times = between(g, 1, 4); times > 0; times--)
        add_poke(g, DIRECTORY, ENTRY * below(g, g->entries), some_kind(g));
}

/* No entry is of kind 0 or 3, or one of them alone is, the first and the last a little likelier. */
static void plant_all_kinds(struct generator *g)
{
    static const uint8_t kinds[] = {FORM, PICTURE, FORM, PICTURE, 4, 255};
    unsigned alone[] = {0, g->entries - 1, below(g, g->entries)};

    for (unsigned i = 0; i < g->entries; i++)
        add_poke(g, DIRECTORY, ENTRY * i, kinds[below(g, 6)]);
    if (chance(g, 60))
        add_poke(g, DIRECTORY, ENTRY * some_of(g, alone, 3), chance(g, 85) ? EMPTY : RECORDING);
}

/* So many links are free, here and there; the others are an end, a portion's number or nearly free. */
static void mark_links(struct generator *g)
{
    unsigned all = g->portions, some[] = {0, 1, 2, 3, all - 1, all, 127, 128, 129, below(g, all + 1)}, left = some_of(g, some, 10);

    for (unsigned i = 0; i < all; i++) {
        unsigned taken[] = {CHAIN_END, CHAIN_END, 0, 0xfeff, 0x00ff, 0xff00, i, below(g, all)};
        bool free = below(g, all - i) < left;
        left -= free;
        poke_number(g, LINKS, 2 * i, free ? FREE : some_of(g, taken, 8), 2);
    }
}

static void plant_owed(struct generator *g)
{
    static const unsigned owed[] = {0, 0, 1, 255, 256, 0xff00, 65535};

    poke_number(g, SESSION, 11, some_of(g, owed, 7), 2);
}

/* No labels are owed and nothing is recorded, so that 8 and 9 leave it to the later answers. */
static void free_the_way(struct generator *g)
{
    poke_number(g, SESSION, 11, 0, 2);
    for (unsigned i = 0; i < g->entries; i++)
        if (entry(g, i)[0] == RECORDING)
            add_poke(g, DIRECTORY, ENTRY * i, FORM);
}

static void damage_for_questions(struct generator *g)
{
    g->poke_count = g->poke_next = 0;
    g->passing = true;
    if (chance(g, 70))
        free_the_way(g);
    for (unsigned times = between(g, 1, g->small ? 2 : 4); times > 0; times--)
        switch (below(g, 20)) {
        case 0: case 1: case 2: case 3: case 4: case 5: plant_name(g); break;
        case 6: case 7: plant_kinds(g); break;
        case 8: case 9: case 10: plant_all_kinds(g); break;
        case 11: case 12: case 13: mark_links(g); break;
        case 14: case 15: damage_links(g); break;
        case 16: damage_session(g); break;
        case 17: case 18: damage_number(g); break;
        default: plant_owed(g); break;
        }
}

/* A moment near an end for moves that cross it, or a clock that is none; other damage says nothing to them. */
static void damage_for_moves(struct generator *g)
{
    g->poke_count = g->poke_next = 0;
    g->passing = true;
    if (chance(g, 65))
        poke_clock(g, some_moment(g));
    else if (chance(g, 75))
        damage_clock(g);
    else if (chance(g, 50))
        damage_format(g);
    else
        damage_session(g);
}

/* ---- repairs ---- */

static const enum slice laid_slices[] = {SESSION, STORE, LINKS, DIRECTORY, VALUE};

static uint8_t *laid_part(struct laid *l, enum slice s)
{
    return s == SESSION ? l->session : s == STORE ? l->store : s == LINKS ? l->links : s == DIRECTORY ? l->directory : l->values;
}

static size_t laid_count(const struct generator *g, enum slice s)
{
    return s == LINKS ? 2 * g->length[LINKS] : g->length[s];
}

static void lift(struct generator *g, struct laid *l)
{
    for (unsigned i = 0; i < 5; i++)
        memcpy(laid_part(l, laid_slices[i]), g->desk->bytes[laid_slices[i]], laid_count(g, laid_slices[i]));
}

/* The session's own store or another one, whole or damaged in some ways. The image and the values may hold anything. */
static void make_laid(struct generator *g)
{
    struct card c = {g->made.store, g->made.links, g->made.directory, g->portions, g->entries};

    g->made = g->former;
    if (chance(g, 45))
        make_card(&g->state, &c);
    for (unsigned times = chance(g, 12) ? 0 : chance(g, 55) ? 1 : between(g, 2, 4); times > 0; times--)
        damage_card(&g->state, &c, some_damage(&g->state, &c));
    for (unsigned times = chance(g, 40) ? between(g, 1, 8) : 0; times > 0; times--) {
        g->made.session[below(g, IMAGE)] = (uint8_t)random_number(g);
        g->made.values[below(g, VALUES)] = (uint8_t)random_number(g);
    }
    g->laying = &g->made;
    g->lay_next = 0;
}

/* Where damage is under way already, mostly that is repaired. Of great memories, which take long, mostly one. */
static void plan_repairs(struct generator *g)
{
    g->repairs_left = g->portions > 500 ? 1 : between(g, 1, 3);
    g->goes_on = chance(g, 30);
    g->plain_repair = false;
    g->lay_back = true;
    lift(g, &g->former);
    if (!g->damaged || chance(g, 30))
        make_laid(g);
}

static void lay_event(struct generator *g, struct event *e)
{
    enum slice s = laid_slices[g->lay_next++];

    e->kind = LAY;
    e->slice = s;
    e->bytes = laid_part((struct laid *)g->laying, s);
    e->count = laid_count(g, s);
    if (g->lay_next == 5)
        g->laying = NULL;
}

static uint64_t some_rows(struct generator *g)
{
    static const uint64_t edges[] = {0, 0, 1, 2, 3999, 4000, 4000, 4001, 4001, 4096, 65535, 65536, 65537, 0x100000000, 0x100000001, 0x8000000000000001, 0xffffffffffffffff};

    if (g->plain_repair || chance(g, 75))
        return g->rows;
    if (chance(g, 50))
        return between(g, 1, g->rows);
    return edges[below(g, sizeof edges / sizeof edges[0])];
}

/* Just as long as the list, more, one byte less, none, or what the session has. */
static size_t some_output(struct generator *g)
{
    size_t list = g->told.length, room = g->desk->room[OUTPUT];

    if (list > room)
        return room;
    switch (below(g, 12)) {
    case 0: return g->plain_repair ? list : list > 0 ? list - 1 : 0;
    case 1: return g->plain_repair ? list : 0;
    case 2: return g->plain_repair ? list : g->length[OUTPUT];
    case 3: return room;
    case 4: case 5: return list + below(g, (unsigned)(room - list) + 1);
    default: return list;
    }
}

static void repair_event(struct generator *g, struct event *e)
{
    static const enum slice lent[] = {SESSION, COUNTS, STORE, LINKS, DIRECTORY, VALUE};
    struct card c = card_on(g->desk, g->length);

    change_chances(g);
    tell_verdicts(&c, &g->told);
    e->kind = CALL;
    e->call = g->last_call = REPAIR;
    e->rows = g->repair_rows = some_rows(g);
    memcpy(e->length, g->length, sizeof e->length);
    e->length[OUTPUT] = some_output(g);
    if (!g->plain_repair && chance(g, 10))
        other_length(g, e, lent[below(g, 6)]);
    if (g->entries == MOST_ENTRIES && !g->plain_repair && chance(g, 30))
        e->length[DIRECTORY] += ENTRY;
    if (g->portions == MOST_PORTIONS && !g->plain_repair && chance(g, 30)) {
        e->length[STORE] += PORTION;
        e->length[LINKS]++;
    }
    if (e->length[SESSION] != IMAGE && chance(g, 25))
        e->length[SESSION] = CLOCK_AT;  /* as long as it was before the clock */
    memcpy(g->repair_length, e->length, sizeof e->length);
    g->repairs_left--;
    if (g->repairs_left > 0 && chance(g, 80))
        make_laid(g);  /* else the same once more, repaired by now or not */
    change_chances(g);
}

/* The session goes on with what is left, on a page of so many rows. If there are not so many, it is repaired once more. */
static void go_on_repaired(struct generator *g)
{
    g->lay_back = g->damaged = false;
    g->poke_count = g->poke_next = g->undo_count = g->calls_to_repair = 0;
    lend_portions(g, (unsigned)g->repair_length[LINKS]);
    g->length[DIRECTORY] = g->repair_length[DIRECTORY];
    g->entries = (unsigned)(g->length[DIRECTORY] / ENTRY);
    if (g->repair_rows * ROW_BYTES <= g->desk->room[BACKGROUND]) {
        g->rows = (unsigned)g->repair_rows;
        g->length[PAGE] = g->length[BACKGROUND] = (size_t)g->rows * ROW_BYTES;
    } else {
        g->plain_repair = true;
        g->repairs_left = 1;
    }
}

/* Before some calls. Where damage is under way already the questions are asked of that; of memory that is great mostly as it stands. Moves of the clock come
 * oftener where the damage is the clock's. */
static void plan_questions(struct generator *g)
{
    unsigned most = g->portions + g->entries > 300 ? 30 : 45;
    bool clock_damaged = g->damaged && g->undo_count > 0 && g->undo[0].slice == SESSION && g->undo[0].at >= CLOCK_AT;

    g->call_due = true;
    change_chances(g);
    if (chance(g, g->small ? 3 : 9)) {
        choose_asked(g);
        g->questions_left = between(g, 1, g->small ? 2 : 4);
        if (!g->damaged && chance(g, most))
            damage_for_questions(g);
    } else if (moment_due(g, clock_damaged ? 70 : 8)) {
        g->moves_left = between(g, 1, 3);
        if (!g->damaged && chance(g, 60))
            damage_for_moves(g);
    } else if (g->opened && moment_due(g, g->entries > 200 || g->portions > 128 ? 12 : 4))
        plan_repairs(g);
    change_chances(g);
}

/* A byte of the name is one at or past an edge of what may stand in names. */
static void spoil_name(struct generator *g)
{
    static const uint8_t edges[] = {0, 10, 31, 32, 33, '"', '*', '@', '[', '`', '{', 126, 127, 128, 'a' + 128, 255};

    if (g->line.length > 0)
        g->line.bytes[below(g, (unsigned)g->line.length)] = chance(g, 90) ? edges[below(g, sizeof edges)] : (uint8_t)random_number(g);
}

/* Mostly the name that these questions are about, in any case; or one byte longer or shorter, 256 bytes longer, spoilt, another, of any bytes. */
static void put_asked_name(struct generator *g)
{
    unsigned k = below(g, 100), length = chance(g, 90) ? below(g, 20) : below(g, g->small ? 20 : 700);

    g->line.length = 0;
    if (k < 8)
        put_legal_name(g);
    else if (k < 14)
        put_words(g, bad_names[below(g, 8)]);
    else if (k < 19)
        while (length--)
            put(g, (uint8_t)random_number(g));
    else
        for (size_t i = 0; i < g->asked.length; i++)
            put_cased(g, g->asked.bytes[i]);
    if (k >= 92)
        spoil_name(g);
    else if (k >= 88)
        put(g, name_byte(g));
    else if (k >= 85 && g->line.length > 0)
        g->line.length--;
    else if (k == 84 && !g->small)
        put_text(g, 256);
}

/* At the edges of the limits, at those of a portion, and about what the free links hold; and such as 8, 16 or 32 bits make another of. */
static uint64_t asked_size(struct generator *g)
{
    static const uint64_t edges[] = {0, 1, 2, 127, 128, 129, 130, 131, 255, 256, 257, 511, 512, 513, 32511, 32512, 32513, 32767, 32768, 32769, 33024, 33025,
                                     65535, 65536, 65537, 0x10100, 0x100000000, 0x100000001, 0x100000100, 0x8000000000000000, 0x8000000000000100,
                                     0xffffffffffffff01, 0xffffffffffffff00, 0xffffffffffffffff};
    static const int about[] = {-256, -255, -1, 0, 0, 0, 1, 1, 1, 2, 255, 256, 257};
    int64_t room = 0;

    for (unsigned i = 0; i < g->portions; i++)
        room += link_of(g, i) == FREE ? PORTION : 0;
    if (chance(g, 45) && room <= MOST_PICTURE)
        return (uint64_t)(room + about[below(g, 13)]);
    if (chance(g, 40))
        return edges[below(g, sizeof edges / sizeof edges[0])];
    return chance(g, 95) ? between(g, 1, chance(g, 70) ? 1500 : MOST_PICTURE) : random_number(g);
}

static void question_event(struct generator *g, struct event *e)
{
    static const enum slice lent[] = {SESSION, LINKS, DIRECTORY};
    static const uint8_t kinds[] = {0, 3, 4, 128 + FORM, 128 + PICTURE, 255};
    unsigned one_more = g->portions == MOST_PORTIONS ? 1 : g->entries == MOST_ENTRIES ? 2 : 0;  /* than there may be: of lent */

    change_chances(g);
    put_asked_name(g);
    e->kind = CALL;
    e->call = g->last_call = FITS;
    e->question = (struct question){(uint8_t)between(g, FORM, PICTURE), asked_size(g)};
    if (chance(g, 6))
        e->question.kind = chance(g, 80) ? kinds[below(g, 6)] : (uint8_t)random_number(g);
    e->bytes = g->line.bytes;
    e->count = g->line.length;
    memcpy(e->length, g->length, sizeof e->length);
    e->length[INPUT] = e->count;
    if (chance(g, one_more ? 25 : 5))
        other_length(g, e, lent[one_more ? one_more : below(g, 3)]);
    g->questions_left--;
    change_chances(g);
}

/* Seconds of the day so far. */
static unsigned second_now(const struct generator *g)
{
    const uint8_t *clock = g->desk->bytes[SESSION] + CLOCK_AT;

    return clock[3] * 3600u + clock[4] * 60u + clock[5];
}

/* None, a few, as many as end a minute, an hour or the day, one more or fewer, a whole day; and more than there may be, such as 32 bits make another of. */
static uint64_t some_seconds(struct generator *g)
{
    static const uint64_t edges[] = {0, 1, 59, 60, 61, 3599, 3600, 3601, 86398, 86399, 86400, 86400, 86401, 86402, 86460, 172800, 65535, 65536, 131072, 0x100000000, 0x100000001, 0x100015180,
                                     0x8000000000000000, 0xffffffffffffffff};
    unsigned now = second_now(g), unit[] = {60, 3600, 86400}, k = below(g, 3);

    if (chance(g, 35))
        return (uint64_t)(unit[k] - now % unit[k]) + below(g, 3) - (now % unit[k] == unit[k] - 1 ? 0 : below(g, 2));
    if (chance(g, 45))
        return edges[below(g, sizeof edges / sizeof edges[0])];
    return chance(g, 95) ? between(g, 0, chance(g, 40) ? 100 : 86400) : random_number(g);
}

static void move_event(struct generator *g, struct event *e)
{
    change_chances(g);
    e->kind = CALL;
    e->call = g->last_call = CLOCK;
    e->seconds = some_seconds(g);
    memcpy(e->length, g->length, sizeof e->length);
    if (chance(g, 5))
        other_length(g, e, SESSION);
    g->moves_left--;
    change_chances(g);
}

/* What a move has made of the clock stays when pokes are put back: half of it might be no clock. */
static void keep_moved_clock(struct generator *g)
{
    unsigned count = g->passing ? g->poke_count : g->undo_count;

    for (unsigned i = 0; i < count; i++)
        if (g->undo[i].slice == SESSION && g->undo[i].at >= CLOCK_AT && g->undo[i].at < DATE_FORMAT_AT)
            g->undo[i].byte = g->desk->bytes[SESSION][g->undo[i].at];
}

/* The call that is due, with questions, moves of the clock or repairs before it and what belongs to them. */
static void due_event(struct generator *g, struct event *e)
{
    if (g->poke_next == g->poke_count && g->questions_left + g->moves_left == 0 && g->passing) {
        put_back(g, g->poke_count);
        g->passing = false;
    }
    if (!g->laying && g->repairs_left == 0 && g->lay_back) {
        g->laying = &g->former;
        g->lay_next = 0;
        g->lay_back = false;
    }
    if (g->laying) {
        lay_event(g, e);
    } else if (g->repairs_left > 0) {
        repair_event(g, e);
    } else if (g->poke_next < g->poke_count) {
        poke_event(g, e);
        e->passing = true;
    } else if (g->questions_left > 0)
        question_event(g, e);
    else if (g->moves_left > 0)
        move_event(g, e);
    else {
        g->call_due = false;
        call_event(g, e);
    }
}

/* Rarely the font is spoilt for a call or two, or the memory. */
static void spoil_something(struct generator *g)
{
    if (g->damaged || g->font_damaged || !g->opened)
        return;
    if (rarely(g, labels_owed(g) > 0 ? 120 : g->entries > 30 ? 150 : 45))
        damage(g);
    else if (rarely(g, 12)) {
        make_bad_font(g);
        g->font_damaged = g->font_due = true;
        g->calls_to_repair = between(g, 1, 3);
    } else if (rarely(g, 15)) {
        make_font(g);  /* for the labels of forms recorded and bars drawn with another */
        g->font_due = true;
    }
}

void next_event(struct generator *g, struct event *e)
{
    memset(e, 0, sizeof *e);
    if (g->call_due) {
        due_event(g, e);
        return;
    }
    if (g->calls_left == 0 || labels_owed(g) > 5000) {
        bool far = g->calls_left > 0 && g->opened && !g->damaged;  /* so many labels would never end */
        if (g->calls_left == 0 || (far && chance(g, 5))) {
            new_session(g, e);
            return;
        }
    }
    if (g->poke_next == g->poke_count && g->calls_to_repair == 0) {
        if (g->damaged)
            repair(g);
        else if (g->font_damaged) {
            g->font_damaged = false;
            g->font_due = true;
        } else
            spoil_something(g);
    }
    if (g->font_due)
        font_event(g, e);
    else if (g->poke_next < g->poke_count)
        poke_event(g, e);
    else {
        plan_questions(g);
        due_event(g, e);
    }
}

void tell_answer(struct generator *g, unsigned answer)
{
    if (g->last_call == CLOCK && answer == 0)
        keep_moved_clock(g);
    if (g->last_call == REPAIR && answer == 0 && g->goes_on && g->repairs_left == 0)
        go_on_repaired(g);
    if (g->last_call == FITS || g->last_call == CLOCK || g->last_call == REPAIR)
        return;
    if (g->calls_to_repair > 0)
        g->calls_to_repair--;
    if (answer == 0)
        g->touched = true;
    g->lost = answer == 3 && !g->damaged ? g->lost + 1 : 0;
    if (g->lost > 3)
        g->opened = false;
    if (g->last_call == OPEN)
        g->opened = (answer == 0 && g->last_usual) || chance(g, 10);
}
