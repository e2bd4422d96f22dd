/* data.c: what a form declares, how its counters go on, which data is fit, and which bytes data shows. */
#include <string.h>

#include "peer.h"

/* ---- counters ---- */

static uint32_t power_of_ten(unsigned digits)
{
    uint32_t power = 1;

    while (digits--)
        power *= 10;
    return power;
}

/* Nine digits and 65,535 steps of 99,999 are more than 32 bits hold. */
int64_t counter_after(const struct declared_counter *d, uint32_t value, unsigned moves)
{
    return (int64_t)value + (int64_t)moves * d->step;
}

bool in_range(const struct declared_counter *d, int64_t number)
{
    return number >= 0 && number < (int64_t)power_of_ten(d->digits);
}

/* ---- declared, and within the declared length ---- */

static bool is_declared(const struct element *e, const struct declarations *d)
{
    switch (e->kind) {
    case 'V': return d->v[e->number].declared;
    case 'C': return d->c[e->number].declared;
    default: return true;
    }
}

static unsigned declared_length(const struct element *e, const struct declarations *d)
{
    return e->kind == 'V' ? d->v[e->number].length : d->c[e->number].digits;
}

/* The last place that a modifier asks for. */
static unsigned reach(const struct element *e)
{
    return e->modifier == 'M' ? e->place + e->n - 1 : e->n;
}

static bool names_value(const struct element *e)
{
    return e->kind == 'V' || e->kind == 'C';
}

static bool reaches_past(const struct element *e, const struct declarations *d)
{
    return names_value(e) && e->modifier != 0 && reach(e) > declared_length(e, d);
}

/* ---- date and time ---- */

enum { MOST_MOMENT = 11 };

/* What TD or TT shows. */
static unsigned show_moment(const struct element *e, const struct formats *f, const struct clock *c, uint8_t *out)
{
    return e->kind == 'D' ? show_date(f->date, c, out) : show_time(f->time, c, out);
}

/* ---- fit for each permitted set of values ---- */

/* What an element may show, over all permitted values. A text variable of one byte or more takes any legal byte in any
 * place, so its piece is never surely digits; one of kind N may also show nothing at all. */
struct extent {
    unsigned least, most;
    bool digits, code_39;
};

static bool in_code_39(uint8_t byte)
{
    return (byte >= '0' && byte <= '9') || (byte >= 'A' && byte <= 'Z') || (byte != 0 && strchr("-. $/+%", byte));
}

/* Of bytes that are always shown. */
static struct extent extent_of_bytes(const uint8_t *bytes, unsigned length)
{
    struct extent x = {length, length, true, true};

    for (unsigned i = 0; i < length; i++) {
        x.digits &= bytes[i] >= '0' && bytes[i] <= '9';
        x.code_39 &= in_code_39(bytes[i]);
    }
    return x;
}

/* "Unfit data is judged over all clock values": a field shows as many bytes at any time, and either digits at all times or capitals at all times. So
 * one moment stands for all. */
static struct extent extent_of_moment(const struct element *e, const struct formats *f)
{
    static const struct clock any = {0, 1, 1, 0, 0, 0};
    uint8_t shown[MOST_MOMENT];

    return extent_of_bytes(shown, show_moment(e, f, &any, shown));
}

static struct extent extent_of_value(const struct element *e, const struct declarations *d)
{
    unsigned length = e->modifier ? e->n : declared_length(e, d);
    struct extent x = {length, length, true, true};

    if (e->kind == 'V') {
        x.digits = x.code_39 = d->v[e->number].justify == 'Z';
        if (d->v[e->number].justify == 'N')
            x.least = 0;
    }
    return x;
}

static struct extent extent_of(const struct element *e, const struct declarations *d)
{
    if (e->kind == '"')
        return extent_of_bytes(e->text, e->length);
    return names_value(e) ? extent_of_value(e, d) : extent_of_moment(e, &d->formats);
}

/* All lengths reach their greatest together, when every value is as long as it may be, and their least when every value
 * of kind N is empty. So sums decide, one variable named twice included. */
static bool data_fits(const struct command *c, const struct declarations *d)
{
    struct extent all = {0, 0, true, true};

    for (unsigned i = 0; i < c->elements; i++) {
        struct extent x = extent_of(&c->element[i], d);
        all.least += x.least;
        all.most += x.most;
        all.digits &= x.digits;
        all.code_39 &= x.code_39;
    }
    if (all.most > MOST_DATA)
        return false;
    if (c->word == W_A)
        return true;
    switch (c->type) {
    case CODE_39: return all.code_39 && all.least >= 1;
    case INTERLEAVED: return all.digits && all.least >= 2 && all.most % 2 == 0;
    case EAN_13: return all.digits && all.most == 12;
    case CODE_128: return all.least >= 1;
    }
    return false;
}

static const struct verdict taken = {TAKEN, 0};

/* [13] and [14] point to the leftmost such element, [15] to the first byte of the data. [13] anywhere comes before [14]. */
static struct verdict judge_data(const struct command *c, const struct declarations *d)
{
    for (unsigned i = 0; i < c->elements; i++)
        if (!is_declared(&c->element[i], d))
            return (struct verdict){NOT_DECLARED, c->element[i].at};
    for (unsigned i = 0; i < c->elements; i++)
        if (reaches_past(&c->element[i], d))
            return (struct verdict){PAST_LENGTH, c->element[i].at};
    return data_fits(c, d) ? taken : (struct verdict){UNFIT_DATA, c->element[0].at};
}

struct declarations nothing_declared(const struct formats *f)
{
    struct declarations d = {.formats = *f};

    return d;
}

static struct verdict declare_variable(const struct command *c, struct declarations *d)
{
    struct variable *v = &d->v[c->n[0]];

    if (v->declared)
        return (struct verdict){DECLARED_BEFORE, c->n_at};
    v->declared = true;
    v->length = (uint8_t)c->n[1];
    v->justify = c->letter;
    return taken;
}

static struct verdict declare_counter(const struct command *c, struct declarations *d)
{
    struct declared_counter *k = &d->c[c->n[0]];

    if (k->declared)
        return (struct verdict){DECLARED_BEFORE, c->n_at};
    k->declared = true;
    k->digits = (uint8_t)c->n[1];
    k->step = c->minus ? -(int32_t)c->n[2] : (int32_t)c->n[2];
    return taken;
}

struct verdict judge_line(const struct command *c, struct declarations *d)
{
    switch (c->word) {
    case W_V: return declare_variable(c, d);
    case W_C: return declare_counter(c, d);
    case W_A:
    case W_B: return judge_data(c, d);
    case W_TD: memcpy(d->formats.date, c->format, FORMAT); return taken;
    case W_TT: memcpy(d->formats.time, c->format, FORMAT); return taken;
    default: return taken;
    }
}

/* ---- values ---- */

static bool all_digits(const uint8_t *bytes, unsigned length)
{
    for (unsigned i = 0; i < length; i++)
        if (bytes[i] < '0' || bytes[i] > '9')
            return false;
    return true;
}

static bool all_legal(const uint8_t *bytes, unsigned length)
{
    for (unsigned i = 0; i < length; i++)
        if (bytes[i] < 32 || bytes[i] > 126 || bytes[i] == '"')
            return false;
    return true;
}

/* "Z is 1 to m digits [...] Others take 0 to m bytes, each 32 to 126 and no quote." */
bool text_fits(const struct variable *v, const uint8_t *text, unsigned length)
{
    if (length > v->length)
        return false;
    return v->justify == 'Z' ? length >= 1 && all_digits(text, length) : all_legal(text, length);
}

/* The same of a value as it is stored, padded. */
bool stored_value_fits(const struct variable *v, const uint8_t *field)
{
    unsigned length = field[1];

    return (v->justify == 'N' ? length <= v->length : length == v->length) && text_fits(v, field + 2, length);
}

/* "Values are stored as padded." */
void store_value(const struct variable *v, const uint8_t *text, unsigned length, uint8_t *field)
{
    unsigned room = v->justify == 'N' ? length : v->length, left = 0;

    if (v->justify == 'R' || v->justify == 'Z')
        left = room - length;
    if (v->justify == 'C')
        left = (room - length) / 2;
    memset(field, 0, FIELD);
    field[0] = 1;
    field[1] = (uint8_t)room;
    memset(field + 2, v->justify == 'Z' ? '0' : ' ', room);
    memcpy(field + 2 + left, text, length);
}

/* ---- what data shows ---- */

/* "On a short N value a modifier takes what exists." */
static unsigned show_piece(const struct element *e, const uint8_t *value, unsigned length, uint8_t *out)
{
    unsigned first = 0, count = length;

    if (e->modifier == 'M') {
        first = e->place - 1 < length ? e->place - 1 : length;
        count = length - first;
    }
    if (e->modifier && e->n < count)
        count = e->n;
    if (e->modifier == 'R')
        first = length - count;
    memcpy(out, value + first, count);
    return count;
}

static unsigned show_variable(const struct element *e, const uint8_t *field, uint8_t *out)
{
    return show_piece(e, field + 2, field[1], out);
}

static unsigned show_text(const struct element *e, uint8_t *out)
{
    memcpy(out, e->text, e->length);
    return e->length;
}

static unsigned show_counter(const struct element *e, unsigned digits, uint32_t value, uint8_t *out)
{
    uint8_t written[9];

    for (unsigned i = digits; i-- > 0; value /= 10)
        written[i] = (uint8_t)('0' + value % 10);
    return show_piece(e, written, digits, out);
}

unsigned show_data(const struct command *c, const struct source *from, uint8_t *out)
{
    unsigned length = 0;

    for (unsigned i = 0; i < c->elements; i++) {
        const struct element *e = &c->element[i];
        unsigned n = e->number;

        switch (e->kind) {
        case 'V': length += show_variable(e, from->values + n * FIELD, out + length); break;
        case 'C': length += show_counter(e, from->declared->c[n].digits, from->counters[n].value, out + length); break;
        case '"': length += show_text(e, out + length); break;
        default: length += show_moment(e, &from->formats, &from->clock, out + length); break;
        }
    }
    return length;
}
