/* lines.c: the written form of a line, the limits of its numbers, names and prompts, its normal form, and the place of a fault.
 *
 * The reader goes once over the line and writes the normal form beside it as it goes: numbers lose leading zeros, the
 * step of C gets its sign, names become capitals, all else is copied. A line in normal form is one that this leaves
 * as it is. A fault of form [6] ends the reading; a number outside its limits [7] is noted and the reading goes on,
 * because a later fault of form is the lower answer.
 *
 * Every fault points to the piece at hand: the command's letters, a field, a comma, an element of data, or the bytes past the
 * last field. Whoever reads a piece says where it begins; what is read inside it does not.
 *
 * "A line ends too soon exactly when some well-formed line (of any length) starts with it." The reader passes a byte only if
 * some well-formed line starts with all the bytes passed so far: a piece that is begun rightly can be ended (a number by
 * no more digits, a text by its quote, a word or modifier by its rest), and after each piece the others can follow. So a
 * fault with bytes left means that no well-formed line starts so, and the piece is at fault; a fault with none left means
 * that one does, and the place is the LF's. Three things must not be passed for this to hold: a tenth digit, the C after
 * `B,` as a place when no comma stands behind it, and the first letter of a format's field that tells what an earlier one told.
 */
#include <string.h>

#include "peer.h"

struct reader {
    const uint8_t *line;
    unsigned length, place;
    unsigned piece;          /* where the piece at hand begins */
    struct normal_line *normal;
    struct verdict verdict;  /* so far */
};

static void begin(struct reader *r)
{
    r->piece = r->place;
}

static bool is_written_so(const struct reader *r)
{
    return r->verdict.answer != NOT_WRITTEN_SO;
}

/* After a fault of form nothing is left to read, so every later field fails as well; the first one is told. */
static void fault(struct reader *r)
{
    if (!is_written_so(r))
        return;
    r->verdict = (struct verdict){NOT_WRITTEN_SO, r->place < r->length ? r->piece : r->length};
    r->place = r->length;
}

/* [7] points to the leftmost, which is read first. */
static void outside(struct reader *r)
{
    if (r->verdict.answer == TAKEN)
        r->verdict = (struct verdict){OUTSIDE_LIMITS, r->piece};
}

static int next(const struct reader *r)
{
    return r->place < r->length ? r->line[r->place] : -1;
}

static void put(struct reader *r, uint8_t byte)
{
    r->normal->bytes[r->normal->length++] = byte;
}

/* The next byte, whatever it is, copied. */
static void pass(struct reader *r)
{
    put(r, r->line[r->place++]);
}

/* This byte, inside the piece at hand. */
static void expect(struct reader *r, char byte)
{
    if (next(r) == (uint8_t)byte)
        pass(r);
    else
        fault(r);
}

/* A comma is a piece by itself: "What follows it must be a comma; if not, the place is that byte". */
static void comma(struct reader *r)
{
    begin(r);
    expect(r, ',');
}

static bool is_digit(int byte)
{
    return byte >= '0' && byte <= '9';
}

/* "Numbers are 1 to 9 digits, leading zeros allowed." Inside the piece at hand. */
static uint32_t digits(struct reader *r, uint32_t least, uint32_t most)
{
    unsigned count = 0, first = r->normal->length;
    uint32_t value = 0;

    while (is_digit(next(r))) {
        if (++count > 9) {
            fault(r);  /* with the tenth digit not passed, so never the LF's place */
            return 0;
        }
        if (value == 0)
            r->normal->length = first;  /* what stands there is a leading zero */
        value = value * 10 + (uint32_t)(next(r) - '0');
        pass(r);
    }
    if (count == 0)
        fault(r);
    if (value < least || value > most)
        outside(r);
    return value;
}

/* A field that is a number. */
static uint32_t number(struct reader *r, uint32_t least, uint32_t most)
{
    begin(r);
    return digits(r, least, most);
}

/* Numbers with commas between them, each with its limits. */
static void numbers(struct reader *r, uint32_t *n, unsigned count, const uint32_t limits[][2])
{
    for (unsigned i = 0; i < count; i++) {
        if (i > 0)
            comma(r);
        n[i] = number(r, limits[i][0], limits[i][1]);
    }
}

/* Quoted text: 32 to 126, no quote. Handed back as a part of the line. It begins with its first quote, as a field or as
 * an element, and "a bad byte inside points to the first quote". */
static const uint8_t *quoted(struct reader *r, unsigned *length)
{
    const uint8_t *start;

    begin(r);
    expect(r, '"');
    start = r->line + r->place;
    while (next(r) >= 32 && next(r) <= 126 && next(r) != '"')
        pass(r);
    *length = (unsigned)(r->line + r->place - start);
    expect(r, '"');
    return start;
}

static uint8_t capital(uint8_t byte)
{
    return byte >= 'a' && byte <= 'z' ? (uint8_t)(byte - 'a' + 'A') : byte;
}

/* A name: 1 to 8 bytes without `*`, else [7]. "*" alone is a name where every is lent (FK, GK). */
static void name(struct reader *r, struct name *out, bool *every)
{
    unsigned length, first = r->normal->length + 1;
    const uint8_t *text = quoted(r, &length);

    memset(out, 0, sizeof *out);
    if (!is_written_so(r))
        return;
    for (unsigned i = 0; i < length; i++)
        r->normal->bytes[first + i] = capital(text[i]);
    if (every && length == 1 && text[0] == '*') {
        *every = true;
        return;
    }
    if (length < 1 || length > 8 || memchr(text, '*', length)) {
        outside(r);
        return;
    }
    out->bytes[0] = (uint8_t)length;
    memcpy(out->bytes + 1, r->normal->bytes + first, length);
}

static void prompt(struct reader *r)
{
    unsigned length;

    quoted(r, &length);
    if (length > 24)
        outside(r);
}

/* One of certain letters, else [6]. Inside the piece at hand. */
static char letter(struct reader *r, const char *allowed)
{
    int byte = next(r);

    if (byte <= 0 || !strchr(allowed, byte)) {
        fault(r);
        return 0;
    }
    pass(r);
    return (char)byte;
}

/* A word of one letter and its comma. "A word runs to the next comma", so what stands where its comma should is a part of it. */
static char word(struct reader *r, const char *allowed)
{
    char byte;

    begin(r);
    byte = letter(r, allowed);
    expect(r, ',');
    return byte;
}

static void modifier(struct reader *r, struct element *e)
{
    int byte = next(r);

    e->modifier = 0;
    if (byte != 'L' && byte != 'R' && byte != 'M')
        return;
    e->modifier = (char)byte;
    pass(r);
    if (byte == 'M') {
        e->place = digits(r, 1, 32);
        expect(r, '.');
    }
    e->n = digits(r, 1, 32);
}

/* "An element of data is one piece with its modifier." What follows a whole element is where the next should start. */
static void element(struct reader *r, struct element *e)
{
    int byte = next(r);

    begin(r);
    e->at = r->place;
    switch (byte) {
    case '"':
        e->kind = '"';
        e->text = quoted(r, &e->length);
        break;
    case 'V':
    case 'C':
        e->kind = (char)byte;
        pass(r);
        e->number = (uint8_t)(next(r) - '0');
        letter(r, "0123456789");
        modifier(r, e);
        break;
    case 'T':  /* "These two elements take no modifier" */
        pass(r);
        e->kind = letter(r, "DT");
        break;
    default: fault(r); break;
    }
}

/* "One or more elements side by side"; data ends the line. */
static void data(struct reader *r, struct command *c)
{
    do
        element(r, &c->element[c->elements++]);
    while (r->place < r->length);
}

/* s with or without sign, -99999 to +99999; the normal form has the sign, and zero is +0. The field begins with its sign. */
static void step(struct reader *r, struct command *c)
{
    unsigned at = r->normal->length;

    begin(r);
    put(r, '+');
    if (next(r) == '+' || next(r) == '-') {
        c->minus = next(r) == '-';
        r->place++;
    }
    c->n[2] = digits(r, 0, 99999);
    if (c->n[2] == 0)
        c->minus = false;
    if (c->minus)
        r->normal->bytes[at] = '-';
}

/* One of four words and its comma. */
static void bar_type(struct reader *r, struct command *c)
{
    begin(r);
    switch (letter(r, "32E1")) {
    case '3': c->type = CODE_39; break;
    case '2': c->type = INTERLEAVED; break;
    case 'E': c->type = EAN_13; expect(r, '3'); expect(r, '0'); break;
    case '1': c->type = CODE_128; break;
    }
    expect(r, ',');
}

/* ---- formats ---- */

/* One of certain capitals or its small letter, else [6]; gives the capital. Inside the piece at hand, and copied as it is written. */
static char either_case(struct reader *r, const char *allowed)
{
    int byte = next(r);
    char found = byte > 0 ? (char)capital((uint8_t)byte) : 0;

    if (found == 0 || !strchr(allowed, found)) {
        fault(r);
        return 0;
    }
    pass(r);
    return found;
}

/* The first letter of a field: one of those left. It alone says what the field tells, so it is taken from them. */
static char field_letter(struct reader *r, char *left)
{
    char found;

    begin(r);
    found = either_case(r, left);
    if (found != 0) {
        char *at = strchr(left, found);
        memmove(at, at + 1, strlen(at));
    }
    return found;
}

/* Y2, Y4, ME, MN or DD. */
static uint8_t date_field(struct reader *r, char *left)
{
    switch (field_letter(r, left)) {
    case 'Y': return either_case(r, "24") == '2' ? Y2 : Y4;
    case 'M': return either_case(r, "EN") == 'E' ? ME : MN;
    case 'D': either_case(r, "D"); return DD;
    default: return 0;
    }
}

static uint8_t time_field(struct reader *r, char *left)
{
    switch (field_letter(r, left)) {
    case 'H': return HOUR;
    case 'M': return MINUTE;
    case 'S': return SECOND;
    default: return 0;
    }
}

/* "one separator byte between fields", "neither space nor quote": any other, so also a letter, a digit or a comma. */
static uint8_t separator(struct reader *r)
{
    int byte = next(r);

    begin(r);
    if (byte <= ' ' || byte > '~' || byte == '"') {
        fault(r);
        return 0;
    }
    pass(r);
    return (uint8_t)byte;
}

/* "one to three fields", of which the letters left tell which there are. Behind the third nothing may stand. */
static void format(struct reader *r, struct command *c, char left[4], uint8_t (*field)(struct reader *, char *))
{
    memset(c->format, 0, FORMAT);
    c->format[0] = field(r, left);
    for (unsigned i = 1; i < FORMAT && r->place < r->length; i += 2) {
        c->format[i] = separator(r);
        c->format[i + 1] = field(r, left);
    }
}

/* ---- one function for each group of commands ---- */

static void rectangle(struct reader *r, struct command *c, enum word word)
{
    static const uint32_t limits[4][2] = {{0, 2047}, {0, 2047}, {1, 2047}, {1, 2047}};

    c->word = word;
    numbers(r, c->n, 4, limits);
}

/* "a, d 0..2047; b, e 0..4095; thickness c 1..80", of X and of the slanted line. */
static void two_points(struct reader *r, struct command *c, enum word word)
{
    static const uint32_t limits[5][2] = {{0, 2047}, {0, 4095}, {1, 80}, {0, 2047}, {0, 4095}};

    c->word = word;
    numbers(r, c->n, 5, limits);
}

/* "`LS`, then nothing, `E` or `W`": an E or W behind LS is always the command's. */
static void slanted_word(struct reader *r, struct command *c)
{
    switch (next(r)) {
    case 'E': pass(r); two_points(r, c, W_LSE); break;
    case 'W': pass(r); two_points(r, c, W_LSW); break;
    default: two_points(r, c, W_LS); break;
    }
}

static void text_line(struct reader *r, struct command *c)
{
    static const uint32_t limits[5][2] = {{0, 2047}, {0, 4095}, {0, 3}, {1, 6}, {1, 9}};

    c->word = W_A;
    numbers(r, c->n, 5, limits);
    comma(r);
    c->letter = word(r, "NR");
    data(r, c);
}

/* After `B,` an R can only be a place, and a C is one if its own comma follows. Any other C begins the data: `B,C0` is the
 * data C0, and a C that ends the line may still become either. */
static bool place_follows(const struct reader *r)
{
    return next(r) == 'R' || (next(r) == 'C' && r->length - r->place >= 2 && r->line[r->place + 1] == ',');
}

/* `N`, `B`, `B,C` or `B,R`, and the comma before the data. Gives N, or the place: L, C or R. */
static char line_under_bars(struct reader *r)
{
    char place = word(r, "NB");

    if (place != 'B')
        return place;
    return place_follows(r) ? word(r, "CR") : 'L';
}

/* "wide f 2..10 and above e, else 7"; "f not above e: f". */
static void bar_sizes(struct reader *r, uint32_t *n)
{
    n[0] = number(r, 1, 6);
    comma(r);
    n[1] = number(r, n[0] < 1 ? 2 : n[0] + 1, 10);
    comma(r);
    n[2] = number(r, 24, 1000);
}

static void bars_line(struct reader *r, struct command *c)
{
    static const uint32_t corner[3][2] = {{0, 2047}, {0, 4095}, {0, 3}};

    c->word = W_B;
    numbers(r, c->n, 3, corner);
    comma(r);
    bar_type(r, c);
    bar_sizes(r, c->n + 3);
    comma(r);
    c->letter = line_under_bars(r);
    data(r, c);
}

static void picture_line(struct reader *r, struct command *c)
{
    static const uint32_t limits[2][2] = {{0, 2047}, {0, 4095}};

    c->word = W_GG;
    numbers(r, c->n, 2, limits);
    comma(r);
    name(r, &c->name, NULL);
}

/* The n of V, C and `?`, to which 12 and 13 point. */
static void which(struct reader *r, struct command *c)
{
    c->n_at = r->place;
    c->n[0] = number(r, 0, 9);
    comma(r);
}

static void variable_line(struct reader *r, struct command *c)
{
    c->word = W_V;
    which(r, c);
    c->n[1] = number(r, 1, 32);
    comma(r);
    c->letter = word(r, "LRCNZ");
    prompt(r);
}

static void counter_line(struct reader *r, struct command *c)
{
    c->word = W_C;
    which(r, c);
    c->n[1] = number(r, 1, 9);
    comma(r);
    step(r, c);
    comma(r);
    prompt(r);
}

static void ask_line(struct reader *r, struct command *c)
{
    c->word = letter(r, "VC") == 'V' ? W_ASK_V : W_ASK_C;
    which(r, c);
    if (c->word == W_ASK_V)
        c->text = quoted(r, &c->text_length);
    else
        c->n[1] = number(r, 0, 999999999);
}

static void load_picture(struct reader *r, struct command *c)
{
    c->word = W_GM;
    name(r, &c->name, NULL);
    comma(r);
    c->n[0] = number(r, 1, MOST_PICTURE);
}

static void form_word(struct reader *r, struct command *c)
{
    switch (letter(r, "SERKIP")) {
    case 'S': c->word = W_FS; name(r, &c->name, NULL); break;
    case 'E': c->word = W_FE; break;
    case 'R': c->word = W_FR; name(r, &c->name, NULL); break;
    case 'K': c->word = W_FK; name(r, &c->name, &c->every); break;
    case 'I': c->word = W_FI; break;
    case 'P': c->word = W_FP; name(r, &c->name, NULL); break;
    }
}

static void picture_word(struct reader *r, struct command *c)
{
    switch (letter(r, "GMKI")) {
    case 'G': picture_line(r, c); break;
    case 'M': load_picture(r, c); break;
    case 'K': c->word = W_GK; name(r, &c->name, &c->every); break;
    case 'I': c->word = W_GI; break;
    }
}

static void line_word(struct reader *r, struct command *c)
{
    switch (letter(r, "OWES")) {
    case 'O': rectangle(r, c, W_LO); break;
    case 'W': rectangle(r, c, W_LW); break;
    case 'E': rectangle(r, c, W_LE); break;
    case 'S': slanted_word(r, c); break;
    }
}

/* `TSm,d,y,h,m,s`. "d is judged against month and year only when these are in their limits; then the day is at fault." Of the fields read by then
 * none is outside its limits, so the day is the leftmost that may be. */
static void clock_line(struct reader *r, struct command *c)
{
    static const uint32_t date[3][2] = {{1, 12}, {1, 31}, {0, 99}}, time[3][2] = {{0, 23}, {0, 59}, {0, 59}};
    unsigned day_at = 0;

    c->word = W_TS;
    for (unsigned i = 0; i < 3; i++) {
        c->n[i] = number(r, date[i][0], date[i][1]);
        comma(r);
        day_at = i == 0 ? r->place : day_at;
    }
    if (r->verdict.answer == TAKEN && c->n[1] > days_of(c->n[2], c->n[0]))
        r->verdict = (struct verdict){OUTSIDE_LIMITS, day_at};
    numbers(r, c->n + 3, 3, time);
}

static void time_word(struct reader *r, struct command *c)
{
    switch (letter(r, "SDT")) {
    case 'S': clock_line(r, c); break;
    case 'D': c->word = W_TD; format(r, c, (char[]){"YMD"}, date_field); break;
    case 'T': c->word = W_TT; format(r, c, (char[]){"HMS"}, time_field); break;
    }
}

static void variable_word(struct reader *r, struct command *c)
{
    if (next(r) == 'C') {
        c->word = W_VC;
        pass(r);
    } else {
        variable_line(r, c);
    }
}

static void length_line(struct reader *r, struct command *c, unsigned rows)
{
    const uint32_t limits[2][2] = {{1, rows}, {0, 240}};

    c->word = W_Q;
    numbers(r, c->n, 2, limits);
}

static void origin_line(struct reader *r, struct command *c)
{
    static const uint32_t limits[2][2] = {{0, 2048}, {0, 4096}};

    c->word = W_R;
    numbers(r, c->n, 2, limits);
}

static void one_number(struct reader *r, struct command *c, enum word word, uint32_t least, uint32_t most)
{
    c->word = word;
    c->n[0] = number(r, least, most);
}

/* The first letter decides, then the second, then of LS the third. All letters of a command are one piece, which begins the line. "The command's
 * letters are the longest that match": after V a C is VC, so what follows it is past the last field. */
static void whole_line(struct reader *r, struct command *c, unsigned rows)
{
    switch (letter(r, "QqNRZLXABFGVC?PT")) {
    case 'Q': length_line(r, c, rows); break;
    case 'q': one_number(r, c, W_q, 80, 608); break;
    case 'N': c->word = W_N; break;
    case 'R': origin_line(r, c); break;
    case 'Z': c->word = W_Z; c->letter = letter(r, "TB"); break;
    case 'L': line_word(r, c); break;
    case 'X': two_points(r, c, W_X); break;
    case 'A': text_line(r, c); break;
    case 'B': bars_line(r, c); break;
    case 'F': form_word(r, c); break;
    case 'G': picture_word(r, c); break;
    case 'V': variable_word(r, c); break;
    case 'C': counter_line(r, c); break;
    case '?': ask_line(r, c); break;
    case 'P': one_number(r, c, W_P, 1, 65535); break;
    case 'T': time_word(r, c); break;
    }
}

struct verdict read_line(const uint8_t *line, unsigned length, unsigned rows, struct command *c, struct normal_line *normal)
{
    struct reader r = {line, length, 0, 0, normal, {TAKEN, 0}};

    normal->length = 0;
    memset(c->n, 0, sizeof c->n);
    c->minus = c->every = false;
    c->elements = 0;
    whole_line(&r, c, rows);
    if (r.place < r.length) {
        begin(&r);  /* "Bytes past the last field: the first of them" */
        fault(&r);
    }
    return r.verdict;
}
