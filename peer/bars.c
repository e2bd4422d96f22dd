/* bars.c: the four bar types, each as a row of widths: a bar, a space, a bar, and so on; and the line under the bars.
 *
 * Code 39 and Interleaved 2 of 5 have narrow and wide elements; EAN-13 and Code 128 count modules of the narrow width.
 * No quiet zones.
 */
#include <string.h>

#include "peer.h"

struct widths {
    uint8_t *width;
    unsigned count;
    int narrow, wide;
};

static void put_dots(struct widths *w, int dots)
{
    w->width[w->count++] = (uint8_t)dots;
}

/* Elements told by letters: n narrow, w wide. */
static void put_letters(struct widths *w, const char *letters)
{
    for (; *letters; letters++)
        put_dots(w, *letters == 'w' ? w->wide : w->narrow);
}

/* Elements told by digits: so many modules. */
static void put_modules(struct widths *w, const char *digits)
{
    for (; *digits; digits++)
        put_dots(w, (*digits - '0') * w->narrow);
}

/* ---- Code 39, ISO/IEC 16388: nine elements, three of them wide, a gap between characters ---- */

static const char code_39_bytes[] = "0123456789ABCDEFGHIJKLMNOPQRSTUVWXYZ-. $/+%*";
static const char code_39[44][10] = {
    "nnnwwnwnn", "wnnwnnnnw", "nnwwnnnnw", "wnwwnnnnn", "nnnwwnnnw", "wnnwwnnnn", "nnwwwnnnn", "nnnwnnwnw", "wnnwnnwnn",
    "nnwwnnwnn", "wnnnnwnnw", "nnwnnwnnw", "wnwnnwnnn", "nnnnwwnnw", "wnnnwwnnn", "nnwnwwnnn", "nnnnnwwnw", "wnnnnwwnn",
    "nnwnnwwnn", "nnnnwwwnn", "wnnnnnnww", "nnwnnnnww", "wnwnnnnwn", "nnnnwnnww", "wnnnwnnwn", "nnwnwnnwn", "nnnnnnwww",
    "wnnnnnwwn", "nnwnnnwwn", "nnnnwnwwn", "wwnnnnnnw", "nwwnnnnnw", "wwwnnnnnn", "nwnnwnnnw", "wwnnwnnnn", "nwwnwnnnn",
    "nwnnnnwnw", "wwnnnnwnn", "nwwnnnwnn", "nwnwnwnnn", "nwnwnnnwn", "nwnnnwnwn", "nnnwnwnwn", "nwnnwnwnn"};

static void put_code_39(struct widths *w, uint8_t byte)
{
    put_letters(w, code_39[strchr(code_39_bytes, byte) - code_39_bytes]);
}

static void all_code_39(struct widths *w, const uint8_t *data, unsigned length)
{
    put_code_39(w, '*');
    for (unsigned i = 0; i < length; i++) {
        put_letters(w, "n");
        put_code_39(w, data[i]);
    }
    put_letters(w, "n");
    put_code_39(w, '*');
}

/* ---- Interleaved 2 of 5, ISO/IEC 16390: bars tell the first digit of a pair, spaces the second ---- */

static const char two_of_five[10][6] = {"nnwwn", "wnnnw", "nwnnw", "wwnnn", "nnwnw", "wnwnn", "nwwnn", "nnnww", "wnnwn", "nwnwn"};

static void all_interleaved(struct widths *w, const uint8_t *data, unsigned length)
{
    put_letters(w, "nnnn");
    for (unsigned i = 0; i + 1 < length; i += 2)
        for (unsigned k = 0; k < 5; k++) {
            put_dots(w, two_of_five[data[i] - '0'][k] == 'w' ? w->wide : w->narrow);
            put_dots(w, two_of_five[data[i + 1] - '0'][k] == 'w' ? w->wide : w->narrow);
        }
    put_letters(w, "wnn");
}

/* ---- EAN-13, ISO/IEC 15420: set A as it stands, set B the same backwards, set C set A with bars for spaces ---- */

static const char ean_a[10][5] = {"3211", "2221", "2122", "1411", "1132", "1231", "1114", "1312", "1213", "3112"};
static const char ean_b[10][5] = {"1123", "1222", "2212", "1141", "2311", "1321", "4111", "2131", "3121", "2113"};
static const char ean_sets[10][7] = {"AAAAAA", "AABABB", "AABBAB", "AABBBA", "ABAABB",
                                     "ABBAAB", "ABBBAA", "ABABAB", "ABABBA", "ABBABA"};

/* Weights 1 and 3 in turn from the left; the check digit brings the sum to a multiple of ten. */
static unsigned ean_check(const uint8_t *data)
{
    unsigned sum = 0;

    for (unsigned i = 0; i < 12; i++)
        sum += (data[i] - '0') * (i % 2 == 0 ? 1U : 3U);
    return (10 - sum % 10) % 10;
}

static void all_ean_13(struct widths *w, const uint8_t *data)
{
    const char *sets = ean_sets[data[0] - '0'];

    put_modules(w, "111");
    for (unsigned i = 1; i <= 6; i++)
        put_modules(w, sets[i - 1] == 'A' ? ean_a[data[i] - '0'] : ean_b[data[i] - '0']);
    put_modules(w, "11111");
    for (unsigned i = 7; i <= 11; i++)
        put_modules(w, ean_a[data[i] - '0']);
    put_modules(w, ean_a[ean_check(data)]);
    put_modules(w, "111");
}

/* ---- Code 128, ISO/IEC 15417: eleven modules a symbol; in set B a symbol is a byte, in set C a pair of digits ---- */

static const char code_128[106][7] = {
    "212222", "222122", "222221", "121223", "121322", "131222", "122213", "122312", "132212", "221213", "221312", "231212",
    "112232", "122132", "122231", "113222", "123122", "123221", "223211", "221132", "221231", "213212", "223112", "312131",
    "311222", "321122", "321221", "312212", "322112", "322211", "212123", "212321", "232121", "111323", "131123", "131321",
    "112313", "132113", "132311", "211313", "231113", "231311", "112133", "112331", "132131", "113123", "113321", "133121",
    "313121", "211331", "231131", "213113", "213311", "213131", "311123", "311321", "331121", "312113", "312311", "332111",
    "314111", "221411", "431111", "111224", "111422", "121124", "121421", "141122", "141221", "112214", "112412", "122114",
    "122411", "142112", "142211", "241211", "221114", "413111", "241112", "134111", "111242", "121142", "121241", "114212",
    "124112", "124211", "411212", "421112", "421211", "212141", "214121", "412121", "111143", "111341", "131141", "114113",
    "114311", "411113", "411311", "113141", "114131", "311141", "411131", "211412", "211214", "211232"};

enum { TO_C = 99, TO_B = 100, START_B = 104, START_C = 105 };

/* How many symbols, at least, write the data from some byte on when the first of them is a byte of set B, or a pair of set C. */
struct fewest {
    uint8_t b, c;
};

static bool is_digit(uint8_t byte)
{
    return byte >= '0' && byte <= '9';
}

/* In a set that needs so many symbols, with another at hand behind one symbol of change. */
static unsigned fewest_in(unsigned own, unsigned other)
{
    return own < other + 1 ? own : other + 1;
}

/* From the last byte to the first. Where no pair stands c is more than any change leads to. */
static void count_fewest(const uint8_t *data, unsigned length, struct fewest *from)
{
    from[length] = (struct fewest){0, 0};
    for (unsigned i = length; i-- > 0;) {
        bool pair = i + 1 < length && is_digit(data[i]) && is_digit(data[i + 1]);
        unsigned b = 1 + fewest_in(from[i + 1].b, from[i + 1].c), c = pair ? 1 + fewest_in(from[i + 2].c, from[i + 2].b) : b + 2;
        from[i] = (struct fewest){(uint8_t)b, (uint8_t)c};
    }
}

/* The writing of which no other "has fewer symbols; among equals, the one whose first differing symbol value is smaller". Start B is less than start C, a byte of
 * set B less than the change to C, and a pair less than the change to B: so it starts with C only where that takes a symbol less, and a set is left only where staying in it takes one more. */
static unsigned write_code_128(const uint8_t *data, unsigned length, uint8_t *values)
{
    struct fewest from[MOST_DATA + 1];
    unsigned count = 0;
    bool in_c;

    count_fewest(data, length, from);
    in_c = from[0].c < from[0].b;
    values[count++] = in_c ? START_C : START_B;
    for (unsigned i = 0; i < length;)
        if (in_c ? from[i].b + 1 < from[i].c : from[i].c + 1 < from[i].b) {
            values[count++] = in_c ? TO_B : TO_C;
            in_c = !in_c;
        } else if (in_c) {
            values[count++] = (uint8_t)((data[i] - '0') * 10 + data[i + 1] - '0');
            i += 2;
        } else
            values[count++] = (uint8_t)(data[i++] - 32);
    return count;
}

/* The check symbol: the start and every value behind it times its place, from 1. */
static unsigned code_128_check(const uint8_t *values, unsigned count)
{
    unsigned sum = values[0];

    for (unsigned i = 1; i < count; i++)
        sum += values[i] * i;
    return sum % 103;
}

static void all_code_128(struct widths *w, const uint8_t *data, unsigned length)
{
    uint8_t values[MOST_DATA + 1];  /* set B alone has no more */
    unsigned count = write_code_128(data, length, values);

    for (unsigned i = 0; i < count; i++)
        put_modules(w, code_128[values[i]]);
    put_modules(w, code_128[code_128_check(values, count)]);
    put_modules(w, "2331112");
}

/* ---- any type ---- */

unsigned bar_widths(enum bar_type type, int narrow, int wide, const uint8_t *data, unsigned length, uint8_t *widths)
{
    struct widths w = {widths, 0, narrow, wide};

    switch (type) {
    case CODE_39: all_code_39(&w, data, length); break;
    case INTERLEAVED: all_interleaved(&w, data, length); break;
    case EAN_13: all_ean_13(&w, data); break;
    case CODE_128: all_code_128(&w, data, length); break;
    }
    return w.count;
}

/* Bars are set black over the whole height; "spaces leave dots as they are". x: where the first bar stands in the unturned
 * box t. */
static void draw_bars(struct paper *p, const struct turned *t, int x, int high, const uint8_t *widths, unsigned count)
{
    for (unsigned i = 0; i < count; i++) {
        if (i % 2 == 0)
            draw_turned(p, t, x, 0, widths[i], high, BLACK);
        x += widths[i];
    }
}

/* ---- the line under the bars ---- */

/* The line is the data, "with the EAN check digit"; Code 39 shows no `*` and Code 128 no check. Without a line: no bytes. */
static unsigned line_bytes(const struct symbol *s, uint8_t *line)
{
    if (s->place == 'N')
        return 0;
    memcpy(line, s->data, s->length);
    if (s->type != EAN_13)
        return s->length;
    line[s->length] = (uint8_t)('0' + ean_check(s->data));
    return s->length + 1;
}

/* What stands left of the narrower one when so many dots are spare: "C with the smaller half left". */
static int spare_left(char place, int spare)
{
    switch (place) {
    case 'C': return spare / 2;
    case 'R': return spare;
    default: return 0;
    }
}

/* "The box is as wide as the wider of the two", and the line stands directly under the bars. Of the two the wider has no spare
 * dots. t holds corner and turn; the rest is set here. */
void draw_symbol(struct paper *p, struct turned t, const struct symbol *s)
{
    const struct pen pen = {s->font, 1, 1, BLACK};
    uint8_t widths[MOST_BARS], line[MOST_DATA];
    unsigned count = bar_widths(s->type, s->narrow, s->wide, s->data, s->length, widths), shown = line_bytes(s, line);
    int bars = 0, text = (int)(shown * s->font->width);

    for (unsigned i = 0; i < count; i++)
        bars += widths[i];
    t.wide = bars > text ? bars : text;
    t.high = s->high + (shown > 0 ? (int)s->font->height : 0);
    draw_bars(p, &t, spare_left(s->place, t.wide - bars), s->high, widths, count);
    draw_glyphs(p, &t, spare_left(s->place, t.wide - text), s->high, &pen, line, shown);
}
