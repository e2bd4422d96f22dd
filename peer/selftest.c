/* selftest.c: paper 01's sample session, as paper 02 changed it, and its ten proof cases, as far as the calls show them,
 * paper 02's line under the bars, places of refusals, counters that run out, two kinds of full, the number of free portions, the
 * question whether it fits, slanted lines, the shortest Code 128, clock and formats and what they show, stores that are repaired, and drawing dot by dot.
 *
 *   selftest                   runs all of them
 *   selftest bars TYPE W DATA  writes the modules of one symbol, narrow 1 and wide W, as 1 (bar) and 0, for zint-check
 *   selftest bars TYPE W       the same of each line of standard input
 *   selftest label             reads standard input as the sample session's program does
 */
#define _DEFAULT_SOURCE  /* for timegm */
#include <ctype.h>
#include <stdio.h>
#include <stdlib.h>
#include <string.h>
#include <time.h>

#include "desk.h"
#include "peer.h"
#include "pointing.h"
#include "reading.h"
#include "verdicts.h"
#include "writings.h"

static unsigned failures;

static void check(const char *what, int holds)
{
    printf("%-58s %s\n", what, holds ? "ok" : "FAILED");
    failures += !holds;
}

/* ---- a desk with its lengths ---- */

struct bench {
    struct desk desk;
    size_t length[SLICES];
};

static const uint8_t empty_font[] = {1, 2, 0, 8, 8, 255, 0, 0};

static void lend_font(struct bench *b, const uint8_t *font, size_t length)
{
    put_on_desk(&b->desk, FONT, font, length);
    b->length[FONT] = length;
}

/* Not open yet, with the empty font. There are two bytes beyond the image. */
static void lay_out(struct bench *b, unsigned rows, unsigned portions, unsigned entries, size_t output)
{
    size_t room[SLICES];

    memset(b, 0, sizeof *b);
    usual_lengths(b->length, rows, portions, entries, output);
    usual_room(room, b->length, 65536, 65536);
    room[SESSION] += 2;
    set_up_desk(&b->desk, room, 0xa5);
    lend_font(b, empty_font, sizeof empty_font);
}

static void open_bench(struct bench *b, unsigned rows, const uint8_t *font, size_t font_length)
{
    lay_out(b, rows, 64, 8, 65536);
    lend_font(b, font, font_length);
    if (call_station(&peer_station, &b->desk, OPEN, b->length) != 0)
        abort();
}

static uint64_t count(const struct bench *b, unsigned i)
{
    uint64_t n;

    memcpy(&n, b->desk.bytes[COUNTS] + 8 * i, 8);
    return n;
}

static unsigned send_bytes(struct bench *b, const void *bytes, size_t length)
{
    put_on_desk(&b->desk, INPUT, bytes, length);
    b->length[INPUT] = length;
    return call_station(&peer_station, &b->desk, COMMAND, b->length);
}

static unsigned send(struct bench *b, const char *line)
{
    char with_lf[600];
    int length = snprintf(with_lf, sizeof with_lf, "%s\n", line);

    return send_bytes(b, with_lf, (size_t)length);
}

static unsigned label(struct bench *b)
{
    return call_station(&peer_station, &b->desk, LABEL, b->length);
}

static int dot(const struct bench *b, enum slice s, int x, int y)
{
    return b->desk.bytes[s][y * ROW_BYTES + x / 8] >> (7 - x % 8) & 1;
}

static unsigned black_dots(const struct bench *b, enum slice s)
{
    unsigned black = 0;

    for (size_t i = 0; i < b->length[s]; i++)
        black += (unsigned)__builtin_popcount(b->desk.bytes[s][i]);
    return black;
}

static unsigned low_first(const uint8_t *bytes)
{
    return bytes[0] | (unsigned)bytes[1] << 8;
}

enum { UNSET = -1, NUMBER_AT = 65 };

/* A counter's five bytes as they must be: set and the value, or all zero. */
static int counter_is(const struct bench *b, unsigned n, int64_t value)
{
    const uint8_t *at = b->desk.bytes[SESSION] + 15 + 5 * n;
    int64_t stands = low_first(at + 1) | (int64_t)low_first(at + 3) << 16;

    return at[0] == (value != UNSET) && stands == (value == UNSET ? 0 : value);
}

/* ---- the program of the sample session ---- */

static void run_labels(struct bench *b, FILE *out)
{
    while (label(b) == 0)
        fprintf(out, "label %u black %u\n", low_first(b->desk.bytes[SESSION] + 13), black_dots(b, PAGE));
}

static void run_session(struct bench *b, const uint8_t *input, size_t length, FILE *out)
{
    for (unsigned line = 1;; line++) {
        unsigned answer = send_bytes(b, input, length);

        if (answer != 4 || length > 0)
            fprintf(out, "line %u: %u\n", line, answer);
        if (count(b, 0) == 0)
            return;  /* at 4; and 1 to 3 read nothing either, so the same would come for ever */
        fwrite(b->desk.bytes[OUTPUT], 1, count(b, 1), out);
        input += count(b, 0);
        length -= count(b, 0);
        if (answer == 0)
            run_labels(b, out);
    }
}

static const char sample_input[] =
    "FS\"Test\"\nC0,02,+1,\"NO\"\nLO0,0,8,2\nFE\nFI\nFR\"TEST\"\nP2\n?C0,99\nP2\n";
static const char sample_output[] =
    "line 1: 0\nline 2: 0\nline 3: 0\nline 4: 0\nline 5: 0\n23,\"TEST\"\nline 6: 0\nline 7: 18\nline 8: 0\nline 9: 22\n";

/* Paper 02: "the sample session's second P2 is now refused, and C0 stays 99". */
static void sample_session(void)
{
    struct bench b;
    char *written = NULL;
    size_t length = 0;
    FILE *out = open_memstream(&written, &length);

    open_bench(&b, 240, empty_font, sizeof empty_font);
    run_session(&b, (const uint8_t *)sample_input, sizeof sample_input - 1, out);
    fclose(out);
    check("(1) the sample session: its second P2 is 22", strcmp(written, sample_output) == 0);
    check("(1) C0 stays 99", counter_is(&b, 0, 99));
    free(written);
    clear_away(&b.desk);
}

/* ---- bars ---- */

static int modules_are(const struct bench *b, int from, const char *modules)
{
    for (int i = 0; modules[i]; i++)
        if (dot(b, BACKGROUND, from + i, 0) != modules[i] - '0')
            return 0;
    return 1;
}

/* The dots from the first black one to the last in row 0. */
static int bars_wide(const struct bench *b)
{
    int last = -1;

    for (int x = 0; x < 608; x++)
        if (dot(b, BACKGROUND, x, 0))
            last = x;
    return last + 1;
}

static void bar_cases(void)
{
    struct bench b;

    open_bench(&b, 240, empty_font, sizeof empty_font);
    check("(2) E30 is taken", send(&b, "B0,0,0,E30,1,2,24,N,\"123456789012\"") == 0);
    check("(2) its check digit is 8: 1001000, then the guard", modules_are(&b, 85, "1001000101") && bars_wide(&b) == 95);
    send(&b, "N");
    check("(3) type 1 A: check 34 is 131123, 46 modules",
          send(&b, "B0,0,0,1,1,2,24,N,\"A\"") == 0 && modules_are(&b, 22, "10001011000") && bars_wide(&b) == 46);
    send(&b, "N");
    check("(4) type 3 1, e 2, f 5: 85 dots", send(&b, "B0,0,0,3,2,5,24,N,\"1\"") == 0 && bars_wide(&b) == 85);
    send(&b, "N");
    check("(5) type 2 12, same: 49 dots", send(&b, "B0,0,0,2,2,5,24,N,\"12\"") == 0 && bars_wide(&b) == 49);
    clear_away(&b.desk);
}

/* ---- frame, variables, limits ---- */

static void frame_case(void)
{
    struct bench b;
    int wrong = 0;

    open_bench(&b, 300, empty_font, sizeof empty_font);
    send(&b, "X10,10,3,360,250");
    for (int y = 0; y < 300; y++)
        for (int x = 0; x < 608; x++) {
            int outer = x >= 10 && x < 360 && y >= 10 && y < 250;
            int inner = x >= 13 && x < 357 && y >= 13 && y < 247;
            wrong += dot(&b, BACKGROUND, x, y) != (outer && !inner);
        }
    check("(6) X10,10,3,360,250 is 350 by 240", wrong == 0);
    clear_away(&b.desk);
}

/* Every code has another glyph: its own code in each of two rows. */
static size_t telling_font(uint8_t *font)
{
    size_t length = 0;

    memcpy(font, (const uint8_t[]){1, 2, 0, 8, 2}, 5);
    length = 5;
    for (unsigned code = 32; code <= 126; code++) {
        memcpy(font + length, (const uint8_t[]){2, 3, 0, (uint8_t)code, (uint8_t)code, (uint8_t)code}, 6);
        length += 6;
    }
    memcpy(font + length, (const uint8_t[]){255, 0, 0}, 3);
    return length + 3;
}

static void variable_case(void)
{
    struct bench b;
    uint8_t font[1024];
    size_t length = telling_font(font);
    const char *lines[] = {"FS\"F\"", "V0,5,L,\"\"", "A0,0,0,1,1,N,V0L1V0M3.2V0R1", "FE", "FR\"F\"", "?V0,\"ABCDE\"", "P1"};
    unsigned refused = 0;

    open_bench(&b, 40, font, length);
    for (unsigned i = 0; i < 7; i++)
        refused += send(&b, lines[i]) != 0;
    refused += label(&b) != 0;
    check("(7) V0L1V0M3.2V0R1 of ABCDE is ACDE",
          refused == 0 && memcmp(b.desk.bytes[PAGE], "ACDE\0", 5) == 0 && memcmp(b.desk.bytes[PAGE] + 76, "ACDE\0", 5) == 0);
    check("(7) its last place reaches no further: V0M5.2 is 14",
          send(&b, "FS\"G\"") == 0 && send(&b, "V0,5,L,\"\"") == 0 && send(&b, "A0,0,0,1,1,N,V0M5.2") == 14);
    clear_away(&b.desk);
}

static void limit_cases(void)
{
    struct bench b;
    char long_line[256];
    uint8_t picture[15 + 130] = "GM\"P\",130\n";

    memset(long_line, ';', sizeof long_line);
    open_bench(&b, 40, empty_font, sizeof empty_font);
    check("(8) q80 is taken, q79 is 7", send(&b, "q80") == 0 && send(&b, "q79") == 7);
    check("(9) 255 bytes without LF are 4", send_bytes(&b, long_line, 255) == 4 && count(&b, 0) == 0);
    check("(9) 256 bytes without LF are 5, all read", send_bytes(&b, long_line, 256) == 5 && count(&b, 0) == 256);

    uint8_t *head = picture + 10;
    memcpy(head, (const uint8_t[]){10, 5, 1, 1, 0, 0, 0, 0, 7, 0, 0, 0}, 12);
    head[65] = 1;
    head[66] = 2;
    head[128] = head[129] = 85;
    check("a picture of 8 by 1 in 130 bytes is taken", send_bytes(&b, picture, 140) == 0 && count(&b, 0) == 140);
    picture[3] = 'Q';
    head[128] = 192;
    check("(10) with byte 128 = 192 it is 16, and its bytes are read", send_bytes(&b, picture, 140) == 16 && count(&b, 0) == 140);
    clear_away(&b.desk);
}

/* ---- drawing, dot by dot ---- */

static int inside(const struct bench *b, int x, int y)
{
    return x < (int)low_first(b->desk.bytes[SESSION]) && y < (int)low_first(b->desk.bytes[SESSION] + 2);
}

/* Where dot (x,y) of a box of wide by high goes when it is turned r quarters clockwise. */
static void turn_dot(int r, int wide, int high, int x, int y, int *to_x, int *to_y)
{
    static const int signs[4][4] = {{1, 0, 0, 1}, {0, -1, 1, 0}, {-1, 0, 0, -1}, {0, 1, -1, 0}};
    int left = signs[r][0] < 0 ? wide - 1 : signs[r][1] < 0 ? high - 1 : 0;
    int top = signs[r][2] < 0 ? wide - 1 : signs[r][3] < 0 ? high - 1 : 0;

    *to_x = left + signs[r][0] * x + signs[r][1] * y;
    *to_y = top + signs[r][2] * x + signs[r][3] * y;
}

/* The line with its turn and corner against the same line unturned at 0,0, each dot moved by itself. */
static int turns_well(struct bench *flat, struct bench *turned, const char *format, int x, int y, int r, int wide, int high)
{
    char line[256];
    int seen = 0, wrong = 0, to_x, to_y;

    send(flat, "N");
    send(turned, "N");
    sprintf(line, format, 0, 0, 0);
    if (send(flat, line) != 0)
        return 0;
    sprintf(line, format, x, y, r);
    if (send(turned, line) != 0)
        return 0;
    for (int v = 0; v < high; v++)
        for (int u = 0; u < wide; u++) {
            turn_dot(r, wide, high, u, v, &to_x, &to_y);
            if (!inside(turned, x + to_x, y + to_y))
                continue;
            seen += dot(flat, BACKGROUND, u, v);
            wrong += dot(flat, BACKGROUND, u, v) != dot(turned, BACKGROUND, x + to_x, y + to_y);
        }
    return wrong == 0 && seen == (int)black_dots(turned, BACKGROUND);
}

static void turn_cases(void)
{
    static uint8_t font[1024];
    struct bench flat, turned;
    size_t length = telling_font(font);
    int well = 1;

    open_bench(&flat, 400, font, length);
    open_bench(&turned, 300, font, length);
    send(&turned, "q333");
    send(&turned, "Q277,0");
    for (int r = 0; r < 4; r++)
        for (int x = 0; x < 340; x += 29) {
            well &= turns_well(&flat, &turned, "A%d,%d,%d,3,5,N,\"Turned text\"", x, 3 * x / 4, r, 11 * 24, 10);
            well &= turns_well(&flat, &turned, "A%d,%d,%d,1,2,R,\"~Turned text~\"", x, x, r, 13 * 8, 4);
            well &= turns_well(&flat, &turned, "B%d,%d,%d,1,1,2,24,N,\"Turned\"", x, 3 * x / 4, r, 11 * 8 + 13, 24);
            well &= turns_well(&flat, &turned, "B%d,%d,%d,2,2,5,30,N,\"1234\"", x, 3 * x / 4, r, 81, 30);
        }
    check("text and bars turn as their dots do, cut at the edge", well);
    clear_away(&flat.desk);
    clear_away(&turned.desk);
}

/* ---- the line under the bars ---- */

/* The fields of a B between its corner and its word, its data, what its line must show, and both widths with the telling
 * font, whose cells are 8 by 2. */
struct lined {
    const char *fields, *data, *shown;
    int high, bars, line;
};

/* What stands left of one of the two when the box has so many dots to spare for it. */
static int moved(const char *word, int spare)
{
    return strcmp(word, "B,C") == 0 ? spare / 2 : strcmp(word, "B,R") == 0 ? spare : 0;
}

/* Dot (x,y) of the unturned box, told without a line under bars: bars come from a B with N at 0,0, the line from an A at 0,0. */
static int box_dot(const struct bench *bars, const struct bench *line, const struct lined *l, const char *word, int x, int y)
{
    int wide = l->bars > l->line ? l->bars : l->line;

    if (y < l->high) {
        x -= moved(word, wide - l->bars);
        return x >= 0 && x < l->bars && dot(bars, BACKGROUND, x, y);
    }
    x -= moved(word, wide - l->line);
    return x >= 0 && x < l->line && dot(line, BACKGROUND, x, y - l->high);
}

/* The line of B at x,y with turn r on a page that was white, each dot of its box against box_dot. */
static int lined_well(const struct bench *bars, const struct bench *line, struct bench *both, const struct lined *l,
                      const char *word, int x, int y, int r)
{
    int wide = l->bars > l->line ? l->bars : l->line, high = l->high + 2, seen = 0, wrong = 0, to_x, to_y;
    char text[256];

    sprintf(text, "B%d,%d,%d,%s,%s,\"%s\"", x, y, r, l->fields, word, l->data);
    if (send(both, "N") != 0 || send(both, text) != 0)
        return 0;
    for (int v = 0; v < high; v++)
        for (int u = 0; u < wide; u++) {
            int black = box_dot(bars, line, l, word, u, v);
            turn_dot(r, wide, high, u, v, &to_x, &to_y);
            if (!inside(both, x + to_x, y + to_y))
                continue;
            seen += black;
            wrong += black != dot(both, BACKGROUND, x + to_x, y + to_y);
        }
    return wrong == 0 && seen == (int)black_dots(both, BACKGROUND);
}

/* One B with its line at places up to and over the edge, in four turns; its bars and line by themselves first. */
static int lined_anywhere(struct bench *bars, struct bench *line, struct bench *both, const struct lined *l, const char *word)
{
    char text[256];
    int well;

    sprintf(text, "B0,0,0,%s,N,\"%s\"", l->fields, l->data);
    well = send(bars, "N") == 0 && send(bars, text) == 0 && bars_wide(bars) == l->bars;
    sprintf(text, "A0,0,0,1,1,N,\"%s\"", l->shown);
    well &= send(line, "N") == 0 && send(line, text) == 0 && l->line == 8 * (int)strlen(l->shown);
    for (int r = 0; r < 4; r++)
        for (int x = 0; x < 340; x += 17)
            well &= lined_well(bars, line, both, l, word, x, 3 * x / 4, r);
    return well;
}

static void lined_cases(void)
{
    static const struct lined samples[] = {
        {"1,1,2,24", "A", "A", 24, 46, 8},
        {"3,2,5,31", "1", "1", 31, 85, 8},
        {"2,2,5,24", "12", "12", 24, 49, 16},
        {"2,1,2,24", "12345678", "12345678", 24, 64, 64},
        {"2,1,3,24", "12", "12", 24, 27, 16},
        {"2,1,2,30", "1234567890", "1234567890", 30, 78, 80},
        {"1,1,2,24", "12", "12", 24, 46, 16},
        {"1,1,2,24", "12345A", "12345A", 24, 90, 48},
        {"1,6,7,24", "1234", "1234", 24, 342, 32},
        {"1,2,3,26", "A123456B", "A123456B", 26, 224, 64},
        {"1,1,2,24", "12345678901234", "12345678901234", 24, 112, 112},
        {"1,1,2,24", "1234567890123456", "1234567890123456", 24, 123, 128},
        {"1,1,2,24", "12345678901234567", "12345678901234567", 24, 145, 136},
        {"E30,1,2,24", "123456789012", "1234567890128", 24, 95, 104},
        {"E30,2,3,24", "400638133393", "4006381333931", 24, 190, 104}};
    static const char *const words[] = {"B", "B,C", "B,R"};
    static const char *const told[] = {"B: line and bars at the left, four turns, cut at the edge",
                                       "B,C: the narrower in the middle, the smaller half left",
                                       "B,R: the narrower at the right, all dot by dot"};
    static uint8_t font[1024];
    size_t length = telling_font(font);
    struct bench bars, line, both;

    open_bench(&bars, 40, font, length);
    open_bench(&line, 40, font, length);
    open_bench(&both, 300, font, length);
    send(&both, "q333");
    send(&both, "Q277,0");
    for (unsigned w = 0; w < 3; w++) {
        int well = 1;
        for (unsigned i = 0; i < sizeof samples / sizeof samples[0]; i++)
            well &= lined_anywhere(&bars, &line, &both, &samples[i], words[w]);
        check(told[w], well);
    }
    clear_away(&bars.desk);
    clear_away(&line.desk);
    clear_away(&both.desk);
}

/* With the telling font a row of the line is its bytes. */
static int row_is(const struct bench *b, enum slice s, int y, const char *bytes, unsigned length)
{
    const uint8_t *row = b->desk.bytes[s] + y * ROW_BYTES;

    for (unsigned i = 0; i < ROW_BYTES; i++)
        if (row[i] != (i < length ? (uint8_t)bytes[i] : 0))
            return 0;
    return 1;
}

static void line_cases(void)
{
    static uint8_t font[1024];
    struct bench b;
    unsigned black;

    open_bench(&b, 40, font, telling_font(font));
    check("the line is the data: no * around Code 39",
          send(&b, "B0,0,0,3,1,2,24,B,\"LP-1\"") == 0 && row_is(&b, BACKGROUND, 24, "LP-1", 4)
              && row_is(&b, BACKGROUND, 25, "LP-1", 4) && row_is(&b, BACKGROUND, 26, "", 0));
    send(&b, "N");
    check("no check after Code 128",
          send(&b, "B0,0,0,1,1,2,24,B,\"Lens\"\" 7\"") == 0 && row_is(&b, BACKGROUND, 24, "Lens 7", 6));
    send(&b, "N");
    check("E30: twelve digits and the check digit",
          send(&b, "B0,0,0,E30,1,2,24,B,\"123456789012\"") == 0 && row_is(&b, BACKGROUND, 24, "1234567890128", 13));
    send(&b, "N");
    check("right of 46 dots of bars: 38 dots of them before the line",
          send(&b, "B2,0,0,1,1,2,24,B,R,\"A\"") == 0 && row_is(&b, BACKGROUND, 24, "\0\0\0\0\0A", 6));
    send(&b, "LO0,0,608,40");
    black = black_dots(&b, BACKGROUND);
    check("all else stays: on black nothing turns white",
          send(&b, "B8,3,1,1,1,2,24,B,C,\"Lens\"") == 0 && black_dots(&b, BACKGROUND) == black);
    clear_away(&b.desk);
}

/* In a form the font is the label call's: here cells of 24 by 1, and only the 7 has a glyph. */
static void line_in_form_case(void)
{
    static const uint8_t wide[] = {1, 2, 0, 24, 1, 2, 4, 0, '7', 0xa1, 0xb2, 0xc3, 255, 0, 0};
    const char *lines[] = {"FS\"F\"", "C0,1,+1,\"\"", "B000,0,00,2,01,2,024,B,R,\"7\"C0L01", "FE", "FR\"F\"", "?C0,7", "P2"};
    static const char listing[] = "C0,1,+1,\"\"\nB0,0,0,2,1,2,24,B,R,\"7\"C0L1\n";
    static uint8_t font[1024];
    unsigned refused = 0;
    struct bench b;

    open_bench(&b, 40, font, telling_font(font));
    for (unsigned i = 0; i < 7; i++)
        refused += send(&b, lines[i]) != 0;
    lend_font(&b, wide, sizeof wide);
    refused += label(&b) != 0;
    check("in a form the font is the label call's",
          refused == 0 && row_is(&b, PAGE, 24, "\xa1\xb2\xc3\xa1\xb2\xc3", 6) && row_is(&b, PAGE, 25, "", 0));
    check("there the bars are the narrower: 26 dots left of them", !dot(&b, PAGE, 25, 0) && dot(&b, PAGE, 26, 0) && dot(&b, PAGE, 47, 0));
    check("the next label: the next number, a missing glyph blank",
          label(&b) == 0 && row_is(&b, PAGE, 24, "\xa1\xb2\xc3", 3));
    check("the listing has the word as it was written",
          send(&b, "FP\"F\"") == 0 && count(&b, 1) == sizeof listing - 1
              && memcmp(b.desk.bytes[OUTPUT], listing, sizeof listing - 1) == 0);
    clear_away(&b.desk);
}

/* What may stand between height and data. In the form C0 and V1, of two digits each, are declared. */
static void word_cases(void)
{
    static const struct {
        const char *end;
        unsigned answer, outside;
    } words[] = {
        {"N,\"12\"", 0, 0}, {"B,\"12\"", 0, 0}, {"B,C,\"12\"", 0, 0}, {"B,R,\"12\"", 0, 0}, {"B,C0", 0, 13}, {"B,C,C0", 0, 13},
        {"B,R,C0", 0, 13}, {"B,V1", 0, 13}, {"B,R,V1", 0, 13}, {"N,C0", 0, 13}, {"B,\",,\"", 0, 0}, {"B,C,\"C,\"", 0, 0},
        {"BC,\"12\"", 6, 6}, {"B,L,\"12\"", 6, 6}, {"N,C,\"12\"", 6, 6}, {"B,", 6, 6}, {"N,R,\"12\"", 6, 6}, {"BR,\"12\"", 6, 6},
        {"B,C,", 6, 6}, {"B,R,", 6, 6}, {"B,C", 6, 6}, {"B,R", 6, 6}, {"B", 6, 6}, {"B,C\"12\"", 6, 6}, {"B,R\"12\"", 6, 6},
        {"B,CC0", 6, 6}, {"B,RC0", 6, 6}, {"B,C,R,\"12\"", 6, 6}, {"B,C,C,C0", 6, 6}, {"B,,\"12\"", 6, 6}, {"B,c,\"12\"", 6, 6},
        {"b,\"12\"", 6, 6}, {"BB,\"12\"", 6, 6}, {"B\"12\"", 6, 6}, {"B,C,\"\"", 15, 15}, {"B,\"\"", 15, 15}};
    unsigned wrong = 0;
    struct bench b;
    char line[64];

    open_bench(&b, 40, empty_font, sizeof empty_font);
    for (unsigned i = 0; i < sizeof words / sizeof words[0]; i++) {
        sprintf(line, "B0,0,0,1,1,2,24,%s", words[i].end);
        wrong += send(&b, line) != words[i].outside;
    }
    wrong += send(&b, "FS\"F\"") != 0 || send(&b, "C0,2,+1,\"\"") != 0 || send(&b, "V1,2,Z,\"\"") != 0;
    for (unsigned i = 0; i < sizeof words / sizeof words[0]; i++) {
        sprintf(line, "B0,0,0,1,1,2,24,%s", words[i].end);
        wrong += send(&b, line) != words[i].answer;
    }
    check("N, B, B,C and B,R; B,C0 is the data C0; other words are 6", wrong == 0);
    clear_away(&b.desk);
}

/* ---- a refusal should point ---- */

struct pointed {
    const char *line;
    unsigned answer, place;
};

/* True if each line gives its answer and place. */
static int point_so(struct bench *b, const struct pointed *lines, unsigned number)
{
    unsigned wrong = 0;

    for (unsigned i = 0; i < number; i++) {
        unsigned answer = send(b, lines[i].line);
        if (answer == lines[i].answer && count(b, 2) == lines[i].place)
            continue;
        printf("%s: %u at %u, not %u at %u\n", lines[i].line, answer, (unsigned)count(b, 2), lines[i].answer, lines[i].place);
        wrong++;
    }
    return wrong == 0;
}

#define POINT_SO(b, lines) point_so(b, lines, sizeof lines / sizeof lines[0])

/* The examples of the open points of paper 02, in their order. */
static void ruled_cases(struct bench *b)
{
    static const struct pointed lines[] = {
        {"LO1x2,3,4", 6, 3}, {"B0,0,0,3C,1,2,24,N,\"1\"", 6, 7}, {"B0,0,0,3C", 6, 7}, {"A0,0,0,1,1,NN,\"a\"", 6, 11}, {"A0,0,0,1,1,NN", 6, 11},
        {"B0,0,0,3,1,2,24,NN,\"1\"", 6, 16}, {"A0,0,0,1,1,N,V0Lx", 6, 13}, {"A0,0,0,1,1,N,V0M1,1", 6, 13}, {"A0,0,0,1,1,N,Vx", 6, 13},
        {"A0,0,0,1,1,N,\"a\"V0Lx", 6, 16}, {"A0,0,0,1,1,N,\"a\"V0M1,1", 6, 16}, {"A0,0,0,1,1,N,\"a\"Vx", 6, 16}, {"L", 6, 1}, {"B0,0,0,E3", 6, 9},
        {"A0,0,0,1,1,N,\"ab", 6, 16}, {"C0,1,+", 6, 6}, {"LO1,2,3,4,5", 6, 9}, {"LO1,2,3,4x", 6, 9}, {"N ", 6, 1}};

    check("each example of the rulings points as they say", POINT_SO(b, lines));
}

static void letter_cases(struct bench *b)
{
    static const struct pointed lines[] = {
        {"x", 6, 0}, {" N", 6, 0}, {"F", 6, 1}, {"G", 6, 1}, {"Z", 6, 1}, {"?", 6, 1}, {"LX", 6, 0}, {"LP0,0,1,5,5", 6, 0}, {"FX\"A\"", 6, 0},
        {"GX", 6, 0}, {"ZC", 6, 0}, {"?X0,1", 6, 0}, {"?", 6, 1}, {"?V", 6, 2}, {"V", 6, 1}, {"VC0", 6, 2}, {"VCC", 6, 2}, {"Vx", 6, 1}, {"V,", 6, 1},
        {"CV", 6, 1}, {"RESET", 6, 1}, {"PC", 6, 1}, {"q", 6, 1}, {"ZTT", 6, 2}, {"FIX", 6, 2}, {"FI\"A\"", 6, 2}, {"FE ", 6, 2}, {"NN", 6, 1}, {"N,", 6, 1}};

    check("the command's letters: 0, or LF if they are cut", POINT_SO(b, lines));
}

static void number_cases(struct bench *b)
{
    static const struct pointed lines[] = {
        {"LO", 6, 2}, {"LO,2,3,4", 6, 2}, {"LO1", 6, 3}, {"LO1,", 6, 4}, {"LO1,,3,4", 6, 4}, {"LO1 ,2,3,4", 6, 3}, {"LO 1,2,3,4", 6, 2},
        {"LO1,+2,3,4", 6, 4}, {"LO1,\r2,3,4", 6, 4}, {"LO123456789", 6, 11}, {"LO1234567890", 6, 2}, {"LO1234567890,2,3,4", 6, 2},
        {"LO1,0000000002,3,4", 6, 4}, {"LO1,1234567890x", 6, 4}, {"LO1,2,3,1234567890", 6, 8}, {"LO1,2,3,4,", 6, 9}, {"LO1,2,3,4 ", 6, 9},
        {"LO1,2,3", 6, 7}, {"q80,", 6, 3}, {"P1x", 6, 2}, {"P1234567890", 6, 1}, {"Q4,B3", 6, 3}, {"?C0,-1", 6, 4}, {"?C0,1,", 6, 5},
        {"C0,1,x,\"\"", 6, 5}, {"C0,1,+x,\"\"", 6, 5}, {"C0,1,+,\"\"", 6, 5}, {"C0,1,+-1,\"\"", 6, 5}, {"C0,1,-1234567890,\"\"", 6, 5},
        {"C0,1,-1234567890", 6, 5}, {"C0,1,1234567890", 6, 5}, {"C0,1,+1x", 6, 7}, {"C0,1,+1", 6, 7}, {"C0,1,+1,", 6, 8}, {"C0,1,+1+", 6, 7}};

    check("numbers, and the step with its sign", POINT_SO(b, lines));
}

static void text_cases(struct bench *b)
{
    static const struct pointed lines[] = {
        {"FS", 6, 2}, {"FSA", 6, 2}, {"FS\"", 6, 3}, {"FS\"AB", 6, 5}, {"FS\"A\x01\"", 6, 2}, {"FS\"A\x7f", 6, 2}, {"FS\"\xff\"x", 6, 2}, {"FS\"A\"x", 6, 5},
        {"FS\"A\"\"", 6, 5}, {"FS\"A\"\x01", 6, 5}, {"GM\"A\"3", 6, 5}, {"GM\"A\"", 6, 5}, {"GM\"A\",", 6, 6}, {"GM\"A\",x", 6, 6},
        {"GM\"A\",1234567890", 6, 6}, {"GG1,2,A", 6, 6}, {"GG1,2,\"A\x1f\"", 6, 6}, {"?V0,5", 6, 4}, {"?V0,\"5", 6, 6}, {"?V0,\"5\",", 6, 7},
        {"V0,5,L,\"a", 6, 9}, {"V0,5,L,\"a\"b", 6, 10}};

    check("a text points to its first quote", POINT_SO(b, lines));
}

static void cut_word_cases(struct bench *b)
{
    static const struct pointed lines[] = {
        {"B0,0,0", 6, 6}, {"B0,0,0,", 6, 7}, {"B0,0,0,E", 6, 8}, {"B0,0,0,E30", 6, 10}, {"B0,0,0,E30,", 6, 11}, {"B0,0,0,E300", 6, 7},
        {"B0,0,0,E31", 6, 7}, {"B0,0,0,E3,1", 6, 7}, {"B0,0,0,3", 6, 8}, {"B0,0,0,03", 6, 7}, {"B0,0,0,4", 6, 7}, {"B0,0,0,e30", 6, 7},
        {"B0,0,0,,1", 6, 7}, {"B0,0,0,3 ,1", 6, 7}, {"B0,0,0,3\x01", 6, 7}, {"A0,0,0,1,1,", 6, 11}, {"A0,0,0,1,1,N", 6, 12}, {"A0,0,0,1,1,B,\"a\"", 6, 11},
        {"A0,0,0,1,1,N\"a\"", 6, 11}, {"A0,0,0,1,1,N\"a,\"", 6, 11}, {"A0,0,0,1,1,,\"a\"", 6, 11}, {"V0,5,", 6, 5}, {"V0,5,L", 6, 6}, {"V0,5,LL,\"\"", 6, 5},
        {"V0,5,X,\"\"", 6, 5}, {"V0,5,L\"\"", 6, 5}};

    check("words run to the next comma or end too soon", POINT_SO(b, lines));
}

/* The eighteenth byte is where data, or the place before it, begins. */
static void place_word_cases(struct bench *b)
{
    static const struct pointed ends[] = {
        {"", 6, 16}, {"N", 6, 17}, {"B", 6, 17}, {"X", 6, 16}, {"BC", 6, 16}, {"BC,\"1\"", 6, 16}, {"N,", 6, 18}, {"B,", 6, 18}, {"B,C", 6, 19},
        {"B,R", 6, 19}, {"B,C,", 6, 20}, {"B,R,", 6, 20}, {"N,C", 6, 19}, {"N,R", 6, 18}, {"N,R,\"1\"", 6, 18}, {"N,C,\"1\"", 6, 18}, {"B,Rx", 6, 18},
        {"B,Cx", 6, 18}, {"B,R\"1\"", 6, 18}, {"B,C\"1\"", 6, 18}, {"B,RR,\"1\"", 6, 18}, {"B,CC0", 6, 18}, {"B,R0", 6, 18}, {"B,L,\"1\"", 6, 18},
        {"B,c,\"1\"", 6, 18}, {"B,,\"1\"", 6, 18}, {"B,C0,", 6, 20}, {"B,C0,\"1\"", 6, 20}, {"B,C,R,\"1\"", 6, 20}, {"B,C,C,\"1\"", 6, 20},
        {"B,C,C", 6, 21}, {"B,R,R", 6, 20}, {"B,R,,\"1\"", 6, 20}, {"\"1\"", 6, 16}};
    unsigned wrong = 0;

    for (unsigned i = 0; i < sizeof ends / sizeof ends[0]; i++) {
        char line[64];
        struct pointed p = {line, ends[i].answer, ends[i].place};
        sprintf(line, "B0,0,0,3,1,2,24,%s", ends[i].line);
        wrong += !point_so(b, &p, 1);
    }
    check("N or B, and C or R behind B,", wrong == 0);
}

static void element_cases(struct bench *b)
{
    static const struct pointed lines[] = {
        {"A0,0,0,1,1,N,", 6, 13}, {"A0,0,0,1,1,N,x", 6, 13}, {"A0,0,0,1,1,N,,", 6, 13}, {"A0,0,0,1,1,N,\"a\",", 6, 16}, {"A0,0,0,1,1,N,\"a\" ", 6, 16},
        {"A0,0,0,1,1,N,V", 6, 14}, {"A0,0,0,1,1,N,V0L", 6, 16}, {"A0,0,0,1,1,N,V0M", 6, 16}, {"A0,0,0,1,1,N,V0M1", 6, 17}, {"A0,0,0,1,1,N,V0M1.", 6, 18},
        {"A0,0,0,1,1,N,V0M.1", 6, 13}, {"A0,0,0,1,1,N,V0M1.x", 6, 13}, {"A0,0,0,1,1,N,V0L1234567890", 6, 13}, {"A0,0,0,1,1,N,V0M1234567890", 6, 13},
        {"A0,0,0,1,1,N,V0M1.1234567890", 6, 13}, {"A0,0,0,1,1,N,V0L,", 6, 13}, {"A0,0,0,1,1,N,V01", 6, 15}, {"A0,0,0,1,1,N,V0x", 6, 15},
        {"A0,0,0,1,1,N,V0l1", 6, 15}, {"A0,0,0,1,1,N,V0L1R1", 6, 17}, {"A0,0,0,1,1,N,V0L1.2", 6, 17}, {"A0,0,0,1,1,N,V0M1.2.3", 6, 19},
        {"A0,0,0,1,1,N,\"a\"\"b", 6, 18}, {"A0,0,0,1,1,N,\"a\"\"\x01", 6, 16}, {"A0,0,0,1,1,N,C0\"\x80\"x", 6, 15}, {"A0,0,0,1,1,N,V0C0Cx", 6, 17}};

    check("an element is one piece with its modifier", POINT_SO(b, lines));
}

static void limit_places(struct bench *b)
{
    static const struct pointed lines[] = {
        {"LO2048,1,1,1", 7, 2}, {"LO1,2048,0,1", 7, 4}, {"LO1,1,0,0", 7, 6}, {"LO2048,1,1,1x", 6, 12}, {"LO2048,", 6, 7}, {"Q41,241", 7, 1}, {"Q1,241", 7, 3},
        {"B0,0,0,3,7,6,24,N,\"1\"", 7, 9}, {"B0,0,0,3,6,6,23,N,\"1\"", 7, 11}, {"B0,0,0,3,0,0,24,N,\"1\"", 7, 9}, {"B0,0,0,3,1,1,24,N,\"1\"", 7, 11},
        {"B0,0,0,3,1,11,24,N,\"1\"", 7, 11}, {"B0,0,4,3,2,1,24,N,\"1\"", 7, 5}, {"B0,0,0,3,1,2,23,N,V0L33", 7, 13}, {"FS\"\"", 7, 2}, {"FK\"A*\"", 7, 2},
        {"GG2048,0,\"123456789\"", 7, 2}, {"GG0,0,\"123456789\"", 7, 6}, {"V10,33,L,\"\"", 7, 1}, {"V0,33,L,\"1234567890123456789012345\"", 7, 3},
        {"V0,3,L,\"1234567890123456789012345\"", 7, 7}, {"C0,1,+100000,\"\"", 7, 5}, {"C0,1,100000,\"1234567890123456789012345\"", 7, 5},
        {"A0,0,0,1,1,N,\"a\"V0L33V0L0", 7, 16}, {"A0,0,0,1,1,N,C0V0M1.33", 7, 15}, {"A0,0,0,1,1,N,V0M0.99C0L0", 7, 13}, {"A0,0,0,7,1,N,V0L0", 7, 7},
        {"?V10,\"\"", 7, 2}, {"?C10,1", 7, 2}, {"GM\"*\",0", 7, 2}, {"GM\"A\",0", 7, 6}, {"GM\"A\",32769", 7, 6}, {"GM\"*\",5", 4, 0}};

    check("7 points to the leftmost outside its limits", POINT_SO(b, lines));
    check("GM with a bad name: its quote, and the bytes are read",
          send_bytes(b, "GM\"A*\",3\nabc", 12) == 7 && count(b, 2) == 2 && count(b, 0) == 12);
}

static void form_cases(struct bench *b)
{
    static const struct pointed lines[] = {
        {"A0,0,0,1,1,N,\"V0\"V0", 13, 17}, {"A0,0,0,1,1,N,\"a\"C5L32V0", 13, 16}, {"?V3,\"\"", 13, 2}, {"?C03,1", 13, 2}, {"B0,0,0,3,1,2,24,N,\"a\"", 15, 18},
        {"B0,0,0,2,1,2,24,B,R,\"1\"\"2\"\"3\"", 15, 20}, {"B10,0,0,E30,1,2,24,B,\"1\"", 15, 21}, {"FS\"F\"", 0, 0}, {"C0,2,+1,\"\"", 0, 0},
        {"V1,3,L,\"\"", 0, 0}, {"C0,1,+1,\"\"", 12, 1}, {"C000,1,+1,\"\"", 12, 1}, {"V1,1,L,\"\"", 12, 1}, {"A0,0,0,1,1,N,C0V1C1V0", 13, 17},
        {"A0,0,0,1,1,N,C0L3C1", 13, 17}, {"A0,0,0,1,1,N,\"a\"C0V1L4C0L3", 14, 18}, {"A0,0,0,1,1,N,V1M3.2", 14, 13}, {"B0,0,0,3,1,2,24,B,C,C0V1R4", 14, 22},
        {"B0,0,0,3,1,2,24,B,C,C0V1", 15, 20}, {"B0,0,0,3,1,2,24,B,C0V1", 15, 18}, {"A0,0,0,1,1,N,C0L3C0L33", 7, 17}, {"?V1,\"\"", 9, 0}, {"ZT", 9, 0},
        {"GG0,0,\"A\"", 11, 0}, {"A0,0,0,1,1,N,C0V1", 0, 0}, {";", 0, 0}, {"FE", 0, 0}, {"FS\"f\"", 10, 0}, {"FR\"G\"", 11, 0}, {"FR\"F\"", 0, 0},
        {"?V1,\"1234\"", 17, 0}, {"?V0,\"1234\"", 13, 2}, {"P1", 18, 0}, {"FE", 9, 0}};

    check("12 to 15 point, and no other answer", POINT_SO(b, lines));
}

static void owed_cases(struct bench *b)
{
    static const struct pointed lines[] = {{"?V1,\"123\"", 0, 0}, {"?C0,1", 0, 0}, {"P1", 0, 0}, {"LO1", 6, 3}, {"LO9999,0,0,1", 7, 2}, {"?V0,\"\"", 8, 0}, {"N", 8, 0}};

    check("while labels are owed 6 and 7 point, 8 does not", POINT_SO(b, lines));
}

/* "counts holds read, written, place: length 3, another length is [1]", and it is left as it is. */
static void counts_case(struct bench *b)
{
    unsigned wrong = 0;

    for (unsigned length = 0; length <= 4; length++) {
        uint64_t counts[4] = {7, 7, 7, 7};
        size_t three = b->length[COUNTS];
        uint8_t *there = b->desk.bytes[COUNTS];

        b->desk.bytes[COUNTS] = (uint8_t *)counts;
        b->length[COUNTS] = length;
        wrong += send(b, "LO1x") != (length == 3 ? 6 : 1) || counts[3] != 7;
        wrong += length == 3 ? counts[0] != 5 || counts[1] != 0 || counts[2] != 3 : counts[0] != 7 || counts[1] != 7 || counts[2] != 7;
        b->desk.bytes[COUNTS] = there;
        b->length[COUNTS] = three;
    }
    check("counts are three numbers, of another length 1", wrong == 0);
}

/* Lines of 255 bytes: "of any length" means that 255 is not the line's end. */
static void longest_cases(struct bench *b)
{
    char line[256] = "A0,0,0,1,1,N,\"";

    memset(line + 14, 'a', 241);
    check("255 bytes that end too soon point to the LF at 255", send(b, line) == 6 && count(b, 2) == 255);
    line[254] = 1;
    check("255 bytes with the last one bad point to the quote", send(b, line) == 6 && count(b, 2) == 13);
}

static void tell_again(const char *what, struct told t)
{
    char text[80];

    snprintf(text, sizeof text, "%s: %u lines, %u too soon", what, t.lines, t.soon);
    check(text, t.wrong == 0);
}

static void pointing_cases(void)
{
    struct bench b;

    open_bench(&b, 40, empty_font, sizeof empty_font);
    ruled_cases(&b);
    letter_cases(&b);
    number_cases(&b);
    text_cases(&b);
    cut_word_cases(&b);
    place_word_cases(&b);
    element_cases(&b);
    limit_places(&b);
    counts_case(&b);
    longest_cases(&b);
    form_cases(&b);
    owed_cases(&b);
    clear_away(&b.desk);
    tell_again("told again near samples", near_samples());
    tell_again("told again with short tails", short_tails());
}

/* ---- labels must not start over at zero ---- */

static unsigned send_number(struct bench *b, const char *format, long long number)
{
    char line[300];

    snprintf(line, sizeof line, format, number);
    return send(b, line);
}

/* A new form with these lines is the active one; true if all is taken. */
static int form_of(struct bench *b, const char *const *lines, unsigned number)
{
    unsigned refused = send(b, "FK\"*\"") + send(b, "FS\"F\"");

    for (unsigned i = 0; i < number; i++)
        refused += send(b, lines[i]);
    return refused + send(b, "FE") + send(b, "FR\"F\"") == 0;
}

/* One counter of w digits, its step and value: what P of so many labels answers. */
static unsigned print_so(struct bench *b, unsigned w, int step, int64_t value, unsigned labels)
{
    char line[64];
    const char *lines[] = {line};

    snprintf(line, sizeof line, "C0,%u,%+d,\"\"", w, step);
    if (!form_of(b, lines, 1) || send_number(b, "?C0,%lld", value) != 0)
        return 255;
    return send_number(b, "P%lld", labels);
}

static unsigned draw_all(struct bench *b)
{
    unsigned drawn = 0;

    while (label(b) == 0)
        drawn++;
    return drawn;
}

static unsigned owed(const struct bench *b)
{
    return low_first(b->desk.bytes[SESSION] + 11);
}

/* "outside 0 to 10^w-1", at each end and on both sides of it. end: where the counter stands when all labels are drawn. */
static void end_cases(struct bench *b)
{
    static const struct {
        unsigned w;
        int step;
        int64_t value;
        unsigned labels, answer;
        int64_t end;
    } jobs[] = {
        {2, 1, 99, 2, 22, 0}, {2, 1, 99, 1, 0, UNSET}, {2, 1, 98, 2, 0, UNSET}, {2, 1, 98, 1, 0, 99}, {2, 1, 98, 3, 22, 0}, {3, 1, 999, 2, 22, 0},
        {3, 1, 998, 2, 0, UNSET}, {2, -1, 0, 2, 22, 0}, {2, -1, 0, 1, 0, UNSET}, {2, -1, 1, 2, 0, UNSET}, {2, -1, 1, 1, 0, 0}, {2, -1, 1, 3, 22, 0},
        {1, 3, 0, 4, 0, UNSET}, {1, 3, 0, 3, 0, 9}, {1, 3, 0, 5, 22, 0}, {1, 3, 1, 3, 0, UNSET}, {1, 3, 1, 4, 22, 0}, {1, -4, 9, 3, 0, UNSET},
        {1, -4, 8, 2, 0, 0}, {1, -4, 8, 3, 0, UNSET}, {1, -4, 8, 4, 22, 0}, {1, -4, 7, 2, 0, UNSET}, {1, -4, 7, 3, 22, 0}, {1, 99999, 0, 1, 0, UNSET},
        {1, -99999, 9, 1, 0, UNSET}, {1, 99999, 0, 2, 22, 0}, {5, 99999, 0, 2, 0, UNSET}, {5, 99999, 1, 2, 22, 0}, {5, -99999, 99999, 2, 0, UNSET},
        {5, -99999, 99998, 2, 22, 0}, {6, 99999, 0, 12, 22, 0}, {6, 99999, 0, 10, 0, 999990}, {6, 99999, 9, 11, 0, UNSET}, {6, 99999, 10, 11, 22, 0}, {1, 0, 9, 5, 0, 9},
        {1, 0, 0, 5, 0, 0}, {9, 0, 999999999, 3, 0, 999999999}, {9, 1, 999999999, 1, 0, UNSET}, {9, 1, 999999998, 1, 0, 999999999},
        {9, 1, 999999999, 2, 22, 0}, {9, 99999, 999900000, 2, 0, UNSET}, {9, 99999, 999900001, 2, 22, 0}, {9, -99999, 99998, 2, 22, 0}};
    unsigned wrong = 0;

    for (unsigned i = 0; i < sizeof jobs / sizeof jobs[0]; i++) {
        unsigned answer = print_so(b, jobs[i].w, jobs[i].step, jobs[i].value, jobs[i].labels);
        wrong += answer != jobs[i].answer || count(b, 2) != 0;
        if (answer == 0)
            wrong += draw_all(b) != jobs[i].labels || low_first(b->desk.bytes[SESSION] + 13) != jobs[i].labels || !counter_is(b, 0, jobs[i].end);
        else
            wrong += owed(b) != 0 || !counter_is(b, 0, jobs[i].value) || label(b) != 21;
    }
    check("22 when the last label's value is out of range, else drawn", wrong == 0);
}

/* Jobs of up to 65,535 labels, judged and not drawn. The products need more than 32 bits. */
static void great_cases(struct bench *b)
{
    static const struct {
        unsigned w;
        int step;
        int64_t value;
        unsigned labels, answer;
    } jobs[] = {
        {9, 1, 999934465, 65535, 0}, {9, 1, 999934466, 65535, 22}, {9, -1, 65534, 65535, 0}, {9, -1, 65533, 65535, 22}, {9, 99999, 0, 65535, 22},
        {9, -99999, 999999999, 65535, 22}, {9, 99999, 9999, 10001, 0}, {9, 99999, 10000, 10001, 22}, {9, 99999, 0, 10002, 22}, {9, 99999, 0, 42952, 22},
        {9, 99999, 109998, 10000, 0}, {9, 99999, 109999, 10000, 22}, {9, 65539, 0, 65535, 22}, {9, -65539, 999999999, 65535, 22}, {9, 15259, 0, 65535, 0},
        {9, 15259, 16693, 65535, 0}, {9, 15259, 16694, 65535, 22}, {9, 15260, 0, 65535, 22}, {9, 0, 999999999, 65535, 0}, {1, 0, 0, 65535, 0}};
    unsigned wrong = 0;

    for (unsigned i = 0; i < sizeof jobs / sizeof jobs[0]; i++) {
        wrong += print_so(b, jobs[i].w, jobs[i].step, jobs[i].value, jobs[i].labels) != jobs[i].answer;
        wrong += owed(b) != (jobs[i].answer == 0 ? jobs[i].labels : 0);
        wrong += jobs[i].answer == 0 && (label(b) != 0 || !counter_is(b, 0, jobs[i].value + jobs[i].step));
        call_station(&peer_station, &b->desk, OPEN, b->length);
    }
    check("jobs of up to 65,535 labels and steps of 99,999", wrong == 0);
}

/* "for some counter of the active form", and of the move "the others move". C1 goes down, C2 stays, V0 has nothing to do with it. */
static void several_counters(struct bench *b)
{
    static const char *const lines[] = {"C3,2,+10,\"\"", "C1,1,-2,\"\"", "C2,1,+0,\"\"", "V0,1,N,\"\"", "C9,4,+1,\"\""};
    unsigned wrong = !form_of(b, lines, 5);

    wrong += send(b, "?V0,\"\"") + send(b, "?C3,10") + send(b, "?C1,9") + send(b, "?C2,9");
    check("18 comes before 22: C9 unset, C1 and C3 run out", send(b, "P65535") == 18 && send(b, "P6") == 18 && send(b, "P1") == 18);
    wrong += send(b, "?C9,7");
    check("the counter that runs out first decides",
          send(b, "P6") == 22 && send(b, "?C1,8") == 0 && send(b, "P6") == 22 && send(b, "?C9,9996") == 0 && send(b, "P5") == 22
              && send(b, "?C9,9995") == 0 && send(b, "P5") == 0 && wrong == 0);
    wrong = label(b) + label(b) + label(b) + label(b);
    check("no counter is unset before the last label", wrong == 0 && counter_is(b, 1, 0) && counter_is(b, 2, 9) && counter_is(b, 3, 50) && counter_is(b, 9, 9999));
    check("those that leave their range are unset, the others move",
          label(b) == 0 && counter_is(b, 1, UNSET) && counter_is(b, 2, 9) && counter_is(b, 3, 60) && counter_is(b, 9, UNSET));
    check("then P is 18 until each unset one is entered again",
          label(b) == 21 && send(b, "P1") == 18 && send(b, "?C1,1") == 0 && send(b, "P1") == 18 && send(b, "?C9,0") == 0 && send(b, "P2") == 22
              && send(b, "P1") == 0 && label(b) == 0 && counter_is(b, 1, UNSET) && counter_is(b, 9, 1) && counter_is(b, 3, 70));
    check("VC leaves the counters, one at its last number too",
          send(b, "?C9,9999") == 0 && send(b, "VC") == 0 && counter_is(b, 9, 9999) && counter_is(b, 3, 70) && counter_is(b, 1, UNSET));
}

/* What the answers before 22 are for P, and that another form's counters, or none, are not asked. */
static void order_cases(struct bench *b)
{
    static const char *const lines[] = {"GG0,0,\"P\"", "C0,1,+5,\"\"", "A0,0,0,1,1,N,C0"};
    uint8_t picture[300] = "GM\"P\",130\n", *head = picture + 10;
    unsigned wrong;

    memcpy(head, (const uint8_t[]){10, 5, 1, 1, 0, 0, 0, 0, 7, 0, 0, 0}, 12);
    head[65] = 1;
    head[66] = 2;
    wrong = send_bytes(b, picture, 140) || !form_of(b, lines, 3) || send(b, "?C0,9") || send(b, "GK\"P\"");
    check("11 comes before 22", wrong == 0 && send(b, "P2") == 11 && send(b, "P1") == 11);
    wrong = send_bytes(b, picture, 140);
    check("6 and 7 come before 22, and no answer but these points",
          wrong == 0 && send(b, "P2x") == 6 && send(b, "P0") == 7 && send(b, "P65536") == 7 && send(b, "P2") == 22 && count(b, 2) == 0 && count(b, 0) == 3);
    check("8 comes before 22", send(b, "P1") == 0 && send(b, "P2") == 8 && label(b) == 0 && counter_is(b, 0, UNSET));
    check("9 comes before 22", send(b, "?C0,9") == 0 && send(b, "FS\"G\"") == 0 && send(b, "P2") == 9 && send(b, "FE") == 0 && send(b, "P2") == 22);
    check("another form, or none: its counters are not asked",
          send(b, "FR\"G\"") == 0 && send(b, "P65535") == 0 && call_station(&peer_station, &b->desk, OPEN, b->length) == 0 && send(b, "P65535") == 0);
    call_station(&peer_station, &b->desk, OPEN, b->length);
}

/* The labels of a job show the value before its move, the last one too: C0 of two digits in the telling font. */
static void shown_case(void)
{
    static const char *const lines[] = {"C0,2,+4,\"\"", "A0,0,0,1,1,N,C0"};
    static uint8_t font[1024];
    struct bench b;
    int well;

    open_bench(&b, 40, font, telling_font(font));
    well = form_of(&b, lines, 2) && send(&b, "?C0,91") == 0 && send(&b, "P3") == 0;
    well = well && label(&b) == 0 && row_is(&b, PAGE, 0, "91", 2) && label(&b) == 0 && row_is(&b, PAGE, 0, "95", 2);
    check("the last label shows the last value", well && label(&b) == 0 && row_is(&b, PAGE, 0, "99", 2) && counter_is(&b, 0, UNSET));
    clear_away(&b.desk);
}

/* ---- sound with labels owed ---- */

static void put_image(struct bench *b, unsigned at, uint32_t number, unsigned bytes)
{
    for (unsigned i = 0; i < bytes; i++)
        b->desk.bytes[SESSION][at + i] = (uint8_t)(number >> (8 * i));
}

/* The active form's two counters, C4 the one looked at, and so many labels owed and drawn. True if every call that asks for sound finds
 * it so, or none does. A comment asks too; the label goes last. */
static int judged(struct bench *b, uint32_t value, unsigned owes, unsigned drawn, int holds)
{
    put_image(b, 15 + 5 * 1, 1, 1);
    put_image(b, 15 + 5 * 1 + 1, 5, 4);
    put_image(b, 15 + 5 * 4, 1, 1);
    put_image(b, 15 + 5 * 4 + 1, value, 4);
    put_image(b, 11, owes, 2);
    put_image(b, 13, drawn, 2);
    return send(b, ";") == (holds ? 0u : 3u) && send(b, "ZT") == (!holds ? 3u : owes ? 8u : 0u)
        && label(b) == (!holds ? 3u : owes ? 0u : 21u);
}

static int judged_so(struct bench *b, const char *counter, uint32_t value, unsigned owes, int holds)
{
    const char *lines[] = {"C1,1,-0,\"\"", counter};
    unsigned drawn = owes < 65535 ? 65535 - owes : 0;
    int well;

    well = form_of(b, lines, 2) && judged(b, value, owes, 0, holds);
    call_station(&peer_station, &b->desk, OPEN, b->length);
    well &= form_of(b, lines, 2) && judged(b, value, owes, drawn, holds);
    call_station(&peer_station, &b->desk, OPEN, b->length);
    return well;
}

static void owing_cases(struct bench *b)
{
    int up = 1, down = 1;

    for (unsigned n = 1; n < 12; n++) {
        up &= judged_so(b, "C4,2,+7,\"\"", 99 - 7 * (n - 1), n, 1) && judged_so(b, "C4,2,+7,\"\"", 100 - 7 * (n - 1), n, 0);
        down &= judged_so(b, "C4,2,-7,\"\"", 7 * (n - 1), n, 1) && (n == 1 || judged_so(b, "C4,2,-7,\"\"", 7 * (n - 1) - 1, n, 0));
    }
    check("with n owed: value + (n-1) steps up to 10^w-1, beyond it 3", up);
    check("with n owed: value - (n-1) steps down to 0, below it 3", down);
    check("with one owed only the value itself", judged_so(b, "C4,1,+99999,\"\"", 9, 1, 1) && judged_so(b, "C4,1,-99999,\"\"", 0, 1, 1)
                                                    && judged_so(b, "C4,1,+99999,\"\"", 9, 2, 0) && judged_so(b, "C4,1,-99999,\"\"", 0, 2, 0));
    check("with none owed nothing new", judged_so(b, "C4,1,+99999,\"\"", 9, 0, 1) && judged_so(b, "C4,1,-99999,\"\"", 0, 0, 1));
    check("with step 0 never", judged_so(b, "C4,1,+0,\"\"", 9, 65535, 1) && judged_so(b, "C4,9,+0,\"\"", 999999999, 65535, 1));
    check("with 65,535 owed", judged_so(b, "C4,9,+1,\"\"", 999934465, 65535, 1) && judged_so(b, "C4,9,+1,\"\"", 999934466, 65535, 0)
                                  && judged_so(b, "C4,9,+65539,\"\"", 0, 65535, 0) && judged_so(b, "C4,9,-65539,\"\"", 999999999, 65535, 0)
                                  && judged_so(b, "C4,9,+15259,\"\"", 16693, 65535, 1) && judged_so(b, "C4,9,+15259,\"\"", 16694, 65535, 0));
}

/* ---- the rule told again ---- */

/* Label by label, in digits and with carries, as a hand counter would do it: no product and no power of ten. */
struct hand_counter {
    int digit[9];  /* lowest first */
    unsigned w;
    bool over;     /* it has left its digits */
};

static void add_by_hand(struct hand_counter *h, int step)
{
    int carry = 0;

    for (unsigned i = 0; i < h->w; i++, step /= 10) {
        int sum = h->digit[i] + step % 10 + carry;
        carry = sum < 0 ? -1 : sum > 9 ? 1 : 0;
        h->digit[i] = sum - 10 * carry;
    }
    h->over = step != 0 || carry != 0;
}

static struct hand_counter by_hand(unsigned w, int64_t value)
{
    struct hand_counter h = {.w = w};

    for (unsigned i = 0; i < w; i++, value /= 10)
        h.digit[i] = (int)(value % 10);
    return h;
}

static int64_t on_hand(const struct hand_counter *h)
{
    int64_t value = 0;

    for (unsigned i = h->w; i-- > 0;)
        value = 10 * value + h->digit[i];
    return h->over ? UNSET : value;
}

/* A job walked label by label: 22 if a label would be due when the counter is over. end: where it then stands. */
static unsigned walk_job(unsigned w, int step, int64_t value, unsigned labels, int64_t *end)
{
    struct hand_counter h = by_hand(w, value);

    for (; labels > 0 && !h.over; labels--)
        add_by_hand(&h, step);
    *end = on_hand(&h);
    return labels > 0 ? 22 : 0;
}

static uint64_t chance_number(void)
{
    static uint64_t state = 2026;

    return (state = state * 6364136223846793005u + 1442695040888963407u) >> 33;
}

/* A job by chance, about half of them near the end of the counter; told is what walking says and P answers. */
struct told_twice {
    unsigned jobs, refused, unset, wrong;
};

static void tell_job(struct bench *b, struct told_twice *t)
{
    static const unsigned most_steps[] = {2, 10, 100, 1000, 100000}, most_labels[] = {4, 12, 12, 40, 65535};
    unsigned w = 1 + chance_number() % 9, labels = 1 + chance_number() % most_labels[chance_number() % 5], answer;
    int step = (int)(chance_number() % most_steps[chance_number() % 5]), sign = chance_number() % 2 ? 1 : -1;
    int64_t power = 1, value, end;

    for (unsigned i = 0; i < w; i++)
        power *= 10;
    value = (int64_t)step * (labels - 1) + (int64_t)(chance_number() % 5) - 2;
    value = value < 0 || value >= power || chance_number() % 4 == 0 ? (int64_t)(chance_number() % (uint64_t)power) : value;
    value = sign > 0 ? power - 1 - value : value;
    answer = print_so(b, w, sign * step, value, labels);
    t->jobs++;
    t->wrong += answer != walk_job(w, sign * step, value, labels, &end);
    t->refused += answer == 22;
    if (answer == 0 && labels <= 40) {
        t->wrong += draw_all(b) != labels || !counter_is(b, 0, end);
        t->unset += end == UNSET;
    }
    if (owed(b) > 0)
        call_station(&peer_station, &b->desk, OPEN, b->length);
}

static void jobs_told_again(struct bench *b)
{
    struct told_twice t = {0};
    char text[80];

    while (t.jobs < 20000)
        tell_job(b, &t);
    snprintf(text, sizeof text, "told again, by hand: %u jobs, %u are 22, %u unset", t.jobs, t.refused, t.unset);
    check(text, t.wrong == 0);
}

/* P and sound told to each other: a job that P refuses is 3 when its labels are put into the image, one that P takes is not. */
static void owed_told_again(struct bench *b)
{
    unsigned wrong = 0, unsound = 0;

    for (unsigned i = 0; i < 4000; i++) {
        unsigned w = 1 + chance_number() % 9, labels = 1 + chance_number() % (i % 2 ? 12 : 65535), answer;
        int64_t power = 1, value, end;
        int step = (int)(chance_number() % 100000);

        for (unsigned k = 0; k < w; k++)
            power *= 10;
        step = (step >> chance_number() % 17) * (chance_number() % 2 ? 1 : -1);
        value = (int64_t)(chance_number() % (uint64_t)power);
        answer = walk_job(w, step, value, labels, &end);
        wrong += print_so(b, w, step, value, 1) != 0;
        put_image(b, 11, labels, 2);
        wrong += send(b, "") != (answer == 22 ? 3u : 0u) || send(b, "ZT") != (answer == 22 ? 3u : 8u);
        unsound += answer == 22;
        call_station(&peer_station, &b->desk, OPEN, b->length);
    }
    check("sound asks of labels owed what P asks of labels to be owed", wrong == 0 && unsound > 1000 && unsound < 3000);
}

static void running_cases(void)
{
    struct bench b;

    open_bench(&b, 40, empty_font, sizeof empty_font);
    end_cases(&b);
    great_cases(&b);
    several_counters(&b);
    order_cases(&b);
    shown_case();
    owing_cases(&b);
    jobs_told_again(&b);
    owed_told_again(&b);
    clear_away(&b.desk);
}

/* ---- which kind of full ---- */

static uint64_t digest_of(const struct bench *b)
{
    uint64_t digest = 14695981039346656037u;

    for (int s = 0; s < SLICES; s++)
        for (size_t i = 0; s != COUNTS && s != FONT && s != INPUT && i < b->desk.room[s]; i++)
            digest = (digest ^ b->desk.bytes[s][i]) * 1099511628211u;
    return digest;
}

/* Answers these bytes; 255 if it was a refusal that changed something, pointed or did not read all but the last three bytes, which are
 * the next command. */
static unsigned answer_to(struct bench *b, const void *bytes, size_t length)
{
    uint64_t before = digest_of(b);
    unsigned answer = send_bytes(b, bytes, length);

    if (count(b, 0) != length - 3 || count(b, 1) != 0 || count(b, 2) != 0)
        return 255;
    return answer == 0 || digest_of(b) == before ? answer : 255;
}

static unsigned ask(struct bench *b, const char *line)
{
    char text[600];
    int length = snprintf(text, sizeof text, "%s\nFI\n", line);

    return answer_to(b, text, (size_t)length);
}

static unsigned load(struct bench *b, const char *name, unsigned size)
{
    static uint8_t bytes[MOST_PICTURE + 64];
    size_t length = write_picture(bytes, name, strlen(name), size);

    memcpy(bytes + length, "FI\n", 3);
    return answer_to(b, bytes, length + 3);
}

/* A line of text of so many bytes with its LF, 16 to 256. */
static unsigned record_line(struct bench *b, unsigned length)
{
    char line[300] = "A0,0,0,1,1,N,\"";
    unsigned text = length - 16 > MOST_DATA ? MOST_DATA - length % 2 : length - 16;

    memset(line + 14, 'a', text);
    memset(line + 14 + text, '"', length - 15 - text);
    line[length - 1] = 0;
    return ask(b, line);
}

static unsigned form(struct bench *b, const char *name)
{
    char line[40];
    unsigned answer;

    snprintf(line, sizeof line, "FS\"%s\"", name);
    answer = ask(b, line);
    return answer == 0 ? ask(b, "FE") : answer;
}

/* A new session with so much lent, and so many forms of one portion in it. */
static void begin(struct bench *b, unsigned portions, unsigned entries, unsigned forms)
{
    size_t output = b->length[OUTPUT], font = b->length[FONT];

    usual_lengths(b->length, 40, portions, entries, output);
    b->length[FONT] = font;
    if (call_station(&peer_station, &b->desk, OPEN, b->length) != 0)
        abort();
    for (char name[] = "1"; forms-- > 0; name[0]++)
        if (form(b, name) != 0)
            check("there is room for a form, which is taken", 0);
}

static uint8_t kind_at(const struct bench *b, unsigned i)
{
    return b->desk.bytes[DIRECTORY][ENTRY * i];
}

static void full_of_forms(struct bench *b)
{
    unsigned wrong = 0;

    for (unsigned n = 1; n <= 7; n++) {
        begin(b, n, 8, n);
        wrong += ask(b, "FS\"F\"") != 19;
    }
    check("FS: all portions taken and an entry empty is 19", wrong == 0);
    wrong = 0;
    for (unsigned n = 1; n <= 8; n++)
        for (unsigned left = 1; left <= 3; left++) {
            begin(b, n + left, n, n);
            wrong += ask(b, "FS\"F\"") != 23;
        }
    check("FS: all entries taken and portions free is 23", wrong == 0);
    wrong = 0;
    for (unsigned n = 1; n <= 8; n++) {
        begin(b, n, n, n);
        wrong += ask(b, "FS\"F\"") != 19;
    }
    check("FS: neither left is 19", wrong == 0);
    begin(b, 3, 4, 0);
    check("FS: one portion left is enough, none is not",
          load(b, "P", 512) == 0 && form(b, "F") == 0 && ask(b, "FS\"G\"") == 19 && kind_at(b, 1) == FORM && kind_at(b, 2) == EMPTY);
}

/* With so many portions free and an entry empty or not, pictures that need all of them and one more; what the one that fits is answered. */
static int loads_at_edge(struct bench *b, unsigned left, unsigned empty, unsigned fitting)
{
    unsigned wrong = 0;

    begin(b, left + 2, 2 + empty, 2);
    wrong += load(b, "P", PORTION * left + 1) != 19 || load(b, "P", PORTION * left + PORTION) != 19 || load(b, "P", PORTION * left + 700) != 19;
    wrong += load(b, "P", PORTION * left) != fitting;
    begin(b, left + 2, 2 + empty, 2);
    wrong += load(b, "P", left == 1 ? 130 : PORTION * (left - 1) + 1) != fitting;
    return wrong == 0;
}

static void full_of_pictures(struct bench *b)
{
    int fits = 1, full = 1;

    begin(b, 2, 3, 0);
    check("GM: all portions taken and an entry empty is 19", load(b, "P", 512) == 0 && load(b, "Q", 130) == 19 && load(b, "Q", 257) == 19);
    begin(b, 64, 2, 1);
    check("GM: all entries taken and portions free is 23",
          load(b, "P", 130) == 0 && load(b, "Q", 130) == 23 && load(b, "Q", 256) == 23 && load(b, "Q", 257) == 23 && load(b, "Q", 15872) == 23);
    check("GM: there too few of them are 19, though some are free", load(b, "Q", 15873) == 19 && load(b, "Q", 32768) == 19 && ask(b, "FS\"F\"") == 23);
    begin(b, 2, 2, 2);
    check("GM: neither left is 19", load(b, "Q", 130) == 19 && load(b, "Q", 256) == 19 && load(b, "Q", 257) == 19);
    for (unsigned left = 1; left <= 6; left++) {
        fits &= loads_at_edge(b, left, 1, 0);
        full &= loads_at_edge(b, left, 0, 23);
    }
    check("GM: as many portions as needed are enough, one less is 19", fits);
    check("GM: with no entry left the same is 23 and 19", full);
}

static void greatest_pictures(struct bench *b)
{
    unsigned wrong;

    begin(b, 128, 2, 0);
    wrong = load(b, "P", 32768) != 0 || load(b, "Q", 130) != 19;
    begin(b, 127, 1, 0);
    wrong += load(b, "P", 32768) != 19 || load(b, "P", 32512) != 0;
    begin(b, 129, 1, 1);
    wrong += load(b, "P", 32768) != 23;
    begin(b, 128, 1, 1);
    check("the greatest picture needs 128 portions", wrong == 0 && load(b, "P", 32768) == 19 && load(b, "P", 32512) == 23);
}

/* The greatest directory with a form in each entry; then the places of some are emptied and filled again. */
static void greatest_directory(void)
{
    static const unsigned places[] = {0, 1, 30, 127, 128, 254, 255, 256, 257, 383, 510, 511};
    struct bench b;
    unsigned wrong = 0;

    lay_out(&b, 40, 514, 512, 64);
    begin(&b, 514, 512, 0);
    for (unsigned i = 0; i < 512; i++)
        wrong += send_number(&b, "FS\"%lld\"", i) + send(&b, "FE") != 0;
    for (unsigned i = 0; i < sizeof places / sizeof places[0]; i++) {
        wrong += ask(&b, "FS\"F\"") != 23 || load(&b, "P", 512) != 23 || load(&b, "P", 513) != 19;
        wrong += send_number(&b, "FK\"%lld\"", places[i]) + send_number(&b, "FS\"%lld\"", places[i]) != 0 || kind_at(&b, places[i]) != RECORDING;
        wrong += send(&b, "FE") != 0;
    }
    check("of 512 entries the one that is empty is found", wrong == 0);
    clear_away(&b.desk);
}

/* "A recorded line asks for no entry, so it never gives 23." */
static void full_while_recording(struct bench *b)
{
    begin(b, 3, 1, 0);
    check("a line takes a portion though no entry is empty",
          ask(b, "FS\"F\"") == 0 && record_line(b, 256) == 0 && record_line(b, 16) == 0 && record_line(b, 240) == 0 && ask(b, "R0,0") == 0);
    check("neither left: 19, and the recording goes on",
          record_line(b, 252) == 19 && record_line(b, 251) == 0 && ask(b, "R0,0") == 19 && ask(b, "FE") == 0 && ask(b, "FS\"G\"") == 19);
    begin(b, 1, 2, 0);
    check("no portion left and an entry empty: 19",
          ask(b, "FS\"F\"") == 0 && record_line(b, 200) == 0 && record_line(b, 57) == 19 && record_line(b, 56) == 0 && record_line(b, 16) == 19 && ask(b, "FE") == 0);
    begin(b, 2, 1, 0);
    check("a line over two portions needs one more, and has it",
          ask(b, "FS\"F\"") == 0 && record_line(b, 200) == 0 && record_line(b, 256) == 0 && record_line(b, 57) == 19 && record_line(b, 56) == 0);
    begin(b, 64, 1, 0);
    check("the form being recorded has the entry: 9, then 23",
          ask(b, "FS\"F\"") == 0 && kind_at(b, 0) == RECORDING && ask(b, "FS\"G\"") == 9 && load(b, "P", 130) == 9 && ask(b, "FE") == 0
              && ask(b, "FS\"G\"") == 23 && load(b, "P", 130) == 23);
}

/* FS and GM with answers below 19, in a memory that is full as the caller says. There are forms 1 and so on and no picture, or a form less
 * and the picture P. */
static int answered_before(struct bench *b, unsigned portions, unsigned entries, unsigned full)
{
    unsigned stored = portions < entries ? portions : entries;
    int well;

    begin(b, portions, entries, stored);
    well = ask(b, "FS\"F\"") == full && ask(b, "FS\"1\"") == 10 && ask(b, "FS\"F\"x") == 255 && send(b, "FS\"F\"x") == 6 && send(b, "FS\"*\"") == 7;
    well &= answer_to(b, "GM\"P\",5\nabcdeFI\n", 16) == 16 && send_bytes(b, "GM\"P\",5\nabcd", 12) == 4 && count(b, 0) == 0 && send(b, "GM\"P\",0") == 7;
    well &= ask(b, "P1") == 0 && ask(b, "FS\"F\"") == 8 && load(b, "P", 130) == 8;
    begin(b, portions, entries, stored - 1);
    well &= load(b, "P", 130) == 0 && load(b, "Q", 130) == full && load(b, "p", 130) == 10 && answer_to(b, "GM\"P\",5\nabcdeFI\n", 16) == 10;
    begin(b, portions, entries, stored - 1);
    return well && ask(b, "FS\"F\"") == 0 && ask(b, "FS\"G\"") == 9 && ask(b, "FS\"F\"") == 9 && load(b, "P", 130) == 9
        && answer_to(b, "GM\"P\",5\nabcdeFI\n", 16) == 9;
}

static void before_full(struct bench *b)
{
    check("4 and 6 to 10 and 16 come before 19", answered_before(b, 2, 4, 19) && answered_before(b, 3, 3, 19) && answered_before(b, 1, 1, 19));
    check("they come before 23", answered_before(b, 4, 2, 23) && answered_before(b, 64, 1, 23) && answered_before(b, 9, 8, 23));
}

/* The bench erases something, and what was refused is taken: in the entry that is empty now. */
static void after_erasing(struct bench *b)
{
    char line[] = "FK\"1\"";
    int well = 1;

    begin(b, 64, 3, 2);
    check("after erasing one picture the same FS is taken",
          load(b, "P", 600) == 0 && ask(b, "FS\"F\"") == 23 && ask(b, "GK\"P\"") == 0 && ask(b, "FS\"F\"") == 0 && kind_at(b, 2) == RECORDING);
    begin(b, 64, 3, 3);
    check("after erasing one form the same GM is taken",
          load(b, "P", 600) == 23 && ask(b, "FK\"2\"") == 0 && load(b, "P", 600) == 0 && kind_at(b, 1) == PICTURE && load(b, "Q", 600) == 23);
    for (unsigned i = 0; i < 5; i++, line[3]++) {
        begin(b, 64, 5, 5);
        well &= ask(b, "FS\"F\"") == 23 && ask(b, line) == 0 && ask(b, "FS\"F\"") == 0 && kind_at(b, i) == RECORDING && ask(b, "FE") == 0 && ask(b, "FS\"G\"") == 23;
    }
    check("the empty entry may stand anywhere", well);
    begin(b, 64, 4, 2);
    well = load(b, "P", 300) == 0 && load(b, "Q", 300) == 0 && ask(b, "FS\"F\"") == 23 && ask(b, "FK\"*\"") == 0 && form(b, "F") == 0 && form(b, "G") == 0;
    well = well && form(b, "H") == 23 && ask(b, "GK\"*\"") == 0 && load(b, "R", 300) == 0 && form(b, "H") == 0 && form(b, "I") == 23;
    check("FK\"*\" and GK\"*\" give their entries back", well);
    begin(b, 4, 2, 1);
    well = load(b, "P", 512) == 0 && load(b, "Q", 512) == 19 && load(b, "Q", 256) == 23 && ask(b, "FK\"1\"") == 0 && load(b, "Q", 513) == 19;
    check("erasing gives portions back as well as an entry", well && load(b, "Q", 512) == 0 && ask(b, "FS\"F\"") == 19);
}

/* From now on so many portions are lent, of which the session says that so many are free. */
static void lend_store(struct bench *b, unsigned portions, unsigned number)
{
    b->length[STORE] = (size_t)portions * PORTION;
    b->length[LINKS] = portions;
    put_image(b, NUMBER_AT, number, 2);
}

/* What is lent to the call counts, not what was lent at opening; the number moved along, without which it is not sound. */
static void lent_to_the_call(struct bench *b)
{
    int well;

    begin(b, 8, 8, 1);
    b->length[DIRECTORY] = ENTRY;
    well = ask(b, "FS\"F\"") == 23 && load(b, "P", 7 * PORTION) == 23 && load(b, "P", 7 * PORTION + 1) == 19;
    lend_store(b, 1, 0);
    well &= ask(b, "FS\"F\"") == 19 && load(b, "P", 130) == 19;
    b->length[DIRECTORY] = 2 * ENTRY;
    well &= ask(b, "FS\"F\"") == 19 && load(b, "P", 130) == 19;
    lend_store(b, 2, 1);
    check("entries and portions are those lent to the call", well && load(b, "P", 257) == 19 && ask(b, "FS\"F\"") == 0);
}

/* ---- the rule told again, on paper ---- */

/* What a paper beside the station says is stored: names A to F of each kind, and their sizes. */
struct on_paper {
    unsigned portions, entries;
    bool stored[2][6];  /* forms, pictures */
    unsigned size[2][6];
    int recording;      /* the name of the form being recorded, or -1 */
};

struct full_twice {
    unsigned steps, too_few[2], no_entry[2], line_too_few, wrong;
};

/* Portion by portion, without a division. */
static unsigned sheets(unsigned size)
{
    unsigned number = 1;

    for (; size > PORTION; size -= PORTION)
        number++;
    return number;
}

static unsigned free_on_paper(const struct on_paper *p)
{
    unsigned taken = 0;

    for (unsigned i = 0; i < 12; i++)
        taken += p->stored[i / 6][i % 6] ? sheets(p->size[i / 6][i % 6]) : 0;
    return p->portions - taken;
}

static bool entry_on_paper(const struct on_paper *p)
{
    unsigned taken = 0;

    for (unsigned i = 0; i < 12; i++)
        taken += p->stored[i / 6][i % 6];
    return taken < p->entries;
}

/* FS or GM: what it must be answered, and if it is taken it stands on the paper. */
static unsigned add_on_paper(struct on_paper *p, unsigned kind, unsigned name, unsigned size)
{
    if (p->recording >= 0)
        return 9;
    if (p->stored[kind][name])
        return 10;
    if (free_on_paper(p) < sheets(size))
        return 19;
    if (!entry_on_paper(p))
        return 23;
    p->stored[kind][name] = true;
    p->size[kind][name] = size;
    if (kind == 0)
        p->recording = (int)name;
    return 0;
}

static unsigned line_on_paper(struct on_paper *p, unsigned length)
{
    unsigned *size = p->recording >= 0 ? &p->size[0][p->recording] : NULL;

    if (!size)
        return 0;
    if (sheets(*size + length) > sheets(*size) + free_on_paper(p))
        return 19;
    *size += length;
    return 0;
}

static unsigned erase_on_paper(struct on_paper *p, unsigned kind, unsigned name)
{
    if (p->recording >= 0)
        return 9;
    if (!p->stored[kind][name])
        return 11;
    p->stored[kind][name] = false;
    return 0;
}

static unsigned end_on_paper(struct on_paper *p)
{
    unsigned answer = p->recording >= 0 ? 0 : 9;

    p->recording = -1;
    return answer;
}

/* One command by chance to both. */
static void step_twice(struct bench *b, struct on_paper *p, struct full_twice *t)
{
    unsigned what = (unsigned)(chance_number() % 16), name = (unsigned)(chance_number() % 6), kind = what % 2, must, answer;
    unsigned size = 130 + (unsigned)(chance_number() % (chance_number() % 2 ? 130 : 1200)), length = 16 + (unsigned)(chance_number() % 241);
    char line[] = {"FG"[kind], 'K', '"', (char)('A' + name), '"', 0};

    t->steps++;
    if (what < 6) {
        line[1] = 'S';
        must = add_on_paper(p, kind, name, kind ? size : 0);
        answer = kind ? load(b, (const char[]){(char)('A' + name), 0}, size) : ask(b, line);
        t->too_few[kind] += must == 19;
        t->no_entry[kind] += must == 23;
    } else if (what < 8) {
        must = erase_on_paper(p, kind, name);
        answer = ask(b, line);
    } else if (what < 15) {
        must = line_on_paper(p, length);
        answer = record_line(b, length);
        t->line_too_few += must == 19;
    } else {
        must = end_on_paper(p);
        answer = ask(b, "FE");
    }
    t->wrong += answer != must;
}

static void full_told_again(struct bench *b)
{
    struct full_twice t = {0};
    char text[80];

    while (t.steps < 12000) {
        struct on_paper p = {.portions = 1 + (unsigned)(chance_number() % 9), .entries = 1 + (unsigned)(chance_number() % 5), .recording = -1};
        begin(b, p.portions, p.entries, 0);
        for (unsigned i = 0; i < 40; i++)
            step_twice(b, &p, &t);
    }
    snprintf(text, sizeof text, "told again: FS %u are 19, %u are 23; GM %u, %u; line %u", t.too_few[0], t.no_entry[0], t.too_few[1], t.no_entry[1], t.line_too_few);
    check(text, t.wrong == 0);
}

static void full_cases(void)
{
    struct bench b;

    lay_out(&b, 40, 130, 8, 64);
    full_of_forms(&b);
    full_of_pictures(&b);
    greatest_pictures(&b);
    greatest_directory();
    full_while_recording(&b);
    before_full(&b);
    after_erasing(&b);
    lent_to_the_call(&b);
    full_told_again(&b);
    clear_away(&b.desk);
}

/* ---- free room kept as a number ---- */

static unsigned number_of(const struct bench *b)
{
    return low_first(b->desk.bytes[SESSION] + NUMBER_AT);
}

/* The command is taken and the number is this one then. */
static int leaves(struct bench *b, const char *line, unsigned number)
{
    return ask(b, line) == 0 && number_of(b) == number;
}

static int line_leaves(struct bench *b, unsigned length, unsigned number)
{
    return record_line(b, length) == 0 && number_of(b) == number;
}

static int picture_leaves(struct bench *b, const char *name, unsigned size, unsigned number)
{
    return load(b, name, size) == 0 && number_of(b) == number;
}

/* A comment and a label, both of which ask for sound. */
static int is_sound(struct bench *b)
{
    return send(b, ";") == 0 && label(b) == (low_first(b->desk.bytes[SESSION] + 11) > 0 ? 0 : 21);
}

/* Not sound, and left as it was. */
static int is_refused(struct bench *b)
{
    uint64_t before = digest_of(b);

    return send(b, ";") == 3 && send(b, "FK\"*\"") == 3 && label(b) == 3 && digest_of(b) == before;
}

static void number_at_opening(void)
{
    static const unsigned portions[] = {1, 2, 9, 255, 256, 257, 2023, 2024};
    static const uint8_t zeros[IMAGE];
    const uint8_t *image;
    struct bench b;
    int well = 1;

    lay_out(&b, 40, MOST_PORTIONS, 2, 64);
    image = b.desk.bytes[SESSION];
    for (unsigned i = 0; i < sizeof portions / sizeof portions[0]; i++) {
        begin(&b, portions[i], 2, 0);
        well &= number_of(&b) == portions[i] && is_sound(&b);
    }
    check("opening: the number is that of the portions lent", well);
    check("it stands at 65, low byte first: 2,024 is e8 07", image[65] == 0xe8 && image[66] == 0x07);
    b.length[VALUE]--;
    well = call_station(&peer_station, &b.desk, OPEN, b.length) == 1 && memcmp(image, zeros, IMAGE) == 0 && image[IMAGE] == 0xa5;
    b.length[VALUE]++;
    check("a refused opening leaves 83 zeros, which are not sound", well && is_refused(&b));
    clear_away(&b.desk);
}

static void image_lengths(struct bench *b)
{
    unsigned wrong = 0;

    begin(b, 4, 4, 1);
    for (unsigned length = 0; length <= IMAGE + 2; length++) {
        uint64_t before = digest_of(b);
        b->length[SESSION] = length;
        if (length == IMAGE)
            continue;
        wrong += send(b, "FS\"F\"") != 1 || label(b) != 1 || call_station(&peer_station, &b->desk, OPEN, b->length) != 1;
        wrong += digest_of(b) != before;
    }
    b->length[SESSION] = IMAGE;
    check("an image of another length than 83 is 1, 65 and 67 too", wrong == 0 && leaves(b, "FS\"F\"", 2));
}

/* Each line from each size of its portion that there can be: one portion less exactly where the line does not end in it. */
static void number_of_lines(struct bench *b)
{
    unsigned wrong = 0;

    for (unsigned size = 16; size <= PORTION; size++)
        for (unsigned length = 16; length <= PORTION; length += 1 + size % 7) {
            begin(b, 4, 2, 0);
            wrong += !leaves(b, "FS\"F\"", 3) || !line_leaves(b, size, 3) || !line_leaves(b, length, size + length > PORTION ? 2 : 3);
        }
    check("a recorded line takes a portion when it ends in another", wrong == 0);
    begin(b, 4, 2, 0);
    check("one that fills its portion takes none, the next one does",
          leaves(b, "FS\"F\"", 3) && line_leaves(b, 256, 3) && line_leaves(b, 16, 2) && line_leaves(b, 240, 2) && leaves(b, "R0,0", 1)
              && line_leaves(b, 251, 1) && leaves(b, "X0,0,1,9,9", 0) && record_line(b, 256) == 19 && number_of(b) == 0 && line_leaves(b, 245, 0)
              && ask(b, "R0,0") == 19 && number_of(b) == 0);
    check("FE leaves it, behind a full portion and behind no line",
          leaves(b, "FE", 0) && leaves(b, "FK\"F\"", 4) && leaves(b, "FS\"G\"", 3) && leaves(b, "FE", 3) && is_sound(b));
}

/* From 257 and 258 down to 255 and up again, by each command that moves it: the high byte moves too. */
static void number_across_a_byte(void)
{
    struct bench bench, *b = &bench;
    int well;

    lay_out(b, 40, 258, 3, 64);
    begin(b, 258, 3, 0);
    well = leaves(b, "FS\"A\"", 257) && line_leaves(b, 256, 257) && line_leaves(b, 256, 256) && line_leaves(b, 16, 255) && leaves(b, "FE", 255) && is_sound(b);
    check("lines over 256, and FK back over it", well && leaves(b, "FK\"A\"", 258) && is_sound(b));
    well = picture_leaves(b, "P", 256, 257) && picture_leaves(b, "Q", 600, 254) && leaves(b, "GK\"Q\"", 257) && picture_leaves(b, "Q", 512, 255);
    check("GM and GK over 256", well && is_sound(b) && leaves(b, "GK\"*\"", 258) && is_sound(b));
    well = picture_leaves(b, "P", 512, 256) && leaves(b, "FS\"A\"", 255) && leaves(b, "FE", 255) && leaves(b, "FK\"*\"", 256);
    check("FS and FK\"*\" over 256", well && is_sound(b) && leaves(b, "GK\"P\"", 258));
    clear_away(&b->desk);
}

/* By the portion: sizes at both sides of each edge. */
static void number_of_pictures(void)
{
    struct bench bench, *b = &bench;
    unsigned wrong = 0;

    lay_out(b, 40, 130, 3, 64);
    begin(b, 130, 3, 1);
    for (unsigned edge = PORTION; edge <= MOST_PICTURE; edge += PORTION)
        for (unsigned size = edge - 1; size <= edge + 1 && size <= MOST_PICTURE; size++) {
            wrong += !picture_leaves(b, "P", size, 129 - edge / PORTION - (size > edge));
            wrong += !leaves(b, "GK\"P\"", 129);
        }
    check("GM takes size/256 rounded up, GK gives as many back", wrong == 0);
    check("the least picture takes one", picture_leaves(b, "P", 130, 128) && picture_leaves(b, "Q", 257, 126) && leaves(b, "GK\"p\"", 127) && is_sound(b));
    clear_away(&b->desk);
}

/* Forms A, B and C of one, two and three portions and pictures P and Q of one and four, in sixteen portions: five left. */
static void fill_some(struct bench *b)
{
    begin(b, 16, 8, 0);
    ask(b, "FS\"A\"");
    ask(b, "FE");
    load(b, "P", 256);
    for (unsigned k = 0; k < 2; k++) {
        ask(b, k ? "FS\"C\"" : "FS\"B\"");
        for (unsigned i = 0; i <= k; i++)
            record_line(b, 256);
        record_line(b, 16);
        ask(b, "FE");
    }
    load(b, "Q", 1024);
}

static void number_after_erasing(struct bench *b)
{
    int well;

    fill_some(b);
    check("forms of 1, 2 and 3 portions, pictures of 1 and 4: 5 of 16", number_of(b) == 5 && is_sound(b));
    check("FK gives back what the form had, active or not",
          leaves(b, "FR\"B\"", 5) && leaves(b, "FK\"C\"", 8) && leaves(b, "FK\"B\"", 10) && leaves(b, "FK\"A\"", 11) && is_sound(b));
    fill_some(b);
    check("GK gives back what the picture had", leaves(b, "GK\"Q\"", 9) && leaves(b, "GK\"P\"", 10) && is_sound(b));
    fill_some(b);
    well = leaves(b, "FR\"B\"", 5) && leaves(b, "FK\"*\"", 11) && is_sound(b) && leaves(b, "FK\"*\"", 11) && leaves(b, "GK\"*\"", 16);
    check("FK\"*\" gives back what all forms had, then none", well && is_sound(b));
    fill_some(b);
    well = leaves(b, "GK\"*\"", 10) && is_sound(b) && leaves(b, "GK\"*\"", 10) && leaves(b, "FK\"*\"", 16);
    check("GK\"*\" gives back what all pictures had, then none", well && is_sound(b));
}

/* Each of these is taken or refused, and the number stays. */
static void number_stays(struct bench *b)
{
    static const char *const lines[] = {"Q30,5", "q300", "N", "R5,5", "ZB", "ZT", "LO1,1,5,5", "LW1,1,5,5", "LE1,1,5,5", "X0,0,1,9,9", "A0,0,0,1,1,N,\"a\"",
        "B0,0,0,3,1,2,24,B,\"A\"", "GG0,0,\"P\"", "FR\"B\"", "FI", "GI", "FP\"B\"", "?V0,\"\"", "?C0,1", "VC", "", ";", "P0", "P2,", "FE", "FS\"B\"", "FS\"*\"", "FK\"X\"",
        "GK\"X\"", "FK\"A*\"", "GM\"P\",5\nabcde", "GM\"X\",5\nabcde", "GM\"X\",0", "V0,1,L,\"\"", "P2"};
    unsigned wrong = 0;

    fill_some(b);
    for (unsigned i = 0; i < sizeof lines / sizeof lines[0]; i++) {
        send(b, lines[i]);
        wrong += number_of(b) != 5;
    }
    wrong += send(b, "FS\"F\"") != 8 || label(b) != 0 || label(b) != 0 || label(b) != 21 || number_of(b) != 5;
    wrong += load(b, "X", 1281) != 19 || number_of(b) != 5 || !leaves(b, "FS\"F\"", 4) || record_line(b, 16) != 0;
    for (unsigned i = 0; i < sizeof lines / sizeof lines[0]; i++) {
        if (strcmp(lines[i], "FE") != 0)
            send(b, lines[i]);
        wrong += number_of(b) != 4;
    }
    check("no other command, no refusal and no label moves it", wrong == 0 && is_sound(b));
}

/* ---- sound with the number ---- */

/* All numbers there are; a label that is owed is drawn when the right one has its turn. */
static int only_this(struct bench *b, unsigned right)
{
    unsigned wrong = number_of(b) != right;

    for (unsigned number = 0; number <= 65535; number++) {
        put_image(b, NUMBER_AT, number, 2);
        wrong += number == right ? !is_sound(b) : send(b, ";") != 3 || label(b) != 3;
    }
    put_image(b, NUMBER_AT, right, 2);
    return wrong == 0;
}

static void other_numbers(struct bench *b)
{
    unsigned wrong = 0;

    begin(b, 16, 8, 0);
    check("each of the 65,535 other numbers is 3 in an empty store", only_this(b, 16));
    fill_some(b);
    check("in one with forms and pictures", only_this(b, 5));
    check("while labels are owed", ask(b, "FR\"B\"") == 0 && ask(b, "P2") == 0 && only_this(b, 5) && owed(b) == 1 && label(b) == 0);
    check("while a form is recorded", ask(b, "FS\"F\"") == 0 && only_this(b, 4));
    for (unsigned number = 3; number <= 5; number += 2) {
        put_image(b, NUMBER_AT, number, 2);
        wrong += !is_refused(b);
    }
    lend_font(b, empty_font, sizeof empty_font - 1);
    wrong += send(b, ";") != 2 || label(b) != 2;
    b->length[VALUE]++;
    wrong += send(b, ";") != 1 || label(b) != 1;
    b->length[VALUE]--;
    lend_font(b, empty_font, sizeof empty_font);
    wrong += send_bytes(b, "F", 1) != 3 || send(b, "no command") != 3 || send(b, "P0") != 3;
    put_image(b, NUMBER_AT, 4, 2);
    check("1 and 2 go before it, it goes before 4 to 9", wrong == 0 && leaves(b, "FE", 4));
}

/* Entry i with another size, with the number that was right and with the one that this size calls for. */
static int resized(struct bench *b, unsigned i, uint32_t size, unsigned number, int sound_then)
{
    uint8_t *at = b->desk.bytes[DIRECTORY] + ENTRY * i + 12, before[4];
    unsigned right = number_of(b);
    int well;

    memcpy(before, at, 4);
    for (unsigned k = 0; k < 4; k++)
        at[k] = (uint8_t)(size >> (8 * k));
    well = number == right || is_refused(b);
    put_image(b, NUMBER_AT, number, 2);
    well = well && (sound_then ? is_sound(b) : is_refused(b));
    memcpy(at, before, 4);
    put_image(b, NUMBER_AT, right, 2);
    return well && is_sound(b);
}

/* The directory of fill_some: A, P, B of 272 bytes, C of 528, Q. A chain or a line that does not go with the size is not sound by itself. */
static void other_sizes(struct bench *b)
{
    fill_some(b);
    check("a size of more or fewer portions is 3, number moved or not",
          resized(b, 2, 256, 6, 0) && resized(b, 2, 513, 4, 0) && resized(b, 3, 512, 6, 0) && resized(b, 4, 1025, 4, 0) && resized(b, 4, 768, 6, 0)
              && resized(b, 0, 257, 4, 0));
    check("so is one of the same portions that ends no line", resized(b, 2, 271, 5, 0) && resized(b, 2, 512, 5, 0) && resized(b, 0, 1, 5, 0));
    check("sizes of 32 bits do not go round to the right number",
          resized(b, 0, 0x1000001, 5, 0) && resized(b, 0, 0xffffffff, 5, 0) && resized(b, 4, 0x1000400, 5, 0));
}

/* An entry put in and one taken out by hand, each with its link. */
static void other_entries(struct bench *b)
{
    static const uint8_t form[ENTRY] = {FORM, 1, 'Z', [10] = 15};
    uint8_t *entry = b->desk.bytes[DIRECTORY] + ENTRY * 7, *link = b->desk.bytes[LINKS] + 2 * 15;
    int well;

    fill_some(b);
    memcpy(entry, form, ENTRY);
    memcpy(link, (const uint8_t[]){0xfe, 0xff}, 2);
    well = is_refused(b);
    put_image(b, NUMBER_AT, 4, 2);
    well = well && is_sound(b);
    check("an entry put in by hand calls for its portion", well && leaves(b, "FK\"Z\"", 5));
    memset(b->desk.bytes[DIRECTORY], 0, ENTRY);
    memset(b->desk.bytes[LINKS], 0xff, 2);
    well = is_refused(b);
    put_image(b, NUMBER_AT, 6, 2);
    check("one taken out no more", well && is_sound(b));
}

/* More and fewer portions than at opening; all those beyond are free. */
static void other_stores(struct bench *b)
{
    int well = 1;

    fill_some(b);
    for (unsigned portions = 1; portions <= 40; portions++) {
        unsigned right = portions - 11;
        memset(b->desk.bytes[LINKS] + 2 * 11, 0xff, 2 * 29);
        memset(b->desk.bytes[STORE] + PORTION * 11, 0, PORTION * 29);
        lend_store(b, portions, 5);
        well &= portions == 16 ? is_sound(b) : is_refused(b);
        lend_store(b, portions, right);
        well &= portions < 11 ? is_refused(b) : is_sound(b);
    }
    check("the portions are those of the store lent to the call", well);
    lend_store(b, 12, 1);
    check("so is the room: one portion of twelve", load(b, "R", 257) == 19 && picture_leaves(b, "R", 256, 0) && ask(b, "FS\"F\"") == 19 && leaves(b, "FK\"C\"", 3));
    lend_store(b, 13, 3);
    check("with a portion more that number is 3", is_refused(b));
}

/* ---- the number told again, byte by byte on a shelf ---- */

enum { SHELF = 12, NOBODY = -1 };

/* Each portion with its owner (a form from 0, a picture from 6) and how many bytes are in it. */
struct shelf {
    unsigned portions, bytes[SHELF];
    int owner[SHELF], last[12];  /* last: where the owner's bytes end */
};

/* The station, the paper that says what it must answer, and the shelf that says how much is free then. */
struct thrice {
    struct bench *b;
    struct on_paper p;
    struct shelf s;
    unsigned steps, taken, given, full, wrong;
};

static unsigned free_on_shelf(const struct shelf *s)
{
    unsigned free = 0;

    for (unsigned i = 0; i < s->portions; i++)
        free += s->owner[i] == NOBODY;
    return free;
}

static void take_from_shelf(struct shelf *s, int owner)
{
    unsigned i = 0;

    while (s->owner[i] != NOBODY)
        i++;
    s->owner[i] = owner;
    s->bytes[i] = 0;
    s->last[owner] = (int)i;
}

/* Bytes one by one; whoever finds the portion full takes the next free one. */
static void put_on_shelf(struct shelf *s, int owner, unsigned count)
{
    while (count--) {
        if (s->bytes[s->last[owner]] == PORTION)
            take_from_shelf(s, owner);
        s->bytes[s->last[owner]]++;
    }
}

static void clear_from_shelf(struct shelf *s, int first, int last)
{
    for (unsigned i = 0; i < s->portions; i++)
        if (s->owner[i] >= first && s->owner[i] <= last)
            s->owner[i] = NOBODY;
}

static void add_thrice(struct thrice *t, unsigned kind, unsigned name, unsigned size)
{
    char line[] = {'F', 'S', '"', (char)('A' + name), '"', 0};
    unsigned must = add_on_paper(&t->p, kind, name, size);

    if (must == 0) {
        take_from_shelf(&t->s, (int)(6 * kind + name));
        put_on_shelf(&t->s, (int)(6 * kind + name), size);
    }
    t->wrong += (kind ? load(t->b, (const char[]){line[3], 0}, size) : ask(t->b, line)) != must;
}

/* FK or GK of one, or of all. */
static void erase_thrice(struct thrice *t, unsigned kind, unsigned name, bool every)
{
    char line[] = {"FG"[kind], 'K', '"', every ? '*' : (char)('A' + name), '"', 0};
    unsigned must = every ? (t->p.recording >= 0 ? 9 : 0) : erase_on_paper(&t->p, kind, name), first = 6 * kind + (every ? 0 : name);

    if (must == 0 && every)
        memset(t->p.stored[kind], 0, sizeof t->p.stored[kind]);
    if (must == 0)
        clear_from_shelf(&t->s, (int)first, (int)(every ? first + 5 : first));
    t->wrong += ask(t->b, line) != must;
}

/* A line of 5 bytes or of 16 to 256, with its LF. */
static void line_thrice(struct thrice *t, unsigned length)
{
    unsigned must = line_on_paper(&t->p, length);

    if (must == 0 && t->p.recording >= 0)
        put_on_shelf(&t->s, t->p.recording, length);
    t->wrong += (length == 5 ? ask(t->b, "R1,1") : record_line(t->b, length)) != must;
}

/* Half of the recorded lines end where their portion ends, if they can. */
static unsigned length_by_chance(const struct thrice *t)
{
    unsigned length = chance_number() % 8 ? 16 + (unsigned)(chance_number() % 241) : 5;
    unsigned edge = t->p.recording >= 0 ? PORTION - t->s.bytes[t->s.last[t->p.recording]] : 0;

    return chance_number() % 2 && (edge == 5 || edge >= 16) ? edge : length;
}

/* A third of the pictures fill their portions, or have one byte more. */
static unsigned size_by_chance(void)
{
    unsigned size = 130 + (unsigned)(chance_number() % 1200);

    return chance_number() % 3 ? size : PORTION * (1 + size / PORTION) + (unsigned)(chance_number() % 2);
}

static void number_step(struct thrice *t)
{
    unsigned what = (unsigned)(chance_number() % 20), name = (unsigned)(chance_number() % 6), kind = what % 2, before = number_of(t->b);

    if (what < 6)
        add_thrice(t, kind, name, kind ? size_by_chance() : 0);
    else if (what < 10)
        erase_thrice(t, kind, name, chance_number() % 4 == 0);
    else if (what < 18)
        line_thrice(t, length_by_chance(t));
    else
        t->wrong += ask(t->b, "FE") != end_on_paper(&t->p);
    t->steps++;
    t->wrong += number_of(t->b) != free_on_shelf(&t->s);
    t->taken += number_of(t->b) < before;
    t->given += number_of(t->b) > before;
    t->full += number_of(t->b) == 0;
}

static void number_told_again(struct bench *b)
{
    struct thrice t = {.b = b};
    char text[100];

    while (t.steps < 30000) {
        t.p = (struct on_paper){.portions = 1 + (unsigned)(chance_number() % SHELF), .entries = 1 + (unsigned)(chance_number() % 6), .recording = -1};
        t.s.portions = t.p.portions;
        clear_from_shelf(&t.s, NOBODY, 11);
        begin(b, t.p.portions, t.p.entries, 0);
        for (unsigned i = 0; i < 60; i++)
            number_step(&t);
    }
    snprintf(text, sizeof text, "told again: %u took, %u gave, %u of %u left none", t.taken, t.given, t.full, t.steps);
    check(text, t.wrong == 0);
}

static void free_number_cases(void)
{
    struct bench b;

    number_at_opening();
    number_of_pictures();
    number_across_a_byte();
    lay_out(&b, 40, 40, 8, 64);
    image_lengths(&b);
    number_of_lines(&b);
    number_after_erasing(&b);
    number_stays(&b);
    other_numbers(&b);
    other_sizes(&b);
    other_entries(&b);
    other_stores(&b);
    number_told_again(&b);
    clear_away(&b.desk);
}

/* ---- will it fit? ---- */

static unsigned question(struct bench *b, unsigned kind, uint64_t size, const void *name, size_t length)
{
    put_on_desk(&b->desk, INPUT, name, length);
    b->length[INPUT] = length;
    b->desk.question = (struct question){(uint8_t)kind, size};
    return call_station(&peer_station, &b->desk, FITS, b->length);
}

/* 255 if something was changed. */
static unsigned fits(struct bench *b, unsigned kind, const char *name, uint64_t size)
{
    uint64_t before = digest_of(b);
    unsigned answer = question(b, kind, size, name, strlen(name));

    return digest_of(b) == before && memcmp(b->desk.bytes[INPUT], name, strlen(name)) == 0 ? answer : 255;
}

/* Both kinds give this answer; the picture needs one portion. */
static int both(struct bench *b, const char *name, unsigned answer)
{
    return fits(b, FORM, name, 0) == answer && fits(b, PICTURE, name, 256) == answer;
}

/* By hand: nothing owed, every link free, every entry of this kind with the name A and zeros behind it. */
static void spread(struct bench *b, unsigned portions, unsigned entries, uint8_t kind)
{
    b->length[LINKS] = portions;
    b->length[DIRECTORY] = (size_t)ENTRY * entries;
    memset(b->desk.bytes[SESSION], 0, IMAGE);
    memset(b->desk.bytes[LINKS], 0xff, 2 * (size_t)portions);
    memset(b->desk.bytes[DIRECTORY], 0, b->length[DIRECTORY]);
    for (unsigned i = 0; i < entries; i++)
        memcpy(b->desk.bytes[DIRECTORY] + ENTRY * i, (const uint8_t[]){kind, 1, 'A'}, 3);
}

static void put_link(struct bench *b, unsigned i, unsigned link)
{
    b->desk.bytes[LINKS][2 * i] = (uint8_t)link;
    b->desk.bytes[LINKS][2 * i + 1] = (uint8_t)(link >> 8);
}

/* All lengths that there is room for: 85 bytes, 2,026 links, 514 entries. */
static void asked_lengths(struct bench *b)
{
    unsigned wrong = 0;
    uint64_t before;

    spread(b, 2026, 514, EMPTY);
    spread(b, 1, 1, EMPTY);
    before = digest_of(b);
    for (b->length[SESSION] = 0; b->length[SESSION] <= IMAGE + 2; b->length[SESSION]++)
        wrong += question(b, FORM, 0, "A", 1) != (b->length[SESSION] == IMAGE ? 0 : 1);
    check("1: an image of another length than 83", wrong == 0);
    b->length[SESSION] = IMAGE;
    for (b->length[LINKS] = 0; b->length[LINKS] <= 2026; b->length[LINKS]++)
        wrong += question(b, PICTURE, 256, "A", 1) != (b->length[LINKS] >= 1 && b->length[LINKS] <= 2024 ? 0 : 1);
    check("1: 0, 2,025 or 2,026 links, 1 to 2,024 are right", wrong == 0);
    b->length[LINKS] = 1;
    for (b->length[DIRECTORY] = 0; b->length[DIRECTORY] <= 514 * ENTRY; b->length[DIRECTORY]++)
        wrong += question(b, FORM, 0, "A", 1) != (b->length[DIRECTORY] % ENTRY == 0 && b->length[DIRECTORY] >= 1 && b->length[DIRECTORY] <= 8192 ? 0 : 1);
    check("1: a directory that is not 1 to 512 whole entries", wrong == 0 && digest_of(b) == before);
}

static void asked_kinds_and_sizes(struct bench *b)
{
    unsigned wrong = 0;

    spread(b, 128, 1, EMPTY);
    for (unsigned kind = 0; kind < 256; kind++)
        wrong += question(b, kind, 1, "A", 1) != (kind == FORM || kind == PICTURE ? 0 : 7);
    check("7: each kind but 1 and 2", wrong == 0);
    for (unsigned size = 0; size <= 70000; size++)
        wrong += question(b, PICTURE, size, "A", 1) != (size >= 1 && size <= 32768 ? 0 : 7) || question(b, FORM, size, "A", 1) != 0;
    check("7: a picture's size outside 1 to 32,768, no form's", wrong == 0);
    for (unsigned bit = 16; bit < 64; bit++)
        for (uint64_t more = 0; more <= 257; more++) {
            uint64_t size = ((uint64_t)1 << bit) + more;
            wrong += question(b, PICTURE, size, "A", 1) != 7 || question(b, PICTURE, 0 - more - 1, "A", 1) != 7 || question(b, FORM, size, "A", 1) != 0;
        }
    check("7: so with sizes of up to 64 bits", wrong == 0 && fits(b, FORM, "A", UINT64_MAX) == 0);
    for (unsigned left = 0; left <= 128; left++) {
        spread(b, 128, 1, EMPTY);
        for (unsigned i = 0; i < 128 - left; i++)
            put_link(b, i * 37 % 128, CHAIN_END);
        for (unsigned size = 1; size <= 32768; size += size % PORTION < 2 || size % PORTION == 255 ? 1 : 23)
            wrong += question(b, PICTURE, size, "A", 1) != (sheets(size) > left ? 19 : 0);
        wrong += question(b, FORM, 32768, "A", 1) != (left == 0 ? 19 : 0);
    }
    check("19: size/256 rounded up for a picture, one for a form", wrong == 0);
}

static bool legal_byte(unsigned byte)
{
    return byte >= 32 && byte <= 126 && byte != '*' && byte != '"';
}

/* Each byte at each place of names of each length; then the lengths, those that 8 or 16 bits make another of too. */
static void asked_names(struct bench *b)
{
    static const unsigned lengths[] = {0, 1, 2, 3, 4, 5, 6, 7, 8, 9, 10, 16, 255, 256, 257, 264, 265, 65535, 65536};
    static char text[65536];
    unsigned wrong = 0;

    spread(b, 1, 1, EMPTY);
    for (unsigned length = 1; length <= 8; length++)
        for (unsigned i = 0; i < 256 * length; i++) {
            char name[8] = {'A', 'b', ' ', '9', '~', 'z', '!', 'Q'};
            name[i / 256] = (char)i;
            wrong += question(b, FORM, 0, name, length) != (legal_byte(i % 256) ? 0 : 7) || question(b, PICTURE, 9, name, length) != (legal_byte(i % 256) ? 0 : 7);
        }
    check("7: bytes outside 32 to 126, `*` and quote, at each place", wrong == 0);
    memset(text, 'A', sizeof text);
    for (unsigned i = 0; i < sizeof lengths / sizeof lengths[0]; i++)
        wrong += question(b, FORM, 0, text, lengths[i]) != (lengths[i] >= 1 && lengths[i] <= 8 ? 0 : 7);
    check("7: no bytes, or more than eight", wrong == 0 && both(b, "*", 7) && both(b, "A*", 7) && both(b, "a{z`@[~ ", 0));
}

/* Each byte asked for against each byte stored, at a place of the name and nowhere else. */
static int bytes_in_use(struct bench *b, unsigned place)
{
    uint8_t *entry = b->desk.bytes[DIRECTORY] + ENTRY;
    unsigned wrong = 0;

    for (unsigned both = 0; both < 65536; both++) {
        unsigned asked = both % 256, capital = asked >= 'a' && asked <= 'z' ? asked - 32 : asked;
        char name[] = "XYZXYZXY";
        name[place] = (char)asked;
        memcpy(entry, "\2\10XYZXYZXY", 10);
        entry[2 + place] = (uint8_t)(both >> 8);
        wrong += question(b, PICTURE, 9, name, 8) != (!legal_byte(asked) ? 7 : capital == both >> 8 ? 10 : 0);
        wrong += question(b, FORM, 9, name, 8) != (legal_byte(asked) ? 0 : 7);
    }
    return wrong == 0;
}

static void asked_names_in_use(struct bench *b)
{
    uint8_t *entry = b->desk.bytes[DIRECTORY] + ENTRY;
    unsigned wrong = 0;

    spread(b, 1, 3, EMPTY);
    check("10: small letters of the name asked for are capitals", bytes_in_use(b, 0) && bytes_in_use(b, 3) && bytes_in_use(b, 7));
    for (unsigned stored = 0; stored < 256; stored++)
        for (unsigned length = 1; length <= 8; length++) {
            memcpy(entry, "\1\0ABCDEFGH", 10);
            entry[1] = (uint8_t)stored;
            wrong += question(b, FORM, 0, "abCDEfgh", length) != (stored == length ? 10 : 0) || question(b, PICTURE, 1, "ABCDEFGH", length) != 0;
        }
    check("10: the length byte is the name's; above 8 it is nobody's", wrong == 0);
    for (unsigned length = 1; length <= 8; length++)
        for (unsigned byte = 0; byte < 256; byte++) {
            memset(entry + 1, (int)byte, 15);
            memcpy(entry, (const uint8_t[]){PICTURE, (uint8_t)length}, 2);
            memcpy(entry + 2, "ABCDEFGH", length);
            wrong += question(b, PICTURE, 1, "ABCDEFGH", length) != 10 || question(b, FORM, 1, "ABCDEFGH", length) != 0;
        }
    check("10: fill, first portion and size are not looked at", wrong == 0);
}

/* Each kind byte on one entry; every other one is a picture of another name, or empty. */
static void asked_kind_bytes(struct bench *b)
{
    unsigned wrong = 0;

    for (unsigned kind = 0; kind < 256; kind++)
        for (unsigned empty = 0; empty <= 1; empty++) {
            unsigned other = kind == RECORDING ? 9 : empty || kind == EMPTY ? 0 : 23;
            spread(b, 1, 3, EMPTY);
            for (unsigned i = 0; i < 3; i++)
                b->desk.bytes[DIRECTORY][ENTRY * i] = i == 1 ? (uint8_t)kind : empty ? EMPTY : 4;
            wrong += fits(b, FORM, "a", 0) != (kind == FORM ? 10 : other) || fits(b, PICTURE, "a", 256) != (kind == PICTURE ? 10 : other) || !both(b, "B", other);
        }
    check("9, 10 and 23 by the kind byte, whatever else stands there", wrong == 0);
}

/* One entry alone is the one that counts, at each place of a directory of 1, 2, 8 and 512. */
static void asked_places(struct bench *b)
{
    static const unsigned entries[] = {1, 2, 8, 512};
    unsigned wrong = 0;

    for (unsigned i = 0; i < 4; i++)
        for (unsigned at = 0; at < entries[i]; at++) {
            uint8_t *entry = b->desk.bytes[DIRECTORY] + ENTRY * at;
            spread(b, 1, entries[i], PICTURE);
            wrong += question(b, FORM, 0, "A", 1) != 23 || question(b, PICTURE, 1, "B", 1) != 23;
            entry[0] = EMPTY;
            wrong += question(b, FORM, 0, "A", 1) != 0 || question(b, PICTURE, 1, "B", 1) != 0;
            entry[0] = RECORDING;
            wrong += question(b, FORM, 0, "B", 1) != 9 || question(b, PICTURE, 1, "B", 1) != 9;
            entry[0] = FORM;
            entry[2] = 'Z';
            wrong += question(b, FORM, 0, "z", 1) != 10 || question(b, PICTURE, 1, "z", 1) != 23;
        }
    check("one entry alone, at each place of 1, 2, 8 and 512", wrong == 0);
    for (unsigned portions = 1; portions <= 2024; portions += portions < 300 ? 1 : 1724)
        for (unsigned at = 0; at < portions; at++) {
            spread(b, portions, 1, EMPTY);
            memset(b->desk.bytes[LINKS], 0, 2 * (size_t)portions);
            put_link(b, at, FREE);
            wrong += question(b, FORM, 0, "A", 1) != 0 || question(b, PICTURE, 256, "A", 1) != 0 || question(b, PICTURE, 257, "A", 1) != 19;
        }
    check("one free link alone, at each place of 1 to 300 and 2,024", wrong == 0);
}

/* The only link and the labels owed with each number; then each other byte of the image, the number of free portions too. */
static void asked_numbers(struct bench *b)
{
    unsigned links = 0, owed = 0, image = 0;

    spread(b, 1, 1, EMPTY);
    for (unsigned number = 0; number < 65536; number++) {
        put_link(b, 0, number);
        links += question(b, FORM, 0, "A", 1) != (number == FREE ? 0 : 19) || question(b, PICTURE, 1, "A", 1) != (number == FREE ? 0 : 19);
    }
    for (unsigned number = 0; number < 65536; number++) {
        put_image(b, 11, number, 2);
        owed += question(b, FORM, 0, "A", 1) != (number ? 8 : 0) || question(b, PICTURE, 1, "A", 1) != (number ? 8 : 0);
    }
    put_image(b, 11, 0, 2);
    for (unsigned i = 0; i < 256 * IMAGE; i++) {
        if (i / 256 == 11 || i / 256 == 12)
            continue;
        put_image(b, i / 256, i % 256, 1);
        image += question(b, FORM, 0, "A", 1) != 0 || question(b, PICTURE, 256, "A", 1) != 0 || question(b, PICTURE, 257, "A", 1) != 19;
    }
    check("19: a link is free at 65535 and at no other number", links == 0);
    check("8: each of the 65,535 numbers of labels owed", owed == 0);
    check("no other byte of the image is looked at", image == 0);
}

/* What each answer is given for, all at once, and each choice of them: bit 0 for 1, and so on up to 23. "in that order" */
static void asked_together(struct bench *b)
{
    static const unsigned answers[] = {1, 7, 8, 9, 10, 19, 23, 0};
    unsigned wrong = 0;

    for (unsigned choice = 0; choice < 128; choice++)
        for (unsigned way = 0; way < 6; way++) {
            unsigned kind = way % 2 ? PICTURE : FORM, first = 0;
            bool outside = choice & 2;
            while (first < 7 && !(choice >> first & 1))
                first++;
            spread(b, 3, 3, choice & 64 ? (uint8_t)(3 - kind) : EMPTY);
            if (choice & 16)
                b->desk.bytes[DIRECTORY][0] = (uint8_t)kind;
            if (choice & 8)
                b->desk.bytes[DIRECTORY][ENTRY] = RECORDING;
            for (unsigned i = 0; i < 3 && choice & 32; i++)
                put_link(b, i, CHAIN_END);
            put_image(b, 11, choice & 4 ? 1 : 0, 2);
            *(way < 2 ? &b->length[SESSION] : way < 4 ? &b->length[LINKS] : &b->length[DIRECTORY]) += choice & 1 ? (way < 2 ? 1 : way < 4 ? 2024 : 15) : 0;
            wrong += fits(b, outside && way < 2 ? 3 : kind, outside && way >= 2 && (way < 4 || kind == FORM) ? "A*" : "A",
                          outside && way == 5 ? 32769 : 700) != answers[first];
            b->length[SESSION] = IMAGE;
        }
    check("1, 7, 8, 9, 10, 19, 23: of each choice the first is given", wrong == 0);
}

/* ---- asked, and then sent ---- */

struct asked_twice {
    unsigned steps, seen[ANSWERS], wrong;
};

/* Session, store, links and directory, the slices that FS and GM change, and their room. */
struct kept {
    uint8_t bytes[SLICES][SHELF * PORTION + 16];
};

static const enum slice kept_slices[] = {SESSION, STORE, LINKS, DIRECTORY};

static void keep_slices(const struct bench *b, struct kept *k)
{
    for (unsigned i = 0; i < 4; i++)
        memcpy(k->bytes[kept_slices[i]], b->desk.bytes[kept_slices[i]], b->desk.room[kept_slices[i]]);
}

static void give_back(struct bench *b, const struct kept *k)
{
    for (unsigned i = 0; i < 4; i++)
        memcpy(b->desk.bytes[kept_slices[i]], k->bytes[kept_slices[i]], b->desk.room[kept_slices[i]]);
}

/* The question, and then the command itself on the same memory, which is given back. A label is owed now and then; nothing is recorded then and no
 * form is active, so it is sound. */
static void ask_and_send(struct bench *b, struct asked_twice *t, bool recording)
{
    static const char *const names[] = {"A", "b", "C", "d", "E", "f", "A", "B", "c", "g", "AB", "A ", "", "*", "b*", "123456789"};
    static uint8_t line[MOST_PICTURE + 64];
    static struct kept before;
    const char *name = names[chance_number() % 16];
    unsigned kind = 1 + (unsigned)(chance_number() % 2), size = chance_number() % 40 ? size_by_chance() : 32600 + (unsigned)(chance_number() % 300), answer;
    size_t length;

    keep_slices(b, &before);
    if (!recording && chance_number() % 8 == 0)
        put_image(b, 11, 1 + (unsigned)(chance_number() % 65535), 2);
    answer = fits(b, kind, name, size);
    length = kind == PICTURE && size <= MOST_PICTURE ? write_picture(line, name, strlen(name), size)
                                                     : (size_t)sprintf((char *)line, kind == FORM ? "FS\"%s\"\n" : "GM\"%s\",%u\n", name, size);
    t->wrong += answer >= ANSWERS || send_bytes(b, line, length) != answer;
    t->seen[answer % ANSWERS]++;
    t->steps++;
    give_back(b, &before);
}

static void asked_and_sent(void)
{
    struct asked_twice t = {0};
    struct full_twice commands = {0};
    struct bench b;
    char text[100];

    lay_out(&b, 40, SHELF, 6, 64);
    while (t.steps < 30000) {
        struct on_paper p = {.portions = 1 + (unsigned)(chance_number() % SHELF), .entries = 1 + (unsigned)(chance_number() % 6), .recording = -1};
        begin(&b, p.portions, p.entries, 0);
        for (unsigned i = 0; i < 60; i++) {
            step_twice(&b, &p, &commands);
            ask_and_send(&b, &t, p.recording >= 0);
        }
    }
    snprintf(text, sizeof text, "sent then: 7 %u, 8 %u, 9 %u, 10 %u, 19 %u, 23 %u, 0 %u", t.seen[7], t.seen[8], t.seen[9], t.seen[10], t.seen[19], t.seen[23], t.seen[0]);
    check(text, t.wrong == 0 && commands.wrong == 0);
    clear_away(&b.desk);
}

static void fits_cases(void)
{
    struct bench b;

    lay_out(&b, 1, 2026, 514, 0);
    asked_lengths(&b);
    asked_places(&b);
    clear_away(&b.desk);
    lay_out(&b, 1, 128, 3, 0);
    asked_kinds_and_sizes(&b);
    asked_names(&b);
    asked_names_in_use(&b);
    asked_kind_bytes(&b);
    asked_numbers(&b);
    asked_together(&b);
    asked_and_sent();
    clear_away(&b.desk);
}

/* ---- slanted lines ---- */

struct segment {
    int a, b, c, d, e;
};

/* Two pages of equal bytes, one for the peer and one for the plain telling, and the width and length at which drawing is cut. */
struct two_pages {
    uint8_t peer[MOST_ROWS * ROW_BYTES], plain[MOST_ROWS * ROW_BYTES];
    int width, length;
};

static int64_t square(int64_t number)
{
    return number * number;
}

/* "A dot belongs to the line exactly when four times the square of its distance to the segment is at most c squared. The square of the
 * distance is a fraction of whole numbers: to the nearer end where the foot lies outside the segment, otherwise the cross product squared over
 * the length squared. Equal ends make a disc." */
static bool belongs(const struct segment *s, int x, int y)
{
    int64_t across = s->d - s->a, down = s->e - s->b, length_squared = square(across) + square(down);
    int64_t foot = across * (x - s->a) + down * (y - s->b), cross = across * (y - s->b) - down * (x - s->a);
    int64_t to_first = square(x - s->a) + square(y - s->b), to_other = square(x - s->d) + square(y - s->e);

    if (foot < 0 || foot > length_squared || length_squared == 0)
        return 4 * (to_first < to_other ? to_first : to_other) <= square(s->c);
    return 4 * square(cross) <= square(s->c) * length_squared;
}

/* Every dot of the page asked by itself. */
static void draw_plainly(struct two_pages *p, const struct segment *s, enum ink ink)
{
    for (int y = 0; y < p->length; y++)
        for (int x = 0; x < p->width; x++) {
            uint8_t *byte = p->plain + y * ROW_BYTES + x / 8, bit = (uint8_t)(128 >> x % 8);
            if (belongs(s, x, y))
                *byte = (uint8_t)(ink == BLACK ? *byte | bit : ink == WHITE ? *byte & ~bit : *byte ^ bit);
        }
}

/* Both pages of so many dots, with the same dots black by chance, and some white rows below them. */
static size_t begin_pages(struct two_pages *p, int width, int length)
{
    size_t bytes = (size_t)(length < MOST_ROWS - 2 ? length + 2 : MOST_ROWS) * ROW_BYTES;

    p->width = width;
    p->length = length;
    for (size_t i = 0; i < bytes; i++)
        p->peer[i] = p->plain[i] = (uint8_t)(chance_number() >> 5);
    return bytes;
}

/* True if the peer's page and the plain one are the same behind this line, rows and columns past the cut too. */
static bool drawn_so(struct two_pages *p, struct segment s, enum ink ink, int width, int length)
{
    struct paper paper = {p->peer, width, length};
    size_t bytes = begin_pages(p, width, length);

    draw_slanted(&paper, s.a, s.b, s.c, s.d, s.e, ink);
    draw_plainly(p, &s, ink);
    if (memcmp(p->peer, p->plain, bytes) == 0)
        return true;
    printf("LS%d,%d,%d,%d,%d in ink %u on %d by %d\n", s.a, s.b, s.c, s.d, s.e, ink, width, length);
    return false;
}

static struct two_pages pages;

/* Each segment that reaches up to nine dots across and down, with each thickness to 24 and some more. */
static void small_segments(void)
{
    unsigned lines = 0, wrong = 0;
    char text[80];

    for (int across = -9; across <= 9; across++)
        for (int down = -9; down <= 9; down++)
            for (int c = 1; c <= 80; c += c < 24 ? 1 : 7) {
                int at = 10 + c / 2;
                struct segment s = {at, at, c, at + across, at + down};
                wrong += !drawn_so(&pages, s, (enum ink)(lines++ % 3), 20 + c + 3 > 80 ? 20 + c + 3 : 80, 20 + c + 3);
            }
    snprintf(text, sizeof text, "told again: %u small slanted lines", lines);
    check(text, wrong == 0);
}

/* Segments with dots of which just the foot decides, each in eight directions: across and down exchanged, and to each side. */
static void close_segments(void)
{
    static const int close[][3] = {{14, 5, 7}, {17, 6, 7}, {20, 7, 7}, {23, 8, 7}, {26, 9, 7}, {28, 10, 7}, {29, 10, 7}, {40, 14, 7}, {23, 6, 17}, {27, 7, 17}, {31, 8, 17}, {24, 11, 25},
                                   {35, 16, 25}, {29, 6, 31}, {34, 7, 31}, {35, 6, 49}, {41, 7, 49}, {29, 9, 55}, {34, 13, 55}, {41, 6, 71}, {48, 7, 71}};
    unsigned wrong = 0;

    for (unsigned i = 0; i < sizeof close / sizeof close[0]; i++)
        for (int way = 0; way < 8; way++) {
            int across = close[i][way % 2] * (way & 2 ? -1 : 1), down = close[i][1 - way % 2] * (way & 4 ? -1 : 1);
            wrong += !drawn_so(&pages, (struct segment){100, 100, close[i][2], 100 + across, 100 + down}, INVERT, 200, 200);
        }
    check("told again: where the foot alone decides, eight ways", wrong == 0);
}

static int number_to(int most)
{
    return (int)(chance_number() % (unsigned)(most + 1));
}

/* A coordinate on the page or near it, or anywhere in its limits. */
static int near_or_far(int size, int most)
{
    return number_to(number_to(3) && size + 60 < most ? size + 60 : most);
}

/* At an origin or at none; some level, upright, at 45 degrees or with equal ends. */
static struct segment segment_by_chance(int width, int length)
{
    int x = number_to(3) ? 0 : number_to(2048), y = number_to(3) ? 0 : number_to(4096), c = 1 + number_to(number_to(2) ? 79 : 5);
    struct segment s = {x + near_or_far(width, 2047), y + near_or_far(length, 4095), c, x + near_or_far(width, 2047), y + near_or_far(length, 4095)};
    int aside = s.d - s.a;

    switch (number_to(9)) {
    case 0: s.d = s.a; break;
    case 1: s.e = s.b; break;
    case 2: s.d = s.a; s.e = s.b; break;
    case 3: s.e = s.b + aside >= y && s.b + aside <= y + 4095 ? s.b + aside : s.b; break;
    }
    return s;
}

static void segments_by_chance(unsigned wanted, int most_width, int most_length, const char *what)
{
    unsigned wrong = 0;
    char text[80];

    for (unsigned i = 0; i < wanted; i++) {
        int width = 80 + number_to(most_width - 80), length = 1 + number_to(most_length - 1);
        wrong += !drawn_so(&pages, segment_by_chance(width, length), (enum ink)(i % 3), width, length);
    }
    snprintf(text, sizeof text, "told again: %u slanted lines %s", wanted, what);
    check(text, wrong == 0);
}

/* The farthest ends that R2048,4096 and the limits allow, and from corner to corner of the greatest page. */
static void farthest_segments(void)
{
    static const struct segment far[] = {
        {4095, 8191, 80, 2048, 4096}, {2048, 8191, 80, 4095, 4096}, {2047, 4095, 80, 0, 0}, {0, 4095, 80, 2047, 0}, {0, 0, 1, 607, 3999},
        {607, 0, 1, 0, 3999}, {0, 0, 80, 607, 3999}, {0, 3999, 79, 607, 0}, {0, 0, 1, 2047, 4095}, {2047, 0, 2, 0, 4095}, {0, 0, 80, 2047, 1},
        {0, 1, 80, 2047, 0}, {0, 0, 80, 1, 4095}, {1, 0, 80, 0, 4095}, {607, 0, 80, 607, 4095}, {0, 3999, 80, 2047, 3999}, {647, 0, 80, 647, 4095},
        {646, 0, 80, 647, 4095}, {0, 4039, 80, 607, 4039}, {0, 4038, 80, 607, 4039}, {0, 4040, 80, 607, 4039}, {2047, 8191, 80, 600, 4096}};
    unsigned wrong = 0;

    for (unsigned i = 0; i < sizeof far / sizeof far[0]; i++)
        for (int c = 0; c < 2; c++)
            wrong += !drawn_so(&pages, far[i], (enum ink)((i + (unsigned)c) % 3), 608 - 5 * c, 4000 - 13 * c);
    check("told again: the longest lines and the farthest ends", wrong == 0);
}

/* ---- slanted lines by hand ---- */

/* The background is these rows, # for black, and white everywhere else. */
static int looks(const struct bench *b, const char *const *rows, unsigned number)
{
    unsigned black = 0, wrong = 0;

    for (unsigned y = 0; y < number; y++)
        for (unsigned x = 0; rows[y][x]; x++) {
            black += rows[y][x] == '#';
            wrong += dot(b, BACKGROUND, (int)x, (int)y) != (rows[y][x] == '#');
        }
    return wrong == 0 && black == black_dots(b, BACKGROUND);
}

/* Of a line sent on a white page. */
static int drawn_as(struct bench *b, const char *line, const char *const *rows, unsigned number)
{
    return send(b, "N") == 0 && send(b, line) == 0 && looks(b, rows, number);
}

#define DRAWN_AS(b, line, rows) drawn_as(b, line, rows, sizeof rows / sizeof rows[0])

/* "even c: `LS3,5,2,9,5` has three rows. Ends are round." */
static void level_by_hand(struct bench *b)
{
    static const char *const two[] = {"", "", "", "", "...#######", "..#########", "...#######"};
    static const char *const upright[] = {"", "", "", ".....#", "....###", "....###", "....###", ".....#"};
    static const char *const five[] = {"", "", "", "..#######", ".#########", ".#########", ".#########", "..#######"};

    check("LS3,5,2,9,5 has three rows and round ends", DRAWN_AS(b, "LS3,5,2,9,5", two));
    check("so has an upright one columns", DRAWN_AS(b, "LS5,4,2,5,6", upright));
    check("LS3,5,5,7,5 has five rows, the outer ones shorter", DRAWN_AS(b, "LS3,5,5,7,5", five));
}

/* "Equal ends make a disc." */
static void discs_by_hand(struct bench *b)
{
    static const char *const discs[8][9] = {
        {"", "", "", "", "....#", "", "", "", ""},
        {"", "", "", "....#", "...###", "....#", "", "", ""},
        {"", "", "", "...###", "...###", "...###", "", "", ""},
        {"", "", "....#", "...###", "..#####", "...###", "....#", "", ""},
        {"", "", "...###", "..#####", "..#####", "..#####", "...###", "", ""},
        {"", "....#", "..#####", "..#####", ".#######", "..#####", "..#####", "....#", ""},
        {"", "...###", "..#####", ".#######", ".#######", ".#######", "..#####", "...###", ""},
        {"....#", "..#####", ".#######", ".#######", "#########", ".#######", ".#######", "..#####", "....#"}};
    unsigned wrong = 0;

    for (unsigned c = 1; c <= 8; c++) {
        char line[32];
        sprintf(line, "LS4,4,%u,4,4", c);
        wrong += !drawn_as(b, line, discs[c - 1], 9);
    }
    check("discs of thickness 1 to 8", wrong == 0);
}

static void diagonals_by_hand(struct bench *b)
{
    static const char *const one[] = {"", "", "..#", "...#", "....#", ".....#", "......#"};
    static const char *const two[] = {"", "..#", ".###", "..###", "...###", "....###", ".....###", "......#"};
    static const char *const three[] = {"", "", "..###", "..####", "..#####", "...#####", "....####", ".....###"};
    static const char *const falling[] = {"", "", ".....###", "....####", "...#####", "..#####", "..####", "..###"};

    check("at 45 degrees thickness 1 is one dot a row", DRAWN_AS(b, "LS2,2,1,6,6", one));
    check("thickness 2 has three, thickness 3 five",
          DRAWN_AS(b, "LS2,2,2,6,6", two) && DRAWN_AS(b, "LS3,3,3,6,6", three) && DRAWN_AS(b, "LS6,3,3,3,6", falling));
}

/* Three across and four down are five long, so the dots four across and three up from a dot of the segment are just five away. */
static void boundaries_by_hand(struct bench *b)
{
    static const int dots[][2] = {{24, 17}, {16, 23}, {27, 21}, {19, 27}, {30, 25}, {22, 31}, {33, 29}, {25, 35}, {17, 16}, {32, 36}};
    unsigned on = 0, off = 0;

    send(b, "N");
    send(b, "LS20,20,10,29,32");
    for (unsigned i = 0; i < 10; i++)
        on += (unsigned)dot(b, BACKGROUND, dots[i][0], dots[i][1]);
    send(b, "N");
    send(b, "LS20,20,9,29,32");
    for (unsigned i = 0; i < 10; i++)
        off += (unsigned)dot(b, BACKGROUND, dots[i][0], dots[i][1]);
    check("dots just c/2 away belong to the line, and not to c - 1", on == 10 && off == 0);
}

/* Two across and three up from the first end the square of the distance to it is 13, and a quarter of 49 is less. The foot lies on the segment there, and the cross
 * product is 52: four times its square is 10,816, and 49 times the length squared, 221, is 10,829. On the other side the foot lies outside. */
static void feet_by_hand(struct bench *b)
{
    static const int on[][2] = {{22, 17}, {32, 28}}, off[][2] = {{18, 23}, {36, 22}};
    unsigned right = 0;

    send(b, "N");
    send(b, "LS20,20,7,34,25");
    for (unsigned i = 0; i < 2; i++)
        right += dot(b, BACKGROUND, on[i][0], on[i][1]) && !dot(b, BACKGROUND, off[i][0], off[i][1]);
    check("a foot just on the segment and one just outside it", right == 2);
}

/* Level and upright, with each thickness: c/2 rounded down on both sides of the segment, and as much past its ends. */
static void rows_by_hand(struct bench *b)
{
    unsigned wrong = 0;

    for (int c = 1; c <= 80; c++)
        for (int turned = 0; turned < 2; turned++) {
            int rows = 0, columns = 0;
            char line[40];
            sprintf(line, turned ? "LS100,60,%d,100,140" : "LS60,100,%d,140,100", c);
            send(b, "N");
            wrong += send(b, line) != 0;
            for (int i = 0; i < 200; i++) {
                rows += dot(b, BACKGROUND, turned ? i : 100, turned ? 100 : i);
                columns += dot(b, BACKGROUND, turned ? 100 : i, turned ? i : 100);
            }
            wrong += rows != 2 * (c / 2) + 1 || columns != 81 + 2 * (c / 2);
        }
    check("level and upright, c 1 to 80: rows and columns counted", wrong == 0);
}

/* ---- what follows from the definition ---- */

static void send_segment(struct bench *b, const char *word, struct segment s)
{
    char line[64];

    sprintf(line, "%s%d,%d,%d,%d,%d", word, s.a, s.b, s.c, s.d, s.e);
    if (send(b, line) != 0) {
        printf("not taken: %s\n", line);
        exit(1);
    }
}

static int same_background(const struct bench *one, const struct bench *other)
{
    return memcmp(one->desk.bytes[BACKGROUND], other->desk.bytes[BACKGROUND], one->length[BACKGROUND]) == 0;
}

/* Both desks have the same background, whatever stands there, before each line and behind it. */
static void laws_of_ink(struct bench *b, struct bench *other)
{
    unsigned exchanged = 0, twice = 0, white = 0, once = 0;

    for (unsigned i = 0; i < 400; i++) {
        struct segment s = {number_to(360), number_to(300), 1 + number_to(79), number_to(360), number_to(300)};
        if (i % 8 == 0)
            s = (struct segment){s.a, s.b, s.c, s.a, s.b};
        send_segment(b, "LSE", s);
        send_segment(other, "LSE", (struct segment){s.d, s.e, s.c, s.a, s.b});
        exchanged += !same_background(b, other);
        send_segment(b, "LSE", s);
        send_segment(b, "LSE", s);
        twice += !same_background(b, other);
        send_segment(b, "LSW", s);
        send_segment(other, "LS", s);
        send_segment(other, "LSE", s);
        white += !same_background(b, other);
        send_segment(b, "LSE", s);
        send_segment(other, "LS", s);
        once += !same_background(b, other);
    }
    check("ends exchanged give the same page", exchanged == 0);
    check("LSE twice gives back the page", twice == 0);
    check("LS and then LSE is LSW, whatever stood there", white == 0);
    check("where all is white LSE is LS: each dot is touched once", once == 0);
}

/* "R is added to both ends": the same dots as with greater numbers, and the page cut at its own width and length. */
static void laws_of_place(struct bench *b, struct bench *wide)
{
    unsigned wrong = 0;

    for (unsigned i = 0; i < 300; i++) {
        struct segment s = {number_to(300), number_to(250), 1 + number_to(79), number_to(300), number_to(250)};
        int x = number_to(100), y = number_to(100);
        char origin[40];
        sprintf(origin, "R%d,%d", x, y);
        send(b, "N");
        send(b, origin);
        send_segment(b, "LS", s);
        send(wide, "N");
        send_segment(wide, "LS", (struct segment){s.a + x, s.b + y, s.c, s.d + x, s.e + y});
        for (int v = 0; v < 300; v++)
            for (int u = 0; u < 608; u++)
                wrong += dot(b, BACKGROUND, u, v) != (u < 333 && v < 277 && dot(wide, BACKGROUND, u, v));
    }
    send(b, "R0,0");
    check("R is added to both ends, and the page cuts the line", wrong == 0);
}

/* With the greatest R no line reaches the page any more, in no direction. */
static void farthest_origins(struct bench *b)
{
    static const char *const origins[] = {"R2048,0", "R0,4096", "R2048,4096"};
    unsigned black = 0;

    for (unsigned i = 0; i < 3; i++) {
        send(b, "N");
        send(b, origins[i]);
        send_segment(b, "LS", (struct segment){0, 0, 80, 2047, 4095});
        send_segment(b, "LSE", (struct segment){0, 4095, 80, 2047, 0});
        send_segment(b, "LS", (struct segment){0, 0, 80, 0, 0});
        black += black_dots(b, BACKGROUND);
    }
    send(b, "R0,0");
    check("at R2048 across or R4096 down no line reaches the page", black == 0);
}

/* Each black dot of the page looks into a mirror, aside and downwards. */
static void laws_of_mirrors(struct bench *b, struct bench *other)
{
    unsigned wrong = 0;

    for (unsigned i = 0; i < 300; i++) {
        struct segment s = {number_to(332), number_to(276), 1 + number_to(79), number_to(332), number_to(276)};
        bool aside = i % 2;
        send(b, "N");
        send(other, "N");
        send_segment(b, "LS", s);
        send_segment(other, "LS", aside ? (struct segment){332 - s.a, s.b, s.c, 332 - s.d, s.e} : (struct segment){s.a, 276 - s.b, s.c, s.d, 276 - s.e});
        for (int y = 0; y < 277; y++)
            for (int x = 0; x < 333; x++)
                wrong += dot(b, BACKGROUND, x, y) != dot(other, BACKGROUND, aside ? 332 - x : x, aside ? y : 276 - y);
    }
    check("the mirrored line is the line in the mirror", wrong == 0);
}

/* ---- how slanted lines are written, recorded and drawn by labels ---- */

static void slanted_places(struct bench *b)
{
    static const struct pointed form[] = {
        {"LS", 6, 2}, {"LSE", 6, 3}, {"LSW", 6, 3}, {"LSx", 6, 2}, {"LSEx", 6, 3}, {"LSO0,0,1,5,5", 6, 2}, {"LSEW0,0,1,5,5", 6, 3}, {"LSWW0,0,1,5,5", 6, 3},
        {"LSS0,0,1,5,5", 6, 2}, {"LSe0,0,1,5,5", 6, 2}, {"Ls0,0,1,5,5", 6, 0}, {"LES0,0,1,5,5", 6, 2}, {"LS,0,1,5,5", 6, 2}, {"LSE,0,1,5,5", 6, 3},
        {"LS E0,0,1,5,5", 6, 2}, {"LS0", 6, 3}, {"LS0,", 6, 4}, {"LS0,0,1,5", 6, 9}, {"LS0,0,1,5,", 6, 10}, {"LSE0,0,1,5,", 6, 11}, {"LS0,0,1,5,x", 6, 10},
        {"LS0,0,1,5,5,", 6, 11}, {"LS0,0,1,5,5,5", 6, 11}, {"LSW0,0,1,5,5E", 6, 12}, {"LS0,0,1,5,5 ", 6, 11}, {"LS0x0,1,5,5", 6, 3}, {"LS0,+0,1,5,5", 6, 4},
        {"LSE1234567890,0,1,5,5", 6, 3}, {"LS0,0,1,5,0000000005", 6, 10}, {"LS9999,", 6, 7}, {"LSW9999,0,0,5,5x", 6, 15}, {"E0,0,1,5,5", 6, 0}};
    static const struct pointed limit[] = {
        {"LS2047,4095,80,2047,4095", 0, 0}, {"LSE0,0,1,0,0", 0, 0}, {"LSW000000000,000000000,000000001,000000000,0", 0, 0}, {"LS2048,0,1,0,0", 7, 2},
        {"LS0,4096,1,0,0", 7, 4}, {"LS0,0,0,0,0", 7, 6}, {"LS0,0,81,0,0", 7, 6}, {"LS0,0,1,2048,0", 7, 8}, {"LS0,0,1,0,4096", 7, 10}, {"LSE2048,0,1,0,0", 7, 3},
        {"LSE0,4096,1,0,0", 7, 5}, {"LSE0,0,0,0,0", 7, 7}, {"LSE0,0,81,0,0", 7, 7}, {"LSE0,0,1,2048,0", 7, 9}, {"LSE0,0,1,0,4096", 7, 11}, {"LSW2048,4096,0,0,0", 7, 3},
        {"LSW0,4096,81,2048,0", 7, 5}, {"LSW0,0,81,2048,4096", 7, 7}, {"LSW0,0,1,2048,4096", 7, 9}, {"LSW0,0,1,999999999,0", 7, 9}, {"LS2047,4095,0,2047,4095", 7, 12}};

    check("slanted lines: 6 points, and what is cut to its LF", POINT_SO(b, form));
    check("slanted lines: 7 points to each field at its limits", POINT_SO(b, limit));
}

/* "LS may be recorded", with leading zeros dropped; FP lists what is kept. */
static void slanted_recorded(struct bench *b)
{
    static const struct pointed lines[] = {
        {"FS\"S\"", 0, 0}, {"LS003,05,2,9,005", 0, 0}, {"LSE010,0,08,00,200", 0, 0}, {"LS0,0,81,5,5", 7, 6}, {"LSx", 6, 2}, {"LSW0,0,1,7,9", 0, 0}, {"FE", 0, 0}, {"FR\"S\"", 0, 0},
        {"FP\"S\"", 0, 0}};
    static const char kept[] = "LS3,5,2,9,5\nLSE10,0,8,0,200\nLSW0,0,1,7,9\n";
    static const struct pointed owing[] = {{"P2", 0, 0}, {"LS3,5,2,9,5", 8, 0}, {"LSE3,5,81,9,5", 7, 7}, {"LSW3,5,2,9", 6, 10}};

    check("LS, LSE and LSW are recorded where R and LO are", POINT_SO(b, lines));
    check("without leading zeros, as FP lists them", count(b, 1) == sizeof kept - 1 && memcmp(b->desk.bytes[OUTPUT], kept, sizeof kept - 1) == 0);
    check("while labels are owed LS is 8, and 6 and 7 before it", POINT_SO(b, owing));
    check("nothing of it was drawn by recording it", black_dots(b, BACKGROUND) == 0);
}

/* A form whose only line is this one, put in by hand. */
static unsigned sound_with(struct bench *b, const char *line)
{
    size_t length = strlen(line);

    begin(b, 4, 2, 0);
    if (form(b, "S") != 0)
        abort();
    memcpy(b->desk.bytes[STORE], line, length);
    b->desk.bytes[DIRECTORY][12] = (uint8_t)length;
    return send(b, "");
}

static void slanted_sound(struct bench *b)
{
    static const char *const sound_lines[] = {"LS3,5,2,9,5\n", "LSE2047,4095,80,0,0\n", "LSW0,0,1,2047,4095\n"};
    static const char *const others[] = {
        "LS03,5,2,9,5\n", "LS3,5,2,9,05\n", "LSE3,5,00,9,5\n", "LS3,5,0,9,5\n", "LS3,5,81,9,5\n", "LS2048,5,2,9,5\n", "LS3,4096,2,9,5\n", "LSW3,5,2,2048,5\n",
        "LSW3,5,2,9,4096\n", "LSO3,5,2,9,5\n", "LS3,5,2,9\n", "LS3,5,2,9,5,\n", "LS3,5,2,9,5", "LSE\n", "LS\n"};
    unsigned wrong = 0;

    for (unsigned i = 0; i < 3; i++)
        wrong += sound_with(b, sound_lines[i]) != 0;
    check("a form of a slanted line is sound", wrong == 0);
    wrong = 0;
    for (unsigned i = 0; i < sizeof others / sizeof others[0]; i++)
        wrong += sound_with(b, others[i]) != 3;
    check("and 3 with any other number, zero, letter or end", wrong == 0);
}

/* Lines by chance sent to a background and recorded in a form, told again on the plain page; R between them, the page turned or not. */
static void label_by_chance(struct bench *b, unsigned *wrong)
{
    static const char *const words[] = {"LS", "LSW", "LSE"};
    int width = 80 + number_to(120), length = 1 + number_to(99), split = number_to(8), x = 0, y = 0;
    char line[64];

    begin_pages(&pages, width, length);
    memset(pages.plain, 0, (size_t)(length + 2) * ROW_BYTES);
    call_station(&peer_station, &b->desk, OPEN, b->length);
    sprintf(line, "q%d", width);
    send(b, line);
    sprintf(line, "Q%d,0", length);
    send(b, line);
    for (int i = 0; i < 16; i++) {
        struct segment s = {number_to(width + 40), number_to(length + 40), 1 + number_to(i % 2 ? 8 : 79), number_to(width + 40), number_to(length + 40)};
        if (i == split)
            *wrong += send(b, "FS\"S\"") != 0;
        if (i % 4 == 1) {
            sprintf(line, "R%d,%d", x = number_to(30), y = number_to(30));
            *wrong += send(b, line) != 0;
        }
        send_segment(b, words[i % 3], s);
        draw_plainly(&pages, &(struct segment){s.a + x, s.b + y, s.c, s.d + x, s.e + y}, (enum ink)(i % 3));
    }
    *wrong += send(b, "FE") != 0 || send(b, "FR\"S\"") != 0 || send(b, number_to(1) ? "ZB" : "ZT") != 0 || send(b, "P1") != 0 || label(b) != 0;
    for (int v = 0; v < length; v++)
        for (int u = 0; u < width; u++) {
            bool turned = b->desk.bytes[SESSION][4] == 1;
            int at_x = turned ? width - 1 - u : u, at_y = turned ? length - 1 - v : v;
            *wrong += dot(b, PAGE, u, v) != (pages.plain[at_y * ROW_BYTES + at_x / 8] >> (7 - at_x % 8) & 1);
        }
}

static void slanted_labels(struct bench *b)
{
    unsigned wrong = 0;

    for (unsigned i = 0; i < 300; i++)
        label_by_chance(b, &wrong);
    check("300 labels of background and form, straight and turned", wrong == 0);
}

static void slanted_cases(void)
{
    struct bench b, other;

    small_segments();
    close_segments();
    segments_by_chance(20000, 200, 120, "on small pages");
    segments_by_chance(300, 608, 4000, "on great pages");
    farthest_segments();
    open_bench(&b, 300, empty_font, sizeof empty_font);
    level_by_hand(&b);
    discs_by_hand(&b);
    diagonals_by_hand(&b);
    boundaries_by_hand(&b);
    feet_by_hand(&b);
    rows_by_hand(&b);
    open_bench(&other, 400, empty_font, sizeof empty_font);
    send(&b, "q333");
    send(&b, "Q277,0");
    laws_of_place(&b, &other);
    farthest_origins(&b);
    clear_away(&other.desk);
    open_bench(&other, 300, empty_font, sizeof empty_font);
    send(&other, "q333");
    send(&other, "Q277,0");
    laws_of_mirrors(&b, &other);
    send(&b, "N");
    send(&other, "N");
    laws_of_ink(&b, &other);
    slanted_places(&b);
    send(&b, "N");
    slanted_recorded(&b);
    slanted_labels(&b);
    slanted_sound(&b);
    clear_away(&other.desk);
    clear_away(&b.desk);
}

/* ---- rectangles, the turned page, a picture ---- */

/* Rectangles in each ink, kept dot by dot in a second page. */
static void rectangle_cases(void)
{
    static uint8_t plain[300][608];
    struct bench b;
    unsigned state = 1, wrong = 0;

    open_bench(&b, 300, empty_font, sizeof empty_font);
    send(&b, "q333");
    send(&b, "R7,5");
    memset(plain, 0, sizeof plain);
    for (int i = 0; i < 300; i++) {
        char line[64];
        unsigned n[5];
        for (int k = 0; k < 5; k++)
            n[k] = (state = state * 1103515245u + 12345u) >> 16;
        unsigned x = n[0] % 350, y = n[1] % 310, wide = n[2] % 90 + 1, high = n[3] % 60 + 1, ink = n[4] % 3;
        sprintf(line, "L%c%u,%u,%u,%u", "OWE"[ink], x, y, wide, high);
        wrong += send(&b, line) != 0;
        for (unsigned v = y + 5; v < y + 5 + high && v < 300; v++)
            for (unsigned u = x + 7; u < x + 7 + wide && u < 333; u++)
                plain[v][u] = ink == 0 ? 1 : ink == 1 ? 0 : !plain[v][u];
    }
    for (int y = 0; y < 300; y++)
        for (int x = 0; x < 608; x++)
            wrong += dot(&b, BACKGROUND, x, y) != plain[y][x];
    check("300 rectangles in three inks, dot by dot", wrong == 0);

    send(&b, "ZB");
    send(&b, "P1");
    wrong = label(&b) != 0;
    for (int y = 0; y < 300; y++)
        for (int x = 0; x < 608; x++)
            wrong += dot(&b, PAGE, x, y) != (x < 333 && plain[299 - y][332 - x]);
    check("with ZB the page is turned by 180 degrees, dot by dot", wrong == 0);
    clear_away(&b.desk);
}

/* A picture of 21 by 9 dots with line bytes to spare, drawn at many places. */
static void picture_case(void)
{
    uint8_t picture[300] = "GM\"P\",182\n", *head = picture + 10, *body = head + 128;
    struct bench b;
    unsigned wrong = 0;

    memcpy(head, (const uint8_t[]){10, 5, 1, 1, 3, 0, 2, 0, 23, 0, 10, 0}, 12);
    head[65] = 1;
    head[66] = 6;
    for (int i = 0; i < 54; i++)
        body[i] = (uint8_t)(i * 61 % 192);
    open_bench(&b, 60, empty_font, sizeof empty_font);
    send(&b, "q101");
    wrong += send_bytes(&b, picture, 10 + 182) != 0;
    for (int at = 0; at < 110; at++) {
        char line[64];
        sprintf(line, "GG%d,%d,\"p\"", at, at / 2);
        send(&b, "N");
        wrong += send(&b, line) != 0;
        for (int y = 0; y < 60; y++)
            for (int x = 0; x < 608; x++) {
                int u = x - at, v = y - at / 2;
                int black = x < 101 && u >= 0 && u < 21 && v >= 0 && v < 9 && !(body[6 * v + u / 8] >> (7 - u % 8) & 1);
                wrong += dot(&b, BACKGROUND, x, y) != black;
            }
    }
    check("a picture at 110 places, dot by dot", wrong == 0);
    clear_away(&b.desk);
}

/* ---- Code 128 as short as it can be ---- */

/* The bars of this data, with narrow 3, read back: they have their check and give the data. */
static bool read_back(const void *data, unsigned length, struct reading *r)
{
    uint8_t widths[MOST_BARS];
    unsigned count = bar_widths(CODE_128, 3, 4, data, length, widths);

    return read_bars(widths, count, 3, r) && r->length == length && memcmp(r->data, data, length) == 0;
}

static bool values_are(const struct reading *r, const uint8_t *values, unsigned count)
{
    return r->count == count && memcmp(r->value, values, count) == 0;
}

static void tell_values(const struct reading *r, char *text)
{
    for (unsigned i = 0; i < r->count; i++)
        text += sprintf(text, "%u ", r->value[i]);
    sprintf(text, "check %u", r->check);
}

static const struct {
    const char *data, *values;
} written_by_hand[] = {
    {"A", "104 33 check 34"}, {"1", "104 17 check 18"}, {" ", "104 0 check 1"}, {"~", "104 94 check 95"}, {"12", "105 12 check 14"},
    {"00", "105 0 check 2"}, {"123", "104 17 18 19 check 8"}, {"000", "104 16 16 16 check 97"}, {"1234", "105 12 34 check 82"},
    {"0000", "105 0 0 check 2"}, {"9999", "105 99 99 check 93"}, {"12345", "104 17 99 23 45 check 53"}, {"1234567", "104 17 99 23 45 67 check 79"},
    {"A12", "104 33 17 18 check 19"}, {"A123", "104 33 17 18 19 check 95"}, {"A1234", "104 33 99 12 34 check 95"},
    {"A12345", "104 33 17 99 23 45 check 64"}, {"AIM1234", "104 33 41 45 99 12 34 check 87"}, {"12A", "104 17 18 33 check 50"},
    {"123A", "104 17 18 19 33 check 37"}, {"1234A", "105 12 34 100 33 check 102"}, {"12345A", "105 12 34 100 21 33 check 13"},
    {"A1234B", "104 33 17 18 19 20 34 check 90"}, {"A12345B", "104 33 17 18 19 20 21 34 check 44"},
    {"A123456B", "104 33 99 12 34 56 100 34 check 80"}, {"A1234567B", "104 33 17 99 23 45 67 100 34 check 99"},
    {"12 34", "104 17 18 0 19 20 check 24"}, {"1234 5678", "105 12 34 100 0 99 56 78 check 8"}, {"123-456", "104 17 18 19 13 20 21 22 check 28"},
    {"/0000:", "104 15 16 16 16 16 26 check 87"}, {"/000000:", "104 15 99 0 0 0 100 26 check 69"}, {"99A99", "104 25 25 33 25 25 check 91"}};

static void writings_by_hand(void)
{
    unsigned wrong = 0;
    struct reading r;
    char text[128];

    for (unsigned i = 0; i < sizeof written_by_hand / sizeof written_by_hand[0]; i++) {
        wrong += !read_back(written_by_hand[i].data, (unsigned)strlen(written_by_hand[i].data), &r);
        tell_values(&r, text);
        wrong += strcmp(text, written_by_hand[i].values) != 0;
    }
    check("type 1 by hand: A12 in B, 123 from 104, AIM1234 with 87", wrong == 0);
}

/* Of a row of n digits, with a letter before it, behind it, on both sides or alone: how many symbols, start included, and no check. By hand: set B has one for each byte; where it is
 * written in pairs, n/2 of them, an odd digit and the changes. */
static unsigned symbols_of_row(unsigned n, bool before, bool behind)
{
    unsigned pairs = n / 2 + n % 2, letters = (unsigned)before + behind;

    if (!before && !behind)
        return n == 1 || n == 3 ? n + 1 : 1 + pairs + n % 2;
    if (before && behind)
        return n < 6 ? n + 3 : 1 + pairs + letters + 2;
    return n < 4 ? n + 2 : 1 + pairs + letters + 1;
}

/* Rows of digits of every length up to 128 bytes in all. The lists say which writing, the hand how many symbols. */
static void rows_of_digits(bool before, bool behind, const char *what)
{
    uint8_t data[MOST_DATA], values[MOST_WRITTEN + 1];
    unsigned wrong = 0;
    struct reading r;

    for (unsigned n = 1; n + before + behind <= MOST_DATA; n++) {
        unsigned length = n + before + behind;
        for (unsigned i = 0; i < n; i++)
            data[before + i] = (uint8_t)('0' + (7 * i + n) % 10);
        if (before)
            data[0] = 'A';
        if (behind)
            data[length - 1] = 'z';
        wrong += !read_back(data, length, &r) || r.count != symbols_of_row(n, before, behind);
        wrong += !values_are(&r, values, least_of_lists(data, length, values));
    }
    check(what, wrong == 0);
}

/* The writing of bars.c, that of all writings and that by rows are one; *made grows by the writings. */
static bool least_so(const uint8_t *data, unsigned length, uint64_t *made)
{
    uint8_t all[MOST_WRITTEN + 1], rows[MOST_WRITTEN + 1];
    unsigned count = least_of_all(data, length, all, made);
    struct reading r;

    return read_back(data, length, &r) && values_are(&r, all, count) && write_by_rows(data, length, rows) == count && memcmp(rows, all, count) == 0;
}

/* Every data of one byte to so many over an alphabet. */
static void every_data(const char *alphabet, unsigned most)
{
    unsigned letters = (unsigned)strlen(alphabet), wrong = 0;
    uint64_t made = 0, all = 1;
    char what[128];
    uint8_t data[16];

    for (unsigned length = 1; length <= most; length++) {
        all *= letters;
        for (uint64_t k = 0; k < all; k++) {
            uint64_t rest = k;
            for (unsigned i = 0; i < length; i++, rest /= letters)
                data[i] = (uint8_t)alphabet[rest % letters];
            wrong += !least_so(data, length, &made);
        }
    }
    snprintf(what, sizeof what, "every data of 1 to %u bytes of `%s`, all writings", most, alphabet);
    check(what, wrong == 0 && made > all);
}

/* Much of digits, in rows: after a digit another one is likelier. Bytes beside the digits too. */
static void data_by_chance(uint8_t *data, unsigned length, unsigned digits_in_ten)
{
    for (unsigned i = 0; i < length; i++) {
        bool row = i > 0 && data[i - 1] >= '0' && data[i - 1] <= '9';
        if (chance_number() % 10 < digits_in_ten + (row ? 1 : 0))
            data[i] = (uint8_t)('0' + chance_number() % 10);
        else
            data[i] = (uint8_t)(chance_number() % 3 ? 32 + chance_number() % 95 : chance_number() % 2 ? 47 : 58);
    }
}

static void short_data_by_chance(void)
{
    unsigned wrong = 0;
    uint64_t made = 0;
    uint8_t data[16];

    for (unsigned i = 0; i < 3000; i++) {
        unsigned length = 9 + (unsigned)(chance_number() % 6);
        data_by_chance(data, length, 5 + i % 5);
        wrong += !least_so(data, length, &made);
    }
    check("3000 data of 9 to 14 bytes by chance, all writings", wrong == 0);
}

/* "never more than set B alone has": a start and a symbol for each byte. */
static void long_data_by_chance(void)
{
    uint8_t data[MOST_DATA], lists[MOST_WRITTEN + 1], rows[MOST_WRITTEN + 1];
    unsigned unread = 0, more = 0, wrong = 0;
    struct reading r;

    for (unsigned i = 0; i < 1500; i++) {
        unsigned length = i % 10 == 0 ? MOST_DATA : 1 + (unsigned)(chance_number() % MOST_DATA);
        data_by_chance(data, length, i % 11);
        unread += !read_back(data, length, &r);
        more += r.count > length + 1;
        wrong += !values_are(&r, lists, least_of_lists(data, length, lists)) || !values_are(&r, rows, write_by_rows(data, length, rows));
    }
    check("1500 data of up to 128 bytes: their bars read back", unread == 0);
    check("no more symbols than set B alone has", more == 0);
    check("the writing that lists of values and rows of digits give", wrong == 0);
}

/* What row 0 of a page says, if it is one symbol with modules of one dot. */
static bool row_reads(const struct bench *b, enum slice s, const char *data)
{
    uint8_t widths[ROW_BYTES * 8];
    unsigned first, count = row_widths(b->desk.bytes[s], ROW_BYTES * 8, widths, &first);
    struct reading r;

    return read_bars(widths, count, 1, &r) && r.length == strlen(data) && memcmp(r.data, data, r.length) == 0;
}

/* The dots of a symbol whose corner is at 0,0, along its turn: from the left, from the top, from the right or from the bottom. */
static unsigned widths_along(const struct bench *b, int r, int rows, uint8_t *widths)
{
    uint8_t along[200] = {0};
    int length = r % 2 ? rows : ROW_BYTES * 8;
    unsigned first;

    for (int k = 0; k < length; k++) {
        int at = r < 2 ? k : length - 1 - k;
        if (dot(b, BACKGROUND, r % 2 ? 0 : at, r % 2 ? at : 0))
            along[k / 8] |= (uint8_t)(128 >> k % 8);
    }
    return row_widths(along, (unsigned)length, widths, &first);
}

/* Up to 128 bytes upright on 1,500 rows; as many as a row has room for across them. */
static void drawn_data_by_chance(void)
{
    uint8_t data[MOST_DATA + 1] = {0}, widths[1600];
    unsigned wrong = 0;
    struct bench b;
    struct reading r;

    open_bench(&b, 1500, empty_font, sizeof empty_font);
    for (int i = 0; i < 400; i++) {
        unsigned length = 1 + (unsigned)(chance_number() % (i % 2 ? MOST_DATA : 50));
        char line[200];
        data_by_chance(data, length, (unsigned)i % 11);
        data[length] = 0;
        for (unsigned k = 0; k < length; k++)
            data[k] = data[k] == '"' ? '!' : data[k];
        sprintf(line, "B0,0,%d,1,1,2,24,N,\"%s\"", i % 4, (const char *)data);
        wrong += send(&b, "N") != 0 || send(&b, line) != 0 || !read_bars(widths, widths_along(&b, i % 4, 1500, widths), 1, &r);
        wrong += r.length != length || memcmp(r.data, data, length) != 0;
    }
    check("400 data by chance drawn in four turns: the page reads back", wrong == 0);
    clear_away(&b.desk);
}

/* Elements side by side are one row of bytes: a pair may have its digits from two of them, whatever they are. */
static void pairs_across_elements(void)
{
    static const char *const same[] = {"\"A\"\"1\"\"2\"\"345\"\"6\"\"B\"", "\"A12\"\"3456B\"", "\"A1\"\"\"\"23456B\"", "\"A123456B\""};
    static const char *const form[] = {"FS\"F\"", "C0,3,+1,\"\"", "C1,1,-1,\"\"", "V1,4,N,\"\"", "B0,0,0,1,1,2,24,N,C0\"5\"C1V1", "FE", "FR\"F\"", "?C0,98", "?C1,7"};
    static const struct {
        const char *value, *data;
        int wide;
    } labels[] = {{"?V1,\"\"", "09857", 79}, {"?V1,\"8\"", "099568", 68}, {"?V1,\"89\"", "1005589", 90}, {"?V1,\"x\"", "10154x", 90}, {"?V1,\" 1\"", "10253 1", 101}};
    unsigned wrong = 0, parted = 0;
    struct bench b;
    char line[128];

    open_bench(&b, 40, empty_font, sizeof empty_font);
    for (unsigned i = 0; i < 4; i++) {
        sprintf(line, "B0,0,0,1,1,2,24,N,%s", same[i]);
        wrong += send(&b, "N") != 0 || send(&b, line) != 0 || !row_reads(&b, BACKGROUND, "A123456B") || bars_wide(&b) != 112;
    }
    check("A123456B in one element or more: the same 112 modules", wrong == 0);
    for (unsigned i = 0; i < sizeof form / sizeof form[0]; i++)
        parted += (i == 0 && send(&b, "N") != 0) || send(&b, form[i]) != 0;
    for (unsigned i = 0; i < sizeof labels / sizeof labels[0]; i++) {
        parted += send(&b, labels[i].value) != 0 || send(&b, "P1") != 0 || label(&b) != 0 || !row_reads(&b, PAGE, labels[i].data);
        parted += !dot(&b, PAGE, labels[i].wide - 1, 0) || dot(&b, PAGE, labels[i].wide, 0);
    }
    check("counters, text and variables side by side: pairs of two", parted == 0);
    clear_away(&b.desk);
}

/* What is unfit does not move: 128 bytes are taken however few symbols they are, 129 are 15, and so is no byte. */
static void fit_as_before(void)
{
    char line[300] = "B0,0,0,1,1,2,24,N,\"";
    struct bench b;
    int well = 1;

    open_bench(&b, 40, empty_font, sizeof empty_font);
    memset(line + 19, '7', 128);
    strcpy(line + 19 + 128, "\"");
    well &= send(&b, line) == 0;
    strcpy(line + 19 + 128, "7\"");
    well &= send(&b, line) == 15 && count(&b, 2) == 18;
    check("128 digits are taken, 129 are 15, and none are", well && send(&b, "B0,0,0,1,1,2,24,N,\"\"") == 15);
    clear_away(&b.desk);
}

static void shortest_cases(void)
{
    writings_by_hand();
    rows_of_digits(false, false, "1 to 128 digits alone: odd ones begin with one in B");
    rows_of_digits(true, false, "1 to 127 digits behind a letter: in C from 4 on");
    rows_of_digits(false, true, "1 to 127 digits before a letter: in C from 4 on");
    rows_of_digits(true, true, "1 to 126 digits between letters: in C from 6 on");
    every_data("A09 ", 8);
    every_data("/5:", 9);
    every_data("7z", 13);
    short_data_by_chance();
    long_data_by_chance();
    drawn_data_by_chance();
    pairs_across_elements();
    fit_as_before();
}

/* ---- the date, written by the station ---- */

static unsigned move(struct bench *b, uint64_t seconds)
{
    b->desk.seconds = seconds;
    return call_station(&peer_station, &b->desk, CLOCK, b->length);
}

static void put_clock(struct bench *b, const char *six)
{
    memcpy(b->desk.bytes[SESSION] + CLOCK_AT, six, 6);
}

static int clock_is(const struct bench *b, const char *six)
{
    return memcmp(b->desk.bytes[SESSION] + CLOCK_AT, six, 6) == 0;
}

/* Whether the background shows these bytes in the telling font after the line, and nothing else in its first row. */
static int shows(struct bench *b, const char *line, const char *bytes)
{
    memset(b->desk.bytes[BACKGROUND], 0, b->length[BACKGROUND]);
    return send(b, line) == 0 && row_is(b, BACKGROUND, 0, bytes, (unsigned)strlen(bytes));
}

static void moment_at_opening(struct bench *b)
{
    static const uint8_t opened[] = {0, 1, 1, 0, 0, 0, 5, '-', 3, '-', 2, 1, ':', 2, ':', 3};

    check("opening: 1 January 2000, midnight, dd-me-y4 and h:m:s", memcmp(b->desk.bytes[SESSION] + 67, opened, 16) == 0 && b->desk.bytes[SESSION][83] == 0xa5);
    check("and shown so", shows(b, "A0,0,0,1,1,N,TD\" \"TT", "01-JAN-2000 00:00:00"));
    check("the manual's example of TS and TD", send(b, "TS04,2,04,14,10,12") == 0 && clock_is(b, "\4\4\2\16\12\14") && shows(b, "A0,0,0,1,1,N,TD", "02-APR-2004"));
    check("the manual's example of TT", send(b, "TS1,1,1,15,30,20") == 0 && shows(b, "A0,0,0,1,1,N,TT", "15:30:20"));
}

/* Of 7 June 2009, 5:04:08. */
static void formats_by_hand(struct bench *b)
{
    static const struct {
        const char *format, *shown;
    } told[] = {{"TDy2", "09"}, {"TDY4", "2009"}, {"TDmE", "JUN"}, {"TDMn", "06"}, {"TDdD", "07"}, {"TDy4-me-dd", "2009-JUN-07"}, {"TDdd-me-y4", "07-JUN-2009"}, {"TDME.DD.Y2", "JUN.07.09"}, {"TDmn/y2", "06/09"},
                {"TDy2ydd", "09y07"}, {"TDdd1mn2y4", "0710622009"}, {"TDdd,me", "07,JUN"}, {"TDy4YmEMDd", "2009YJUNM07"}, {"TDdddmn", "07d06"}, {"TDy2!mn~dd", "09!06~07"}, {"TDy2;mn", "09;06"},
                {"TTh", "05"}, {"TTM", "04"}, {"TTs", "08"}, {"TTh:m:s", "05:04:08"}, {"TTS.h", "08.05"}, {"TThms", "05m08"}, {"TTmhs", "04h08"}, {"TTHsM", "05s04"}, {"TTs,m,h", "08,04,05"}, {"TTh1m2s", "05104208"},
                {"TTmMs", "04M08"}};
    unsigned wrong = 0;

    send(b, "TS6,7,9,5,4,8");
    for (unsigned i = 0; i < sizeof told / sizeof told[0]; i++)
        wrong += send(b, told[i].format) != 0 || !shows(b, told[i].format[1] == 'D' ? "A0,0,0,1,1,N,TD" : "A0,0,0,1,1,N,TT", told[i].shown);
    check("formats of one, two and three fields, by hand", wrong == 0);
}

static void months_by_hand(struct bench *b)
{
    static const char *const names[] = {"JAN", "FEB", "MAR", "APR", "MAY", "JUN", "JUL", "AUG", "SEP", "OCT", "NOV", "DEC"};
    unsigned wrong = send(b, "TDme") != 0;

    for (unsigned i = 0; i < 12; i++)
        wrong += send_number(b, "TS%lld,1,0,0,0,0", i + 1) != 0 || !shows(b, "A0,0,0,1,1,N,TD", names[i]);
    check("the twelve names", wrong == 0);
}

/* ---- places of TS, TD, TT and their elements ---- */

static void clock_places(struct bench *b)
{
    static const struct pointed limits[] = {
        {"TS0,1,1,1,1,1", 7, 2}, {"TS13,1,1,1,1,1", 7, 2}, {"TS1,0,1,1,1,1", 7, 4}, {"TS1,32,1,1,1,1", 7, 4}, {"TS1,1,100,1,1,1", 7, 6}, {"TS1,1,1,24,1,1", 7, 8}, {"TS1,1,1,1,60,1", 7, 10}, {"TS1,1,1,1,1,60", 7, 12},
        {"TS2,29,1,1,1,1", 7, 4}, {"TS002,0030,4,1,1,1", 7, 6}, {"TS4,31,0,24,60,60", 7, 4}, {"TS2,30,100,1,1,1", 7, 7}, {"TS2,32,100,1,1,1", 7, 4}, {"TS13,31,0,0,0,0", 7, 2}, {"TS0,32,100,0,0,0", 7, 2},
        {"TS2,30,99,99,0,0", 7, 4}, {"TS12,31,99,23,59,59", 0, 0}, {"TS1,1,0,0,0,0", 0, 0}, {"TS2,29,96,0,0,0", 0, 0}, {"TS000000012,000000031,000000099,000000023,000000059,000000059", 0, 0}};
    static const struct pointed form[] = {
        {"T", 6, 1}, {"TX", 6, 0}, {"Ts1,1,1,1,1,1", 6, 0}, {"tS", 6, 0}, {"T ", 6, 0}, {"TS", 6, 2}, {"TSx", 6, 2}, {"TS,", 6, 2}, {"TS1", 6, 3}, {"TS1,", 6, 4}, {"TS1,1,1,1,1", 6, 11}, {"TS1,1,1,1,1,", 6, 12},
        {"TS1,1,1,1,1,1,", 6, 13}, {"TS1,1,1,1,1,1 ", 6, 13}, {"TS+1,1,1,1,1,1", 6, 2}, {"TS1,1,-1,1,1,1", 6, 6}, {"TS1234567890,1,1,1,1,1", 6, 2}, {"TS1,1,1,1,1,0000000000", 6, 12}, {"TS1;1,1,1,1,1", 6, 3},
        {"TS2,30,0,0,0,x", 6, 13}, {"TS13,30,0,0,0,0,0", 6, 15}, {"TS2,30,0,0,0", 6, 12}};

    check("TS: each number in its limits, the day in its month", POINT_SO(b, limits));
    check("TS: written so, and too soon", POINT_SO(b, form));
}

static void date_places(struct bench *b)
{
    static const struct pointed soon[] = {{"TD", 6, 2}, {"TDy", 6, 3}, {"TDM", 6, 3}, {"TDd", 6, 3}, {"TDy2-", 6, 5}, {"TDy2m", 6, 5}, {"TDy2-m", 6, 6}, {"TDme-y", 6, 6}, {"TDdd-me-", 6, 8}, {"TDdd-me-y", 6, 9}, {"TDmnyD", 6, 6}, {"TDy2dd", 6, 6}};
    static const struct pointed fields[] = {
        {"TDx", 6, 2}, {"TD2", 6, 2}, {"TD-", 6, 2}, {"TD y2", 6, 2}, {"TD\"y2\"", 6, 2}, {"TDy3", 6, 2}, {"TDyy", 6, 2}, {"TDy ", 6, 2}, {"TDd\"", 6, 2}, {"TDmm", 6, 2}, {"TDm2", 6, 2}, {"TDd2", 6, 2}, {"TDy2-x", 6, 5},
        {"TDy2--dd", 6, 5}, {"TDy2de", 6, 5}, {"TDy2-md", 6, 5}, {"TDy2-me-d2", 6, 8}, {"TDddddy2", 6, 5}, {"TDh", 6, 2}};
    static const struct pointed again[] = {
        {"TDme-m", 6, 5}, {"TDme-mn", 6, 5}, {"TDME-me", 6, 5}, {"TDy2-y", 6, 5}, {"TDy2-y4", 6, 5}, {"TDY4-y4", 6, 5}, {"TDdd-d", 6, 5}, {"TDdd-DD", 6, 5}, {"TDdd-me-m", 6, 8}, {"TDdd-me-D", 6, 8}, {"TDdd-me-dd", 6, 8},
        {"TDy2-me-y4", 6, 8}, {"TDme-dd-mn", 6, 8}, {"TDy2-y4 x", 6, 5}};
    static const struct pointed separators[] = {
        {"TDy2 dd", 6, 4}, {"TDy2\"dd", 6, 4}, {"TDy2 ", 6, 4}, {"TDy2\"", 6, 4}, {"TDy2\x7f" "dd", 6, 4}, {"TDy2\x1f", 6, 4}, {"TDy2\x80" "dd", 6, 4}, {"TDy2-me dd", 6, 7}, {"TDy2-me\"", 6, 7}, {"TDy2-me-dd-", 6, 10},
        {"TDdd-me-y4x", 6, 10}, {"TDdd-me-y4 ", 6, 10}, {"TDdd-me-y4\"", 6, 10}, {"TDdd-me-y4-h", 6, 10}};

    check("TD ends too soon where some TD begins so", POINT_SO(b, soon));
    check("TD: a wrong field points to its first byte", POINT_SO(b, fields));
    check("a field that comes again points to itself, cut or whole", POINT_SO(b, again));
    check("a wrong separator and bytes past the third field", POINT_SO(b, separators));
}

static void time_places(struct bench *b)
{
    static const struct pointed lines[] = {
        {"TT", 6, 2}, {"TTh:", 6, 4}, {"TThm", 6, 4}, {"TTh:m:", 6, 6}, {"TTh:mh", 6, 6}, {"TTx", 6, 2}, {"TT:", 6, 2}, {"TT1", 6, 2}, {"TTy2", 6, 2}, {"TTh:h", 6, 4}, {"TTh:H", 6, 4}, {"TThh", 6, 4}, {"TThhh", 6, 4},
        {"TThmm", 0, 0}, {"TTh::", 6, 4}, {"TTh:m:h", 6, 6}, {"TTh:m:m", 6, 6}, {"TTh m", 6, 3}, {"TTh\"", 6, 3}, {"TTh:m\x01", 6, 5}, {"TTh:m:s:", 6, 7}, {"TTh:m:s ", 6, 7}, {"TTh:m:ss", 6, 7}, {"TThms", 0, 0}, {"TTh:m:s", 0, 0}};

    check("TT: too soon, wrong, again, past the third", POINT_SO(b, lines));
}

static void moment_elements(struct bench *b)
{
    static const struct pointed lines[] = {
        {"A0,0,0,1,1,N,T", 6, 14}, {"A0,0,0,1,1,N,\"\"T", 6, 16}, {"A0,0,0,1,1,N,Tx", 6, 13}, {"A0,0,0,1,1,N,Td", 6, 13}, {"A0,0,0,1,1,N,td", 6, 13}, {"A0,0,0,1,1,N,TS", 6, 13}, {"A0,0,0,1,1,N,T\"\"", 6, 13}, {"A0,0,0,1,1,N,TDL2", 6, 15},
        {"A0,0,0,1,1,N,TT1", 6, 15}, {"A0,0,0,1,1,N,TDM1.1", 6, 15}, {"A0,0,0,1,1,N,TD+1", 6, 15}, {"A0,0,0,1,1,N,TDT", 6, 16}, {"A0,0,0,1,1,N,TTT", 6, 16}, {"A0,0,0,1,1,N,TTTT", 0, 0}, {"A0,0,0,1,1,N,TDTT", 0, 0}, {"A0,0,0,1,1,N,TD,", 6, 15},
        {"A0,0,0,1,1,N,TDV0", 13, 15}, {"A0,0,0,1,1,N,TDV0L0", 7, 15}, {"A0,0,0,1,1,N,TD \"\"", 6, 15}, {"B0,0,0,1,1,2,24,B,TD", 0, 0}, {"B0,0,0,1,1,2,24,B,C,TD", 0, 0}, {"B0,0,0,1,1,2,24,B,T", 6, 19}, {"B0,0,0,1,1,2,24,TD", 6, 16}};

    send(b, "TDy2");
    send(b, "TTh");
    check("TD and TT in data: whole, in capitals, no modifier", POINT_SO(b, lines));
}

/* ---- the calendar, against the C library ---- */

static struct tm as_tm(const uint8_t *six)
{
    return (struct tm){.tm_year = 100 + six[0], .tm_mon = six[1] - 1, .tm_mday = six[2], .tm_hour = six[3], .tm_min = six[4], .tm_sec = six[5]};
}

static void from_seconds(time_t at, uint8_t six[6])
{
    struct tm t;

    gmtime_r(&at, &t);
    memcpy(six, (const uint8_t[]){(uint8_t)(t.tm_year - 100), (uint8_t)(t.tm_mon + 1), (uint8_t)t.tm_mday, (uint8_t)t.tm_hour, (uint8_t)t.tm_min, (uint8_t)t.tm_sec}, 6);
}

/* A date is one if the library gives it back as it is. */
static bool is_date(unsigned year, unsigned month, unsigned day)
{
    const uint8_t six[] = {(uint8_t)year, (uint8_t)month, (uint8_t)day, 0, 0, 0};
    struct tm t = as_tm(six);
    uint8_t back[6];

    from_seconds(timegm(&t), back);
    return memcmp(back, six, 6) == 0;
}

static void every_date_set(struct bench *b)
{
    unsigned wrong = 0, taken = 0;
    char line[64];

    for (unsigned year = 0; year < 100; year++)
        for (unsigned month = 1; month <= 12; month++)
            for (unsigned day = 0; day <= 32; day++) {
                bool right = day >= 1 && day <= 31 && is_date(year, month, day);
                snprintf(line, sizeof line, "TS%u,%u,%u,1,2,3", month, day, year);
                wrong += send(b, line) != (right ? 0 : 7) || (!right && count(b, 2) != (month < 10 ? 4 : 5));
                taken += right;
                wrong += right && !clock_is(b, (const char[]){(char)year, (char)month, (char)day, 1, 2, 3});
            }
    check("TS takes the 36,525 dates and no other day", wrong == 0 && taken == 36525);
}

/* Each byte of the clock from 0 to 255, at moments where each may decide: 3 for commands, labels and moves alike, or for none. */
static void every_clock_judged(struct bench *b)
{
    static const char *const moments[] = {"\0\2\35\0\0\0", "\1\2\34\27\73\73", "\143\14\37\27\73\73", "\4\4\36\14\36\36", "\77\7\1\0\0\0"};
    unsigned wrong = 0;

    for (unsigned i = 0; i < sizeof moments / sizeof moments[0]; i++)
        for (unsigned at = 0; at < 6; at++)
            for (unsigned byte = 0; byte < 256; byte++) {
                const uint8_t *c = b->desk.bytes[SESSION] + CLOCK_AT;
                put_clock(b, moments[i]);
                put_image(b, CLOCK_AT + at, byte, 1);
                bool right = c[0] <= 99 && c[1] >= 1 && c[1] <= 12 && c[2] >= 1 && c[3] <= 23 && c[4] <= 59 && c[5] <= 59 && is_date(c[0], c[1], c[2]);
                wrong += send(b, ";") != (right ? 0 : 3) || label(b) != (right ? 21 : 3) || move(b, 86401) != (right ? 7 : 3) || move(b, 0) != (right ? 0 : 3);
            }
    put_clock(b, moments[0]);
    check("each byte of the clock: sound and moved, or 3", wrong == 0);
}

/* ---- the call that moves the clock ---- */

static void moves_by_hand(struct bench *b)
{
    static const struct {
        const char *from;
        unsigned seconds;
        const char *to;
    } told[] = {{"\0\1\1\0\0\0", 0, "\0\1\1\0\0\0"}, {"\0\1\1\0\0\0", 1, "\0\1\1\0\0\1"}, {"\0\1\1\0\0\73", 1, "\0\1\1\0\1\0"}, {"\0\1\1\0\73\73", 1, "\0\1\1\1\0\0"}, {"\0\1\1\27\73\73", 1, "\0\1\2\0\0\0"},
                {"\0\1\1\0\0\0", 86399, "\0\1\1\27\73\73"}, {"\0\1\1\0\0\0", 86400, "\0\1\2\0\0\0"}, {"\0\1\1\0\0\1", 86400, "\0\1\2\0\0\1"}, {"\0\2\34\27\73\73", 1, "\0\2\35\0\0\0"}, {"\0\2\35\27\73\73", 1, "\0\3\1\0\0\0"},
                {"\1\2\34\27\73\73", 1, "\1\3\1\0\0\0"}, {"\4\2\34\0\0\0", 86400, "\4\2\35\0\0\0"}, {"\140\2\34\27\73\73", 1, "\140\2\35\0\0\0"}, {"\143\2\34\27\73\73", 86400, "\143\3\1\27\73\73"}, {"\7\4\36\27\73\73", 1, "\7\5\1\0\0\0"},
                {"\7\7\37\27\73\73", 1, "\7\10\1\0\0\0"}, {"\7\10\37\0\0\0", 86400, "\7\11\1\0\0\0"}, {"\7\14\37\27\73\73", 1, "\10\1\1\0\0\0"}, {"\7\14\37\27\73\73", 86400, "\10\1\1\27\73\73"}, {"\143\14\37\27\73\72", 1, "\143\14\37\27\73\73"},
                {"\143\14\37\27\73\73", 0, "\143\14\37\27\73\73"}, {"\143\14\37\27\73\73", 1, "\143\14\37\27\73\73"}, {"\143\14\37\27\73\73", 86400, "\143\14\37\27\73\73"}, {"\143\14\37\0\0\0", 86400, "\143\14\37\27\73\73"},
                {"\143\14\37\14\0\0", 43200, "\143\14\37\27\73\73"}, {"\143\14\36\27\73\73", 86400, "\143\14\37\27\73\73"}, {"\143\14\36\0\0\0", 86400, "\143\14\37\0\0\0"}};
    unsigned wrong = 0;

    for (unsigned i = 0; i < sizeof told / sizeof told[0]; i++) {
        put_clock(b, told[i].from);
        wrong += move(b, told[i].seconds) != 0 || !clock_is(b, told[i].to);
    }
    check("moves over ends of days, months and years, by hand", wrong == 0);
}

static void moves_refused(struct bench *b)
{
    static const uint64_t many[] = {86401, 86402, 1u << 17, 1ull << 32, (1ull << 32) + 5, (1ull << 32) + 86400, 1ull << 63, UINT64_MAX};
    unsigned wrong = 0;
    uint64_t before;

    put_clock(b, "\1\2\3\4\5\6");
    before = digest_of(b);
    for (unsigned i = 0; i < sizeof many / sizeof many[0]; i++)
        wrong += move(b, many[i]) != 7 || digest_of(b) != before;
    check("more than 86,400 seconds are 7, of 64 bits too", wrong == 0);
    for (b->length[SESSION] = 0; b->length[SESSION] <= IMAGE + 2; b->length[SESSION]++)
        wrong += b->length[SESSION] != IMAGE && (move(b, 1) != 1 || move(b, 86401) != 1 || digest_of(b) != before);
    b->length[SESSION] = IMAGE;
    put_clock(b, "\1\2\35\4\5\6");
    before = digest_of(b);
    check("1 before 3 before 7, and nothing is changed", wrong == 0 && move(b, 86401) == 3 && move(b, 1) == 3 && digest_of(b) == before);
    memset(b->desk.bytes[SESSION], 0xff, IMAGE);
    put_clock(b, "\1\2\34\27\73\73");
    wrong += move(b, 1) != 0 || !clock_is(b, "\1\3\1\0\0\0");
    for (unsigned i = 0; i < IMAGE; i++)
        wrong += (i < CLOCK_AT || i >= DATE_FORMAT_AT) && b->desk.bytes[SESSION][i] != 0xff;
    check("it looks at the clock alone, and changes it alone", wrong == 0);
    call_station(&peer_station, &b->desk, OPEN, b->length);
}

/* Second by second, and day by day at one second before midnight and at noon. */
static void moves_told_again(void)
{
    static const unsigned from_day[] = {0, 1155, 36525 - 130};  /* 2000, the end of February 2003, the last months of 2099 */
    uint8_t image[IMAGE] = {0}, told[6], days[6];
    time_t start = 946684800, end = start + 36525 * 86400ll - 1;
    uint64_t wrong = 0;

    for (unsigned i = 0; i < 3; i++) {
        from_seconds(start + from_day[i] * 86400ll, image + CLOCK_AT);
        for (time_t at = start + from_day[i] * 86400ll, last = at + 130 * 86400; at <= last; at++) {
            from_seconds(at < end ? at : end, told);
            wrong += memcmp(told, image + CLOCK_AT, 6) != 0 || peer_clock(image, IMAGE, 1) != 0;
        }
    }
    check("told again: 390 days second by second", wrong == 0);
    for (unsigned day = 0; day <= 36525; day++) {
        time_t midnight = start + day * 86400ll - 1;
        from_seconds(midnight < start ? start : midnight, image + CLOCK_AT);
        wrong += peer_clock(image, IMAGE, midnight < start ? 0 : 1) != 0;
        from_seconds(midnight + 1 < end ? midnight + 1 : end, told);
        wrong += memcmp(told, image + CLOCK_AT, 6) != 0;
        memcpy(days, image + CLOCK_AT, 6);
        wrong += peer_clock(image, IMAGE, 86400) != 0;
        from_seconds(midnight + 86401 < end ? midnight + 86401 : end, told);
        wrong += memcmp(told, image + CLOCK_AT, 6) != 0 || (day < 36524 && memcmp(days + 3, image + CLOCK_AT + 3, 3) != 0);
    }
    check("told again: each midnight of the hundred years", wrong == 0);
}

static void moves_by_chance(void)
{
    uint8_t one[IMAGE] = {0}, two[IMAGE] = {0}, told[6];
    time_t start = 946684800, end = start + 36525 * 86400ll - 1;
    unsigned wrong = 0, stood = 0;

    for (unsigned i = 0; i < 1000000; i++) {
        time_t at = i % 8 == 0 ? end - (time_t)(chance_number() % 172800) : start + (time_t)(chance_number() % (36525ull * 86400));
        uint64_t seconds = chance_number() % 86401, part = chance_number() % (seconds + 1);
        from_seconds(at, one + CLOCK_AT);
        from_seconds(at, two + CLOCK_AT);
        from_seconds(at + (time_t)seconds < end ? at + (time_t)seconds : end, told);
        stood += at + (time_t)seconds > end;
        wrong += peer_clock(one, IMAGE, seconds) != 0 || memcmp(one + CLOCK_AT, told, 6) != 0;
        wrong += peer_clock(two, IMAGE, part) != 0 || peer_clock(two, IMAGE, seconds - part) != 0 || memcmp(one, two, IMAGE) != 0;
    }
    check("told again: a million moves, two are one of their sum", wrong == 0 && stood > 10000);
}

/* ---- what a format shows, against the C library, and which formats are sound ---- */

static unsigned told_by_library(const uint8_t format[FORMAT], bool date, const uint8_t *six, char *out)
{
    static const char *const dates[] = {"", "%y", "%Y", "%b", "%m", "%d"}, *const times[] = {"", "%H", "%M", "%S"};
    struct tm t = as_tm(six);
    unsigned length = 0;

    for (unsigned i = 0; i < FORMAT && (i == 0 || format[i] != 0); i += 2) {
        unsigned from = length;
        length += (unsigned)strftime(out + length, 8, date ? dates[format[i]] : times[format[i]], &t);
        for (; from < length; from++)
            out[from] = (char)toupper(out[from]);
        if (i < 4 && format[i + 1] != 0)
            out[length++] = (char)format[i + 1];
    }
    return length;
}

/* The line that gives a format of these five bytes, if one does: fields by their names, separators as they are. */
static bool line_of_format(const uint8_t format[FORMAT], bool date, char *line)
{
    static const char *const dates[] = {NULL, "Y2", "y4", "Me", "mN", "dd"}, *const times[] = {NULL, "h", "M", "s"};
    unsigned fields = format[3] || format[4] ? 3 : format[1] || format[2] ? 2 : 1, length = 2;

    memcpy(line, date ? "TD" : "TT", 2);
    for (unsigned i = 0; i < fields; i++) {
        uint8_t field = format[2 * i];
        if (field == 0 || field > (date ? 5 : 3) || (i > 0 && (format[2 * i - 1] == 0 || format[2 * i - 1] == '\n')))
            return false;
        if (i > 0)
            line[length++] = (char)format[2 * i - 1];
        length += (unsigned)sprintf(line + length, "%s", date ? dates[field] : times[field]);
    }
    line[length] = 0;
    return true;
}

/* "Sound covers clock and formats": a format is sound exactly when some TD or TT gives it. All of these fields and separators, in every mixture. */
static void formats_told_again(struct bench *b, bool date)
{
    static const uint8_t fields[] = {0, 1, 2, 3, 4, 5, 6, 255}, separators[] = {0, ' ', '!', '"', '-', '~', 127, 200, '1', 'y'};
    unsigned wrong = 0, sound_ones = 0, at = date ? DATE_FORMAT_AT : TIME_FORMAT_AT;
    char line[32], text[80];
    uint8_t f[FORMAT], kept[IMAGE];

    memcpy(kept, b->desk.bytes[SESSION], IMAGE);
    for (unsigned i = 0; i < 8 * 10 * 8 * 10 * 8; i++) {
        memcpy(f, (const uint8_t[]){fields[i % 8], separators[i / 8 % 10], fields[i / 80 % 8], separators[i / 640 % 10], fields[i / 6400]}, FORMAT);
        memcpy(b->desk.bytes[SESSION], kept, IMAGE);
        bool given = line_of_format(f, date, line) && send(b, line) == 0 && memcmp(b->desk.bytes[SESSION] + at, f, FORMAT) == 0;
        memcpy(b->desk.bytes[SESSION] + at, f, FORMAT);
        wrong += send(b, ";") != (given ? 0 : 3) || label(b) != (given ? 21 : 3);
        sound_ones += given;
    }
    memcpy(b->desk.bytes[SESSION], kept, IMAGE);
    snprintf(text, sizeof text, "told again: 51,200 %s formats, sound if %s gives them", date ? "date" : "time", date ? "TD" : "TT");
    check(text, wrong == 0 && sound_ones == (date ? 5 + 5 * 16 + 25 * 24 : 3 + 5 * 6 + 25 * 6));
}

/* ---- fit data over all clocks ---- */

/* What the elements TD and TT of a line of bars show at every date or every time, judged byte by byte by 01's sentences. */
struct every_moment {
    bool digits, code_39;
    unsigned least, most;
};

static void judge_shown(struct every_moment *m, const char *bytes, unsigned length)
{
    for (unsigned i = 0; i < length; i++) {
        m->digits &= isdigit(bytes[i]) != 0;
        m->code_39 &= bytes[i] != 0 && strchr("0123456789ABCDEFGHIJKLMNOPQRSTUVWXYZ-. $/+%", bytes[i]) != NULL;
    }
    m->least = length < m->least ? length : m->least;
    m->most = length > m->most ? length : m->most;
}

static struct every_moment over_all_clocks(const uint8_t format[FORMAT], bool date)
{
    struct every_moment m = {true, true, 255, 0};
    char shown[32];
    uint8_t six[6];

    for (unsigned i = 0; i < (date ? 36525 : 86400); i++) {
        from_seconds(946684800 + (date ? 86400ll * i : i), six);
        judge_shown(&m, shown, told_by_library(format, date, six, shown));
    }
    return m;
}

/* With so many digits of text beside it: type 2, E30, 3 and 1, and A with as much text as makes 128 or one more. */
static unsigned fits_over_all(struct bench *b, const struct every_moment *m, const char *element)
{
    static const char digits[] = "00000000000000000000000000000000000000000000000000000000000000000000000000000000000000000000000000000000000000000000000000000000";
    unsigned wrong = 0;
    char line[300];

    for (unsigned text = 0; text <= 12; text++) {
        unsigned all = m->most + text;
        snprintf(line, sizeof line, "B0,0,0,2,1,2,24,N,%s\"%.*s\"", element, (int)text, digits);
        wrong += send(b, line) != (m->least == m->most && m->digits && all % 2 == 0 && all >= 2 ? 0 : 15);
        snprintf(line, sizeof line, "B0,0,0,E30,1,2,24,N,\"%.*s\"%s", (int)text, digits, element);
        wrong += send(b, line) != (m->least == m->most && m->digits && all == 12 ? 0 : 15);
    }
    snprintf(line, sizeof line, "B0,0,0,3,1,2,24,N,%s", element);
    wrong += send(b, line) != (m->code_39 ? 0 : 15);
    snprintf(line, sizeof line, "B0,0,0,1,1,2,24,N,%s", element);
    wrong += send(b, line) != 0;
    for (unsigned more = 0; more < 2; more++) {
        snprintf(line, sizeof line, "A0,0,0,1,1,N,\"%.*s\"%s", (int)(128 - m->most + more), digits, element);
        wrong += send(b, line) != (more ? 15 : 0);
    }
    return wrong;
}

/* Every order and kind of fields, with some separators between them. */
static void fit_told_again(struct bench *b, bool date)
{
    static const uint8_t separators[][2] = {{'0', '9'}, {'-', '/'}, {'-', ':'}, {'A', 'z'}, {'%', '5'}, {'7', '$'}};
    unsigned wrong = 0, formats = 0, most = date ? 5 : 3;
    char line[32], text[80];

    for (unsigned i = 0; i < (most + 1) * (most + 1) * most; i++)
        for (unsigned k = 0; k < 6; k++) {
            uint8_t second = (uint8_t)(i / most % (most + 1)), third = (uint8_t)(i / most / (most + 1));
            uint8_t f[] = {(uint8_t)(1 + i % most), second ? separators[k][0] : 0, second, third ? separators[k][1] : 0, third};
            if (!line_of_format(f, date, line) || send(b, line) != 0 || (k > 0 && second == 0))
                continue;
            struct every_moment m = over_all_clocks(f, date);
            wrong += fits_over_all(b, &m, date ? "TD" : "TT");
            formats++;
        }
    snprintf(text, sizeof text, "told again: fit over all %s, %u formats", date ? "dates" : "times", formats);
    check(text, wrong == 0);
}

static void fit_by_hand(struct bench *b)
{
    static const struct pointed lines[] = {
        {"TDy4", 0, 0}, {"TTh1m1s", 0, 0}, {"B0,0,0,2,1,2,24,N,TD", 0, 0}, {"B0,0,0,E30,1,2,24,N,TDTT", 0, 0}, {"B0,0,0,E30,1,2,24,N,TT\"000\"", 15, 20}, {"B0,0,0,2,1,2,24,B,C,\"1\"TD", 15, 20}, {"TDmn1dd", 0, 0},
        {"B0,0,0,2,1,2,24,N,TD", 15, 18}, {"B0,0,0,2,1,2,24,N,TD\"1\"", 0, 0}, {"B0,0,0,2,1,2,24,N,TDTD", 0, 0}, {"TDme", 0, 0}, {"B0,0,0,2,1,2,24,N,TD\"1\"", 15, 18}, {"B0,0,0,3,1,2,24,N,TD", 0, 0}, {"TDdd-me-y4", 0, 0},
        {"B0,0,0,3,1,2,24,N,TD", 0, 0}, {"TTh:m:s", 0, 0}, {"B0,0,0,3,1,2,24,N,TT", 15, 18}, {"TTh/m", 0, 0}, {"B0,0,0,3,1,2,24,N,TT", 0, 0}, {"TThym", 0, 0}, {"B0,0,0,3,1,2,24,N,TT", 15, 18}, {"TThYm", 0, 0}, {"B0,0,0,3,1,2,24,N,TT", 0, 0},
        {"TDy4-me-dd", 0, 0}, {"A0,0,0,1,1,N,TDTDTDTDTDTDTDTDTDTDTD\"1234567\"", 0, 0}, {"A0,0,0,1,1,N,\"12345678\"TDTDTDTDTDTDTDTDTDTDTD", 15, 13}, {"B0,0,0,1,1,2,24,N,TDTDTDTDTDTDTDTDTDTDTDTD", 15, 18}};

    check("fit data with TD and TT, by hand", POINT_SO(b, lines));
}

/* ---- formats in forms ---- */

/* A label whose first row shows these twenty bytes: the date at its edge, from byte 12 on another format of it, and from 18 on the time. */
static int label_shows(struct bench *b, const char *bytes)
{
    return label(b) == 0 && row_is(b, PAGE, 0, bytes, 20);
}

static void formats_recorded(struct bench *b)
{
    static const char *const lines[] = {"A0,0,0,1,1,N,TD", "TDY2.mN", "A96,0,0,1,1,N,TD", "TTs", "A144,0,0,1,1,N,TT", "TDdd"};
    static const char listed[] = "A0,0,0,1,1,N,TD\nTDY2.mN\nA96,0,0,1,1,N,TD\nTTs\nA144,0,0,1,1,N,TT\nTDdd\n";
    uint8_t before[10];
    int well;

    send(b, "TDy4");
    send(b, "TTm");
    send(b, "TS2,28,4,23,59,58");
    memcpy(before, b->desk.bytes[SESSION] + DATE_FORMAT_AT, 10);
    well = form_of(b, lines, 6) && memcmp(before, b->desk.bytes[SESSION] + DATE_FORMAT_AT, 10) == 0;
    check("TD and TT are recorded and leave the session's formats", well);
    check("and their letters are as they were written", send(b, "FP\"F\"") == 0 && count(b, 1) == strlen(listed) && memcmp(b->desk.bytes[OUTPUT], listed, strlen(listed)) == 0);
    send(b, "N");
    check("each holds from its line on", send(b, "FR\"F\"") == 0 && send(b, "P3") == 0 && label_shows(b, "28-FEB-2004\0" "04.02\0" "58"));
    check("and each label starts from the example formats", label_shows(b, "28-FEB-2004\0" "04.02\0" "58"));
    check("the clock moves between owed labels", move(b, 2) == 0 && owed(b) == 1 && label_shows(b, "29-FEB-2004\0" "04.02\0" "00"));
    check("outside the form the session's formats are as they were", shows(b, "A0,0,0,1,1,N,TD\"-\"TT", "2004-00"));
    send(b, "N");
}

/* The check of a form starts from the example formats too, and goes by its own lines: 15 or not, whatever the session's formats are. */
static void formats_judged(struct bench *b)
{
    static const struct pointed recorded[] = {
        {"B0,0,0,2,1,2,24,N,TD", 15, 18}, {"B0,0,0,3,1,2,24,N,TD", 0, 0}, {"TDy4", 0, 0}, {"B0,0,0,2,1,2,24,N,TD", 0, 0}, {"TDy2-", 6, 5}, {"TDme-mn", 6, 5}, {"B0,0,0,2,1,2,24,N,TD", 0, 0}, {"TS1,1,1,1,1,1", 9, 0},
        {"TS1,32,1,1,1,1", 7, 4}, {"TTh", 0, 0}, {"B0,0,0,E30,1,2,24,N,TDTDTTTT", 0, 0}, {"TDdd.me", 0, 0}, {"B0,0,0,2,1,2,24,N,TD", 15, 18}, {"FE", 0, 0}, {"B0,0,0,2,1,2,24,N,TD", 0, 0}, {"FS\"G\"", 0, 0}, {"B0,0,0,2,1,2,24,N,TD", 15, 18},
        {"B0,0,0,3,1,2,24,N,TT", 15, 18}, {"FE", 0, 0}, {"FR\"F\"", 0, 0}, {"P1", 0, 0}, {"TS1,1,1,1,1,1", 8, 0}, {"TDdd", 8, 0}, {"TTh", 8, 0}, {"TDdx", 6, 2}, {"TS1,32,1,1,1,1", 7, 4}};

    send(b, "FK\"*\"");
    send(b, "TDy4");
    send(b, "TTh");
    send(b, "FS\"F\"");
    check("a form's formats are its own when it is checked", POINT_SO(b, recorded));
    check("nothing of that moved the session's formats", label(b) == 0 && memcmp(b->desk.bytes[SESSION] + DATE_FORMAT_AT, "\2\0\0\0\0\1\0\0\0\0", 10) == 0);
}

static void formats_sound(struct bench *b)
{
    static const char *const sound_lines[] = {"TDY4\nB0,0,0,2,1,2,24,N,TD\n", "TDdd\n", "TTh:m:s\nTTH\nTTs-m\n", "A0,0,0,1,1,N,TDTT\n", "B0,0,0,3,1,2,24,N,TD\n", "TTh0m0s\nB0,0,0,E30,1,2,24,N,TT\"1234\"\n"};
    static const char *const others[] = {
        "B0,0,0,2,1,2,24,N,TD\n", "TDme\nB0,0,0,2,1,2,24,N,TD\"1\"\n", "B0,0,0,3,1,2,24,N,TT\n", "TDy4\nTDme\nB0,0,0,2,1,2,24,N,TD\n", "TS1,1,1,1,1,1\n", "TD\n", "TDy2-y4\n", "TDy2-\n", "TDdd \n", "TTh:h\n", "TTh:m:s:\n", "TDdd",
        "A0,0,0,1,1,N,Td\n", "B0,0,0,2,1,2,24,N,TD\nTDy4\n", "TTh0m0s\nB0,0,0,E30,1,2,24,N,TT\"123\"\n"};
    unsigned wrong = 0;

    for (unsigned i = 0; i < sizeof sound_lines / sizeof sound_lines[0]; i++)
        wrong += sound_with(b, sound_lines[i]) != 0;
    check("forms with TD and TT are sound", wrong == 0);
    wrong = 0;
    for (unsigned i = 0; i < sizeof others / sizeof others[0]; i++)
        wrong += sound_with(b, others[i]) != 3;
    check("and 3 if recording would not take them", wrong == 0);
}

static void dated_cases(void)
{
    struct bench b, small;
    uint8_t font[1024];
    size_t length = telling_font(font);

    open_bench(&b, 40, font, length);
    moment_at_opening(&b);
    formats_by_hand(&b);
    months_by_hand(&b);
    clock_places(&b);
    date_places(&b);
    time_places(&b);
    moment_elements(&b);
    formats_recorded(&b);
    formats_judged(&b);
    moves_refused(&b);
    lay_out(&small, 40, 4, 2, 64);
    begin(&small, 1, 1, 0);
    every_date_set(&small);
    every_clock_judged(&small);
    moves_by_hand(&small);
    moves_told_again();
    moves_by_chance();
    formats_told_again(&small, true);
    formats_told_again(&small, false);
    fit_by_hand(&small);
    fit_told_again(&small, true);
    fit_told_again(&small, false);
    formats_sound(&small);
    clear_away(&b.desk);
    clear_away(&small.desk);
}

/* ---- a store that came back from a bad card ---- */

/* A memory before a repair and behind it. */
struct repaired {
    struct bench b;
    struct desk before;
    struct telling told;
};

/* So many portions and entries, all free and empty, for a repair to be made of. There is room for two portions, two entries and two bytes of image more. */
static void lay_store(struct repaired *r, unsigned portions, unsigned entries)
{
    size_t room[SLICES];

    memset(r, 0, sizeof *r);
    usual_lengths(r->b.length, 2, portions, entries, 14 * entries);
    usual_room(room, r->b.length, 64, 1024);
    room[SESSION] += 2;
    room[COUNTS] += 8;
    room[STORE] += 2 * PORTION;
    room[LINKS] += 4;
    room[DIRECTORY] += 2 * ENTRY;
    room[VALUE] += 2;
    room[OUTPUT] += 8;
    set_up_desk(&r->b.desk, room, 0xa5);
    set_up_desk(&r->before, room, 0);
    lend_font(&r->b, empty_font, sizeof empty_font);
    call_station(&peer_station, &r->b.desk, OPEN, r->b.length);
}

static void clear_store(struct repaired *r)
{
    clear_away(&r->b.desk);
    clear_away(&r->before);
}

static unsigned repair(struct bench *b, uint64_t rows)
{
    b->desk.rows = rows;
    return call_station(&peer_station, &b->desk, REPAIR, b->length);
}

static void keep_desk(struct repaired *r)
{
    for (int s = 0; s < SLICES; s++)
        if (s != FONT && s != INPUT)
            memcpy(r->before.bytes[s], r->b.desk.bytes[s], r->b.desk.room[s]);
}

static void take_back(struct repaired *r)
{
    for (int s = 0; s < SLICES; s++)
        if (s != FONT && s != INPUT)
            memcpy(r->b.desk.bytes[s], r->before.bytes[s], r->b.desk.room[s]);
}

/* Repairs, and asks all that verdicts.h tells. The memory of before is kept. */
static bool repairs_so(struct repaired *r, uint64_t rows)
{
    struct card c = card_on(&r->b.desk, r->b.length);

    memset(r->b.desk.bytes[COUNTS], 0x77, r->b.desk.room[COUNTS]);
    keep_desk(r);
    if (repair_lengths_right(r->b.length, rows))
        tell_verdicts(&c, &r->told);
    return repair_fault(&r->before, &r->b.desk, r->b.length, rows, repair(&r->b, rows), &r->told) == NULL;
}

/* The repair is taken and its list is this one. The memory is then as before. */
static bool lists(struct repaired *r, const char *list)
{
    bool so = repairs_so(r, 2) && count(&r->b, 1) == strlen(list) && memcmp(r->b.desk.bytes[OUTPUT], list, strlen(list)) == 0;

    take_back(r);
    return so;
}

static uint8_t *entry_in(struct repaired *r, unsigned i)
{
    return r->b.desk.bytes[DIRECTORY] + ENTRY * i;
}

static void put_entry(struct repaired *r, unsigned i, uint8_t kind, const char *name, unsigned first, uint32_t size)
{
    uint8_t *e = entry_in(r, i);

    memset(e, 0, ENTRY);
    e[0] = kind;
    e[1] = (uint8_t)strlen(name);
    memcpy(e + 2, name, strlen(name));
    for (unsigned k = 0; k < 2; k++)
        e[10 + k] = (uint8_t)(first >> 8 * k);
    for (unsigned k = 0; k < 4; k++)
        e[12 + k] = (uint8_t)(size >> 8 * k);
}

static void put_bytes(struct repaired *r, unsigned portion, const void *bytes, size_t length)
{
    memcpy(r->b.desk.bytes[STORE] + (size_t)portion * PORTION, bytes, length);
}

/* The portions from one to another in a row, with an end. */
static void put_chain(struct repaired *r, unsigned from, unsigned to)
{
    for (unsigned i = from; i <= to; i++)
        put_link(&r->b, i, i < to ? i + 1 : CHAIN_END);
}

/* A legal picture of so many bytes, from this portion on. */
static void put_picture(struct repaired *r, unsigned first, size_t size)
{
    static uint8_t line[MOST_PICTURE + 600];
    size_t length = write_picture(line, "P", 1, size);

    put_bytes(r, first, line + length - size, size);
    put_chain(r, first, first + portions_for((uint32_t)size) - 1);
}

/* Just 256 bytes of lines, so that a chain of such portions is a form as far as it goes by whole portions or by five bytes. */
static void put_lines(struct repaired *r, unsigned portion)
{
    uint8_t lines[PORTION];

    for (unsigned i = 0; i < 250; i += 5)
        memcpy(lines + i, "R0,0\n", 5);
    memcpy(lines + 250, "R10,0\n", 6);
    put_bytes(r, portion, lines, PORTION);
}

/* The form A in portion 0, the picture P in 1 and 2, the form B of no lines in 3, the picture Q in 4; two portions and an entry are free. */
static void lay_four(struct repaired *r)
{
    lay_store(r, 7, 5);
    put_bytes(r, 0, "LO1,2,3,4\nGG0,0,\"P\"\n", 20);
    put_chain(r, 0, 0);
    put_entry(r, 0, FORM, "A", 0, 20);
    put_picture(r, 1, 300);
    put_entry(r, 1, PICTURE, "P", 1, 300);
    put_chain(r, 3, 3);
    put_entry(r, 2, FORM, "B", 3, 0);
    put_picture(r, 4, 130);
    put_entry(r, 3, PICTURE, "Q", 4, 130);
}

/* One number of an entry, of two bytes or four. */
static void put_first(struct repaired *r, unsigned i, unsigned first)
{
    entry_in(r, i)[10] = (uint8_t)first;
    entry_in(r, i)[11] = (uint8_t)(first >> 8);
}

static void put_size(struct repaired *r, unsigned i, uint32_t size)
{
    for (unsigned k = 0; k < 4; k++)
        entry_in(r, i)[12 + k] = (uint8_t)(size >> 8 * k);
}

static void repair_refusals(void)
{
    static const uint64_t wrong_rows[] = {0, 4001, 65537, 0x100000001, 0x8000000000000001, UINT64_MAX};
    static const enum slice lent[] = {SESSION, COUNTS, STORE, LINKS, DIRECTORY, VALUE};
    struct repaired r;
    unsigned wrong = 0, taken = 0;

    lay_four(&r);
    memset(r.b.desk.bytes[VALUE], 0x33, VALUES);
    entry_in(&r, 0)[1] = 9;
    for (unsigned i = 0; i < 6; i++)
        wrong += !repairs_so(&r, wrong_rows[i]);
    check("repair: 1 to 0 rows, 4,001 and more, nothing changed", wrong == 0);
    for (unsigned rows = 1; rows <= MOST_ROWS; rows++) {
        taken += repairs_so(&r, rows) && low_first(r.b.desk.bytes[SESSION] + 2) == rows;
        take_back(&r);
    }
    check("repair: taken for each of 1 to 4,000 rows, the length", taken == 4000);
    wrong = 0;
    for (unsigned i = 0; i < 6; i++) {
        size_t usual = r.b.length[lent[i]], most = lent[i] == LINKS ? 9 : lent[i] == COUNTS ? 4 : r.b.desk.room[lent[i]];
        for (size_t n = 0; n <= most; n++) {
            r.b.length[lent[i]] = n;
            wrong += !repairs_so(&r, 2);
            take_back(&r);
        }
        r.b.length[lent[i]] = usual;
    }
    check("repair: each lent length, 1 where it is wrong", wrong == 0);
    wrong = 0;
    for (r.b.length[LINKS] = 0; r.b.length[LINKS] <= 9; r.b.length[LINKS]++) {
        r.b.length[STORE] = r.b.length[LINKS] * PORTION;
        wrong += !repairs_so(&r, 2);
        take_back(&r);
    }
    check("repair: store and links shorter and longer together", wrong == 0);
    clear_store(&r);
}

static void repair_output(void)
{
    static const char list[] = "0 kept\n1 kept\n2 size\n3 kept\n";
    struct repaired r;
    unsigned wrong = 0;

    lay_four(&r);
    memset(r.b.desk.bytes[VALUE], 0x33, VALUES);
    put_size(&r, 2, 257);
    for (r.b.length[OUTPUT] = 0; r.b.length[OUTPUT] <= sizeof list + 7; r.b.length[OUTPUT]++) {
        wrong += !repairs_so(&r, 2);
        wrong += count(&r.b, 1) != (r.b.length[OUTPUT] < sizeof list - 1 ? 0 : sizeof list - 1);
        take_back(&r);
    }
    check("repair: 20 until the output is as long as the list", wrong == 0);
    r.b.length[OUTPUT] = 0;
    memset(r.b.desk.bytes[DIRECTORY], 0, 5 * ENTRY);
    check("repair: nothing to list, no output needed", repairs_so(&r, 2) && count(&r.b, 1) == 0);
    clear_store(&r);
    lay_store(&r, 1, 512);
    memset(r.b.desk.bytes[DIRECTORY], 255, 512 * ENTRY);
    r.b.length[OUTPUT] = 10 * 7 + 90 * 8 + 412 * 9;
    check("repair: a list of 512, just as long as the output", repairs_so(&r, 2) && count(&r.b, 1) == 4498);
    r.b.length[OUTPUT]--;
    take_back(&r);
    check("repair: one byte less is 20", repairs_so(&r, 2) && count(&r.b, 1) == 0);
    clear_store(&r);
    lay_store(&r, MOST_PORTIONS, MOST_ENTRIES);
    r.b.length[DIRECTORY] += ENTRY;
    check("repair: 513 entries are 1", repairs_so(&r, 2) && number_of(&r.b) == MOST_PORTIONS);
    r.b.length[DIRECTORY] -= ENTRY;
    r.b.length[STORE] += PORTION;
    r.b.length[LINKS]++;
    check("repair: 2,025 portions are 1", repairs_so(&r, 2));
    r.b.length[STORE] -= PORTION;
    r.b.length[LINKS]--;
    check("repair: 2,024 portions and 512 entries are not", repairs_so(&r, 2));
    clear_store(&r);
}

/* A small store, and each thing that can be wrong with one entry. */
static void reasons_by_hand(void)
{
    struct repaired r;

    lay_four(&r);
    check("repair: a sound store is kept", lists(&r, "0 kept\n1 kept\n2 kept\n3 kept\n"));
    entry_in(&r, 0)[0] = 4;
    check("repair: name, a kind above 3", lists(&r, "0 name\n1 kept\n2 kept\n3 kept\n"));
    entry_in(&r, 0)[0] = FORM;
    entry_in(&r, 2)[2] = 'A';
    check("repair: name, that of an earlier form", lists(&r, "0 kept\n1 kept\n2 name\n3 kept\n"));
    entry_in(&r, 2)[0] = RECORDING;
    check("repair: name, a form being recorded that has it", lists(&r, "0 kept\n1 kept\n2 name\n3 kept\n"));
    entry_in(&r, 0)[0] = RECORDING;
    entry_in(&r, 2)[0] = FORM;
    check("repair: one being recorded has no name for others", lists(&r, "0 content\n1 kept\n2 kept\n3 kept\n"));
    entry_in(&r, 0)[0] = FORM;
    entry_in(&r, 2)[2] = 'P';
    entry_in(&r, 3)[2] = 'A';
    check("repair: forms and pictures share no names", lists(&r, "0 kept\n1 kept\n2 kept\n3 kept\n"));
    entry_in(&r, 2)[2] = 'B';
    entry_in(&r, 3)[2] = 'P';
    check("repair: name, that of an earlier picture", lists(&r, "0 kept\n1 kept\n2 kept\n3 name\n"));
    put_link(&r.b, 1, FREE);
    check("repair: the name of a dropped one may be had", lists(&r, "0 kept\n1 chain\n2 kept\n3 kept\n"));
    put_link(&r.b, 1, 2);
    entry_in(&r, 3)[2] = 'Q';
    put_first(&r, 3, 7);
    check("repair: chain, a first portion that is none", lists(&r, "0 kept\n1 kept\n2 kept\n3 chain\n"));
    put_first(&r, 3, CHAIN_END);
    check("repair: chain, 65534 as the first portion", lists(&r, "0 kept\n1 kept\n2 kept\n3 chain\n"));
    put_first(&r, 3, 5);
    check("repair: chain, a first portion that is free", lists(&r, "0 kept\n1 kept\n2 kept\n3 chain\n"));
    put_first(&r, 3, 4);
    put_link(&r.b, 2, 1);
    check("repair: chain, a portion that comes twice", lists(&r, "0 kept\n1 chain\n2 kept\n3 kept\n"));
    put_link(&r.b, 2, 2);
    check("repair: chain, a portion that names itself", lists(&r, "0 kept\n1 chain\n2 kept\n3 kept\n"));
    put_link(&r.b, 2, 5);
    check("repair: chain, into a free portion", lists(&r, "0 kept\n1 chain\n2 kept\n3 kept\n"));
    put_chain(&r, 5, 5);
    check("repair: size, a portion too many", lists(&r, "0 kept\n1 size\n2 kept\n3 kept\n"));
    put_link(&r.b, 5, FREE);
    put_link(&r.b, 1, CHAIN_END);
    check("repair: size, a portion too few", lists(&r, "0 kept\n1 size\n2 kept\n3 kept\n"));
    put_link(&r.b, 1, 2);
    put_link(&r.b, 2, 3);
    put_size(&r, 1, 513);
    check("repair: its content first, then the next is kept", lists(&r, "0 kept\n1 content\n2 kept\n3 kept\n"));
    put_link(&r.b, 2, CHAIN_END);
    put_size(&r, 1, 300);
    put_first(&r, 2, 0);
    check("repair: shared, the first portion", lists(&r, "0 kept\n1 kept\n2 shared\n3 kept\n"));
    put_first(&r, 2, 3);
    put_link(&r.b, 4, 2);
    put_size(&r, 3, 300);
    check("repair: shared, the last portion", lists(&r, "0 kept\n1 kept\n2 kept\n3 shared\n"));
    put_link(&r.b, 2, 2);
    put_link(&r.b, 4, CHAIN_END);
    put_size(&r, 3, 130);
    put_first(&r, 3, 1);
    put_size(&r, 3, 300);
    check("repair: a dropped one shares nothing", lists(&r, "0 kept\n1 chain\n2 kept\n3 chain\n"));
    put_link(&r.b, 2, CHAIN_END);
    entry_in(&r, 1)[2] = 'p';
    check("repair: and another may have its portions", lists(&r, "0 kept\n1 name\n2 kept\n3 kept\n"));
    clear_store(&r);
}

static void contents_by_hand(void)
{
    struct repaired r;

    lay_four(&r);
    entry_in(&r, 0)[0] = RECORDING;
    check("repair: content, a form being recorded", lists(&r, "0 content\n1 kept\n2 kept\n3 kept\n"));
    entry_in(&r, 0)[0] = PICTURE;
    check("repair: content, a form as a picture", lists(&r, "0 content\n1 kept\n2 kept\n3 kept\n"));
    entry_in(&r, 0)[0] = FORM;
    entry_in(&r, 1)[0] = FORM;
    check("repair: content, a picture as a form", lists(&r, "0 kept\n1 content\n2 kept\n3 kept\n"));
    memset(entry_in(&r, 1), 0, ENTRY);
    check("repair: a form keeps without its picture", lists(&r, "0 kept\n2 kept\n3 kept\n"));
    put_bytes(&r, 0, "LO1,2,3,4\nGG0,0,\"p\"\n", 20);
    check("repair: content, a name in small letters", lists(&r, "0 content\n2 kept\n3 kept\n"));
    put_bytes(&r, 0, "LO1,2,3,4\nGG0,00,\"\"\n", 20);
    check("repair: content, a leading zero", lists(&r, "0 content\n2 kept\n3 kept\n"));
    put_bytes(&r, 0, "LO1,2,3,4\nLO1,2,3,4 ", 20);
    check("repair: content, a line without its LF", lists(&r, "0 content\n2 kept\n3 kept\n"));
    put_bytes(&r, 0, "LO1,2,3,4\nP1\nR0,0\n\n\n", 20);
    check("repair: content, a line that has no place there", lists(&r, "0 content\n2 kept\n3 kept\n"));
    put_bytes(&r, 0, "C0,2,+1,\"\"\nC0,2,+1,\n", 20);
    check("repair: content, a line that is not written so", lists(&r, "0 content\n2 kept\n3 kept\n"));
    put_bytes(&r, 0, "V0,1,L,\"\"\nV0,1,L,\"\"\n", 20);
    check("repair: content, declared before", lists(&r, "0 content\n2 kept\n3 kept\n"));
    put_bytes(&r, 0, "V0,1,L,\"\"\nV1,1,L,\"\"\n", 20);
    check("repair: kept, declared once each", lists(&r, "0 kept\n2 kept\n3 kept\n"));
    put_bytes(&r, 0, "A0,0,0,1,1,N,V0V0V0\n", 20);
    check("repair: content, not declared", lists(&r, "0 content\n2 kept\n3 kept\n"));
    put_bytes(&r, 0, "B0,0,0,2,1,2,24,N,TD\n", 21);
    put_size(&r, 0, 21);
    check("repair: content, unfit in the example formats", lists(&r, "0 content\n2 kept\n3 kept\n"));
    put_bytes(&r, 0, "TDy2\nB0,0,0,2,1,2,24,N,TD\n", 26);
    put_size(&r, 0, 26);
    check("repair: kept, fit in the form's own format", lists(&r, "0 kept\n2 kept\n3 kept\n"));
    put_bytes(&r, 3, "B0,0,0,2,1,2,24,N,TD\n", 21);
    put_size(&r, 2, 21);
    check("repair: content, the format is another form's", lists(&r, "0 kept\n2 content\n3 kept\n"));
    put_size(&r, 2, 0);
    r.b.desk.bytes[STORE][4 * PORTION + 129] = 192;
    check("repair: content, a picture's run of none", lists(&r, "0 kept\n2 kept\n3 content\n"));
    r.b.desk.bytes[STORE][4 * PORTION + 129] = 255;
    check("repair: content, a picture's run without its value", lists(&r, "0 kept\n2 kept\n3 content\n"));
    clear_store(&r);
}

/* All reasons hold of one entry; they are taken away from the front, and each time the next is told. */
static void reasons_in_order(void)
{
    struct repaired r;

    lay_store(&r, 4, 2);
    put_lines(&r, 0);
    put_lines(&r, 1);
    put_chain(&r, 0, 1);
    put_entry(&r, 0, FORM, "A", 0, 512);
    put_entry(&r, 1, RECORDING, "A", 9, 999);
    check("repair: name before chain", lists(&r, "0 kept\n1 name\n"));
    entry_in(&r, 1)[2] = 'B';
    check("repair: chain before size", lists(&r, "0 kept\n1 chain\n"));
    put_first(&r, 1, 0);
    check("repair: size before shared", lists(&r, "0 kept\n1 size\n"));
    put_size(&r, 1, 511);
    check("repair: shared before content", lists(&r, "0 kept\n1 shared\n"));
    entry_in(&r, 0)[2] = 'b';
    check("repair: content is left", lists(&r, "0 name\n1 content\n"));
    entry_in(&r, 1)[0] = FORM;
    check("repair: content of its lines", lists(&r, "0 name\n1 content\n"));
    put_size(&r, 1, 512);
    check("repair: and none, then it is kept", lists(&r, "0 name\n1 kept\n"));
    clear_store(&r);
}

/* Every size of four portions of lines; and 32,768 bytes of a picture. */
static void sizes_told(void)
{
    struct repaired r;
    unsigned wrong = 0, kept = 0;

    lay_store(&r, 5, 1);
    for (unsigned i = 0; i < 5; i++)
        put_lines(&r, i);
    for (unsigned portions = 1; portions <= 4; portions++) {
        put_chain(&r, 1, portions);
        for (unsigned size = 0; size <= 1300; size++) {
            bool right = size == 0 ? portions == 1 : size > (portions - 1) * 256 && size <= portions * 256;
            bool ends = size % 256 == 0 || (size % 256 <= 250 && size % 5 == (size / 256) % 5);  /* behind an LF: five bytes each, and 256 are one more than 51 times five */
            put_entry(&r, 0, FORM, "A", 1, size);
            wrong += !lists(&r, !right ? "0 size\n" : ends ? "0 kept\n" : "0 content\n");
            kept += right && ends;
        }
    }
    check("repair: forms of 0 to 1,300 bytes in one to four portions", wrong == 0 && kept == 4 * 51 + 1);
    wrong = 0;
    put_chain(&r, 1, 1);
    for (unsigned bit = 9; bit < 32; bit++)
        for (unsigned add = 0; add < 257; add += 256) {
            put_entry(&r, 0, bit % 2 ? FORM : PICTURE, "A", 1, (1u << bit) + add);
            wrong += !lists(&r, "0 size\n");
            put_entry(&r, 0, FORM, "A", 1, 0u - (1u << (bit - 9)));
            wrong += !lists(&r, "0 size\n");
        }
    check("repair: no size of 32 bits goes round to another", wrong == 0);
    clear_store(&r);
    lay_store(&r, 131, 2);
    put_picture(&r, 1, 32768);
    put_entry(&r, 1, PICTURE, "P", 1, 32768);
    check("repair: a picture of 32,768 bytes is kept", lists(&r, "1 kept\n"));
    put_chain(&r, 1, 129);
    put_size(&r, 1, 32769);
    check("repair: size, one of 32,769 in 129 portions", lists(&r, "1 size\n"));
    put_entry(&r, 0, FORM, "P", 1, 32769);
    check("repair: a form of 32,769 has the right size", lists(&r, "0 content\n1 size\n"));
    put_chain(&r, 1, 1);
    memset(entry_in(&r, 0), 0, ENTRY);
    wrong = 0;
    for (unsigned size = 0; size <= 256; size++) {
        put_picture(&r, 1, size);
        put_size(&r, 1, size);
        wrong += !lists(&r, size < 130 ? "1 content\n" : "1 kept\n");
    }
    check("repair: pictures of up to 256 bytes, legal from 130 on", wrong == 0);
    clear_store(&r);
}

/* Every byte in every place of the name of a form, of each length; every kind. */
static void names_told(void)
{
    struct repaired r;
    unsigned wrong = 0, kept = 0;

    lay_store(&r, 2, 1);
    put_chain(&r, 0, 0);
    for (unsigned length = 0; length <= 10; length++)
        for (unsigned place = 0; place < 8; place++)
            for (unsigned byte = 0; byte < 256; byte++) {
                bool legal = byte >= 32 && byte <= 126 && byte != '*' && byte != '"' && !(byte >= 'a' && byte <= 'z');
                bool right = length >= 1 && length <= 8 && (place < length ? legal : byte == 0);
                put_entry(&r, 0, FORM, "ABCDEFGH", 0, 0);
                memset(entry_in(&r, 0) + 2 + (length < 8 ? length : 8), 0, length < 8 ? 8 - length : 0);
                entry_in(&r, 0)[1] = (uint8_t)length;
                entry_in(&r, 0)[2 + place] = (uint8_t)byte;
                wrong += !lists(&r, right ? "0 kept\n" : "0 name\n");
                kept += right;
            }
    check("repair: each byte in each place of names of 0 to 10 bytes", wrong == 0 && kept == 36 * 67 + 28);
    wrong = 0;
    for (unsigned length = 0; length < 256; length++) {
        put_entry(&r, 0, FORM, "ABCDEFGH", 0, 0);
        entry_in(&r, 0)[1] = (uint8_t)length;
        wrong += !lists(&r, length == 8 ? "0 kept\n" : "0 name\n");
    }
    for (unsigned kind = 0; kind < 256; kind++) {
        put_entry(&r, 0, (uint8_t)kind, "A", 0, 0);
        wrong += !lists(&r, kind == 0 ? "" : kind == 1 ? "0 kept\n" : kind <= 3 ? "0 content\n" : "0 name\n");
    }
    check("repair: each length byte and each kind", wrong == 0);
    clear_store(&r);
    lay_store(&r, 2, 2);
    put_chain(&r, 0, 0);
    put_chain(&r, 1, 1);
    wrong = 0;
    for (unsigned place = 0; place < 8; place++) {
        put_entry(&r, 0, FORM, "ABCDEFGH", 0, 0);
        put_entry(&r, 1, FORM, "ABCDEFGH", 1, 0);
        wrong += !lists(&r, "0 kept\n1 name\n");
        entry_in(&r, 1)[2 + place] = 'X';
        wrong += !lists(&r, "0 kept\n1 kept\n");
    }
    check("repair: names that differ in one byte are two", wrong == 0);
    clear_store(&r);
}

/* Every number as a first portion and as a link. */
static void links_told(void)
{
    struct repaired r;
    unsigned wrong = 0;

    lay_store(&r, 3, 1);
    put_chain(&r, 1, 1);
    for (unsigned first = 0; first < 65536; first++) {
        put_entry(&r, 0, FORM, "A", first, 0);
        wrong += !lists(&r, first == 1 ? "0 kept\n" : "0 chain\n");
    }
    check("repair: each number as the first of three portions", wrong == 0);
    wrong = 0;
    put_entry(&r, 0, FORM, "A", 1, 0);
    put_chain(&r, 2, 2);
    for (unsigned link = 0; link < 65536; link++) {
        put_link(&r.b, 1, link);
        wrong += !lists(&r, link == CHAIN_END ? "0 kept\n" : link == 2 ? "0 size\n" : "0 chain\n");
    }
    check("repair: each number as a link", wrong == 0);
    clear_store(&r);
}

/* All link tables of three portions, with two forms of every first portion and of sizes at the ends of portions. Each portion is full of lines. */
static void every_small_store(void)
{
    static const unsigned links[] = {0, 1, 2, 3, CHAIN_END, FREE}, firsts[] = {0, 1, 2, 3, CHAIN_END};
    static const uint32_t sizes[] = {0, 5, 256, 261, 512, 517, 768, 769};
    struct repaired r;
    unsigned wrong = 0;
    uint64_t worlds = 0;

    lay_store(&r, 3, 2);
    keep_desk(&r);
    for (unsigned table = 0; table < 216; table++)
        for (unsigned one = 0; one < 40; one++)
            for (unsigned other = 0; other < 40; other++) {
                for (unsigned i = 0; i < 3; i++) {
                    put_lines(&r, i);
                    put_link(&r.b, i, links[table / (i == 0 ? 1 : i == 1 ? 6 : 36) % 6]);
                }
                put_entry(&r, 0, FORM, "A", firsts[one / 8], sizes[one % 8]);
                put_entry(&r, 1, FORM, "B", firsts[other / 8], sizes[other % 8]);
                wrong += !repairs_so(&r, 1);
                worlds++;
            }
    check("repair: 345,600 stores of three portions, told again", wrong == 0 && worlds == 345600);
    clear_store(&r);
}

/* All link tables of two portions, with two entries of every kind, one of two names, every first portion and some sizes. */
static void every_smaller_store(void)
{
    static const unsigned links[] = {0, 1, 2, CHAIN_END, FREE};
    static const uint32_t sizes[] = {0, 256, 261, 512};
    struct repaired r;
    unsigned wrong = 0;

    lay_store(&r, 2, 2);
    for (unsigned table = 0; table < 25; table++)
        for (unsigned both = 0; both < 120 * 120; both++) {
            put_lines(&r, 0);
            put_lines(&r, 1);
            put_link(&r.b, 0, links[table % 5]);
            put_link(&r.b, 1, links[table / 5]);
            for (unsigned i = 0, n = both; i < 2; i++, n = both / 120)
                put_entry(&r, i, (uint8_t)(n % 5), n / 5 % 2 ? "A" : "B", n / 10 % 3, sizes[n / 30 % 4]);
            wrong += !repairs_so(&r, 1);
        }
    check("repair: 360,000 stores of two portions, told again", wrong == 0);
    clear_store(&r);
}

/* Each bit of a small store flipped, and each two bits of its directory and links. */
static void every_flipped_bit(void)
{
    static const enum slice slices[] = {DIRECTORY, LINKS, STORE};
    struct repaired r;
    unsigned wrong = 0, flipped = 0;

    lay_four(&r);
    for (unsigned s = 0; s < 3; s++)
        for (unsigned bit = 0; bit < 8 * (slices[s] == LINKS ? 14 : r.b.length[slices[s]]); bit++) {
            r.b.desk.bytes[slices[s]][bit / 8] ^= (uint8_t)(1u << bit % 8);
            wrong += !repairs_so(&r, 1);
            take_back(&r);
            r.b.desk.bytes[slices[s]][bit / 8] ^= (uint8_t)(1u << bit % 8);
            flipped++;
        }
    check("repair: each bit of a store flipped, told again", wrong == 0 && flipped == 8 * (80 + 14 + 7 * 256));
    wrong = 0;
    for (unsigned one = 0; one < 8 * 94; one++)
        for (unsigned other = 0; other < one; other++) {
            uint8_t *a = one < 640 ? r.b.desk.bytes[DIRECTORY] + one / 8 : r.b.desk.bytes[LINKS] + (one - 640) / 8;
            uint8_t *b = other < 640 ? r.b.desk.bytes[DIRECTORY] + other / 8 : r.b.desk.bytes[LINKS] + (other - 640) / 8;
            *a ^= (uint8_t)(1u << one % 8);
            *b ^= (uint8_t)(1u << other % 8);
            wrong += !repairs_so(&r, 1);
            take_back(&r);
            *a ^= (uint8_t)(1u << one % 8);
            *b ^= (uint8_t)(1u << other % 8);
        }
    check("repair: each two bits of its entries and links", wrong == 0);
    clear_store(&r);
}

/* What is dropped leaves the store as if it had been erased. */
static void dropped_as_erased(void)
{
    static const char *const erase[] = {"FK\"A\"", "GK\"P\"", "FK\"B\"", "GK\"Q\""};
    struct repaired r, other;
    unsigned wrong = 0;

    for (unsigned i = 0; i < 4; i++) {
        lay_four(&r);
        lay_four(&other);
        wrong += repair(&other.b, 2) != 0 || send(&other.b, erase[i]) != 0;
        entry_in(&r, i)[0] = 77;
        wrong += repair(&r.b, 2) != 0;
        for (int s = SESSION; s < SLICES; s++)
            wrong += (s == SESSION || s == STORE || s == LINKS || s == DIRECTORY || s == VALUE) && memcmp(r.b.desk.bytes[s], other.b.desk.bytes[s], r.b.desk.room[s]) != 0;
        clear_store(&r);
        clear_store(&other);
    }
    check("repair: dropped is as erased, byte for byte", wrong == 0);
}

/* "one broken link makes all forms unreadable": 3 before, and behind the repair all but one can be listed, shown and printed. */
static void broken_link(void)
{
    struct repaired r;

    lay_four(&r);
    repair(&r.b, 2);
    put_link(&r.b, 1, 1);
    check("one broken link: all is 3", send(&r.b, "FI") == 3 && send(&r.b, "FR\"A\"") == 3 && label(&r.b) == 3);
    r.b.length[OUTPUT] = 64;
    check("repaired, it is only one picture", repairs_so(&r, 2) && count(&r.b, 1) == 29 && memcmp(r.b.desk.bytes[OUTPUT], "0 kept\n1 chain\n2 kept\n3 kept\n", 29) == 0);
    check("repaired, forms are listed", send(&r.b, "FI") == 0 && count(&r.b, 1) == 13 && memcmp(r.b.desk.bytes[OUTPUT], "20,\"A\"\n0,\"B\"\n", 13) == 0);
    check("repaired, and shown", send(&r.b, "FP\"A\"") == 0 && count(&r.b, 1) == 20 && memcmp(r.b.desk.bytes[OUTPUT], "LO1,2,3,4\nGG0,0,\"P\"\n", 20) == 0);
    check("repaired, P finds its picture gone, and B prints", send(&r.b, "FR\"A\"") == 0 && send(&r.b, "P1") == 11 && send(&r.b, "FR\"B\"") == 0 && send(&r.b, "P1") == 0
                                                                 && label(&r.b) == 0 && label(&r.b) == 21);
    check("repaired, a form takes the first portion freed", send(&r.b, "FS\"N\"") == 0 && send(&r.b, "FE") == 0 && memcmp(entry_in(&r, 1), "\1\1N\0\0\0\0\0\0\0\1\0\0\0\0\0", 16) == 0);
    clear_store(&r);
}

/* Whatever session there was, what is left is one that opening might have left. */
static void repair_resets(void)
{
    static const char *const lines[] = {"R7,8", "ZB", "q100", "Q2,5", "TS9,9,9,9,9,9", "TDy4", "FR\"A\"", "P2"};
    struct repaired r;
    unsigned wrong = 0;
    uint8_t opened[IMAGE];

    lay_four(&r);
    memcpy(opened, r.b.desk.bytes[SESSION], IMAGE);
    opened[65] = 2;  /* free portions */
    repair(&r.b, 2);
    for (unsigned i = 0; i < 8; i++)
        wrong += send(&r.b, lines[i]) != 0;
    check("repair: a session under way, with labels owed", wrong == 0 && repairs_so(&r, 2) && memcmp(opened, r.b.desk.bytes[SESSION], IMAGE) == 0);
    for (unsigned i = 0; i < 256; i++) {
        memset(r.b.desk.bytes[SESSION], (int)i, IMAGE);
        memset(r.b.desk.bytes[VALUE], (int)(255 - i), VALUES);
        wrong += !repairs_so(&r, 2) || memcmp(opened, r.b.desk.bytes[SESSION], IMAGE) != 0;
    }
    check("repair: any image and any values before", wrong == 0);
    clear_store(&r);
}

/* As great as it may be: one chain of all portions, which 512 entries begin in. */
static void greatest_chain(void)
{
    struct repaired r;
    unsigned wrong = 0;
    char name[9];

    lay_store(&r, MOST_PORTIONS, MOST_ENTRIES);
    for (unsigned i = 0; i < MOST_PORTIONS; i++)
        put_lines(&r, i);
    put_chain(&r, 0, MOST_PORTIONS - 1);
    for (unsigned i = 0; i < MOST_ENTRIES; i++) {
        sprintf(name, "#%u", i);
        put_entry(&r, i, FORM, name, i, (MOST_PORTIONS - i) * PORTION);
    }
    r.b.length[OUTPUT] = 14 * MOST_ENTRIES;
    wrong += !repairs_so(&r, 4000);
    check("repair: one chain of 2,024 portions and 512 entries", wrong == 0 && r.told.of[0] == TOLD_KEPT && r.told.of[1] == TOLD_SHARED && r.told.of[511] == TOLD_SHARED);
    take_back(&r);
    put_link(&r.b, MOST_PORTIONS - 1, 2000);
    check("repair: the same with a circle at its end", repairs_so(&r, 4000) && r.told.of[0] == TOLD_CHAIN && r.told.of[511] == TOLD_CHAIN && number_of(&r.b) == MOST_PORTIONS);
    clear_store(&r);
}

static void repair_cases(void)
{
    repair_refusals();
    repair_output();
    reasons_by_hand();
    contents_by_hand();
    reasons_in_order();
    sizes_told();
    names_told();
    links_told();
    every_small_store();
    every_smaller_store();
    every_flipped_bit();
    dropped_as_erased();
    broken_link();
    repair_resets();
    greatest_chain();
}

/* ---- the modules of one symbol ---- */

static int write_modules(const char *type, int wide, const char *data)
{
    uint8_t widths[MOST_BARS];
    enum bar_type t = strcmp(type, "3") == 0 ? CODE_39 : strcmp(type, "2") == 0 ? INTERLEAVED : strcmp(type, "E30") == 0 ? EAN_13
                                                                                                          : CODE_128;
    unsigned n = bar_widths(t, 1, wide, (const uint8_t *)data, (unsigned)strlen(data), widths);

    for (unsigned i = 0; i < n; i++)
        for (unsigned k = 0; k < widths[i]; k++)
            putchar(i % 2 == 0 ? '1' : '0');
    putchar('\n');
    return 0;
}

static int write_all_modules(const char *type, int wide)
{
    char line[MOST_DATA + 2];

    while (fgets(line, sizeof line, stdin)) {
        line[strcspn(line, "\n")] = 0;
        write_modules(type, wide, line);
    }
    return 0;
}

static int label_program(void)
{
    static uint8_t input[8192];
    struct bench b;

    open_bench(&b, 240, empty_font, sizeof empty_font);
    run_session(&b, input, fread(input, 1, sizeof input, stdin), stdout);
    clear_away(&b.desk);
    return 0;
}

int main(int argc, char **argv)
{
    if (argc == 5 && strcmp(argv[1], "bars") == 0)
        return write_modules(argv[2], atoi(argv[3]), argv[4]);
    if (argc == 4 && strcmp(argv[1], "bars") == 0)
        return write_all_modules(argv[2], atoi(argv[3]));
    if (argc == 2 && strcmp(argv[1], "label") == 0)
        return label_program();
    sample_session();
    bar_cases();
    frame_case();
    variable_case();
    limit_cases();
    turn_cases();
    lined_cases();
    line_cases();
    line_in_form_case();
    word_cases();
    pointing_cases();
    running_cases();
    full_cases();
    free_number_cases();
    fits_cases();
    slanted_cases();
    shortest_cases();
    dated_cases();
    repair_cases();
    rectangle_cases();
    picture_case();
    return failures != 0;
}
