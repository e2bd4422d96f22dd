/* pointing.c: the places of answer 6 told a second time, sentence by sentence, and held against the reader of lines.c.
 *
 * The reader goes over a line once and finds everything on its way. Here it is taken apart:
 *
 *   which lines are well-formed    one regular expression for the whole language
 *   which lines end too soon       "exactly when some well-formed line (of any length) starts with it": a well-formed line is
 *                                  searched, by putting every tail of every sample behind the line
 *   which piece is the first that  each command has a row of pieces, and each piece is cut out of the line before it is
 *   is not what must stand there   looked at: a number by its run of digits, a word by the next comma, a text by its quotes
 *
 * A tail that is found proves that the line ends too soon. That none exists where none is found is only as sure as the samples
 * are many; a reader that says "too soon" there fails. */
#include "pointing.h"

#include <ctype.h>
#include <regex.h>
#include <stdio.h>
#include <stdlib.h>
#include <string.h>

#include "peer.h"

static const char *const samples[] = {
    "Q240,24", "q80", "N", "R100,50", "ZT", "ZB", "LO10,10,100,200", "LE0,0,1,1", "LW5,6,7,8", "LS3,5,2,9,5", "LSE10,10,8,100,200",
    "LSW0,0,1,7,9", "X10,10,3,360,250", "A0,0,0,1,1,N,V0L1V0M3.2V0R1",
    "A0,0,0,1,1,R,\"a\"C0\"b\"", "B0,0,0,E30,2,3,50,N,\"123456789012\"", "B0,0,0,3,2,3,50,B,C0", "B0,0,0,3,2,3,50,B,C,C0",
    "B0,0,0,3,2,3,50,B,R,\"R,\"", "B0,0,0,1,2,3,50,B,V0M1.2", "B0,0,0,2,2,3,50,N,C0R1", "GG0,0,\"Name\"", "FS\"Test\"", "FE", "FR\"Test\"", "FK\"*\"",
    "FP\"Test\"", "FI", "GI", "GK\"Name\"", "GM\"Name\",300", "V0,5,L,\"Name\"", "C0,02,+1,\"NO\"", "C0,2,-99999,\"\"", "C1,123456789,1,\"\"",
    "?V0,\"ABCDE\"", "?C0,99", "VC", "P2", "TS6,15,2,14,35,0", "TDme-dd-y4", "TDY2,MN,DD", "TDdd.y4/mN", "TDMe", "TDy4-dd", "TDme-dd", "TTh:m:s", "TTSmH", "TTs-h",
    "A0,0,0,1,1,N,\"Date: \"TD\" \"TT", "B0,0,0,2,2,3,50,B,TD"};

enum { SAMPLES = sizeof samples / sizeof samples[0] };

/* ---- well-formed ---- */

#define NUMBER "[0-9]{1,9}"
#define TEXT "\"[ !#-~]*\""
#define DATA "(" TEXT "|[VC][0-9]([LR]" NUMBER "|M" NUMBER "[.]" NUMBER ")?|T[DT])+"

/* One, two or three of a, b and c, each at most once, in every order, with one separator between two. */
#define BETWEEN "[!#-~]"
#define LEADS(a, b, c) a "(" BETWEEN "(" b "(" BETWEEN c ")?|" c "(" BETWEEN b ")?))?"
#define FORMATS(a, b, c) "(" LEADS(a, b, c) "|" LEADS(b, c, a) "|" LEADS(c, a, b) ")"

static bool well_formed(const uint8_t *line, unsigned length)
{
    static const char form[] =
        "^(Q" NUMBER "," NUMBER "|q" NUMBER "|N|R" NUMBER "," NUMBER "|Z[TB]|L[OEW]" NUMBER "(," NUMBER "){3}|(X|LS[EW]?)" NUMBER "(," NUMBER "){4}"
        "|A" NUMBER "(," NUMBER "){4},[NR]," DATA "|B" NUMBER "(," NUMBER "){2},(3|2|E30|1)(," NUMBER "){3},(N|B|B,C|B,R)," DATA
        "|GG" NUMBER "," NUMBER "," TEXT "|F[SRKP]" TEXT "|F[EI]|GM" TEXT "," NUMBER "|GK" TEXT "|GI|V" NUMBER "," NUMBER ",[LRCNZ]," TEXT
        "|C" NUMBER "," NUMBER ",[+-]?" NUMBER "," TEXT "|[?]V" NUMBER "," TEXT "|[?]C" NUMBER "," NUMBER "|VC|P" NUMBER
        "|TS" NUMBER "(," NUMBER "){5}|TD" FORMATS("[Yy][24]", "[Mm][EeNn]", "[Dd][Dd]") "|TT" FORMATS("[Hh]", "[Mm]", "[Ss]") ")$";
    static regex_t compiled;
    static bool ready;
    char text[MOST_LINE + 1];

    if (!ready && regcomp(&compiled, form, REG_EXTENDED | REG_NOSUB) != 0)
        abort();
    ready = true;
    if (memchr(line, 0, length) || memchr(line, '\n', length))
        return false;
    memcpy(text, line, length);
    text[length] = 0;
    return regexec(&compiled, text, 0, NULL, 0) == 0;
}

static struct verdict verdict_on(const uint8_t *line, unsigned length)
{
    static struct normal_line normal;
    static struct command c;

    return read_line(line, length, 240, &c, &normal);
}

/* The reader, which is the quicker, looks through the tails; what it finds is held against the expression. */
static bool ends_too_soon(const uint8_t *line, unsigned length)
{
    uint8_t whole[MOST_LINE];

    memcpy(whole, line, length);
    for (unsigned i = 0; i < SAMPLES; i++) {
        unsigned all = (unsigned)strlen(samples[i]);
        if (length > 0 && samples[i][0] != line[0])
            continue;  /* another command: its tails are also those of a sample of this one, or do not fit */
        for (unsigned from = 0; from < all; from++) {
            memcpy(whole + length, samples[i] + from, all - from);
            if (verdict_on(whole, length + all - from).answer != NOT_WRITTEN_SO)
                return well_formed(whole, length + all - from);
        }
    }
    return false;
}

/* ---- the first piece that is not what must stand there ---- */

struct rest {
    const uint8_t *line;
    unsigned length, at;
};

static int byte_at(const struct rest *r, unsigned ahead)
{
    return r->at + ahead < r->length ? r->line[r->at + ahead] : -1;
}

static unsigned digits_at(const struct rest *r, unsigned ahead)
{
    unsigned run = 0;

    while (byte_at(r, ahead + run) >= '0' && byte_at(r, ahead + run) <= '9')
        run++;
    return run;
}

static bool number_at(const struct rest *r, unsigned ahead)
{
    return digits_at(r, ahead) >= 1 && digits_at(r, ahead) <= 9;
}

static bool pass_number(struct rest *r)
{
    bool right = number_at(r, 0);

    r->at += right ? digits_at(r, 0) : 0;
    return right;
}

static bool pass_step(struct rest *r)
{
    unsigned sign = byte_at(r, 0) == '+' || byte_at(r, 0) == '-';
    bool right = number_at(r, sign);

    r->at += right ? sign + digits_at(r, sign) : 0;
    return right;
}

/* words: each with a comma behind it. */
static bool pass_word(struct rest *r, const char *words)
{
    char word[MOST_LINE + 3] = ",";
    unsigned run = 0;

    while (byte_at(r, run) >= 0 && byte_at(r, run) != ',') {
        word[1 + run] = byte_at(r, run) ? (char)byte_at(r, run) : '?';
        run++;
    }
    word[1 + run] = ',';
    if (run == 0 || !strstr(words, word))
        return false;
    r->at += run;
    return true;
}

static bool pass_text(struct rest *r)
{
    unsigned run = 1;

    if (byte_at(r, 0) != '"')
        return false;
    for (; byte_at(r, run) >= 0 && byte_at(r, run) != '"'; run++)
        if (byte_at(r, run) < 32 || byte_at(r, run) > 126)
            return false;
    r->at += run + 1;
    return true;
}

static bool pass_element(struct rest *r)
{
    unsigned run = 2;

    if (byte_at(r, 0) == '"')
        return pass_text(r);
    if (byte_at(r, 0) == 'T' && (byte_at(r, 1) == 'D' || byte_at(r, 1) == 'T')) {
        r->at += 2;
        return true;
    }
    if ((byte_at(r, 0) != 'V' && byte_at(r, 0) != 'C') || byte_at(r, 1) < '0' || byte_at(r, 1) > '9')
        return false;
    switch (byte_at(r, 2)) {
    case 'M':
        if (!number_at(r, 3) || byte_at(r, 3 + digits_at(r, 3)) != '.')
            return false;
        run = 3 + digits_at(r, 3);
        /* fall through */
    case 'L':
    case 'R':
        if (!number_at(r, run + 1))
            return false;
        run += 1 + digits_at(r, run + 1);
    }
    r->at += run;
    return true;
}

static bool pass_data(struct rest *r)
{
    while (r->at < r->length)
        if (!pass_element(r))
            return false;
    return true;
}

/* N or B, and behind B its place if one stands there. */
static bool pass_line_word(struct rest *r)
{
    bool lined = byte_at(r, 0) == 'B';

    if (!pass_word(r, ",N,B,"))
        return false;
    if (lined && (byte_at(r, 1) == 'C' || byte_at(r, 1) == 'R') && byte_at(r, 2) == ',')
        r->at += 2;
    return true;
}

/* Which of these words, all of so many letters, stands here in either case. */
static const char *word_here(const struct rest *r, const char *words, unsigned letters)
{
    for (; *words; words += letters) {
        unsigned same = 0;
        while (same < letters && byte_at(r, same) > 0 && toupper(byte_at(r, same)) == words[same])
            same++;
        if (same == letters)
            return words;
    }
    return NULL;
}

/* Three fields at most, none of which begins as one before it, and a separator between two. */
static bool pass_format(struct rest *r, const char *words, unsigned letters)
{
    char seen[4] = "";

    for (unsigned count = 0; count < 3 && (count == 0 || r->at < r->length); count++) {
        const char *word;
        if (count > 0 && (byte_at(r, 0) < 33 || byte_at(r, 0) > 126 || byte_at(r, 0) == '"'))
            return false;
        r->at += count > 0;
        word = word_here(r, words, letters);
        if (!word || strchr(seen, *word))
            return false;
        seen[count] = *word;
        r->at += letters;
    }
    return true;
}

static bool pass_piece(struct rest *r, char piece)
{
    switch (piece) {
    case 'n': return pass_number(r);
    case 's': return pass_step(r);
    case 't': return pass_word(r, ",3,2,E30,1,");
    case 'm': return pass_word(r, ",N,R,");
    case 'j': return pass_word(r, ",L,R,C,N,Z,");
    case 'b': return pass_line_word(r);
    case 'q': return pass_text(r);
    case 'd': return pass_data(r);
    case 'f': return pass_format(r, "Y2Y4MEMNDD", 2);
    case 'g': return pass_format(r, "HMS", 1);
    default: return byte_at(r, 0) == (uint8_t)piece && ++r->at;
    }
}

/* Of a line that is not well-formed and does not end too soon. */
static unsigned first_at_fault(const uint8_t *line, unsigned length)
{
    static const char *const commands[][2] = {
        {"LSE", "n,n,n,n,n"}, {"LSW", "n,n,n,n,n"}, {"LS", "n,n,n,n,n"}, {"VC", ""}, {"?V", "n,q"}, {"?C", "n,n"}, {"LO", "n,n,n,n"}, {"LE", "n,n,n,n"},
        {"LW", "n,n,n,n"}, {"GG", "n,n,q"}, {"GM", "q,n"}, {"GK", "q"}, {"GI", ""}, {"FS", "q"}, {"FE", ""}, {"FR", "q"}, {"FK", "q"}, {"FI", ""}, {"FP", "q"}, {"ZT", ""}, {"ZB", ""},
        {"Q", "n,n"}, {"q", "n"}, {"N", ""}, {"R", "n,n"}, {"X", "n,n,n,n,n"}, {"A", "n,n,n,n,n,m,d"}, {"B", "n,n,n,t,n,n,n,b,d"},
        {"V", "n,n,j,q"}, {"C", "n,n,s,q"}, {"P", "n"}, {"TS", "n,n,n,n,n,n"}, {"TD", "f"}, {"TT", "g"}};

    for (unsigned i = 0; i < sizeof commands / sizeof commands[0]; i++) {  /* the longest letters first */
        struct rest r = {line, length, (unsigned)strlen(commands[i][0])};
        if (length < r.at || memcmp(line, commands[i][0], r.at) != 0)
            continue;
        for (const char *piece = commands[i][1]; *piece; piece++)
            if (!pass_piece(&r, *piece))
                return r.at;
        return r.at;
    }
    return 0;
}

/* ---- all of it ---- */

static void tell(struct told *t, const uint8_t *line, unsigned length)
{
    struct verdict v = verdict_on(line, length);
    bool right, soon = false;

    if (well_formed(line, length)) {
        right = v.answer != NOT_WRITTEN_SO;
    } else {
        soon = ends_too_soon(line, length);
        right = v.answer == NOT_WRITTEN_SO && v.place == (soon ? length : first_at_fault(line, length));
    }
    t->lines++;
    t->soon += soon;
    t->wrong += !right;
    if (!right && t->wrong <= 5)
        printf("answer %u, place %u: %.*s\n", v.answer, v.place, (int)length, (const char *)line);
}

static void change_sample(struct told *t, const char *sample, unsigned length, unsigned place)
{
    static const char put_in[] = ",\"0LRMVCN +-.EB3xSWTDymdhs24";
    uint8_t line[MOST_LINE];

    memcpy(line, sample, length);
    for (unsigned byte = 0; byte < 256; byte++) {
        line[place] = (uint8_t)byte;
        tell(t, line, length);
    }
    memcpy(line + place, sample + place + 1, length - place - 1);
    tell(t, line, length - 1);
    memcpy(line + place + 1, sample + place, length - place);
    for (unsigned i = 0; i < sizeof put_in - 1; i++) {
        line[place] = (uint8_t)put_in[i];
        tell(t, line, length + 1);
    }
    tell(t, (const uint8_t *)sample, place);
}

struct told near_samples(void)
{
    struct told t = {0, 0, 0};

    for (unsigned i = 0; i < SAMPLES; i++)
        for (unsigned place = 0; samples[i][place]; place++)
            change_sample(&t, samples[i], (unsigned)strlen(samples[i]), place);
    return t;
}

static void grow(struct told *t, uint8_t *line, unsigned length, const char *bytes, unsigned left)
{
    tell(t, line, length);
    for (const char *byte = bytes; left > 0 && *byte; byte++) {
        line[length] = (uint8_t)*byte;
        grow(t, line, length + 1, bytes, left - 1);
    }
}

struct told short_tails(void)
{
    static const struct {
        const char *stem, *bytes;
        unsigned most;
    } tails[] = {{"", "QNLOVC?FGSIZT1,\"", 3}, {"L", "SEWO1,x", 5}, {"LS1,2,3,4,", "E0,x9", 4},
                 {"B0,0,0,", "E320,1N\x01", 5}, {"B0,0,0,3,2,3,50,", "NBCR,0\"V", 5}, {"A0,0,0,1,1,N,", "VC1LRM.\",", 5},
                 {"A0,0,0,1,1,", "NR,\"V0", 5}, {"C0,1,", "+-1,\"x", 5}, {"V0,1,", "LZ,\"1 ", 5}, {"GM", "\",1a", 6}, {"R12345678", "9,0x", 6},
                 {"FK", "\"*a\x7f", 5}, {"A0,0,0,1,1,N,V0M12345678", "9.12", 5}, {"C0,1,-12345678", "9,\"", 5}, {"?C0,12345678", "90,", 4}, {"T", "SDTydh2 ", 4},
                 {"TD", "yY24mMeNdD-", 5}, {"TDdd", "-\"m e1y2", 5}, {"TDme-", "mMdDyY24, ", 5}, {"TDy2.mn", "/dDyM4\" ", 5}, {"TT", "hHmMsS: \"", 5}, {"TTh:m", "hms:- x", 5}, {"A0,0,0,1,1,N,", "TDVt0L\"", 5},
                 {"TS1,2,", "1,x", 7}, {"TS1,2,3,4,5,12345678", "9,0", 4}};
    struct told t = {0, 0, 0};
    uint8_t line[MOST_LINE];

    for (unsigned i = 0; i < sizeof tails / sizeof tails[0]; i++) {
        memcpy(line, tails[i].stem, strlen(tails[i].stem));
        grow(&t, line, (unsigned)strlen(tails[i].stem), tails[i].bytes, tails[i].most);
    }
    return t;
}
