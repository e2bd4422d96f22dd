/* peer.h: the independent station, written in C from the papers alone, and what its parts say to one another.
 *
 * It stands beside the proved station so that both can be run on the same calls. The six calls at the end are
 * station.h's under the names peer_open, peer_command, peer_label, peer_fits, peer_clock and peer_repair. Numbers in square brackets are answers.
 *
 *   lines.c    the written form of a line, its limits, its normal form, the place of a fault
 *   clock.c    date and time: the clock, how it is moved, formats and what they show
 *   data.c     elements, declarations, fit data, the bytes that data shows, how counters go on
 *   store.c    portions, links, chains, directory entries, names, listings
 *   picture.c  legal pictures and their drawing
 *   drawing.c  boxes, turns, frames, text and its font
 *   slanted.c  slanted lines
 *   bars.c     the four bar types and the line under the bars
 *   sound.c    the session image and the rule of a sound memory
 *   station.c  opening, command and label
 *   fits.c     the question whether it fits, asked without the others
 *   repair.c   a store that came back from a bad card
 */
#ifndef PEER_H
#define PEER_H

#include <stdbool.h>
#include <stddef.h>
#include <stdint.h>

enum answer {
    TAKEN = 0, BAD_LENGTH = 1, BAD_FONT = 2, NOT_SOUND = 3, NOT_ALL_THERE = 4, LINE_TOO_LONG = 5, NOT_WRITTEN_SO = 6,
    OUTSIDE_LIMITS = 7, LABELS_OWED = 8, NO_PLACE = 9, NAME_IN_USE = 10, NAME_NOT_FOUND = 11, DECLARED_BEFORE = 12,
    NOT_DECLARED = 13, PAST_LENGTH = 14, UNFIT_DATA = 15, NOT_A_PICTURE = 16, VALUE_UNFIT = 17, VALUE_UNSET = 18,
    TOO_FEW_PORTIONS = 19, OUTPUT_TOO_SHORT = 20, NONE_OWED = 21, RUNS_OUT = 22, NO_EMPTY_ENTRY = 23
};

enum {
    ROW_BYTES = 76, MOST_ROWS = 4000, PORTION = 256, MOST_PORTIONS = 2024, ENTRY = 16, MOST_ENTRIES = 512,
    FIELD = 34, VALUE_FIELDS = 10, VALUES = 340, IMAGE = 83, CHAIN_END = 65534, FREE = 65535, NO_FORM = 65535,
    MOST_LINE = 255, MOST_DATA = 128, MOST_PICTURE = 32768, LEAST_PICTURE = 129, PICTURE_HEAD = 128,
    ANSWERS = 24
};

/* ---- the session and the lent memory ---- */

struct counter {
    uint8_t set;
    uint32_t value;
};

/* Year 0 to 99 is 2000 to 2099; all six as they are written, a month and a day from 1. */
struct clock {
    uint8_t year, month, day, hour, minute, second;
};

/* Field, separator, field, separator, field; what is absent is 0, and only the last two or the last four may be. */
enum { FORMAT = 5 };
enum { Y2 = 1, Y4, ME, MN, DD };   /* fields of a date */
enum { HOUR = 1, MINUTE, SECOND }; /* fields of a time */

struct formats {
    uint8_t date[FORMAT], time[FORMAT];
};

struct session {
    uint16_t width, length;
    uint8_t turn;
    uint16_t origin_x, origin_y, active, owed, drawn;
    struct counter counters[10];
    uint16_t free_portions;  /* of the store that is lent */
    struct clock clock;
    struct formats formats;  /* of commands outside forms */
};

/* A label call lends these to be read only; it casts and never writes. */
struct memory {
    uint8_t *background;
    unsigned rows;
    uint8_t *store;
    uint16_t *links;
    unsigned portions;
    uint8_t *directory;
    unsigned entries;
    uint8_t *values;
};

/* An answer and where it points: for 6, 7 and 12 to 15 the place in the line, from 0, of the first byte of the piece at fault, or
 * of the LF when the line ends too soon; for all others 0. */
struct verdict {
    enum answer answer;
    unsigned place;
};

/* ---- lines.c ---- */

enum word {
    W_Q, W_q, W_N, W_R, W_Z, W_LO, W_LW, W_LE, W_LS, W_LSW, W_LSE, W_X, W_A, W_B, W_GG, W_FS, W_FE, W_FR, W_FK, W_FI, W_FP, W_GM, W_GK, W_GI,
    W_V, W_C, W_ASK_V, W_ASK_C, W_VC, W_P, W_TS, W_TD, W_TT
};

enum bar_type { CODE_39, INTERLEAVED, EAN_13, CODE_128 };

/* One element of data. text: a quoted part of the line; otherwise what names a variable or counter and its modifier. */
struct element {
    unsigned at;         /* its first byte in the line */
    char kind;           /* '"', 'V' or 'C'; 'D' of TD and 'T' of TT */
    uint8_t number;      /* which variable or counter */
    char modifier;       /* 0, 'L', 'R' or 'M' */
    uint32_t place, n;   /* of the modifier; place only for M */
    const uint8_t *text; /* quoted text */
    unsigned length;
};

/* A name as the directory keeps it: length, then 8 bytes zero-filled. */
struct name {
    uint8_t bytes[9];
};

struct command {
    enum word word;
    uint32_t n[6];       /* the numbers of the line in their order */
    unsigned n_at;       /* of V, C and `?`: where n stands in the line */
    bool minus;          /* the step of C is below zero */
    char letter;         /* T or B of Z, mode of A, justification of V; of B where the narrower of line and bars stands: L, C
                            or R, or N when there is no line */
    enum bar_type type;
    struct name name;    /* in capitals */
    bool every;          /* "*" after FK or GK */
    const uint8_t *text; /* the text of ?V: a part of the line */
    unsigned text_length;
    uint8_t format[FORMAT]; /* of TD and TT */
    unsigned elements;
    struct element element[128]; /* an element takes two bytes of a line or more */
};

struct normal_line {
    uint8_t bytes[MOST_LINE + 8];
    unsigned length;
};

/* Reads a line without its LF: 0, [6] or [7]. rows is the N of Q's limit. With [7] all numbers are there too. */
struct verdict read_line(const uint8_t *line, unsigned length, unsigned rows, struct command *c, struct normal_line *normal);

/* ---- clock.c ---- */

extern const struct formats example_formats;  /* `dd-me-y4` and `h:m:s` */

unsigned days_of(unsigned year, unsigned month);
bool legal_clock(const struct clock *c);
bool legal_formats(const struct formats *f);

/* The bytes that a format shows, at most 11 of a date and 8 of a time. */
unsigned show_date(const uint8_t format[FORMAT], const struct clock *c, uint8_t *out);
unsigned show_time(const uint8_t format[FORMAT], const struct clock *c, uint8_t *out);

/* The clock's six bytes, as the image has them. */
struct clock read_clock(const uint8_t *bytes);
void write_clock(const struct clock *c, uint8_t *bytes);
enum { CLOCK_AT = 67, DATE_FORMAT_AT = 73, TIME_FORMAT_AT = 78 };  /* in the image */

/* ---- data.c ---- */

struct variable {
    bool declared;
    uint8_t length;  /* m */
    char justify;    /* L, R, C, N or Z */
};

struct declared_counter {
    bool declared;
    uint8_t digits;  /* w */
    int32_t step;
};

/* What holds behind the lines so far. */
struct declarations {
    struct variable v[10];
    struct declared_counter c[10];
    struct formats formats;
};

/* Nothing declared, and these formats. */
struct declarations nothing_declared(const struct formats *f);

/* Where a counter stands so many moves after a value, in its range or not. */
int64_t counter_after(const struct declared_counter *d, uint32_t value, unsigned moves);

/* "0 to 10^w-1" */
bool in_range(const struct declared_counter *d, int64_t number);

/* What 12 to 15 say of a line of a form, with d the declarations before it; a taken V or C is added to d, and TD and TT put their format there. */
struct verdict judge_line(const struct command *c, struct declarations *d);

bool text_fits(const struct variable *v, const uint8_t *text, unsigned length);
bool stored_value_fits(const struct variable *v, const uint8_t *field);
void store_value(const struct variable *v, const uint8_t *text, unsigned length, uint8_t *field);

/* What data is shown from. */
struct source {
    const struct declarations *declared;
    const uint8_t *values;
    const struct counter *counters;
    struct clock clock;
    struct formats formats;
};

/* The bytes that data shows, at most 128 of them. */
unsigned show_data(const struct command *c, const struct source *from, uint8_t *out);

/* ---- store.c ---- */

/* A place in the content of a chain. */
struct cursor {
    const uint8_t *store;
    const uint16_t *links;
    unsigned portion, place;  /* place: in the portion */
    uint32_t left;            /* bytes of content not passed yet */
};

uint8_t *entry_at(const struct memory *m, unsigned i);
unsigned entry_first(const uint8_t *entry);
uint32_t entry_size(const uint8_t *entry);
unsigned portions_for(uint32_t size);
struct cursor start_of(const struct memory *m, const uint8_t *entry);

/* The next line of a form without its LF, or NULL if none is whole or it is over 255 bytes. room lends a gathering place. */
const uint8_t *next_line(struct cursor *at, uint8_t room[MOST_LINE + 1], unsigned *length);

/* Some of the bytes that come next, up to the end of a portion; 0 at the end. */
unsigned next_bytes(struct cursor *at, const uint8_t **bytes);

enum { EMPTY = 0, FORM = 1, PICTURE = 2, RECORDING = 3 };
enum { NOT_THERE = 65535 };

unsigned find_entry(const struct memory *m, uint8_t kind, const struct name *name);
/* These three keep the number of free portions right. The last two ask it, and nothing else, whether there is room. */
void erase_entry(const struct memory *m, uint16_t *free_portions, unsigned i);

/* [19], [23] or 0: a new entry with content of size bytes, all zero or as given. */
enum answer new_entry(const struct memory *m, uint16_t *free_portions, uint8_t kind, const struct name *name, const uint8_t *content,
                      uint32_t size);

/* [19] or 0: bytes put after the content of entry i, which is there, so never [23]. */
enum answer append(const struct memory *m, uint16_t *free_portions, unsigned i, const uint8_t *bytes, unsigned length);

/* [20] or 0: the listing of a kind, or a form's bytes. */
enum answer list_kind(const struct memory *m, uint8_t kind, uint8_t *output, size_t room, uint64_t *written);
enum answer list_form(const struct memory *m, unsigned i, uint8_t *output, size_t room, uint64_t *written);

/* ---- drawing.c ---- */

struct paper {
    uint8_t *dots;
    int width, length;  /* drawing is cut here */
};

enum ink { BLACK, WHITE, INVERT };

/* A box of wide by high dots before it is turned r quarters clockwise; x,y is the corner of the turned box. */
struct turned {
    int x, y, wide, high, r;
};

struct font {
    unsigned width, height, row_bytes;
    const uint8_t *glyph[127];  /* NULL where the code is missing */
};

/* How glyphs are written: h scales along the text, v across it. */
struct pen {
    const struct font *font;
    int h, v;
    enum ink ink;
};

bool read_font(const uint8_t *bytes, size_t length, struct font *f);
void draw_box(struct paper *p, int x, int y, int wide, int high, enum ink ink);
void draw_turned(struct paper *p, const struct turned *t, int x, int y, int wide, int high, enum ink ink);
void draw_frame(struct paper *p, int a, int b, int thick, int d, int e);
void draw_text(struct paper *p, struct turned t, int h, int v, char mode, const struct font *f, const uint8_t *text,
               unsigned length);
void turn_paper(struct paper *p);

/* The glyph dots of text whose first cell has its corner at x,y inside the unturned box t. */
void draw_glyphs(struct paper *p, const struct turned *t, int x, int y, const struct pen *pen, const uint8_t *text,
                 unsigned length);

/* ---- slanted.c ---- */

/* From a,b to d,e, no end below zero and none above 2^13; thick is 1 to 80. */
void draw_slanted(struct paper *p, int a, int b, int thick, int d, int e, enum ink ink);

/* ---- bars.c ---- */

/* The fields of B, and what they need: the data it shows and the font of the line. */
struct symbol {
    enum bar_type type;
    int narrow, wide, high;
    char place;               /* as the letter of a command */
    const struct font *font;
    const uint8_t *data;
    unsigned length;
};

void draw_symbol(struct paper *p, struct turned t, const struct symbol *s);

/* Bars and spaces in turn, a bar first; every width in dots. Gives their number. */
enum { MOST_BARS = 2048 };
unsigned bar_widths(enum bar_type type, int narrow, int wide, const uint8_t *data, unsigned length, uint8_t *widths);

/* ---- picture.c ---- */

bool legal_picture_bytes(const uint8_t *bytes, size_t size);
bool legal_picture_chain(struct cursor at);
void draw_picture(struct paper *p, int x, int y, struct cursor at);

/* ---- sound.c ---- */

/* What the one pass over the store finds on its way. */
struct facts {
    unsigned recording;               /* entry of the form being recorded, or NOT_THERE */
    struct declarations of_recording;
    struct declarations of_active;
    bool pictures_exist;              /* every picture that the active form draws is stored */
    unsigned called_for;              /* portions that the stored sizes call for */
};

void read_image(const uint8_t *image, struct session *s);
void write_image(const struct session *s, uint8_t *image);
bool all_declared_set(const struct memory *m, const struct session *s, const struct declarations *d);

/* So many labels, one or more, are too many for some counter. All declared ones are set. */
bool counter_runs_out(const struct session *s, const struct declarations *d, unsigned labels);
bool sound(const struct memory *m, const struct session *s, struct facts *f);

/* An entry's length byte, name and fill: 1 to 8 legal bytes, no small letter, zeros behind them. */
bool legal_entry_name(const uint8_t *entry);

/* The lines of a form whose chain is whole; d is what holds before its first line. Without pictures_exist no picture is looked for. */
bool sound_form(const struct memory *m, const uint8_t *entry, struct declarations *d, bool *pictures_exist);

/* ---- station.c: three of the calls, as station.h tells ---- */

/* The session as opening leaves it; and the lengths of store, links, directory and values, as every call that is lent them asks. */
struct session opened(unsigned rows, unsigned free_portions);
bool store_right(size_t store, size_t links, size_t directory, size_t values);

uint8_t peer_open(uint8_t *session, size_t session_len,
                  uint8_t *page, size_t page_len,
                  uint8_t *background, size_t background_len,
                  uint8_t *store, size_t store_len,
                  uint16_t *links, size_t links_len,
                  uint8_t *directory, size_t directory_len,
                  uint8_t *values, size_t values_len);

uint8_t peer_command(uint8_t *session, size_t session_len,
                     uint64_t *counts, size_t counts_len,
                     const uint8_t *font, size_t font_len,
                     uint8_t *background, size_t background_len,
                     uint8_t *store, size_t store_len,
                     uint16_t *links, size_t links_len,
                     uint8_t *directory, size_t directory_len,
                     uint8_t *values, size_t values_len,
                     uint8_t *output, size_t output_len,
                     const uint8_t *input, size_t input_len);

uint8_t peer_label(uint8_t *session, size_t session_len,
                   const uint8_t *font, size_t font_len,
                   uint8_t *page, size_t page_len,
                   const uint8_t *background, size_t background_len,
                   const uint8_t *store, size_t store_len,
                   const uint16_t *links, size_t links_len,
                   const uint8_t *directory, size_t directory_len,
                   const uint8_t *values, size_t values_len);

/* ---- fits.c: the fourth ---- */

uint8_t peer_fits(const uint8_t *session, size_t session_len,
                  const uint16_t *links, size_t links_len,
                  const uint8_t *directory, size_t directory_len,
                  uint8_t kind,
                  const uint8_t *name, size_t name_len,
                  uint64_t size);

/* ---- clock.c: the fifth ---- */

uint8_t peer_clock(uint8_t *session, size_t session_len, uint64_t seconds);

/* ---- repair.c: the sixth ---- */

uint8_t peer_repair(uint8_t *session, size_t session_len,
                    uint64_t *counts, size_t counts_len,
                    uint64_t rows,
                    uint8_t *store, size_t store_len,
                    uint16_t *links, size_t links_len,
                    uint8_t *directory, size_t directory_len,
                    uint8_t *values, size_t values_len,
                    uint8_t *output, size_t output_len);

#endif
