/* vectors.c: a few sessions run on the peer and written down, for a program that makes the same calls again.
 *
 *   vectors INPUT-FILE LINES-FILE [FIRST-SEED [SESSIONS]]
 *
 * Without a seed it writes what is kept in peer/vectors: six sessions by chance, behind
 * them a seventh that is written here and draws every word of the line under the bars, an eighth of lines that are refused, in which
 * every kind of piece is once at fault, a ninth of jobs that take counters to their end, a tenth in which portions and entries
 * run out, each alone and both, an eleventh that moves the number of free portions in every way and puts wrong ones in, a twelfth
 * of questions whether it fits, with every answer of theirs and what goes before what, a thirteenth of slanted lines, a fourteenth of
 * Code 128 in every mixture of its two sets, a fifteenth of clock, formats and the elements TD and TT, and a sixteenth of stores that are repaired. Together they give each of the 24 answers.
 *
 * INPUT-FILE is a row of records, all numbers low byte first. A record starts with its letter:
 *
 *   S fill                    a new desk. Every byte of every slice is fill, each link is fill * 257, the counts are 0.
 *   F length(2) bytes         the font is these bytes from now on
 *   K slice at(2) byte        one byte of a slice is changed between calls. slice: 0 session, 4 background, 5 store, 6 links
 *                             (as bytes, low byte first: link at/2), 7 directory, 8 values
 *   O lengths                 station_open
 *   C lengths length(2) input station_command
 *   L lengths                 station_label
 *   W lengths kind size(8) length(2) name
 *                             station_fits; kind is one byte. Of the lengths it is lent those of session, links and directory
 *   T lengths seconds(8)      station_clock. Of the lengths it is lent that of the session
 *   R lengths rows(8)         station_repair. Of the lengths it is lent those of session, counts, store, links, directory, values and output
 *
 * lengths is nine numbers of 2 bytes, in elements, of session, counts, page, background, store, links, directory, values,
 * output. The font is always lent whole. A desk has room for more than a call is lent: session 85, counts 4, page and
 * background 3,192 each, store 4,608, links 18, directory 96, values 374, output 256 elements.
 *
 * LINES-FILE has one line for each O, C, L, W, T and R: the number of the call from 1, the answer, the first three counts as they stand on
 * the desk (read, written, place; for W and T, which have none, 0 0 0), and in eight hexadecimal digits the FNV-1a digest (32 bits: start 2166136261, for each byte exclusive or, then
 * times 16777619) of all bytes of session, page, background, store, links, directory, values, output in this order, the
 * room beyond what was lent included. */
#include <inttypes.h>
#include <stdio.h>
#include <stdlib.h>
#include <string.h>

#include "desk.h"
#include "generate.h"
#include "peer.h"

static const enum slice told[] = {SESSION, COUNTS, PAGE, BACKGROUND, STORE, LINKS, DIRECTORY, VALUE, OUTPUT};

static void put_number(FILE *f, size_t n)
{
    putc((int)(n & 255), f);
    putc((int)(n >> 8 & 255), f);
}

static void put_long_number(FILE *f, uint64_t n)
{
    for (unsigned i = 0; i < 64; i += 16)
        put_number(f, (size_t)(n >> i));
}

static uint32_t digest_of(const struct desk *d)
{
    uint32_t digest = 2166136261u;

    for (unsigned i = 0; i < 9; i++) {
        if (told[i] == COUNTS)
            continue;
        for (size_t k = 0; k < d->room[told[i]]; k++)
            digest = (digest ^ d->bytes[told[i]][k]) * 16777619u;
    }
    return digest;
}

static void write_call(FILE *f, const struct event *e)
{
    putc("OCLWTR"[e->call], f);
    for (unsigned i = 0; i < 9; i++)
        put_number(f, e->length[told[i]]);
    if (e->call == FITS) {
        putc(e->question.kind, f);
        put_long_number(f, e->question.size);
    }
    if (e->call == CLOCK)
        put_long_number(f, e->seconds);
    if (e->call == REPAIR)
        put_long_number(f, e->rows);
    if (e->call == COMMAND || e->call == FITS) {
        put_number(f, e->count);
        fwrite(e->bytes, 1, e->count, f);
    }
}

static void write_line(FILE *f, const struct desk *d, enum call_kind call, unsigned calls, unsigned answer)
{
    uint64_t counts[3] = {0};

    if (call != FITS && call != CLOCK)
        memcpy(counts, d->bytes[COUNTS], sizeof counts);
    fprintf(f, "%u %u %" PRIu64 " %" PRIu64 " %" PRIu64 " %08" PRIx32 "\n", calls, answer, counts[0], counts[1], counts[2],
            digest_of(d));
}

/* ---- an event, made and written down ---- */

struct record {
    FILE *input, *lines;
    struct desk desk;
    unsigned calls, reached[ANSWERS];
    bool pointed[ANSWERS][MOST_LINE + 1];
};

static void set_up(struct record *r, const struct event *e)
{
    putc('S', r->input);
    putc(e->fill, r->input);
    set_up_desk(&r->desk, e->room, e->fill);
    memset(r->desk.bytes[COUNTS], 0, r->desk.room[COUNTS]);
}

static void new_font(struct record *r, const struct event *e)
{
    putc('F', r->input);
    put_number(r->input, e->count);
    fwrite(e->bytes, 1, e->count, r->input);
    put_on_desk(&r->desk, FONT, e->bytes, e->count);
}

static void poke(struct record *r, const struct event *e)
{
    putc('K', r->input);
    putc((int)e->slice, r->input);
    put_number(r->input, e->at);
    putc(e->byte, r->input);
    r->desk.bytes[e->slice][e->at] = e->byte;
}

static unsigned make_call(struct record *r, const struct event *e)
{
    unsigned answer;

    put_on_desk(&r->desk, INPUT, e->bytes, e->count);
    r->desk.question = e->question;
    r->desk.seconds = e->seconds;
    r->desk.rows = e->rows;
    write_call(r->input, e);
    answer = call_station(&peer_station, &r->desk, e->call, e->length);
    write_line(r->lines, &r->desk, e->call, ++r->calls, answer);
    r->reached[answer]++;
    if (e->call == COMMAND && e->length[COUNTS] == 3)
        r->pointed[answer][r->desk.bytes[COUNTS][16]] = true;
    return answer;
}

/* ---- sessions by chance ---- */

/* Gives what the last of them was set up with. */
static struct event chance_sessions(struct record *r, uint64_t seed, unsigned sessions)
{
    static struct generator g;
    struct event e, room = {0};

    start_generator(&g, seed, true, &r->desk);
    for (;;) {
        next_event(&g, &e);
        if (e.kind == SET_UP && sessions-- == 0)
            return room;
        switch (e.kind) {
        case SET_UP: set_up(r, &e); room = e; break;
        case NEW_FONT: new_font(r, &e); break;
        case POKE: poke(r, &e); break;
        case LAY: break;  /* never in small memories */
        case CALL: tell_answer(&g, make_call(r, &e)); break;
        }
    }
}

/* ---- the line under the bars ---- */

/* Cells of up to 16 dots by height; digits alone have glyphs, each another one. */
static void lend_digits(struct record *r, struct event *e, unsigned width, unsigned height)
{
    static uint8_t font[512];
    unsigned row = (width + 7) / 8, size = 1 + height * row;
    uint8_t *at = font;

    memcpy(at, (const uint8_t[]){1, 2, 0, (uint8_t)width, (uint8_t)height}, 5);
    at += 5;
    for (unsigned code = '0'; code <= '9'; code++) {
        memcpy(at, (const uint8_t[]){2, (uint8_t)size, 0, (uint8_t)code}, 4);
        at += 4;
        for (unsigned y = 0; y < height; y++) {
            unsigned dots = (code * 2654435761u >> (y + 3)) << (16 - width);
            *at++ = (uint8_t)(dots >> 8);
            if (row == 2)
                *at++ = (uint8_t)dots;
        }
    }
    memcpy(at, (const uint8_t[]){255, 0, 0}, 3);
    e->bytes = font;
    e->count = e->length[FONT] = (size_t)(at + 3 - font);
    new_font(r, e);
}

/* Every word and some wrong ones, types and turns, in a form and outside; over the right edge and the lower one; data that begins
 * with C or V, and as much data as there may be. */
static const char *const drawn_outside[] = {
    "B0,0,0,E30,1,2,24,B,C,\"400638133393\"", "B110,4,2,3,1,2,24,B,R,\"A1\"", "B200,0,1,1,1,2,24,B,\"07\"",
    "B250,2,3,2,1,2,24,B,C,\"0123\"", "B300,8,0,2,1,2,24,N,\"77\"", "B400,0,0,1,1,2,24,B,\",7\"", "B0,0,0,2,1,2,24,BC,\"12\"",
    "B0,0,0,2,1,2,24,B,L,\"12\"", "B0,0,0,2,1,2,24,N,C,\"12\"", "B0,0,0,2,1,2,24,B,R\"12\"", "B0,0,0,2,1,2,24,B,C0", "N"};
static const char *const recorded[] = {
    "FS\"LINES\"", "C0,4,+1,\"\"", "V0,2,Z,\"\"", "B0,01,0,2,1,2,024,B,C0", "B100,1,2,2,1,2,24,B,C,C0", "B150,0,1,1,1,2,24,B,R,V0",
    "B200,3,3,3,1,2,24,B,R,C0R2", "B260,2,0,E30,1,2,24,B,R,\"12345678\"C0", "B400,2,2,E30,1,2,24,B,C,C0C0C0",
    "B40,2,1,E30,1,2,24,B,C0C0C0", "B0,36,2,2,1,2,24,B,C0C0C0C0C0C0C0C0C0C0C0C0C0C0C0C0C0C0C0C0C0C0C0C0C0C0C0C0C0C0C0C0",
    "B590,2,0,1,1,2,24,B,\"7\"C0L1", "B520,30,2,1,1,2,24,B,C,V0", "B560,0,0,3,1,2,24,N,C0", "B0,0,0,1,1,2,24,B,CC0", "FE",
    "FR\"LINES\"", "?C0,7098", "?V0,\"7\"", "P3"};

static void send_lines(struct record *r, struct event *e, const char *const *lines, unsigned count)
{
    char line[300];

    e->call = COMMAND;
    for (unsigned i = 0; i < count; i++) {
        e->count = e->length[INPUT] = (size_t)snprintf(line, sizeof line, "%s\n", lines[i]);
        e->bytes = (const uint8_t *)line;
        make_call(r, e);
    }
}

static void draw_label(struct record *r, struct event *e)
{
    e->call = LABEL;
    e->count = 0;
    make_call(r, e);
}

/* The labels are drawn with three fonts: the recording's, one whose lines are wider than their bars, and one between. */
static void lined_session(struct record *r, struct event e)
{
    set_up(r, &e);
    usual_lengths(e.length, 40, 16, 4, 256);
    lend_digits(r, &e, 6, 5);
    e.call = OPEN;
    e.count = 0;
    make_call(r, &e);
    send_lines(r, &e, drawn_outside, sizeof drawn_outside / sizeof drawn_outside[0]);
    send_lines(r, &e, recorded, sizeof recorded / sizeof recorded[0]);
    draw_label(r, &e);
    lend_digits(r, &e, 16, 3);
    draw_label(r, &e);
    lend_digits(r, &e, 9, 4);
    draw_label(r, &e);
}

/* ---- refusals that point ---- */

/* 6 and 7 with every kind of piece at fault, 13 where nothing is declared. */
static const char *const refused_outside[] = {
    "L", "LX", "F", "FX", "GX", "Z", "ZC", "ZTx", "?", "?X", "?V", "V", "VC0", "Vx", "RESET", "N ", "FIX", ",", "LO1x2,3,4", "LO1 ,2,3,4", "LO1,2,3,4,5", "LO1,2,3,4x", "LO,2,3,4",
    "LO1,2", "LO1,2,", "LO1,1234567890,3,4", "LO1,2,3,0000000004", "LO2047,2048,0,1", "X9999,0,99,0,0", "Q41,241", "q79", "P0", "FSx", "FS\"A",
    "FS\"A\"x", "FS\"A\x01\"", "FS\"A\x7f", "FS\"A*\"", "GK\"123456789\"", "GM\"A\"300", "GM\"A\",", "GM\"*\",0", "GM\"A\",32769", "GM\"A*\",5", "GG0,0,A",
    "GG0,0,\"A\"", "GG0,5000,\"\"", "?V10,\"\"", "?V0,5", "?C0,", "?C3,1", "?V3,\"x\"", "V0,5,LL,\"\"", "V0,5,L\"\"", "V0,5,Z", "V0,33,L,\"\"",
    "V0,5,L,\"1234567890123456789012345\"", "C0,1,+", "C0,1,+x,\"\"", "C0,1,-1234567890,\"\"", "C0,1,+100000,\"\"", "C0,1,1\"\"",
    "A0,0,0,1,1,", "A0,0,0,1,1,NN,\"a\"", "A0,0,0,1,1,N\"a,\"", "A0,0,0,1,1,N,", "A0,0,0,1,1,N,\"ab", "A0,0,0,1,1,N,\"a\"x",
    "A0,0,0,1,1,N,\"a\"V0Lx", "A0,0,0,1,1,N,\"a\"V0L", "A0,0,0,1,1,N,V0M1,1", "A0,0,0,1,1,N,V0M1", "A0,0,0,1,1,N,V0M1.", "A0,0,0,1,1,N,C0Vx", "A0,0,0,1,1,N,V01",
    "A0,0,0,1,1,N,V0L1R1", "A0,0,0,1,1,N,V0L1234567890", "A0,0,0,1,1,N,\"\"C0R33V0L0", "A0,0,0,1,1,N,\"C0\"V9\"\"C0", "A0,0,0,0,0,N,V0L0",
    "B0,0,0,", "B0,0,0,3", "B0,0,0,33", "B0,0,0,E", "B0,0,0,E3", "B0,0,0,E30", "B0,0,0,E300", "B0,0,0,E31,", "B0,0,0,3C,1,2,24,N,\"1\"", "B0,0,0,,1,2,24,N,\"1\"", "B0,0,0,3,6,6,9,N,\"1\"", "B0,0,0,3,7,7,9,N,\"1\"",
    "B0,0,0,3,1,2,24,", "B0,0,0,3,1,2,24,B", "B0,0,0,3,1,2,24,BC", "B0,0,0,3,1,2,24,B,", "B0,0,0,3,1,2,24,B,C", "B0,0,0,3,1,2,24,B,R", "B0,0,0,3,1,2,24,B,C,",
    "B0,0,0,3,1,2,24,B,Rx,", "B0,0,0,3,1,2,24,B,C0,", "B0,0,0,3,1,2,24,B,C,R,\"1\"", "B0,0,0,3,1,2,24,B,R,R", "B0,0,0,3,1,2,24,B,C,C,\"1\"", "B0,0,0,3,1,2,24,N,R",
    "B0,0,0,3,1,2,24,N,C", "B0,0,0,E30,1,2,24,B,R,\"1\""};
/* 12 to 15, with and without others beside them. */
static const char *const refused_in_form[] = {
    "FS\"FORM\"", "C0,2,+1,\"\"", "V1,3,L,\"\"", "C0,3,-1,\"\"", "V01,1,Z,\"\"", "A0,0,0,1,1,N,C0V1C1V2", "A10,0,0,1,1,N,\"V2\"C0L3V2",
    "A0,0,0,1,1,N,\"ab\"C0L3V1M3.2", "A10,0,0,1,1,N,V1C0M2.2C0L3", "B0,0,0,1,1,2,24,B,C,V1R3V1R4", "B0,0,0,2,1,2,24,N,C0\"1\"",
    "B0,0,0,3,1,2,24,B,C,\"1\"V1", "B10,0,0,E30,1,2,24,B,C0\"123456789\"", "A0,0,0,1,1,N,\"1234567890123456789012345678901234567890\""
    "\"1234567890123456789012345678901234567890\"\"1234567890123456789012345678901234567890\"C0C0C0C0V1", "ZT", "FE"};

/* As long as a line may be, with a text that is not ended, and the same with its last byte bad. */
static void longest_lines(struct record *r, struct event *e)
{
    char text[MOST_LINE + 1] = "A0,0,0,1,1,N,\"";
    const char *line[] = {text};

    memset(text + 14, 'a', MOST_LINE - 14);
    send_lines(r, e, line, 1);
    text[MOST_LINE - 1] = 127;
    send_lines(r, e, line, 1);
}

/* "counts holds read, written, place: length 3, another length is [1]." */
static void wrong_counts(struct record *r, struct event *e)
{
    static const char *const line[] = {"LO1"};
    size_t three = e->length[COUNTS];

    for (e->length[COUNTS] = 0; e->length[COUNTS] <= 4; e->length[COUNTS]++)
        send_lines(r, e, line, 1);
    e->length[COUNTS] = three;
}

static void pointing_session(struct record *r, struct event e)
{
    set_up(r, &e);
    usual_lengths(e.length, 40, 16, 4, 256);
    lend_digits(r, &e, 3, 2);
    e.call = OPEN;
    e.count = 0;
    make_call(r, &e);
    send_lines(r, &e, refused_outside, sizeof refused_outside / sizeof refused_outside[0]);
    longest_lines(r, &e);
    send_lines(r, &e, refused_in_form, sizeof refused_in_form / sizeof refused_in_form[0]);
    wrong_counts(r, &e);
}

/* ---- counters that run out ---- */

/* One counter goes up, one down by the greatest step, one stays. 18 while C5 is unset, though C0 would run out; 22 by C0, by C5, by both; then
 * a job of which the last label takes C0 to 99 and C5 to 3. */
static const char *const first_job[] = {
    "FS\"JOBS\"", "C0,2,+7,\"\"", "C5,9,-99999,\"\"", "C9,1,+0,\"\"", "A0,0,0,1,1,N,C0\" \"C5\" \"C9", "B0,6,0,2,1,2,24,B,C,C0C5R2", "FE", "FR\"JOBS\"",
    "?C0,78", "?C9,9", "P5", "?C5,300000", "P5", "P65535", "?C5,299996", "P4", "?C5,300000", "P4"};
/* Both are unset now and each is entered again. 42,952 times 99,999 is more than 32 bits hold. 15 labels take C0 from 0 to 98, C5 to 0. */
static const char *const second_job[] = {"P1", "?C0,0", "P1", "?C5,999999999", "P16", "P10002", "P42952", "?C5,1399985", "P15", "?C5,1399986", "P15"};
/* C5 is unset, C0 at 91 with the changed step of 6. First C5 is unset again and C0 goes on to 97, then C0 is unset and C5 goes on to 1. */
static const char *const third_job[] = {"P1", "?C5,5", "P2", "P1"}, *const fourth_job[] = {"?C5,100000", "P2", "P1"}, *const unset_again[] = {"P1"};

static void poke_byte(struct record *r, struct event *e, enum slice s, size_t at, uint8_t byte)
{
    e->slice = s;
    e->at = at;
    e->byte = byte;
    poke(r, e);
}

/* A comment and a label: both ask for sound. */
static void ask_sound(struct record *r, struct event *e)
{
    static const char *const comment[] = {";"};

    send_lines(r, e, comment, 1);
    draw_label(r, e);
}

/* With 15 labels owed, each of these bytes as broken is 3 by one counter alone: C0 at 2, 16 owed, C5 below its least, C0's width, sign and step in the form. As
 * right it is sound, and stays: C0 at 1, the greatest value it may have, and the step 6. */
static void damaged_job(struct record *r, struct event *e)
{
    static const struct {
        enum slice slice;
        uint16_t at;
        uint8_t broken, right;
    } bytes[] = {{SESSION, 16, 2, 1}, {SESSION, 11, 16, 15}, {SESSION, 41, 0xb1, 0xb2}, {STORE, 3, '1', '2'}, {STORE, 5, '-', '+'}, {STORE, 6, '8', '6'}};

    for (unsigned i = 0; i < sizeof bytes / sizeof bytes[0]; i++) {
        poke_byte(r, e, bytes[i].slice, bytes[i].at, bytes[i].broken);
        ask_sound(r, e);
        poke_byte(r, e, bytes[i].slice, bytes[i].at, bytes[i].right);
    }
}

/* A form whose picture is erased before its P: 11 goes before 22. */
static const char *const drawn_form[] = {"FS\"ONE\"", "GG0,0,\"P\"", "C0,1,+5,\"\"", "FE", "FR\"ONE\"", "?C0,9", "P2", "GK\"P\"", "P2"};

static void send_picture(struct record *r, struct event *e, const char *name, unsigned size)
{
    uint8_t line[1024];

    e->call = COMMAND;
    e->bytes = line;
    e->count = e->length[INPUT] = write_picture(line, name, strlen(name), size);
    make_call(r, e);
}

static void running_session(struct record *r, struct event e)
{
    set_up(r, &e);
    usual_lengths(e.length, 40, 16, 4, 256);
    lend_digits(r, &e, 5, 4);
    e.call = OPEN;
    e.count = 0;
    make_call(r, &e);
    send_lines(r, &e, first_job, sizeof first_job / sizeof first_job[0]);
    for (unsigned i = 0; i < 5; i++)  /* one more than are owed */
        draw_label(r, &e);
    send_lines(r, &e, second_job, sizeof second_job / sizeof second_job[0]);
    damaged_job(r, &e);
    for (unsigned i = 0; i < 15; i++)
        draw_label(r, &e);
    send_lines(r, &e, third_job, sizeof third_job / sizeof third_job[0]);
    draw_label(r, &e);
    send_lines(r, &e, fourth_job, sizeof fourth_job / sizeof fourth_job[0]);
    draw_label(r, &e);
    send_lines(r, &e, unset_again, 1);
    send_picture(r, &e, "P", 130);
    send_lines(r, &e, drawn_form, sizeof drawn_form / sizeof drawn_form[0]);
}

/* ---- which kind of full ---- */

#define SEND_LINES(r, e, lines) send_lines(r, e, lines, sizeof lines / sizeof lines[0])

/* A line of text of so many bytes with its LF, 16 to 144. */
static void send_text(struct record *r, struct event *e, unsigned length)
{
    char text[160] = "A1,2,0,1,1,N,\"";
    const char *line[] = {text};

    memset(text + 14, '7', length - 16);
    text[length - 2] = '"';
    send_lines(r, e, line, 1);
}

static void open_with(struct record *r, struct event *e, unsigned portions, unsigned entries)
{
    size_t font = e->length[FONT];

    usual_lengths(e->length, 40, portions, entries, 256);
    e->length[FONT] = font;
    e->call = OPEN;
    e->count = 0;
    make_call(r, e);
}

/* Two entries, five portions. A form and a picture take the entries and leave two portions, so FS is 23 and GM is 23 or 19; 10 and 16 go before both. */
static void full_directory(struct record *r, struct event *e)
{
    static const char *const form[] = {"FS\"A\"", "FE"}, *const refused[] = {"FS\"B\"", "FS\"a\""}, *const illegal[] = {"GM\"Q\",3\nabc"};
    static const char *const erased[] = {"GK\"P\"", "FS\"B\""};

    open_with(r, e, 5, 2);
    SEND_LINES(r, e, form);
    send_picture(r, e, "P", 300);
    SEND_LINES(r, e, refused);
    send_picture(r, e, "Q", 512);
    send_picture(r, e, "Q", 513);
    send_picture(r, e, "p", 130);
    SEND_LINES(r, e, illegal);
    SEND_LINES(r, e, erased);
}

/* The form B has the last entry and three portions are free. Its lines take them: the first by a line over the edge, the others when the portion
 * before is just full. The last one is filled to its end; then there is neither portion nor entry. 9 goes before both. */
static void full_recording(struct record *r, struct event *e)
{
    static const unsigned lengths[] = {144, 144, 144, 80, 144, 112, 144, 113, 112};
    static const char *const full[] = {"R0,0", "FS\"C\"", "FE", "FS\"C\""}, *const erased[] = {"FK\"A\"", "FS\"C\"", "FE", "FK\"*\"", "FI"};

    send_lines(r, e, full + 1, 1);
    for (unsigned i = 0; i < sizeof lengths / sizeof lengths[0]; i++)
        send_text(r, e, lengths[i]);
    SEND_LINES(r, e, full);
    send_picture(r, e, "P", 130);
    SEND_LINES(r, e, erased);
}

/* Two portions, four entries, where 10 and 16 go before 19; then one entry, and three portions of which two stay free. */
static void full_store(struct record *r, struct event *e)
{
    static const char *const form[] = {"FS\"A\"", "FE", "FS\"B\"", "FS\"a\"", "GM\"Q\",3\nabc"}, *const erased[] = {"FK\"A\""}, *const owed[] = {"GI", "FS\"B\"", "P1", "FS\"B\""};

    open_with(r, e, 2, 4);
    send_picture(r, e, "P", 256);
    SEND_LINES(r, e, form);
    send_picture(r, e, "Q", 131);
    send_picture(r, e, "P", 130);
    SEND_LINES(r, e, erased);
    send_picture(r, e, "Q", 257);
    send_picture(r, e, "Q", 256);
    open_with(r, e, 3, 1);
    send_picture(r, e, "P", 130);
    send_picture(r, e, "Q", 512);
    send_picture(r, e, "Q", 513);
    SEND_LINES(r, e, owed);
    draw_label(r, e);
}

static void full_session(struct record *r, struct event e)
{
    set_up(r, &e);
    lend_digits(r, &e, 4, 3);
    full_directory(r, &e);
    full_recording(r, &e);
    full_store(r, &e);
}

/* ---- free room kept as a number ---- */

static void put_number_of_free(struct record *r, struct event *e, unsigned number)
{
    poke_byte(r, e, SESSION, 65, (uint8_t)number);
    poke_byte(r, e, SESSION, 66, (uint8_t)(number >> 8));
}

/* One too many alone. */
static void wrong_number(struct record *r, struct event *e, unsigned right)
{
    put_number_of_free(r, e, right + 1);
    ask_sound(r, e);
    put_number_of_free(r, e, right);
}

/* One too few, one too many, none, all, more than there are, the low byte high, a high byte: 3. Then the right one. */
static void wrong_numbers(struct record *r, struct event *e, unsigned right, unsigned all)
{
    const unsigned wrong[] = {right - 1, right + 1, 0, all, all + 1, right << 8, right + 256, 65535};

    for (unsigned i = 0; i < sizeof wrong / sizeof wrong[0]; i++) {
        put_number_of_free(r, e, wrong[i]);
        ask_sound(r, e);
    }
    put_number_of_free(r, e, right);
    ask_sound(r, e);
}

/* None is taken yet; a number is wrong then, and while recording. Of ten portions a form takes three: a line fills the first to its last byte
 * and takes no other, the next one does, one crosses an edge. FE takes none. A form of no lines takes one, pictures of 256, 257 and 512 bytes
 * one, two and two. */
static void number_goes_down(struct record *r, struct event *e)
{
    static const char *const form[] = {"FS\"A\""}, *const next[] = {"R0,0", "R0,0"}, *const last[] = {"FE", "FS\"a\"", "FS\"B\"", "FE"};

    open_with(r, e, 10, 6);
    wrong_number(r, e, 10);
    SEND_LINES(r, e, form);
    send_text(r, e, 144);
    send_text(r, e, 112);
    wrong_number(r, e, 9);
    SEND_LINES(r, e, next);
    send_text(r, e, 144);
    send_text(r, e, 112);
    SEND_LINES(r, e, last);
    send_picture(r, e, "P", 256);
    send_picture(r, e, "Q", 257);
    send_picture(r, e, "R", 512);
}

/* The last portion goes to a form that is erased again. Then GK and FK of one, of all that are left, and of none. A label moves nothing, and
 * while it is owed a number is wrong once more. */
static void number_goes_up(struct record *r, struct event *e)
{
    static const char *const one[] = {"FS\"C\"", "FE", "FS\"D\"", "FK\"C\"", "GK\"Q\"", "FR\"B\"", "FK\"B\"", "GK\"Q\"", "FI", "P1"};
    static const char *const all[] = {"GK\"*\"", "GI", "FK\"*\"", "GK\"*\"", "FK\"*\"", "FI"};

    SEND_LINES(r, e, one);
    wrong_number(r, e, 4);
    draw_label(r, e);
    SEND_LINES(r, e, all);
}

/* A store of a portion less or more than the number knows of is 3, and sound again with the number that belongs to it. So is a size that calls for another
 * portion, but there the number alone does not help. */
static void other_stores(struct record *r, struct event *e, unsigned right)
{
    poke_byte(r, e, LINKS, 20, 0xff);  /* an eleventh, and free */
    poke_byte(r, e, LINKS, 21, 0xff);
    for (unsigned portions = 9; portions <= 11; portions += 2) {
        e->length[STORE] = (size_t)portions * PORTION;
        e->length[LINKS] = portions;
        ask_sound(r, e);
        put_number_of_free(r, e, right + portions - 10);
        ask_sound(r, e);
        put_number_of_free(r, e, right);
    }
    e->length[STORE] = 10 * PORTION;
    e->length[LINKS] = 10;
    poke_byte(r, e, DIRECTORY, 13, 3);  /* of the size of A */
    ask_sound(r, e);
    put_number_of_free(r, e, right - 1);
    ask_sound(r, e);
    poke_byte(r, e, DIRECTORY, 13, 2);
    put_number_of_free(r, e, right);
}

/* "An image of another length is [1]": 80 to 85 bytes, of which 83 are taken. Then an opening that is refused and leaves 83 zeros. */
static void image_lengths(struct record *r, struct event *e)
{
    static const char *const comment[] = {";"};

    for (e->length[SESSION] = IMAGE - 3; e->length[SESSION] <= IMAGE + 2; e->length[SESSION]++)
        SEND_LINES(r, e, comment);
    for (e->length[SESSION] = IMAGE - 2; e->length[SESSION] <= IMAGE + 1; e->length[SESSION]++)
        if (e->length[SESSION] != IMAGE)
            draw_label(r, e);
    e->call = OPEN;
    e->count = 0;
    e->length[SESSION] = CLOCK_AT;
    make_call(r, e);
    e->length[SESSION] = IMAGE;
    e->length[VALUE]--;
    make_call(r, e);
    e->length[VALUE]++;
    ask_sound(r, e);
}

static void number_session(struct record *r, struct event e)
{
    e.fill = 0;
    set_up(r, &e);
    lend_digits(r, &e, 2, 2);
    number_goes_down(r, &e);
    wrong_numbers(r, &e, 1, 10);
    other_stores(r, &e, 1);
    number_goes_up(r, &e);
    image_lengths(r, &e);
}

/* ---- will it fit? ---- */

struct asked {
    uint8_t kind;
    const char *name;
    uint64_t size;
};

/* A byte to be changed. */
struct other_byte {
    enum slice slice;
    uint8_t at, byte;
};

static void ask_bytes(struct record *r, struct event *e, struct question q, const void *name, size_t length)
{
    e->call = FITS;
    e->question = q;
    e->bytes = name;
    e->count = e->length[INPUT] = length;
    make_call(r, e);
}

static void ask_all(struct record *r, struct event *e, const struct asked *asked, unsigned count)
{
    for (unsigned i = 0; i < count; i++)
        ask_bytes(r, e, (struct question){asked[i].kind, asked[i].size}, asked[i].name, strlen(asked[i].name));
}

#define ASK_ALL(r, e, asked) ask_all(r, e, asked, sizeof asked / sizeof asked[0])

/* A form, the picture P of 512 bytes, and the same of names that are not used yet. */
static const struct asked four[] = {{FORM, "a", 0}, {PICTURE, "P", 512}, {FORM, "B", 0}, {PICTURE, "Q", 512}};

/* Before opening, on memory that is all 255 and then all 0. The lengths that are lent to a question, one by one; the others have no say. */
static void asked_lengths(struct record *r, struct event *e)
{
    static const struct {
        enum slice slice;
        size_t length;
    } other[] = {{SESSION, 0}, {SESSION, 67}, {SESSION, 82}, {SESSION, 84}, {LINKS, 0}, {LINKS, 1}, {LINKS, 18}, {DIRECTORY, 0}, {DIRECTORY, 15}, {DIRECTORY, 16},
                 {DIRECTORY, 17}, {DIRECTORY, 32}, {DIRECTORY, 95}, {DIRECTORY, 96}, {STORE, 0}, {COUNTS, 0}, {VALUE, 0}, {BACKGROUND, 0}};

    e->fill = 255;
    set_up(r, e);
    usual_lengths(e->length, 40, 10, 4, 256);
    ask_all(r, e, four, 2);
    e->fill = 0;
    set_up(r, e);
    ask_all(r, e, four, 2);
    for (unsigned i = 0; i < sizeof other / sizeof other[0]; i++) {
        size_t usual = e->length[other[i].slice];
        e->length[other[i].slice] = other[i].length;
        ask_all(r, e, four + i % 2, 1);
        if (i % 4 == 0)
            ask_bytes(r, e, (struct question){0, 0}, "*", 1);
        e->length[other[i].slice] = usual;
    }
}

/* Ten portions and four entries, all free: kinds, sizes and names at their limits. */
static void asked_limits(struct record *r, struct event *e)
{
    static const struct asked limits[] = {
        {0, "A", 1}, {FORM, "A", 0}, {PICTURE, "A", 1}, {RECORDING, "A", 1}, {129, "A", 1}, {255, "A", 1}, {FORM, "A", 2560}, {FORM, "A", 2561}, {FORM, "A", 32769},
        {FORM, "A", UINT64_MAX}, {PICTURE, "A", 0}, {PICTURE, "A", 128}, {PICTURE, "A", 129}, {PICTURE, "A", 130}, {PICTURE, "A", 256}, {PICTURE, "A", 257},
        {PICTURE, "A", 2304}, {PICTURE, "A", 2305}, {PICTURE, "A", 2559}, {PICTURE, "A", 2560}, {PICTURE, "A", 2561}, {PICTURE, "A", 32768}, {PICTURE, "A", 32769},
        {PICTURE, "A", 65536}, {PICTURE, "A", 65537}, {PICTURE, "A", 0x100000000}, {PICTURE, "A", 0x100000100}, {PICTURE, "A", 0x8000000000000001},
        {PICTURE, "A", UINT64_MAX - 255}, {PICTURE, "A", UINT64_MAX}, {FORM, "", 1}, {PICTURE, "12345678", 1}, {FORM, "123456789", 1}, {PICTURE, "1234567890123456", 1},
        {FORM, " ", 1}, {FORM, "~", 1}, {PICTURE, "a z{`@[", 1}, {FORM, "*", 1}, {PICTURE, "*", 1}, {FORM, "A*", 1}, {PICTURE, "\"", 1}, {FORM, "1234567*", 1},
        {FORM, "A\x1f", 1}, {PICTURE, "A\x7f", 1}, {FORM, "\x80", 1}, {PICTURE, "\xff", 1}, {FORM, "A\n", 1}, {0, "", 0}, {PICTURE, "*", 0}};

    open_with(r, e, 10, 4);
    ASK_ALL(r, e, limits);
    ask_bytes(r, e, (struct question){FORM, 0}, "A\0", 2);
    ask_bytes(r, e, (struct question){PICTURE, 130}, "\0", 1);
}

/* Asked, and then sent: five portions with two entries and then with three, which fill up; each of 0, 10, 19 and 23, 9 while a form is recorded, 8 while a
 * label is owed. */
static void asked_and_sent(struct record *r, struct event *e)
{
    static const struct asked more[] = {{PICTURE, "Q", 769}, {PICTURE, "A", 513}, {FORM, "p", 0}, {FORM, "*", 0}, {PICTURE, "P", 0}, {3, "P", 1}};
    static const char *const start[] = {"FS\"A\""}, *const end[] = {"FE", "FS\"a\"", "FS\"B\""}, *const erase[] = {"FK\"A\"", "FS\"B\"", "FE"};
    static const char *const owe[] = {"FS\"P\"", "P1", "FS\"A\""};

    open_with(r, e, 5, 2);
    ASK_ALL(r, e, four);
    SEND_LINES(r, e, start);
    ASK_ALL(r, e, four);
    ASK_ALL(r, e, more);
    SEND_LINES(r, e, end);
    send_picture(r, e, "P", 130);  /* B is recorded: 9 */
    send_lines(r, e, end, 1);
    ASK_ALL(r, e, four);
    ASK_ALL(r, e, more);
    SEND_LINES(r, e, erase);
    ASK_ALL(r, e, four);
    open_with(r, e, 5, 3);
    send_picture(r, e, "P", 257);
    ASK_ALL(r, e, four);
    ASK_ALL(r, e, more);
    send_picture(r, e, "A", 513);
    ASK_ALL(r, e, four);
    ASK_ALL(r, e, more);
    SEND_LINES(r, e, owe);
    ASK_ALL(r, e, four);
    ASK_ALL(r, e, more);
    draw_label(r, e);
}

/* Six portions, three entries: the form A, the picture P of two portions, an empty one, and three portions free. Each byte as changed makes memory that is
 * not sound, and the question goes by it: kinds, the length byte, names, fill, an empty entry that is not all zero, owed by either byte,
 * links; the number of free portions and the width are not looked at. */
static void asked_of_damage(struct record *r, struct event *e)
{
    static const struct other_byte damage[] = {
        {DIRECTORY, 0, 0}, {DIRECTORY, 0, 2}, {DIRECTORY, 0, 3}, {DIRECTORY, 0, 5}, {DIRECTORY, 0, 255}, {DIRECTORY, 1, 0}, {DIRECTORY, 1, 2}, {DIRECTORY, 1, 9},
        {DIRECTORY, 2, 'a'}, {DIRECTORY, 2, 'B'}, {DIRECTORY, 3, 'X'}, {DIRECTORY, 10, 9}, {DIRECTORY, 16, 1}, {DIRECTORY, 16, 3}, {DIRECTORY, 25, 1}, {DIRECTORY, 32, 1}, {DIRECTORY, 32, 2},
        {DIRECTORY, 32, 3}, {DIRECTORY, 32, 4}, {DIRECTORY, 33, 1}, {DIRECTORY, 47, 1}, {SESSION, 11, 1}, {SESSION, 12, 1}, {SESSION, 13, 1}, {SESSION, 0, 0}, {SESSION, 65, 0},
        {SESSION, 66, 1}, {LINKS, 0, 255}, {LINKS, 6, 254}, {LINKS, 7, 254}, {LINKS, 10, 0}};
    static const char *const form[] = {"FS\"A\"", "FE"};
    static const struct asked exact[] = {{PICTURE, "Q", 768}, {PICTURE, "Q", 769}};

    open_with(r, e, 6, 3);
    SEND_LINES(r, e, form);
    send_picture(r, e, "P", 300);
    for (unsigned i = 0; i < sizeof damage / sizeof damage[0]; i++) {
        uint8_t before = r->desk.bytes[damage[i].slice][damage[i].at];
        poke_byte(r, e, damage[i].slice, damage[i].at, damage[i].byte);
        ask_all(r, e, four, damage[i].slice == DIRECTORY ? 2 : 1);
        ask_all(r, e, exact + (damage[i].slice == LINKS && damage[i].byte == 255), 1);
        poke_byte(r, e, damage[i].slice, damage[i].at, before);
    }
}

/* A name of eight bytes, and its length byte changed: "a length byte above 8 is nobody's name". Then what goes before what, with all that 8 to 23 are
 * given for at once, taken away one by one. */
static void asked_at_once(struct record *r, struct event *e)
{
    static const uint8_t lengths[] = {7, 9, 8 + 128, 255, 8};
    static const struct asked eight[] = {{PICTURE, "az{`@[eH", 300}, {PICTURE, "AZ{`@[E", 300}, {PICTURE, "AZ{`@[EHI", 300}};
    static const struct other_byte away[] = {{SESSION, 11, 0}, {DIRECTORY, 16, 2}, {DIRECTORY, 9, 'X'}, {LINKS, 4, 255}, {LINKS, 2, 255}, {DIRECTORY, 16, 0}};

    open_with(r, e, 3, 2);
    send_picture(r, e, "AZ{`@[EH", 300);
    for (unsigned i = 0; i < sizeof lengths; i++) {
        poke_byte(r, e, DIRECTORY, 1, lengths[i]);
        ASK_ALL(r, e, eight);
    }
    poke_byte(r, e, LINKS, 4, 254);
    poke_byte(r, e, DIRECTORY, 16, RECORDING);
    poke_byte(r, e, SESSION, 11, 2);
    ASK_ALL(r, e, eight);
    for (unsigned i = 0; i < sizeof away / sizeof away[0]; i++) {
        poke_byte(r, e, away[i].slice, away[i].at, away[i].byte);
        ask_all(r, e, eight, 2);
        ask_all(r, e, four + 2, 1);
    }
}

static void fits_session(struct record *r, struct event e)
{
    asked_lengths(r, &e);
    lend_digits(r, &e, 1, 1);
    asked_limits(r, &e);
    asked_and_sent(r, &e);
    asked_of_damage(r, &e);
    asked_at_once(r, &e);
}

/* ---- slanted lines ---- */

/* Level, upright, at 45 degrees, discs, each ink; dots just c/2 away, because three across and four down are five long, and five and twelve
 * thirteen: with the even c they belong to the line, with the odd one below it not. Across 14 and down 5 with thickness 7, a dot near each end belongs to
 * it because its foot just lies on the segment, and one opposite does not. LSE twice gives back the page, ends exchanged too. */
static const char *const slanted_inks[] = {
    "LS3,5,2,9,5", "LSE10,10,8,100,200", "LSW0,0,1,7,9", "LS20,8,1,20,8", "LS30,8,2,30,8", "LSE40,8,3,40,8", "LS50,8,4,50,8", "LS60,8,7,60,8", "LSE75,20,16,75,20",
    "LSW75,20,9,75,20", "LS100,20,9,150,20", "LSE120,12,10,120,30", "LS170,5,1,195,30", "LS200,30,2,225,5", "LSE230,5,3,255,30", "LS270,5,10,288,29", "LSE270,5,10,288,29",
    "LSE288,29,10,270,5", "LSE270,5,9,288,29", "LS300,34,26,310,10", "LSE310,10,25,300,34", "LSW300,34,2,310,10", "LS330,2,1,390,37", "LSE333,37,1,391,3", "LS400,20,80,440,21",
    "LSE400,20,79,440,21", "LSW380,0,33,460,39", "LSE480,10,7,494,15", "LSE520,28,17,543,22", "LSE0,0,1,607,39", "LSE607,39,1,0,0", "LSE0,39,80,607,0", "LSE0,39,80,607,0"};
/* Over each edge of pages of other sizes, from outside, and past it without touching; then at origins, the farthest too. */
static const char *const slanted_cuts[] = {
    "LS590,5,20,640,35", "LSE607,0,80,607,4095", "LS0,39,41,600,60", "LSE2047,4095,80,0,0", "LSE0,4095,1,2047,0", "LSE647,0,80,647,39", "LSE648,0,80,648,39", "LSE0,79,80,90,79",
    "LSE0,80,80,90,80", "q333", "Q33,0", "LS0,0,12,332,32", "LSE300,40,31,360,20", "LSE332,32,1,332,32", "LSE333,33,2,333,33", "LSE333,32,1,333,33", "R100,5", "LS0,0,3,50,20",
    "LSE50,20,3,0,0", "LSW200,0,5,240,90", "R2048,0", "LSE0,0,80,2047,39", "R0,4096", "LSE0,0,80,300,4095", "R2048,4096", "LS0,0,80,2047,4095", "R0,0", "LSE100,5,3,150,25"};
/* Each field past its limits, several at once, and the letters and fields that are not written so or end too soon. */
static const char *const slanted_refused[] = {
    "LS2048,0,1,0,0", "LSE0,4096,1,0,0", "LSW0,0,0,0,0", "LS0,0,81,0,0", "LSE0,0,1,2048,0", "LSW0,0,1,0,4096", "LSW0,0,81,2048,4096", "LS", "LSE", "LSW0", "LSx", "LSEx",
    "LSO0,0,1,5,5", "LSe0,0,1,5,5", "LSEW0,0,1,5,5", "LS,0,1,5,5", "LS0,0,1,5", "LS0,0,1,5,", "LS0,0,1,5,5,", "LSW0,0,1,5,5 ", "LSE1234567890,0,1,5,5", "LS9999,0,0,0,0x"};
/* Recorded without its zeros, listed, drawn straight and turned at the session's origin and the form's own; while labels are owed 8, 6 and 7. */
static const char *const slanted_form[] = {
    "N", "FS\"S\"", "LS003,05,02,0009,5", "LSE010,010,08,0100,0200", "LS1,2,0,3,4", "LSW5,0,3,95,038", "LSx", "R40,0", "LSE0,0,80,200,39", "LSW2047,4095,1,0,0", "FE", "FI", "FP\"S\"",
    "LS0,20,5,332,20", "R7,3", "FR\"S\"", "P2"};
static const char *const slanted_owed[] = {"LS0,0,1,5,5", "LSE0,0,81,5,5", "LSW0,0,1,5"};

/* A byte of the form's first two lines, LS3,5,2,9,5 and LSE10,10,8,100,200: another ink or number is sound, another letter, a leading zero, a
 * thickness of 0 or one field less is not. */
static void damaged_slanted(struct record *r, struct event *e)
{
    static const struct other_byte damage[] = {{STORE, 14, 'W'}, {STORE, 14, 'O'}, {STORE, 14, '1'}, {STORE, 15, '0'}, {STORE, 2, 'E'}, {STORE, 6, '0'}, {STORE, 6, '9'}, {STORE, 9, '6'}, {STORE, 7, '7'}};

    for (unsigned i = 0; i < sizeof damage / sizeof damage[0]; i++) {
        uint8_t before = r->desk.bytes[STORE][damage[i].at];
        poke_byte(r, e, STORE, damage[i].at, damage[i].byte);
        send_lines(r, e, slanted_owed, 1);
        poke_byte(r, e, STORE, damage[i].at, before);
    }
}

static void slanted_session(struct record *r, struct event e)
{
    static const char *const turned[] = {"ZB", "P1"};

    set_up(r, &e);
    lend_digits(r, &e, 1, 1);
    open_with(r, &e, 16, 4);
    SEND_LINES(r, &e, slanted_inks);
    SEND_LINES(r, &e, slanted_cuts);
    SEND_LINES(r, &e, slanted_refused);
    SEND_LINES(r, &e, slanted_form);
    SEND_LINES(r, &e, slanted_owed);
    damaged_slanted(r, &e);
    draw_label(r, &e);
    poke_byte(r, &e, STORE, 14, 'W');
    draw_label(r, &e);
    SEND_LINES(r, &e, turned);
    draw_label(r, &e);
}

/* ---- Code 128 as short as it can be ---- */

/* Rows of digits alone, behind a letter, before one and between two, at and about the lengths from which they are written in pairs; the bytes beside the digits; two rows; several elements. */
static const char *const rows_outside[] = {
    "B0,0,0,1,1,2,24,N,\"A\"", "B60,0,0,1,1,2,24,N,\"12\"", "B120,0,0,1,1,2,24,N,\"123\"", "B200,0,0,1,1,2,24,N,\"1234\"", "B270,0,0,1,1,2,24,N,\"12345\"", "B380,0,0,1,1,2,24,N,\"A12\"",
    "B470,0,0,1,1,2,24,N,\"A123\"", "N", "B0,0,0,1,1,2,24,N,\"A1234\"", "B90,0,0,1,1,2,24,N,\"A12345\"", "B200,0,0,1,1,2,24,N,\"AIM1234\"", "B320,0,0,1,1,2,24,N,\"12A\"", "B400,0,0,1,1,2,24,N,\"123A\"",
    "B490,0,0,1,1,2,24,N,\"1234A\"", "N", "B0,0,0,1,1,2,24,N,\"12345A\"", "B100,0,0,1,1,2,24,N,\"A1234B\"", "B210,0,0,1,1,2,24,N,\"A12345B\"", "B330,0,0,1,1,2,24,N,\"A123456B\"", "B450,0,0,1,1,2,24,N,\"A1234567B\"", "N",
    "B0,0,0,1,1,2,24,N,\"00\"", "B50,0,0,1,1,2,24,N,\"/0000:\"", "B170,0,0,1,1,2,24,N,\"/000000:\"", "B290,0,0,1,1,2,24,N,\"12 34\"", "B400,0,0,1,1,2,24,N,\"1234 5678\"", "N",
    "B0,0,0,1,1,2,24,N,\"A1\"\"2\"\"\"\"3456B\"", "B120,0,0,1,1,2,24,N,\"9\"\"8\"", "B180,0,0,1,2,3,24,N,\"9999\"\"9\"", "B340,0,0,1,4,5,24,N,\"07\"", "B0,0,0,1,1,2,24,N,\"\"\"\""};
/* The line is narrower than these bars with the font of 6 by 5 and wider with that of 16 by 3; each word and turn. */
static const char *const rows_lined[] = {
    "N", "B0,0,0,1,1,2,24,B,\"1234567\"", "B140,2,2,1,1,2,24,B,C,\"A1234567B\"", "B300,0,1,1,1,2,24,B,R,\"12\"", "B350,0,3,1,1,2,24,B,C,\"12345678\"", "B400,1,0,1,1,2,24,B,R,\"12345678901A\""};
/* The shape of the writing goes by V1, the values of its pairs by the counters too; the pairs go across the elements. */
static const char *const rows_form[] = {
    "N", "FS\"C\"", "C0,3,+1,\"\"", "C1,1,-1,\"\"", "V0,2,Z,\"\"", "V1,4,N,\"\"", "V2,5,C,\"\"", "B0,0,0,1,1,2,24,B,C0V0C1V1", "B160,1,2,1,1,2,24,B,R,\"A\"C0C1V1\"5B\"", "B320,0,1,1,1,2,24,N,C1C1",
    "B350,2,3,1,1,2,24,B,C,V0C1", "B390,0,0,1,1,2,24,N,V2", "B500,3,0,1,1,2,24,B,V2M2.3C0L1", "FE", "FR\"C\"", "?C0,98", "?C1,7", "?V0,\"5\"", "?V1,\"\"", "?V2,\"1234\"", "P2"};
static const char *const rows_values[] = {"?V1,\"8\"", "?V1,\"89\"", "?V1,\"x\"", "?V2,\"12345\"", "?V1,\"8 12\""};

/* As many bytes as there may be, of which a page of this size shows the first and, turned by two quarters, the last: all digits, one letter among them, or letters behind four of them. */
static void longest_rows(struct record *r, struct event *e)
{
    static const struct {
        unsigned turn, bytes, letters_from, letters;
    } rows[] = {{0, 128, 0, 0}, {2, 128, 0, 0}, {2, 127, 0, 0}, {0, 128, 1, 1}, {2, 128, 125, 1}, {0, 128, 4, 124}, {0, 129, 0, 0}};
    static const char *const white[] = {"N"};
    char line[200];
    const char *lines[] = {line};

    for (unsigned i = 0; i < sizeof rows / sizeof rows[0]; i++) {
        int start = sprintf(line, "B0,0,%u,1,1,2,24,N,\"", rows[i].turn);
        for (unsigned k = 0; k < rows[i].bytes; k++)
            line[start + (int)k] = (char)('0' + (3 * k + i) % 10);
        memset(line + start + rows[i].letters_from, 'A', rows[i].letters);
        strcpy(line + start + rows[i].bytes, "\"");
        SEND_LINES(r, e, white);
        SEND_LINES(r, e, lines);
    }
}

static void shortest_session(struct record *r, struct event e)
{
    static const char *const one[] = {"P1"};

    set_up(r, &e);
    lend_digits(r, &e, 6, 5);
    open_with(r, &e, 16, 4);
    SEND_LINES(r, &e, rows_outside);
    longest_rows(r, &e);
    SEND_LINES(r, &e, rows_lined);
    lend_digits(r, &e, 16, 3);
    SEND_LINES(r, &e, rows_lined);
    SEND_LINES(r, &e, rows_form);
    draw_label(r, &e);
    lend_digits(r, &e, 6, 5);
    draw_label(r, &e);
    for (unsigned i = 0; i < sizeof rows_values / sizeof rows_values[0]; i++) {
        send_lines(r, &e, rows_values + i, 1);
        SEND_LINES(r, &e, one);
        draw_label(r, &e);
    }
}

/* ---- the date, written by the station ---- */

/* Cells of 4 by 2, which show the byte itself: its upper four bits above the lower four. */
static void lend_letters(struct record *r, struct event *e)
{
    static uint8_t font[1024];
    uint8_t *at = font;

    memcpy(at, (const uint8_t[]){1, 2, 0, 4, 2}, 5);
    at += 5;
    for (unsigned code = 33; code <= 126; code++, at += 6)
        memcpy(at, (const uint8_t[]){2, 3, 0, (uint8_t)code, (uint8_t)(code & 0xf0), (uint8_t)(code << 4)}, 6);
    memcpy(at, (const uint8_t[]){255, 0, 0}, 3);
    e->bytes = font;
    e->count = e->length[FONT] = (size_t)(at + 3 - font);
    new_font(r, e);
}

static void move_clock(struct record *r, struct event *e, uint64_t seconds)
{
    e->call = CLOCK;
    e->count = 0;
    e->seconds = seconds;
    make_call(r, e);
}

/* Images of other lengths are 1, whatever the seconds are. Then moves from the first moment: none, one second, to the end of a minute and of the day, a whole day, and more than
 * there may be, which 32 bits would make another number of. */
static void first_moves(struct record *r, struct event *e)
{
    static const size_t lengths[] = {0, 65, 67, 73, 82, 84, 85};
    static const uint64_t seconds[] = {0, 1, 58, 1, 86339, 1, 86399, 86400, 86401, 86402, 172800, 1ull << 32, (1ull << 32) + 1, 1ull << 63, UINT64_MAX, 86400};

    for (unsigned i = 0; i < sizeof lengths / sizeof lengths[0]; i++) {
        e->length[SESSION] = lengths[i];
        move_clock(r, e, i % 2 ? 1 : 86401);
    }
    e->length[SESSION] = IMAGE;
    for (unsigned i = 0; i < sizeof seconds / sizeof seconds[0]; i++)
        move_clock(r, e, seconds[i]);
}

/* TS at the ends of months and years, each then moved over; the date is drawn behind it. */
static void moves_over_ends(struct record *r, struct event *e)
{
    static const struct {
        const char *set;
        uint32_t seconds;
    } ends[] = {{"TS1,31,01,23,59,59", 1}, {"TS2,28,0,23,59,59", 1}, {"TS2,29,00,12,0,0", 86400}, {"TS02,28,2,23,0,0", 3600}, {"TS2,28,96,0,0,1", 86399}, {"TS3,31,10,23,59,59", 2}, {"TS4,30,31,23,58,59", 61},
                {"TS5,31,32,20,0,0", 14400}, {"TS6,30,33,23,59,59", 86400}, {"TS7,31,47,1,2,3", 86400}, {"TS8,31,50,23,59,59", 86400}, {"TS9,30,51,0,0,0", 86400}, {"TS10,31,52,23,59,59", 1}, {"TS11,30,53,22,0,0", 7200},
                {"TS12,31,9,23,59,0", 60}, {"TS12,31,99,23,59,58", 1}, {"TS12,31,99,0,0,0", 86400}, {"TS12,30,99,23,59,59", 86400}};
    static const char *const shown[] = {"A0,0,0,1,1,R,TD\" \"TT"};

    for (unsigned i = 0; i < sizeof ends / sizeof ends[0]; i++) {
        send_lines(r, e, &ends[i].set, 1);
        move_clock(r, e, ends[i].seconds);
        SEND_LINES(r, e, shown);
    }
}

/* Formats of one, two and three fields, in each order and case, with separators of every kind; and data in them that is fit and unfit. */
static const char *const formats_outside[] = {
    "TS6,15,2,14,35,0", "TDme-dd-y4", "TTh:m:s", "A0,4,0,1,1,N,\"Date: \"TD\" \"TT", "TDY2", "TTS", "B0,8,0,2,1,2,24,N,TDTT", "B60,8,0,3,1,2,24,B,C,TD\"-\"TT", "TDY2,Y4", "TDmn0DD", "B0,8,0,2,1,2,24,N,TD",
    "B0,8,0,2,1,2,24,N,TD\"7\"", "TTh1m1s", "B100,8,0,E30,1,2,24,N,TT\"0000\"", "B100,8,0,E30,1,2,24,N,TT\"000\"", "B200,8,0,1,1,2,24,N,TTTD", "TDDd!Me-y4", "A0,4,0,1,1,N,TD", "B0,8,0,3,1,2,24,N,TD",
    "TDY4.me/DD", "B300,8,0,3,1,2,24,N,TD", "TDy2YMEDdD", "B0,8,0,3,1,2,24,N,TD", "TDdd~y4", "A0,6,1,2,1,N,TDTD", "TThms", "A90,0,0,1,1,N,TT", "TTMHs", "A140,0,0,1,1,N,TT", "TTs,M,h", "A190,0,0,1,1,N,TT",
    "TDme-dd-y4", "A0,20,0,1,1,N,TDTDTDTDTDTDTDTDTDTDTD\"1234567\"", "A0,20,0,1,1,N,TDTDTDTDTDTDTDTDTDTDTD\"12345678\"", "B0,30,0,1,1,2,24,B,R,\"\"TD\"\""};
/* Each number of TS outside its limits; days that their month has not, alone and beside others; lines that are not written so or end too soon; formats likewise. */
static const char *const moments_refused[] = {
    "TS0,1,1,1,1,1", "TS13,1,1,1,1,1", "TS1,0,1,1,1,1", "TS1,32,1,1,1,1", "TS1,1,100,1,1,1", "TS1,1,1,24,1,1", "TS1,1,1,1,60,1", "TS1,1,1,1,1,60", "TS2,29,1,1,1,1", "TS02,030,4,1,1,1", "TS4,31,0,24,60,60",
    "TS2,30,100,1,1,1", "TS2,32,100,1,1,1", "TS13,31,0,0,0,0", "TS2,30,0,0,0,x", "TS2,30,0,0,0,0,", "TS", "TS1234567890,1,1,1,1,1", "T", "TX", "Td", "TD", "TDy",
    "TDd", "TDy2-", "TDme-m", "TDy2-y", "TDy2-y4", "TDdd-d", "TDdd-dd", "TDdd-me-m", "TDdd-me-y", "TDy2-me-dd-", "TDdd-me-y4x", "TDd\"", "TDy2\"", "TDy2 dd", "TDy3", "TDmm",
    "TDy2dd", "TDy2\x7f" "dd", "TT", "TTx", "TTh:", "TTh:h", "TThm", "TTh:m:s:", "TTh:m:s ", "TThh", "A0,0,0,1,1,N,T", "A0,0,0,1,1,N,\"\"TS", "A0,0,0,1,1,N,TDL2",
    "A0,0,0,1,1,N,TT1", "A0,0,0,1,1,N,tD", "A0,0,0,1,1,N,TDT", "B0,0,0,2,1,2,24,B,TD"};
/* In the form the formats begin anew, hold from their line on, and leave the session's alone; TS has no place. */
static const char *const moments_recorded[] = {
    "TDy4xmn", "TTh", "FS\"T\"", "B0,0,0,3,1,2,24,N,TD", "B0,4,0,2,1,2,24,N,TD", "TDy2", "B0,4,0,2,1,2,24,N,TD", "TTM.h", "B300,4,0,3,1,2,24,N,TT\"-\"TD", "TS1,1,1,1,1,1", "B60,4,0,E30,1,2,24,B,TDTD\"00000000\"", "TDMN-DD-Y4",
    "TDme-me", "TTs-", "B200,4,0,3,1,2,24,B,C,TD", "B200,4,0,2,1,2,24,N,TD", "FE", "FP\"T\"", "N", "A0,34,0,1,1,N,TD\" \"TT", "FR\"T\"", "P4", "TS1,1,1,1,1,1", "TDdd"};

/* Labels with moves between them, and the session's formats as they were; then the same form from another date. */
static void moved_labels(struct record *r, struct event *e)
{
    static const char *const again[] = {"A0,36,0,1,1,N,TD\" \"TT", "TS9,9,99,9,9,9", "TDy4", "P1"};

    draw_label(r, e);
    move_clock(r, e, 59);
    draw_label(r, e);
    move_clock(r, e, 86400);
    move_clock(r, e, 86401);
    draw_label(r, e);
    draw_label(r, e);
    SEND_LINES(r, e, again);
    draw_label(r, e);
}

/* Each byte of clock and formats as broken is 3 for commands, labels and, if it is the clock's, for a move; others are sound by themselves. The clock is 9 September 2099, 9:09:09, the formats
 * y4 and h. And bytes of the form's lines: `TDy2` as `TDY2` is sound, as `TDy4` it leaves twelve digits no more, and as `TDy6` or `TSy2` it is no line; of `TTM.h` likewise. */
static void damaged_moments(struct record *r, struct event *e)
{
    static const struct other_byte damage[] = {
        {SESSION, 67, 100}, {SESSION, 67, 255}, {SESSION, 68, 0}, {SESSION, 68, 13}, {SESSION, 69, 0}, {SESSION, 69, 30}, {SESSION, 69, 31}, {SESSION, 70, 23}, {SESSION, 70, 24}, {SESSION, 71, 60}, {SESSION, 72, 59},
        {SESSION, 72, 60}, {SESSION, 73, 0}, {SESSION, 73, 5}, {SESSION, 73, 6}, {SESSION, 74, '-'}, {SESSION, 75, 5}, {SESSION, 76, '-'}, {SESSION, 77, 5}, {SESSION, 78, 3}, {SESSION, 78, 4}, {SESSION, 79, ':'},
        {SESSION, 80, 2}, {SESSION, 82, 2}, {STORE, 23, 'Y'}, {STORE, 24, '4'}, {STORE, 24, '6'}, {STORE, 22, 'S'}, {STORE, 49, 'm'}, {STORE, 50, '0'}, {STORE, 50, ' '}, {STORE, 51, 'm'}, {STORE, 51, 'S'}};
    static const char *const comment[] = {";"};

    for (unsigned i = 0; i < sizeof damage / sizeof damage[0]; i++) {
        uint8_t before = r->desk.bytes[damage[i].slice][damage[i].at];
        poke_byte(r, e, damage[i].slice, damage[i].at, damage[i].byte);
        SEND_LINES(r, e, comment);
        if (damage[i].slice == SESSION && (damage[i].at < 73 || i % 4 == 0))
            move_clock(r, e, i % 3 ? 0 : 86401);
        poke_byte(r, e, damage[i].slice, damage[i].at, before);
    }
}

/* Two fields and three with one byte wrong: a field that comes again, no separator, one that may not stand there, a field without what must be before it. */
static void damaged_formats(struct record *r, struct event *e)
{
    static const uint8_t formats[][FORMAT] = {{1, '-', 3, 0, 0}, {2, '-', 1, 0, 0}, {4, '-', 3, 0, 0}, {5, 0, 3, 0, 0}, {5, ' ', 3, 0, 0}, {5, '"', 3, 0, 0}, {5, '!', 3, '~', 1}, {5, '-', 3, 127, 1}, {5, '-', 3, '-', 5},
                                              {5, '-', 3, '-', 0}, {5, 0, 0, '-', 1}, {0, '-', 3, '-', 1}, {5, '-', 4, '-', 2}};
    static const char *const shown[] = {"A0,0,0,1,1,N,TD"};

    for (unsigned i = 0; i < sizeof formats / sizeof formats[0]; i++) {
        for (unsigned k = 0; k < FORMAT; k++)
            poke_byte(r, e, SESSION, DATE_FORMAT_AT + k, formats[i][k]);
        SEND_LINES(r, e, shown);
    }
}

static void dated_session(struct record *r, struct event e)
{
    set_up(r, &e);
    lend_letters(r, &e);
    open_with(r, &e, 16, 4);
    first_moves(r, &e);
    moves_over_ends(r, &e);
    SEND_LINES(r, &e, formats_outside);
    SEND_LINES(r, &e, moments_refused);
    SEND_LINES(r, &e, moments_recorded);
    moved_labels(r, &e);
    damaged_moments(r, &e);
    damaged_formats(r, &e);
    open_with(r, &e, 16, 4);
}

/* ---- a store that came back from a bad card ---- */

static unsigned repair(struct record *r, struct event *e, uint64_t rows)
{
    e->call = REPAIR;
    e->count = 0;
    e->rows = rows;
    return make_call(r, e);
}

/* Before opening, on memory that is all 255: every entry has a wrong kind. Then the lengths that are lent to a repair, one by one, with something to list; those of page and background
 * have no say. The rows at their limits, and such as 16 or 32 bits make another of. */
static void repaired_lengths(struct record *r, struct event *e)
{
    static const struct {
        enum slice slice;
        size_t length;
    } other[] = {{SESSION, 67}, {SESSION, 82}, {SESSION, 84}, {COUNTS, 0}, {STORE, 2561}, {STORE, 2304}, {LINKS, 9}, {LINKS, 11},
                 {DIRECTORY, 0}, {DIRECTORY, 15}, {DIRECTORY, 63}, {VALUE, 339}, {VALUE, 341}, {OUTPUT, 0}, {PAGE, 0}, {BACKGROUND, 1}};
    static const uint64_t rows[] = {0, 4001, 65537, (1ull << 32) + 40, UINT64_MAX, 4000, 1};

    e->fill = 255;
    set_up(r, e);
    usual_lengths(e->length, 40, 10, 4, 28);  /* as long as the list */
    for (unsigned i = 0; i < sizeof other / sizeof other[0]; i++) {
        size_t usual = e->length[other[i].slice];
        if (other[i].slice == PAGE)
            poke_byte(r, e, DIRECTORY, 16, 5);  /* memory is repaired by now, and one entry is wrong again */
        e->length[other[i].slice] = other[i].length;
        repair(r, e, 40);
        e->length[other[i].slice] = usual;
        if (other[i].slice == OUTPUT) {
            e->length[OUTPUT]--;
            repair(r, e, 40);  /* one byte too few */
            e->length[OUTPUT]++;
            repair(r, e, 40);
            poke_byte(r, e, DIRECTORY, 0, 5);
        }
    }
    for (unsigned i = 0; i < sizeof rows / sizeof rows[0]; i++)
        repair(r, e, rows[i]);
    e->length[OUTPUT] = 0;
    repair(r, e, 40);  /* nothing to list */
}

/* Six entries over 16 portions: the form A in portion 0, the picture P of 300 bytes in 1 and 2, the form B, which draws P, in 3, the form E of no lines in 4, the
 * picture Q of 600 bytes in 5 to 7, and an empty one. A label is owed, values, clock and formats are not as opening leaves them: all of it is kept, and the session begins anew. */
static void repaired_whole(struct record *r, struct event *e)
{
    static const char *const first[] = {"FS\"A\"", "V0,2,Z,\"\"", "A0,0,0,1,1,N,V0", "FE"};
    static const char *const second[] = {"FS\"B\"", "GG0,0,\"P\"", "FE", "FS\"E\"", "FE"};
    static const char *const begun[] = {"TDy4", "TS9,9,9,9,9,9", "R7,8", "ZB", "FR\"A\"", "?V0,\"7\"", "P2"}, *const after[] = {"FR\"A\"", "P1", "?V0,\"42\"", "P1"};

    open_with(r, e, 16, 6);
    SEND_LINES(r, e, first);
    send_picture(r, e, "P", 300);
    SEND_LINES(r, e, second);
    send_picture(r, e, "Q", 600);
    SEND_LINES(r, e, begun);
    draw_label(r, e);
    e->length[OUTPUT] = 34;
    repair(r, e, 40);
    e->length[OUTPUT] = 35;
    repair(r, e, 40);
    e->length[OUTPUT] = 256;
    for (e->length[COUNTS] = 4; e->length[COUNTS] > 1; e->length[COUNTS]--)  /* four or two are left as they are, three are stored with a 1 too */
        repair(r, e, e->length[COUNTS] == 3 ? 0 : 40);
    e->length[COUNTS] = 3;
    draw_label(r, e);
    SEND_LINES(r, e, after);
    draw_label(r, e);
    draw_label(r, e);
}

/* What the store was, so that it can be put back byte by byte. */
static const enum slice stored[] = {STORE, LINKS, DIRECTORY, VALUE};
static uint8_t as_it_was[4][18 * PORTION];

static void keep_store(const struct record *r)
{
    for (unsigned i = 0; i < 4; i++)
        memcpy(as_it_was[i], r->desk.bytes[stored[i]], r->desk.room[stored[i]]);
}

static void put_store_back(struct record *r, struct event *e)
{
    for (unsigned i = 0; i < 4; i++)
        for (size_t at = 0; at < r->desk.room[stored[i]]; at++)
            if (r->desk.bytes[stored[i]][at] != as_it_was[i][at])
                poke_byte(r, e, stored[i], at, as_it_was[i][at]);
}

enum { A_AT = 0, P_AT = 16, B_AT = 32, E_AT = 48, Q_AT = 64, EMPTY_AT = 80, MOST_DAMAGE = 13 };

/* A byte that is changed. Nothing is changed in the session here, so its slice, which is 0, ends a row that is not full. */
struct damaged_byte {
    enum slice slice;
    uint16_t at;
    uint8_t byte;
};

static const struct damaged_byte damages[][MOST_DAMAGE] = {
    /* name: wrong kinds and length bytes; bytes that may not stand there; such as may; fill, a high code, a small letter behind the first, and a name of eight bytes that is right; nine */
    {{DIRECTORY, A_AT, 4}, {DIRECTORY, P_AT, 255}, {DIRECTORY, B_AT + 1, 0}, {DIRECTORY, B_AT + 2, 0}, {DIRECTORY, E_AT + 2, 'a'}, {DIRECTORY, Q_AT + 1, 9}},
    {{DIRECTORY, A_AT + 2, 'z'}, {DIRECTORY, P_AT + 2, '*'}, {DIRECTORY, B_AT + 2, '"'}, {DIRECTORY, E_AT + 2, 31}, {DIRECTORY, Q_AT + 2, 127}},
    {{DIRECTORY, A_AT + 2, ' '}, {DIRECTORY, P_AT + 2, '`'}, {DIRECTORY, B_AT + 2, '@'}, {DIRECTORY, E_AT + 2, '{'}, {DIRECTORY, Q_AT + 2, '~'}},
    {{DIRECTORY, A_AT + 3, 1}, {DIRECTORY, P_AT + 2, 200}, {DIRECTORY, B_AT + 1, 2}, {DIRECTORY, B_AT + 3, 'e'}, {DIRECTORY, Q_AT + 9, 'X'}, {DIRECTORY, E_AT + 1, 8}, {DIRECTORY, E_AT + 3, 'X'}, {DIRECTORY, E_AT + 4, ' '}, {DIRECTORY, E_AT + 5, '1'},
     {DIRECTORY, E_AT + 6, '@'}, {DIRECTORY, E_AT + 7, '`'}, {DIRECTORY, E_AT + 8, '['}, {DIRECTORY, E_AT + 9, '~'}},
    {{DIRECTORY, E_AT + 1, 9}, {DIRECTORY, E_AT + 3, 'X'}, {DIRECTORY, E_AT + 4, ' '}, {DIRECTORY, E_AT + 5, '1'}, {DIRECTORY, E_AT + 6, '@'}, {DIRECTORY, E_AT + 7, '`'}, {DIRECTORY, E_AT + 8, '['}, {DIRECTORY, E_AT + 9, '~'}},
    /* the name of an earlier one: of its kind, of the other, of one that is dropped, of one being recorded; one being recorded itself; two that begin alike; of one that is dropped for its portion */
    {{DIRECTORY, E_AT + 2, 'A'}}, {{DIRECTORY, Q_AT + 2, 'P'}}, {{DIRECTORY, P_AT + 2, 'A'}}, {{DIRECTORY, E_AT + 2, 'A'}, {STORE, 0, 'W'}}, {{DIRECTORY, A_AT, 3}, {DIRECTORY, E_AT + 2, 'A'}}, {{DIRECTORY, E_AT, 3}, {DIRECTORY, E_AT + 2, 'B'}},
    {{DIRECTORY, A_AT + 1, 2}, {DIRECTORY, A_AT + 3, 'Y'}, {DIRECTORY, E_AT + 1, 2}, {DIRECTORY, E_AT + 2, 'A'}, {DIRECTORY, E_AT + 3, 'X'}},
    {{DIRECTORY, EMPTY_AT, 1}, {DIRECTORY, EMPTY_AT + 1, 1}, {DIRECTORY, EMPTY_AT + 2, 'X'}, {DIRECTORY, EMPTY_AT + 10, 8}, {LINKS, 16, 254}, {DIRECTORY, E_AT + 2, 'X'}, {DIRECTORY, E_AT + 10, 3}},
    /* chain: the first portion is none, or its link; free links; portions that come twice; a link that one byte would make right. And a chain that goes on in portion 0, whose entry is empty */
    {{DIRECTORY, E_AT + 10, 16}}, {{DIRECTORY, E_AT + 11, 1}}, {{DIRECTORY, E_AT + 10, 254}, {DIRECTORY, E_AT + 11, 255}}, {{DIRECTORY, E_AT + 10, 255}, {DIRECTORY, E_AT + 11, 255}}, {{DIRECTORY, E_AT + 10, 8}}, {{LINKS, 2, 16}},
    {{LINKS, 2, 255}, {LINKS, 3, 255}}, {{LINKS, 2, 1}}, {{LINKS, 4, 1}, {LINKS, 5, 0}}, {{LINKS, 14, 6}, {LINKS, 15, 0}}, {{LINKS, 4, 253}}, {{LINKS, 3, 1}}, {{DIRECTORY, E_AT, 3}, {LINKS, 8, 15}, {LINKS, 9, 0}},
    {{DIRECTORY, A_AT, 0}, {LINKS, 2, 0}},
    /* size: chains too short and too long, sizes at the ends of portions, high bytes, of forms and pictures */
    {{LINKS, 2, 254}, {LINKS, 3, 255}}, {{LINKS, 4, 8}, {LINKS, 5, 0}, {LINKS, 16, 254}}, {{DIRECTORY, P_AT + 12, 0}},
    {{DIRECTORY, P_AT + 12, 1}, {DIRECTORY, P_AT + 13, 2}}, {{DIRECTORY, P_AT + 14, 1}, {DIRECTORY, E_AT + 14, 1}}, {{DIRECTORY, P_AT + 15, 1}, {DIRECTORY, E_AT + 15, 1}, {DIRECTORY, E_AT + 12, 1}},
    {{DIRECTORY, E_AT + 12, 255}, {DIRECTORY, E_AT + 13, 255}, {DIRECTORY, E_AT + 14, 255}, {DIRECTORY, E_AT + 15, 255}}, {{DIRECTORY, E_AT + 12, 1}}, {{DIRECTORY, E_AT + 12, 1}, {DIRECTORY, E_AT + 13, 1}},
    {{DIRECTORY, E_AT, 3}, {DIRECTORY, E_AT + 13, 2}},
    /* shared: the same first portion, one chain that runs into another's, an earlier one into a later one's; not with one that is dropped, for its name, its size or as one being recorded */
    {{DIRECTORY, Q_AT + 10, 1}, {DIRECTORY, Q_AT + 12, 44}, {DIRECTORY, Q_AT + 13, 1}}, {{LINKS, 10, 1}}, {{LINKS, 2, 7}}, {{DIRECTORY, E_AT + 10, 3}}, {{DIRECTORY, E_AT, 3}, {DIRECTORY, E_AT + 10, 0}},
    {{DIRECTORY, P_AT + 2, 'p'}, {DIRECTORY, Q_AT + 10, 1}, {DIRECTORY, Q_AT + 12, 44}, {DIRECTORY, Q_AT + 13, 1}}, {{DIRECTORY, P_AT + 13, 2}, {DIRECTORY, Q_AT + 10, 1}, {DIRECTORY, Q_AT + 12, 44}, {DIRECTORY, Q_AT + 13, 1}},
    {{DIRECTORY, A_AT, 3}, {DIRECTORY, E_AT + 10, 0}, {DIRECTORY, E_AT + 12, 26}},
    /* content: a form as a picture and a picture as a form, lines that are not taken or not normal or not ended, pictures that are none, one of 128 bytes */
    {{DIRECTORY, A_AT, 2}}, {{DIRECTORY, P_AT, 1}, {DIRECTORY, E_AT, 2}, {DIRECTORY, E_AT + 12, 128}}, {{STORE, 3, '0'}}, {{STORE, 1, '1'}}, {{STORE, 10, ';'}}, {{DIRECTORY, A_AT + 12, 25}},
    {{DIRECTORY, A_AT + 12, 27}}, {{DIRECTORY, A_AT + 12, 10}}, {{STORE, 256, 11}}, {{STORE, 555, 255}}, {{DIRECTORY, P_AT + 12, 45}}, {{STORE, 775, 'p'}}, {{STORE, 775, 'X'}},
    /* unused bytes: behind the contents, in free portions, free links, the empty entry, values */
    {{STORE, 26, 1}, {STORE, 255, 2}, {STORE, 556, 3}, {STORE, 1024, 4}, {STORE, 2048, 5}, {STORE, 4095, 6}}, {{LINKS, 16, 9}, {LINKS, 17, 0}, {LINKS, 30, 254}, {LINKS, 31, 255}},
    {{DIRECTORY, EMPTY_AT + 1, 1}, {DIRECTORY, EMPTY_AT + 2, 'A'}, {DIRECTORY, EMPTY_AT + 15, 255}, {VALUE, 0, 1}, {VALUE, 1, 1}, {VALUE, 339, 9}},
    /* two reasons at once, the first is told: name and chain, chain and size, also of a picture over 32,768, size and shared, shared and content, name and content, each of them in the last */
    {{DIRECTORY, E_AT + 2, 'e'}, {LINKS, 8, 4}, {LINKS, 9, 0}}, {{DIRECTORY, E_AT + 13, 9}, {LINKS, 8, 4}, {LINKS, 9, 0}}, {{DIRECTORY, P_AT + 15, 1}, {LINKS, 2, 1}}, {{DIRECTORY, E_AT + 10, 1}}, {{DIRECTORY, E_AT + 10, 0}, {DIRECTORY, E_AT + 12, 5}},
    {{DIRECTORY, E_AT + 2, 'A'}, {DIRECTORY, E_AT + 12, 5}}, {{DIRECTORY, E_AT, 3}, {DIRECTORY, E_AT + 2, 'A'}, {DIRECTORY, E_AT + 10, 0}, {DIRECTORY, E_AT + 13, 9}}};

/* Each damage repaired and put back. */
static void repaired_damages(struct record *r, struct event *e)
{
    for (unsigned i = 0; i < sizeof damages / sizeof damages[0]; i++) {
        keep_store(r);
        for (unsigned k = 0; k < MOST_DAMAGE && damages[i][k].slice != SESSION; k++)
            poke_byte(r, e, damages[i][k].slice, damages[i][k].at, damages[i][k].byte);
        repair(r, e, 40);
        put_store_back(r, e);
    }
}

/* Most is dropped at once, and what is left is used: B, whose picture is gone, and E keep their places, and new ones take what has become free. */
static void repaired_and_used(struct record *r, struct event *e)
{
    static const char *const after[] = {"FI", "GI", "FR\"B\"", "P1", "GG0,0,\"P\"", "FS\"A\"", "LO1,1,5,5", "FE", "FR\"B\"", "P1"}, *const points[] = {"LO1,x"};

    poke_byte(r, e, DIRECTORY, A_AT, 7);
    poke_byte(r, e, LINKS, 2, 1);
    poke_byte(r, e, DIRECTORY, Q_AT + 13, 9);
    repair(r, e, 40);
    SEND_LINES(r, e, points);
    repair(r, e, 40);
    send_lines(r, e, after, 4);
    send_picture(r, e, "P", 257);
    send_lines(r, e, after + 4, 6);
    draw_label(r, e);
}

/* Five portions and a sixth, all taken, of which two are filled to their end and the last is a chain by itself; two names that differ in their last byte; two forms whose bars are fit by a format of their own. Then the second of
 * these forms has it no more, and then both names are one. */
static void repaired_full(struct record *r, struct event *e)
{
    static const char *const one[] = {"FS\"A\"", "TDy2", "B0,0,0,2,1,2,24,N,TD", "FE"}, *const two[] = {"FS\"ABCDEFGH\"", "TDy2", "B0,0,0,2,1,2,24,N,TD", "FE"};
    static const char *const three[] = {"FS\"ABCDEFGI\"", "FE"}, other[] = "R0,0";

    open_with(r, e, 6, 6);
    send_picture(r, e, "P", 512);
    SEND_LINES(r, e, one);
    SEND_LINES(r, e, two);
    send_picture(r, e, "Q", 256);
    SEND_LINES(r, e, three);
    repair(r, e, 40);
    keep_store(r);
    for (unsigned i = 0; i < 4; i++)
        poke_byte(r, e, STORE, 3 * PORTION + i, (uint8_t)other[i]);
    repair(r, e, 40);
    put_store_back(r, e);
    poke_byte(r, e, DIRECTORY, 4 * ENTRY + 9, 'H');
    repair(r, e, 40);
}

static void repaired_session(struct record *r, struct event e)
{
    repaired_lengths(r, &e);
    lend_letters(r, &e);
    repaired_full(r, &e);
    repaired_whole(r, &e);
    repaired_damages(r, &e);
    repaired_and_used(r, &e);
}

static void tell_places(const struct record *r)
{
    for (unsigned a = 0; a < ANSWERS; a++) {
        unsigned places = 0;
        for (unsigned p = 0; p <= MOST_LINE; p++)
            places += r->pointed[a][p];
        if (places > 1 || (places == 1 && !r->pointed[a][0]))
            fprintf(stderr, "answer %u points to %u places\n", a, places);
    }
}

static FILE *open_file(const char *path)
{
    FILE *f = fopen(path, "wb");

    if (!f) {
        perror(path);
        exit(2);
    }
    return f;
}

int main(int argc, char **argv)
{
    static struct record r;
    uint64_t seed = argc > 3 ? strtoull(argv[3], NULL, 10) : 918;
    unsigned missing = 0;
    struct event room;

    if (argc < 3) {
        fprintf(stderr, "vectors INPUT-FILE LINES-FILE [FIRST-SEED [SESSIONS]]\n");
        return 2;
    }
    r.input = open_file(argv[1]);
    r.lines = open_file(argv[2]);
    room = chance_sessions(&r, seed, argc > 4 ? (unsigned)atoi(argv[4]) : 6);
    lined_session(&r, room);
    pointing_session(&r, room);
    running_session(&r, room);
    full_session(&r, room);
    number_session(&r, room);
    fits_session(&r, room);
    slanted_session(&r, room);
    shortest_session(&r, room);
    dated_session(&r, room);
    repaired_session(&r, room);
    for (unsigned a = 0; a < ANSWERS; a++)
        missing += r.reached[a] == 0;
    fprintf(stderr, "%u calls, %ld bytes, %u of the %u answers not reached\n", r.calls, ftell(r.input), missing, ANSWERS);
    tell_places(&r);
    fclose(r.input);
    fclose(r.lines);
    clear_away(&r.desk);
    return 0;
}
