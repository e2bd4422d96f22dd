/* bench.c: the same work on the station and on the peer in one run, and the ratio of their times.
 *
 * Each desk is filled once by the peer and copied, so both sides start from the same bytes. The sides take turns and the best
 * of several rounds counts, in time of the processor, so that other work on the machine disturbs little. With -DSELF the station is the peer. */
#include <stdio.h>
#include <stdlib.h>
#include <string.h>
#include <time.h>

#include "desk.h"
#include "peer.h"
#include "station.h"

#ifdef SELF
static const struct station the_station = {peer_open, peer_command, peer_label, peer_fits, peer_clock, peer_repair};
#else
static const struct station the_station = {station_open, station_command, station_label, station_fits, station_clock, station_repair};
#endif

static unsigned rounds = 20;

struct work {
    struct desk desk;
    size_t length[SLICES], room[SLICES];
};

static uint8_t font[8192];
static size_t font_length;

/* A font of 8 by 12 with every code. */
static void make_font(void)
{
    uint8_t *at = font;

    memcpy(at, (const uint8_t[]){1, 2, 0, 8, 12}, 5);
    at += 5;
    for (unsigned code = 32; code <= 126; code++) {
        memcpy(at, (const uint8_t[]){2, 13, 0, (uint8_t)code}, 4);
        at += 4;
        for (unsigned y = 0; y < 12; y++)
            *at++ = (uint8_t)(code * (y + 3) & 0x7e);
    }
    memcpy(at, (const uint8_t[]){255, 0, 0}, 3);
    font_length = (size_t)(at + 3 - font);
}

static void open_work(struct work *w, unsigned rows, unsigned portions, unsigned entries)
{
    memset(w, 0, sizeof *w);
    usual_lengths(w->length, rows, portions, entries, 16384);
    usual_room(w->room, w->length, sizeof font, 65536);
    set_up_desk(&w->desk, w->room, 0);
    put_on_desk(&w->desk, FONT, font, font_length);
    w->length[FONT] = font_length;
    call_station(&peer_station, &w->desk, OPEN, w->length);
}

static unsigned send_bytes(const struct station *s, struct work *w, const void *bytes, size_t length)
{
    put_on_desk(&w->desk, INPUT, bytes, length);
    w->length[INPUT] = length;
    return call_station(s, &w->desk, COMMAND, w->length);
}

/* While the desk is filled every command must be taken. */
static void fill(struct work *w, const char *line)
{
    unsigned answer = send_bytes(&peer_station, w, line, strlen(line));

    if (answer != 0) {
        printf("not taken (%u): %s", answer, line);
        exit(1);
    }
}

/* Every byte that a call may change as it was. */
static void restore(struct work *to, const struct work *from)
{
    for (int s = 0; s < SLICES; s++)
        if (s != FONT && s != INPUT)
            memcpy(to->desk.bytes[s], from->desk.bytes[s], from->desk.room[s]);
}

static void copy_work(struct work *to, const struct work *from)
{
    memset(to, 0, sizeof *to);
    memcpy(to->length, from->length, sizeof to->length);
    set_up_desk(&to->desk, from->room, 0);
    restore(to, from);
    put_on_desk(&to->desk, FONT, font, font_length);
    put_on_desk(&to->desk, INPUT, from->desk.bytes[INPUT], from->length[INPUT]);
    to->desk.question = from->desk.question;
    to->desk.seconds = from->desk.seconds;
    to->desk.rows = from->desk.rows;
}

/* A picture of so many dots, each line two runs of five bytes and then single bytes, sent as GM. */
static void fill_picture(struct work *w, const char *name, unsigned wide, unsigned high)
{
    static uint8_t bytes[40000];
    uint8_t body[33000] = {10, 5, 1, 1};
    unsigned line = (wide + 15) / 16 * 2;
    size_t size = PICTURE_HEAD, start;

    body[8] = (uint8_t)(wide - 1);
    body[9] = (uint8_t)((wide - 1) >> 8);
    body[10] = (uint8_t)(high - 1);
    body[11] = (uint8_t)((high - 1) >> 8);
    body[65] = 1;
    body[66] = (uint8_t)line;
    for (unsigned y = 0; y < high; y++) {
        for (unsigned x = 0; x < 10; x += 5) {
            body[size++] = 192 + 5;
            body[size++] = (uint8_t)(x * 37 + y * 11);
        }
        for (unsigned x = 10; x < line; x++)
            body[size++] = (uint8_t)(x * 37 + y * 11) & 127;
    }
    start = (size_t)sprintf((char *)bytes, "GM\"%s\",%zu\n", name, size);
    memcpy(bytes + start, body, size);
    if (send_bytes(&peer_station, w, bytes, start + size) != 0) {
        printf("picture %s of %zu bytes not taken\n", name, size);
        exit(1);
    }
}

/* ---- the work ---- */

static double now(void)
{
    struct timespec t;

    clock_gettime(CLOCK_PROCESS_CPUTIME_ID, &t);
    return (double)t.tv_sec + (double)t.tv_nsec * 1e-9;
}

static double time_commands(const struct station *s, const struct work *from, unsigned count)
{
    struct work w;
    double start;

    copy_work(&w, from);
    start = now();
    for (unsigned i = 0; i < count; i++)
        if (send_bytes(s, &w, "ZT\n", 3) != 0)
            exit(1);
    start = now() - start;
    clear_away(&w.desk);
    return start;
}

/* As many lines as take the form from no line to its second portion, then the form is as before; only the lines are timed. */
enum { LINES = 26 };

static double time_lines(const struct station *s, const struct work *from, unsigned count)
{
    struct work w;
    double all = 0;

    copy_work(&w, from);
    for (unsigned done = 0; done < count; done += LINES) {
        double start = now();
        for (unsigned i = 0; i < LINES; i++)
            if (send_bytes(s, &w, "LO1,1,1,1\n", 10) != 0)
                exit(1);
        all += now() - start;
        restore(&w, from);
    }
    clear_away(&w.desk);
    return all;
}

static double time_calls(const struct station *s, const struct work *from, enum call_kind call, unsigned count)
{
    struct work w;
    double start;

    copy_work(&w, from);
    start = now();
    for (unsigned i = 0; i < count; i++)
        if (call_station(s, &w.desk, call, w.length) != 0)
            exit(1);
    start = now() - start;
    clear_away(&w.desk);
    return start;
}

static double time_labels(const struct station *s, const struct work *from, unsigned count)
{
    return time_calls(s, from, LABEL, count);
}

/* The command that stands on the desk. */
static double time_same(const struct station *s, const struct work *from, unsigned count)
{
    return time_calls(s, from, COMMAND, count);
}

static double time_questions(const struct station *s, const struct work *from, unsigned count)
{
    return time_calls(s, from, FITS, count);
}

/* A thousand each, because one takes too little time to be told. */
static double time_moves(const struct station *s, const struct work *from, unsigned count)
{
    return time_calls(s, from, CLOCK, 1000 * count);
}

/* Each time on the store as it was; only the calls are timed. */
static double time_repairs(const struct station *s, const struct work *from, unsigned count)
{
    struct work w;
    double all = 0;

    copy_work(&w, from);
    for (unsigned i = 0; i < count; i++) {
        double start = now();
        if (call_station(s, &w.desk, REPAIR, w.length) != 0)
            exit(1);
        all += now() - start;
        restore(&w, from);
    }
    clear_away(&w.desk);
    return all;
}

static void measure(const char *what, const struct work *from, unsigned count,
                    double (*time)(const struct station *, const struct work *, unsigned))
{
    double station = 1e9, peer = 1e9;

    for (unsigned i = 0; i < rounds; i++) {
        double s = time(&the_station, from, count), p = time(&peer_station, from, count);
        station = s < station ? s : station;
        peer = p < peer ? p : peer;
    }
    printf("%-50s station %9.1f us  peer %9.1f us  ratio %.2f\n", what, station * 1e6 / count, peer * 1e6 / count,
           station / peer);
}

/* So many forms and as many pictures: 256 of each fill all 2,024 portions, and half as many half of them. */
static void fill_part(struct work *w, unsigned portions, unsigned each)
{
    char line[128];

    open_work(w, 240, portions, 2 * each);
    for (unsigned i = 0; i < each; i++) {
        sprintf(line, "P%u", i);
        fill_picture(w, line, 160, i < each - each * 3 / 32 ? 50 : 40);  /* four portions, then three */
    }
    for (unsigned i = 0; i < each; i++) {
        sprintf(line, "FS\"F%u\"\n", i);
        fill(w, line);
        fill(w, "V0,8,Z,\"number\"\n");
        fill(w, "C0,6,+1,\"count\"\n");
        for (unsigned k = 0; k < 13; k++) {
            sprintf(line, "A%u,%u,0,1,1,N,\"Row %u of the form \"C0\" and \"V0M2.3\n", 10 + k, 12 * k, k);
            fill(w, line);
            sprintf(line, "LO%u,%u,100,2\n", 10 + k, 12 * k);
            fill(w, line);
            if (k == 5 || k == 9)
                fill(w, "B10,100,0,3,1,3,40,N,\"ABC\"C0\n");
        }
        sprintf(line, "GG300,20,\"P%u\"\n", i);
        fill(w, line);
        fill(w, "FE\n");
    }
}

/* 256 forms and 256 pictures over all 2,024 portions. */
static void fill_store(struct work *w)
{
    fill_part(w, MOST_PORTIONS, 256);
}

static unsigned free_left(const struct work *w)
{
    unsigned left = 0;

    for (unsigned i = 0; i < w->length[LINKS]; i++)
        left += w->desk.bytes[LINKS][2 * i] == 0xff && w->desk.bytes[LINKS][2 * i + 1] == 0xff;
    return left;
}

static void full_store(void)
{
    struct work w;

    fill_store(&w);
    printf("full store: %u of %u portions free\n", free_left(&w), MOST_PORTIONS);
    fill(&w, "FR\"F17\"\n");
    fill(&w, "?V0,\"123\"\n");
    fill(&w, "?C0,1\n");
    measure("a command on a full store", &w, 200, time_commands);
    fill(&w, "P60000\n");
    measure("a label on a full store", &w, 200, time_labels);
    clear_away(&w.desk);
}

/* A byte of every eighth entry or link is another, and every eighth entry has a wrong byte in its first portion. */
static void damage_work(struct work *w)
{
    uint8_t *const *b = w->desk.bytes;

    for (unsigned i = 0; i < MOST_ENTRIES; i += 8) {
        uint8_t *entry = b[DIRECTORY] + ENTRY * i;
        b[STORE][PORTION * (size_t)entry_first(entry)] ^= 1;
        entry[ENTRY + 1] = 9;
        b[LINKS][2 * (size_t)entry_first(entry + 2 * ENTRY) + 1] = 200;
        entry[3 * ENTRY + 13] ^= 1;
        memcpy(entry + 4 * ENTRY + 10, entry + 5 * ENTRY + 10, 6);
    }
}

/* 512 entries begin in one chain of 2,024 portions, each a portion later than the one before it. All of it is legal lines, so the first is kept and the others share it;
 * or the last line is not, and each is read to its end; or the chain ends in a circle. */
enum worst { SHARED_BY_ALL, LAST_LINE_WRONG, CIRCLE_AT_END };

static void make_one_chain(struct work *w, enum worst how)
{
    uint8_t *const *b = w->desk.bytes;
    char name[8];

    open_work(w, 240, MOST_PORTIONS, MOST_ENTRIES);
    for (unsigned i = 0; i < MOST_PORTIONS; i++) {
        unsigned after = i + 1 < MOST_PORTIONS ? i + 1 : how == CIRCLE_AT_END ? 1000 : CHAIN_END;
        for (unsigned k = 0; k < 16; k++)
            memcpy(b[STORE] + PORTION * (size_t)i + 16 * k, "LO1001,20,30,40\n", 16);
        b[LINKS][2 * i] = (uint8_t)after;
        b[LINKS][2 * i + 1] = (uint8_t)(after >> 8);
    }
    if (how == LAST_LINE_WRONG)
        b[STORE][w->length[STORE] - 2] = 'x';
    for (unsigned i = 0; i < MOST_ENTRIES; i++) {
        uint8_t *entry = b[DIRECTORY] + ENTRY * i;
        uint32_t size = (MOST_PORTIONS - i) * PORTION;
        entry[0] = FORM;
        entry[1] = (uint8_t)sprintf(name, "F%u", i);
        memcpy(entry + 2, name, entry[1]);
        entry[10] = (uint8_t)i;
        entry[11] = (uint8_t)(i >> 8);
        for (unsigned k = 0; k < 4; k++)
            entry[12 + k] = (uint8_t)(size >> 8 * k);
    }
    w->desk.rows = 240;
}

/* Beside the command on a full store, which judges the same memory. */
static void repairs(void)
{
    static const char *const worst[] = {"a repair, 512 entries share one chain", "a repair, 512 entries read one chain to its end", "a repair, 512 entries in one chain with a circle"};
    struct work w;

    fill_store(&w);
    measure("a command on a full store", &w, 100, time_commands);
    w.desk.rows = 240;
    measure("a repair of a full store", &w, 100, time_repairs);
    damage_work(&w);
    measure("a repair of a full store, damaged", &w, 100, time_repairs);
    clear_away(&w.desk);
    for (unsigned how = SHARED_BY_ALL; how <= CIRCLE_AT_END; how++) {
        make_one_chain(&w, (enum worst)how);
        rounds = how == LAST_LINE_WRONG ? 3 : 20;  /* half a second and more each */
        measure(worst[how], &w, how == LAST_LINE_WRONG ? 1 : 50, time_repairs);
        clear_away(&w.desk);
    }
    rounds = 20;
    for (unsigned portions = MOST_PORTIONS / 8; portions <= MOST_PORTIONS; portions *= 2) {
        char what[64];
        fill_part(&w, portions, portions * 256 / MOST_PORTIONS);
        w.desk.rows = 240;
        sprintf(what, "a repair of %u portions, %u of them free", portions, free_left(&w));
        measure(what, &w, 100, time_repairs);
        clear_away(&w.desk);
    }
}

/* Paper 02: "The station adds up all chains to find its free portions for each recorded line." With one chain, and with 512 of them. */
static void recorded_lines(void)
{
    struct work w;

    open_work(&w, 240, MOST_PORTIONS, MOST_ENTRIES);
    fill(&w, "FS\"F0\"\n");
    printf("a form being recorded: %u of %u portions free\n", free_left(&w), MOST_PORTIONS);
    measure("a recorded line, nearly all portions free", &w, 40 * LINES, time_lines);
    clear_away(&w.desk);

    fill_store(&w);
    fill(&w, "FK\"F0\"\n");
    fill(&w, "FS\"F0\"\n");
    printf("a form being recorded: %u of %u portions free\n", free_left(&w), MOST_PORTIONS);
    measure("a recorded line, nearly all portions taken", &w, 4 * LINES, time_lines);
    clear_away(&w.desk);
}

/* The greatest memory, all taken but the last entry and as many portions as the picture needs, and no name differs from the one asked for before its
 * last byte: each pass runs to its end. */
static void questions(void)
{
    static const uint8_t name[] = "PICTURE8";
    struct work w;

    open_work(&w, 240, MOST_PORTIONS, MOST_ENTRIES);
    for (unsigned i = 0; i + 1 < MOST_ENTRIES; i++)
        memcpy(w.desk.bytes[DIRECTORY] + ENTRY * i, (const uint8_t[]){1 + i % 2, 8, 'P', 'I', 'C', 'T', 'U', 'R', 'E', '7'}, 10);
    memset(w.desk.bytes[LINKS], 0, 2 * (MOST_PORTIONS - MOST_PICTURE / PORTION));
    put_on_desk(&w.desk, INPUT, name, 8);
    w.length[INPUT] = 8;
    w.desk.question = (struct question){PICTURE, MOST_PICTURE};
    printf("a picture of %u bytes: %u of %u portions free\n", MOST_PICTURE, free_left(&w), MOST_PORTIONS);
    measure("will a picture fit", &w, 2000, time_questions);
    w.desk.question.kind = FORM;
    measure("will a form fit", &w, 2000, time_questions);
    clear_away(&w.desk);
}

/* Commands on an empty store, which draw on the background: beside the drawing there is only the memory to judge, and what that takes is told by the rows in which
 * nothing is drawn. LSE touches each dot of the line whatever stands there. */
static void slanted_lines(void)
{
    static const struct {
        const char *what, *line;
        unsigned rows;
    } lines[] = {{"nothing drawn on 4,000 rows", "ZT\n", 4000}, {"corner to corner of 4,000 rows, thickness 1", "LSE0,0,1,607,3999\n", 4000},
                 {"corner to corner of 4,000 rows, thickness 80", "LSE0,0,80,607,3999\n", 4000}, {"upright on 4,000 rows, thickness 1", "LSE300,0,1,300,3999\n", 4000},
                 {"upright on 4,000 rows, thickness 80", "LSE300,0,80,300,3999\n", 4000}, {"nothing drawn on 140 rows", "ZT\n", 140},
                 {"slanting 40 dots, thickness 80", "LSE300,50,80,324,82\n", 140}, {"level across 608 dots, thickness 80", "LSE0,70,80,607,70\n", 140},
                 {"corner to corner of 140 rows, thickness 1", "LSE0,0,1,607,139\n", 140}, {"a disc of thickness 80", "LSE300,70,80,300,70\n", 140}};

    for (unsigned i = 0; i < sizeof lines / sizeof lines[0]; i++) {
        struct work w;
        open_work(&w, lines[i].rows, 1, 1);
        fill(&w, lines[i].line);
        measure(lines[i].what, &w, lines[i].rows > 1000 ? 200 : 2000, time_same);
        clear_away(&w.desk);
    }
}

/* Type 1 on an empty store, upright, so that the page has all of it: of 64 and 128 bytes, digits alone and rows of three to nine digits with a letter behind each. What the memory takes to
 * judge is told by the row in which nothing is drawn. */
static void shortest_symbols(void)
{
    static const char digits[] = "0123456789", mixed[] = "012A3456A78901A234567A8901234A56789012A345678901A";
    static const struct {
        const char *what, *bytes;
        unsigned length;
    } symbols[] = {{"nothing drawn on 1,500 rows", "", 0}, {"type 1, 64 digits", digits, 64}, {"type 1, 128 digits", digits, 128}, {"type 1, 64 bytes, digits and letters", mixed, 64},
                   {"type 1, 128 bytes, digits and letters", mixed, 128}};

    for (unsigned i = 0; i < sizeof symbols / sizeof symbols[0]; i++) {
        char data[MOST_DATA + 1] = "", line[200] = "ZT\n";
        struct work w;
        for (unsigned k = 0; k < symbols[i].length; k++)
            data[k] = symbols[i].bytes[k % strlen(symbols[i].bytes)];
        if (symbols[i].length > 0)
            sprintf(line, "B100,0,1,1,1,2,24,N,\"%.128s\"\n", data);
        open_work(&w, 1500, 1, 1);
        fill(&w, line);
        measure(symbols[i].what, &w, 500, time_same);
        clear_away(&w.desk);
    }
}

static void long_label(void)
{
    struct work w;
    char line[256];

    open_work(&w, 4000, 256, 8);
    fill_picture(&w, "LOGO", 400, 300);
    fill(&w, "FS\"LONG\"\n");
    fill(&w, "C0,6,+7,\"\"\n");
    for (unsigned y = 0; y + 300 < 4000; y += 300) {
        sprintf(line, "A5,%u,0,2,2,N,\"A row of text and number \"C0\n", y);
        fill(&w, line);
        sprintf(line, "A5,%u,1,1,1,R,\"turned\"\n", y + 30);
        fill(&w, line);
        sprintf(line, "B30,%u,0,1,2,3,100,N,\"CODE 128 \"C0\n", y + 30);
        fill(&w, line);
        sprintf(line, "B30,%u,0,E30,2,3,100,N,\"123456\"C0\n", y + 140);
        fill(&w, line);
        sprintf(line, "GG190,%u,\"LOGO\"\n", y);
        fill(&w, line);
        sprintf(line, "X0,%u,4,600,%u\n", y, y + 298);
        fill(&w, line);
    }
    fill(&w, "FE\n");
    fill(&w, "FR\"LONG\"\n");
    fill(&w, "?C0,1\n");
    fill(&w, "P60000\n");
    measure("a label of 4,000 rows", &w, 50, time_labels);
    clear_away(&w.desk);

    open_work(&w, 4000, 8, 8);
    fill(&w, "ZB\n");
    fill(&w, "LO0,0,600,2047\n");
    fill(&w, "P60000\n");
    measure("a label of 4,000 rows, turned, no form", &w, 50, time_labels);
    clear_away(&w.desk);
}

static void small_labels(void)
{
    struct work w;

    open_work(&w, 40, 16, 4);
    fill(&w, "FS\"S\"\n");
    fill(&w, "C0,4,+1,\"\"\n");
    fill(&w, "V1,8,L,\"\"\n");
    fill(&w, "A0,0,0,1,1,N,\"No \"C0\" \"V1\n");
    fill(&w, "B0,14,0,2,1,3,24,N,C0\"00\"\n");
    fill(&w, "FE\n");
    fill(&w, "FR\"S\"\n");
    fill(&w, "?C0,0\n");
    fill(&w, "?V1,\"lens\"\n");
    fill(&w, "P10000\n");  /* as many as four digits count from 0 */
    measure("a thousand small labels, each", &w, 1000, time_labels);
    clear_away(&w.desk);
}

static void label_of(const char *what, const char *const *lines, unsigned count)
{
    struct work w;

    open_work(&w, 40, 16, 4);
    fill(&w, "TS6,15,2,14,35,0\n");
    fill(&w, "FS\"D\"\n");
    for (unsigned i = 0; i < count; i++)
        fill(&w, lines[i]);
    fill(&w, "FE\n");
    fill(&w, "FR\"D\"\n");
    fill(&w, "P60000\n");
    measure(what, &w, 1000, time_labels);
    clear_away(&w.desk);
}

/* Moves of one second, and of a day, which ends one each time. A label of dates and times, and beside it the same label of texts. */
static void dates(void)
{
    static const char *const texts[] = {"A0,0,0,1,1,N,\"Date: 15-JUN-2002 14:35:00\"\n", "A0,14,0,1,1,N,\"06/15/02\"\n", "B300,0,0,1,1,3,24,N,\"14:35:00\"\n"};
    static const char *const moments[] = {"A0,0,0,1,1,N,\"Date: \"TD\" \"TT\n", "TDmn/dd/y2\n", "A0,14,0,1,1,N,TD\n", "B300,0,0,1,1,3,24,N,TT\n"};
    struct work w;

    open_work(&w, 1, 1, 1);
    w.desk.seconds = 1;
    measure("a thousand moves of the clock by a second", &w, 30, time_moves);
    w.desk.seconds = 86400;
    measure("a thousand moves of the clock by a day", &w, 30, time_moves);
    clear_away(&w.desk);
    label_of("a label of two texts and bars", texts, 3);
    label_of("the same label of TD and TT", moments, 4);
}

int main(void)
{
    make_font();
    full_store();
    long_label();
    small_labels();
    recorded_lines();
    questions();
    slanted_lines();
    shortest_symbols();
    dates();
    repairs();
    return 0;
}
