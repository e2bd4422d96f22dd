/* compare.c: the station and the peer on the same calls, each on its own copy of the lent memory.
 *
 *   compare CALLS FIRST-SEED
 *
 * After each call the answer, the three counts, the session and every lent byte must be the same, and so must the bytes beyond
 * what was lent. Of the peer alone it is also asked that a refusal changes nothing, that a call changes only what it may, that
 * only 6, 7 and 12 to 15 point and none past the line's LF, that memory is sound after every taken call, that within one job a
 * counter with a step never shows a value twice, that only a job's last label unsets one, that 19 and 23 are given by what was
 * free and empty before the call, to no line but those that may ask for it, that after every taken call the number of free portions is
 * what a fresh count finds, and has moved only where it may, that an image of another length is 1 and one refused by opening all zero, and
 * that the question whether it fits changes nothing and has the answer of the FS or GM that is sent right behind it on a copy of the memory, if that
 * is sound. And that a slanted line drawn on the background inks, in some of the rows, just the dots that the paper's sentence names, that it gives the same page with its ends
 * exchanged, and that LSE of it twice gives back the page. And that the bars of each symbol of type 1 drawn on the background or a label read back as its data, in the writing that its rows of
 * digits ask for, and so do those on the background itself, where they stand whole in a row that was white. And that the clock is changed by opening, TS and its own call
 * alone and the formats by opening, TD and TT outside recording alone, each to what a second telling has, and that every TD and TT drawn shows what strftime writes. And of a repair all that verdicts.h tells: its list, what it leaves, that this is sound and stays when it is repaired again. The first difference is told with
 * the seed of its session and ends the run. At the end: how often each call gave each answer, and of the answers that point how
 * many places they were seen to point to, how many of these more than nine times, and how often to the LF; and how many slanted lines were drawn, by their
 * ends and by whether the page has them whole; and how many symbols of type 1, by their start and how often their set changes; and what became of the entries of repaired stores, and how many calls were made on what was left. With -DSELF the station
 * is the peer again, which tries the generator and this program alone. */
#include <ctype.h>
#include <inttypes.h>
#include <stdio.h>
#include <stdlib.h>
#include <string.h>
#include <strings.h>
#include <time.h>

#include "desk.h"
#include "generate.h"
#include "peer.h"
#include "reading.h"
#include "station.h"
#include "verdicts.h"

#ifdef SELF
static const struct station the_station = {peer_open, peer_command, peer_label, peer_fits, peer_clock, peer_repair};
#else
static const struct station the_station = {station_open, station_command, station_label, station_fits, station_clock, station_repair};
#endif

static const char *const call_names[CALLS] = {"open", "command", "label", "question", "move of the clock", "repair"};

/* before: the peer's memory as it was before the call. What a question asks about is then sent there. */
struct pair {
    struct desk station, peer, before;
};

enum { PLACES = MOST_LINE + 1, MOST_SHOWN = 256 };

static uint64_t reached[CALLS][ANSWERS], other;
static uint64_t sent_forms, sent_pictures;
static uint64_t rows_asked, dots_in_line;
static uint64_t pointed[ANSWERS][PLACES], to_lf[ANSWERS];

/* The values that the counters had on the labels of the job under way, as far as its labels were drawn one after another. No
 * session has more calls than there is room for. */
static struct counter shown[MOST_SHOWN][10];
static unsigned shown_count;

static void write_bytes(const uint8_t *bytes, size_t count)
{
    for (size_t i = 0; i < count && i < 300; i++) {
        if (bytes[i] >= 32 && bytes[i] < 127)
            putchar(bytes[i]);
        else
            printf("\\x%02x", bytes[i]);
    }
    if (count > 300)
        printf("... (%zu bytes)", count);
    putchar('\n');
}

static void tell_difference(const struct generator *g, const struct event *e, uint64_t calls)
{
    printf("difference at call %" PRIu64 ", a %s; its session has seed %" PRIu64 "\n", calls, call_names[e->call],
           session_seed(g));
    printf("lent:");
    for (int s = 0; s < SLICES; s++)
        printf(" %s %zu", slice_names[s], e->length[s]);
    putchar('\n');
    if (e->call == FITS)
        printf("kind %u, size %" PRIu64 ", name ", e->question.kind, e->question.size);
    if (e->call == CLOCK)
        printf("seconds %" PRIu64 "\n", e->seconds);
    if (e->call == REPAIR)
        printf("rows %" PRIu64 "\n", e->rows);
    if (e->call == COMMAND)
        printf("input: ");
    if (e->call == COMMAND || e->call == FITS)
        write_bytes(e->bytes, e->count);
}

/* The first place where a slice differs; true if there is one. */
static int tell_slice(const struct pair *p, enum slice s)
{
    const uint8_t *a = p->station.bytes[s], *b = p->peer.bytes[s];
    size_t differing = 0, first = 0;

    for (size_t i = p->peer.room[s]; i-- > 0;)
        if (a[i] != b[i]) {
            differing++;
            first = i;
        }
    if (differing > 0)
        printf("%s: byte %zu is %u in the station's, %u in the peer's; %zu bytes differ\n", slice_names[s], first, a[first],
               b[first], differing);
    return differing > 0;
}

static int slices_same(const struct pair *p)
{
    for (int s = 0; s < SLICES; s++)
        if (memcmp(p->station.bytes[s], p->peer.bytes[s], p->peer.room[s]) != 0)
            return 0;
    return 1;
}

/* ---- what the peer alone owes ---- */

static void keep(struct pair *p)
{
    for (int s = 0; s < SLICES; s++)
        if (s != FONT && s != INPUT)
            memcpy(p->before.bytes[s], p->peer.bytes[s], p->peer.room[s]);
}

/* A slice that the call may change with this answer. Counts are stored at every answer of a command, if there are three. */
static int may_change(const struct event *e, unsigned answer, enum slice s)
{
    switch (e->call) {
    case OPEN: return s == SESSION || (answer == 0 && s != OUTPUT && s != COUNTS);
    case COMMAND: return s == COUNTS ? e->length[COUNTS] == 3 : answer == 0 && s != PAGE;
    case FITS: return 0;
    case CLOCK: return answer == 0 && s == SESSION;
    case REPAIR: return s == COUNTS ? e->length[COUNTS] == 3 : answer == 0 && s != PAGE && s != BACKGROUND;
    default: return answer == 0 && (s == SESSION || s == PAGE);
    }
}

static int points(unsigned answer)
{
    return answer == NOT_WRITTEN_SO || answer == OUTSIDE_LIMITS || (answer >= DECLARED_BEFORE && answer <= UNFIT_DATA);
}

static uint64_t count_of(const struct pair *p, unsigned i)
{
    uint64_t n;

    memcpy(&n, p->peer.bytes[COUNTS] + 8 * i, 8);
    return n;
}

/* "Other answers give place 0." Of those that point only 6 may mean the LF. */
static int place_allowed(const struct pair *p, const struct event *e, unsigned answer)
{
    const uint8_t *lf = e->count ? memchr(e->bytes, '\n', e->count) : NULL;
    uint64_t place = count_of(p, 2);

    if (!points(answer))
        return place == 0;
    return lf && place < (uint64_t)(lf - e->bytes) + (answer == NOT_WRITTEN_SO);
}

static void note_place(const struct pair *p, const struct event *e, unsigned answer)
{
    uint64_t place = count_of(p, 2);

    if (e->call != COMMAND || !points(answer))
        return;
    pointed[answer][place]++;
    to_lf[answer] += e->bytes[place] == '\n';
}

/* Of a label just drawn: "Labels must not start over". A counter that stays set has moved by its step; an unset one has left its
 * range with the last label. */
static int counters_go_on(const struct session *before, const struct session *after, const struct declarations *d)
{
    for (unsigned i = 0; i < 10; i++) {
        int64_t moved = (int64_t)before->counters[i].value + d->c[i].step;
        if (!d->c[i].declared)
            continue;
        if (after->counters[i].set ? after->counters[i].value != moved : after->owed > 0 || in_range(&d->c[i], moved))
            return 0;
        for (unsigned k = 0; k < shown_count && d->c[i].step != 0; k++)
            if (shown[k][i].value == before->counters[i].value)
                return 0;
    }
    memcpy(shown[shown_count++], before->counters, sizeof shown[0]);
    return 1;
}

static int job_goes_on(const struct pair *p, const struct event *e, const struct facts *f)
{
    struct session before, after;

    read_image(p->before.bytes[SESSION], &before);
    read_image(p->peer.bytes[SESSION], &after);
    if (e->call == LABEL)
        return counters_go_on(&before, &after, &f->of_active);
    if (before.owed == 0 || e->call == OPEN)
        shown_count = 0;
    return 1;
}

static int is_sound(const struct pair *p, const struct event *e, struct facts *facts)
{
    uint8_t *const *b = p->peer.bytes;
    struct memory m = {b[BACKGROUND], (unsigned)(e->length[BACKGROUND] / ROW_BYTES), b[STORE], (uint16_t *)(void *)b[LINKS],
                       (unsigned)e->length[LINKS], b[DIRECTORY], (unsigned)(e->length[DIRECTORY] / ENTRY), b[VALUE]};
    struct session session;

    read_image(b[SESSION], &session);
    return sound(&m, &session, facts);
}

/* ---- which kind of full ---- */

/* The links marked free, one by one. */
static unsigned marked_free(const struct desk *d, const struct event *e)
{
    unsigned marked = 0;

    for (size_t i = 0; i < e->length[LINKS]; i++)
        marked += d->bytes[LINKS][2 * i] == 0xff && d->bytes[LINKS][2 * i + 1] == 0xff;
    return marked;
}

static unsigned free_before(const struct pair *p, const struct event *e)
{
    return marked_free(&p->before, e);
}

static int kind_before(const struct pair *p, const struct event *e, uint8_t kind)
{
    for (size_t at = 0; at < e->length[DIRECTORY]; at += ENTRY)
        if (p->before.bytes[DIRECTORY][at] == kind)
            return 1;
    return 0;
}

/* Of an FS or GM that has its written form. "A starting form takes one portion." */
static unsigned portions_needed(const struct event *e)
{
    const char *name = (const char *)e->bytes + 3;

    if (e->bytes[0] == 'F')
        return 1;
    return (unsigned)(strtoul(strchr(name, '"') + 2, NULL, 10) + PORTION - 1) / PORTION;
}

/* "Give 19 for too few free portions and another number for no empty entry. When both hold, 19 is given." Only FS and GM ask for an
 * entry; of all other lines only a recorded one asks for a portion, and for no more than one. */
static int full_so(const struct pair *p, const struct event *e, unsigned answer)
{
    bool asks_entry = e->count > 2 && (memcmp(e->bytes, "FS", 2) == 0 || memcmp(e->bytes, "GM", 2) == 0);

    if (e->call != COMMAND || (answer != TAKEN && answer != TOO_FEW_PORTIONS && answer != NO_EMPTY_ENTRY))
        return 1;
    if (!asks_entry)
        return answer == TAKEN || (answer == TOO_FEW_PORTIONS && free_before(p, e) == 0 && kind_before(p, e, RECORDING));
    if (free_before(p, e) < portions_needed(e))
        return answer == TOO_FEW_PORTIONS;
    return answer == (kind_before(p, e, EMPTY) ? TAKEN : NO_EMPTY_ENTRY);
}

/* ---- free room kept as a number ---- */

static unsigned number_of(const struct desk *d)
{
    return d->bytes[SESSION][65] | (unsigned)d->bytes[SESSION][66] << 8;
}

/* The portions lent, less those that the sizes call for, counted down 256 bytes at a time. */
static unsigned left_by_sizes(const struct desk *d, const struct event *e)
{
    unsigned left = (unsigned)e->length[LINKS];

    for (size_t at = 0; at < e->length[DIRECTORY]; at += ENTRY) {
        uint32_t size = entry_size(d->bytes[DIRECTORY] + at);
        if (d->bytes[DIRECTORY][at] == EMPTY)
            continue;
        for (left--; size > PORTION; size -= PORTION)
            left--;
    }
    return left;
}

/* What a taken call may do to the number: FS takes one, GM at least one, FK and GK give back, a recorded line takes one or none, and
 * nothing else moves it. "*" may find nothing to erase. */
static int moved_so(const struct pair *p, const struct event *e, unsigned before, unsigned after)
{
    bool recording = kind_before(p, e, RECORDING), named = e->count > 3 && e->bytes[2] == '"';

    if (e->call == COMMAND && recording)
        return after == before || (after + 1 == before && e->bytes[0] != 'F' && e->bytes[0] != ';' && e->bytes[0] != '\n');
    if (e->call != COMMAND || !named)
        return after == before;
    if (memcmp(e->bytes, "FS", 2) == 0)
        return after + 1 == before;
    if (memcmp(e->bytes, "GM", 2) == 0)
        return after + portions_needed(e) == before;
    if (memcmp(e->bytes, "FK", 2) == 0 || memcmp(e->bytes, "GK", 2) == 0)
        return after > before || (after == before && e->bytes[3] == '*');
    return after == before;
}

/* "right after FS, each recorded line, FE, FK, GM, GK and opening" */
static int number_so(const struct pair *p, const struct event *e)
{
    unsigned number = number_of(&p->peer);

    if (number != marked_free(&p->peer, e) || number != left_by_sizes(&p->peer, e))
        return 0;
    return e->call == OPEN ? number == e->length[LINKS] : moved_so(p, e, number_of(&p->before), number);
}

/* "An image of another length is [1]", and 1 is the lowest number; a refused opening leaves the image all zero. */
static int image_so(const struct pair *p, const struct event *e, unsigned answer)
{
    unsigned not_zero = 0;

    if (e->length[SESSION] != IMAGE)
        return answer == BAD_LENGTH;
    for (unsigned i = 0; i < IMAGE; i++)
        not_zero += p->peer.bytes[SESSION][i] != 0;
    return e->call != OPEN || answer == TAKEN || not_zero == 0;
}

/* Image, room and its number. */
static void check_room(const struct pair *p, const struct generator *g, const struct event *e, unsigned answer, uint64_t calls)
{
    if (!image_so(p, e, answer)) {
        tell_difference(g, e, calls);
        printf("the peer answered %u to an image of %zu bytes, or opening left other bytes than zeros in it\n", answer, e->length[SESSION]);
        exit(1);
    }
    if (!full_so(p, e, answer)) {
        tell_difference(g, e, calls);
        printf("the peer answered %u with %u portions free and %s entry\n", answer, free_before(p, e),
               kind_before(p, e, EMPTY) ? "an empty" : "no empty");
        exit(1);
    }
    if (answer == 0 && !number_so(p, e)) {
        tell_difference(g, e, calls);
        printf("the peer took the call; its number was %u and is %u, with %u links marked free and %u portions left by the sizes\n",
               number_of(&p->before), number_of(&p->peer), marked_free(&p->peer, e), left_by_sizes(&p->peer, e));
        exit(1);
    }
}

/* ---- will it fit? ---- */

/* Exactly when 1 is due; and a wrong kind is 7 if not 1. */
static int refused_so(const struct event *e, unsigned answer)
{
    size_t links = e->length[LINKS], entries = e->length[DIRECTORY] / ENTRY;
    bool right = e->length[SESSION] == IMAGE && links > 0 && links <= MOST_PORTIONS && entries > 0 && entries <= MOST_ENTRIES
              && e->length[DIRECTORY] == entries * ENTRY;

    if (!right || answer == BAD_LENGTH)
        return !right && answer == BAD_LENGTH;
    return e->question.kind == FORM || e->question.kind == PICTURE || answer == OUTSIDE_LIMITS;
}

/* A name that a line can hold between its quotes, legal or not, and a number that it can write. */
static int can_be_sent(const struct event *e)
{
    for (size_t i = 0; i < e->count; i++)
        if (e->bytes[i] < 32 || e->bytes[i] > 126 || e->bytes[i] == '"')
            return 0;
    return e->count <= 200 && (e->question.kind == FORM || (e->question.kind == PICTURE && e->question.size <= 999999999));
}

/* The FS or GM that the question is about, with a legal font, on the memory as it was before the question. */
static unsigned send_asked(struct pair *p, const struct event *e)
{
    static const uint8_t font[] = {1, 2, 0, 8, 8, 255, 0, 0};
    static uint8_t input[MOST_PICTURE + 300];
    const char *name = (const char *)e->bytes;
    size_t length[SLICES], size = e->question.size;

    memcpy(length, e->length, sizeof length);
    length[COUNTS] = 3;
    length[FONT] = sizeof font;
    if (e->question.kind == FORM)
        length[INPUT] = (size_t)sprintf((char *)input, "FS\"%.*s\"\n", (int)e->count, name);
    else if (size > MOST_PICTURE)  /* no bytes are read */
        length[INPUT] = (size_t)sprintf((char *)input, "GM\"%.*s\",%zu\n", (int)e->count, name, size);
    else
        length[INPUT] = write_picture(input, name, e->count, size);
    put_on_desk(&p->before, FONT, font, sizeof font);
    put_on_desk(&p->before, INPUT, input, length[INPUT]);
    return call_station(&peer_station, &p->before, COMMAND, length);
}

/* "gives the answer that GM, with a legal picture of that size, or FS would give if sent then". Of a memory that is not sound, or of which the
 * store, background or values are lent wrongly, nothing is said; where no legal picture has this size, GM's 16 stands where it goes before. */
static int answered_as_sent(struct pair *p, const struct event *e, unsigned answer)
{
    unsigned sent;

    if (!can_be_sent(e))
        return 1;
    sent = send_asked(p, e);
    if (sent == NOT_SOUND || (sent == BAD_LENGTH && answer != BAD_LENGTH))
        return 1;
    *(e->question.kind == FORM ? &sent_forms : &sent_pictures) += 1;
    if (sent == NOT_A_PICTURE && e->question.size < PICTURE_HEAD + 2)
        return answer == TAKEN || answer == TOO_FEW_PORTIONS || answer == NO_EMPTY_ENTRY;
    return sent == answer;
}

static void check_question(struct pair *p, const struct generator *g, const struct event *e, unsigned answer, uint64_t calls)
{
    if (e->count > 0 && memcmp(p->peer.bytes[INPUT], e->bytes, e->count) != 0) {
        tell_difference(g, e, calls);
        printf("the name was changed\n");
        exit(1);
    }
    if (!refused_so(e, answer) || !answered_as_sent(p, e, answer)) {
        tell_difference(g, e, calls);
        printf("the peer answered %u, which is not for these lengths or this kind, or not what the command itself is answered\n", answer);
        exit(1);
    }
}

/* ---- slanted lines ---- */

enum { BY_COMMAND, BY_LABEL, DRAWN_BY };
enum { LEVEL, UPRIGHT, DIAGONAL, DISC, SLANTING, SHAPES };
enum { WHOLE, CUT, OUTSIDE, REACHES };

static uint64_t drawn_shapes[DRAWN_BY][SHAPES][REACHES], drawn_inks[DRAWN_BY][3];

/* A slanted line with the origin added. ink: nothing, E or W, as it is written. */
struct drawn_line {
    const char *ink;
    long a, b, c, d, e;
};

/* The line that begins with these bytes; false if it is no slanted one. It was taken, so it has its written form. */
static bool slanted_at(const uint8_t *bytes, size_t count, unsigned origin_x, unsigned origin_y, struct drawn_line *l)
{
    const char *at = (const char *)bytes + 2;
    char *end;

    if (count < 3 || memcmp(bytes, "LS", 2) != 0)
        return false;
    l->ink = *at == 'E' ? "E" : *at == 'W' ? "W" : "";
    l->a = strtol(at + strlen(l->ink), &end, 10) + origin_x;
    l->b = strtol(end + 1, &end, 10) + origin_y;
    l->c = strtol(end + 1, &end, 10);
    l->d = strtol(end + 1, &end, 10) + origin_x;
    l->e = strtol(end + 1, &end, 10) + origin_y;
    return true;
}

static long lesser(long one, long other)
{
    return one < other ? one : other;
}

static void note_drawn(unsigned by, const struct drawn_line *l, const struct session *s)
{
    long across = labs(l->d - l->a), down = labs(l->e - l->b), half = l->c / 2, left = lesser(l->a, l->d), top = lesser(l->b, l->e);
    unsigned shape = across == 0 && down == 0 ? DISC : down == 0 ? LEVEL : across == 0 ? UPRIGHT : across == down ? DIAGONAL : SLANTING;
    bool whole = left >= half && top >= half && left + across + half < s->width && top + down + half < s->length;
    bool outside = left - half >= s->width || top - half >= s->length;

    drawn_shapes[by][shape][whole ? WHOLE : outside ? OUTSIDE : CUT]++;
    drawn_inks[by][*l->ink == 'E' ? 1 : *l->ink == 'W' ? 2 : 0]++;
}

/* The lines of the form that a label has drawn, each with the origin that holds there. */
static void note_label(const struct pair *p, const struct event *e)
{
    uint8_t *const *b = p->before.bytes;
    struct memory m = {b[BACKGROUND], 0, b[STORE], (uint16_t *)(void *)b[LINKS], (unsigned)e->length[LINKS], b[DIRECTORY],
                       (unsigned)(e->length[DIRECTORY] / ENTRY), b[VALUE]};
    uint8_t room[MOST_LINE + 1];
    struct drawn_line l;
    struct session s;
    unsigned length;

    read_image(b[SESSION], &s);
    if (s.active == NO_FORM)
        return;
    for (struct cursor at = start_of(&m, entry_at(&m, s.active)); at.left > 0;) {
        const uint8_t *line = next_line(&at, room, &length);
        if (slanted_at(line, length, s.origin_x, s.origin_y, &l))
            note_drawn(BY_LABEL, &l, &s);
        if (line[0] == 'R') {
            char *comma;
            s.origin_x = (uint16_t)strtoul((const char *)line + 1, &comma, 10);
            s.origin_y = (uint16_t)strtoul(comma + 1, NULL, 10);
        }
    }
}

/* "four times the square of its distance to the segment is at most c squared" */
static bool belongs(const struct drawn_line *l, long x, long y)
{
    int64_t across = l->d - l->a, down = l->e - l->b, u = x - l->a, v = y - l->b, foot = across * u + down * v, cross = across * v - down * u;
    int64_t all = across * across + down * down;

    if (foot <= 0)
        return 4 * (u * u + v * v) <= l->c * l->c;
    if (foot >= all)
        return 4 * ((u - across) * (u - across) + (v - down) * (v - down)) <= l->c * l->c;
    return 4 * cross * cross <= l->c * l->c * all;
}

/* The peer draws it on the memory as it was before the call; ends exchanged or not. */
static void draw_again(struct pair *p, const struct event *e, const char *ink, const struct drawn_line *l, bool exchanged)
{
    static const uint8_t font[] = {1, 2, 0, 8, 8, 255, 0, 0};
    size_t length[SLICES];
    struct session s;
    uint8_t line[64];

    read_image(p->before.bytes[SESSION], &s);
    memcpy(length, e->length, sizeof length);
    length[FONT] = sizeof font;
    length[INPUT] = (size_t)sprintf((char *)line, "LS%s%ld,%ld,%ld,%ld,%ld\n", ink, (exchanged ? l->d : l->a) - s.origin_x,
                                    (exchanged ? l->e : l->b) - s.origin_y, l->c, (exchanged ? l->a : l->d) - s.origin_x,
                                    (exchanged ? l->b : l->e) - s.origin_y);
    put_on_desk(&p->before, FONT, font, sizeof font);
    put_on_desk(&p->before, INPUT, line, length[INPUT]);
    call_station(&peer_station, &p->before, COMMAND, length);
}

static bool backgrounds_same(const struct pair *p)
{
    return memcmp(p->before.bytes[BACKGROUND], p->peer.bytes[BACKGROUND], p->peer.room[BACKGROUND]) == 0;
}

/* In this row of the page a dot of the line has its ink, and any other is as before. */
static bool row_inked_so(const struct pair *p, const struct drawn_line *l, const struct session *s, long y)
{
    size_t at = (size_t)y * ROW_BYTES;

    if (y < 0 || y >= s->length)
        return true;
    rows_asked++;
    for (long x = 0; x < ROW_BYTES * 8; x++) {
        bool before = p->before.bytes[BACKGROUND][at + (size_t)x / 8] >> (7 - x % 8) & 1;
        bool after = p->peer.bytes[BACKGROUND][at + (size_t)x / 8] >> (7 - x % 8) & 1;
        bool in_line = x < s->width && belongs(l, x, y), inked = *l->ink == 'E' ? !before : *l->ink != 'W';
        dots_in_line += in_line;
        if (after != (in_line ? inked : before))
            return false;
    }
    return true;
}

/* "Each dot is touched once." What was drawn is then drawn on the memory of before with its ends exchanged, and there inverted and inverted back. */
static bool slanted_so(struct pair *p, const struct event *e, const struct drawn_line *l, const struct session *s, uint64_t calls)
{
    const long rows[] = {l->b, l->e, (l->b + l->e) / 2, lesser(l->b, l->e) - l->c / 2, l->b + l->e - lesser(l->b, l->e) + l->c / 2, (long)(calls % s->length)};

    for (unsigned i = 0; i < sizeof rows / sizeof rows[0]; i++)
        if (!row_inked_so(p, l, s, rows[i]))
            return false;
    draw_again(p, e, l->ink, l, true);
    if (!backgrounds_same(p))
        return false;
    draw_again(p, e, "E", l, false);
    draw_again(p, e, "E", l, true);
    return backgrounds_same(p);
}

static void check_slanted(struct pair *p, const struct generator *g, const struct event *e, unsigned answer, uint64_t calls)
{
    struct drawn_line l;
    struct session s;

    if (answer != TAKEN || e->call == OPEN)
        return;
    if (e->call == LABEL) {
        note_label(p, e);
        return;
    }
    read_image(p->before.bytes[SESSION], &s);
    if (kind_before(p, e, RECORDING) || !slanted_at(e->bytes, e->count, s.origin_x, s.origin_y, &l))
        return;
    note_drawn(BY_COMMAND, &l, &s);
    if (!slanted_so(p, e, &l, &s, calls)) {
        tell_difference(g, e, calls);
        printf("the peer inked other dots than those of the line, or drew another page with the ends exchanged, or LSE twice did not give it back\n");
        exit(1);
    }
}

/* ---- the date, written by the station ---- */

enum { SAME_DAY, NEXT_DAY, NEXT_MONTH, NEXT_YEAR, AT_THE_END, MOVES };

static uint64_t shown_moments[DRAWN_BY][2], moves[MOVES];

/* Days from 1 March 2000, the year counted from there so that a leap day is its last. */
static long day_of(long year, long month, long day)
{
    long y = year - (month < 3), m = (month + 9) % 12;

    return 365 * y + (y + 4) / 4 - 1 + (153 * m + 2) / 5 + day - 1;
}

/* The day that has this number, found by trying. */
static void date_of(long number, uint8_t date[3])
{
    for (long year = 0; year <= 99; year++)
        for (long month = 1; month <= 12; month++) {
            long first = day_of(year, month, 1), after = month == 12 ? day_of(year + 1, 1, 1) : day_of(year, month + 1, 1);
            if (number >= first && number < after) {
                const uint8_t found[] = {(uint8_t)year, (uint8_t)month, (uint8_t)(number - first + 1)};
                memcpy(date, found, 3);
            }
        }
}

static bool is_moment(const uint8_t c[6])
{
    uint8_t date[3] = {255};

    if (c[0] > 99 || c[1] < 1 || c[1] > 12 || c[2] < 1 || c[3] > 23 || c[4] > 59 || c[5] > 59)
        return false;
    date_of(day_of(c[0], c[1], c[2]), date);
    return memcmp(date, c, 3) == 0;
}

/* "past the end of 2099 it stands at the last second" */
static void moved_by(const uint8_t c[6], uint64_t seconds, uint8_t to[6])
{
    long long end = (day_of(99, 12, 31) + 1) * 86400ll - 1, at = day_of(c[0], c[1], c[2]) * 86400ll + c[3] * 3600 + c[4] * 60 + c[5] + (long long)seconds;
    long day;

    at = at > end ? end : at;
    day = (long)((at + 86400 * 60) / 86400) - 60;  /* January and February of 2000 have numbers below 0 */
    date_of(day, to);
    at -= day * 86400ll;
    to[3] = (uint8_t)(at / 3600);
    to[4] = (uint8_t)(at / 60 % 60);
    to[5] = (uint8_t)(at % 60);
    moves[at == 86399 && day == day_of(99, 12, 31) ? AT_THE_END : to[0] != c[0] ? NEXT_YEAR : to[1] != c[1] ? NEXT_MONTH : to[2] != c[2] ? NEXT_DAY : SAME_DAY]++;
}

/* A format told from the line that gives it, which was taken. */
static void format_of(const uint8_t *line, unsigned length, uint8_t format[FORMAT])
{
    static const char *const dates[] = {"", "y2", "y4", "me", "mn", "dd"}, *const times[] = {"", "h", "m", "s"};
    bool date = line[1] == 'D';
    unsigned step = date ? 3 : 2;

    memset(format, 0, FORMAT);
    for (unsigned i = 0; 2 + i * step < length; i++) {
        const char *field = (const char *)line + 2 + i * step;
        for (unsigned k = 1; k < (date ? 6 : 4); k++)
            if (strncasecmp(field, date ? dates[k] : times[k], step - 1) == 0)
                format[2 * i] = (uint8_t)k;
        if (i > 0)
            format[2 * i - 1] = (uint8_t)field[-1];
    }
}

static bool is_format(const uint8_t *line, size_t length)
{
    return length > 2 && line[0] == 'T' && (line[1] == 'D' || line[1] == 'T');
}

/* A line of a form, or one sent outside of it, if it gives a format. */
static void note_format(const uint8_t *line, unsigned length, struct formats *f)
{
    if (is_format(line, length))
        format_of(line, length, line[1] == 'D' ? f->date : f->time);
}

/* What strftime has for such a format. */
static unsigned written_moment(const uint8_t format[FORMAT], bool date, const struct clock *c, char *out)
{
    static const char *const dates[] = {"", "%y", "%Y", "%b", "%m", "%d"}, *const times[] = {"", "%H", "%M", "%S"};
    struct tm t = {.tm_year = 100 + c->year, .tm_mon = c->month - 1, .tm_mday = c->day, .tm_hour = c->hour, .tm_min = c->minute, .tm_sec = c->second};
    unsigned length = 0;

    for (unsigned i = 0; i < FORMAT && (i == 0 || format[i] != 0); i += 2) {
        if (i > 0)
            out[length++] = (char)format[i - 1];
        unsigned from = length;
        length += (unsigned)strftime(out + length, 8, date ? dates[format[i]] : times[format[i]], &t);
        for (; from < length; from++)
            out[from] = (char)toupper((unsigned char)out[from]);
    }
    return length;
}

/* Every element TD and TT of a line shows what strftime writes. */
static bool moments_so(unsigned by, const struct command *c, const struct source *from)
{
    for (unsigned i = 0; i < c->elements; i++) {
        bool date = c->element[i].kind == 'D';
        struct command alone = {.elements = 1, .element = {c->element[i]}};
        uint8_t shown[MOST_DATA];
        char told[32];
        if (!date && c->element[i].kind != 'T')
            continue;
        shown_moments[by][date]++;
        unsigned length = show_data(&alone, from, shown);
        if (written_moment(date ? from->formats.date : from->formats.time, date, &from->clock, told) != length || memcmp(told, shown, length) != 0)
            return false;
    }
    return true;
}

/* "1 (image length), 3 (clock's six numbers are no date and time; nothing else is judged), 7 (above 86,400), in that order"; taken, nothing but the clock moves. */
static bool move_so(const struct pair *p, const struct event *e, unsigned answer)
{
    const uint8_t *before = p->before.bytes[SESSION], *after = p->peer.bytes[SESSION];
    uint8_t to[6] = {0};

    if (e->length[SESSION] != IMAGE)
        return answer == BAD_LENGTH;
    if (!is_moment(before + CLOCK_AT))
        return answer == NOT_SOUND;
    if (e->seconds > 86400)
        return answer == OUTSIDE_LIMITS;
    moved_by(before + CLOCK_AT, e->seconds, to);
    return answer == TAKEN && memcmp(after + CLOCK_AT, to, 6) == 0 && memcmp(after, before, CLOCK_AT) == 0
        && memcmp(after + DATE_FORMAT_AT, before + DATE_FORMAT_AT, IMAGE - DATE_FORMAT_AT) == 0;
}

/* What clock and formats are after a taken call: "TS, TD, TT and the clock call change nothing else; nothing else changes them." */
static bool moment_kept(const struct pair *p, const struct event *e)
{
    static const uint8_t opened[] = {0, 1, 1, 0, 0, 0, DD, '-', ME, '-', Y4, HOUR, ':', MINUTE, ':', SECOND};
    const uint8_t *after = p->peer.bytes[SESSION] + CLOCK_AT;
    static const unsigned order[] = {1, 2, 0, 3, 4, 5};  /* of the numbers of TS in the image */
    uint8_t told[IMAGE - CLOCK_AT];

    memcpy(told, p->before.bytes[SESSION] + CLOCK_AT, sizeof told);
    if (e->call == OPEN)
        memcpy(told, opened, sizeof told);
    if (e->call == COMMAND && !kind_before(p, e, RECORDING)) {
        const char *at = (const char *)e->bytes + 1;
        for (unsigned i = 0; i < 6 && e->count > 2 && memcmp(e->bytes, "TS", 2) == 0; i++)
            told[order[i]] = (uint8_t)strtoul(at + 1, (char **)&at, 10);
        if (is_format(e->bytes, e->count))
            format_of(e->bytes, (unsigned)((const uint8_t *)memchr(e->bytes, '\n', e->count) - e->bytes), told + (e->bytes[1] == 'D' ? 6 : 11));
    }
    return memcmp(after, told, sizeof told) == 0;
}

static void check_moment(const struct pair *p, const struct generator *g, const struct event *e, unsigned answer, uint64_t calls)
{
    if (e->call == CLOCK ? move_so(p, e, answer) : answer != TAKEN || e->call == FITS || e->call == REPAIR || moment_kept(p, e))
        return;
    tell_difference(g, e, calls);
    printf("the peer answered %u, and the clock or the formats are not what they must be then\n", answer);
    exit(1);
}

/* ---- Code 128 as short as it can be ---- */

enum { NO_CHANGE, ONE_CHANGE, MORE_CHANGES, CHANGES };

static uint64_t written[DRAWN_BY][2][CHANGES], across_elements, read_on_page;

/* A line A or B and what it shows. */
struct data_line {
    struct command command;
    uint8_t data[MOST_DATA];
    unsigned length;
};

/* False if the line has no data. It was taken, so it has its written form. */
static bool data_line_at(const uint8_t *line, unsigned length, const struct source *from, struct data_line *t)
{
    struct normal_line normal;

    if (length == 0 || (line[0] != 'A' && line[0] != 'B') || read_line(line, length, MOST_ROWS, &t->command, &normal).answer != TAKEN)
        return false;
    t->length = show_data(&t->command, from, t->data);
    return true;
}

static bool is_type_1(const struct data_line *t)
{
    return t->command.word == W_B && t->command.type == CODE_128;
}

/* The bars as the peer has them, read back: the data, and the writing that its rows of digits ask for. */
static bool written_so(unsigned by, const struct data_line *t)
{
    uint8_t widths[MOST_BARS], values[MOST_DATA + 1];
    unsigned count = bar_widths(CODE_128, 1, 2, t->data, t->length, widths), changes;
    struct reading r;

    if (!read_bars(widths, count, 1, &r) || r.length != t->length || memcmp(r.data, t->data, t->length) != 0)
        return false;
    changes = changes_of_set(&r);
    written[by][r.value[0] == 105][changes < MORE_CHANGES ? changes : MORE_CHANGES]++;
    across_elements += t->command.elements > 1 && (changes > 0 || r.value[0] == 105);
    return write_by_rows(t->data, t->length, values) == r.count && memcmp(values, r.value, r.count) == 0;
}

/* A symbol whose first row was white before it and is whole on the page: its bars are read from there. */
static bool read_from_page(const struct pair *p, const struct data_line *t, const struct session *s)
{
    unsigned narrow = t->command.n[3], y = t->command.n[1] + s->origin_y, first, count;
    size_t at = (size_t)y * ROW_BYTES;
    uint8_t widths[ROW_BYTES * 8], values[MOST_DATA + 1];
    struct reading r;

    if (t->command.n[2] != 0 || y >= s->length || row_widths(p->before.bytes[BACKGROUND] + at, s->width, widths, &first) != 0)
        return true;
    count = row_widths(p->peer.bytes[BACKGROUND] + at, s->width, widths, &first);
    if (count == 0)
        return t->command.letter != 'N' || t->command.n[0] + s->origin_x >= s->width;
    if (first + (11 * (write_by_rows(t->data, t->length, values) + 1) + 13) * narrow > s->width)
        return true;
    read_on_page++;
    return read_bars(widths, count, narrow, &r) && r.length == t->length && memcmp(r.data, t->data, t->length) == 0;
}

/* The data that a label has drawn, with the values, counters and clock it had, and the formats that its lines before them give. */
static bool label_written_so(const struct pair *p, const struct event *e, const struct declarations *d)
{
    uint8_t *const *b = p->before.bytes;
    struct memory m = {b[BACKGROUND], 0, b[STORE], (uint16_t *)(void *)b[LINKS], (unsigned)e->length[LINKS], b[DIRECTORY],
                       (unsigned)(e->length[DIRECTORY] / ENTRY), b[VALUE]};
    uint8_t room[MOST_LINE + 1];
    static struct data_line t;
    struct session s;
    unsigned length;

    read_image(b[SESSION], &s);
    if (s.active == NO_FORM)
        return true;
    struct source from = {d, b[VALUE], s.counters, s.clock, example_formats};
    for (struct cursor at = start_of(&m, entry_at(&m, s.active)); at.left > 0;) {
        const uint8_t *line = next_line(&at, room, &length);
        if (data_line_at(line, length, &from, &t) && !(moments_so(BY_LABEL, &t.command, &from) && (!is_type_1(&t) || written_so(BY_LABEL, &t))))
            return false;
        note_format(line, length, &from.formats);
    }
    return true;
}

static bool command_written_so(const struct pair *p, const struct event *e)
{
    static const struct declarations nothing;
    const uint8_t *lf = memchr(e->bytes, '\n', e->count);
    static struct data_line t;
    struct session s;

    read_image(p->before.bytes[SESSION], &s);
    struct source from = {&nothing, p->before.bytes[VALUE], s.counters, s.clock, s.formats};
    if (kind_before(p, e, RECORDING) || !data_line_at(e->bytes, (unsigned)(lf - e->bytes), &from, &t))
        return true;
    return moments_so(BY_COMMAND, &t.command, &from) && (!is_type_1(&t) || (written_so(BY_COMMAND, &t) && read_from_page(p, &t, &s)));
}

static void check_written(const struct pair *p, const struct generator *g, const struct event *e, unsigned answer, const struct declarations *d, uint64_t calls)
{
    if (answer != TAKEN || e->call == OPEN)
        return;
    if (!(e->call == LABEL ? label_written_so(p, e, d) : command_written_so(p, e))) {
        tell_difference(g, e, calls);
        printf("the bars of a symbol of type 1 do not read back as its data, or another writing was asked for, or date or time is shown otherwise\n");
        exit(1);
    }
}

/* ---- a store that came back from a bad card ---- */

static uint64_t became[TELLINGS], repaired_whole, repaired_exactly, used_after[CALLS][2];
static bool since_repair;

/* What verdicts.h tells of a repair; and from then on the calls are counted that are made of what it left. */
static void check_repair(const struct pair *p, const struct generator *g, const struct event *e, unsigned answer, uint64_t calls)
{
    static struct telling told;
    struct card c = card_on(&p->before, e->length);
    bool right = repair_lengths_right(e->length, e->rows);
    unsigned dropped = 0;
    const char *fault;

    if (right)
        tell_verdicts(&c, &told);
    if ((fault = repair_fault(&p->before, &p->peer, e->length, e->rows, answer, &told))) {
        tell_difference(g, e, calls);
        printf("the peer answered %u: %s\n", answer, fault);
        if (right)
            printf("told:\n%.*s", (int)told.length, told.list);
        exit(1);
    }
    if (answer != TAKEN)
        return;
    for (unsigned i = 0; i < c.entries; i++) {
        became[told.of[i]]++;
        dropped += told.of[i] > TOLD_KEPT;
    }
    repaired_whole += dropped == 0 && told.length > 0;
    repaired_exactly += told.length == e->length[OUTPUT];
    since_repair = true;
    shown_count = 0;
}

static void note_use(const struct event *e, unsigned answer)
{
    if (e->call == OPEN)
        since_repair = false;
    if (since_repair && (e->call == COMMAND || e->call == LABEL))
        used_after[e->call][answer != TAKEN]++;
}

/* ---- all of it ---- */

static void check_unchanged(const struct pair *p, const struct generator *g, const struct event *e, unsigned answer, uint64_t calls)
{
    for (int s = 0; s < SLICES; s++)
        if (s != FONT && s != INPUT && !may_change(e, answer, (enum slice)s)
            && memcmp(p->before.bytes[s], p->peer.bytes[s], p->peer.room[s]) != 0) {
            tell_difference(g, e, calls);
            printf("the peer answered %u and changed %s\n", answer, slice_names[s]);
            exit(1);
        }
}

static void check_promises(const struct pair *p, const struct generator *g, const struct event *e, unsigned answer, uint64_t calls)
{
    struct facts facts;

    if (e->call == COMMAND && e->length[COUNTS] == 3 && !place_allowed(p, e, answer)) {
        tell_difference(g, e, calls);
        printf("the peer answered %u with place %" PRIu64 "\n", answer, count_of(p, 2));
        exit(1);
    }
    if (answer == 0 && !is_sound(p, e, &facts)) {
        tell_difference(g, e, calls);
        printf("the peer took the call and left memory that is not sound\n");
        exit(1);
    }
    if (answer == 0 && !job_goes_on(p, e, &facts)) {
        tell_difference(g, e, calls);
        printf("the peer drew the label, and a counter has shown its value before or did not go on by its step\n");
        exit(1);
    }
    check_room(p, g, e, answer, calls);
    check_written(p, g, e, answer, &facts.of_active, calls);
}

static void make_call(struct pair *p, struct generator *g, const struct event *e, uint64_t calls)
{
    uint8_t ours, theirs;

    keep(p);
    put_on_desk(&p->station, INPUT, e->bytes, e->count);
    put_on_desk(&p->peer, INPUT, e->bytes, e->count);
    p->station.question = p->peer.question = e->question;
    p->station.seconds = p->peer.seconds = e->seconds;
    p->station.rows = p->peer.rows = e->rows;
    ours = call_station(&the_station, &p->station, e->call, e->length);
    theirs = call_station(&peer_station, &p->peer, e->call, e->length);
    if (ours != theirs || !slices_same(p)) {
        tell_difference(g, e, calls);
        printf("answer: station %u, peer %u\n", ours, theirs);
        for (int s = 0; s < SLICES; s++)
            tell_slice(p, (enum slice)s);
        exit(1);
    }
    check_unchanged(p, g, e, theirs, calls);
    check_moment(p, g, e, theirs, calls);
    if (e->call == FITS)
        check_question(p, g, e, theirs, calls);
    else if (e->call == REPAIR)
        check_repair(p, g, e, theirs, calls);
    else if (e->call != CLOCK) {
        check_promises(p, g, e, theirs, calls);
        check_slanted(p, g, e, theirs, calls);
    }
    note_place(p, e, theirs);
    note_use(e, theirs);
    if (theirs < ANSWERS)
        reached[e->call][theirs]++;
    else
        other++;
    tell_answer(g, theirs);
}

static void poke(struct pair *p, const struct event *e)
{
    p->station.bytes[e->slice][e->at] = e->byte;
    p->peer.bytes[e->slice][e->at] = e->byte;
    if (!e->passing)
        shown_count = 0;
}

static void lay(struct pair *p, const struct event *e)
{
    memcpy(p->station.bytes[e->slice], e->bytes, e->count);
    memcpy(p->peer.bytes[e->slice], e->bytes, e->count);
    shown_count = 0;
    since_repair = false;
}

static void both_fonts(struct pair *p, const struct event *e)
{
    put_on_desk(&p->station, FONT, e->bytes, e->count);
    put_on_desk(&p->peer, FONT, e->bytes, e->count);
}

static void tell_reached(uint64_t calls)
{
    printf("%" PRIu64 " calls, no difference\nanswer      open   command     label      fits     clock    repair\n", calls);
    for (int a = 0; a < ANSWERS; a++)
        printf("%6d %9" PRIu64 " %9" PRIu64 " %9" PRIu64 " %9" PRIu64 " %9" PRIu64 " %9" PRIu64 "\n", a, reached[OPEN][a], reached[COMMAND][a], reached[LABEL][a],
               reached[FITS][a], reached[CLOCK][a], reached[REPAIR][a]);
    if (other)
        printf("other answers: %" PRIu64 "\n", other);
}

static void tell_places(void)
{
    printf("points    places  over nine times    to LF\n");
    for (unsigned a = 0; a < ANSWERS; a++) {
        unsigned places = 0, often = 0;
        for (unsigned place = 0; place < PLACES; place++) {
            places += pointed[a][place] > 0;
            often += pointed[a][place] > 9;
        }
        if (points(a))
            printf("%6u %9u %16u %8" PRIu64 "\n", a, places, often, to_lf[a]);
    }
}

static void tell_slanted(void)
{
    static const char *const names[SHAPES] = {"level", "upright", "at 45 degrees", "a disc", "slanting"}, *const by[DRAWN_BY] = {"background", "label"};

    printf("slanted lines                whole       cut   outside\n");
    for (unsigned i = 0; i < DRAWN_BY; i++) {
        for (unsigned k = 0; k < SHAPES; k++)
            printf("%-10s %-14s %7" PRIu64 " %9" PRIu64 " %9" PRIu64 "\n", by[i], names[k], drawn_shapes[i][k][WHOLE], drawn_shapes[i][k][CUT], drawn_shapes[i][k][OUTSIDE]);
        printf("%-10s LS %" PRIu64 ", LSE %" PRIu64 ", LSW %" PRIu64 "\n", by[i], drawn_inks[i][0], drawn_inks[i][1], drawn_inks[i][2]);
    }
    printf("asked dot by dot: %" PRIu64 " rows, %" PRIu64 " dots in the line\n", rows_asked, dots_in_line);
}

static void tell_written(void)
{
    static const char *const by[DRAWN_BY] = {"background", "label"};

    printf("type 1                  no change  one change        more\n");
    for (unsigned i = 0; i < DRAWN_BY; i++)
        for (unsigned c = 0; c < 2; c++)
            printf("%-10s start %c %14" PRIu64 " %11" PRIu64 " %11" PRIu64 "\n", by[i], "BC"[c], written[i][c][NO_CHANGE], written[i][c][ONE_CHANGE], written[i][c][MORE_CHANGES]);
    printf("of several elements, set C in use: %" PRIu64 "; read from the page: %" PRIu64 "\n", across_elements, read_on_page);
}

static void tell_moments(void)
{
    printf("TD and TT shown on the background %" PRIu64 " and %" PRIu64 ", on labels %" PRIu64 " and %" PRIu64 "\n", shown_moments[BY_COMMAND][1],
           shown_moments[BY_COMMAND][0], shown_moments[BY_LABEL][1], shown_moments[BY_LABEL][0]);
    printf("moves within a day %" PRIu64 ", to the next day %" PRIu64 ", month %" PRIu64 ", year %" PRIu64 ", at the end of 2099 %" PRIu64 "\n", moves[SAME_DAY], moves[NEXT_DAY],
           moves[NEXT_MONTH], moves[NEXT_YEAR], moves[AT_THE_END]);
}

static void tell_repaired(void)
{
    printf("entries of repaired stores:");
    for (unsigned i = TOLD_KEPT; i < TELLINGS; i++)
        printf(" %s %" PRIu64 "%s", told_words[i], became[i], i + 1 < TELLINGS ? "," : "\n");
    printf("repairs that kept all of one entry or more %" PRIu64 ", with output just as long as the list %" PRIu64 "\n", repaired_whole, repaired_exactly);
    printf("calls on what a repair has left: commands %" PRIu64 " taken, %" PRIu64 " refused, labels %" PRIu64 " and %" PRIu64 "\n", used_after[COMMAND][0], used_after[COMMAND][1],
           used_after[LABEL][0], used_after[LABEL][1]);
}

int main(int argc, char **argv)
{
    uint64_t wanted = argc > 1 ? strtoull(argv[1], NULL, 10) : 10000, calls = 0;
    uint64_t seed = argc > 2 ? strtoull(argv[2], NULL, 10) : 1;
    static struct generator g;
    static struct pair p;
    struct event e;

    printf("first seed %" PRIu64 "\n", seed);
    start_generator(&g, seed, false, &p.peer);
    while (calls < wanted) {
        next_event(&g, &e);
        switch (e.kind) {
        case SET_UP:
            set_up_desk(&p.station, e.room, e.fill);
            set_up_desk(&p.peer, e.room, e.fill);
            set_up_desk(&p.before, e.room, e.fill);
            break;
        case NEW_FONT: both_fonts(&p, &e); break;
        case POKE: poke(&p, &e); break;
        case LAY: lay(&p, &e); break;
        case CALL: make_call(&p, &g, &e, ++calls); break;
        }
    }
    tell_reached(calls);
    tell_places();
    printf("asked and then sent: %" PRIu64 " FS, %" PRIu64 " GM\n", sent_forms, sent_pictures);
    tell_slanted();
    tell_written();
    tell_moments();
    tell_repaired();
    clear_away(&p.station);
    clear_away(&p.peer);
    clear_away(&p.before);
    return 0;
}
