/* picture.c: which bytes are a legal picture, and how one is drawn.
 *
 * PCX as ZSoft describes it, one plane of one bit: a header of 128 bytes, words low byte first, then lines packed in runs.
 * A byte of 192 or more gives the run's length in its low six bits and the value follows; any other byte is itself.
 */
#include <string.h>

#include "peer.h"

struct shape {
    unsigned width, height, line_bytes;
};

static unsigned word(const uint8_t *head, unsigned at)
{
    return head[at] | (unsigned)head[at + 1] << 8;
}

static struct shape shape_of(const uint8_t *head)
{
    struct shape s = {word(head, 8) - word(head, 4) + 1, word(head, 10) - word(head, 6) + 1, word(head, 66)};

    return s;
}

static bool legal_head(const uint8_t *head)
{
    struct shape s = shape_of(head);

    return head[0] == 10 && head[1] <= 5 && head[1] != 1 && head[2] == 1 && head[3] == 1 && head[65] == 1
        && word(head, 8) >= word(head, 4) && word(head, 10) >= word(head, 6)
        && s.width <= 2048 && s.height <= 4000
        && s.line_bytes % 2 == 0 && s.line_bytes <= 256 && s.line_bytes * 8 >= s.width;
}

/* Runs, byte after byte: the run that waits for its value, and all bytes given so far. */
struct runs {
    unsigned waiting;
    uint32_t given;
    bool legal;
};

static void count_runs(struct runs *r, const uint8_t *bytes, size_t length)
{
    for (size_t i = 0; i < length; i++) {
        if (r->waiting > 0) {
            r->given += r->waiting;
            r->waiting = 0;
        } else if (bytes[i] < 192) {
            r->given++;
        } else {
            r->waiting = bytes[i] & 63;
            r->legal &= r->waiting > 0;
        }
    }
}

/* "Runs give exactly line bytes times height and end the file." */
static bool legal_end(const struct runs *r, struct shape s)
{
    return r->legal && r->waiting == 0 && r->given == s.line_bytes * s.height;
}

static bool legal_size(size_t size)
{
    return size >= LEAST_PICTURE && size <= MOST_PICTURE;
}

bool legal_picture_bytes(const uint8_t *bytes, size_t size)
{
    struct runs r = {0, 0, true};

    if (!legal_size(size) || !legal_head(bytes))
        return false;
    count_runs(&r, bytes + PICTURE_HEAD, size - PICTURE_HEAD);
    return legal_end(&r, shape_of(bytes));
}

/* The header stands in the first portion, because a picture has 129 bytes or more. */
bool legal_picture_chain(struct cursor at)
{
    struct runs r = {0, 0, true};
    const uint8_t *head, *bytes;
    unsigned count;

    if (!legal_size(at.left))
        return false;
    count = next_bytes(&at, &head);
    if (!legal_head(head))
        return false;
    count_runs(&r, head + PICTURE_HEAD, count - PICTURE_HEAD);
    while ((count = next_bytes(&at, &bytes)) > 0)
        count_runs(&r, bytes, count);
    return legal_end(&r, shape_of(head));
}

/* ---- drawing ---- */

struct canvas {
    struct paper *paper;
    int x, y;            /* where the next line goes */
    int visible;         /* dots of a line left of the paper's edge */
    unsigned line_bytes, filled;
    uint8_t line[256];   /* 1 is black here */
};

/* One line of dots put over a row of the paper: black set, others left. */
static void lay_line(struct canvas *c)
{
    unsigned shift = (unsigned)c->x % 8, bytes = ((unsigned)c->visible + 7) / 8;
    uint8_t *row = c->paper->dots + (size_t)c->y * ROW_BYTES + c->x / 8;

    if (c->visible % 8 != 0)
        c->line[bytes - 1] &= (uint8_t)(0xff00 >> c->visible % 8);
    for (unsigned i = 0; i < bytes; i++) {
        uint8_t over = (uint8_t)(c->line[i] << (8 - shift));
        row[i] |= c->line[i] >> shift;
        if (over != 0)
            row[i + 1] |= over;  /* inside the row, because the dot is visible */
    }
}

static void end_line(struct canvas *c)
{
    if (c->visible > 0 && c->y < c->paper->length)
        lay_line(c);
    c->filled = 0;
    c->y++;
}

/* "Zero bits are black", so the value is turned over here. A run may go on in the next line. */
static void lay_run(struct canvas *c, unsigned count, uint8_t value)
{
    while (count > 0) {
        unsigned part = c->line_bytes - c->filled;

        if (part > count)
            part = count;
        memset(c->line + c->filled, (uint8_t)~value, part);
        c->filled += part;
        count -= part;
        if (c->filled == c->line_bytes)
            end_line(c);
    }
}

static void lay_bytes(struct canvas *c, unsigned *waiting, const uint8_t *bytes, unsigned length)
{
    for (unsigned i = 0; i < length; i++) {
        if (*waiting == 0 && bytes[i] >= 192) {
            *waiting = bytes[i] & 63;
        } else {
            lay_run(c, *waiting ? *waiting : 1, bytes[i]);
            *waiting = 0;
        }
    }
}

void draw_picture(struct paper *p, int x, int y, struct cursor at)
{
    const uint8_t *bytes;
    unsigned count = next_bytes(&at, &bytes), waiting = 0;
    struct shape s = shape_of(bytes);
    struct canvas c = {.paper = p, .x = x, .y = y, .line_bytes = s.line_bytes, .filled = 0};

    c.visible = p->width - x < (int)s.width ? p->width - x : (int)s.width;
    lay_bytes(&c, &waiting, bytes + PICTURE_HEAD, count - PICTURE_HEAD);
    while (c.y < p->length && (count = next_bytes(&at, &bytes)) > 0)
        lay_bytes(&c, &waiting, bytes, count);
}
