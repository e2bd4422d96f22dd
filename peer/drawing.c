/* drawing.c: boxes of dots, quarter turns, frames, text and its font, and the turned page.
 *
 * Everything but pictures is made of boxes. A box is cut at width and length and then laid byte by byte.
 */
#include <string.h>

#include "peer.h"

/* ---- boxes ---- */

static void ink_byte(uint8_t *byte, uint8_t mask, enum ink ink)
{
    switch (ink) {
    case BLACK: *byte |= mask; break;
    case WHITE: *byte &= (uint8_t)~mask; break;
    case INVERT: *byte ^= mask; break;
    }
}

static void ink_row(uint8_t *row, int from, int to, enum ink ink)
{
    int first = from / 8, last = (to - 1) / 8;
    uint8_t head = (uint8_t)(0xff >> from % 8), tail = (uint8_t)(0xff << (7 - (to - 1) % 8));

    if (first == last) {
        ink_byte(row + first, head & tail, ink);
        return;
    }
    ink_byte(row + first, head, ink);
    for (int i = first + 1; i < last; i++)
        ink_byte(row + i, 0xff, ink);
    ink_byte(row + last, tail, ink);
}

/* Dots x to x+wide-1, y to y+high-1. Neither x nor y is below zero. */
void draw_box(struct paper *p, int x, int y, int wide, int high, enum ink ink)
{
    int right = x + wide < p->width ? x + wide : p->width;
    int below = y + high < p->length ? y + high : p->length;

    if (x >= right)
        return;
    for (; y < below; y++)
        ink_row(p->dots + (size_t)y * ROW_BYTES, x, right, ink);
}

/* A box at x,y inside the unturned box t goes where the turn puts it. */
void draw_turned(struct paper *p, const struct turned *t, int x, int y, int wide, int high, enum ink ink)
{
    switch (t->r) {
    case 0: draw_box(p, t->x + x, t->y + y, wide, high, ink); break;
    case 1: draw_box(p, t->x + t->high - y - high, t->y + x, high, wide, ink); break;
    case 2: draw_box(p, t->x + t->wide - x - wide, t->y + t->high - y - high, wide, high, ink); break;
    default: draw_box(p, t->x + y, t->y + t->wide - x - wide, high, wide, ink); break;
    }
}

/* "Dots from the lesser coordinate up to, not including, the greater, less the rectangle shrunk by c on each side." */
void draw_frame(struct paper *p, int a, int b, int thick, int d, int e)
{
    int x = a < d ? a : d, y = b < e ? b : e;
    int wide = a < d ? d - a : a - d, high = b < e ? e - b : b - e;

    if (wide <= 2 * thick || high <= 2 * thick) {
        draw_box(p, x, y, wide, high, BLACK);
        return;
    }
    draw_box(p, x, y, wide, thick, BLACK);
    draw_box(p, x, y + high - thick, wide, thick, BLACK);
    draw_box(p, x, y + thick, thick, high - 2 * thick, BLACK);
    draw_box(p, x + wide - thick, y + thick, thick, high - 2 * thick, BLACK);
}

/* ---- the font ---- */

/* A tagged field at the front of the bytes: true if it is whole. */
static bool next_field(const uint8_t **bytes, size_t *length, uint8_t *tag, const uint8_t **content, size_t *count)
{
    if (*length < 3)
        return false;
    *tag = (*bytes)[0];
    *count = (*bytes)[1] | (size_t)(*bytes)[2] << 8;
    if (*length - 3 < *count)
        return false;
    *content = *bytes + 3;
    *bytes += 3 + *count;
    *length -= 3 + *count;
    return true;
}

static bool spare_bits_zero(const struct font *f, const uint8_t *rows)
{
    uint8_t spare = (uint8_t)(0xff >> f->width % 8);

    if (f->width % 8 == 0)
        return true;
    for (unsigned i = 0; i < f->height; i++)
        if (rows[i * f->row_bytes + f->row_bytes - 1] & spare)
            return false;
    return true;
}

static bool read_cell(const uint8_t *content, size_t count, struct font *f)
{
    if (count != 2)
        return false;
    f->width = content[0];
    f->height = content[1];
    f->row_bytes = (f->width + 7) / 8;
    return f->width >= 1 && f->width <= 32 && f->height >= 1 && f->height <= 64;
}

/* Tag 1 first, then glyphs with strictly rising codes, then tag 255, then nothing. */
bool read_font(const uint8_t *bytes, size_t length, struct font *f)
{
    const uint8_t *content;
    unsigned above = 31;
    uint8_t tag;
    size_t count;

    memset(f->glyph, 0, sizeof f->glyph);
    if (!next_field(&bytes, &length, &tag, &content, &count) || tag != 1 || !read_cell(content, count, f))
        return false;
    while (next_field(&bytes, &length, &tag, &content, &count)) {
        if (tag == 255)
            return count == 0 && length == 0;
        if (tag != 2 || count != 1 + f->height * f->row_bytes || content[0] <= above || content[0] > 126)
            return false;
        if (!spare_bits_zero(f, content + 1))
            return false;
        above = content[0];
        f->glyph[above] = content + 1;
    }
    return false;
}

/* ---- text ---- */

static bool glyph_dot(const uint8_t *row, unsigned x)
{
    return row[x / 8] >> (7 - x % 8) & 1;
}

/* One row of a glyph, each run of dots as one box. x: of the cell, y: of the row, in dots of the unturned box. */
static void draw_glyph_row(struct paper *p, const struct turned *t, int x, int y, const struct pen *pen, const uint8_t *row)
{
    unsigned width = pen->font->width;

    for (unsigned at = 0; at < width; at++) {
        unsigned from = at;
        while (at < width && glyph_dot(row, at))
            at++;
        if (at > from)
            draw_turned(p, t, x + (int)from * pen->h, y, (int)(at - from) * pen->h, pen->v, pen->ink);
    }
}

void draw_glyphs(struct paper *p, const struct turned *t, int x, int y, const struct pen *pen, const uint8_t *text,
                 unsigned length)
{
    const struct font *f = pen->font;

    for (unsigned i = 0; i < length; i++, x += (int)f->width * pen->h) {
        const uint8_t *glyph = f->glyph[text[i]];
        if (!glyph)
            continue;  /* "A missing code draws as blank" */
        for (unsigned row = 0; row < f->height; row++)
            draw_glyph_row(p, t, x, y + (int)row * pen->v, pen, glyph + row * f->row_bytes);
    }
}

/* N sets glyph dots black; R sets the whole cell black, glyph dots white. t holds corner and turn; the rest is set here. */
void draw_text(struct paper *p, struct turned t, int h, int v, char mode, const struct font *f, const uint8_t *text,
               unsigned length)
{
    struct pen pen = {f, h, v, mode == 'R' ? WHITE : BLACK};

    t.wide = (int)(length * f->width) * h;
    t.high = (int)f->height * v;
    if (mode == 'R')
        draw_turned(p, &t, 0, 0, t.wide, t.high, BLACK);
    draw_glyphs(p, &t, 0, 0, &pen, text, length);
}

/* ---- the turned page ---- */

static uint8_t mirrored(uint8_t byte)
{
    byte = (uint8_t)(byte << 4 | byte >> 4);
    byte = (uint8_t)((byte & 0x33) << 2 | (byte >> 2 & 0x33));
    return (uint8_t)((byte & 0x55) << 1 | (byte >> 1 & 0x55));
}

/* The row mirrored: all 608 dots, then moved left until dot width-1 stands at 0. */
static void mirror_row(const uint8_t *row, int width, uint8_t *out)
{
    uint8_t back[ROW_BYTES + 1];
    int bytes = (ROW_BYTES * 8 - width) / 8, bits = (ROW_BYTES * 8 - width) % 8;

    for (int i = 0; i < ROW_BYTES; i++)
        back[i] = mirrored(row[ROW_BYTES - 1 - i]);
    back[ROW_BYTES] = 0;
    for (int i = 0; i < ROW_BYTES - bytes; i++)
        out[i] = (uint8_t)((back[i + bytes] << 8 | back[i + bytes + 1]) >> (8 - bits));
    memset(out + ROW_BYTES - bytes, 0, (size_t)bytes);
}

/* Dot (x,y) goes to (width-1-x, length-1-y). Outside width by length the paper is white. */
void turn_paper(struct paper *p)
{
    uint8_t upper[ROW_BYTES], lower[ROW_BYTES];

    for (int y = 0; y <= p->length - 1 - y; y++) {
        uint8_t *above = p->dots + (size_t)y * ROW_BYTES;
        uint8_t *below = p->dots + (size_t)(p->length - 1 - y) * ROW_BYTES;

        mirror_row(above, p->width, upper);
        mirror_row(below, p->width, lower);
        memcpy(above, lower, ROW_BYTES);
        memcpy(below, upper, ROW_BYTES);
    }
}
