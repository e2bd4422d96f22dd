/* slanted.c: slanted lines.
 *
 * "A dot belongs to the line exactly when four times the square of its distance to the segment is at most c squared." These dots are
 * the union of three shapes: a disc around each end, and the band of the dots whose foot lies on the segment and whose cross product is
 * small enough. A disc is taken whole: a dot of it whose foot lies on the segment is nearer to the foot than to the end, and belongs
 * to the line all the same. The union has no dents, so its dots in one row stand side by side, from the first to the last that some
 * shape has there. Each row is inked once, and so is each dot.
 *
 * The segment is looked at from its upper end, and in a mirror if it falls to the left; then it runs down, to the right, or both, by
 * down and across, which are not below zero. u and v are a dot's distances from that end, to the right in the mirror and down. From one row to
 * the next each edge of the band moves by the same fraction, so its columns are found by adding, with no division in a row.
 */
#include "peer.h"

enum { MOST_HALF = 40, FAR_AWAY = 1 << 20 };

/* The greatest whole number that is not above (first + row * slope) / by, for row 0, 1 and so on. */
struct edge {
    int at, rest, by;
    int step, rest_step;
};

/* The first and last v in which there may be dots; in such a row they are the columns from left and from on, up to right and to. */
struct band {
    int first_row, last_row;
    struct edge left, right, from, to;
};

/* Columns of one row; none if the first is above the last. */
struct columns {
    int first, last;
};

struct slanted {
    int x, y, across, down;   /* the upper end, and how far the other is from it */
    bool mirrored;
    int half[MOST_HALF + 1];  /* of a disc, in the row so far from its middle: the dots on each side of the middle */
    int radius;               /* c / 2 rounded down: the last row of a disc */
};

static int floor_of(int number, int by)
{
    return number >= 0 ? number / by : -((-number + by - 1) / by);
}

static struct edge edge_of(int first, int slope, int by)
{
    struct edge e = {floor_of(first, by), 0, by, floor_of(slope, by), 0};

    e.rest = first - e.at * by;
    e.rest_step = slope - e.step * by;
    return e;
}

static struct edge upright_edge(int at)
{
    return edge_of(at, 0, 1);
}

static void step_edge(struct edge *e)
{
    e->at += e->step;
    e->rest += e->rest_step;
    if (e->rest >= e->by) {
        e->rest -= e->by;
        e->at++;
    }
}

static int whole_root(int64_t square)
{
    int64_t root = 0;

    for (int64_t bit = 1 << 18; bit > 0; bit /= 2)
        if ((root + bit) * (root + bit) <= square)
            root += bit;
    return (int)root;
}

/* "Equal ends make a disc": u and v with four times the sum of their squares at most c squared. */
static void measure_disc(struct slanted *s, int thick)
{
    int u = s->radius = thick / 2;

    for (int v = 0; v <= s->radius; v++) {
        while (4 * (u * u + v * v) > thick * thick)
            u--;
        s->half[v] = u;
    }
}

/* The greatest cross product whose square, four times, is at most c squared times the length squared. It is below 2 to the power of 18. */
static int greatest_cross(const struct slanted *s, int thick)
{
    int64_t length_squared = s->across * s->across + s->down * s->down;

    return whole_root(thick * thick * length_squared / 4);
}

/* The band from row v on. Of the dot u,v the cross product is across * v - down * u, and its foot lies on the segment when
 * across * u + down * v is 0 to the length squared. A quotient rounded up is one rounded down with by - 1 added. */
static struct band band_of(const struct slanted *s, int thick, int v)
{
    int across = s->across, down = s->down, cross = greatest_cross(s, thick), all = across * across + down * down;
    struct band b = {-s->radius, down + s->radius, upright_edge(-FAR_AWAY), upright_edge(FAR_AWAY), upright_edge(-FAR_AWAY),
                     upright_edge(FAR_AWAY)};

    if (down > 0) {
        b.left = edge_of(across * v - cross + down - 1, across, down);
        b.right = edge_of(across * v + cross, across, down);
    }
    if (across > 0) {
        b.from = edge_of(-down * v + across - 1, -down, across);
        b.to = edge_of(all - down * v, -down, across);
    } else {  /* as wide as a disc, and of equal ends no more than its middle row */
        b = (struct band){0, down, b.left, b.right, upright_edge(-s->radius), upright_edge(s->radius)};
    }
    return b;
}

static void step_band(struct band *b)
{
    step_edge(&b->left);
    step_edge(&b->right);
    step_edge(&b->from);
    step_edge(&b->to);
}

static void join(struct columns *all, int first, int last)
{
    if (first > last)
        return;
    all->first = first < all->first ? first : all->first;
    all->last = last > all->last ? last : all->last;
}

static void join_band(struct columns *all, const struct band *b, int v)
{
    if (v >= b->first_row && v <= b->last_row)
        join(all, b->left.at > b->from.at ? b->left.at : b->from.at, b->right.at < b->to.at ? b->right.at : b->to.at);
}

/* The disc whose middle is at u, in the row so far from it. */
static void join_disc(struct columns *all, const struct slanted *s, int u, int v)
{
    int row = v < 0 ? -v : v;

    if (row <= s->radius)
        join(all, u - s->half[row], u + s->half[row]);
}

/* "Cut at width and length." */
static void ink_columns(struct paper *p, const struct slanted *s, int v, struct columns c, enum ink ink)
{
    int first = s->mirrored ? s->x - c.last : s->x + c.first, last = s->mirrored ? s->x - c.first : s->x + c.last;

    if (first < 0)
        first = 0;
    if (first <= last)
        draw_box(p, first, s->y + v, last - first + 1, 1, ink);
}

static struct slanted slanted_of(int a, int b, int thick, int d, int e)
{
    struct slanted s = {.x = b <= e ? a : d, .y = b <= e ? b : e, .down = b <= e ? e - b : b - e};
    int other = b <= e ? d : a;

    s.mirrored = other < s.x;
    s.across = s.mirrored ? s.x - other : other - s.x;
    measure_disc(&s, thick);
    return s;
}

void draw_slanted(struct paper *p, int a, int b, int thick, int d, int e, enum ink ink)
{
    struct slanted s = slanted_of(a, b, thick, d, e);
    int v = -s.radius > -s.y ? -s.radius : -s.y;
    int last = s.down + s.radius < p->length - 1 - s.y ? s.down + s.radius : p->length - 1 - s.y;

    for (struct band band = band_of(&s, thick, v); v <= last; v++) {
        struct columns c = {FAR_AWAY, -FAR_AWAY};
        join_disc(&c, &s, 0, v);
        join_disc(&c, &s, s.across, v - s.down);
        join_band(&c, &band, v);
        ink_columns(p, &s, v, c, ink);
        step_band(&band);
    }
}
