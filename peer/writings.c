/* writings.c: see writings.h. */
#include "writings.h"

#include <stdbool.h>
#include <string.h>

static bool pair_at(const uint8_t *data, unsigned length, unsigned at)
{
    return at + 2 <= length && strchr("0123456789", data[at]) && strchr("0123456789", data[at + 1]);
}

static uint8_t pair_value(const uint8_t *data, unsigned at)
{
    return (uint8_t)(10 * (data[at] - '0') + (data[at + 1] - '0'));
}

/* ---- all writings ---- */

struct search {
    const uint8_t *data;
    unsigned length, most, best_count;
    uint8_t now[MOST_WRITTEN + 1], best[MOST_WRITTEN + 1];
    uint64_t made;
};

/* "no other writing .. has fewer symbols; among equals, the one whose first differing symbol value is smaller" */
static void hold_against_best(struct search *s, unsigned count)
{
    s->made++;
    if (s->best_count > 0 && (count > s->best_count || (count == s->best_count && memcmp(s->now, s->best, count) >= 0)))
        return;
    memcpy(s->best, s->now, count);
    s->best_count = count;
}

/* Every symbol that may come next is tried: the change of set at any place, behind the last byte and behind another change too. */
static void go_on(struct search *s, unsigned at, unsigned count, bool in_c)
{
    if (at == s->length)
        hold_against_best(s, count);
    if (count == s->most)
        return;
    s->now[count] = in_c ? 100 : 99;
    go_on(s, at, count + 1, !in_c);
    if (in_c && pair_at(s->data, s->length, at)) {
        s->now[count] = pair_value(s->data, at);
        go_on(s, at + 2, count + 1, true);
    }
    if (!in_c && at < s->length) {
        s->now[count] = (uint8_t)(s->data[at] - 32);
        go_on(s, at + 1, count + 1, false);
    }
}

/* Set B alone has a start and a value for each byte, so no writing of more values is the least. */
unsigned least_of_all(const uint8_t *data, unsigned length, uint8_t *values, uint64_t *made)
{
    struct search s = {.data = data, .length = length, .most = length + 1};

    s.now[0] = 104;
    go_on(&s, 0, 1, false);
    s.now[0] = 105;
    go_on(&s, 0, 1, true);
    memcpy(values, s.best, s.best_count);
    *made += s.made;
    return s.best_count;
}

/* ---- lists ---- */

/* Of all lists of so many values that write the data up to a byte and end in a set, the least: what follows is the same behind each of them. */
struct lists {
    bool there[MOST_WRITTEN + 1][2];
    uint8_t list[MOST_WRITTEN + 1][2][MOST_WRITTEN + 2];
};

static void lengthen(struct lists *to, unsigned at, unsigned set, const uint8_t *list, unsigned count, unsigned value)
{
    uint8_t longer[MOST_WRITTEN + 2];

    memcpy(longer, list, count);
    longer[count] = (uint8_t)value;
    if (to->there[at][set] && memcmp(to->list[at][set], longer, count + 1) <= 0)
        return;
    to->there[at][set] = true;
    memcpy(to->list[at][set], longer, count + 1);
}

/* All lists of one value more. */
static void lengthen_all(struct lists *to, const struct lists *from, const uint8_t *data, unsigned length, unsigned count)
{
    memset(to->there, 0, sizeof to->there);
    for (unsigned at = 0; at <= length; at++) {
        const uint8_t *b = from->list[at][0], *c = from->list[at][1];
        if (from->there[at][0])
            lengthen(to, at, 1, b, count, 99);
        if (from->there[at][0] && at < length)
            lengthen(to, at + 1, 0, b, count, data[at] - 32u);
        if (from->there[at][1])
            lengthen(to, at, 0, c, count, 100);
        if (from->there[at][1] && pair_at(data, length, at))
            lengthen(to, at + 2, 1, c, count, pair_value(data, at));
    }
}

unsigned least_of_lists(const uint8_t *data, unsigned length, uint8_t *values)
{
    static struct lists layers[2];
    struct lists *now = &layers[0], *next = &layers[1];
    unsigned count = 1;

    memset(now->there, 0, sizeof now->there);
    lengthen(now, 0, 0, values, 0, 104);
    lengthen(now, 0, 1, values, 0, 105);
    for (; !now->there[length][0] && !now->there[length][1]; count++) {
        struct lists *was = now;
        lengthen_all(next, now, data, length, count);
        now = next;
        next = was;
    }
    memcpy(values, now->list[length][now->there[length][0] ? 0 : 1], count);
    if (now->there[length][0] && now->there[length][1] && memcmp(now->list[length][1], values, count) < 0)
        memcpy(values, now->list[length][1], count);
    return count;
}
