/* reading.c: see reading.h. */
#include "reading.h"

#include <string.h>

/* The eleven modules of each value, the first one highest, a 1 for a bar; and the stop's thirteen. */
static const uint16_t patterns[106] = {
    0x6cc, 0x66c, 0x666, 0x498, 0x48c, 0x44c, 0x4c8, 0x4c4, 0x464, 0x648, 0x644, 0x624, 0x59c, 0x4dc, 0x4ce, 0x5cc, 0x4ec, 0x4e6, 0x672, 0x65c, 0x64e, 0x6e4, 0x674, 0x76e,
    0x74c, 0x72c, 0x726, 0x764, 0x734, 0x732, 0x6d8, 0x6c6, 0x636, 0x518, 0x458, 0x446, 0x588, 0x468, 0x462, 0x688, 0x628, 0x622, 0x5b8, 0x58e, 0x46e, 0x5d8, 0x5c6, 0x476,
    0x776, 0x68e, 0x62e, 0x6e8, 0x6e2, 0x6ee, 0x758, 0x746, 0x716, 0x768, 0x762, 0x71a, 0x77a, 0x642, 0x78a, 0x530, 0x50c, 0x4b0, 0x486, 0x42c, 0x426, 0x590, 0x584, 0x4d0,
    0x4c2, 0x434, 0x432, 0x612, 0x650, 0x7ba, 0x614, 0x47a, 0x53c, 0x4bc, 0x49e, 0x5e4, 0x4f4, 0x4f2, 0x7a4, 0x794, 0x792, 0x6de, 0x6f6, 0x7b6, 0x578, 0x51e, 0x45e, 0x5e8,
    0x5e2, 0x7a8, 0x7a2, 0x5de, 0x5ee, 0x75e, 0x7ae, 0x684, 0x690, 0x69c};
enum { STOP = 0x18eb, NO_VALUE = 255, SET_C_NEXT = 99, SET_B_NEXT = 100, BEGIN_B = 104, BEGIN_C = 105 };

static unsigned value_of(unsigned modules)
{
    for (unsigned v = 0; v < 106; v++)
        if (patterns[v] == modules)
            return v;
    return NO_VALUE;
}

/* So many elements as modules in a row of bits, or 0 if one is no whole number of modules. */
static unsigned modules_of(const uint8_t *widths, unsigned elements, unsigned narrow)
{
    unsigned modules = 0;

    for (unsigned i = 0; i < elements; i++) {
        unsigned wide = widths[i] / narrow;
        if (widths[i] % narrow != 0 || wide == 0 || wide > 4)
            return 0;
        modules = modules << wide | (i % 2 == 0 ? (1u << wide) - 1 : 0);
    }
    return modules;
}

/* Every value between the start and the check, as the set that holds there reads it. */
static bool values_to_data(struct reading *r)
{
    bool in_c = r->value[0] == BEGIN_C;

    if (!in_c && r->value[0] != BEGIN_B)
        return false;
    for (unsigned i = 1; i < r->count; i++) {
        unsigned v = r->value[i];
        if (v == (in_c ? SET_B_NEXT : SET_C_NEXT))
            in_c = !in_c;
        else if (v > (in_c ? 99 : 94))
            return false;
        else if (in_c) {
            r->data[r->length++] = (uint8_t)('0' + v / 10);
            r->data[r->length++] = (uint8_t)('0' + v % 10);
        } else
            r->data[r->length++] = (uint8_t)(v + 32);
    }
    return true;
}

bool read_bars(const uint8_t *widths, unsigned count, unsigned narrow, struct reading *r)
{
    unsigned symbols = count / 6, sum = 0;

    memset(r, 0, sizeof *r);
    if (count % 6 != 1 || symbols < 4 || symbols > MOST_VALUES || modules_of(widths + count - 7, 7, narrow) != STOP)
        return false;
    for (unsigned i = 0; i + 1 < symbols; i++) {
        unsigned v = value_of(modules_of(widths + 6 * i, 6, narrow));
        if (v == NO_VALUE)
            return false;
        r->value[i] = (uint8_t)v;
    }
    r->count = symbols - 2;
    r->check = r->value[r->count];
    for (unsigned i = 0; i < r->count; i++)
        sum = (sum + r->value[i] * (i > 0 ? i : 1)) % 103;
    return r->check == sum && values_to_data(r);
}

static bool black_at(const uint8_t *row, unsigned x)
{
    return row[x / 8] >> (7 - x % 8) & 1;
}

unsigned row_widths(const uint8_t *row, unsigned width, uint8_t *widths, unsigned *first)
{
    unsigned count = 0, x = 0;

    while (width > 0 && !black_at(row, width - 1))
        width--;
    while (x < width && !black_at(row, x))
        x++;
    *first = x;
    for (; x < width; x++) {
        if (x == *first || black_at(row, x) != black_at(row, x - 1))
            widths[count++] = 0;
        widths[count - 1]++;
    }
    return count;
}

unsigned changes_of_set(const struct reading *r)
{
    bool in_c = r->value[0] == BEGIN_C;
    unsigned changes = 0;

    for (unsigned i = 1; i < r->count; i++)
        if (r->value[i] == (in_c ? SET_B_NEXT : SET_C_NEXT)) {
            in_c = !in_c;
            changes++;
        }
    return changes;
}

/* ---- row by row ---- */

static unsigned digits_from(const uint8_t *data, unsigned length, unsigned at)
{
    unsigned n = 0;

    while (at + n < length && data[at + n] >= '0' && data[at + n] <= '9')
        n++;
    return n;
}

/* Of a row of n digits n/2 symbols are saved. A change before it costs one unless the row is at the front, where the start itself is of set C if no odd digit goes
 * before the pairs; a change behind it costs one unless the row is at the end. Only what saves more than it costs is written in set C: from 2 digits on if they are
 * all there is, and not 3, from 4 with a byte on one side, from 6 with bytes on both. */
static bool in_pairs(unsigned n, bool front, bool end)
{
    return front && end ? n == 2 || n > 3 : front || end ? n > 3 : n > 5;
}

/* An odd digit stands before the pairs, in set B, because it is a smaller value than the change; but at the front with more bytes behind the row it stands behind
 * the pairs, because only so the change before them is saved. Gives how many digits are written. */
static unsigned write_pairs(const uint8_t *row, unsigned n, bool front, bool end, uint8_t *values, unsigned *count)
{
    unsigned at = 0;

    if (n % 2 == 1 && (!front || end))
        values[(*count)++] = (uint8_t)(row[at++] - 32);
    if (*count == 1)
        values[0] = BEGIN_C;
    else
        values[(*count)++] = SET_C_NEXT;
    for (; at + 1 < n; at += 2)
        values[(*count)++] = (uint8_t)((row[at] - '0') * 10 + row[at + 1] - '0');
    if (!end)
        values[(*count)++] = SET_B_NEXT;
    return at;
}

/* What is left of a row behind its first digit has never more reason to be written in pairs than the row had. */
unsigned write_by_rows(const uint8_t *data, unsigned length, uint8_t *values)
{
    unsigned count = 1;

    values[0] = BEGIN_B;
    for (unsigned at = 0; at < length;) {
        unsigned n = digits_from(data, length, at);
        bool front = at == 0, end = at + n == length;
        if (in_pairs(n, front, end))
            at += write_pairs(data + at, n, front, end, values, &count);
        else
            values[count++] = (uint8_t)(data[at++] - 32);
    }
    return count;
}
