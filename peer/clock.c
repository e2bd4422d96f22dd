/* clock.c: date and time. The clock, the call that moves it, the formats, and what they show of it. */
#include <string.h>

#include "peer.h"

enum { A_DAY = 86400 };

const struct formats example_formats = {{DD, '-', ME, '-', Y4}, {HOUR, ':', MINUTE, ':', SECOND}};

/* ---- the clock ---- */

/* Of 2000 to 2099 every fourth year is a leap year, 2000 too. */
unsigned days_of(unsigned year, unsigned month)
{
    static const uint8_t days[] = {31, 28, 31, 30, 31, 30, 31, 31, 30, 31, 30, 31};

    return month == 2 && year % 4 == 0 ? 29 : days[month - 1];
}

bool legal_clock(const struct clock *c)
{
    return c->year <= 99 && c->month >= 1 && c->month <= 12 && c->day >= 1 && c->day <= days_of(c->year, c->month) && c->hour <= 23 && c->minute <= 59
        && c->second <= 59;
}

/* False behind the last day of 2099. */
static bool next_day(struct clock *c)
{
    if (c->day < days_of(c->year, c->month)) {
        c->day++;
        return true;
    }
    if (c->month == 12 && c->year == 99)
        return false;
    c->day = 1;
    if (c->month == 12)
        c->year++;
    c->month = c->month == 12 ? 1 : c->month + 1;
    return true;
}

static void set_time(struct clock *c, uint32_t second)
{
    c->hour = (uint8_t)(second / 3600);
    c->minute = (uint8_t)(second / 60 % 60);
    c->second = (uint8_t)(second % 60);
}

/* So many seconds on, no more than a day has: so at most one day ends on the way. "past the end of 2099 it stands at the last second". */
static void move_clock(struct clock *c, uint32_t seconds)
{
    uint32_t second = c->hour * 3600u + c->minute * 60u + c->second + seconds;

    if (second < A_DAY)
        set_time(c, second);
    else
        set_time(c, next_day(c) ? second - A_DAY : A_DAY - 1);
}

struct clock read_clock(const uint8_t *bytes)
{
    return (struct clock){bytes[0], bytes[1], bytes[2], bytes[3], bytes[4], bytes[5]};
}

void write_clock(const struct clock *c, uint8_t *bytes)
{
    const uint8_t six[] = {c->year, c->month, c->day, c->hour, c->minute, c->second};

    memcpy(bytes, six, sizeof six);
}

/* Of the image only the clock is looked at. "1 (image length), 3 (clock's six numbers are no date and time; nothing else is judged), 7 (above 86,400), in
 * that order." */
uint8_t peer_clock(uint8_t *session, size_t session_len, uint64_t seconds)
{
    struct clock c;

    if (session_len != IMAGE)
        return BAD_LENGTH;
    c = read_clock(session + CLOCK_AT);
    if (!legal_clock(&c))
        return NOT_SOUND;
    if (seconds > A_DAY)
        return OUTSIDE_LIMITS;
    move_clock(&c, (uint32_t)seconds);
    write_clock(&c, session + CLOCK_AT);
    return TAKEN;
}

/* ---- formats ---- */

/* What a field tells, however it is written: year, month or day; hour, minute or second. */
static unsigned told_by(uint8_t field, bool date)
{
    return date ? (field + 1u) / 2 : field;
}

static bool legal_separator(uint8_t byte)
{
    return byte > ' ' && byte <= '~' && byte != '"';
}

/* "A format has 1 to 3 fields; year, month, day (hour, minute, second) each at most once in whatever form". As many fields are there as the last byte that is not
 * 0 calls for. */
static bool legal_format(const uint8_t format[FORMAT], bool date)
{
    unsigned fields = format[4] || format[3] ? 3 : format[2] || format[1] ? 2 : 1, seen = 0;

    for (unsigned i = 0; i < fields; i++) {
        uint8_t field = format[2 * i];
        if (field < 1 || field > (date ? DD : SECOND) || (i > 0 && !legal_separator(format[2 * i - 1])) || (seen & 1u << told_by(field, date)))
            return false;
        seen |= 1u << told_by(field, date);
    }
    return true;
}

bool legal_formats(const struct formats *f)
{
    return legal_format(f->date, true) && legal_format(f->time, false);
}

/* ---- what formats show ---- */

static unsigned two_digits(unsigned number, uint8_t *out)
{
    out[0] = (uint8_t)('0' + number / 10);
    out[1] = (uint8_t)('0' + number % 10);
    return 2;
}

/* "three capital English letters" */
static unsigned month_name(unsigned month, uint8_t *out)
{
    memcpy(out, "JANFEBMARAPRMAYJUNJULAUGSEPOCTNOVDEC" + 3 * (month - 1), 3);
    return 3;
}

/* "Each other field has two digits, or four for the long year." */
static unsigned show_date_field(uint8_t field, const struct clock *c, uint8_t *out)
{
    switch (field) {
    case Y2: return two_digits(c->year, out);
    case Y4: return two_digits(20, out) + two_digits(c->year, out + 2);
    case ME: return month_name(c->month, out);
    case MN: return two_digits(c->month, out);
    default: return two_digits(c->day, out);
    }
}

static unsigned show_time_field(uint8_t field, const struct clock *c, uint8_t *out)
{
    return two_digits(field == HOUR ? c->hour : field == MINUTE ? c->minute : c->second, out);
}

static unsigned show_format(const uint8_t format[FORMAT], const struct clock *c, uint8_t *out,
                            unsigned (*show_field)(uint8_t, const struct clock *, uint8_t *))
{
    unsigned length = show_field(format[0], c, out);

    for (unsigned i = 1; i < FORMAT && format[i] != 0; i += 2) {
        out[length++] = format[i];
        length += show_field(format[i + 1], c, out + length);
    }
    return length;
}

unsigned show_date(const uint8_t format[FORMAT], const struct clock *c, uint8_t *out)
{
    return show_format(format, c, out, show_date_field);
}

unsigned show_time(const uint8_t format[FORMAT], const struct clock *c, uint8_t *out)
{
    return show_format(format, c, out, show_time_field);
}
