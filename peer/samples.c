/* samples.c: every line that one byte changed or a cut makes of a sample, judged by its written form and limits alone.
 *
 *   samples < FILE
 *
 * A line of FILE is a sample, then ` taken ` and anything. For each it writes
 *
 *   SAMPLE taken T form F soon S limit L digest D
 *
 * Judged are, in this order: for each place of the sample, for each byte from 0 to 255, the sample with this byte in this place
 * (an LF is a byte like any other outside 32 to 126); then the first byte of the sample, the first two, and so on up to all but
 * the last. There is no station; 240 rows are lent for Q. A line that is empty or starts with `;` is judged as a command too.
 *
 * T counts the lines without a fault, F those of answer 6 that point into the line, S those that end too soon, L those of
 * answer 7. The digest starts at 0 and for each line becomes (D % 1000003) * 257 + code in 64 bits: code 0 without a fault,
 * 600 + place for answer 6 and 700 + place for answer 7, places above 99 as 99. Two readers that write the same agree on
 * each of these lines. */
#include <inttypes.h>
#include <stdio.h>
#include <string.h>

#include "peer.h"

struct tally {
    uint64_t taken, form, soon, limit, digest;
};

static void judge(struct tally *t, const uint8_t *line, unsigned length)
{
    static struct normal_line normal;
    static struct command c;
    struct verdict v = read_line(line, length, 240, &c, &normal);
    unsigned place = v.place < 99 ? v.place : 99, code = 0;

    switch (v.answer) {
    case NOT_WRITTEN_SO:
        *(v.place < length ? &t->form : &t->soon) += 1;
        code = 600 + place;
        break;
    case OUTSIDE_LIMITS:
        t->limit++;
        code = 700 + place;
        break;
    default: t->taken++; break;
    }
    t->digest = t->digest % 1000003 * 257 + code;
}

static void judge_all(struct tally *t, const char *sample, unsigned length)
{
    uint8_t line[MOST_LINE];

    for (unsigned place = 0; place < length; place++)
        for (unsigned byte = 0; byte < 256; byte++) {
            memcpy(line, sample, length);
            line[place] = (uint8_t)byte;
            judge(t, line, length);
        }
    for (unsigned k = 1; k < length; k++)
        judge(t, (const uint8_t *)sample, k);
}

int main(void)
{
    char line[1024];

    while (fgets(line, sizeof line, stdin)) {
        const char *end = strstr(line, " taken ");
        struct tally t = {0};

        if (!end || end - line > MOST_LINE) {
            fprintf(stderr, "no sample: %s", line);
            return 1;
        }
        judge_all(&t, line, (unsigned)(end - line));
        printf("%.*s taken %" PRIu64 " form %" PRIu64 " soon %" PRIu64 " limit %" PRIu64 " digest %" PRIu64 "\n", (int)(end - line), line,
               t.taken, t.form, t.soon, t.limit, t.digest);
    }
    return 0;
}
