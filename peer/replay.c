/* replay.c: makes the calls of a file that vectors has written (its format stands in vectors.c) and writes one line for each.
 *
 *   replay INPUT-FILE
 *
 * It runs the peer, so its lines must be those that vectors wrote. It is also the shortest example of a reader of the format. */
#include <inttypes.h>
#include <stdio.h>
#include <stdlib.h>
#include <string.h>

#include "desk.h"
#include "peer.h"

static const enum slice told[] = {SESSION, COUNTS, PAGE, BACKGROUND, STORE, LINKS, DIRECTORY, VALUE, OUTPUT};
static const size_t room[SLICES] = {[SESSION] = IMAGE + 2, [COUNTS] = 32, [FONT] = 65536, [PAGE] = 3192, [BACKGROUND] = 3192,
                                    [STORE] = 4608, [LINKS] = 36, [DIRECTORY] = 96, [VALUE] = 374, [OUTPUT] = 256,
                                    [INPUT] = 65536};

static uint8_t bytes[1 << 20];
static size_t place;

static unsigned next_byte(void)
{
    return bytes[place++];
}

static unsigned next_number(void)
{
    unsigned low = next_byte();

    return low | next_byte() << 8;
}

static uint64_t next_long_number(void)
{
    uint64_t number = 0;

    for (unsigned i = 0; i < 64; i += 8)
        number |= (uint64_t)next_byte() << i;
    return number;
}

static const uint8_t *next_bytes_of(size_t count)
{
    const uint8_t *at = bytes + place;

    place += count;
    return at;
}

static uint32_t digest_of(const struct desk *d)
{
    uint32_t digest = 2166136261u;

    for (unsigned i = 0; i < 9; i++)
        for (size_t k = 0; told[i] != COUNTS && k < room[told[i]]; k++)
            digest = (digest ^ d->bytes[told[i]][k]) * 16777619u;
    return digest;
}

static void new_desk(struct desk *d)
{
    set_up_desk(d, room, (uint8_t)next_byte());
    memset(d->bytes[COUNTS], 0, room[COUNTS]);
}

static void poke(struct desk *d)
{
    unsigned slice = next_byte(), at = next_number();

    d->bytes[slice][at] = (uint8_t)next_byte();
}

static void make_call(struct desk *d, enum call_kind kind, size_t font_length)
{
    static unsigned calls;
    size_t length[SLICES] = {[FONT] = font_length};
    uint64_t counts[3] = {0};
    unsigned answer;

    for (unsigned i = 0; i < 9; i++)
        length[told[i]] = next_number();
    if (kind == FITS) {
        d->question.kind = (uint8_t)next_byte();
        d->question.size = next_long_number();
    }
    if (kind == CLOCK)
        d->seconds = next_long_number();
    if (kind == REPAIR)
        d->rows = next_long_number();
    if (kind == COMMAND || kind == FITS) {
        length[INPUT] = next_number();
        put_on_desk(d, INPUT, next_bytes_of(length[INPUT]), length[INPUT]);
    }
    answer = call_station(&peer_station, d, kind, length);
    if (kind != FITS && kind != CLOCK)
        memcpy(counts, d->bytes[COUNTS], sizeof counts);
    printf("%u %u %" PRIu64 " %" PRIu64 " %" PRIu64 " %08" PRIx32 "\n", ++calls, answer, counts[0], counts[1], counts[2],
           digest_of(d));
}

int main(int argc, char **argv)
{
    static struct desk d;
    size_t length, font_length = 0;
    FILE *f = argc == 2 ? fopen(argv[1], "rb") : NULL;

    if (!f) {
        fprintf(stderr, "replay INPUT-FILE\n");
        return 2;
    }
    length = fread(bytes, 1, sizeof bytes, f);
    fclose(f);
    while (place < length) {
        switch (next_byte()) {
        case 'S': new_desk(&d); break;
        case 'F':
            font_length = next_number();
            put_on_desk(&d, FONT, next_bytes_of(font_length), font_length);
            break;
        case 'K': poke(&d); break;
        case 'O': make_call(&d, OPEN, font_length); break;
        case 'C': make_call(&d, COMMAND, font_length); break;
        case 'L': make_call(&d, LABEL, font_length); break;
        case 'W': make_call(&d, FITS, font_length); break;
        case 'T': make_call(&d, CLOCK, font_length); break;
        case 'R': make_call(&d, REPAIR, font_length); break;
        default: fprintf(stderr, "no such record at %zu\n", place - 1); return 1;
        }
    }
    clear_away(&d);
    return 0;
}
