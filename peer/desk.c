/* desk.c: see desk.h. */
#include "desk.h"

#include <stdio.h>
#include <stdlib.h>
#include <string.h>

#include "peer.h"

const char *const slice_names[SLICES] = {"session", "counts", "font", "page", "background", "store", "links", "directory",
                                         "values", "output", "input"};

const struct station peer_station = {peer_open, peer_command, peer_label, peer_fits, peer_clock, peer_repair};

void clear_away(struct desk *d)
{
    for (int s = 0; s < SLICES; s++)
        free(d->block[s]);
    memset(d, 0, sizeof *d);
}

/* A block is kept when it is big enough already. */
void set_up_desk(struct desk *d, const size_t room[SLICES], uint8_t fill)
{
    for (int s = 0; s < SLICES; s++) {
        if (d->block_size[s] < room[s] + 1) {
            free(d->block[s]);
            d->block_size[s] = room[s] + 1;
            d->block[s] = malloc(d->block_size[s]);
            if (!d->block[s])
                abort();
        }
        d->bytes[s] = d->block[s];
        d->room[s] = room[s];
        memset(d->bytes[s], fill, room[s]);
    }
}

void put_on_desk(struct desk *d, enum slice s, const uint8_t *bytes, size_t length)
{
    d->bytes[s] = d->block[s] + (d->block_size[s] - length);
    d->room[s] = length;
    if (length > 0)
        memcpy(d->bytes[s], bytes, length);
}

uint8_t call_station(const struct station *station, struct desk *d, enum call_kind kind, const size_t length[SLICES])
{
    uint8_t *const *b = d->bytes;
    const size_t *n = length;

    switch (kind) {
    case OPEN:
        return station->open(b[SESSION], n[SESSION], b[PAGE], n[PAGE], b[BACKGROUND], n[BACKGROUND], b[STORE], n[STORE],
                             (uint16_t *)(void *)b[LINKS], n[LINKS], b[DIRECTORY], n[DIRECTORY], b[VALUE], n[VALUE]);
    case COMMAND:
        return station->command(b[SESSION], n[SESSION], (uint64_t *)(void *)b[COUNTS], n[COUNTS], b[FONT], n[FONT],
                                b[BACKGROUND], n[BACKGROUND], b[STORE], n[STORE], (uint16_t *)(void *)b[LINKS], n[LINKS],
                                b[DIRECTORY], n[DIRECTORY], b[VALUE], n[VALUE], b[OUTPUT], n[OUTPUT], b[INPUT], n[INPUT]);
    case FITS:
        return station->fits(b[SESSION], n[SESSION], (const uint16_t *)(const void *)b[LINKS], n[LINKS], b[DIRECTORY], n[DIRECTORY],
                             d->question.kind, b[INPUT], n[INPUT], d->question.size);
    case CLOCK:
        return station->clock(b[SESSION], n[SESSION], d->seconds);
    case REPAIR:
        return station->repair(b[SESSION], n[SESSION], (uint64_t *)(void *)b[COUNTS], n[COUNTS], d->rows, b[STORE], n[STORE],
                               (uint16_t *)(void *)b[LINKS], n[LINKS], b[DIRECTORY], n[DIRECTORY], b[VALUE], n[VALUE], b[OUTPUT], n[OUTPUT]);
    default:
        return station->label(b[SESSION], n[SESSION], b[FONT], n[FONT], b[PAGE], n[PAGE], b[BACKGROUND], n[BACKGROUND],
                              b[STORE], n[STORE], (const uint16_t *)(const void *)b[LINKS], n[LINKS], b[DIRECTORY],
                              n[DIRECTORY], b[VALUE], n[VALUE]);
    }
}

void usual_lengths(size_t length[SLICES], unsigned rows, unsigned portions, unsigned entries, size_t output)
{
    memset(length, 0, SLICES * sizeof length[0]);
    length[SESSION] = IMAGE;
    length[COUNTS] = 3;
    length[PAGE] = length[BACKGROUND] = (size_t)rows * ROW_BYTES;
    length[STORE] = (size_t)portions * PORTION;
    length[LINKS] = portions;
    length[DIRECTORY] = (size_t)entries * ENTRY;
    length[VALUE] = VALUES;
    length[OUTPUT] = output;
}

void usual_room(size_t room[SLICES], const size_t length[SLICES], size_t font, size_t input)
{
    for (int s = 0; s < SLICES; s++)
        room[s] = length[s];
    room[COUNTS] = length[COUNTS] * 8;
    room[LINKS] = length[LINKS] * 2;
    room[FONT] = font;
    room[INPUT] = input;
}

/* 8 dots wide. Its bytes stand for themselves, but as many of the first as are more than whole lines are runs of one. */
size_t write_picture(uint8_t *line, const char *name, size_t name_length, size_t size)
{
    size_t head = (size_t)sprintf((char *)line, "GM\"%.*s\",%zu\n", (int)name_length, name, size), body = size - PICTURE_HEAD;
    size_t row = body > 2 * MOST_ROWS ? 10 : 2, high = body / row;
    uint8_t *picture = line + head;

    memset(picture, 0, size);
    if (size < PICTURE_HEAD + 2)
        return head + size;
    memcpy(picture, (const uint8_t[]){10, 5, 1, 1, 0, 0, 0, 0, 7, 0, (uint8_t)(high - 1), (uint8_t)((high - 1) >> 8)}, 12);
    picture[65] = 1;
    picture[66] = (uint8_t)row;
    for (size_t i = 0; i < body % row; i++)
        picture[PICTURE_HEAD + 2 * i] = 193;
    return head + size;
}
