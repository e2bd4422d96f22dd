/* desk.h: lent memory for one station, so that the same call can be made on two stations, each on its own desk; and a picture to send. */
#ifndef DESK_H
#define DESK_H

#include <stddef.h>
#include <stdint.h>

enum slice { SESSION, COUNTS, FONT, PAGE, BACKGROUND, STORE, LINKS, DIRECTORY, VALUE, OUTPUT, INPUT, SLICES };

extern const char *const slice_names[SLICES];

/* What FITS asks, beside the name. */
struct question {
    uint8_t kind;
    uint64_t size;
};

/* bytes[s] is the slice, room[s] the bytes there are, which may be more than a call is lent. Of FONT and INPUT the last byte
 * is the last of its block, so that reading too far is seen by a checker of memory. For FITS the name is INPUT; for CLOCK seconds are given, for REPAIR rows. */
struct desk {
    uint8_t *bytes[SLICES];
    size_t room[SLICES];
    uint8_t *block[SLICES];
    size_t block_size[SLICES];
    struct question question;
    uint64_t seconds, rows;
};

enum call_kind { OPEN, COMMAND, LABEL, FITS, CLOCK, REPAIR, CALLS };

/* A station: station.h's six calls, or the peer's. */
struct station {
    uint8_t (*open)(uint8_t *, size_t, uint8_t *, size_t, uint8_t *, size_t, uint8_t *, size_t, uint16_t *, size_t, uint8_t *,
                    size_t, uint8_t *, size_t);
    uint8_t (*command)(uint8_t *, size_t, uint64_t *, size_t, const uint8_t *, size_t, uint8_t *, size_t, uint8_t *, size_t,
                       uint16_t *, size_t, uint8_t *, size_t, uint8_t *, size_t, uint8_t *, size_t, const uint8_t *, size_t);
    uint8_t (*label)(uint8_t *, size_t, const uint8_t *, size_t, uint8_t *, size_t, const uint8_t *, size_t, const uint8_t *,
                     size_t, const uint16_t *, size_t, const uint8_t *, size_t, const uint8_t *, size_t);
    uint8_t (*fits)(const uint8_t *, size_t, const uint16_t *, size_t, const uint8_t *, size_t, uint8_t, const uint8_t *, size_t,
                    uint64_t);
    uint8_t (*clock)(uint8_t *, size_t, uint64_t);
    uint8_t (*repair)(uint8_t *, size_t, uint64_t *, size_t, uint64_t, uint8_t *, size_t, uint16_t *, size_t, uint8_t *, size_t, uint8_t *,
                      size_t, uint8_t *, size_t);
};

extern const struct station peer_station;

/* Room for each slice in bytes; everything becomes fill. */
void set_up_desk(struct desk *d, const size_t room[SLICES], uint8_t fill);
void clear_away(struct desk *d);

/* FONT or INPUT gets these bytes. */
void put_on_desk(struct desk *d, enum slice s, const uint8_t *bytes, size_t length);

/* length: of each slice, in elements. */
uint8_t call_station(const struct station *station, struct desk *d, enum call_kind kind, const size_t length[SLICES]);

/* The lengths, in elements, and the room, in bytes, of a desk of so many rows, portions, entries and output bytes. */
void usual_lengths(size_t length[SLICES], unsigned rows, unsigned portions, unsigned entries, size_t output);
void usual_room(size_t room[SLICES], const size_t length[SLICES], size_t font, size_t input);

/* GM with this name and a picture of just so many bytes, legal if they are 130 or more. Gives the length of line and picture. */
size_t write_picture(uint8_t *line, const char *name, size_t name_length, size_t size);

#endif
