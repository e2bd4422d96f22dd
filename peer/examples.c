/* examples.c: files of commands run on the peer, and what `press` must write on them.
 *
 *   examples FONT-FILE PREFIX FILE ..  > crates/press/stdout
 *
 * All files are one session on 800 rows and the full store. A command that is taken gives a line, a label a line and a picture,
 * PREFIX-0001.pbm and so on. The first command that is refused ends it. */
#include <stdio.h>
#include <stdlib.h>
#include <string.h>

#include "peer.h"

enum { ROWS = 800, PAGE = ROWS * ROW_BYTES, STORE = MOST_PORTIONS * PORTION, DIRECTORY = MOST_ENTRIES * ENTRY, ROOM = 1 << 20 };

static uint8_t image[IMAGE], page[PAGE], background[PAGE], store[STORE], directory[DIRECTORY], values[VALUES];
static uint8_t font[ROOM], input[ROOM], output[ROOM];
static uint16_t links[MOST_PORTIONS];
static size_t font_length;
static unsigned taken, labels;

static size_t read_file(const char *name, uint8_t *bytes)
{
    FILE *f = fopen(name, "rb");

    if (!f) {
        perror(name);
        exit(2);
    }
    size_t length = fread(bytes, 1, ROOM, f);
    fclose(f);
    return length;
}

static void write_picture(const char *name, const struct session *s)
{
    FILE *f = fopen(name, "wb");

    if (!f) {
        perror(name);
        exit(2);
    }
    fprintf(f, "P4\n%u %u\n", s->width, s->length);
    for (unsigned y = 0; y < s->length; y++)
        fwrite(page + y * ROW_BYTES, 1, (s->width + 7) / 8, f);
    fclose(f);
}

static unsigned black_dots(void)
{
    unsigned black = 0;

    for (size_t i = 0; i < PAGE; i++)
        black += (unsigned)__builtin_popcount(page[i]);
    return black;
}

/* The labels that are owed. */
static void draw_labels(const char *prefix)
{
    struct session s;
    char name[4096];

    read_image(image, &s);
    for (unsigned all = s.owed; s.owed > 0;) {
        peer_label(image, IMAGE, font, font_length, page, PAGE, background, PAGE, store, STORE, links, MOST_PORTIONS, directory,
                   DIRECTORY, values, VALUES);
        read_image(image, &s);
        snprintf(name, sizeof name, "%s-%04u.pbm", prefix, ++labels);
        write_picture(name, &s);
        printf("label %u of %u: %s, %u by %u dots, %u black\n", s.drawn, all, name, s.width, s.length, black_dots());
    }
}

/* The command at the front of the input, whose bytes read are the result. */
static size_t run_command(const char *file, unsigned line, const uint8_t *at, size_t length)
{
    uint64_t counts[3] = {0, 0, 0};
    unsigned answer = peer_command(image, IMAGE, counts, 3, font, font_length, background, PAGE, store, STORE, links,
                                   MOST_PORTIONS, directory, DIRECTORY, values, VALUES, output, ROOM, at, length);

    if (answer != TAKEN) {
        fprintf(stderr, "%s: line %u: %u\n", file, line, answer);
        exit(1);
    }
    int shown = (int)((const uint8_t *)memchr(at, '\n', length) - at);
    if (shown > 0 && at[0] != ';') {
        taken++;
        printf("%s: line %u: 0, taken: %.*s\n", file, line, shown, (const char *)at);
        fwrite(output, 1, counts[1], stdout);
    }
    return counts[0];
}

int main(int count, char **word)
{
    if (count < 4) {
        fprintf(stderr, "examples FONT-FILE PREFIX FILE ..\n");
        return 2;
    }
    font_length = read_file(word[1], font);
    peer_open(image, IMAGE, page, PAGE, background, PAGE, store, STORE, links, MOST_PORTIONS, directory, DIRECTORY, values, VALUES);
    for (int i = 3; i < count; i++) {
        size_t length = read_file(word[i], input);
        unsigned line = 1;
        for (size_t at = 0; at < length; line++) {
            at += run_command(word[i], line, input + at, length - at);
            draw_labels(word[2]);
        }
    }
    printf("%u lines taken, 0 refused, %u labels drawn\n", taken, labels);
    return 0;
}
