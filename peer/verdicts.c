/* verdicts.c: see verdicts.h.
 *
 * Nothing of repair.c is used here. Chains are walked one by one, from each entry, for as many steps as there are portions; a form is legal if a station that is
 * sent its lines records just these bytes, and a picture if it takes it. */
#include "verdicts.h"

#include <stdio.h>
#include <string.h>

const char *const told_words[TELLINGS] = {"", "kept", "name", "chain", "size", "shared", "content"};

static unsigned two_bytes(const uint8_t *bytes)
{
    return bytes[0] + 256u * bytes[1];
}

static uint64_t size_of(const uint8_t *entry)
{
    return two_bytes(entry + 12) + 65536ull * two_bytes(entry + 14);
}

/* ---- the content, read along the chain ---- */

/* The entry's chain is whole and as long as its size calls for. */
static size_t content_of(const struct card *c, const uint8_t *entry, uint8_t *out)
{
    unsigned portion = two_bytes(entry + 10);
    uint64_t size = size_of(entry);

    for (uint64_t i = 0; i < size; i++) {
        if (i > 0 && i % 256 == 0)
            portion = two_bytes(c->links + 2 * portion);
        out[i] = c->store[256 * portion + i % 256];
    }
    return size;
}

/* ---- forms: "normalised lines that recording would take one after another (presence of pictures aside)" ---- */

enum { FEW_PORTIONS = 8 };

/* A station with a page of one row, the picture P and the form A, which is being recorded. */
struct recorder {
    uint8_t session[IMAGE], background[ROW_BYTES], store[FEW_PORTIONS * PORTION], directory[2 * ENTRY], values[VALUES];
    uint16_t links[FEW_PORTIONS];
};

static unsigned send_to(struct recorder *r, const uint8_t *bytes, size_t length)
{
    static const uint8_t font[] = {1, 2, 0, 8, 8, 255, 0, 0};
    uint64_t counts[3];
    uint8_t output[1];

    return peer_command(r->session, IMAGE, counts, 3, font, sizeof font, r->background, ROW_BYTES, r->store, sizeof r->store, r->links, FEW_PORTIONS,
                        r->directory, sizeof r->directory, r->values, VALUES, output, 0, bytes, length);
}

static void begin_recorder(struct recorder *r)
{
    static struct recorder ready;
    static bool is_ready;

    if (!is_ready) {
        uint8_t page[ROW_BYTES], line[300];
        size_t length = write_picture(line, "P", 1, 130);
        peer_open(ready.session, IMAGE, page, ROW_BYTES, ready.background, ROW_BYTES, ready.store, sizeof ready.store, ready.links, FEW_PORTIONS,
                  ready.directory, sizeof ready.directory, ready.values, VALUES);
        send_to(&ready, line, length);
        send_to(&ready, (const uint8_t *)"FS\"A\"\n", 6);
        is_ready = true;
    }
    *r = ready;
}

/* "presence of pictures aside": the picture gets the name that the line draws, if it can be one. */
static void name_picture(struct recorder *r, const uint8_t *line, size_t length)
{
    const uint8_t *quote = memchr(line, '"', length), *end = quote ? memchr(quote + 1, '"', length - (size_t)(quote + 1 - line)) : NULL;
    size_t bytes = end ? (size_t)(end - quote - 1) : 0;

    if (length < 2 || memcmp(line, "GG", 2) != 0 || bytes < 1 || bytes > 8)
        return;
    memset(r->directory + 1, 0, 9);
    r->directory[1] = (uint8_t)bytes;
    memcpy(r->directory + 2, quote + 1, bytes);
}

/* A line with its LF is taken, recording goes on, and the form has grown by just these bytes. */
static bool records(struct recorder *r, const uint8_t *line, size_t length)
{
    uint8_t content[FEW_PORTIONS * PORTION];
    struct card c = {r->store, (uint8_t *)r->links, r->directory, FEW_PORTIONS, 2};
    const uint8_t *form = r->directory + ENTRY;
    uint64_t before = size_of(form);

    if (send_to(r, line, length) != TAKEN || form[0] != RECORDING || size_of(form) != before + length)
        return false;
    content_of(&c, form, content);
    return memcmp(content + before, line, length) == 0;
}

/* What a later line depends on are the declarations, all of them, and the last formats: these are recorded before it, and nothing else. */
static bool form_records(const uint8_t *content, size_t size)
{
    struct recorder declared, r;
    const uint8_t *format[2] = {NULL, NULL};
    size_t format_length[2] = {0, 0};

    begin_recorder(&declared);
    for (size_t from = 0; from < size;) {
        const uint8_t *line = content + from, *lf = memchr(line, '\n', size - from);
        if (!lf)
            return false;
        size_t length = (size_t)(lf - line) + 1;
        r = declared;
        for (unsigned i = 0; i < 2; i++)
            if (format[i] && !records(&r, format[i], format_length[i]))
                return false;
        name_picture(&r, line, length);
        if (!records(&r, line, length))
            return false;
        if ((line[0] == 'V' || line[0] == 'C') && !records(&declared, line, length))
            return false;
        if (line[0] == 'T') {
            format[line[1] == 'D'] = line;
            format_length[line[1] == 'D'] = length;
        }
        from += length;
    }
    return true;
}

/* ---- pictures: those that GM takes ---- */

static bool picture_is_taken(const uint8_t *content, size_t size)
{
    static uint8_t store[MOST_PICTURE], line[MOST_PICTURE + 100], page[ROW_BYTES], background[ROW_BYTES], directory[ENTRY], values[VALUES];
    static uint16_t links[MOST_PICTURE / PORTION];
    static const uint8_t font[] = {1, 2, 0, 8, 8, 255, 0, 0};
    size_t portions = (size + 255) / 256 + (size == 0), head = (size_t)sprintf((char *)line, "GM\"A\",%zu\n", size);
    uint8_t session[IMAGE], output[1];
    uint64_t counts[3];

    memcpy(line + head, content, size);
    peer_open(session, IMAGE, page, ROW_BYTES, background, ROW_BYTES, store, portions * PORTION, links, portions, directory, ENTRY, values, VALUES);
    return peer_command(session, IMAGE, counts, 3, font, sizeof font, background, ROW_BYTES, store, portions * PORTION, links, portions, directory, ENTRY,
                        values, VALUES, output, 0, line, head + size) == TAKEN;
}

/* ---- the reasons, one by one ---- */

/* "kind above 3; length not 1 to 8; an illegal or small letter; fill not zero" */
static bool wrong_name(const uint8_t *entry)
{
    static const char legal[] = " !#$%&'()+,-./0123456789:;<=>?@ABCDEFGHIJKLMNOPQRSTUVWXYZ[\\]^_`{|}~";

    if (entry[0] > 3 || entry[1] == 0 || entry[1] > 8)
        return true;
    for (unsigned i = 0; i < 8; i++) {
        uint8_t byte = entry[2 + i];
        if (i < entry[1] ? byte == 0 || !strchr(legal, byte) : byte != 0)
            return true;
    }
    return false;
}

/* "a name that an earlier kept entry of its kind has (3 counts as 1)" */
static bool kept_name(const struct card *c, const struct telling *t, unsigned i)
{
    const uint8_t *entry = c->directory + 16 * i;
    unsigned kind = entry[0] == 3 ? 1 : entry[0];

    for (unsigned k = 0; k < i; k++)
        if (t->of[k] == TOLD_KEPT && c->directory[16 * k] == kind && memcmp(c->directory + 16 * k + 1, entry + 1, 9) == 0)
            return true;
    return false;
}

/* The number of portions of the chain, or 0 where the walk goes wrong: "the first portion or a link is no portion number (65534 as first, too), a link on the way is free, or a
 * portion comes twice". A walk of more steps than there are portions has met one twice. */
static unsigned walk(const struct card *c, const uint8_t *entry)
{
    unsigned at = two_bytes(entry + 10), steps = 0;

    do {
        if (at >= c->portions || steps == c->portions)
            return 0;
        at = two_bytes(c->links + 2 * at);
        steps++;
    } while (at != 65534);
    return steps;
}

/* "portions not max(1, size/256 rounded up); a picture above 32,768" */
static bool wrong_size(const uint8_t *entry, unsigned portions)
{
    uint64_t size = size_of(entry);
    bool right = size == 0 ? portions == 1 : size <= 256ull * portions && size > 256ull * (portions - 1);

    return !right || (entry[0] == 2 && size > 32768);
}

static bool meets(const struct card *c, const uint8_t *entry, const bool *held)
{
    for (unsigned at = two_bytes(entry + 10); at != 65534; at = two_bytes(c->links + 2 * at))
        if (held[at])
            return true;
    return false;
}

static void hold(const struct card *c, const uint8_t *entry, bool *held)
{
    for (unsigned at = two_bytes(entry + 10); at != 65534; at = two_bytes(c->links + 2 * at))
        held[at] = true;
}

/* "kind 3; a form that is not legal (pictures present or not), a picture that is not" */
static bool wrong_content(const struct card *c, const uint8_t *entry)
{
    static uint8_t content[MOST_PORTIONS * PORTION];
    size_t size;

    if (entry[0] == 3)
        return true;
    size = content_of(c, entry, content);
    return entry[0] == 1 ? !form_records(content, size) : !picture_is_taken(content, size);
}

static unsigned tell_entry(const struct card *c, const struct telling *t, const bool *held, unsigned i)
{
    const uint8_t *entry = c->directory + 16 * i;
    unsigned portions;

    if (entry[0] == 0)
        return TOLD_NOTHING;
    if (wrong_name(entry) || kept_name(c, t, i))
        return TOLD_NAME;
    portions = walk(c, entry);
    if (portions == 0)
        return TOLD_CHAIN;
    if (wrong_size(entry, portions))
        return TOLD_SIZE;
    if (meets(c, entry, held))
        return TOLD_SHARED;
    return wrong_content(c, entry) ? TOLD_CONTENT : TOLD_KEPT;
}

/* "one line for each entry not of kind 0, in directory order: its number from 0, a space, and" the word; "Each line of the list ends in LF." */
void tell_verdicts(const struct card *c, struct telling *t)
{
    bool held[MOST_PORTIONS] = {false};

    t->length = 0;
    for (unsigned i = 0; i < c->entries; i++) {
        t->of[i] = (uint8_t)tell_entry(c, t, held, i);
        if (t->of[i] == TOLD_KEPT)
            hold(c, c->directory + 16 * i, held);
        if (t->of[i] != TOLD_NOTHING)
            t->length += (size_t)sprintf(t->list + t->length, "%u %s\n", i, told_words[t->of[i]]);
    }
}

struct card card_on(const struct desk *d, const size_t length[SLICES])
{
    return (struct card){d->bytes[STORE], d->bytes[LINKS], d->bytes[DIRECTORY], (unsigned)length[LINKS], (unsigned)(length[DIRECTORY] / ENTRY)};
}

/* ---- what a repair owes ---- */

bool repair_lengths_right(const size_t length[SLICES], uint64_t rows)
{
    size_t portions = length[LINKS], entries = length[DIRECTORY] / 16;

    return length[SESSION] == 83 && length[COUNTS] == 3 && rows != 0 && rows <= 4000 && portions != 0 && portions <= 2024 && length[STORE] == 256 * portions
        && entries != 0 && entries <= 512 && length[DIRECTORY] == 16 * entries && length[VALUE] == 340;
}

static bool all_zero(const uint8_t *bytes, size_t count)
{
    for (size_t i = 0; i < count; i++)
        if (bytes[i] != 0)
            return false;
    return true;
}

/* From a byte of the slice on, to the end of its room. */
static bool same_from(const struct desk *one, const struct desk *other, enum slice s, size_t from)
{
    return one->room[s] <= from || memcmp(one->bytes[s] + from, other->bytes[s] + from, one->room[s] - from) == 0;
}

/* A refusal changes nothing but the counts, if there are three. */
static const char *refusal_fault(const struct desk *before, const struct desk *after, const size_t length[SLICES])
{
    for (int s = 0; s < SLICES; s++)
        if (s != FONT && s != INPUT && !same_from(before, after, (enum slice)s, s == COUNTS && length[COUNTS] == 3 ? 24 : 0))
            return "a refusal has changed something";
    if (length[COUNTS] == 3 && !all_zero(after->bytes[COUNTS], 24))
        return "a refusal has counts that are not 0";
    return NULL;
}

/* Beyond what was lent, and in what was not lent, nothing is changed. */
static const char *reach_fault(const struct desk *before, const struct desk *after, const size_t length[SLICES], size_t written)
{
    const size_t lent[SLICES] = {[SESSION] = IMAGE, [COUNTS] = 24, [STORE] = length[STORE], [LINKS] = 2 * length[LINKS], [DIRECTORY] = length[DIRECTORY],
                                 [VALUE] = VALUES, [OUTPUT] = written};

    for (int s = 0; s < SLICES; s++)
        if (s != FONT && s != INPUT && !same_from(before, after, (enum slice)s, lent[s]))
            return "bytes are changed that were not lent, or behind the list";
    return NULL;
}

/* "the session as opening leaves it ... with §6's number" */
static bool image_fresh(const uint8_t *image, uint64_t rows, unsigned number)
{
    static const uint8_t moment[] = {0, 1, 1, 0, 0, 0, 5, '-', 3, '-', 2, 1, ':', 2, ':', 3};
    const uint8_t head[] = {608 % 256, 608 / 256, (uint8_t)(rows % 256), (uint8_t)(rows / 256), 0, 0, 0, 0, 0, 255, 255};

    return memcmp(image, head, sizeof head) == 0 && all_zero(image + 11, 54) && two_bytes(image + 65) == number && memcmp(image + 67, moment, sizeof moment) == 0;
}

static unsigned marked_free(const struct card *c)
{
    unsigned number = 0;

    for (unsigned i = 0; i < c->portions; i++)
        number += two_bytes(c->links + 2 * i) == 65535;
    return number;
}

/* Kept entries and their chains and contents are as they were, all others zero; no portion but theirs is taken or holds anything, and behind their contents there are zeros. */
static const char *store_fault(const struct card *before, const struct card *after, const struct telling *t)
{
    bool held[MOST_PORTIONS] = {false};

    for (unsigned i = 0; i < before->entries; i++) {
        const uint8_t *was = before->directory + 16 * i, *is = after->directory + 16 * i;
        uint64_t left = size_of(was);
        if (t->of[i] != TOLD_KEPT && !all_zero(is, 16))
            return "an entry that was not kept is not zero";
        if (t->of[i] == TOLD_KEPT && memcmp(was, is, 16) != 0)
            return "a kept entry is not what it was";
        for (unsigned at = t->of[i] == TOLD_KEPT ? two_bytes(was + 10) : 65534; at != 65534; at = two_bytes(before->links + 2 * at)) {
            size_t part = left < 256 ? left : 256;
            if (two_bytes(before->links + 2 * at) != two_bytes(after->links + 2 * at) || memcmp(before->store + 256 * at, after->store + 256 * at, part) != 0)
                return "the content of a kept entry is not what it was";
            if (!all_zero(after->store + 256 * at + part, 256 - part))
                return "there are bytes behind the content of a kept entry";
            held[at] = true;
            left -= part;
        }
    }
    for (unsigned i = 0; i < before->portions; i++)
        if (!held[i] && (two_bytes(after->links + 2 * i) != 65535 || !all_zero(after->store + 256 * i, 256)))
            return "a portion that no kept entry has is not free and zero";
    return NULL;
}

static bool sound_with_white(const struct card *c, uint8_t *values, uint64_t rows, const struct session *s)
{
    static uint8_t white[MOST_ROWS * ROW_BYTES];
    struct memory m = {white, (unsigned)rows, c->store, (uint16_t *)(void *)c->links, c->portions, c->directory, c->entries, values};
    struct facts f;

    return sound(&m, s, &f) && f.recording == NOT_THERE;
}

/* The memory before was sound, for a session as opening leaves it with the number that belongs there, and nothing was being recorded. */
static bool was_sound(const struct card *c, uint64_t rows)
{
    static uint8_t no_values[VALUES];
    struct session s = {.width = 608, .length = (uint16_t)rows, .active = NO_FORM, .free_portions = (uint16_t)marked_free(c), .clock = {0, 1, 1, 0, 0, 0}, .formats = example_formats};

    return sound_with_white(c, no_values, rows, &s);
}

static bool all_kept(const struct telling *t, unsigned entries)
{
    for (unsigned i = 0; i < entries; i++)
        if (t->of[i] != TOLD_NOTHING && t->of[i] != TOLD_KEPT)
            return false;
    return true;
}

/* Of a list that is just long enough: the numbers of the entries that are left, each kept. */
static size_t kept_list(const struct telling *t, unsigned entries, char *list)
{
    size_t length = 0;

    for (unsigned i = 0; i < entries; i++)
        if (t->of[i] == TOLD_KEPT)
            length += (size_t)sprintf(list + length, "%u kept\n", i);
    return length;
}

/* Repaired again, nothing moves. */
static const char *again_fault(const struct desk *after, const size_t length[SLICES], uint64_t rows, const struct telling *t)
{
    static uint8_t store[MOST_PORTIONS * PORTION], directory[MOST_ENTRIES * ENTRY], output[16 * MOST_ENTRIES];
    static uint16_t links[MOST_PORTIONS];
    static char list[16 * MOST_ENTRIES];
    uint8_t image[IMAGE], values[VALUES];
    size_t wanted = kept_list(t, (unsigned)(length[DIRECTORY] / ENTRY), list);
    uint64_t counts[3];

    memcpy(store, after->bytes[STORE], length[STORE]);
    memcpy(links, after->bytes[LINKS], 2 * length[LINKS]);
    memcpy(directory, after->bytes[DIRECTORY], length[DIRECTORY]);
    memcpy(values, after->bytes[VALUE], VALUES);
    memset(image, 0x5a, IMAGE);
    if (peer_repair(image, IMAGE, counts, 3, rows, store, length[STORE], links, length[LINKS], directory, length[DIRECTORY], values, VALUES, output, wanted) != TAKEN)
        return "a second repair is refused, with output for a list of `kept` alone";
    if (counts[1] != wanted || memcmp(output, list, wanted) != 0)
        return "a second repair does not list what the first one kept, each as kept";
    if (memcmp(image, after->bytes[SESSION], IMAGE) != 0 || memcmp(store, after->bytes[STORE], length[STORE]) != 0
        || memcmp(links, after->bytes[LINKS], 2 * length[LINKS]) != 0 || memcmp(directory, after->bytes[DIRECTORY], length[DIRECTORY]) != 0
        || memcmp(values, after->bytes[VALUE], VALUES) != 0)
        return "a second repair has changed something";
    return NULL;
}

const char *repair_fault(const struct desk *before, const struct desk *after, const size_t length[SLICES], uint64_t rows, unsigned answer,
                         const struct telling *t)
{
    bool right = repair_lengths_right(length, rows);
    unsigned due = !right ? BAD_LENGTH : t->length > length[OUTPUT] ? OUTPUT_TOO_SHORT : TAKEN;
    const char *fault;
    struct session s;
    uint64_t counts[3];

    if (answer != due)
        return "another answer was due";
    if (answer != TAKEN)
        return refusal_fault(before, after, length);
    struct card was = card_on(before, length), is = card_on(after, length);
    memcpy(counts, after->bytes[COUNTS], sizeof counts);
    if (counts[0] != 0 || counts[1] != t->length || counts[2] != 0)
        return "the counts are not 0, the length of the list, 0";
    if (memcmp(after->bytes[OUTPUT], t->list, t->length) != 0)
        return "the list is not what is told of the entries";
    if (!image_fresh(after->bytes[SESSION], rows, marked_free(&is)))
        return "the session is not as opening leaves it, or its number is not that of the free links";
    if (!all_zero(after->bytes[VALUE], VALUES))
        return "a value is not zero";
    read_image(after->bytes[SESSION], &s);
    if (!sound_with_white(&is, after->bytes[VALUE], rows, &s))
        return "what is left is not sound with a white background";
    if (was_sound(&was, rows)
        && (!all_kept(t, was.entries) || memcmp(was.store, is.store, length[STORE]) != 0 || memcmp(was.links, is.links, 2 * length[LINKS]) != 0
            || memcmp(was.directory, is.directory, length[DIRECTORY]) != 0))
        return "the store was sound and did not stay as it was";
    if ((fault = reach_fault(before, after, length, t->length)) || (fault = store_fault(&was, &is, t)))
        return fault;
    return again_fault(after, length, rows, t);
}
