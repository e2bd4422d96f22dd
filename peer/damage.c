/* damage.c: stores that come back from a bad card, repaired by the station and by the peer, each on its own desk.
 *
 *   damage STORES FIRST-SEED
 *
 * Each store is filled by a session or made directly, then damaged in up to four ways, or not at all, and repaired. Answer, counts, session and every byte must be the same, those beyond what
 * was lent too; and of the peer alone it is asked what verdicts.h tells of a repair. Each store has its own seed, one more than the store's before it, so `damage 1 SEED` makes one of them again. At the first
 * difference it is told and the run ends. At the end: how often each answer was given, what became of the entries, and how often each kind of damage was done and how many stores it left not sound. With
 * -DSELF the station is the peer again. */
#include <inttypes.h>
#include <stdio.h>
#include <stdlib.h>
#include <string.h>

#include "desk.h"
#include "peer.h"
#include "station.h"
#include "stores.h"
#include "verdicts.h"

#ifdef SELF
static const struct station the_station = {peer_open, peer_command, peer_label, peer_fits, peer_clock, peer_repair};
#else
static const struct station the_station = {station_open, station_command, station_label, station_fits, station_clock, station_repair};
#endif

enum { BEYOND_PORTIONS = 2, BEYOND_ENTRIES = 2 };

/* One store and what is to be done to it. */
struct trial {
    uint64_t seed, state, rows;
    struct desk station, peer, before;
    size_t length[SLICES];
    struct telling told;
    bool whole, by_session;
    unsigned damages[CARD_DAMAGES];
};

static uint64_t answers[ANSWERS], verdicts[TELLINGS], done[CARD_DAMAGES], undone[CARD_DAMAGES], whole_stores, by_session, all_kept, exact, greatest;

static unsigned below(struct trial *t, unsigned n)
{
    return (unsigned)(next_chance(&t->state) % n);
}

static unsigned between(struct trial *t, unsigned least, unsigned most)
{
    return least + below(t, most - least + 1);
}

static bool chance(struct trial *t, unsigned in_hundred)
{
    return below(t, 100) < in_hundred;
}

/* ---- a store ---- */

/* Mostly few portions and entries; rarely as many as there may be. */
static void choose_sizes(struct trial *t, unsigned *portions, unsigned *entries)
{
    *portions = chance(t, 60) ? between(t, 1, 12) : between(t, 1, 64);
    *entries = chance(t, 85) ? between(t, 1, 8) : between(t, 1, 40);
    if (below(t, 150) == 0) {
        *portions = between(t, 120, 400);
        *entries = between(t, 1, 60);
    }
    if (below(t, 3000) == 0) {
        *portions = chance(t, 70) ? MOST_PORTIONS : between(t, 1000, MOST_PORTIONS);
        *entries = chance(t, 70) ? MOST_ENTRIES : between(t, 1, MOST_ENTRIES);
    }
}

/* There is no page: none is lent. */
static void lay_out(struct trial *t)
{
    size_t room[SLICES];
    unsigned portions, entries;

    choose_sizes(t, &portions, &entries);
    usual_lengths(t->length, 0, portions, entries, 14 * entries + 8);
    usual_room(room, t->length, 8, 8);
    room[SESSION] += 2;
    room[COUNTS] += 8;
    room[STORE] += BEYOND_PORTIONS * PORTION;
    room[LINKS] += 2 * BEYOND_PORTIONS;
    room[DIRECTORY] += BEYOND_ENTRIES * ENTRY;
    room[VALUE] += FIELD;
    set_up_desk(&t->peer, room, (uint8_t)next_chance(&t->state));
    set_up_desk(&t->station, room, 0);
    set_up_desk(&t->before, room, 0);
}

static unsigned send_line(const struct trial *t, uint8_t *background, const uint8_t *line, size_t length)
{
    static const uint8_t font[] = {1, 2, 0, 8, 8, 255, 0, 0};
    uint8_t *const *b = t->peer.bytes;

    return peer_command(b[SESSION], IMAGE, (uint64_t *)(void *)b[COUNTS], 3, font, sizeof font, background, ROW_BYTES, b[STORE], t->length[STORE],
                        (uint16_t *)(void *)b[LINKS], t->length[LINKS], b[DIRECTORY], t->length[DIRECTORY], b[VALUE], VALUES, b[OUTPUT], t->length[OUTPUT], line, length);
}

/* A form is sent, line by line as it is made; what is refused is not in it. Now and then it stays without its FE. */
static void send_form(struct trial *t, uint8_t *background, const char *name)
{
    uint8_t content[2000], line[32];
    size_t size = make_form(&t->state, content, below(t, chance(t, 80) ? 200 : 900), chance(t, 30), chance(t, 10)), from = 0;

    send_line(t, background, line, (size_t)sprintf((char *)line, "FS\"%s\"\n", name));
    while (from < size) {
        const uint8_t *lf = memchr(content + from, '\n', size - from);
        if (!lf)
            break;
        send_line(t, background, content + from, (size_t)(lf + 1 - content) - from);
        from = (size_t)(lf + 1 - content);
    }
    if (chance(t, 95))
        send_line(t, background, (const uint8_t *)"FE\n", 3);
}

/* Forms and pictures sent and erased, as far as there is room. */
static void make_by_session(struct trial *t)
{
    static const char *const names[] = {"A", "B", "P", "LOGO1", "x", "Test", "12345678"};
    uint8_t page[ROW_BYTES], background[ROW_BYTES], line[1200];
    uint8_t *const *b = t->peer.bytes;

    peer_open(b[SESSION], IMAGE, page, ROW_BYTES, background, ROW_BYTES, b[STORE], t->length[STORE], (uint16_t *)(void *)b[LINKS], t->length[LINKS], b[DIRECTORY],
              t->length[DIRECTORY], b[VALUE], VALUES);
    for (unsigned i = between(t, 1, 8); i > 0; i--) {
        const char *name = names[below(t, 7)];
        size_t length;
        switch (below(t, 5)) {
        case 0: case 1: send_form(t, background, name); break;
        case 2: case 3:
            length = write_picture(line, name, strlen(name), between(t, 130, chance(t, 60) ? 300 : 1000));
            send_line(t, background, line, length);
            break;
        default: send_line(t, background, line, (size_t)sprintf((char *)line, "%cK\"%s\"\n", chance(t, 50) ? 'F' : 'G', name)); break;
        }
    }
}

static void make_store(struct trial *t)
{
    struct card c = card_on(&t->peer, t->length);

    t->by_session = c.portions <= 64 && chance(t, 12);
    if (t->by_session)
        make_by_session(t);
    else
        make_card(&t->state, &c);
    memset(t->damages, 0, sizeof t->damages);
    t->whole = chance(t, 12);
    for (unsigned i = t->whole ? 0 : chance(t, 55) ? 1 : between(t, 2, 4); i > 0; i--) {
        enum card_damage d = some_damage(&t->state, &c);
        damage_card(&t->state, &c, d);
        t->damages[d]++;
    }
}

/* ---- the call ---- */

/* Mostly room enough for the list: just so much, or more; now and then a byte too little, or none. */
static void choose_output(struct trial *t)
{
    size_t list = t->told.length, room = t->length[OUTPUT];

    switch (below(t, 20)) {
    case 0: t->length[OUTPUT] = list > 0 ? list - 1 : 0; break;
    case 1: t->length[OUTPUT] = 0; break;
    case 2: t->length[OUTPUT] = list > 1 ? below(t, (unsigned)list) : 0; break;
    case 3: t->length[OUTPUT] = room; break;
    case 4: case 5: case 6: t->length[OUTPUT] = list + below(t, (unsigned)(room - list) + 1); break;
    default: t->length[OUTPUT] = list; break;
    }
}

static void choose_rows(struct trial *t)
{
    static const uint64_t edges[] = {0, 1, 2, 255, 256, 257, 3999, 4000, 4000, 4001, 4096, 65535, 65536, 65537, 0x100000001, 0x8000000000000001, UINT64_MAX};

    t->rows = chance(t, 92) ? between(t, 1, 50) : chance(t, 80) ? edges[below(t, sizeof edges / sizeof edges[0])] : next_chance(&t->state) >> below(t, 64);
}

static void choose_lengths(struct trial *t)
{
    static const enum slice lent[] = {SESSION, COUNTS, STORE, LINKS, DIRECTORY, VALUE};
    enum slice s = lent[below(t, 6)];
    size_t most = s == COUNTS ? 4 : s == LINKS ? t->peer.room[s] / 2 : t->peer.room[s], unit = s == STORE ? PORTION : s == DIRECTORY ? ENTRY : 1, n = t->length[s];

    switch (below(t, 5)) {
    case 0: n = 0; break;
    case 1: n += chance(t, 50) ? unit : 1; break;
    case 2: n -= chance(t, 50) ? unit : 1; break;
    default: n = below(t, (unsigned)most + 1); break;
    }
    t->length[s] = n < most ? n : most;
    if (s == SESSION && chance(t, 25))
        t->length[s] = CLOCK_AT;  /* as long as it was before the clock */
    if ((s == STORE || s == LINKS) && chance(t, 30))
        t->length[LINKS] = t->length[STORE] / PORTION;
}

/* Than there may be, now and then, where there are as many as there may be. */
static void one_more(struct trial *t)
{
    if (t->length[DIRECTORY] == ENTRY * MOST_ENTRIES && chance(t, 15))
        t->length[DIRECTORY] += ENTRY;
    if (t->length[LINKS] == MOST_PORTIONS && t->length[STORE] == MOST_PORTIONS * PORTION && chance(t, 15)) {
        t->length[STORE] += PORTION;
        t->length[LINKS]++;
    }
}

static void copy_desk(struct desk *to, const struct desk *from)
{
    for (int s = 0; s < SLICES; s++)
        if (s != FONT && s != INPUT)
            memcpy(to->bytes[s], from->bytes[s], from->room[s]);
}

static void tell_trial(const struct trial *t)
{
    printf("difference at the store of seed %" PRIu64 ", rows %" PRIu64 "\nlent:", t->seed, t->rows);
    for (int s = 0; s < SLICES; s++)
        printf(" %s %zu", slice_names[s], t->length[s]);
    printf("\n%s", t->by_session ? "filled by a session;" : "made directly;");
    for (unsigned i = 0; i < CARD_DAMAGES; i++)
        if (t->damages[i])
            printf(" %s,", damage_names[i]);
    printf("\ntold:\n%.*s", (int)t->told.length, t->told.list);
}

static void tell_slices(const struct trial *t)
{
    for (int s = 0; s < SLICES; s++)
        for (size_t i = 0; s != FONT && s != INPUT && i < t->peer.room[s]; i++)
            if (t->station.bytes[s][i] != t->peer.bytes[s][i]) {
                printf("%s: byte %zu is %u in the station's, %u in the peer's\n", slice_names[s], i, t->station.bytes[s][i], t->peer.bytes[s][i]);
                break;
            }
}

static bool same_slices(const struct trial *t)
{
    for (int s = 0; s < SLICES; s++)
        if (s != FONT && s != INPUT && memcmp(t->station.bytes[s], t->peer.bytes[s], t->peer.room[s]) != 0)
            return false;
    return true;
}

/* What stood in session and values does not matter, so it is anything. */
static void litter_rest(struct trial *t)
{
    for (unsigned i = 0; i < IMAGE && chance(t, 60); i++)
        t->peer.bytes[SESSION][below(t, IMAGE)] = (uint8_t)next_chance(&t->state);
    for (unsigned i = 0; i < 10 && chance(t, 60); i++)
        t->peer.bytes[VALUE][below(t, VALUES)] = (uint8_t)next_chance(&t->state);
}

static void note(const struct trial *t, unsigned answer)
{
    unsigned entries = (unsigned)(t->length[DIRECTORY] / ENTRY), kept = 0, listed = 0;

    answers[answer]++;
    whole_stores += t->whole;
    by_session += t->by_session;
    exact += answer == TAKEN && t->length[OUTPUT] == t->told.length;
    for (unsigned i = 0; i < entries && answer == TAKEN; i++) {
        verdicts[t->told.of[i]]++;
        listed += t->told.of[i] != TOLD_NOTHING;
        kept += t->told.of[i] == TOLD_KEPT;
    }
    all_kept += answer == TAKEN && kept == listed;
    greatest += entries == MOST_ENTRIES && t->length[LINKS] == MOST_PORTIONS;
    for (unsigned i = 0; i < CARD_DAMAGES; i++) {
        done[i] += t->damages[i] > 0;
        undone[i] += t->damages[i] > 0 && answer == TAKEN && kept < listed;
    }
}

static void make_trial(struct trial *t, uint64_t seed)
{
    const char *fault;
    unsigned ours, theirs;

    t->seed = seed;
    t->state = seed * 0x2545f4914f6cdd1du + 777;
    lay_out(t);
    make_store(t);
    litter_rest(t);
    choose_rows(t);
    struct card c = card_on(&t->peer, t->length);
    tell_verdicts(&c, &t->told);
    choose_output(t);
    if (chance(t, 3)) {
        choose_lengths(t);
        if (repair_lengths_right(t->length, t->rows)) {
            c = card_on(&t->peer, t->length);
            tell_verdicts(&c, &t->told);
        }
    }
    one_more(t);
    copy_desk(&t->station, &t->peer);
    copy_desk(&t->before, &t->peer);
    t->station.rows = t->peer.rows = t->rows;
    ours = call_station(&the_station, &t->station, REPAIR, t->length);
    theirs = call_station(&peer_station, &t->peer, REPAIR, t->length);
    if (ours != theirs || !same_slices(t)) {
        tell_trial(t);
        printf("answer: station %u, peer %u\n", ours, theirs);
        tell_slices(t);
        exit(1);
    }
    fault = repair_fault(&t->before, &t->peer, t->length, t->rows, theirs, &t->told);
    if (fault) {
        tell_trial(t);
        printf("the peer answered %u: %s\n", theirs, fault);
        exit(1);
    }
    note(t, theirs);
}

int main(int argc, char **argv)
{
    uint64_t wanted = argc > 1 ? strtoull(argv[1], NULL, 10) : 10000, seed = argc > 2 ? strtoull(argv[2], NULL, 10) : 1;
    static struct trial t;

    printf("first seed %" PRIu64 "\n", seed);
    for (uint64_t i = 0; i < wanted; i++)
        make_trial(&t, seed + i);
    printf("%" PRIu64 " stores, no difference\n", wanted);
    for (unsigned a = 0; a < ANSWERS; a++)
        if (answers[a])
            printf("answer %2u %9" PRIu64 "\n", a, answers[a]);
    for (unsigned i = TOLD_KEPT; i < TELLINGS; i++)
        printf("%-9s %9" PRIu64 "\n", told_words[i], verdicts[i]);
    printf("filled by a session %" PRIu64 ", not damaged %" PRIu64 ", all entries kept %" PRIu64 ", output just as long as the list %" PRIu64 ", of 2,024 portions and 512 entries %" PRIu64 "\n", by_session, whole_stores, all_kept,
           exact, greatest);
    printf("damage                      stores  something dropped\n");
    for (unsigned i = 0; i < CARD_DAMAGES; i++)
        printf("%-24s %9" PRIu64 " %18" PRIu64 "\n", damage_names[i], done[i], undone[i]);
    clear_away(&t.station);
    clear_away(&t.peer);
    clear_away(&t.before);
    return 0;
}
