/* generate.h: rows of calls that lead a station through its work and off its path.
 *
 * The generator looks at the memory on a desk to choose what comes next: names that are stored, variables that are
 * declared and still unset, labels owed. So most sessions record, fill, print and draw, and every refusal has its turn. */
#ifndef GENERATE_H
#define GENERATE_H

#include <stdbool.h>

#include "desk.h"
#include "verdicts.h"

enum event_kind { SET_UP, NEW_FONT, POKE, LAY, CALL };

/* SET_UP: room and fill of all slices. NEW_FONT: bytes, count. POKE: one byte of a slice; a passing one is put back before the next call that
 * is no question and no move of the clock. LAY: the first bytes of a slice, count of them. CALL: the call, its lengths, for COMMAND the input in bytes, count, for FITS the name there and the question,
 * for CLOCK the seconds and for REPAIR the rows. */
struct event {
    enum event_kind kind;
    size_t room[SLICES];
    uint8_t fill;
    enum slice slice;
    size_t at;
    uint8_t byte;
    bool passing;
    enum call_kind call;
    size_t length[SLICES];
    const uint8_t *bytes;
    size_t count;
    struct question question;
    uint64_t seconds, rows;
};

enum { MOST_POKES = 5000, MOST_INPUT = 70000, MOST_FONT = 30000 };

struct poke {
    enum slice slice;
    size_t at;
    uint8_t byte;
};

struct line {
    uint8_t bytes[MOST_INPUT];
    size_t length;
};

/* What is laid on the desk for a repair. */
struct laid {
    uint8_t session[IMAGE], store[MOST_PORTIONS * PORTION], links[2 * MOST_PORTIONS], directory[MOST_ENTRIES * ENTRY], values[VALUES];
};

/* small: small memories, on a desk whose room is always the same, for stored vectors. */
struct generator {
    uint64_t seed, state;
    bool small;
    const struct desk *desk;
    size_t length[SLICES];
    unsigned rows, portions, entries;
    unsigned calls_left;

    struct poke pokes[MOST_POKES];   /* still to be done */
    unsigned poke_count, poke_next;
    struct poke undo[MOST_POKES];    /* what stood there before */
    unsigned undo_count;
    bool damaged, font_damaged, touched;
    unsigned calls_to_repair;

    uint8_t font[MOST_FONT], bad_font[MOST_FONT];
    size_t font_length, bad_font_length;
    bool font_due;

    struct line line;
    bool plain;                      /* numbers without leading zeros, names in capitals, steps with their sign */
    unsigned spoil;                  /* which fields of the line are put outside their limits: bit 0 the next one */
    bool faulty;                     /* words and elements of the line are now and then not written so */
    size_t end;                      /* where a faulty line ends too soon; 0 nowhere */
    bool opened;
    enum call_kind last_call;
    bool last_usual;                 /* the last call had the session's lengths */
    unsigned lost;                   /* answers 3 in a row that no damage explains */
    unsigned number_before;          /* the number of free portions before the last call */
    unsigned portions_before;        /* how many portions were lent before the damage */

    /* Questions whether it fits and moves of the clock come before a call that is due, by chances of their own. */
    uint64_t asking_state;
    bool call_due, passing;          /* passing: the pokes are put back when the questions are asked and the moves made */
    unsigned questions_left, moves_left;
    struct line asked;               /* the name that most of them ask for */

    /* Repairs come there too. What they are lent is laid on the desk before, and what stood there is laid back behind them, unless the session goes on
     * with what the last one has left. */
    unsigned repairs_left, lay_next;
    const struct laid *laying;       /* or NULL */
    bool lay_back, goes_on, plain_repair; /* plain: with the session's lengths and rows */
    struct laid made, former;
    uint64_t repair_rows;            /* of the last repair, and its lengths */
    size_t repair_length[SLICES];
    struct telling told;
};

void start_generator(struct generator *g, uint64_t first_seed, bool small, const struct desk *desk);

/* The next event. After a CALL, tell its answer before asking again. */
void next_event(struct generator *g, struct event *e);
void tell_answer(struct generator *g, unsigned answer);

/* The number in the seed position of the session under way: start there with compare to see it again. */
uint64_t session_seed(const struct generator *g);

#endif
