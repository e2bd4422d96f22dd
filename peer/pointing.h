/* pointing.h: the places of answer 6 told a second time, for selftest. */
#ifndef POINTING_H
#define POINTING_H

/* How many lines were judged, how many of them ended too soon, and how many the reader of lines.c judges in another way. */
struct told {
    unsigned lines, soon, wrong;
};

/* Every line that one byte changed, put in or taken out or a cut makes of some samples. */
struct told near_samples(void);

/* Every line of a stem and a short tail over a few bytes. */
struct told short_tails(void);

#endif
