/* Places that were met: a state of the kernel and of the program from which orders go on. */
#ifndef PLACES_H
#define PLACES_H
#include "contexts.h"

enum { MOST_PLACES = 1 << 20, MOST_STEPS = 1 << 23 };
struct place {
    uint64_t hash, waits; /* the tasks that wait there without a timeout */
    long from;            /* the place that it was first come to from */
    int action;
    uint32_t enabled;     /* what may happen there, */
    bool cut_ticks;       /* and whether a tick could, but for --ticks */
};
struct step { uint32_t from, to; };
struct places {
    long count, steps;
    uint32_t slot[MOST_PLACES * 2];
    struct place place[MOST_PLACES];
    struct step step[MOST_STEPS];
};
extern struct places *places;

void places_make(void);
void places_event(const struct context *caller, const struct answer *answer); /* keeps what no state tells */
long places_here(long from, int action, bool *is_new);
void places_anew(void);
long places_stuck(int *task, bool ticks_may_help);
long places_path(long place, unsigned char *actions, long room);
#endif
