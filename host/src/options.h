/* What the command line says. */
#ifndef OPTIONS_H
#define OPTIONS_H
#include "proved.h"

enum races { RACES_NONE, RACES_BETWEEN, RACES_ALL };
enum mode { BY_SEEDS, EVERY_ORDER, ALL_ORDERS, BY_PREEMPTIONS, BY_PLACES, BY_REPLAY };
enum refused { REFUSED_NONE, REFUSED_OWN, REFUSED_ALL, REFUSED_NAMED };
enum { MOST_SHARED = 32, MOST_NAMED = 16 };
struct options {
    enum mode mode;
    enum races races;
    enum refused refused;
    int named_count, named[MOST_NAMED]; /* the codes that --refused names */
    const char *fmpsim, *configuration, *serial, *trace, *order, *view, *replay, *junit;
    uint64_t first_seed, last_seed;
    bool stacks, tap, progress, points, volatiles, goes_on, tells_ends, judged, logs;
    bool ticks_any, ticks_named, may_wait[MOST_OBJECTS];
    int shared_count;         /* variables that race on purpose */
    struct { uintptr_t at; uint64_t size; } shared[MOST_SHARED];
    long until;               /* the line of the order at which to stop, or 0 */
    long ticks, turns, preemptions, patience, most_runs, jobs, seconds, stalls, late, stack_factor;
};
extern struct options options;

bool is_refused_named(int code);
bool is_shared_variable(uintptr_t at);      /* one that --shared names */
void read_options(int count, char **words); /* does not return where they are wrong */
#endif
