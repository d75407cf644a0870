/* What a turn reads and writes of the kernel and of memory: two turns on different processors that touch nothing in common may change places. */
#ifndef FOOTPRINT_H
#define FOOTPRINT_H
#include "proved.h"
#include "outcome.h"

/* The parts of the kernel: its objects by their index, and for each processor who runs there, who is ready there, and its ticks. */
enum { RUNS = MOST_OBJECTS, QUEUE = RUNS + 8, TIMER = QUEUE + 8, MEMORY = TIMER + 8, PARTS, PART_WORDS = (PARTS + 63) / 64 };
struct footprint {
    uint64_t reads[PART_WORDS], writes[PART_WORDS];
    uintptr_t at; /* an access of memory, where size is not 0 */
    unsigned size;
    bool stores;
    bool quiet;  /* a tick that nobody sees but by what its timer has left */
};
struct context;

void footprint_begin(struct footprint *f, int processor);
void footprint_call(struct footprint *f, int processor, const struct context *caller);
void footprint_interrupt(struct footprint *f, int processor, bool tick);
void footprint_quiet_tick(struct footprint *f, int processor);
void footprint_access(struct footprint *f, const struct context *who);
void footprint_changes(struct footprint *f); /* by the states before and after the event */
bool dependent(const struct footprint *a, const struct footprint *b);
#endif
