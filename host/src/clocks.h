/* Which of two things that contexts did came before the other by the kernel's own order, and not by chance: vector clocks. */
#ifndef CLOCKS_H
#define CLOCKS_H
#include "contexts.h"

void clocks_make(void);
void clocks_begin(struct context *who, int processor);   /* a task's or handler's code begins */
void clocks_event(struct context *caller, int processor, const struct answer *answer); /* after an event; NULL: a tick or an interrupt */
uint32_t clock_now(int context);                         /* its own count */
bool clock_knows(int context, int other, uint32_t count);
/* Atomic accesses: their address keeps a clock. Where they do not order, fences after the read and before the write may. */
void clocks_read(int context, const uint32_t *kept, bool acquires);
void clocks_write(int context, uint32_t *kept, bool releases);
void clocks_fence(int context, bool acquires, bool releases);
uint64_t clocks_know(int context, uint32_t count); /* which clocks know what this one did at this count, or 0 where all do that may look */
bool clocks_fences(void); /* there was one in this run */
#endif
