/* Which processor's ticks count for what: no state tells where one that waits, or a handler, is assigned. */
#ifndef TIMERS_H
#define TIMERS_H
#include "contexts.h"

void timers_begin(void);                                        /* at boot */
void timers_event(const struct context *caller, bool accepted); /* after an event: whether its caller's call was, and named an object */
int assigned_to(int object);                                    /* the processor of a task or handler */
bool counts(int object);                                        /* it has ticks left */
bool counts_on(int processor);                                  /* a tick there lowers what something has left */
bool something_counts(void);
#endif
