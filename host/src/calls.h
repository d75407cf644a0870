/* One table of the calls, by their numbers: what each is given, and what of what it does the clocks, the reduction and the places look at. */
#ifndef CALLS_H
#define CALLS_H
#include "call_numbers.h"
#include "fmphost_cfg.h"

/* The kinds of arguments. Those that name an object come first, as the kinds of objects do. */
enum argument {
    A_NOTHING, A_TASK, A_SEMAPHORE, A_EVENTFLAG, A_DATA_QUEUE, A_POOL, A_CYCLIC, A_ALARM, A_SPIN_LOCK,
    A_PROCESSOR, A_PRIORITY, A_TIME, A_TIMEOUT, A_PATTERN, A_MODE, A_DATA, A_BLOCK
};
_Static_assert(A_TASK == FMPHOST_TASK + 1 && A_SPIN_LOCK == FMPHOST_SPN + 1, "arguments name objects in the order of their kinds");

enum does {
    GIVES = 1 << 0,             /* something to the object that it names: whatever takes it comes after that */
    TAKES = 1 << 1,             /* what was given to that object */
    SENDS = 1 << 2,             /* a value to a data queue */
    RECEIVES = 1 << 3,          /* one from it, which leaves a place to senders */
    SLEEPS = 1 << 4,            /* takes a wakeup of its own */
    GETS_BLOCK = 1 << 5,
    RETURNS_BLOCK = 1 << 6,
    STARTS = 1 << 7,            /* a handler, */
    STOPS = 1 << 8,             /* which counts no more ticks */
    ACTIVATES = 1 << 9,
    MIGRATES = 1 << 10,
    TERMINATES = 1 << 11,
    SUSPENDS = 1 << 12,
    SETS_PRIORITY = 1 << 13,
    ROTATES = 1 << 14,          /* a ready queue */
    GIVES_WAY_ITSELF = 1 << 15, /* where it names its caller: whoever runs next comes after all that that one did */
    LOCKS_CPU = 1 << 16,
    UNLOCKS_CPU = 1 << 17,
    DISABLES_DISPATCH = 1 << 18,
    ENABLES_DISPATCH = 1 << 19,
    RETURNS = 1 << 20,          /* from a handler */
    TIMED = 1 << 21,            /* it waits for some time at most */
    MOVES = 1 << 22             /* names the processor to which its object goes */
};

enum { MOST_ARGUMENTS = 4 };
struct call {
    const char *name;
    unsigned char argument[MOST_ARGUMENTS]; /* an enum argument each */
    unsigned does;
};
extern const struct call calls[]; /* by an enum call_number */

/* Where an argument of this kind stands, or -1. */
static inline int call_argument(const struct call *call, enum argument kind) {
    for (int i = 0; i < MOST_ARGUMENTS; i++)
        if (call->argument[i] == kind)
            return i;
    return -1;
}
#endif
