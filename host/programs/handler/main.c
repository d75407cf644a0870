/* A task and a cyclic handler count the same beats. -DLOCKED has the task do so in the CPU-locked state. */
#include "kernel.h"
#ifdef LOCKED
#define ENTER() loc_cpu()
#define LEAVE() unl_cpu()
#else
#define ENTER() ((void)0)
#define LEAVE() ((void)0)
#endif

static int beats;

void clock_handler(intptr_t exinf)
{
    beats++;
}

void main_task(intptr_t exinf)
{
    for (int i = 0; i < 2; i++) {
        ENTER();
        beats++;
        LEAVE();
    }
}
