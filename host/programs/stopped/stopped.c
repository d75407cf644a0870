/*
 * A task stops a handler, and then uses what that uses: right on the handler's own processor. On another one the handler may still run. -DSEEN: it goes
 * on where it has seen that the alarm rang, so only what orders what was done is missing there.
 */
#include "kernel.h"
#include "kernel_cfg.h"

static int beats;
static volatile int rang;

void clock_handler(intptr_t exinf)
{
    beats++;
    rang = 1;
}

void main_task(intptr_t exinf)
{
#ifdef ALARM
    sta_alm(BELL, 0);
#ifdef SEEN
    if (!rang)
        return;
#endif
    stp_alm(BELL);
#else
    sta_cyc(CLOCK);
#ifndef NOT_STOPPED
    stp_cyc(CLOCK);
#endif
#endif
    beats++;
}
