/* What time brings: each configuration has some of these. */
#include "kernel.h"
#include "kernel_cfg.h"
#include <string.h>

static int periods, waited;
static char frame[300 * 1024], large[2 * 1024 * 1024];

/* wait.cfg: what comes after a long wait is at fault. two.cfg has a handler beside it that is due at each tick. */
void long_wait_task(intptr_t exinf)
{
    dly_tsk(100);
    waited = 1;
    assert(waited == 0);
}

/* period.cfg: the fourth period is at fault. */
void fourth_handler(intptr_t exinf)
{
    assert(++periods < 4);
}

void empty_handler(intptr_t exinf)
{
}

/* wakes.cfg: the fourth period wakes the task that waits. */
void wake_handler(intptr_t exinf)
{
    if (periods < 4 && ++periods == 4)
        iwup_tsk(1);
}

void sleep_task(intptr_t exinf)
{
    slp_tsk();
}

/* deadlock.cfg: two tasks that wait for each other, and a handler that has nothing to do with them. */
void opposed_task(intptr_t first)
{
    wai_sem((ID)first);
    wai_sem((ID)(3 - first));
    sig_sem((ID)(3 - first));
    sig_sem((ID)first);
}

/* alarm.cfg: an alarm that is far away, and a handler that is due at each tick. */
void alarm_task(intptr_t exinf)
{
    sta_alm(1, 100);
}

void alarm_handler(intptr_t exinf)
{
    assert(exinf == 0);
}

/* memory.cfg: as many words of memory as there is room for, or more. */
void memory_task(intptr_t size)
{
    memset(frame, 1, sizeof frame);
    if (size > 0)
        memset(large, 1, sizeof large);
}

static int never_called(void)
{
    return 1;
}

/* unused.cfg has it, and nobody activates it. */
void spare_task(intptr_t exinf)
{
    if (exinf)
        never_called();
}
