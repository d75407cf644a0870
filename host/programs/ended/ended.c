/* A task is ended wherever it is, and started again: it has to find what it left half done. -DRIGHT keeps that from happening. */
#include "kernel.h"
#include "kernel_cfg.h"

static int first, second;

void work_task(intptr_t exinf)
{
    assert(first == second);
#ifdef RIGHT
    dis_dsp();
#endif
    first++;
    second++;
#ifdef RIGHT
    ena_dsp();
#endif
}

void restart_task(intptr_t exinf)
{
    ter_tsk(WORKER);
    act_tsk(WORKER);
}

void clock_handler(intptr_t exinf)
{
    iact_tsk(RESTART);
}
