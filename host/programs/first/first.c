/* Two tasks on two processors that count together, within a lock, and a cyclic handler that does nothing yet. */
#include "kernel.h"
#include "kernel_cfg.h"

static int total;

void count_task(intptr_t exinf)
{
    for (int i = 0; i < 2; i++) {
#ifdef SPIN
        loc_spn(LOCK);
        total++;
        unl_spn(LOCK);
#else
        wai_sem(MUTEX);
        total++;
        sig_sem(MUTEX);
#endif
    }
}

void clock_handler(intptr_t exinf)
{
}
