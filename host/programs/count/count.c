/* Two tasks on two processors: each adds two to the total, and says when it has done so. Right by a lock, as -DLOCKED and -DSEMAPHORE have it. */
#include "kernel.h"
#include "kernel_cfg.h"
#ifdef LOCKED
#define ENTER() loc_spn(LOCK)
#define LEAVE() unl_spn(LOCK)
#elif defined SEMAPHORE
#define ENTER() wai_sem(MUTEX)
#define LEAVE() sig_sem(MUTEX)
#else
#define ENTER() ((void)0)
#define LEAVE() ((void)0)
#endif
#ifdef VOLATILE
static volatile int total;
#else
static int total;
#endif

void count_task(intptr_t exinf)
{
    for (int i = 0; i < 2; i++) {
        ENTER();
        total++;
        LEAVE();
    }
    set_flg(DONE, (FLGPTN)exinf);
}

void judge_task(intptr_t exinf)
{
    FLGPTN done;
    wai_flg(DONE, 3, TWF_ANDW, &done);
    assert(total == 4);
}
