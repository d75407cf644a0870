/* Each takes the fork on its left and then the one on its right. With -DPOLITE the last one takes the other fork first. */
#include "kernel.h"
#include "kernel_cfg.h"
#define SEATS TNUM_SEMID

static int meals[SEATS];

void philosopher(intptr_t seat)
{
    ID left = (ID)seat, right = (ID)(seat % SEATS + 1);
#ifdef POLITE
    if (seat == SEATS) {
        left = 1;
        right = SEATS;
    }
#endif
    wai_sem(left);
    wai_sem(right);
    meals[seat - 1]++;
    sig_sem(left);
    sig_sem(right);
}
