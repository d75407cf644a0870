/* A task passes blocks to another, which gives them back. -DKEPT keeps one, -DAFTER uses one that was given back, -DBEYOND writes behind one. */
#include "kernel.h"
#include "kernel_cfg.h"
#include "pools.h"
#include <string.h>

void give_task(intptr_t exinf)
{
    for (int i = 0; i < 2; i++) {
        void *block;
        get_mpf(POOL, &block);
#ifdef BEYOND
        memset(block, i, BLOCK_SIZE + 1);
#else
        memset(block, i, BLOCK_SIZE);
#endif
        snd_dtq(QUEUE, (intptr_t)block);
    }
}

void take_task(intptr_t exinf)
{
    for (int i = 0; i < 2; i++) {
        intptr_t block;
        rcv_dtq(QUEUE, &block);
        assert(((char *)block)[BLOCK_SIZE - 1] == i);
#ifdef KEPT
        if (i == 1)
            continue;
#endif
        rel_mpf(POOL, (void *)block);
#ifdef AFTER
        ((char *)block)[3] = 1;
#endif
    }
}
