/* The smallest right server: it waits for its next request when all have been served. -DLOST loses the last answer, so that its client waits, too. */
#include "kernel.h"
#include "kernel_cfg.h"

void serve_task(intptr_t exinf)
{
    intptr_t request;
    while (rcv_dtq(REQUESTS, &request) == E_OK) {
#ifdef LOST
        if (request == 2)
            continue;
#endif
        snd_dtq(ANSWERS, 10 * request);
    }
}

void client_task(intptr_t exinf)
{
    intptr_t answer;
    for (int i = 1; i <= 2; i++) {
        snd_dtq(REQUESTS, i);
        rcv_dtq(ANSWERS, &answer);
        assert(answer == 10 * i);
    }
}
