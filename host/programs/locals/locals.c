/* A variable is written, and then its address is handed over by a pointer that orders nothing. -DSTATIC: it is static, and no local one. */
#include "kernel.h"
#include <stddef.h>

static int *volatile handed;

void give_task(intptr_t exinf)
{
#ifdef STATIC
    static
#endif
    int number;
    int *own = &number;
    number = 7;
    handed = own;
    slp_tsk();
}

void take_task(intptr_t exinf)
{
    int *number = handed;
    if (number != NULL)
        assert(*number == 7);
}
