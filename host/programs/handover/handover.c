/* Memory of malloc that two tasks use one after the other, as the allocator hands it over. -DUSED frees a block that the other may still read. */
#include "kernel.h"
#include "kernel_cfg.h"
#include <stdlib.h>
#include <string.h>

#ifndef USED
static void use(unsigned size)
{
    char *block = malloc(size), *longer;
    memset(block, 1, size);
    longer = realloc(block, 40 * size);
    longer[0]++;
    free(longer);
    block = calloc(size, 1);
    assert(block[0] == 0);
    block[0] = 3;
    longer = strdup(block);
    longer[0]++;
    free(longer);
    free(block);
}
#endif

void give_task(intptr_t exinf)
{
#ifdef USED
    int *number = malloc(sizeof *number);
    *number = 7;
    snd_dtq(QUEUE, (intptr_t)number);
    free(number);
#else
    use(24);
    sns_ctx();
    use(24);
#endif
}

void take_task(intptr_t exinf)
{
#ifdef USED
    intptr_t number;
    rcv_dtq(QUEUE, &number);
    assert(*(int *)number >= 0);
#else
    use(24);
    sns_ctx();
    use(24);
#endif
}
