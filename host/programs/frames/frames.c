/* How much stack is used: less than what the configuration gives, more of it, an array whose size varies, sizes with a name. HOW says who is called. */
#include "kernel.h"
#include "kernel_cfg.h"
#include "frames.h"
#include <stdlib.h>
#include <string.h>

static int is_how(const char *how)
{
    const char *said = getenv("HOW");
    return said != NULL && strcmp(said, how) == 0;
}

static int fill(int n)
{
    volatile char room[1500];
    room[0] = (char)n;
    return room[0];
}

static int fill_some(int n)
{
    volatile char room[n];
    room[0] = (char)n;
    return room[0];
}

static int passed_on(int n)
{
    return fill(n);
}

void large_task(intptr_t exinf)
{
    if (is_how("large"))
        passed_on(1);
}

void varies_task(intptr_t exinf)
{
    if (is_how("varies"))
        fill_some(5000);
}

void named_task(intptr_t exinf)
{
    if (is_how("named"))
        fill(1), fill_some(3000);
}

void tick_handler(intptr_t exinf)
{
    fill(2);
}
