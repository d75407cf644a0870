/* What is told of an order: values at accesses, the calls that led to two that race, and what was logged. */
#include "kernel.h"
#include "kernel_cfg.h"
#include "t_syslog.h"
#include "syssvc/serial.h"
#include <string.h>

volatile int level;
volatile short below;
int *volatile pointer;
char text[20];
int total;

static void add(int n)
{
    total += n;
}

static void add_through(int n)
{
    add(n);
}

void one_task(intptr_t exinf)
{
    syslog(LOG_NOTICE, "one begins with %d", 7);
    level = 1;
    below = -2;
    pointer = &total;
    syslog(LOG_NOTICE, "one has\nwritten");
    serial_wri_dat(1, "hello\n", 6);
    add_through(1);
    memcpy(text, "abc", 3);
}

void two_task(intptr_t exinf)
{
    syslog(LOG_NOTICE, "two begins");
    (void)level;
    (void)below;
    (void)pointer;
    sns_ctx();
    add(2);
    if (memcmp(text, "abc", 3) == 0)
        sns_loc();
}
