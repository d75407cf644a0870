/* Orders that come to one place, and differ in what is in no state of the kernel and in no memory of the project: who comes after whom, what was read of the
   serial port. */
#include "kernel.h"
#include "kernel_cfg.h"
#include "syssvc/serial.h"

int data;
volatile int done;
char last;
#ifndef SERIAL
static void lock(void)
{
    loc_spn(LOCK);
    unl_spn(LOCK);
}
#endif
#if defined SERIAL
void one_task(intptr_t exinf)
{
    while (serial_rea_dat(1, &last, 1) == 1) {
        assert(last != 'b');
        sns_loc();
    }
}

void two_task(intptr_t exinf)
{
}
#elif defined THREE
/* TWO comes after what THREE knew when it signalled, and in the end ONE and THREE know of each other in any case. */
static volatile int three_done;

void one_task(intptr_t exinf)
{
    data = 1;
    lock();
    lock();
    done = 1;
}

void two_task(intptr_t exinf)
{
    if (three_done) {
        wai_sem(SIGNAL);
        assert(data == 1);
    }
}

void three_task(intptr_t exinf)
{
    lock();
    sig_sem(SIGNAL);
    if (done) {
        lock();
        three_done = 1;
    }
}
#else
/* TWO reads what ONE has written, and comes after that only if it takes the lock after ONE gave it back. */
void one_task(intptr_t exinf)
{
    data = 1;
    lock();
    done = 1;
}

void two_task(intptr_t exinf)
{
    lock();
    int was_done = done;
#ifdef ALWAYS_AFTER
    lock();
#endif
    if (was_done)
        assert(data == 1);
}
#endif
