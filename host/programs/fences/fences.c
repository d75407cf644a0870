/*
 * One writes data and says so by a flag; the other reads the data if it sees the flag. Without -D the flag is a relaxed atomic variable, with a fence on
 * both sides. -DBARRIER: it is volatile, with a processor's barriers; -DATOMIC: it orders by itself; -DCHANGED: it is counted up between.
 * With half of that, with the fence too late, or where another store that gives nothing was read, nothing orders the data.
 */
#include "kernel.h"
#include "kernel_cfg.h"
#include "barrier.h"
#include <stdatomic.h>
#ifdef BARRIER
static volatile int flag;
#define WRITE() (flag = 1)
#define READ() flag
#define RELEASE() DMB()
#define ACQUIRE() memory_barrier()
#else
static atomic_int flag;
#ifdef ATOMIC
#define WRITE() atomic_store_explicit(&flag, 1, memory_order_release)
#define READ() atomic_load_explicit(&flag, memory_order_acquire)
#define RELEASE() ((void)0)
#define ACQUIRE() ((void)0)
#else
#define WRITE() atomic_store_explicit(&flag, 1, memory_order_relaxed)
#define READ() atomic_load_explicit(&flag, memory_order_relaxed)
#define RELEASE() atomic_thread_fence(memory_order_release)
#define ACQUIRE() atomic_thread_fence(memory_order_acquire)
#endif
#endif

#if defined CHANGED || defined OVERWRITTEN
#define SEEN 2 /* the store, and what was added to it or stored after it */
#else
#define SEEN 1
#endif

static int data;

void write_task(intptr_t exinf)
{
    data = 42;
#ifdef LATE
    WRITE();
    RELEASE();
#elif defined ACQUIRE_ALONE
    WRITE();
#else
    RELEASE();
    WRITE();
#endif
}

void read_task(intptr_t exinf)
{
    if (READ() >= SEEN) {
#ifndef RELEASE_ALONE
        ACQUIRE();
#endif
        assert(data == 42);
    }
}

/* Comes between the two: what it only changes still gives what the first one gave, and what it stores gives nothing of that. */
void between_task(intptr_t exinf)
{
#ifdef CHANGED
    atomic_fetch_add_explicit(&flag, 1, memory_order_relaxed);
#elif defined OVERWRITTEN
    if (READ() == 1)
        atomic_store_explicit(&flag, 2, memory_order_relaxed);
#endif
}
