/* As a project's own header has it for its processor. */
#ifndef BARRIER_H
#define BARRIER_H
#define DMB() __sync_synchronize()
static inline void memory_barrier(void)
{
    DMB();
}
#endif
