/* N philosophers for SPIN, as the scripts of philosophers in bench/systems.py has them: each is one task on a processor of its own, and
 * each fork is a semaphore of the kernel.
 *
 * One transition stands for one event of fmpsim:
 *   - a call of the task that runs (WAIT, SIGNAL, ANY): it takes its effect on the semaphore and on the waiting task in one step;
 *   - the interrupt of a requested processor (INTERRUPT).
 * What stands for what:
 *   - the position of a process: where the task is in its script;
 *   - count[f]: the count of fork f's semaphore;
 *   - waiter[f]: its queue, in which one task may be, as number + 1: each fork has two users;
 *   - state[i]: whether task i runs, waits, or was released and is requested. A signal makes a task runnable on another processor, which runs
 *     nothing until its interrupt comes.
 * Left out is all that these scripts leave as it is at boot: priorities, timers, the CPU-locked state. */
#ifndef N
#define N 5
#endif
#define RUNS 0
#define WAITS 1
#define REQUESTED 2
byte count[N] = 1;
byte waiter[N];
byte state[N];
#define WAIT(f) d_step { state[_pid] == RUNS -> if :: count[f] > 0 -> count[f]-- :: else -> waiter[f] = _pid + 1; state[_pid] = WAITS fi }
#define SIGNAL(f) d_step { state[_pid] == RUNS -> if :: waiter[f] -> state[waiter[f] - 1] = REQUESTED; waiter[f] = 0 :: else -> count[f]++ fi }
#define ANY d_step { state[_pid] == RUNS -> skip }
#define INTERRUPT d_step { state[_pid] == REQUESTED -> state[_pid] = RUNS }
#define NEXT(call) do :: call -> break :: INTERRUPT od
active [N] proctype philosopher() {
    NEXT(WAIT(_pid));
    NEXT(WAIT((_pid + 1) % N));
    NEXT(ANY);
    NEXT(SIGNAL(_pid));
    NEXT(SIGNAL((_pid + 1) % N));
    NEXT(ANY);
end: false
}
