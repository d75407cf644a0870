/* What lock.pml and pipe.pml share: P processors, and T tasks whose priorities differ on each processor. Task t, from 0, is on processor t % P and has
 * priority 5 + t / P, so of the tasks of one processor that with the smallest number comes first. The processes of the processors' interrupts come first,
 * and then those of the tasks, in the order of their numbers.
 *
 * One transition stands for one event of fmpsim:
 *   - a call of the task that runs on a processor, with its dispatch (CALL);
 *   - the interrupt that comes to a requested processor (process interrupt).
 * What stands for what:
 *   - the position of a process: where the task is in its script, until it has ended;
 *   - waits[t]: for what the task waits, 0 for nothing; each model says what its numbers are;
 *   - ended[t]: the task is dormant;
 *   - runs[p]: the rank of the task that runs on processor p, 0 for the first one, which runs at boot; or NOBODY;
 *   - asked[p]: the latch of processor p, a request for dispatching that is pending;
 *   - locked[p]: the CPU-locked state of processor p, in which it neither dispatches nor takes its interrupt.
 * The ready queue of a processor stands in waits and ended, since all priorities on it differ. Left out is all that these scripts leave as it is at
 * boot: priorities, queued activations and wakeups, timers, handlers. */
byte waits[T];
bit ended[T];
byte runs[P];
bit asked[P];
bit locked[P];
#define NOBODY 255
#define PROCESSOR(t) ((t) % P)
#define RANK(t) ((t) / P)
#define RUNNABLE(t) (!waits[t] && !ended[t])
#define ME (_pid - P)
#define HERE PROCESSOR(ME)

/* The rank of the first runnable task of processor p, of at most four. */
#define TOP(p) FIRST_OF(p, 0, FIRST_OF(p, 1, FIRST_OF(p, 2, FIRST_OF(p, 3, NOBODY))))
#define FIRST_OF(p, rank, behind) (TASK(p, rank) < T && RUNNABLE(TASK(p, rank)) -> rank : behind)
#define TASK(p, rank) ((p) + (rank) * P)

/* A processor that is not held dispatches at the end of an event. */
inline dispatch(p) {
    if
    :: locked[p]
    :: else -> runs[p] = TOP(p); asked[p] = 0
    fi
}
/* Task t waits no longer. Its processor is requested if it is another one and has a new top now. */
inline release(t) {
    if
    :: PROCESSOR(t) != HERE && RANK(t) < TOP(PROCESSOR(t)) -> asked[PROCESSOR(t)] = 1
    :: else
    fi;
    waits[t] = 0
}
#define CALL(effect) d_step { runs[HERE] == RANK(ME) -> effect; dispatch(HERE) }
#define ANY CALL(skip)
#define LOCK CALL(locked[HERE] = 1)
#define UNLOCK CALL(locked[HERE] = 0)
#define END CALL(ended[ME] = 1); end: false

active [P] proctype interrupt() {
end:
    do
    :: d_step { asked[_pid] && !locked[_pid] -> dispatch(_pid) }
    od
}
