/* The tasks of `lock` in bench/systems.py for SPIN: each takes two buses once, one after the other. A bus is a semaphore of count 1 whose queue is
 * by priority, TA_TPRI. kernel.pml says what the rest stands for.
 *   - count[b]: the count of bus b;
 *   - waits[t]: the bus for which task t waits, as number + 1;
 *   - ahead[t]: how many tasks of its priority came to that bus before it and still wait there. */
#ifndef P
#define P 2
#endif
#ifndef T
#define T 4
#endif
#include "kernel.pml"
byte count[P] = 1;
byte ahead[T];
/* These are 0 between transitions: a search breadth first has no variables outside of a state. */
byte other, first;

inline wait(b) {
    if
    :: count[b] > 0 -> count[b]--
    :: else ->
        do
        :: other == T -> break
        :: other < T && waits[other] == b + 1 && RANK(other) == RANK(ME) -> ahead[ME]++; other++
        :: else -> other++
        od;
        other = 0;
        waits[ME] = b + 1
    fi
}
/* The first waiter is that of the best priority before which none of its priority waits. */
inline signal(b) {
    do
    :: first == T -> break
    :: first < T && waits[first] == b + 1 && ahead[first] == 0 -> break
    :: else -> first++
    od;
    if
    :: first == T -> count[b]++
    :: else ->
        release(first);
        do
        :: other == T -> break
        :: other < T && waits[other] == b + 1 && RANK(other) == RANK(first) -> ahead[other]--; other++
        :: else -> other++
        od;
        other = 0
    fi;
    first = 0
}
/* Tasks of every second priority begin with the bus of their own processor, the others with the next one. */
#define FIRST ((ME + RANK(ME) % 2) % P)
#define SECOND ((FIRST + 1) % P)

active [T] proctype task() {
    CALL(wait(FIRST));
    ANY;
    CALL(signal(FIRST));
    CALL(wait(SECOND));
    LOCK;
    ANY;
    UNLOCK;
    CALL(signal(SECOND));
    END
}
