/* The tasks of `pipe` in bench/systems.py for SPIN: a chain over data queues of capacity 2, through which go four values, all of them 1.
 * kernel.pml says what the rest stands for.
 *   - values[d]: how many values data queue d has; task d sends to it and task d + 1 receives from it;
 *   - waits[t]: SENDING or RECEIVING. */
#ifndef P
#define P 2
#endif
#ifndef T
#define T 4
#endif
#include "kernel.pml"
#define CAPACITY 2
#define SENDING 1
#define RECEIVING 2
byte values[T];

inline send(d) {
    if
    :: waits[d + 1] == RECEIVING -> release(d + 1)
    :: else ->
        if
        :: values[d] < CAPACITY -> values[d]++
        :: else -> waits[d] = SENDING
        fi
    fi
}
/* The value of a sender that waits takes the place that becomes free. */
inline receive(d) {
    if
    :: values[d] == 0 -> waits[d + 1] = RECEIVING
    :: values[d] > 0 && waits[d] == SENDING -> release(d)
    :: else -> values[d]--
    fi
}
#define SEND ANY; CALL(send(ME))
#define RECEIVE CALL(receive(ME - 1)); ANY
#define PASS CALL(receive(ME - 1)); SEND

active [1] proctype first() {
    SEND; SEND; SEND; SEND;
    END
}
active [T - 2] proctype middle() {
    PASS; PASS; PASS; PASS;
    END
}
active [1] proctype last() {
    RECEIVE; RECEIVE; RECEIVE; RECEIVE;
    END
}
