/* What became of a run: written by the run, which is a process of its own, and read by the one that started it. */
#ifndef OUTCOME_H
#define OUTCOME_H
#include "recording.h"

/* Those from ASLEEP on are findings, up to BROKEN, where the host itself failed and has told why. A run that is UNENDED was left by exit(). */
enum ending { UNENDED, QUIET, LEFT_OFF, LIMIT, CUT_SHORT, ASLEEP, CLAIM, RACE, BLOCK, REFUSED, STACKS, CRASH, HANG, BROKEN };
enum { MOST_TURNS = 1 << 15 };
/* Why what comes after a run, or beside it, was not looked at. */
enum left { LEFT_TICKS, LEFT_TURNS, LEFT_EVENTS, LEFT_MEMORY, LEFT_KINDS };

/* One turn: which of the things that could happen did. An action is a processor and one of these. */
enum act { GO, IPI, TICK, ACTS };
enum { MOST_VALUE = 16 };
struct turn {
    unsigned char action; /* processor * ACTS + act */
    short context;        /* who went on, -1 where nobody did */
    long answers_before;  /* that at boot among them */
    long record;          /* the last line of the trace that it made, from 1, or 0 */
    long ticks;           /* TICK: how many ticks it was */
    uintptr_t at, place;  /* the address that it touched, and the code that did */
    unsigned size;
    bool writes, valued;
    unsigned char value[MOST_VALUE]; /* what it read, or wrote: the first bytes of it, where they are known */
};
struct access {
    uintptr_t at, place;
    unsigned size;
    short context;
    bool writes, frees;
    int processor;
    struct callers callers; /* of a run that is told */
};
struct outcome {
    enum ending ending;
    long turns, events;
    char words[4096];
    char left[LEFT_KINDS][1024]; /* who or what is left there, by name, or nothing */
    struct access race[2];
    uintptr_t crash, last;   /* where, and the last place of the program before it */
    struct callers callers;  /* from where the code was called that ended it, in a run that is told */
    int runs;                /* the context whose code runs, or -1: kept for one that is ended by a signal */
    uint64_t end;            /* a hash of the last state, to count the ends that differ */
    uint64_t trace_hash;     /* to see whether the same choices do the same again */
    long trace_length;
    bool instrumented;
    struct turn turn[MOST_TURNS];
};
extern struct outcome *outcome;

_Noreturn void give_up(const char *form, ...) __attribute__((format(printf, 1, 2))); /* an error of the host or of fmpsim, not of the program */
_Noreturn void end_with_place(enum ending ending, const char *form, ...) __attribute__((format(printf, 2, 3))); /* of who runs */
_Noreturn void leave_run(void); /* of which all is known */
_Noreturn void end_run(enum ending ending, const char *form, ...) __attribute__((format(printf, 2, 3)));
void *shared_room(uint64_t size); /* zeros that the processes of all runs share */
void *own_room(uint64_t size);    /* zeros of which each run has its own */
#endif
