/* The proved kernel (machine.h): an event goes in, its record and the state after it come out. */
#ifndef PROVED_H
#define PROVED_H
#include "fmphost_cfg.h"
#include <stdbool.h>
#include <stdint.h>

enum { MOST_PROCESSORS = 8, MOST_TASKS = 64, MOST_OBJECTS = 64 + 7 * 32, MOST_EVENTS = 1 << 17 };
enum said { CODE, WAIT, SPIN, GONE, IDLE, HELD, TAKEN, NONE };

struct release {
    int task; /* an index into fmphost_objects, as all objects are named below */
    int code;
    int64_t value;
};
struct answer {
    enum said said;
    int code;
    int64_t value;
    int releases;
    struct release release[MOST_TASKS];
};
struct processor {
    int run, due; /* the running task and the first due handler, or -1 */
    bool locked, disabled, latch;
    uint64_t ready, dues; /* hashes of the lists, to see whether they changed */
};
struct state {
    struct processor processor[MOST_PROCESSORS + 1];
    uint64_t told[MOST_OBJECTS];     /* a hash of the object's line, 0 where it has none */
    short waits[MOST_OBJECTS];       /* the object that a task waits for, or -1 */
    bool sleeps[MOST_OBJECTS];       /* it waits, whatever for */
    bool counting[MOST_OBJECTS];     /* a task or handler that has ticks left */
    bool stopped[MOST_OBJECTS];      /* a cyclic handler that was started at boot */
    signed char held[MOST_OBJECTS];  /* of a spin lock, the processor that holds it */
    signed char on[MOST_OBJECTS];    /* the processor on which a task runs or is ready, or 0 */
};

extern struct state state, before; /* now, and before the last event */
extern char *trace_text;           /* the lines of the trace so far */
extern long trace_length;
extern long answers;               /* how many came so far, that at boot among them */

void proved_check(const char *program, const char *configuration); /* gives up where kernel_cfg.c was made of something else */
void proved_start(void);
void proved_stop(void);
bool proved_full(void);            /* there is no room for the answers to many more events */
const struct answer *proved_event(int processor, const char *event);
const char *code_name(int code);
int code_named(const char *name, uint64_t length); /* 1 where there is none */
int object_of(int kind, int number);
int object_named(const char *name, uint64_t length);

/* What the last run was told, so that a run that begins alike asks again for nothing before it parts from it. */
enum { ANSWER_ROOM = 256 << 20, ROOM_LEFT = 1 << 20 };
struct kept_answers {
    long count, valid;         /* the answers that are kept, and how many of them the next run begins with */
    long at[MOST_EVENTS];
    uint64_t asked[MOST_EVENTS]; /* hashes of the events that they answer */
    char *text;
    long used;
};
extern struct kept_answers *kept;

/* proved_text.c: reading lines into the state and into an answer */
uint64_t hash_text(const char *from, const char *to);
void state_begin(void);
void state_line(const char *line);
void read_record(const char *line, struct answer *answer);
#endif
