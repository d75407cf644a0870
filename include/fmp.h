/* The machine in process: a static library over the proved kernel of fmpsim. docs/HOST.md says how it is built and linked:
 *
 *     cc -std=c11 program.c -lfmp
 *
 * A program makes a machine of a configuration text, gives it event after event, and learns of each what the line of the trace says.
 *
 *     fmp_machine machine = FMP_NO_MACHINE;
 *     fmp_fault fault;
 *     fmp_record record;
 *     if (fmp_make(&machine, text, length, &fault) != FMP_OK) ..
 *     if (fmp_step_text(&machine, "P1 act_tsk(WORKER)", 18, &record) != FMP_OK) ..
 *     fmp_free(&machine);
 *
 * What each function answers is proved (crates/fmp_c, docs/PROOF.md): after a list of events a machine is that of the model after them, and
 * what is written there is the model's record of the event. A null pointer is answered with FMP_NULL by the functions below, in C.
 *
 * What C owes, since nothing checks it:
 *   - each pointer that is not null points to what its type says, of the length that is given, and two pointers of one call to things apart from
 *     each other;
 *   - a machine is FMP_NO_MACHINE before its first use, and nobody but these functions writes it. It is moved, not copied: two copies of its bytes are
 *     one machine, of which one alone may be used. fmp_copy makes a second one;
 *   - one call at a time uses a machine. Machines are of one thread: what is made in a thread is used in it alone;
 *   - malloc, realloc and free are of one allocator, and align a block to each power of two up to 16 that divides its size; no function is called
 *     from a signal handler.
 *
 * A function that answers something other than FMP_OK has changed nothing, except where it says so. */
#ifndef FMP_H
#define FMP_H
#include <stdbool.h>
#include <stddef.h>
#include <stdint.h>
#ifdef __cplusplus
extern "C" {
#endif

/* What a function answers. */
enum fmp_answer {
    FMP_OK = 0,
    FMP_MEMORY = 1,     /* memory ran out */
    FMP_TEXT = 2,       /* the configuration text has a fault, which is reported */
    FMP_NONE = 3,       /* there is no machine */
    FMP_PROCESSOR = 4,  /* the processor is none of the machine */
    FMP_EVENT = 5,      /* the number is that of no event */
    FMP_ARGUMENT = 6,   /* an argument is outside the bits of its kind */
    FMP_LINE = 7,       /* the line is no event */
    FMP_FULL = 8,       /* the machine has answered 4294967295 events */
    FMP_ROOM = 9,       /* there is too little room */
    FMP_NOTHING = 10,   /* there is none: no last event, or no such release */
    FMP_DIFFERENT = 11, /* the other machine is that of another configuration */
    FMP_NULL = 12       /* a pointer is null */
};

/* No line of a trace has more bytes, with its line feed. A text of more than FMP_GREATEST_TEXT bytes is no configuration. */
enum { FMP_GREATEST_LINE = 10394, FMP_GREATEST_TEXT = 1048576 };

/* A machine, or none. Its memory is taken by fmp_make and given back by fmp_free; a step takes none. */
typedef struct fmp_machine {
    void *own_pointer;
    bool own_made;
} fmp_machine;
#define FMP_NO_MACHINE {NULL, false}

/* The first fault of a configuration text: its kind from 1 to 13, as F1 to F13 of docs/formats/configuration.md; its line from 1, or 0 where it is
 * in none; and how many bytes of the text are left from the first byte of the token at fault on, or 0. */
typedef struct fmp_fault {
    uint32_t kind;
    uint32_t line;
    size_t left;
} fmp_fault;

/* An event: the processor from 1; the number of the call from 1 to 78, in the order in which `fmpsim list` has them (act_tsk 1, .., iunl_spn 77,
 * ret_hdr 78), or FMP_TICK or FMP_IPI; and the arguments. Arguments after those of the call say nothing. An ID, a priority, a processor or a
 * time is a number of 32 bits with a sign, a pattern one of 32 bits without, a mode 1 (TWF_ORW) or 2 (TWF_ANDW), data have 64 bits. */
enum { FMP_RET_HDR = 78, FMP_TICK = 79, FMP_IPI = 80 };
typedef struct fmp_event {
    uint32_t processor;
    uint32_t event;
    int64_t arguments[4];
} fmp_event;

/* What an event did. */
enum fmp_said { FMP_DONE = 0, FMP_WAIT = 1, FMP_SPIN = 2, FMP_GONE = 3, FMP_IDLE = 4, FMP_HELD = 5, FMP_TAKEN = 6, FMP_NO_REQUEST = 7 };
enum fmp_runner { FMP_NOBODY = 0, FMP_TASK = 1, FMP_ALARM = 2, FMP_CYCLIC = 3 };
typedef struct fmp_record {
    uint32_t number;      /* which event it was, from 1 */
    uint32_t processor;   /* where it was */
    uint32_t runner_kind; /* who could make a call there before it (fmp_runner), and the number of that task or handler */
    uint32_t runner;
    uint32_t said;        /* fmp_said: FMP_DONE where a call returned a code */
    int32_t code;         /* that code, as E_OK 0 or E_ID -18; else 0 */
    uint32_t has_value;   /* 1 where a value came with it */
    uint32_t releases;    /* how many waits ended: fmp_release_of tells each */
    uint32_t requests;    /* how many other processors are asked: fmp_request_of tells each */
    uint32_t has_lost;    /* 1 where a forced send overwrote a value of a data queue */
    uint32_t run_changed; /* 1 where another task runs on the processor now */
    uint32_t run;         /* that task, or 0 for none */
    int64_t value;        /* 0 where there is none, as lost */
    int64_t lost;
} fmp_record;

/* The end of a task's wait. */
typedef struct fmp_release {
    uint32_t task;
    int32_t code;
    uint32_t has_value;
    int64_t value;
} fmp_release;

/* What the library exports. Use the functions below, which answer a null pointer. */
int32_t fmp_make_at(fmp_machine *machine, const uint8_t *text, size_t length, fmp_fault *fault);
void fmp_free_at(fmp_machine *machine);
int32_t fmp_step_at(fmp_machine *machine, const fmp_event *event, fmp_record *record);
int32_t fmp_step_text_at(fmp_machine *machine, const uint8_t *line, size_t length, fmp_record *record);
int32_t fmp_line_at(fmp_machine *machine, uint8_t *room, size_t size, size_t *written);
int32_t fmp_state_at(fmp_machine *machine, uint8_t *room, size_t size, size_t *written);
int32_t fmp_copy_at(fmp_machine *from, fmp_machine *into);
int32_t fmp_release_at(fmp_machine *machine, size_t place, fmp_release *release);
uint32_t fmp_request_at(fmp_machine *machine, size_t place);

/* Makes the machine of a configuration text, at boot. What *machine was before is freed first. FMP_TEXT: the text has a fault, which is reported;
 * FMP_MEMORY. There is no machine then. */
static inline int fmp_make(fmp_machine *machine, const char *text, size_t length, fmp_fault *fault) {
    return machine == NULL || text == NULL || fault == NULL ? FMP_NULL : fmp_make_at(machine, (const uint8_t *)text, length, fault);
}

/* Frees a machine: *machine is none afterwards. None stays none. */
static inline void fmp_free(fmp_machine *machine) {
    if (machine != NULL)
        fmp_free_at(machine);
}

/* Answers an event. FMP_NONE, FMP_PROCESSOR, FMP_EVENT, FMP_ARGUMENT, FMP_FULL. */
static inline int fmp_step(fmp_machine *machine, const fmp_event *event, fmp_record *record) {
    return machine == NULL || event == NULL || record == NULL ? FMP_NULL : fmp_step_at(machine, event, record);
}

/* Answers the event of a line of docs/formats/events.md, without its line feed. FMP_NONE, FMP_LINE (also for a line that says nothing), FMP_FULL. */
static inline int fmp_step_text(fmp_machine *machine, const char *line, size_t length, fmp_record *record) {
    return machine == NULL || line == NULL || record == NULL ? FMP_NULL : fmp_step_text_at(machine, (const uint8_t *)line, length, record);
}

/* Writes the line of the last event, as it stands in the trace, with its line feed and no zero after it. FMP_GREATEST_LINE bytes are always room enough.
 * FMP_NONE, FMP_NOTHING (no event yet, or none since fmp_copy), FMP_ROOM. */
static inline int fmp_line(fmp_machine *machine, char *room, size_t size, size_t *written) {
    return machine == NULL || room == NULL || written == NULL ? FMP_NULL : fmp_line_at(machine, (uint8_t *)room, size, written);
}

/* Writes the state as `fmpsim calls --state` does, with the line `  end`. It may take memory. FMP_NONE, FMP_ROOM, FMP_MEMORY. */
static inline int fmp_state(fmp_machine *machine, char *room, size_t size, size_t *written) {
    return machine == NULL || room == NULL || written == NULL ? FMP_NULL : fmp_state_at(machine, (uint8_t *)room, size, written);
}

/* Lets *into be as *from is: it answers all events alike from there on. Both were made of texts that say the same. Nothing is taken or freed, so a state is
 * saved into a second machine and restored from it, as often as one likes. FMP_NONE, FMP_DIFFERENT. */
static inline int fmp_copy(fmp_machine *from, fmp_machine *into) {
    return from == NULL || into == NULL ? FMP_NULL : from == into ? (from->own_made ? FMP_OK : FMP_NONE) : fmp_copy_at(from, into);
}

/* Tells a wait that the last event ended, at a place from 0. FMP_NONE, FMP_NOTHING. */
static inline int fmp_release_of(fmp_machine *machine, size_t place, fmp_release *release) {
    return machine == NULL || release == NULL ? FMP_NULL : fmp_release_at(machine, place, release);
}

/* The processor that the last event asks, at a place from 0; 0 where there is none, or no machine. */
static inline uint32_t fmp_request_of(fmp_machine *machine, size_t place) {
    return machine == NULL ? 0 : fmp_request_at(machine, place);
}

#ifdef __cplusplus
}
#endif
#endif
