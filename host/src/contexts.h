/* A task's or a handler's C code, as a coroutine. It stops before each thing that others can see: a service call, a shared access. */
#ifndef CONTEXTS_H
#define CONTEXTS_H
#include "calls.h"
#include "proved.h"
#include <ucontext.h>

enum { MOST_CONTEXTS = 64 + 64 * 8, STACK = 256 * 1024, REQUEST = 160 };
enum operation { NOTHING, CALL, ACCESS, POINT };

struct context {
    int object, processor;      /* a handler has one context for each processor, since it may be due on two; a task's is 0 */
    bool lives, started, answered, waits;
    uint32_t ended;             /* how often another ended its life */
    void (*look)(void);         /* is called, and nothing else, where it is entered */
    enum operation next;        /* what it stands before */
    const struct call *call;    /* CALL: the call, */
    int64_t argument[MOST_ARGUMENTS];
    char request[REQUEST];      /* and as an event has it, by numbers: `wai_flg(1, 3, TWF_ANDW)` */
    int named;                  /* the object that the call names, or -1 */
    uintptr_t at, place;        /* ACCESS */
    unsigned size;
    bool writes, atomic;
    int code;                   /* what its last call was answered */
    int64_t value;
    ucontext_t registers;
    unsigned char *stack;
    uintptr_t base, lowest;     /* of what the project used of it in this life, or 0 */
    void *fiber;                /* AddressSanitizer's own */
};

extern struct context contexts[MOST_CONTEXTS];
extern int context_count;
extern struct context *running; /* whose code runs, NULL in the runner */

void contexts_make(void);
struct context *context_of_task(int object);
static inline bool is_accepted(const struct context *caller, const struct answer *answer) {
    return caller != NULL && answer->said == CODE && answer->code == 0;
}
struct context *context_of_handler(int object, int processor);
const char *context_name(int context);
void context_resume(struct context *context); /* until it stands before something */
void context_stop(void);                      /* called by the running one, which has said before what it stands */
void context_show(struct context *context, void (*look)(void)); /* calls it on this one's stack, which stands where it stood */
void context_end(struct context *context);    /* its life is over: next time it begins anew */
bool own_stack(const struct context *who, uintptr_t at);
int owner_of_stack(uintptr_t at);             /* the context in whose stack this lies, or -1 */
bool on_guard(uintptr_t at, const char **whose);
#endif
