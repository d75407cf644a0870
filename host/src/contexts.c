#define _GNU_SOURCE
#include "contexts.h"
#include "outcome.h"
#include "options.h"
#include "requests.h"
#include <stdio.h>
#include <string.h>
#include <sys/mman.h>
#include <unistd.h>
#if defined __has_include
#if __has_include(<valgrind/valgrind.h>)
#include <valgrind/valgrind.h>
#endif
#endif
#ifndef VALGRIND_STACK_REGISTER
#define VALGRIND_STACK_REGISTER(from, to) ((void)(from), (void)(to))
#endif
#if defined __SANITIZE_ADDRESS__
#define FIBERS 1
#elif defined __has_feature
#if __has_feature(address_sanitizer)
#define FIBERS 1
#endif
#endif
#ifdef FIBERS
#include <sanitizer/common_interface_defs.h>
#endif

struct context contexts[MOST_CONTEXTS];
int context_count;
struct context *running;
static ucontext_t runner;
#ifdef FIBERS
static void *runner_fiber;
static const void *runner_stack;
static size_t runner_size;
#endif

static bool is_handler(int object) {
    return fmphost_objects[object].kind == FMPHOST_CYC || fmphost_objects[object].kind == FMPHOST_ALM;
}

/*
 * Below each stack lies a page that nothing may touch, so that a stack that is too small is told and spoils nothing. Stacks are asked for at
 * the same addresses each time, where nothing else is: an address of a variable on one may be in a trace.
 */
static unsigned char *make_stack(int number) {
    size_t page = (size_t)sysconf(_SC_PAGESIZE);
    void *wanted = (void *)((uintptr_t)0x2000 << 32 | (uintptr_t)number * 2 * STACK);
    unsigned char *all = mmap(wanted, STACK + page, PROT_READ | PROT_WRITE, MAP_PRIVATE | MAP_ANONYMOUS | MAP_NORESERVE, -1, 0);
    if (all == MAP_FAILED || mprotect(all, page, PROT_NONE) != 0)
        give_up("no memory for stacks");
    VALGRIND_STACK_REGISTER(all + page, all + page + STACK);
    return all + page;
}

bool on_guard(uintptr_t at, const char **whose) {
    for (int i = 0; i < context_count; i++)
        if (at < (uintptr_t)contexts[i].stack && at >= (uintptr_t)contexts[i].stack - STACK) { /* nothing else lies there: a large frame steps over the page */
            *whose = context_name(i);
            return true;
        }
    return false;
}

bool own_stack(const struct context *who, uintptr_t at) {
    return at >= (uintptr_t)who->stack && at < (uintptr_t)who->stack + STACK;
}

int owner_of_stack(uintptr_t at) {
    for (int i = 0; i < context_count; i++)
        if (own_stack(&contexts[i], at))
            return i;
    return -1;
}

static void add(int object, int processor) {
    if (context_count == MOST_CONTEXTS)
        give_up("too many tasks and handlers");
    contexts[context_count] = (struct context){.object = object, .processor = processor, .stack = make_stack(context_count)};
    context_count++;
}

/* Tasks come first, by their numbers, and then the handlers, each for every processor. */
void contexts_make(void) {
    for (int i = 0; i < fmphost_object_count; i++)
        if (fmphost_objects[i].kind == FMPHOST_TASK)
            add(i, 0);
    for (int i = 0; i < fmphost_object_count; i++)
        for (int p = 1; is_handler(i) && p <= fmphost_processors; p++)
            add(i, p);
}

struct context *context_of_task(int object) {
    return &contexts[fmphost_objects[object].number - 1];
}

struct context *context_of_handler(int object, int processor) {
    for (int i = 0; i < context_count; i++)
        if (contexts[i].object == object && contexts[i].processor == processor)
            return &contexts[i];
    give_up("a handler without a context");
}

const char *context_name(int context) {
    return context < 0 ? "-" : fmphost_objects[contexts[context].object].name;
}

static void to_runner(struct context *from) {
#ifdef FIBERS
    __sanitizer_start_switch_fiber(&from->fiber, runner_stack, runner_size);
#endif
    swapcontext(&from->registers, &runner);
#ifdef FIBERS
    __sanitizer_finish_switch_fiber(from->fiber, &runner_stack, &runner_size);
#endif
}

/* A task that comes to its end calls ext_tsk, and a handler returns. */
static void life(void) {
    struct context *me = running;
#ifdef FIBERS
    __sanitizer_finish_switch_fiber(NULL, &runner_stack, &runner_size);
#endif
    fmphost_objects[me->object].body(fmphost_objects[me->object].exinf);
    request_of(running, NULL, running->processor ? RET_HDR : EXT_TSK, (const int64_t[MOST_ARGUMENTS]){0});
    context_stop();
    give_up("one that has ended goes on");
}

/* What calls have left below the stack is part of no place. */
static void clear_below(struct context *context) {
#if defined __x86_64__
    uintptr_t top = (uintptr_t)context->registers.uc_mcontext.gregs[REG_RSP], room = top - (uintptr_t)context->stack;
    size_t size = room < 8192 ? room : 8192;
    memset((void *)(top - size), 0, size);
#else
    (void)context;
#endif
}

static void begin_life(struct context *context) {
    getcontext(&context->registers);
    context->registers.uc_stack.ss_sp = context->stack;
    context->registers.uc_stack.ss_size = STACK;
    context->registers.uc_link = NULL;
    makecontext(&context->registers, life, 0);
    context->started = true;
    context->base = context->lowest = 0;
}

static void enter(struct context *context) {
    running = context;
    outcome->runs = (int)(context - contexts);
#ifdef FIBERS
    __sanitizer_start_switch_fiber(&runner_fiber, context->stack, STACK);
#endif
    swapcontext(&runner, &context->registers);
#ifdef FIBERS
    __sanitizer_finish_switch_fiber(runner_fiber, NULL, NULL);
#endif
    running = NULL;
    outcome->runs = -1;
}

void context_resume(struct context *context) {
    if (!context->started)
        begin_life(context);
    context->next = NOTHING;
    context->answered = false;
    enter(context);
    if (options.mode == BY_PLACES)
        clear_below(context);
}

void context_show(struct context *context, void (*look)(void)) {
    context->look = look;
    enter(context);
}

/* The code of one may only stand on its own stack: a jump to a place that another one kept leaves it on that one's. */
void context_stop(void) {
    char here;
    if (!own_stack(running, (uintptr_t)&here) && owner_of_stack((uintptr_t)&here) >= 0)
        end_with_place(CRASH, "%s has jumped to the stack of %s", context_name((int)(running - contexts)), context_name(owner_of_stack((uintptr_t)&here)));
    struct context *me = running;
    to_runner(me);
    for (; me->look != NULL; to_runner(me)) {
        me->look();
        me->look = NULL;
    }
}

void context_end(struct context *context) {
    context->lives = context->started = context->answered = context->waits = false;
    context->next = NOTHING;
}
