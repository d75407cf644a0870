/*
 * What orders two accesses of memory:
 *   - a task or handler is in its own order, over all its lives;
 *   - what gives (sig_sem, set_flg, snd_dtq, rel_mpf, wup_tsk, act_tsk, sta_alm, rsm_tsk, rel_wai) comes before what takes it: the wait that
 *     it ends, or a later wait, receive, start. Givers and takers of one object are joined, so a semaphore with a count above 1 may hide a
 *     race, and none is told that is not one;
 *   - a lock comes before the next one that takes it: a spin lock, the CPU lock of a processor, its disabled dispatching;
 *   - a handler begins with its processor's CPU lock free, and its return frees it; a task that is dispatched does so with both free.
 *     So what a task does within loc_cpu is ordered with handlers of its processor, and what it does without is not;
 *   - a task that waits or ends comes before the task that its processor runs next;
 *   - a handler that is stopped on its own processor has done what it did: it does not run there, as its caller does. On another it may;
 *   - C11's atomic variables and fences. With fences, volatile variables are as relaxed atomic ones.
 * An interrupt or a tick that takes the processor from a task is not among them: it could have come at any place.
 */
#include "clocks.h"
#include "outcome.h"
#include "timers.h"
#include <string.h>

typedef uint32_t Clock[MOST_CONTEXTS];
static Clock *own;                    /* of each context */
static Clock *given, *taken;          /* of each object: what its givers knew, and what its takers did (a data queue's places) */
static Clock cpu[MOST_PROCESSORS + 1], dispatch[MOST_PROCESSORS + 1];
static Clock *fenced, *read_so_far;   /* of each context: what its last release fence gives, and what an acquire fence would take */
static bool any_fence;

void clocks_make(void) {
    own = own_room((uint64_t)context_count * sizeof *own);
    given = own_room(((uint64_t)fmphost_object_count + 1) * sizeof *given);
    taken = own_room(((uint64_t)fmphost_object_count + 1) * sizeof *taken);
    fenced = own_room((uint64_t)context_count * sizeof *fenced);
    read_so_far = own_room((uint64_t)context_count * sizeof *read_so_far);
    for (int i = 0; i < context_count; i++)
        own[i][i] = 1;
}

static void join(uint32_t *into, const uint32_t *from) {
    for (int i = 0; i < context_count; i++)
        if (into[i] < from[i])
            into[i] = from[i];
}

static void release(struct context *who, uint32_t *into) {
    int i = (int)(who - contexts);
    join(into, own[i]);
    own[i][i]++;
}

static void acquire(struct context *who, const uint32_t *from) {
    join(own[who - contexts], from);
}

uint32_t clock_now(int context) {
    return own[context][context];
}

bool clock_knows(int context, int other, uint32_t count) {
    return own[context][other] >= count;
}

void clocks_begin(struct context *who, int processor) {
    acquire(who, given[who->object]);
    acquire(who, cpu[processor]);
    if (who->processor == 0)
        acquire(who, dispatch[processor]);
}

void clocks_read(int context, const uint32_t *kept, bool acquires) {
    join(acquires ? own[context] : read_so_far[context], kept);
}

void clocks_write(int context, uint32_t *kept, bool releases) {
    join(kept, fenced[context]);
    if (releases)
        release(&contexts[context], kept);
}

void clocks_fence(int context, bool acquires, bool releases) {
    if (acquires)
        join(own[context], read_so_far[context]);
    if (releases)
        release(&contexts[context], fenced[context]);
    any_fence = true;
}

/* Whether it is known is all that a later access asks of a clock, and so of whatever hands one on. */
static uint64_t add_known(uint64_t sum, const Clock *clocks, int room, int context, uint32_t count) {
    for (int i = 0; i < room; i++)
        sum = (sum ^ (clocks[i][context] >= count ? 3u : 1u)) * 0x9e3779b97f4a7c15u;
    return sum ^ sum >> 29;
}

uint64_t clocks_know(int context, uint32_t count) {
    bool all = true;
    for (int i = 0; i < context_count && all; i++)
        all = own[i][context] >= count;
    if (all)
        return 0;
    uint64_t sum = add_known(1, own, context_count, context, count);
    sum = add_known(sum, given, fmphost_object_count, context, count);
    sum = add_known(sum, taken, fmphost_object_count, context, count);
    sum = add_known(sum, cpu, fmphost_processors + 1, context, count);
    sum = add_known(sum, dispatch, fmphost_processors + 1, context, count);
    sum = add_known(sum, fenced, context_count, context, count);
    return add_known(sum, read_so_far, context_count, context, count);
}

bool clocks_fences(void) {
    return any_fence;
}

/* The caller gave way of itself: whoever runs next comes after all that it did. */
static bool gave_way(const struct context *caller, const struct answer *answer) {
    if (answer->said == WAIT || answer->said == GONE)
        return true;
    if (answer->said != CODE || answer->code != 0)
        return false;
    bool of_itself = caller->named == caller->object && (caller->call->does & GIVES_WAY_ITSELF);
    return of_itself || (caller->call->does & ROTATES);
}

static bool runs_elsewhere(int task, int processor) {
    for (int p = 1; p <= fmphost_processors; p++)
        if (p != processor && state.processor[p].run == task)
            return true;
    return false;
}

/* What is given to an object and taken from it. A data queue has places, too: a sender takes one that a receiver gave. */
static void object_orders(struct context *caller, const struct answer *answer) {
    bool accepted = answer->said == CODE && answer->code == 0;
    unsigned does = caller->call->does;
    int object = caller->named;
    if (object < 0)
        return;
    if ((does & GIVES) && (accepted || ((does & SENDS) && answer->said == WAIT))) {
        if (does & SENDS)
            acquire(caller, taken[object]);
        release(caller, given[object]);
    }
    if (accepted && (does & TAKES))
        acquire(caller, given[object]);
    if (accepted && (does & RECEIVES))
        release(caller, taken[object]);
}

static void processor_orders(struct context *caller, int processor) {
    unsigned does = caller->call->does;
    int object = caller->named;
    if (does & SLEEPS)
        acquire(caller, given[caller->object]);
    /* one that ends or is suspended stands still from then on, unless another processor still runs it: the interrupt has not come there */
    if (object >= 0 && object != caller->object && ((does & TERMINATES) || ((does & SUSPENDS) && !runs_elsewhere(object, processor))))
        acquire(caller, own[context_of_task(object) - contexts]);
    if ((does & STOPS) && assigned_to(object) == processor)
        acquire(caller, own[context_of_handler(object, processor) - contexts]);
    if (does & LOCKS_CPU)
        acquire(caller, cpu[processor]);
    if (does & UNLOCKS_CPU)
        release(caller, cpu[processor]);
    if (does & DISABLES_DISPATCH)
        acquire(caller, dispatch[processor]);
    if (does & ENABLES_DISPATCH)
        release(caller, dispatch[processor]);
}

static void releases_order(struct context *caller, const struct answer *answer) {
    for (int i = 0; i < answer->releases; i++) {
        struct context *released = context_of_task(answer->release[i].task);
        if (caller->call->does & RECEIVES) /* a sender's wait: its value was given when it began */
            acquire(released, taken[caller->named]);
        else {
            acquire(released, own[caller - contexts]);
            if (caller->named >= 0) /* and what others gave before: a flag's bits may be of several */
                acquire(released, given[caller->named]);
        }
    }
    if (answer->releases > 0)
        release(caller, own[caller - contexts]);
}

static void caller_orders(struct context *caller, int processor, const struct answer *answer) {
    object_orders(caller, answer);
    if (answer->said == CODE && answer->code == 0)
        processor_orders(caller, processor);
    releases_order(caller, answer);
    for (int i = 0; i < fmphost_object_count; i++) /* a lock that went with its holder's end */
        if (before.held[i] == processor && state.held[i] == 0 && caller->named != i)
            release(caller, given[i]);
    if (caller->processor == 0 && gave_way(caller, answer)) {
        release(caller, cpu[processor]);
        release(caller, dispatch[processor]);
    }
}

void clocks_event(struct context *caller, int processor, const struct answer *answer) {
    if (caller != NULL)
        caller_orders(caller, processor, answer);
    int now = state.processor[processor].run;
    if (now >= 0 && now != before.processor[processor].run) {
        acquire(context_of_task(now), cpu[processor]);
        acquire(context_of_task(now), dispatch[processor]);
    }
}
