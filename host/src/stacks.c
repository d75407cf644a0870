#include "stacks.h"
#include "contexts.h"
#include "names.h"
#include "options.h"
#include "outcome.h"
#include <stdatomic.h>
#include <stdio.h>

extern char __start_fmphost_project[] __attribute__((weak));
/* How much, and behind that in which code: so that the greater of two is the one that used more, whoever plays beside whom. */
enum { CODE_BITS = 40 };
static struct stacks { _Atomic uint64_t most[MOST_OBJECTS]; } *stacks;

void stacks_make(void) {
    stacks = shared_room(sizeof *stacks);
}

void stacks_forget(void) {
    for (int i = 0; i < fmphost_object_count; i++)
        atomic_store(&stacks->most[i], 0);
}

static void note(int object, uint64_t used, uintptr_t code) {
    uint64_t wanted = used << CODE_BITS | ((uint64_t)(code - (uintptr_t)__start_fmphost_project) & (((uint64_t)1 << CODE_BITS) - 1));
    uint64_t now = atomic_load(&stacks->most[object]);
    while (wanted > now && !atomic_compare_exchange_weak(&stacks->most[object], &now, wanted))
        ;
}

/* The most that this one used in its life. A task whose size is not known, and a handler, which has none of its own, are only told. */
static void reach(struct context *me, uintptr_t at, uintptr_t code) {
    const struct fmphost_object *own = &fmphost_objects[me->object];
    uint64_t used = me->base - at;
    me->lowest = at;
    note(me->object, used, code);
    if (!options.stacks || own->stack == 0 || used <= own->stack * (uint64_t)options.stack_factor)
        return;
    me->place = code;
    end_with_place(STACKS, "%s uses %llu bytes of stack, and its configuration gives %zu", own->name, (unsigned long long)used, own->stack);
}

/* A frame begins with where the frame before it is; above that and where the call returns to lies what the caller had. */
void stacks_enter(uintptr_t frame) {
    struct context *me = running;
    uintptr_t at = frame + 2 * sizeof(uintptr_t);
    if (me == NULL || !own_stack(me, frame))
        return;
    if (me->base == 0)
        me->base = me->lowest = *(const uintptr_t *)frame + 2 * sizeof(uintptr_t);
    if (at < me->lowest)
        reach(me, at, ((const uintptr_t *)frame)[1]);
}

void stacks_touch(struct context *me, uintptr_t at, uintptr_t place) {
    if (at < me->lowest && own_stack(me, at))
        reach(me, at, place);
}

void stacks_tell(void) {
    fprintf(stderr, "fmphost: %-16s %8s %8s  %s\n", "stack of", "used", "given", "most in");
    for (int i = 0; i < fmphost_object_count; i++) {
        const struct fmphost_object *own = &fmphost_objects[i];
        uint64_t most = atomic_load(&stacks->most[i]);
        if (own->body == NULL)
            continue;
        fprintf(stderr, "fmphost: %-16s %8llu ", own->name, (unsigned long long)(most >> CODE_BITS));
        if (own->stack > 0)
            fprintf(stderr, "%8zu", own->stack);
        else
            fprintf(stderr, "%8s", "-");
        fprintf(stderr, "  %s\n", most == 0 ? "it never ran" : place_name((uintptr_t)__start_fmphost_project + (most & (((uint64_t)1 << CODE_BITS) - 1))));
    }
}
