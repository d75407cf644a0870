/*
 * Too large a footprint costs time, too small a one loses orders. So what an event wrote is taken from the kernel's own word, all that
 * differs between the states before and after it; and what it read is all that a row of the tables may look at: the object that it names,
 * what that waits for, who runs and who is ready on its processor. Three things are in no state, and are added by the call's name: the order
 * in which timed waits began, the processor that a stopped handler or a waiting task is assigned to, and the ticks left as at boot. With --patience
 * each wait counts ticks.
 */
#include "footprint.h"
#include "contexts.h"
#include "options.h"
#include "run.h"
#include <string.h>

static void set(uint64_t *bits, int part) {
    bits[part / 64] |= (uint64_t)1 << (part % 64);
}

void footprint_begin(struct footprint *f, int processor) {
    memset(f, 0, sizeof *f);
    set(f->reads, RUNS + processor - 1);
    if (!instrumented) /* what the program touches is not known, so any turn may touch anything */
        set(f->writes, MEMORY);
}

static void each_timer(uint64_t *bits) {
    for (int p = 0; p < fmphost_processors; p++)
        set(bits, TIMER + p);
}

static void named(struct footprint *f, int object) {
    set(f->writes, object);
    if (state.waits[object] >= 0)
        set(f->writes, state.waits[object]);
    if (before.waits[object] >= 0)
        set(f->writes, before.waits[object]);
}

/* The calls that name a task: where it is ready its place in the queue may change and the queue look the same. */
static void named_task(struct footprint *f, unsigned does, int task) {
    for (int p = 1; p <= fmphost_processors; p++)
        if (state.processor[p].run == task || (does & SETS_PRIORITY))
            set(f->writes, QUEUE + p - 1);
}

void footprint_call(struct footprint *f, int processor, const struct context *caller) {
    unsigned does = caller->call->does;
    set(f->reads, QUEUE + processor - 1); /* it dispatches at its end */
    if (caller->processor == 0)
        named(f, caller->object);
    if (caller->named >= 0)
        named(f, caller->named);
    if (caller->named >= 0 && fmphost_objects[caller->named].kind == FMPHOST_TASK)
        named_task(f, does, caller->named);
    if (does & ROTATES)
        for (int p = 0; p < fmphost_processors; p++)
            set(f->writes, QUEUE + p);
    if (does & MOVES)
        each_timer(f->writes);
    if (does & (STARTS | STOPS))
        each_timer(f->reads);
    if (options.patience >= 0) /* how long a wait lasts is what is looked at: a tick before it begins or ends is not one after that */
        each_timer(f->writes);
    if (does & TIMED)
        set(f->writes, TIMER + (fmphost_master ? fmphost_master : processor) - 1);
}

void footprint_interrupt(struct footprint *f, int processor, bool tick) {
    set(f->reads, QUEUE + processor - 1);
    if (tick)
        set(f->writes, TIMER + processor - 1);
    else
        set(f->writes, QUEUE + processor - 1);
}

/* It may come before or after whatever does not set or read its timer, also where that holds it back for a while. */
void footprint_quiet_tick(struct footprint *f, int processor) {
    memset(f, 0, sizeof *f);
    set(f->writes, TIMER + processor - 1);
    f->quiet = true;
}

void footprint_access(struct footprint *f, const struct context *who) {
    if (who->next == ACCESS) {
        f->at = who->at;
        f->size = who->size;
        f->stores = who->writes;
    }
    if (who->next == POINT) /* what a point stands for is not known */
        set(f->writes, MEMORY);
}

void footprint_changes(struct footprint *f) {
    for (int p = 1; p <= fmphost_processors; p++) {
        const struct processor *a = &before.processor[p], *b = &state.processor[p];
        if (a->run != b->run || a->due != b->due || a->dues != b->dues || a->locked != b->locked || a->disabled != b->disabled)
            set(f->writes, RUNS + p - 1);
        if (a->ready != b->ready || a->latch != b->latch || a->run != b->run)
            set(f->writes, QUEUE + p - 1);
    }
    for (int i = 0; i < fmphost_object_count; i++)
        if (before.told[i] != state.told[i])
            named(f, i);
}

bool dependent(const struct footprint *a, const struct footprint *b) {
    for (int i = 0; i < PART_WORDS; i++)
        if ((a->writes[i] & (b->reads[i] | b->writes[i])) || (a->reads[i] & b->writes[i]))
            return true;
    if (a->size != 0 && b->size != 0 && (a->stores || b->stores) && a->at < b->at + b->size && b->at < a->at + a->size)
        return true;
    return false;
}
