/*
 * Two orders that come to the same place go on alike, so one is enough. A place is all that what comes next can depend on: the kernel's state
 * as it tells it, the program's memory as far as it was touched, and for each task and handler its stack, registers and what it stands before.
 * The kernel does not tell all: in which order tasks wait, where they and handlers are assigned, which blocks are handed out. That is put
 * together here from the calls. Nor does the memory tell all: who comes after whom, which decides what races, and how far the serial port was read. So two
 * places are not taken for one, unless their hashes are the same. A stack has old bytes in it, so one may be taken for two.
 */
#define _GNU_SOURCE
#include "places.h"
#include "memory.h"
#include "outcome.h"
#include "pools.h"
#include "requests.h"
#include "run.h"
#include "timers.h"
#include <stdio.h>
#include <string.h>

struct places *places;
static uint32_t since[MOST_OBJECTS], anew[MOST_OBJECTS], events_so_far; /* when a task began to wait, and was last given a priority */
/* The processor of a queued activation, as far as calls have named it. */
enum { NOWHERE = 255 };
static unsigned char queued_for[MOST_OBJECTS];

void places_make(void) {
    places = shared_room(sizeof *places);
}

static uint64_t mix(uint64_t sum, uint64_t part) {
    sum = (sum ^ part) * 0x9e3779b97f4a7c15u;
    return sum ^ sum >> 32;
}

static void note_queued(const struct context *caller, bool accepted) {
    int at = accepted ? call_argument(caller->call, A_PROCESSOR) : -1;
    if (accepted && (caller->call->does & ACTIVATES))
        queued_for[caller->named] = (unsigned char)(at >= 0 ? caller->argument[at] : NOWHERE);
}

void places_event(const struct context *caller, const struct answer *answer) {
    bool accepted = is_accepted(caller, answer) && caller->named >= 0;
    events_so_far++;
    note_queued(caller, accepted);
    if (caller != NULL && answer->said == WAIT)
        since[caller->object] = anew[caller->object] = events_so_far;
    if (accepted && (caller->call->does & SETS_PRIORITY))
        anew[caller->named] = events_so_far;
}

static uint64_t order_of(const uint32_t *when) { /* those that wait, by when */
    uint64_t sum = 1;
    for (int i = 0; i < fmphost_object_count; i++)
        for (int j = 0; state.sleeps[i] && j < fmphost_object_count; j++)
            if (state.sleeps[j] && when[j] < when[i])
                sum += (uint64_t)(i + 1) * 0x9e3779b97f4a7c15u + (uint64_t)j * 0x94d049bb133111ebu;
    return sum;
}

static uint64_t stack_of(uint64_t sum, const struct context *who) {
#if defined __x86_64__
    static const int kept_registers[] = {REG_RBX, REG_RBP, REG_R12, REG_R13, REG_R14, REG_R15, REG_RSP, REG_RIP};
    for (size_t i = 0; i < sizeof kept_registers / sizeof *kept_registers; i++)
        sum = mix(sum, (uint64_t)who->registers.uc_mcontext.gregs[kept_registers[i]]);
    for (uintptr_t at = (uintptr_t)who->registers.uc_mcontext.gregs[REG_RSP] & ~(uintptr_t)7; at < (uintptr_t)who->stack + STACK; at += 8)
        sum = mix(sum, *(const uint64_t *)at);
#endif
    return sum;
}

static uint64_t kernel_part(uint64_t sum) {
    for (int p = 1; p <= fmphost_processors; p++) {
        const struct processor *now = &state.processor[p];
        sum = mix(mix(mix(sum, (uint64_t)now->run * 8 + now->locked * 4 + now->disabled * 2 + now->latch), now->ready), now->dues);
        if (!options.ticks_any)
            sum = mix(sum, (uint64_t)run_ticks(p));
    }
    for (int i = 0; i < fmphost_object_count; i++)
        sum = mix(mix(mix(sum, state.told[i]), (uint64_t)(assigned_to(i) * 256 + queued_for[i])), fmphost_objects[i].kind == FMPHOST_MPF ? pools_hash(i) : 0);
    return mix(mix(sum, order_of(since)), order_of(anew));
}

static uint64_t this_place(void) {
    uint64_t sum = mix(kernel_part(memory_hash_all()), serial_read());
    if (options.races != RACES_NONE)
        sum = mix(sum, memory_hash_races());
    for (int i = 0; i < context_count; i++) {
        const struct context *who = &contexts[i];
        if (!who->lives) {
            sum = mix(sum, 7);
            continue;
        }
        sum = mix(sum, (uint64_t)(who->next * 8 + who->waits * 4 + who->answered * 2 + run_spins(i)));
        if (options.patience >= 0 && who->waits)
            sum = mix(sum, (uint64_t)run_waited(i));
        if (who->answered)
            sum = mix(mix(sum, (uint64_t)who->code), (uint64_t)who->value);
        sum = stack_of(sum, who); /* the call or the access before which it stands follows from it */
    }
    return sum | 1;
}

static uint64_t waiting_tasks(void) {
    uint64_t set = 0;
    for (int t = 0; t < fmphost_object_count; t++)
        if (fmphost_objects[t].kind == FMPHOST_TASK && state.sleeps[t] && !state.counting[t] && !options.may_wait[t])
            set |= (uint64_t)1 << (fmphost_objects[t].number - 1);
    return set;
}

/* The number of this place, from 0; whether it is a new one; and how it was come to: from another, by an action. */
long places_here(long from, int action, bool *is_new) {
    uint64_t place = this_place();
    size_t room = sizeof places->slot / sizeof *places->slot, i = place >> 20 & (room - 1);
    while (places->slot[i] != 0 && places->place[places->slot[i] - 1].hash != place)
        i = (i + 1) & (room - 1);
    *is_new = places->slot[i] == 0;
    if (places->count == MOST_PLACES || places->steps == MOST_STEPS)
        give_up("more than %d places or %d steps: --turns or --ticks makes them fewer", MOST_PLACES, MOST_STEPS);
    if (*is_new) {
        places->place[places->count++] = (struct place){.hash = place, .from = from, .action = action, .waits = waiting_tasks()};
        places->slot[i] = (uint32_t)places->count;
    }
    long here = places->slot[i] - 1;
    if (from >= 0)
        places->step[places->steps++] = (struct step){(uint32_t)from, (uint32_t)here};
    return here;
}

void places_anew(void) {
    memset(places->slot, 0, sizeof places->slot);
    places->count = places->steps = 0;
}

/* Marks the places from which some order leads to one where this task does not wait, and says whether there is one from which none does. */
static bool mark_goes_on(bool *goes_on, uint64_t task, bool ticks_may_help) {
    bool more = true, any = false;
    for (long i = 0; i < places->count; i++) {
        goes_on[i] = !(places->place[i].waits & task) || (ticks_may_help && places->place[i].cut_ticks);
        any |= !goes_on[i];
    }
    while (any && more) {
        more = false;
        for (long i = places->steps - 1; i >= 0; i--) /* later steps mostly lead on from earlier ones */
            if (goes_on[places->step[i].to] && !goes_on[places->step[i].from])
                goes_on[places->step[i].from] = more = true;
    }
    return any;
}

/*
 * A place from which no order lets a task go on that waits there, or -1. That is more than that it waits for long: it is so however lucky the
 * order is; and less than that all has come to an end: the rest may go on for ever. Where ticks were cut off, one more might help.
 */
long places_stuck(int *task, bool ticks_may_help) {
    static bool goes_on[MOST_PLACES];
    for (int t = 0; t < MOST_TASKS; t++)
        if (mark_goes_on(goes_on, (uint64_t)1 << t, ticks_may_help))
            for (long i = 0; i < places->count; i++)
                if (!goes_on[i]) {
                    *task = t;
                    return i;
                }
    return -1;
}

long places_path(long place, unsigned char *actions, long room) {
    long length = 0;
    for (long at = place; places->place[at].from >= 0; at = places->place[at].from)
        length++;
    if (length > room)
        return -1;
    long left = length;
    for (long at = place; places->place[at].from >= 0; at = places->place[at].from)
        actions[--left] = (unsigned char)places->place[at].action;
    return length;
}
