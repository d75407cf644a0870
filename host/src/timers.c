#include "timers.h"
#include <string.h>

static unsigned char assigned[MOST_OBJECTS];

void timers_begin(void) {
    for (int i = 0; i < fmphost_object_count; i++)
        assigned[i] = (unsigned char)fmphost_objects[i].processor;
    timers_event(NULL, false);
}

/* A task that is on a processor is assigned there. One that waits, and a handler, stay where they are but for calls that move them. */
void timers_event(const struct context *caller, bool accepted) {
    for (int i = 0; i < fmphost_object_count; i++)
        if (state.on[i] != 0)
            assigned[i] = (unsigned char)state.on[i];
    if (!accepted || !(caller->call->does & MOVES) || (caller->call->does & ACTIVATES))
        return;
    int64_t to = caller->argument[call_argument(caller->call, A_PROCESSOR)];
    if (state.on[caller->named] == 0)
        assigned[caller->named] = (unsigned char)(to == 0 ? fmphost_objects[caller->named].processor : to);
}

int assigned_to(int object) {
    return assigned[object];
}

bool counts(int object) {
    return state.counting[object] || (fmphost_objects[object].counts && !state.stopped[object]);
}

bool counts_on(int processor) {
    for (int i = 0; i < fmphost_object_count; i++)
        if (counts(i) && processor == (fmphost_master ? fmphost_master : assigned[i]))
            return true;
    return false;
}

bool something_counts(void) {
    for (int i = 0; i < fmphost_object_count; i++)
        if (counts(i))
            return true;
    return false;
}
