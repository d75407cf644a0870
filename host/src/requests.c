#include "requests.h"
#include "contexts.h"
#include "memory.h"
#include "outcome.h"
#include "refused.h"
#include <stdlib.h>
#include <string.h>

/* The object that the first argument names, or -1. */
static int object_in(const struct context *me) {
    int kind = me->call->argument[0];
    if (kind < A_TASK || kind > A_SPIN_LOCK)
        return -1;
    if (kind == A_TASK && me->argument[0] == TSK_SELF)
        return me->processor == 0 ? me->object : -1;
    return object_of(kind - A_TASK, (int)me->argument[0]);
}

/* The name of what an argument is, or NULL where it is a number. */
static const char *argument_name(const struct context *me, int i, bool names) {
    int kind = me->call->argument[i];
    if (kind == A_MODE)
        return me->argument[i] == TWF_ANDW ? "TWF_ANDW" : "TWF_ORW";
    if (!names || kind < A_TASK || kind > A_SPIN_LOCK)
        return NULL;
    if (kind == A_TASK && me->argument[i] == TSK_SELF)
        return "TSK_SELF";
    int object = object_of(kind - A_TASK, (int)me->argument[i]);
    return object < 0 ? NULL : fmphost_objects[object].name;
}

static void write_request(const struct context *me, char *at, const char *end, bool names) {
    at += snprintf(at, (size_t)(end - at), me->call->does & RETURNS ? "%s" : "%s(", me->call->name);
    for (int i = 0; i < MOST_ARGUMENTS && me->call->argument[i] != A_NOTHING; i++) {
        const char *comma = i > 0 ? ", " : "", *name = argument_name(me, i, names);
        if (name != NULL)
            at += snprintf(at, (size_t)(end - at), "%s%s", comma, name);
        else
            at += snprintf(at, (size_t)(end - at), "%s%lld", comma, (long long)me->argument[i]);
        if (at >= end)
            return;
    }
    if (!(me->call->does & RETURNS))
        snprintf(at, (size_t)(end - at), ")");
}

const char *request_text(const struct context *me) {
    static char text[1024];
    write_request(me, text, text + sizeof text, true);
    return text;
}

void request_of(struct context *me, const void *place, enum call_number number, const int64_t *arguments) {
    me->call = &calls[number];
    memcpy(me->argument, arguments, sizeof me->argument);
    me->next = CALL;
    me->named = object_in(me);
    me->place = (uintptr_t)place;
    write_request(me, me->request, me->request + sizeof me->request, false);
}

void request(const void *place, enum call_number number, const int64_t *arguments) {
    if (running == NULL)
        give_up("a service call outside tasks and handlers, as in a constructor or an atexit function");
    request_of(running, place, number, arguments);
}

ER reply(void) {
    context_stop();
    refused_call(running->code);
    return running->code;
}

int64_t told(void) {
    return running->value;
}

int block_at(ID mpfid, const void *block) {
    int pool = object_of(FMPHOST_MPF, mpfid);
    if (pool < 0)
        return -1;
    const struct fmphost_object *own = &fmphost_objects[pool];
    uintptr_t from = (uintptr_t)own->memory, at = (uintptr_t)block;
    if (at < from || at >= from + (size_t)own->blocks * own->size || (at - from) % own->size != 0)
        return -1;
    return (int)((at - from) / own->size);
}

void *block_of(ID mpfid, int block) {
    const struct fmphost_object *own = &fmphost_objects[object_of(FMPHOST_MPF, mpfid)];
    return own->memory + (size_t)block * own->size;
}

void stores(const void *place, void *at, size_t size) {
    memory_touch((uintptr_t)at, (unsigned)size, true, false, (uintptr_t)place);
}
