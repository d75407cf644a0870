#include "coverage.h"
#include "names.h"
#include "outcome.h"
#include "proved.h"
#include <stdio.h>
#include <string.h>

/* Where the code of the project's files is: the linker has the bounds of its section. */
extern char __start_fmphost_project[] __attribute__((weak)), __stop_fmphost_project[] __attribute__((weak));
enum { MOST_TOLD = 20 };
static struct coverage {
    bool began[MOST_OBJECTS], counted[MOST_OBJECTS];
    unsigned char function[]; /* by where its code begins; 2 where that was before all runs */
} *coverage;

static size_t code_size(void) {
    return (size_t)(__stop_fmphost_project - __start_fmphost_project);
}

/* A function may run before main does: a constructor. */
static void make_room(void) {
    if (coverage == NULL)
        coverage = shared_room(sizeof *coverage + code_size() + 1);
}

void coverage_function(uintptr_t code) {
    if (code < (uintptr_t)__start_fmphost_project || code >= (uintptr_t)__stop_fmphost_project)
        return;
    make_room();
    coverage->function[code - (uintptr_t)__start_fmphost_project] |= 1;
}

void coverage_make(void) {
    make_room();
    for (size_t i = 0; i < code_size(); i++)
        if (coverage->function[i])
            coverage->function[i] = 2;
}

void coverage_forget(void) {
    memset(coverage->began, 0, sizeof coverage->began);
    memset(coverage->counted, 0, sizeof coverage->counted);
    for (size_t i = 0; i < code_size(); i++)
        coverage->function[i] &= 2;
}

void coverage_object(int object) {
    coverage->began[object] = true;
}

void coverage_counts(int object) {
    coverage->counted[object] = true;
}

/* --- telling --- */

static bool is_handler(int object) {
    return fmphost_objects[object].kind == FMPHOST_CYC || fmphost_objects[object].kind == FMPHOST_ALM;
}

bool coverage_waited(char *words, unsigned long room) {
    size_t length = 0;
    for (int i = 0; i < fmphost_object_count && length < room; i++)
        if (is_handler(i) && coverage->counted[i] && !coverage->began[i])
            length += (size_t)snprintf(words + length, room - length, "%s%s", length ? ", " : "", fmphost_objects[i].name);
    return length > 0;
}

bool coverage_counted(void) {
    for (int i = 0; i < fmphost_object_count; i++)
        if (coverage->counted[i])
            return true;
    return false;
}

/* Names behind one another, each kind behind its word; not more of one than a line is good for. */
static struct { const char *kind; long of_kind, all; } told;

static void end_kind(void) {
    if (told.of_kind > MOST_TOLD)
        fprintf(stderr, " and %ld more", told.of_kind - MOST_TOLD);
    told.of_kind = 0;
}

static void add_name(const char *name) {
    if (told.all == 0)
        fputs("fmphost: never ran:", stderr);
    if (told.of_kind == 0)
        fprintf(stderr, "%s %s %s", told.all ? ";" : "", told.kind, name);
    else if (told.of_kind < MOST_TOLD)
        fprintf(stderr, ", %s", name);
    told.of_kind++, told.all++;
}

static void tell_objects(const char *kind, bool handlers) {
    told.kind = kind;
    for (int i = 0; i < fmphost_object_count; i++)
        if ((handlers ? is_handler(i) : fmphost_objects[i].kind == FMPHOST_TASK) && !coverage->began[i])
            add_name(fmphost_objects[i].name);
    end_kind();
}

/* What the compiler and the linker add is none of the project's functions. */
static void tell_function(uintptr_t code, const char *name) {
    bool added = strchr(name, '.') != NULL || strncmp(name, "_sub_", 5) == 0 || strncmp(name, "_GLOBAL_", 8) == 0 || strncmp(name, "__start_", 8) == 0;
    if (code >= (uintptr_t)__start_fmphost_project && code < (uintptr_t)__stop_fmphost_project && !added &&
        !coverage->function[code - (uintptr_t)__start_fmphost_project])
        add_name(name);
}

void coverage_tell(void) {
    tell_objects("tasks", false);
    tell_objects("handlers", true);
    told.kind = "functions";
    each_function(tell_function);
    end_kind();
    if (told.all > 0)
        fputc('\n', stderr);
}
