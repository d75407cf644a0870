#include "until.h"
#include "names.h"
#include "outcome.h"
#include "requests.h"
#include "run.h"
#include <stdio.h>

/* A breakpoint stands here. It is called on the stack of whoever goes on next, so that its callers are the project's functions. */
__attribute__((visibility("default"), noinline)) void fmphost_until(void);
void fmphost_until(void) {
    __asm__ volatile("");
}

static void tell_context(const struct context *who) {
    const char *name = context_name((int)(who - contexts));
    if (who->next == CALL)
        fprintf(stderr, "%s, before %s: %s\n", name, request_text(who), place_name(who->place));
    else if (who->next == ACCESS)
        fprintf(stderr, "%s, before it %s %s: %s\n", name, who->writes ? "writes" : "reads", variable_name(who->at), place_name(who->place));
    else
        fprintf(stderr, "%s: %s\n", name, place_name(who->place));
}

static void tell_processors(void) {
    for (int p = 1; p <= fmphost_processors; p++) {
        fprintf(stderr, "fmphost:   P%d: ", p);
        if (run_current(p) != NULL)
            tell_context(run_current(p));
        else
            fputs("idle\n", stderr);
    }
}

static void tell_waits(void) {
    for (int i = 0; i < context_count; i++)
        if (contexts[i].waits)
            fprintf(stderr, "fmphost:   %s waits in %s: %s\n", context_name(i), request_text(&contexts[i]), place_name(contexts[i].place));
}

void stop_before(const char *path, long line, int action) {
    static const char *const acts[] = {"goes on", "takes its interrupt", "takes its tick"};
    fprintf(stderr, "fmphost: %s:%ld: here P%d %s\n", path, line, action / ACTS + 1, acts[action % ACTS]);
    tell_processors();
    tell_waits();
    if (action % ACTS == GO)
        context_show(run_current(action / ACTS + 1), fmphost_until);
    else
        fmphost_until();
}
