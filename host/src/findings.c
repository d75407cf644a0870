#include "findings.h"
#include "choices.h"
#include "memory.h"
#include "names.h"
#include "process.h"
#include "report.h"
#include <stdio.h>
#include <stdlib.h>
#include <string.h>

enum { MOST_FINDINGS = 64 };
struct finding {
    enum ending ending;
    uint64_t number, trace_hash;
    long count;
    char words[1024];
    struct access race[2];
    uintptr_t crash, last;
    long learned, turns; /* what was known when its run began, and that run */
    unsigned char action[MOST_TURNS];
};
/* Shared by those that play seeds side by side. */
static struct findings {
    long count, kinds;
    struct finding finding[MOST_FINDINGS];
} *findings;

void findings_make(void) {
    findings = shared_room(sizeof *findings);
}

void forget_findings(void) {
    findings->count = findings->kinds = 0;
}

bool found_so_far(void) {
    return findings->count > 0;
}

long findings_count(void) {
    return findings->count;
}

static bool is_alike(const struct finding *one) {
    if (one->ending != outcome->ending)
        return false;
    if (one->ending == RACE)
        return one->race[0].place == outcome->race[0].place && one->race[1].place == outcome->race[1].place;
    return strncmp(one->words, outcome->words, sizeof one->words - 1) == 0;
}

static void keep(struct finding *found, uint64_t number, long count) {
    found->ending = outcome->ending;
    found->number = number;
    found->trace_hash = outcome->trace_hash;
    found->count = count;
    found->crash = outcome->crash;
    found->last = outcome->last;
    found->learned = learned_before;
    found->turns = outcome->turns;
    snprintf(found->words, sizeof found->words, "%.1000s", outcome->words);
    memcpy(found->race, outcome->race, sizeof found->race);
    for (long i = 0; i < outcome->turns; i++)
        found->action[i] = outcome->turn[i].action;
}

void note_finding(uint64_t number) {
    findings->count++;
    for (long i = 0; i < findings->kinds; i++) {
        struct finding *found = &findings->finding[i];
        if (!is_alike(found))
            continue;
        if (number < found->number)
            keep(found, number, found->count + 1);
        else
            found->count++;
        return;
    }
    if (findings->kinds < MOST_FINDINGS)
        keep(&findings->finding[findings->kinds++], number, 1);
}

static int earliest(uint64_t above) {
    int best = -1;
    for (int i = 0; i < findings->kinds; i++)
        if (findings->finding[i].number >= above && (best < 0 || findings->finding[i].number < findings->finding[best].number))
            best = i;
    return best;
}

/* --- made again --- */

/* By its turns, and with what was known when it began. That one waits for ever whatever comes is no end of the run itself. */
static bool does_the_same(const struct finding *found) {
    learned_only(found->learned);
    path.length = found->turns;
    memcpy(path.action, found->action, (size_t)found->turns);
    kept->valid = 0;
    recording = true;
    process_run(by_path);
    return outcome->trace_hash == found->trace_hash && (found->ending == ASLEEP || outcome->ending == found->ending);
}

/* --- telling --- */

static void tell_callers(const struct callers *callers) {
    for (int i = 0, same; i < callers->count; i += same) {
        for (same = 1; i + same < callers->count && callers->place[i + same] == callers->place[i];)
            same++;
        fprintf(stderr, "fmphost:     called from %s", place_name(callers->place[i]));
        fprintf(stderr, same > 1 ? ", %d times\n" : "\n", same);
    }
    if (callers->more)
        fputs("fmphost:     and from further ones\n", stderr);
}

static void tell_access(const struct access *access) {
    fprintf(stderr, "fmphost:   %s on P%d %s it: %s\n", context_name(access->context), access->processor, access->frees ? "frees" : access->writes ? "writes" : "reads", place_name(access->place));
    tell_callers(&access->callers);
}

static void tell_finding(const struct finding *found) {
    if (found->ending == RACE) {
        const struct access *race = found->race;
        fprintf(stderr, "fmphost: race on %s, %u bytes at 0x%lx: nothing orders these two\n", variable_name(race->at), race->size, (unsigned long)race->at);
        tell_access(&outcome->race[0]);
        tell_access(&outcome->race[1]);
        return;
    }
    fprintf(stderr, "fmphost: %s%s%s\n", found->words, found->crash ? ": " : "", found->crash ? place_name(found->crash) : "");
    if (found->last && found->last != found->crash)
        fprintf(stderr, "fmphost:   its last call or access: %s\n", place_name(found->last));
    tell_callers(&outcome->callers);
}

static void tell_one(const char *what, const struct finding *found) {
    fprintf(stderr, "fmphost: %s %llu", what, (unsigned long long)found->number);
    if (options.goes_on && found->count > 1)
        fprintf(stderr, ", and %ld more", found->count - 1);
    fputc('\n', stderr);
    tell_finding(found);
    if (options.logs)
        log_tell();
}

void tell_unsteady(void) {
    fputs("fmphost: it does not do the same again: does the program use the time, a random number, or what it left in a file?\n", stderr);
}

/* With --all one of each kind. What seeds beside the first one found is not told without it, as that is chance. */
bool tell_findings(const char *what) {
    int first = earliest(0);
    for (int i = first; i >= 0; i = options.goes_on ? earliest(findings->finding[i].number + 1) : -1) {
        if (!does_the_same(&findings->finding[i])) {
            fprintf(stderr, "fmphost: %s %llu\n", what, (unsigned long long)findings->finding[i].number);
            tell_unsteady();
            return false;
        }
        tell_one(what, &findings->finding[i]);
        if (i == first)
            write_files();
    }
    if (findings->kinds == MOST_FINDINGS)
        fprintf(stderr, "fmphost: and perhaps other kinds: there is room for %d\n", MOST_FINDINGS);
    return true;
}

void tell_replayed(const char *what) {
    tell_one(what, &findings->finding[0]);
}
