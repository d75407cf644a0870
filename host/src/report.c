#define _GNU_SOURCE
#include "report.h"
#include "run.h"
#include "coverage.h"
#include "findings.h"
#include "memory.h"
#include "names.h"
#include "options.h"
#include "places.h"
#include "process.h"
#include "search.h"
#include "stacks.h"
#include <errno.h>
#include <stdarg.h>
#include <stdatomic.h>
#include <stdio.h>
#include <stdlib.h>
#include <string.h>
#include <time.h>
#include <unistd.h>

enum { MOST_ENDS = 1 << 16 };
struct untried { /* of one kind: how many runs left something, and the first of them what */
    long count;
    uint64_t number;
    char words[1024];
};
/* Shared by those that play seeds side by side. */
static struct tally {
    atomic_flag taken;
    long runs, cut, turns, events, end_count;
    double told_at;
    uint64_t ends_sum, ends[MOST_ENDS];
    struct untried untried[LEFT_KINDS];
} *tally;
static double began;

static double seconds(void) {
    struct timespec now;
    clock_gettime(CLOCK_MONOTONIC, &now);
    return (double)now.tv_sec + (double)now.tv_nsec / 1e9;
}

void report_make(void) {
    tally = shared_room(sizeof *tally);
    began = seconds();
}

/* --- counting --- */

static void note_end(void) {
    size_t i = outcome->end & (MOST_ENDS - 1);
    while (tally->ends[i] != 0 && tally->ends[i] != outcome->end)
        i = (i + 1) & (MOST_ENDS - 1);
    if (tally->ends[i] == 0 && tally->end_count < MOST_ENDS / 2)
        tally->ends[i] = outcome->end, tally->end_count++, tally->ends_sum += outcome->end;
}

static void note_left(uint64_t number) {
    for (int kind = 0; kind < LEFT_KINDS; kind++) {
        struct untried *untried = &tally->untried[kind];
        if (outcome->left[kind][0] == '\0')
            continue;
        if (untried->count++ == 0 || number < untried->number) {
            untried->number = number;
            memcpy(untried->words, outcome->left[kind], sizeof untried->words);
        }
    }
}

void leave_untried(enum left kind, const char *form, ...) {
    va_list values;
    if (tally->untried[kind].count++ > 0)
        return;
    va_start(values, form);
    vsnprintf(tally->untried[kind].words, sizeof tally->untried[kind].words, form, values);
    va_end(values);
}

/* The second machine of fmpsim, which shares no queue and no timer with the one that the program ran on, has to say yes. */
static void judge(void) {
    char path[] = "/tmp/fmphost.XXXXXX", command[9000] = "", verdict[64] = "nothing\n";
    int file = mkstemp(path);
    if (file < 0)
        give_up("no file for a trace: %s", strerror(errno));
    close(file);
    write_trace(path);
    add_quoted(command, sizeof command, options.fmpsim);
    strcat(command, " check");
    add_quoted(command, sizeof command, options.configuration);
    add_quoted(command, sizeof command, path);
    FILE *judge = popen(command, "r");
    if (judge == NULL || fgets(verdict, sizeof verdict, judge) == NULL || strcmp(verdict, "yes\n") != 0) {
        verdict[strcspn(verdict, "\n")] = '\0';
        give_up("fmpsim check says %s of %s", verdict, path);
    }
    pclose(judge);
    unlink(path);
}

/* At a terminal one line that changes, else one a second. */
static void tell_progress(void) {
    static const char *const runs[] = {[BY_SEEDS] = "seeds", [BY_PLACES] = "steps", [BY_REPLAY] = "orders"};
    double now = seconds();
    bool changes = isatty(STDERR_FILENO);
    if ((!changes && !options.progress) || now - tally->told_at < 1 || now - began < 1)
        return;
    tally->told_at = now;
    fprintf(stderr, "%sfmphost: %ld %s so far, %ld turns, %.0f s%s", changes ? "\r" : "", tally->runs, runs[options.mode] ? runs[options.mode] : "orders",
            tally->turns, now - began, changes ? "\033[K" : "\n");
}

void end_progress(void) {
    if (tally->told_at > 0 && isatty(STDERR_FILENO))
        fputs("\r\033[K", stderr);
    tally->told_at = 0;
}

void note_run(uint64_t number, bool counts_end) {
    if (options.judged)
        judge();
    while (atomic_flag_test_and_set(&tally->taken))
        usleep(10);
    tally->runs++;
    tally->cut += outcome->ending == LIMIT;
    tally->turns += outcome->turns;
    tally->events += outcome->events;
    if (is_finding())
        note_finding(number);
    if (counts_end)
        note_end();
    note_left(number);
    tell_progress();
    atomic_flag_clear(&tally->taken);
}

void forget_runs(void) {
    forget_findings();
    memset(tally, 0, sizeof *tally);
}

/* --- telling --- */

static const char *where_left(enum left kind, char *into, size_t room) {
    if (kind == LEFT_TICKS)
        snprintf(into, room, "what comes after %ld tick%s of a processor: ", options.ticks, options.ticks == 1 ? "" : "s");
    else if (kind == LEFT_TURNS)
        snprintf(into, room, "what comes after %ld turns: ", options.turns);
    else
        snprintf(into, room, kind == LEFT_EVENTS ? "what comes after the events that there is room for: " : "");
    return into;
}

static bool tell_untried_of(const char *what, enum left kind) {
    const struct untried *untried = &tally->untried[kind];
    char where[128];
    if (untried->count == 0)
        return false;
    fprintf(stderr, "fmphost: not looked at: %s%s", where_left(kind, where, sizeof where), untried->words);
    if (untried->number > 0)
        fprintf(stderr, " (%s %llu", what, (unsigned long long)untried->number);
    if (untried->number > 0 && untried->count > 1)
        fprintf(stderr, ", and %ld more", untried->count - 1);
    fputs(untried->number > 0 ? ")\n" : "\n", stderr);
    return true;
}

/* What was cut off, by name. */
static bool tell_untried(const char *what, bool complete) {
    bool any = false;
    char handlers[1024];
    for (int kind = 0; kind < LEFT_KINDS; kind++)
        any |= tell_untried_of(what, (enum left)kind);
    if (!options.ticks_any && options.mode != BY_REPLAY && coverage_waited(handlers, sizeof handlers) && (any = true))
        fprintf(stderr, "fmphost: not looked at: handlers that had ticks left and never ran: %s\n", handlers);
    if (options.mode == BY_PREEMPTIONS && search_limited() && (any = true))
        fprintf(stderr, "fmphost: not looked at: orders in which a processor that could go on is left more than %ld times\n", options.preemptions);
    if (learned->full && (any = true))
        fprintf(stderr, "fmphost: not looked at: orders of accesses to more than %d words that are shared\n", MOST_LEARNED);
    if (!complete && tally->runs >= options.most_runs)
        fprintf(stderr, "fmphost: not looked at: %ss after the first %ld\n", what, tally->runs);
    return any;
}

/* What was looked at, where all of it was. */
static void tell_extent(void) {
    static const char *const ways[] = {[EVERY_ORDER] = "every order", [ALL_ORDERS] = "all orders", [BY_PREEMPTIONS] = "every order",
                                       [BY_PLACES] = "every place", [BY_REPLAY] = "in this order"};
    fputs(": nothing found", stderr);
    if (coverage_counted() && options.mode != BY_REPLAY)
        options.ticks_any ? fputs(" within any ticks", stderr) : fprintf(stderr, " within %ld tick%s", options.ticks, options.ticks == 1 ? "" : "s");
    if (options.mode == BY_SEEDS)
        fprintf(stderr, ", each of %ld seeds to its end\n", tally->runs);
    else
        fprintf(stderr, ", %s\n", ways[options.mode]);
}

int tell_summary(const char *what, bool complete) {
    double took = seconds() - began;
    end_progress();
    bool told = !found_so_far() || options.goes_on; /* else the search stopped at what it found */
    bool all = complete;
    if (told)
        all &= !tell_untried(what, complete);
    if (told && options.mode != BY_REPLAY)
        coverage_tell();
    if (told && fmphost_outside != NULL && fmphost_outside[0] != '\0')
        fprintf(stderr, "fmphost: not seen: what these do with memory: %s\n", fmphost_outside);
    if (options.stacks)
        stacks_tell();
    if (!instrumented)
        fputs("fmphost: the program was not compiled with -fsanitize=thread, so no race was looked for\n", stderr);
    fprintf(stderr, "fmphost: %ld %s%s, %ld turns, %ld events, %.2f s", tally->runs, what, tally->runs == 1 ? "" : "s", tally->turns, tally->events, took);
    if (options.mode == BY_PLACES)
        fprintf(stderr, ", %ld places", places->count);
    else if (search_pruned)
        fprintf(stderr, ", %ld of them left off", search_pruned);
    if (tally->cut)
        fprintf(stderr, ", %ld cut at %ld turns", tally->cut, options.turns);
    if (options.tells_ends)
        fprintf(stderr, ", %s%ld ends %016llx", tally->end_count == MOST_ENDS / 2 ? "at least " : "", tally->end_count, (unsigned long long)tally->ends_sum);
    if (options.goes_on && findings_count() > 1)
        fprintf(stderr, ", %ld findings", findings_count());
    if (!complete && tally->runs >= options.most_runs)
        fprintf(stderr, ", cut at %ld %ss", tally->runs, what);
    if (!found_so_far() && all)
        tell_extent();
    else
        fputs(found_so_far() ? (all ? "\n" : ", not all\n") : ": nothing found, but not all was looked at\n", stderr);
    return found_so_far() ? 5 : all ? 0 : 6;
}

/* --- files --- */

static _Noreturn void unwritten(const char *path) {
    give_up("%s: %s", path, strerror(errno));
}

void write_trace(const char *path) {
    FILE *file = fopen(path, "w");
    if (file == NULL || fwrite(trace_text, 1, (size_t)outcome->trace_length, file) != (size_t)outcome->trace_length || fclose(file) != 0)
        unwritten(path);
}

/* The line of the trace with this number, from its processor on. */
bool record_text(long record, char *into, uint64_t size) {
    const char *at = trace_text, *end = trace_text + outcome->trace_length;
    for (long i = 1; i < record && at < end; i++)
        at = (const char *)memchr(at, '\n', (size_t)(end - at)) + 1;
    if (at >= end)
        return false;
    const char *text = strchr(at, ' ') + 1;
    snprintf(into, size, "%.*s", (int)strcspn(text, "\n"), text);
    return true;
}

static void add_text(char *into, uint64_t size, const char *form, ...) __attribute__((format(printf, 3, 4)));
static void add_text(char *into, uint64_t size, const char *form, ...) {
    size_t length = strlen(into);
    va_list values;
    va_start(values, form);
    vsnprintf(into + length, size - length, form, values);
    va_end(values);
}

/* `= 3`; a number that may be one below zero is told both ways, and an address with the name of what is there. */
static void add_number(const struct turn *turn, char *into, uint64_t size) {
    uint64_t value = 0;
    memcpy(&value, turn->value, turn->size); /* of a machine with the low byte first */
    int64_t low = (int64_t)(value << (64 - 8 * turn->size)) >> (64 - 8 * turn->size);
    const char *name = turn->size == sizeof(void *) ? address_name(value) : NULL;
    if (name != NULL)
        add_text(into, size, " = 0x%llx (%s)", (unsigned long long)value, name);
    else if (low < 0)
        add_text(into, size, " = 0x%llx (%lld)", (unsigned long long)value, (long long)low);
    else
        add_text(into, size, " = %llu", (unsigned long long)value);
}

static void access_text(const struct turn *turn, char *into, uint64_t size) {
    snprintf(into, size, "%s %s %s", context_name(turn->context), turn->writes ? "writes" : "reads", variable_name(turn->at));
    if (!turn->valued)
        return;
    if (turn->size <= 8 && (turn->size & (turn->size - 1)) == 0) {
        add_number(turn, into, size);
        return;
    }
    for (unsigned i = 0; i < turn->size && i < MOST_VALUE; i++)
        add_text(into, size, "%s%02x", i ? " " : " = bytes ", turn->value[i]);
    add_text(into, size, turn->size > MOST_VALUE ? " .." : "");
}

/* `CTRL sus_tsk(COPY) E_OK ipi=2`, or `CTRL reads busy = 1`. */
void turn_text(long number, char *into, uint64_t size) {
    const struct turn *turn = &outcome->turn[number];
    char record[2048];
    if (turn->record > 0 && record_text(turn->record, record, sizeof record))
        snprintf(into, size, turn->ticks > 1 ? "%s   (%ld ticks)" : "%s", strchr(record, ' ') + 1, turn->ticks);
    else if (turn->size != 0)
        access_text(turn, into, size);
    else
        snprintf(into, size, "%s", context_name(turn->context));
}

static void write_order(const char *path) {
    static const char *const acts[] = {"go", "ipi", "tick"};
    char text[2048];
    FILE *file = fopen(path, "w");
    if (file == NULL)
        unwritten(path);
    fprintf(file, "# fmphost order: ticks %ld, joined %d, points", options.ticks, joins_returns);
    for (long i = 0; i < learned_before; i++)
        fprintf(file, " %lx", (unsigned long)learned->word[i]);
    fputc('\n', file);
    log_write(file, 0);
    for (long i = 0; i < outcome->turns; i++) {
        const struct turn *turn = &outcome->turn[i];
        turn_text(i, text, sizeof text);
        fprintf(file, "P%d %-5s%s", turn->action / ACTS + 1, acts[turn->action % ACTS], text);
        if (turn->place != 0)
            fprintf(file, "   [%s]", place_name(turn->place));
        fputc('\n', file);
        log_write(file, i + 1);
    }
    if (ferror(file) | fclose(file))
        unwritten(path);
}

/* The page that fmpsim view makes of the trace: one command leads from a finding to its picture. */
static void write_view(const char *path) {
    char trace[] = "/tmp/fmphost.XXXXXX", command[17000] = "";
    int file = mkstemp(trace);
    if (file < 0)
        give_up("no file for a trace: %s", strerror(errno));
    close(file);
    write_trace(trace);
    add_quoted(command, sizeof command, options.fmpsim);
    strcat(command, " view");
    add_quoted(command, sizeof command, options.configuration);
    add_quoted(command, sizeof command, trace);
    strcat(command, " >");
    add_quoted(command, sizeof command, path);
    int status = system(command);
    unlink(trace);
    if (status != 0)
        give_up("%s: fmpsim view failed: what it told stands above", path);
}

void write_files(void) {
    if (options.trace)
        write_trace(options.trace);
    if (options.order)
        write_order(options.order);
    if (options.view)
        write_view(options.view);
}
