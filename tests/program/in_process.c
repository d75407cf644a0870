/* Steps the machine of the library, for tests/program/in_process.py.
 *
 *     in_process text CFG       each line of the input is an event; its line of the trace is written, and below it what the structures tell
 *     in_process numbers CFG    the same, each line of the input has the numbers of an event
 *     in_process again CFG N    N events; then the state is saved, the others are answered, the state is restored, they are answered once more, and so
 *                               they are by the machine into which it was saved: the three have to write the same
 *     in_process states CFG     the state at boot and behind each event, as calls --state writes them
 *     in_process wrong CFG      what is wrong, with what it is answered
 *     in_process count CFG N    how long a tick takes, by N of them */
#include "fmp.h"
#include <stdio.h>
#include <stdlib.h>
#include <string.h>
#include <time.h>

static fmp_machine machine = FMP_NO_MACHINE;
static char config[FMP_GREATEST_TEXT + 2], room[1 << 20];

static size_t read_file(const char *path, char *into, size_t size) {
    FILE *file = strcmp(path, "-") ? fopen(path, "rb") : stdin;
    size_t length = file == NULL ? 0 : fread(into, 1, size, file);
    if (file == NULL) {
        perror(path);
        exit(3);
    }
    fclose(file);
    return length;
}

static int make(fmp_machine *at, const char *path) {
    fmp_fault fault = {0, 0, 0};
    size_t length = read_file(path, config, sizeof config);
    int answer = fmp_make(at, config, length, &fault);
    if (answer != FMP_OK)
        printf("answer %d kind %u line %u left %zu\n", answer, fault.kind, fault.line, fault.left);
    return answer;
}

static void write_line(fmp_machine *at) {
    size_t written = 0;
    int answer = fmp_line(at, room, FMP_GREATEST_LINE, &written);
    if (answer == FMP_OK)
        fwrite(room, 1, written, stdout);
    else
        printf("no line: %d\n", answer);
}

static void write_record(const fmp_record *record) {
    printf("  %u P%u runner %u:%u said %u code %d", record->number, record->processor, record->runner_kind, record->runner, record->said, record->code);
    if (record->has_value)
        printf(" value %lld", (long long)record->value);
    for (size_t i = 0; i < record->releases; i++) {
        fmp_release release;
        if (fmp_release_of(&machine, i, &release) != FMP_OK)
            exit(4);
        printf(" rel %u:%d", release.task, release.code);
        if (release.has_value)
            printf(":%lld", (long long)release.value);
    }
    if (record->has_lost)
        printf(" lost %lld", (long long)record->lost);
    if (record->run_changed)
        printf(" run %u", record->run);
    for (size_t i = 0; i < record->requests; i++)
        printf(" ipi %u", fmp_request_of(&machine, i));
    fmp_release none;
    if (fmp_release_of(&machine, record->releases, &none) != FMP_NOTHING || fmp_request_of(&machine, record->requests) != 0)
        printf(" more");
    printf("\n");
}

static char *next_line(char **at) {
    char *line = *at;
    if (line == NULL || *line == '\0')
        return NULL;
    char *end = strchr(line, '\n');
    *at = end == NULL ? NULL : end + 1;
    if (end != NULL)
        *end = '\0';
    return line;
}

static char events[1 << 20];

static void by_text(fmp_machine *at, char *line, int tells) {
    fmp_record record;
    int answer = fmp_step_text(at, line, strlen(line), &record);
    if (answer != FMP_OK)
        printf("answer %d\n", answer);
    else if (tells >= 0) {
        write_line(at);
        if (tells)
            write_record(&record);
    }
}

static void by_numbers(char *line) {
    fmp_event event;
    fmp_record record;
    long long a, b, c, d;
    if (sscanf(line, "%u %u %lld %lld %lld %lld", &event.processor, &event.event, &a, &b, &c, &d) != 6)
        exit(4);
    event.arguments[0] = a, event.arguments[1] = b, event.arguments[2] = c, event.arguments[3] = d;
    int answer = fmp_step(&machine, &event, &record);
    if (answer != FMP_OK) {
        printf("answer %d\n", answer);
        return;
    }
    write_line(&machine);
    write_record(&record);
}

static void write_state(void) {
    size_t written = 0;
    int answer = fmp_state(&machine, room, sizeof room, &written);
    if (answer == FMP_OK)
        fwrite(room, 1, written, stdout);
    else
        printf("no state: %d\n", answer);
}

static void again(const char *path, long first) {
    fmp_machine saved = FMP_NO_MACHINE;
    char *at = events, *line;
    if (make(&saved, path) != FMP_OK)
        exit(4);
    for (long i = 0; i < first && (line = next_line(&at)) != NULL; i++)
        by_text(&machine, line, -1);
    static char copy[1 << 20];
    for (int turn = 0; turn < 3; turn++) {
        int answer = turn == 0 ? fmp_copy(&machine, &saved) : turn == 1 ? fmp_copy(&saved, &machine) : FMP_OK;
        fmp_machine *who = turn < 2 ? &machine : &saved;
        size_t none;
        if (answer != FMP_OK || (turn == 1 && fmp_line(&machine, room, sizeof room, &none) != FMP_NOTHING))
            printf("copied: %d\n", answer);
        printf("turn\n");
        if (at != NULL)
            strcpy(copy, at);
        char *rest = at == NULL ? NULL : copy;
        while ((line = next_line(&rest)) != NULL)
            by_text(who, line, 0);
    }
    fmp_free(&saved);
}

static void say(const char *what, int answer) {
    printf("%s: %d\n", what, answer);
}

static void wrong(const char *path) {
    fmp_machine none = FMP_NO_MACHINE, other = FMP_NO_MACHINE;
    fmp_event event = {1, FMP_TICK, {0, 0, 0, 0}}, bad = event;
    fmp_record record;
    fmp_fault fault;
    fmp_release release;
    size_t written = 77;
    const char *one = "PROCESSORS(1);";
    say("step without a machine", fmp_step(&none, &event, &record));
    say("line without a machine", fmp_step_text(&none, "P1 tick", 7, &record));
    say("its line", fmp_line(&none, room, sizeof room, &written));
    say("its state", fmp_state(&none, room, sizeof room, &written));
    say("its release", fmp_release_of(&none, 0, &release));
    say("its request", (int)fmp_request_of(&none, 0));
    say("copy from none", fmp_copy(&none, &machine));
    say("copy into none", fmp_copy(&machine, &none));
    fmp_free(&none);
    say("line at boot", fmp_line(&machine, room, sizeof room, &written));
    say("release at boot", fmp_release_of(&machine, 0, &release));
    bad.processor = 0;
    say("processor 0", fmp_step(&machine, &bad, &record));
    bad.processor = 9;
    say("processor 9", fmp_step(&machine, &bad, &record));
    bad.processor = 8;
    say("processor 8 of 2", fmp_step(&machine, &bad, &record));
    bad = event, bad.event = 0;
    say("event 0", fmp_step(&machine, &bad, &record));
    bad.event = 81;
    say("event 81", fmp_step(&machine, &bad, &record));
    bad.event = 1, bad.arguments[0] = 1LL << 31;
    say("a task of 2147483648", fmp_step(&machine, &bad, &record));
    bad.arguments[0] = -(1LL << 31) - 1;
    say("a task of -2147483649", fmp_step(&machine, &bad, &record));
    bad.event = 26, bad.arguments[0] = 1, bad.arguments[1] = -1;
    say("a pattern of -1", fmp_step(&machine, &bad, &record));
    bad.arguments[1] = 1LL << 32;
    say("a pattern of 4294967296", fmp_step(&machine, &bad, &record));
    bad.event = 29, bad.arguments[1] = 1, bad.arguments[2] = 0;
    say("a mode of 0", fmp_step(&machine, &bad, &record));
    bad.arguments[2] = 3;
    say("a mode of 3", fmp_step(&machine, &bad, &record));
    say("an empty line", fmp_step_text(&machine, "", 0, &record));
    say("a comment", fmp_step_text(&machine, "# P1 tick", 9, &record));
    say("a line that is cut", fmp_step_text(&machine, "P1 tick", 6, &record));
    say("two lines", fmp_step_text(&machine, "P1 tick\nP1 tick", 15, &record));
    say("still at boot", fmp_line(&machine, room, sizeof room, &written));
    say("an event", fmp_step_text(&machine, "P1 tick", 7, &record));
    memset(room, '*', 64);
    say("a room that is one byte short", fmp_line(&machine, room, 17, &written));
    printf("%.4s %zu\n", room, written);
    say("a room that is right", fmp_line(&machine, room, 18, &written));
    printf("%.18s %zu\n", room, written);
    say("a state in no room", fmp_state(&machine, room, 0, &written));
    say("a text at fault", fmp_make(&other, "PROCESSORS(1);\nCRE_TSK(T, {TA_NULL});", 37, &fault));
    printf("kind %u line %u left %zu\n", fault.kind, fault.line, fault.left);
    say("an empty text", fmp_make(&other, "", 0, &fault));
    printf("kind %u line %u\n", fault.kind, fault.line);
    memset(config, ' ', sizeof config);
    say("a text that is too long", fmp_make(&other, config, FMP_GREATEST_TEXT + 1, &fault));
    printf("kind %u line %u\n", fault.kind, fault.line);
    say("then no machine", fmp_step(&other, &event, &record));
    say("another configuration", fmp_make(&other, one, strlen(one), &fault));
    say("a copy of another configuration", fmp_copy(&machine, &other));
    say("a copy of itself", fmp_copy(&machine, &machine));
    say("nulls", fmp_make(NULL, "", 0, &fault) + fmp_make(&other, NULL, 0, &fault) + fmp_make(&other, "", 0, NULL) + fmp_step(NULL, &event, &record)
        + fmp_step(&machine, NULL, &record) + fmp_step(&machine, &event, NULL) + fmp_step_text(NULL, "", 0, &record) + fmp_step_text(&machine, NULL, 0, &record)
        + fmp_step_text(&machine, "", 0, NULL) + fmp_line(NULL, room, 1, &written) + fmp_line(&machine, NULL, 1, &written) + fmp_line(&machine, room, 1, NULL)
        + fmp_state(NULL, room, 1, &written) + fmp_state(&machine, NULL, 1, &written) + fmp_state(&machine, room, 1, NULL) + fmp_copy(NULL, &machine)
        + fmp_copy(&machine, NULL) + fmp_release_of(NULL, 0, &release) + fmp_release_of(&machine, 0, NULL));
    fmp_free(NULL);
    fmp_free(&other);
    fmp_free(&other);
    say("made twice", make(&machine, path));
    say("at boot again", fmp_line(&machine, room, sizeof room, &written));
}

static void count(long turns) {
    fmp_event tick = {1, FMP_TICK, {0, 0, 0, 0}};
    fmp_record record;
    clock_t from = clock();
    for (long i = 0; i < turns; i++)
        fmp_step(&machine, &tick, &record);
    printf("%.0f ns a tick\n", (double)(clock() - from) * 1e9 / CLOCKS_PER_SEC / (double)turns);
}

int main(int words, char **word) {
    if (words < 3 || make(&machine, word[2]) != FMP_OK)
        return 2;
    const char *what = word[1];
    if (!strcmp(what, "wrong"))
        wrong(word[2]);
    else if (!strcmp(what, "count"))
        count(strtol(word[3], NULL, 10));
    else {
        events[read_file("-", events, sizeof events - 1)] = '\0';
        char *at = events, *line;
        if (!strcmp(what, "again"))
            again(word[2], strtol(word[3], NULL, 10));
        if (!strcmp(what, "states"))
            write_state();
        while (strcmp(what, "again") && (line = next_line(&at)) != NULL) {
            if (!strcmp(what, "numbers"))
                by_numbers(line);
            else
                by_text(&machine, line, !strcmp(what, "text"));
            if (!strcmp(what, "states"))
                write_state();
        }
    }
    fmp_free(&machine);
    return 0;
}
