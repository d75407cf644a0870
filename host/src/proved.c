#define _GNU_SOURCE
#include "proved.h"
#include "machine.h"
#include "outcome.h"
#include "process.h"
#include <errno.h>
#include <stdio.h>
#include <stdlib.h>
#include <string.h>
#include <sys/wait.h>

char *trace_text;
long trace_length, answers;
struct kept_answers *kept;

static const char *kernel_program;
static long unread; /* answers that were known from the run before, and are not passed over yet */

/* --- another use of fmpsim: what it writes on these words --- */

static char *read_all(FILE *pipe) {
    char *text = NULL;
    size_t length = 0, got;
    do {
        text = realloc(text, length + 4097);
        if (text == NULL)
            give_up("no memory");
        got = fread(text + length, 1, 4096, pipe);
        length += got;
    } while (got > 0);
    text[length] = '\0';
    return text;
}

static char *output_of(const char *word, const char *path) {
    char command[9000] = "";
    add_quoted(command, sizeof command, kernel_program);
    add_quoted(command, sizeof command, word);
    if (path != NULL)
        add_quoted(command, sizeof command, path);
    FILE *pipe = popen(command, "r");
    if (pipe == NULL)
        give_up("no process could be started: %s", strerror(errno));
    char *text = read_all(pipe);
    int status = pclose(pipe);
    if (WIFEXITED(status) && (WEXITSTATUS(status) == 127 || WEXITSTATUS(status) == 126))
        give_up("%s is not found: name fmpsim with --fmpsim or FMPSIM", kernel_program);
    if (status != 0)
        give_up("fmpsim %s failed: what it told stands above", word);
    return text;
}

/* The numbers of objects stand in the program's code, so they have to be those of the configuration that the kernel reads now. */
void proved_check(const char *program, const char *configuration) {
    kernel_program = program;
    char path[5000];
    snprintf(path, sizeof path, "%s%s", strchr(configuration, '/') ? "" : "./", configuration); /* else it would be a name that list knows */
    char *version = output_of("--version", NULL), *listed = output_of("list", path);
    version[strcspn(version, "\n")] = '\0';
    if (strncmp(version, fmphost_version, strlen(fmphost_version)) != 0)
        give_up("this is %s, and kernel_cfg.c was made with %s: make it anew", version, fmphost_version);
    if (hash_text(listed, listed + strlen(listed)) != fmphost_listed)
        give_up("%s is not what kernel_cfg.c was made of: make it anew", configuration);
    free(version);
    free(listed);
}

/* --- answers, heard or kept --- */

/* Passes over the answers to events whose answers were known. */
static void catch_up(void) {
    machine_skip(unread);
    unread = 0;
}

static void keep(const char *line) {
    size_t length = strlen(line);
    if (kept->used + (long)length + 1 >= ANSWER_ROOM)
        give_up("the answers of one run are too many to keep: --turns makes runs shorter");
    memcpy(kept->text + kept->used, line, length);
    kept->text[kept->used + (long)length] = '\n';
    kept->used += (long)length + 1;
}

static void note_trace(const char *line, size_t length) {
    if (trace_length + (long)length + 1 >= ANSWER_ROOM)
        give_up("the trace of one run is too long: --turns makes runs shorter");
    memcpy(trace_text + trace_length, line, length);
    trace_text[trace_length + (long)length] = '\n';
    trace_length += (long)length + 1;
}

static void take(const char *line, struct answer *answer, bool first) {
    if (first) {
        note_trace(line, strlen(line));
        read_record(line, answer);
        state_begin();
    } else
        state_line(line);
}

static void take_kept(long number, struct answer *answer, bool boot) {
    static char line[1 << 16];
    bool first = !boot;
    if (boot)
        state_begin();
    for (const char *at = kept->text + kept->at[number];;) {
        size_t length = strcspn(at, "\n");
        memcpy(line, at, length);
        line[length] = '\0';
        at += length + 1;
        if (!strcmp(line, "  end"))
            return;
        take(line, answer, first);
        first = false;
    }
}

static void take_heard(struct answer *answer, bool boot) {
    bool first = !boot;
    if (boot)
        state_begin();
    for (;;) {
        const char *line = machine_hear();
        keep(line);
        if (!strcmp(line, "  end"))
            return;
        take(line, answer, first);
        first = false;
    }
}

/* The answer of this number, kept from the run before or heard. That at boot is number 0, and answers no event. */
static void next_answer(struct answer *answer, uint64_t event) {
    long number = answers;
    answers++;
    if (number < kept->valid) {
        if (kept->asked[number] != event)
            give_up("the program does not do the same again: does it use the time, a random number, or what it left in a file?");
        take_kept(number, answer, event == 0);
        unread++;
        return;
    }
    catch_up();
    if (number >= MOST_EVENTS)
        give_up("too many events in one run: --turns makes runs shorter");
    kept->used = number == 0 ? 0 : kept->used;
    kept->at[number] = kept->used;
    kept->asked[number] = event;
    take_heard(answer, event == 0);
    kept->count = kept->valid = number + 1;
}

const struct answer *proved_event(int processor, const char *event) {
    static struct answer answer;
    char line[GREATEST_EVENT];
    int length = snprintf(line, sizeof line, "P%d %s\n", processor, event);
    uint64_t asked = hash_text(line, line + length);
    if (machine_ask(line, length) > MACHINE_WAITS - GREATEST_EVENT)
        catch_up();
    next_answer(&answer, asked);
    return &answer;
}

void proved_start(void) {
    if (kept->valid < kept->count)
        kept->used = kept->at[kept->valid];
    struct answer none;
    next_answer(&none, 0);
}

bool proved_full(void) {
    return answers > MOST_EVENTS - 2 || kept->used > ANSWER_ROOM - ROOM_LEFT || trace_length > ANSWER_ROOM - ROOM_LEFT;
}

void proved_stop(void) {
    machine_stop();
}
