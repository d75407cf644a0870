/* The kernel in this process: the library fmp. A run is a process of its own, so the machine that is made before all runs is at boot in each. */
#include "machine.h"
#include "call_numbers.h"
#include "fmp.h"
#include "outcome.h"
#include <stdio.h>
#include <string.h>

_Static_assert((int)RET_HDR == (int)FMP_RET_HDR, "the calls have the numbers of fmp.h");

static fmp_machine machine = FMP_NO_MACHINE;
static char asked[MACHINE_WAITS]; /* events that are not answered yet */
static long asked_from, asked_to;
static bool booted;              /* what is answered at boot was heard, or passed over */
static char heard[1 << 18];
static size_t heard_from, heard_to;

void machine_prepare(const char *program, const char *configuration) {
    (void)program;
    static char text[FMP_GREATEST_TEXT + 1];
    FILE *file = fopen(configuration, "rb");
    if (file == NULL)
        give_up("%s cannot be read", configuration);
    size_t length = fread(text, 1, sizeof text, file);
    fclose(file);
    fmp_fault fault;
    if (fmp_make(&machine, text, length, &fault) != FMP_OK)
        give_up("the library makes no machine of %s: fault F%u in line %u", configuration, fault.kind, fault.line);
}

long machine_ask(const char *event, long length) {
    memmove(asked, asked + asked_from, (size_t)(asked_to - asked_from));
    asked_to -= asked_from;
    asked_from = 0;
    memcpy(asked + asked_to, event, (size_t)length);
    asked_to += length;
    return asked_to;
}

/* What the library writes after what is heard already: the line of the last event, or the state. */
static void add_text(int writes(fmp_machine *, char *, size_t, size_t *)) {
    size_t written = 0;
    int answer = writes(&machine, heard + heard_to, sizeof heard - heard_to, &written);
    if (answer != FMP_OK)
        give_up("the library does not tell what it did: %d", answer);
    heard_to += written;
}

/* Answers the next event, or tells what is there at boot. */
static void answer_next(bool tells) {
    heard_from = heard_to = 0;
    if (booted) {
        const char *event = asked + asked_from, *end = memchr(event, '\n', (size_t)(asked_to - asked_from));
        fmp_record record;
        int answer = end == NULL ? FMP_LINE : fmp_step_text(&machine, event, (size_t)(end - event), &record);
        if (answer != FMP_OK)
            give_up("the library does not answer %.*s: %d", end == NULL ? 0 : (int)(end - event), event, answer);
        asked_from = end + 1 - asked;
        if (tells)
            add_text(fmp_line);
    }
    booted = true;
    if (tells)
        add_text(fmp_state);
}

void machine_skip(long answers) {
    for (; answers > 0; answers--)
        answer_next(false);
}

const char *machine_hear(void) {
    if (heard_from == heard_to)
        answer_next(true);
    char *line = heard + heard_from, *end = memchr(line, '\n', heard_to - heard_from);
    if (end == NULL)
        give_up("the library tells a line without an end");
    *end = '\0';
    heard_from = (size_t)(end + 1 - heard);
    return line;
}

void machine_stop(void) {
}
