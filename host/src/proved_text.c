/* Reads what `fmpsim calls --state` writes: records, and the lines of a state. A line that is none of these is told, and no guess is made. */
#include "outcome.h"
#include "proved.h"
#include <stdlib.h>
#include <string.h>

struct state state, before;

static const struct { const char *name; int code; } codes[] = {
    {"E_OK", 0}, {"E_SYS", -5}, {"E_NOSPT", -9}, {"E_RSATR", -11}, {"E_PAR", -17}, {"E_ID", -18}, {"E_CTX", -25}, {"E_ILUSE", -28},
    {"E_OBJ", -41}, {"E_NOEXS", -42}, {"E_QOVR", -43}, {"E_RLWAI", -49}, {"E_TMOUT", -50}};
static const struct { const char *word; enum said said; } words[] = {
    {"wait", WAIT}, {"spin", SPIN}, {"gone", GONE}, {"idle", IDLE}, {"held", HELD}, {"taken", TAKEN}, {"none", NONE}};

const char *code_name(int code) {
    for (size_t i = 0; i < sizeof codes / sizeof *codes; i++)
        if (codes[i].code == code)
            return codes[i].name;
    return "an unknown code";
}

int code_named(const char *name, uint64_t length) {
    for (size_t i = 0; i < sizeof codes / sizeof *codes; i++)
        if (strlen(codes[i].name) == length && memcmp(codes[i].name, name, length) == 0)
            return codes[i].code;
    return 1;
}

int object_of(int kind, int number) {
    for (int i = 0; i < fmphost_object_count; i++)
        if (fmphost_objects[i].kind == kind && fmphost_objects[i].number == number)
            return i;
    return -1;
}

int object_named(const char *name, uint64_t length) {
    for (int i = 0; i < fmphost_object_count; i++)
        if (strlen(fmphost_objects[i].name) == length && memcmp(fmphost_objects[i].name, name, length) == 0)
            return i;
    return -1;
}

uint64_t hash_text(const char *from, const char *to) {
    uint64_t sum = 1469598103934665603u;
    for (; from < to; from++)
        sum = (sum ^ (unsigned char)*from) * 1099511628211u;
    return sum | 1;
}

static _Noreturn void not_understood(const char *line) {
    give_up("fmpsim says what this program does not know; is it of another version? %s", line);
}

static int known_object(const char *name, size_t length, const char *line) {
    int object = object_named(name, length);
    if (object < 0)
        give_up("fmpsim tells of an object that kernel_cfg.c does not have; make it anew: %s", line);
    return object;
}

/* That a task is on a processor is the one thing that tells where it is assigned. */
static void seen_on(const char *names, const char *end, int processor, const char *line) {
    while (names < end) {
        size_t length = strcspn(names, ", ");
        if (length > (size_t)(end - names))
            length = (size_t)(end - names);
        if (*names != '-')
            state.on[known_object(names, length, line)] = (signed char)processor;
        names += length + 1;
    }
}

static void processor_word(struct processor *p, int number, const char *at, size_t length, const char *line) {
    const char *end = at + length;
    if (!strncmp(at, "run=", 4)) {
        p->run = at[4] == '-' ? -1 : known_object(at + 4, length - 4, line);
        seen_on(at + 4, end, number, line);
    } else if (!strncmp(at, "ready=", 6)) {
        p->ready = hash_text(at, end);
        seen_on(at + 6, end, number, line);
    } else if (!strncmp(at, "due=", 4)) {
        p->dues = hash_text(at, end);
        p->due = known_object(at + 4, strcspn(at + 4, ", "), line);
    } else if (!strncmp(at, "locked", length))
        p->locked = true;
    else if (!strncmp(at, "disabled", length))
        p->disabled = true;
    else if (!strncmp(at, "latch", length))
        p->latch = true;
}

static void read_processor(const char *line) {
    int number = line[3] - '0';
    if (number > fmphost_processors)
        give_up("fmpsim tells of a processor that kernel_cfg.c does not have; make it anew: %s", line);
    struct processor *p = &state.processor[number];
    *p = (struct processor){.run = -1, .due = -1};
    for (const char *at = strchr(line + 3, ' '); at != NULL; at = strchr(at, ' ')) {
        at++;
        processor_word(p, number, at, strcspn(at, " "), line);
    }
}

static void read_object(const char *line) {
    const char *at = line + 2;
    int object = known_object(at, strcspn(at, " "), line);
    state.told[object] = hash_text(at, at + strlen(at));
    while ((at = strchr(at, ' ')) != NULL) {
        at++;
        if (!strncmp(at, "waits ", 6)) {
            state.sleeps[object] = true;
            const char *kind = at + 6, *name = strchr(kind, ' ');
            if (strncmp(kind, "slp", 3) != 0 && strncmp(kind, "dly", 3) != 0 && name != NULL)
                state.waits[object] = (short)object_named(name + 1, strcspn(name + 1, " "));
        } else if (!strncmp(at, "left=", 5))
            state.counting[object] = true;
        else if (!strncmp(at, "stopped", 7))
            state.stopped[object] = true;
        else if (!strncmp(at, "held=P", 6))
            state.held[object] = (signed char)(at[6] - '0');
    }
}

void state_line(const char *line) {
    if (line[0] != ' ' || line[1] != ' ')
        not_understood(line);
    if (line[2] == 'P' && line[3] >= '1' && line[3] <= '8' && !strncmp(line + 4, " run=", 5))
        read_processor(line);
    else
        read_object(line);
}

void state_begin(void) {
    before = state;
    memset(state.told, 0, sizeof state.told);
    memset(state.sleeps, 0, sizeof state.sleeps);
    memset(state.counting, 0, sizeof state.counting);
    memset(state.stopped, 0, sizeof state.stopped);
    memset(state.held, 0, sizeof state.held);
    memset(state.on, 0, sizeof state.on);
    for (int i = 0; i < MOST_OBJECTS; i++)
        state.waits[i] = -1;
}

static const char *read_code(const char *at, int *code, int64_t *value, const char *line) {
    size_t length = strcspn(at, ": ");
    *code = code_named(at, length);
    *value = 0;
    if (*code == 1)
        not_understood(line);
    at += length;
    if (*at == ':')
        *value = strtoll(at + 1, NULL, 10);
    return at;
}

/* <n> P<p> <runner> <event> <answer> ..: no name has a blank, but the event's brackets may, so it ends after its bracket or at its blank. */
static const char *answer_in(const char *line) {
    const char *at = line;
    for (int blanks = 0; blanks < 3; blanks++) {
        at = strchr(at, ' ');
        if (at == NULL)
            not_understood(line);
        at++;
    }
    const char *end = at + strcspn(at, " ("), *closed = strchr(at, ')');
    if (*end == '(')
        end = closed != NULL ? closed + 1 : at;
    if (*end != ' ')
        not_understood(line);
    return end + 1;
}

void read_record(const char *line, struct answer *answer) {
    const char *at = answer_in(line);
    answer->said = CODE;
    answer->releases = 0;
    for (size_t i = 0; i < sizeof words / sizeof *words; i++)
        if (!strncmp(at, words[i].word, strlen(words[i].word)))
            answer->said = words[i].said;
    if (answer->said == CODE)
        read_code(at, &answer->code, &answer->value, line);
    for (const char *rel = strstr(at, " rel="); rel != NULL; rel = strstr(rel, " rel=")) {
        if (answer->releases == MOST_TASKS)
            not_understood(line);
        struct release *release = &answer->release[answer->releases++];
        rel += 5;
        size_t length = strcspn(rel, ":");
        release->task = known_object(rel, length, line);
        rel = read_code(rel + length + 1, &release->code, &release->value, line);
    }
}
