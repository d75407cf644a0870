/*
 * A code that the program compares, keeps or returns is its own affair; one that it drops, or only has logged by t_perror, is a finding where
 * --refused says so. Whether it is dropped is read in the instruction behind the call: the code stands in a register that the next one reads.
 * A comment in the line of the call, `fmphost: E_ID`, says that this is meant.
 */
#include "refused.h"
#include "contexts.h"
#include "names.h"
#include "options.h"
#include "outcome.h"
#include "requests.h"
#include <stdio.h>
#include <stdlib.h>
#include <string.h>

enum { MOST_PLACES_KNOWN = 1 << 10 };
/* What comments say of places, kept for all runs: a line of a file is looked for once. */
static struct expected {
    long count;
    struct { uintptr_t place; ER code; } known[MOST_PLACES_KNOWN];
} *expected;

void refused_make(void) {
    expected = shared_room(sizeof *expected);
}

/* --- is the code looked at? --- */

#if defined __x86_64__
enum { IN_REGISTER = 3 };

/* The instruction's second byte names two operands: is eax among those that it reads? */
static bool operands_have_eax(unsigned char opcode, unsigned char operands) {
    bool first = (operands >> 3 & 7) == 0, second = operands >> 6 == IN_REGISTER && (operands & 7) == 0;
    switch (opcode) {
    case 0x84: case 0x85: case 0x38: case 0x39: case 0x3a: case 0x3b: /* test, cmp */
        return first || second;
    case 0x88: case 0x89: /* mov from it */
        return first;
    case 0x03: case 0x0b: case 0x23: case 0x2b: case 0x33: case 0x63: case 0x80: case 0x81: case 0x83: case 0xc1: case 0xd1: case 0xf6: case 0xf7:
        return second;
    case 0x8b: /* mov into another */
        return second && !first;
    case 0x8d: /* lea: what it is counted from */
        return (operands & 7) == 0;
    }
    return false;
}

static bool reads_result(const unsigned char *at) {
    while (*at == 0x90)
        at++;
    bool prefix = (*at & 0xf0) == 0x40;
    if (prefix && (*at & 4)) /* the first operand is one of the other eight registers */
        return false;
    at += prefix;
    if (*at == 0x0f)
        return (at[1] & 0xf6) == 0xb6 && at[2] >> 6 == IN_REGISTER && (at[2] & 7) == 0; /* movzx, movsx */
    return memchr("\x05\x0d\x25\x2d\x35\x3c\x3d\x50\x98\x99\xa8\xa9\xc3\xc9", *at, 14) != NULL || (*at > 0x90 && *at < 0x98) || operands_have_eax(at[0], at[1]);
}
#else
static bool reads_result(const unsigned char *at) {
    (void)at;
    return true;
}
#endif

/* --- is it expected? --- */

/* The codes that a comment in this line of a file names. */
static bool line_names(const char *file, int line, const char *code) {
    char text[4096], path[8192];
    bool whole = file[0] == '/' || fmphost_folder == NULL;
    snprintf(path, sizeof path, "%s%s%s", whole ? "" : fmphost_folder, whole ? "" : "/", file);
    FILE *source = fopen(path, "r");
    bool names = false;
    for (int i = 1; source != NULL && i <= line && fgets(text, sizeof text, source); i++) {
        const char *comment = strstr(text, "fmphost:");
        names = i == line && comment != NULL && strstr(comment, code) != NULL;
    }
    if (source != NULL)
        fclose(source);
    return names;
}

static bool place_names(uintptr_t place, ER code) {
    for (long i = 0; i < expected->count; i++)
        if (expected->known[i].place == place && expected->known[i].code == code)
            return true;
    char file[4096];
    int line;
    if (!place_in_source(place, file, sizeof file, &line) || !line_names(file, line, code_name(code)))
        return false;
    if (expected->count < MOST_PLACES_KNOWN) {
        expected->known[expected->count].code = code;
        expected->known[expected->count++].place = place;
    }
    return true;
}

static bool is_asked_for(ER code, bool logged) {
    bool own = code == E_CTX || code == E_ID || code == E_PAR || code == E_ILUSE;
    return options.refused == REFUSED_ALL || (options.refused == REFUSED_OWN && (own || logged)) ||
           (options.refused == REFUSED_NAMED && is_refused_named(code));
}

void refused_call(ER code) {
    const struct context *me = running;
    if (code >= 0 || me->place == 0 || !is_asked_for(code, false) || reads_result((const unsigned char *)me->place) || place_names(me->place, code))
        return;
    end_with_place(REFUSED, "%s answers %s in %s, which does not look at it", request_text(me), code_name(code), context_name((int)(me - contexts)));
}

void refused_told(ER code, const char *file, int line) {
    const struct context *me = running;
    if (me == NULL || code >= 0 || !is_asked_for(code, true) || line_names(file, line, code_name(code)))
        return;
    end_with_place(REFUSED, "%s answers %s in %s, which has it logged", me->code == code ? request_text(me) : "a call", code_name(code),
                   context_name((int)(me - contexts)));
}
