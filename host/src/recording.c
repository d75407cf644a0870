#define _GNU_SOURCE
#include "recording.h"
#include "contexts.h"
#include "options.h"
#include "outcome.h"
#include <ctype.h>
#include <stdio.h>
#include <string.h>
#include <sys/uio.h>
#include <unistd.h>

bool recording;

/* --- calls --- */

extern char __start_fmphost_project[] __attribute__((weak)), __stop_fmphost_project[] __attribute__((weak));

static bool is_projects(uintptr_t code) {
    return code >= (uintptr_t)__start_fmphost_project && code < (uintptr_t)__stop_fmphost_project;
}

/* The project's code and the host's keep a frame pointer each, so frames are a list: the next one, and where the call returns to. */
static uintptr_t next_frame(const struct context *who, uintptr_t frame, uintptr_t *returns_to) {
    if (frame % sizeof(uintptr_t) != 0 || !own_stack(who, frame) || !own_stack(who, frame + 2 * sizeof(uintptr_t)))
        return 0;
    const uintptr_t *at = (const uintptr_t *)frame;
    *returns_to = at[1];
    return at[0] > frame ? at[0] : 0;
}

void callers_of(const struct context *who, uintptr_t frame, uintptr_t place, struct callers *callers) {
    uintptr_t returns_to = 0;
    *callers = (struct callers){0};
    while (frame != 0 && !callers->more) {
        frame = next_frame(who, frame, &returns_to);
        if (!is_projects(returns_to) || returns_to == place)
            continue;
        if (callers->count == MOST_CALLERS)
            callers->more = true;
        else
            callers->place[callers->count++] = returns_to;
    }
}

/* --- what is logged --- */

enum { LOG_ROOM = 1 << 20, MOST_LOGGED = 1 << 16 };
static struct log {
    long count, used;
    bool full;
    struct logged { long turn, at, length; bool bytes; } logged[MOST_LOGGED];
    char text[LOG_ROOM];
} *log;

void recording_make(void) {
    log = shared_room(sizeof *log);
}

void log_begin(void) {
    log->count = log->used = 0;
    log->full = false;
}

/* A line's room is what it needs at most here; what does not fit is told to be missing. */
static void keep(const char *text, long length, bool bytes) {
    if (options.logs && options.until > 0) /* who looks on in a debugger sees it as it comes */
        fwrite(text, 1, (size_t)length, stderr);
    log->full |= log->count == MOST_LOGGED || log->used + length > LOG_ROOM;
    if (log->full)
        return;
    memcpy(log->text + log->used, text, (size_t)length);
    log->logged[log->count++] = (struct logged){outcome->turns, log->used, length, bytes};
    log->used += length;
}

void log_line(const char *runner, const char *form, va_list values) {
    char line[4096];
    int length = snprintf(line, sizeof line - 2, "[%ld %s] ", answers - 1, runner);
    int more = vsnprintf(line + length, sizeof line - 1 - (size_t)length, form, values);
    length = more < 0 ? length : length + more;
    if (length > (int)sizeof line - 2)
        length = (int)sizeof line - 2;
    line[length] = '\n';
    keep(line, length + 1, false);
}

void log_bytes(const char *bytes, uint64_t length) {
    if (length <= LOG_ROOM)
        keep(bytes, (long)length, true);
}

void log_tell(void) {
    if (options.until > 0) /* it was told as it came */
        return;
    fwrite(log->text, 1, (size_t)log->used, stderr);
    if (log->used > 0 && log->text[log->used - 1] != '\n')
        fputc('\n', stderr);
    if (log->full)
        fputs("fmphost: the program logged more than there is room for\n", stderr);
}

static void write_byte(FILE *file, unsigned char byte) {
    if (byte >= 0x80 || (isprint(byte) && byte != '\\'))
        fputc(byte, file);
    else
        fprintf(file, byte == '\n' ? "\\n" : byte == '\r' ? "\\r" : byte == '\\' ? "\\\\" : "\\x%02x", byte);
}

void log_write(void *file, long turn) {
    static long next; /* turns are asked for one after the other */
    for (next = turn == 0 ? 0 : next; next < log->count && log->logged[next].turn == turn; next++) {
        const struct logged *one = &log->logged[next];
        fputs(one->bytes ? "#        serial port: " : "#        ", file);
        for (long at = 0; at < one->length - !one->bytes; at++)
            write_byte(file, (unsigned char)log->text[one->at + at]);
        fputc('\n', file);
    }
}

/* --- values --- */

bool bytes_at(uintptr_t at, void *into, uint64_t size) {
    struct iovec there = {.iov_base = (void *)at, .iov_len = size}, here = {.iov_base = into, .iov_len = size};
    return process_vm_readv(getpid(), &here, 1, &there, 1, 0) == (ssize_t)size;
}
