/* What is kept of a run that is told, beside its turns: the calls that led to an access, what the program logs, and values of what was touched. */
#ifndef RECORDING_H
#define RECORDING_H
#include <stdarg.h>
#include <stdbool.h>
#include <stdint.h>

/* Where calls stand in the project's code, the innermost first. The first of an access is where it was called from, and not the access itself. */
enum { MOST_CALLERS = 16 };
struct callers {
    short count;
    bool more; /* there were further ones */
    uintptr_t place[MOST_CALLERS];
};
struct context;

void recording_make(void);
extern bool recording; /* this run is told */
void callers_of(const struct context *who, uintptr_t frame, uintptr_t place, struct callers *callers); /* a frame that is on its stack, or in its hooks */

void log_begin(void);
void log_line(const char *runner, const char *form, va_list values) __attribute__((format(printf, 2, 0)));
void log_bytes(const char *bytes, uint64_t length); /* what the serial port is given */
void log_tell(void);                                 /* on standard error, all of it */
void log_write(void *file, long turn);               /* what was logged behind so many turns, as comments of an order */

bool bytes_at(uintptr_t at, void *into, uint64_t size); /* false where the program has no memory there any more */
#endif
