/* What programs use beside the kernel's calls: claims, the log, a serial port, points, and the end of all. */
#include "contexts.h"
#include "kernel.h"
#include "options.h"
#include "outcome.h"
#include "refused.h"
#include "requests.h"
#include "run.h"
#include "c_library.h"
#include "syssvc/serial.h"
#include "syssvc/syslog.h"
#include "t_stdlib.h"
#include <stdarg.h>
#include <stdio.h>

static const char *runner_name(void) {
    return running != NULL ? context_name((int)(running - contexts)) : "-";
}

void fmphost_point(void) {
    if (running == NULL)
        return;
    running->next = POINT;
    running->place = (uintptr_t)__builtin_return_address(0);
    context_stop();
}

/* For board/board.c: the processor on which the caller runs, and a tick that its timer gives there at once. */
__attribute__((visibility("default"))) int fmphost_processor(void);
int fmphost_processor(void) {
    return run_processor(running);
}

__attribute__((visibility("default"))) void fmphost_tick(void);
void fmphost_tick(void) {
    static const struct call tick = {.name = "tick", .does = TIMED};
    running->call = &tick;
    running->next = CALL;
    running->named = -1;
    running->place = (uintptr_t)PLACE;
    snprintf(running->request, sizeof running->request, "%s", tick.name);
    reply();
}

static _Noreturn void claim_fails(const char *text, const char *file, int line, uintptr_t place) {
    if (running != NULL)
        running->place = place;
    end_run(CLAIM, "%s:%d: %s is false%s%s", file, line, text, running ? ", in " : "", running ? runner_name() : "");
}

void fmphost_claim(bool holds, const char *text, const char *file, int line) {
    if (!holds)
        claim_fails(text, file, line, (uintptr_t)__builtin_return_address(0));
}

/* What <assert.h> of C makes of an assertion: the program's own header may be that. */
__attribute__((visibility("default"))) _Noreturn void __assert_fail(const char *text, const char *file, unsigned line, const char *function);
void __assert_fail(const char *text, const char *file, unsigned line, const char *function) {
    (void)function;
    claim_fails(text, file, (int)line, (uintptr_t)__builtin_return_address(0));
}

ER ext_ker(void) {
    end_run(QUIET, "ext_ker");
}

void fmphost_log(uint_t priority, const char *form, ...) {
    (void)priority;
    va_list values;
    va_start(values, form);
    format_reads(form, values, (uintptr_t)__builtin_return_address(0));
    va_end(values);
    if (!recording)
        return;
    va_start(values, form);
    log_line(runner_name(), form, values);
    va_end(values);
}

ER t_perror(uint_t prio, const char *file, int_t line, const char *expr, ER ercd) {
    if (ercd < 0)
        fmphost_log(prio, "%s reported by `%s' in line %d of `%s'.", code_name(ercd), expr, line, file);
    if (running != NULL)
        running->place = (uintptr_t)__builtin_return_address(0);
    refused_told(ercd, file, line);
    return ercd;
}

ER syslog_msk_log(uint_t logmask, uint_t lowmask) { (void)logmask, (void)lowmask; return E_OK; }

/* --- the serial port --- */

static size_t read_so_far;

uint64_t serial_read(void) {
    return read_so_far;
}

ER serial_opn_por(ID portid) { (void)portid; return E_OK; }
ER serial_cls_por(ID portid) { (void)portid; return E_OK; }
ER serial_ctl_por(ID portid, uint_t ioctl) { (void)portid, (void)ioctl; return E_OK; }

ER_UINT serial_rea_dat(ID portid, char *buf, uint_t len) {
    (void)portid;
    uintptr_t place = (uintptr_t)__builtin_return_address(0);
    for (uint_t i = 0; i < len; i++) {
        /* a port from which nothing more comes is waited for */
        ER ercd = options.serial[read_so_far] != '\0' ? ask((const void *)place, DLY_TSK, 0) : ask((const void *)place, SLP_TSK, 0);
        if (ercd != E_OK)
            return i > 0 ? (ER_UINT)i : ercd;
        string_writes(&buf[i], 1, place);
        buf[i] = options.serial[read_so_far++];
    }
    return (ER_UINT)len;
}

ER_UINT serial_wri_dat(ID portid, const char *buf, uint_t len) {
    (void)portid;
    string_reads(buf, len, (uintptr_t)__builtin_return_address(0));
    if (recording)
        log_bytes(buf, len);
    return (ER_UINT)len;
}
