/* What a program logs goes to standard error with --log, and nowhere else; it is no event of the kernel. */
#ifndef TOPPERS_T_SYSLOG_H
#define TOPPERS_T_SYSLOG_H
#include "t_stddef.h"
#define LOG_EMERG 0U
#define LOG_ALERT 1U
#define LOG_CRIT 2U
#define LOG_ERROR 3U
#define LOG_WARNING 4U
#define LOG_NOTICE 5U
#define LOG_INFO 6U
#define LOG_DEBUG 7U
#define LOG_MASK(prio) (1U << (prio))
#define LOG_UPTO(prio) ((1U << ((prio) + 1)) - 1)
#pragma GCC visibility push(default)
extern void fmphost_log(uint_t priority, const char *form, ...) __attribute__((format(printf, 2, 3)));
#pragma GCC visibility pop
#define syslog(...) fmphost_log(__VA_ARGS__)
#define syslog_0(prio, form) fmphost_log(prio, form)
#define syslog_1(prio, form, a) fmphost_log(prio, form, a)
#define syslog_2(prio, form, a, b) fmphost_log(prio, form, a, b)
#define syslog_3(prio, form, a, b, c) fmphost_log(prio, form, a, b, c)
#define syslog_4(prio, form, a, b, c, d) fmphost_log(prio, form, a, b, c, d)
#define syslog_5(prio, form, a, b, c, d, e) fmphost_log(prio, form, a, b, c, d, e)
#endif
