/* The log as TOPPERS' own header has it, as far as board.c uses it: five numbers, whatever the form says. */
#ifndef TOPPERS_T_SYSLOG_H
#define TOPPERS_T_SYSLOG_H
#include "t_stddef.h"
#define LOG_EMERG 0U
extern void _syslog_5(uint_t priority, const char *form, intptr_t a, intptr_t b, intptr_t c, intptr_t d, intptr_t e);
#define syslog_5(priority, form, a, b, c, d, e) _syslog_5(priority, form, a, b, c, d, e)
#endif
