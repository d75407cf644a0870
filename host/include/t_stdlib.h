#ifndef TOPPERS_T_STDLIB_H
#define TOPPERS_T_STDLIB_H
#include "t_stddef.h"
#pragma GCC visibility push(default)
/* As TOPPERS' t_perror: logs a call that was refused, and gives its code on. */
extern ER t_perror(uint_t prio, const char *file, int_t line, const char *expr, ER ercd);
#pragma GCC visibility pop
#endif
