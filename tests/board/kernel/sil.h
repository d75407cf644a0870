/* What board.c wants of a kernel's sil.h beside what the host has. */
#ifndef TOPPERS_SIL_H
#define TOPPERS_SIL_H
#include "t_stddef.h"
extern void sil_dly_nse(ulong_t nanoseconds);
extern void sil_get_pid(ID *processor);
#endif
