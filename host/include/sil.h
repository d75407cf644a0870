/* The system interface layer, as far as a host has one: a wait of some nanoseconds is a place where others go on, and takes no time. */
#ifndef TOPPERS_SIL_H
#define TOPPERS_SIL_H
#include "t_stddef.h"
#pragma GCC visibility push(default)
extern void fmphost_point(void);
#pragma GCC visibility pop
#define sil_dly_nse(ns) ((void)(ns), fmphost_point())
#endif
