/* For the application's app.cfg, which the kernel's configurator reads, and for board.c. */
#ifndef BOARD_APP_H
#define BOARD_APP_H
#include "board_target.h"
#include "board_kernel.h"
#include <kernel.h>

/* A tick in the kernel's unit of time: FMP 1 counts milliseconds, FMP3 microseconds. */
#ifndef BOARD_TICK
#if BOARD_FMP3
#define BOARD_TICK 1000
#else
#define BOARD_TICK 1
#endif
#endif
#ifndef BOARD_STACK
#define BOARD_STACK 4096
#endif
#ifndef BOARD_EXINF
#if BOARD_FMP3
#define BOARD_EXINF EXINF
#else
#define BOARD_EXINF intptr_t
#endif
#endif

#ifndef TOPPERS_MACRO_ONLY
extern void board_task(BOARD_EXINF exinf);
extern void board_cyclic(BOARD_EXINF exinf);
extern void board_alarm(BOARD_EXINF exinf);
#endif
#endif
