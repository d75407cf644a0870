/* Which case is played. board.mk compiles this file once for each; a debugger may write the number as well, before the kernel starts. */
#include "board_kernel.h"
#ifndef BOARD_NUMBER
#define BOARD_NUMBER BOARD_FIRST_CASE
#endif

extern const volatile int board_case;
const volatile int board_case = BOARD_NUMBER;
