/* The host of fmpsim in the place of a board: its log is standard error, and it says which case is played. */
#ifndef BOARD_TARGET_H
#define BOARD_TARGET_H
#include <stdint.h>
extern void host_print(const char *form, intptr_t a, intptr_t b, intptr_t c, intptr_t d, intptr_t e);
extern int host_case(void);
extern int fmphost_processor(void);
extern void fmphost_tick(void);
#define board_processor(at) ((void)(*(at) = fmphost_processor()))
#define board_tick() fmphost_tick()
#define board_pause() sil_dly_nse(1)
#define board_print(form, a, b, c, d, e) host_print(form, (intptr_t)(a), (intptr_t)(b), (intptr_t)(c), (intptr_t)(d), (intptr_t)(e))
#define BOARD_CASE host_case()
/* In turns of the host, which chooses who goes on. */
#define BOARD_SETTLE 12U
#define BOARD_SPIN 100U
#define BOARD_PATIENCE 1500U
/* The timer is that of the configuration. */
#define BOARD_ANY_TIMER 1
#endif
