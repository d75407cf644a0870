/*
 * What board.c wants of a kernel, of a compiler and of a board. Each macro with #ifndef may be defined before, in the board's own
 * board_target.h. The kernel is FMP 1 or FMP3 (BOARD_FMP3, in the application's board_kernel.h).
 */
#ifndef BOARD_H
#define BOARD_H
#include "board_app.h"
#include <stddef.h>
#include <stdint.h>
#include <t_syslog.h>
#include <sil.h>

typedef int32_t board_number;

struct board_step {
    uint8_t processor, call, waits; /* waits: the call spins, and others go on */
    int8_t block;                   /* the number of the block that it has to answer, or -1 */
    board_number a[4];
    uint8_t runs[BOARD_PROCESSORS]; /* who has to run on each processor before it */
};
struct board_case {
    int_t number;
    int_t steps;
    const struct board_step *step; /* one more than steps: who has to run at the end */
};
#define BOARD_RETURNS 200 /* a handler returns */
#define BOARD_TICK_HERE 201

/* --- the compiler --- */

/* What was written before it, others see before what is written after it. */
#ifndef BOARD_BARRIER
#if defined(__GNUC__)
#define BOARD_BARRIER() __sync_synchronize()
#elif defined(__ICCARM__)
#include <intrinsics.h>
#define BOARD_BARRIER() __DMB()
#elif defined(__CC_ARM)
#define BOARD_BARRIER() __dmb(0xF)
#elif defined(__CCRX__)
#define BOARD_BARRIER() ((void)0) /* one core, in order: volatile is enough */
#else
#error "define BOARD_BARRIER() in board_target.h: a full barrier of memory"
#endif
#endif

/* True for one processor alone, the first. Without an atomic exchange it is nearly so: board.c gives processors up one after the other. */
#ifndef BOARD_FIRST
#if defined(__GNUC__)
#define BOARD_FIRST(flag) (__sync_lock_test_and_set(&(flag), 1U) == 0U)
#else
#define BOARD_FIRST(flag) ((flag) == 0U ? ((flag) = 1U) : 0U)
#endif
#endif

/* --- the board --- */

#ifndef board_processor
#define board_processor(at) sil_get_pid(at) /* the caller's processor, into an ID */
#endif
#ifndef board_pause
#define board_pause() sil_dly_nse(1000U)
#endif
#ifndef board_print
#define board_print(form, a, b, c, d, e) syslog_5(LOG_EMERG, form, (intptr_t)(a), (intptr_t)(b), (intptr_t)(c), (intptr_t)(d), (intptr_t)(e))
#endif
#ifndef board_end
#define board_end() ((void)ext_ker())
#endif
/* In pauses: how long somebody has to run before the next step, how long a call that spins is watched, and when a step is given up. */
#ifndef BOARD_SETTLE
#define BOARD_SETTLE 20U
#endif
#ifndef BOARD_SPIN
#define BOARD_SPIN 1000U
#endif
#ifndef BOARD_PATIENCE
#define BOARD_PATIENCE 200000U
#endif
/* Which case is played: app.c says so, or a debugger that writes there. */
#ifndef BOARD_CASE
#define BOARD_CASE board_case
extern const volatile int board_case;
#endif
#if BOARD_TICKS && !defined(board_tick)
/* The target's: the tick of the caller's processor, which has happened when it returns. */
extern void board_tick(void);
#endif

/* --- the kernel --- */

#if defined(TNUM_PRCID) && TNUM_PRCID < BOARD_PROCESSORS
#error "this application needs more processors than the kernel has"
#endif
#ifndef BOARD_ANY_TIMER
#if BOARD_MASTER && !defined(TOPPERS_SYSTIM_GLOBAL)
#error "this application is for a kernel with TOPPERS_SYSTIM_GLOBAL"
#elif !BOARD_MASTER && BOARD_TICKS && defined(TOPPERS_SYSTIM_GLOBAL)
#error "this application is for a kernel without TOPPERS_SYSTIM_GLOBAL"
#endif
#endif

#if BOARD_FMP3
/* FMP3 has one name for a call of tasks and of handlers. */
#define iact_tsk act_tsk
#define imact_tsk mact_tsk
#define iwup_tsk wup_tsk
#define irel_wai rel_wai
#define isig_sem sig_sem
#define iset_flg set_flg
#define ipsnd_dtq psnd_dtq
#define ifsnd_dtq fsnd_dtq
#define ista_alm sta_alm
#define imsta_alm msta_alm
#define istp_alm stp_alm
#define irot_rdq rot_rdq
#define iget_tid get_tid
#define iget_pid get_pid
#define iloc_cpu loc_cpu
#define iunl_cpu unl_cpu
#define iloc_spn loc_spn
#define itry_spn try_spn
#define iunl_spn unl_spn
#define mrot_rdq(priority, processor) (mrot_rdq)(processor, priority)
#define imrot_rdq(priority, processor) (mrot_rdq)(processor, priority)
/* Microseconds. What is no time stays none. */
#define BOARD_TIME(ticks) ((ticks) >= 0 && (ticks) <= 4000000 ? (RELTIM)(ticks) * BOARD_TICK : (RELTIM)0xffffffffU)
#define BOARD_TIMEOUT(ticks) ((ticks) < 0 ? (TMO)(ticks) : (TMO)BOARD_TIME(ticks))
#else
#define BOARD_TIME(ticks) ((RELTIM)(ticks) * BOARD_TICK)
#define BOARD_TIMEOUT(ticks) ((ticks) <= 0 ? (TMO)(ticks) : (TMO)BOARD_TIME(ticks))
#endif
#endif
