/*
 * The service calls of TOPPERS/FMP that the profile has, with TOPPERS' own signatures. Each is answered by the kernel that fmpsim proves;
 * what a call does and answers is told by `fmpsim list act_tsk`. A call that is not here is not in the profile: a program that needs it
 * does not link, which is better than a guess.
 */
#ifndef TOPPERS_KERNEL_H
#define TOPPERS_KERNEL_H
#include "t_stddef.h"

typedef uint_t TEXPTN;
typedef uint_t FLGPTN;
typedef uint_t INTNO;
typedef int_t INHNO;
typedef uint_t EXCNO;
typedef void (*TASK)(intptr_t exinf);
typedef void (*CYCHDR)(intptr_t exinf);
typedef void (*ALMHDR)(intptr_t exinf);

#define TA_ACT 0x02U
#define TA_TPRI 0x01U
#define TA_WMUL 0x02U
#define TA_CLR 0x04U
#define TA_STA 0x02U
#define TWF_ORW 0x01U
#define TWF_ANDW 0x02U
#define TSK_SELF 0
#define TSK_NONE 0
#define TPRI_SELF 0
#define TPRI_INI 0
#define TPRC_INI 0
#define TMIN_TPRI 1
#define TMAX_TPRI 16
#define TMAX_ACTCNT 1
#define TMAX_WUPCNT 1
#define TMAX_MAXSEM 65535
#define TBIT_FLGPTN 32
#define TMAX_RELTIM 2147483647

/* tasks */
#pragma GCC visibility push(default)
extern ER act_tsk(ID tskid);
extern ER iact_tsk(ID tskid);
extern ER mact_tsk(ID tskid, ID prcid);
extern ER imact_tsk(ID tskid, ID prcid);
extern ER_UINT can_act(ID tskid);
extern ER mig_tsk(ID tskid, ID prcid);
extern ER ext_tsk(void);
extern ER ter_tsk(ID tskid);
extern ER chg_pri(ID tskid, PRI tskpri);
extern ER get_pri(ID tskid, PRI *p_tskpri);
extern ER slp_tsk(void);
extern ER tslp_tsk(TMO tmout);
extern ER wup_tsk(ID tskid);
extern ER iwup_tsk(ID tskid);
extern ER_UINT can_wup(ID tskid);
extern ER rel_wai(ID tskid);
extern ER irel_wai(ID tskid);
extern ER sus_tsk(ID tskid);
extern ER rsm_tsk(ID tskid);
extern ER dly_tsk(RELTIM dlytim);

/* semaphores */
extern ER sig_sem(ID semid);
extern ER isig_sem(ID semid);
extern ER wai_sem(ID semid);
extern ER pol_sem(ID semid);
extern ER twai_sem(ID semid, TMO tmout);

/* eventflags */
extern ER set_flg(ID flgid, FLGPTN setptn);
extern ER iset_flg(ID flgid, FLGPTN setptn);
extern ER clr_flg(ID flgid, FLGPTN clrptn);
extern ER wai_flg(ID flgid, FLGPTN waiptn, MODE wfmode, FLGPTN *p_flgptn);
extern ER pol_flg(ID flgid, FLGPTN waiptn, MODE wfmode, FLGPTN *p_flgptn);
extern ER twai_flg(ID flgid, FLGPTN waiptn, MODE wfmode, FLGPTN *p_flgptn, TMO tmout);

/* data queues */
extern ER snd_dtq(ID dtqid, intptr_t data);
extern ER psnd_dtq(ID dtqid, intptr_t data);
extern ER ipsnd_dtq(ID dtqid, intptr_t data);
extern ER tsnd_dtq(ID dtqid, intptr_t data, TMO tmout);
extern ER fsnd_dtq(ID dtqid, intptr_t data);
extern ER ifsnd_dtq(ID dtqid, intptr_t data);
extern ER rcv_dtq(ID dtqid, intptr_t *p_data);
extern ER prcv_dtq(ID dtqid, intptr_t *p_data);
extern ER trcv_dtq(ID dtqid, intptr_t *p_data, TMO tmout);

/* fixed-sized memory pools */
extern ER get_mpf(ID mpfid, void **p_blk);
extern ER pget_mpf(ID mpfid, void **p_blk);
extern ER tget_mpf(ID mpfid, void **p_blk, TMO tmout);
extern ER rel_mpf(ID mpfid, void *blk);

/* cyclic handlers and alarms */
extern ER sta_cyc(ID cycid);
extern ER msta_cyc(ID cycid, ID prcid);
extern ER stp_cyc(ID cycid);
extern ER sta_alm(ID almid, RELTIM almtim);
extern ER ista_alm(ID almid, RELTIM almtim);
extern ER msta_alm(ID almid, RELTIM almtim, ID prcid);
extern ER imsta_alm(ID almid, RELTIM almtim, ID prcid);
extern ER stp_alm(ID almid);
extern ER istp_alm(ID almid);

/* processors and dispatching */
extern ER rot_rdq(PRI tskpri);
extern ER irot_rdq(PRI tskpri);
extern ER mrot_rdq(PRI tskpri, ID prcid);
extern ER imrot_rdq(PRI tskpri, ID prcid);
extern ER get_tid(ID *p_tskid);
extern ER iget_tid(ID *p_tskid);
extern ER get_pid(ID *p_prcid);
extern ER iget_pid(ID *p_prcid);
extern ER loc_cpu(void);
extern ER iloc_cpu(void);
extern ER unl_cpu(void);
extern ER iunl_cpu(void);
extern ER dis_dsp(void);
extern ER ena_dsp(void);
extern bool_t sns_ctx(void);
extern bool_t sns_loc(void);
extern bool_t sns_dsp(void);
extern bool_t sns_dpn(void);

/* spin locks */
extern ER loc_spn(ID spnid);
extern ER iloc_spn(ID spnid);
extern ER try_spn(ID spnid);
extern ER itry_spn(ID spnid);
extern ER unl_spn(ID spnid);
extern ER iunl_spn(ID spnid);

/* Not of the profile: the host's own. The run ends here, quiet; and a place where another processor may go on. */
extern ER ext_ker(void);
extern void fmphost_point(void);
#pragma GCC visibility pop
#endif
