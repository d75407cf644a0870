/* Made by gen/calls.py of include/kernel.h and `fmpsim list`. */
#include "calls.h"
#include "kernel.h"
#include "requests.h"

ER act_tsk(ID tskid) {
    return ask(PLACE, ACT_TSK, tskid);
}

ER iact_tsk(ID tskid) {
    return ask(PLACE, IACT_TSK, tskid);
}

ER mact_tsk(ID tskid, ID prcid) {
    return ask(PLACE, MACT_TSK, tskid, prcid);
}

ER imact_tsk(ID tskid, ID prcid) {
    return ask(PLACE, IMACT_TSK, tskid, prcid);
}

ER_UINT can_act(ID tskid) {
    ER ercd = ask(PLACE, CAN_ACT, tskid);
    return ercd == E_OK ? (ER_UINT)told() : ercd;
}

ER mig_tsk(ID tskid, ID prcid) {
    return ask(PLACE, MIG_TSK, tskid, prcid);
}

ER ext_tsk(void) {
    return ask(PLACE, EXT_TSK);
}

ER ter_tsk(ID tskid) {
    return ask(PLACE, TER_TSK, tskid);
}

ER chg_pri(ID tskid, PRI tskpri) {
    return ask(PLACE, CHG_PRI, tskid, tskpri);
}

ER get_pri(ID tskid, PRI *p_tskpri) {
    ER ercd = ask(PLACE, GET_PRI, tskid);
    if (ercd == E_OK) {
        stores(PLACE, p_tskpri, sizeof *p_tskpri);
        *p_tskpri = (PRI)told();
    }
    return ercd;
}

ER slp_tsk(void) {
    return ask(PLACE, SLP_TSK);
}

ER tslp_tsk(TMO tmout) {
    return ask(PLACE, TSLP_TSK, tmout);
}

ER wup_tsk(ID tskid) {
    return ask(PLACE, WUP_TSK, tskid);
}

ER iwup_tsk(ID tskid) {
    return ask(PLACE, IWUP_TSK, tskid);
}

ER_UINT can_wup(ID tskid) {
    ER ercd = ask(PLACE, CAN_WUP, tskid);
    return ercd == E_OK ? (ER_UINT)told() : ercd;
}

ER rel_wai(ID tskid) {
    return ask(PLACE, REL_WAI, tskid);
}

ER irel_wai(ID tskid) {
    return ask(PLACE, IREL_WAI, tskid);
}

ER sus_tsk(ID tskid) {
    return ask(PLACE, SUS_TSK, tskid);
}

ER rsm_tsk(ID tskid) {
    return ask(PLACE, RSM_TSK, tskid);
}

ER dly_tsk(RELTIM dlytim) {
    return ask(PLACE, DLY_TSK, (int_t)dlytim);
}

ER sig_sem(ID semid) {
    return ask(PLACE, SIG_SEM, semid);
}

ER isig_sem(ID semid) {
    return ask(PLACE, ISIG_SEM, semid);
}

ER wai_sem(ID semid) {
    return ask(PLACE, WAI_SEM, semid);
}

ER pol_sem(ID semid) {
    return ask(PLACE, POL_SEM, semid);
}

ER twai_sem(ID semid, TMO tmout) {
    return ask(PLACE, TWAI_SEM, semid, tmout);
}

ER set_flg(ID flgid, FLGPTN setptn) {
    return ask(PLACE, SET_FLG, flgid, setptn);
}

ER iset_flg(ID flgid, FLGPTN setptn) {
    return ask(PLACE, ISET_FLG, flgid, setptn);
}

ER clr_flg(ID flgid, FLGPTN clrptn) {
    return ask(PLACE, CLR_FLG, flgid, clrptn);
}

ER wai_flg(ID flgid, FLGPTN waiptn, MODE wfmode, FLGPTN *p_flgptn) {
    /* What is no mode cannot be asked. The kernel answers E_PAR to a pattern of 0 in the same order of errors. */
    if (wfmode != TWF_ORW && wfmode != TWF_ANDW)
        waiptn = 0;
    ER ercd = ask(PLACE, WAI_FLG, flgid, waiptn, wfmode == TWF_ANDW ? TWF_ANDW : TWF_ORW);
    if (ercd == E_OK) {
        stores(PLACE, p_flgptn, sizeof *p_flgptn);
        *p_flgptn = (FLGPTN)told();
    }
    return ercd;
}

ER pol_flg(ID flgid, FLGPTN waiptn, MODE wfmode, FLGPTN *p_flgptn) {
    /* What is no mode cannot be asked. The kernel answers E_PAR to a pattern of 0 in the same order of errors. */
    if (wfmode != TWF_ORW && wfmode != TWF_ANDW)
        waiptn = 0;
    ER ercd = ask(PLACE, POL_FLG, flgid, waiptn, wfmode == TWF_ANDW ? TWF_ANDW : TWF_ORW);
    if (ercd == E_OK) {
        stores(PLACE, p_flgptn, sizeof *p_flgptn);
        *p_flgptn = (FLGPTN)told();
    }
    return ercd;
}

ER twai_flg(ID flgid, FLGPTN waiptn, MODE wfmode, FLGPTN *p_flgptn, TMO tmout) {
    /* What is no mode cannot be asked. The kernel answers E_PAR to a pattern of 0 in the same order of errors. */
    if (wfmode != TWF_ORW && wfmode != TWF_ANDW)
        waiptn = 0;
    ER ercd = ask(PLACE, TWAI_FLG, flgid, waiptn, wfmode == TWF_ANDW ? TWF_ANDW : TWF_ORW, tmout);
    if (ercd == E_OK) {
        stores(PLACE, p_flgptn, sizeof *p_flgptn);
        *p_flgptn = (FLGPTN)told();
    }
    return ercd;
}

ER snd_dtq(ID dtqid, intptr_t data) {
    return ask(PLACE, SND_DTQ, dtqid, data);
}

ER psnd_dtq(ID dtqid, intptr_t data) {
    return ask(PLACE, PSND_DTQ, dtqid, data);
}

ER ipsnd_dtq(ID dtqid, intptr_t data) {
    return ask(PLACE, IPSND_DTQ, dtqid, data);
}

ER tsnd_dtq(ID dtqid, intptr_t data, TMO tmout) {
    return ask(PLACE, TSND_DTQ, dtqid, data, tmout);
}

ER fsnd_dtq(ID dtqid, intptr_t data) {
    return ask(PLACE, FSND_DTQ, dtqid, data);
}

ER ifsnd_dtq(ID dtqid, intptr_t data) {
    return ask(PLACE, IFSND_DTQ, dtqid, data);
}

ER rcv_dtq(ID dtqid, intptr_t *p_data) {
    ER ercd = ask(PLACE, RCV_DTQ, dtqid);
    if (ercd == E_OK) {
        stores(PLACE, p_data, sizeof *p_data);
        *p_data = (intptr_t)told();
    }
    return ercd;
}

ER prcv_dtq(ID dtqid, intptr_t *p_data) {
    ER ercd = ask(PLACE, PRCV_DTQ, dtqid);
    if (ercd == E_OK) {
        stores(PLACE, p_data, sizeof *p_data);
        *p_data = (intptr_t)told();
    }
    return ercd;
}

ER trcv_dtq(ID dtqid, intptr_t *p_data, TMO tmout) {
    ER ercd = ask(PLACE, TRCV_DTQ, dtqid, tmout);
    if (ercd == E_OK) {
        stores(PLACE, p_data, sizeof *p_data);
        *p_data = (intptr_t)told();
    }
    return ercd;
}

ER get_mpf(ID mpfid, void **p_blk) {
    ER ercd = ask(PLACE, GET_MPF, mpfid);
    if (ercd == E_OK) {
        stores(PLACE, p_blk, sizeof *p_blk);
        *p_blk = block_of(mpfid, (int)told());
    }
    return ercd;
}

ER pget_mpf(ID mpfid, void **p_blk) {
    ER ercd = ask(PLACE, PGET_MPF, mpfid);
    if (ercd == E_OK) {
        stores(PLACE, p_blk, sizeof *p_blk);
        *p_blk = block_of(mpfid, (int)told());
    }
    return ercd;
}

ER tget_mpf(ID mpfid, void **p_blk, TMO tmout) {
    ER ercd = ask(PLACE, TGET_MPF, mpfid, tmout);
    if (ercd == E_OK) {
        stores(PLACE, p_blk, sizeof *p_blk);
        *p_blk = block_of(mpfid, (int)told());
    }
    return ercd;
}

ER rel_mpf(ID mpfid, void *blk) {
    return ask(PLACE, REL_MPF, mpfid, block_at(mpfid, blk));
}

ER sta_cyc(ID cycid) {
    return ask(PLACE, STA_CYC, cycid);
}

ER msta_cyc(ID cycid, ID prcid) {
    return ask(PLACE, MSTA_CYC, cycid, prcid);
}

ER stp_cyc(ID cycid) {
    return ask(PLACE, STP_CYC, cycid);
}

ER sta_alm(ID almid, RELTIM almtim) {
    return ask(PLACE, STA_ALM, almid, (int_t)almtim);
}

ER ista_alm(ID almid, RELTIM almtim) {
    return ask(PLACE, ISTA_ALM, almid, (int_t)almtim);
}

ER msta_alm(ID almid, RELTIM almtim, ID prcid) {
    return ask(PLACE, MSTA_ALM, almid, (int_t)almtim, prcid);
}

ER imsta_alm(ID almid, RELTIM almtim, ID prcid) {
    return ask(PLACE, IMSTA_ALM, almid, (int_t)almtim, prcid);
}

ER stp_alm(ID almid) {
    return ask(PLACE, STP_ALM, almid);
}

ER istp_alm(ID almid) {
    return ask(PLACE, ISTP_ALM, almid);
}

ER rot_rdq(PRI tskpri) {
    return ask(PLACE, ROT_RDQ, tskpri);
}

ER irot_rdq(PRI tskpri) {
    return ask(PLACE, IROT_RDQ, tskpri);
}

ER mrot_rdq(PRI tskpri, ID prcid) {
    return ask(PLACE, MROT_RDQ, tskpri, prcid);
}

ER imrot_rdq(PRI tskpri, ID prcid) {
    return ask(PLACE, IMROT_RDQ, tskpri, prcid);
}

ER get_tid(ID *p_tskid) {
    ER ercd = ask(PLACE, GET_TID);
    if (ercd == E_OK) {
        stores(PLACE, p_tskid, sizeof *p_tskid);
        *p_tskid = (ID)told();
    }
    return ercd;
}

ER iget_tid(ID *p_tskid) {
    ER ercd = ask(PLACE, IGET_TID);
    if (ercd == E_OK) {
        stores(PLACE, p_tskid, sizeof *p_tskid);
        *p_tskid = (ID)told();
    }
    return ercd;
}

ER get_pid(ID *p_prcid) {
    ER ercd = ask(PLACE, GET_PID);
    if (ercd == E_OK) {
        stores(PLACE, p_prcid, sizeof *p_prcid);
        *p_prcid = (ID)told();
    }
    return ercd;
}

ER iget_pid(ID *p_prcid) {
    ER ercd = ask(PLACE, IGET_PID);
    if (ercd == E_OK) {
        stores(PLACE, p_prcid, sizeof *p_prcid);
        *p_prcid = (ID)told();
    }
    return ercd;
}

ER loc_cpu(void) {
    return ask(PLACE, LOC_CPU);
}

ER iloc_cpu(void) {
    return ask(PLACE, ILOC_CPU);
}

ER unl_cpu(void) {
    return ask(PLACE, UNL_CPU);
}

ER iunl_cpu(void) {
    return ask(PLACE, IUNL_CPU);
}

ER dis_dsp(void) {
    return ask(PLACE, DIS_DSP);
}

ER ena_dsp(void) {
    return ask(PLACE, ENA_DSP);
}

bool_t sns_ctx(void) {
    return ask(PLACE, SNS_CTX) == E_OK && told() != 0;
}

bool_t sns_loc(void) {
    return ask(PLACE, SNS_LOC) == E_OK && told() != 0;
}

bool_t sns_dsp(void) {
    return ask(PLACE, SNS_DSP) == E_OK && told() != 0;
}

bool_t sns_dpn(void) {
    return ask(PLACE, SNS_DPN) == E_OK && told() != 0;
}

ER loc_spn(ID spnid) {
    return ask(PLACE, LOC_SPN, spnid);
}

ER iloc_spn(ID spnid) {
    return ask(PLACE, ILOC_SPN, spnid);
}

ER try_spn(ID spnid) {
    return ask(PLACE, TRY_SPN, spnid);
}

ER itry_spn(ID spnid) {
    return ask(PLACE, ITRY_SPN, spnid);
}

ER unl_spn(ID spnid) {
    return ask(PLACE, UNL_SPN, spnid);
}

ER iunl_spn(ID spnid) {
    return ask(PLACE, IUNL_SPN, spnid);
}

const struct call calls[] = {
    [ACT_TSK] = {"act_tsk", {A_TASK}, GIVES | ACTIVATES},
    [IACT_TSK] = {"iact_tsk", {A_TASK}, GIVES | ACTIVATES},
    [MACT_TSK] = {"mact_tsk", {A_TASK, A_PROCESSOR}, GIVES | ACTIVATES | MOVES},
    [IMACT_TSK] = {"imact_tsk", {A_TASK, A_PROCESSOR}, GIVES | ACTIVATES | MOVES},
    [CAN_ACT] = {"can_act", {A_TASK}, TAKES},
    [MIG_TSK] = {"mig_tsk", {A_TASK, A_PROCESSOR}, MIGRATES | GIVES_WAY_ITSELF | MOVES},
    [EXT_TSK] = {"ext_tsk", {A_NOTHING}, 0},
    [TER_TSK] = {"ter_tsk", {A_TASK}, TERMINATES},
    [CHG_PRI] = {"chg_pri", {A_TASK, A_PRIORITY}, SETS_PRIORITY | GIVES_WAY_ITSELF},
    [GET_PRI] = {"get_pri", {A_TASK}, 0},
    [SLP_TSK] = {"slp_tsk", {A_NOTHING}, SLEEPS},
    [TSLP_TSK] = {"tslp_tsk", {A_TIMEOUT}, SLEEPS | TIMED},
    [WUP_TSK] = {"wup_tsk", {A_TASK}, GIVES},
    [IWUP_TSK] = {"iwup_tsk", {A_TASK}, GIVES},
    [CAN_WUP] = {"can_wup", {A_TASK}, TAKES},
    [REL_WAI] = {"rel_wai", {A_TASK}, GIVES},
    [IREL_WAI] = {"irel_wai", {A_TASK}, GIVES},
    [SUS_TSK] = {"sus_tsk", {A_TASK}, SUSPENDS | GIVES_WAY_ITSELF},
    [RSM_TSK] = {"rsm_tsk", {A_TASK}, GIVES},
    [DLY_TSK] = {"dly_tsk", {A_TIME}, TIMED},
    [SIG_SEM] = {"sig_sem", {A_SEMAPHORE}, GIVES},
    [ISIG_SEM] = {"isig_sem", {A_SEMAPHORE}, GIVES},
    [WAI_SEM] = {"wai_sem", {A_SEMAPHORE}, TAKES},
    [TWAI_SEM] = {"twai_sem", {A_SEMAPHORE, A_TIMEOUT}, TAKES | TIMED},
    [POL_SEM] = {"pol_sem", {A_SEMAPHORE}, TAKES},
    [SET_FLG] = {"set_flg", {A_EVENTFLAG, A_PATTERN}, GIVES},
    [ISET_FLG] = {"iset_flg", {A_EVENTFLAG, A_PATTERN}, GIVES},
    [CLR_FLG] = {"clr_flg", {A_EVENTFLAG, A_PATTERN}, 0},
    [WAI_FLG] = {"wai_flg", {A_EVENTFLAG, A_PATTERN, A_MODE}, TAKES},
    [TWAI_FLG] = {"twai_flg", {A_EVENTFLAG, A_PATTERN, A_MODE, A_TIMEOUT}, TAKES | TIMED},
    [POL_FLG] = {"pol_flg", {A_EVENTFLAG, A_PATTERN, A_MODE}, TAKES},
    [SND_DTQ] = {"snd_dtq", {A_DATA_QUEUE, A_DATA}, GIVES | SENDS},
    [TSND_DTQ] = {"tsnd_dtq", {A_DATA_QUEUE, A_DATA, A_TIMEOUT}, GIVES | SENDS | TIMED},
    [PSND_DTQ] = {"psnd_dtq", {A_DATA_QUEUE, A_DATA}, GIVES | SENDS},
    [IPSND_DTQ] = {"ipsnd_dtq", {A_DATA_QUEUE, A_DATA}, GIVES | SENDS},
    [FSND_DTQ] = {"fsnd_dtq", {A_DATA_QUEUE, A_DATA}, GIVES | SENDS},
    [IFSND_DTQ] = {"ifsnd_dtq", {A_DATA_QUEUE, A_DATA}, GIVES | SENDS},
    [RCV_DTQ] = {"rcv_dtq", {A_DATA_QUEUE}, TAKES | RECEIVES},
    [TRCV_DTQ] = {"trcv_dtq", {A_DATA_QUEUE, A_TIMEOUT}, TAKES | RECEIVES | TIMED},
    [PRCV_DTQ] = {"prcv_dtq", {A_DATA_QUEUE}, TAKES | RECEIVES},
    [GET_MPF] = {"get_mpf", {A_POOL}, TAKES | GETS_BLOCK},
    [TGET_MPF] = {"tget_mpf", {A_POOL, A_TIMEOUT}, TAKES | GETS_BLOCK | TIMED},
    [PGET_MPF] = {"pget_mpf", {A_POOL}, TAKES | GETS_BLOCK},
    [REL_MPF] = {"rel_mpf", {A_POOL, A_BLOCK}, GIVES | RETURNS_BLOCK},
    [STA_CYC] = {"sta_cyc", {A_CYCLIC}, GIVES | STARTS},
    [MSTA_CYC] = {"msta_cyc", {A_CYCLIC, A_PROCESSOR}, GIVES | STARTS | MOVES},
    [STP_CYC] = {"stp_cyc", {A_CYCLIC}, STOPS},
    [STA_ALM] = {"sta_alm", {A_ALARM, A_TIME}, GIVES | STARTS},
    [ISTA_ALM] = {"ista_alm", {A_ALARM, A_TIME}, GIVES | STARTS},
    [MSTA_ALM] = {"msta_alm", {A_ALARM, A_TIME, A_PROCESSOR}, GIVES | STARTS | MOVES},
    [IMSTA_ALM] = {"imsta_alm", {A_ALARM, A_TIME, A_PROCESSOR}, GIVES | STARTS | MOVES},
    [STP_ALM] = {"stp_alm", {A_ALARM}, STOPS},
    [ISTP_ALM] = {"istp_alm", {A_ALARM}, STOPS},
    [ROT_RDQ] = {"rot_rdq", {A_PRIORITY}, ROTATES},
    [IROT_RDQ] = {"irot_rdq", {A_PRIORITY}, ROTATES},
    [MROT_RDQ] = {"mrot_rdq", {A_PRIORITY, A_PROCESSOR}, ROTATES},
    [IMROT_RDQ] = {"imrot_rdq", {A_PRIORITY, A_PROCESSOR}, ROTATES},
    [GET_TID] = {"get_tid", {A_NOTHING}, 0},
    [IGET_TID] = {"iget_tid", {A_NOTHING}, 0},
    [GET_PID] = {"get_pid", {A_NOTHING}, 0},
    [IGET_PID] = {"iget_pid", {A_NOTHING}, 0},
    [LOC_CPU] = {"loc_cpu", {A_NOTHING}, LOCKS_CPU},
    [ILOC_CPU] = {"iloc_cpu", {A_NOTHING}, LOCKS_CPU},
    [UNL_CPU] = {"unl_cpu", {A_NOTHING}, UNLOCKS_CPU},
    [IUNL_CPU] = {"iunl_cpu", {A_NOTHING}, UNLOCKS_CPU},
    [DIS_DSP] = {"dis_dsp", {A_NOTHING}, DISABLES_DISPATCH},
    [ENA_DSP] = {"ena_dsp", {A_NOTHING}, ENABLES_DISPATCH},
    [SNS_CTX] = {"sns_ctx", {A_NOTHING}, 0},
    [SNS_LOC] = {"sns_loc", {A_NOTHING}, 0},
    [SNS_DSP] = {"sns_dsp", {A_NOTHING}, 0},
    [SNS_DPN] = {"sns_dpn", {A_NOTHING}, 0},
    [LOC_SPN] = {"loc_spn", {A_SPIN_LOCK}, TAKES | LOCKS_CPU},
    [ILOC_SPN] = {"iloc_spn", {A_SPIN_LOCK}, TAKES | LOCKS_CPU},
    [TRY_SPN] = {"try_spn", {A_SPIN_LOCK}, TAKES | LOCKS_CPU},
    [ITRY_SPN] = {"itry_spn", {A_SPIN_LOCK}, TAKES | LOCKS_CPU},
    [UNL_SPN] = {"unl_spn", {A_SPIN_LOCK}, GIVES | UNLOCKS_CPU},
    [IUNL_SPN] = {"iunl_spn", {A_SPIN_LOCK}, GIVES | UNLOCKS_CPU},
    [RET_HDR] = {"ret_hdr", {A_NOTHING}, UNLOCKS_CPU | RETURNS},
};
