/* What each kind of call gives back, and where: to be found right by itself. */
#include "kernel.h"
#include "kernel_cfg.h"
#include <string.h>
#include <stdint.h>

/* Names that the library has of its own, too. */
int state, events, running, options;
void run(void) { state = events; }
void ask(void) { running = options; }

static int rang, other;

void alarm_handler(intptr_t exinf)
{
    ID id;
    assert(exinf == 7);
    assert(sns_ctx() && !sns_loc() && sns_dpn());
    assert(iget_pid(&id) == E_OK && id == 1);
    assert(iget_tid(&id) == E_OK && (id == T1 || id == TSK_NONE));
    assert(get_tid(&id) == E_CTX);
    assert(slp_tsk() == E_CTX);
    assert(iloc_cpu() == E_OK && sns_loc() && iunl_cpu() == E_OK);
    assert(itry_spn(L1) == E_OK && iunl_spn(L1) == E_OK);
    rang++;
    assert(isig_sem(S1) == E_OK);
}

void other_task(intptr_t exinf)
{
    intptr_t data;
    assert(exinf == -1);
    other++;
    assert(rcv_dtq(D1, &data) == E_OK && data == INTPTR_MAX);
    assert(slp_tsk() == E_RLWAI);
    assert(tslp_tsk(TMO_POL) == E_TMOUT);
}

void main_task(intptr_t exinf)
{
    PRI pri = 0;
    ID id = 0;
    FLGPTN pattern = 0;
    intptr_t data = 0;
    void *a = NULL, *b = NULL, *c = NULL;

    assert(exinf == 9);
    assert(get_pri(TSK_SELF, &pri) == E_OK && pri == 6);
    assert(get_pri(99, &pri) == E_ID && pri == 6);
    assert(get_tid(&id) == E_OK && id == T1);
    assert(get_pid(&id) == E_OK && id == 1);
    assert(!sns_ctx() && !sns_loc() && !sns_dsp() && !sns_dpn());
    assert(dis_dsp() == E_OK && sns_dsp() && sns_dpn() && ena_dsp() == E_OK);
    assert(loc_cpu() == E_OK && sns_loc() && unl_cpu() == E_OK);
    assert(can_act(T1) == 0 && act_tsk(T1) == E_OK && act_tsk(T1) == E_QOVR && can_act(T1) == 1 && can_act(77) == E_ID);
    assert(wup_tsk(TSK_SELF) == E_OK && wup_tsk(T1) == E_OK && can_wup(T1) == 2 && can_wup(0) == 0);
    assert(pol_sem(S1) == E_OK && pol_sem(S1) == E_OK && pol_sem(S1) == E_TMOUT && wai_sem(0) == E_ID);
    assert(twai_sem(S1, 0) == E_TMOUT && twai_sem(S1, -2) == E_PAR);
    assert(wai_flg(F1, 2, TWF_ANDW, &pattern) == E_OK && pattern == 6);
    assert(pol_flg(F1, 1, TWF_ORW, &pattern) == E_TMOUT && pattern == 6);
    assert(pol_flg(F1, 1, 0, &pattern) == E_PAR && pol_flg(F1, 0, TWF_ORW, &pattern) == E_PAR && pol_flg(5, 1, 7, &pattern) == E_ID);
    assert(clr_flg(F1, 0) == E_OK && set_flg(F1, 0x80000000u) == E_OK && twai_flg(F1, 0xffffffffu, TWF_ORW, &pattern, 1) == E_OK && pattern == 0x80000000u);
    assert(snd_dtq(D1, -5) == E_OK && psnd_dtq(D1, (intptr_t)&data) == E_OK && fsnd_dtq(D1, INTPTR_MIN) == E_OK && psnd_dtq(D1, 1) == E_TMOUT);
    assert(rcv_dtq(D1, &data) == E_OK && data == -5);
    assert(prcv_dtq(D1, &data) == E_OK && data == (intptr_t)&data);
    assert(trcv_dtq(D1, &data, 1) == E_OK && data == INTPTR_MIN && trcv_dtq(D1, &data, TMO_POL) == E_TMOUT && data == INTPTR_MIN);
    assert(get_mpf(M1, &a) == E_OK && pget_mpf(M1, &b) == E_OK && tget_mpf(M1, &c, TMO_POL) == E_TMOUT && c == NULL);
    assert(a != b && (uintptr_t)a % 8 == 0 && (uintptr_t)b % 8 == 0 && ((char *)b - (char *)a >= 20 || (char *)a - (char *)b >= 20));
    memset(a, 1, 20), memset(b, 2, 20);
    assert(((char *)a)[19] == 1 && ((char *)b)[0] == 2);
    assert(rel_mpf(M1, (char *)a + 1) == E_PAR && rel_mpf(M1, &c) == E_PAR && rel_mpf(M1, NULL) == E_PAR);
    assert(rel_mpf(M1, a) == E_OK && rel_mpf(M1, a) == E_PAR && rel_mpf(M1, b) == E_OK);
    assert(loc_spn(L1) == E_OK && sns_loc() && try_spn(L1) == E_CTX && unl_spn(L1) == E_OK && unl_spn(L1) == E_ILUSE);
    assert(dly_tsk(2147483648u) == E_PAR && chg_pri(T2, 3) == E_OBJ && ter_tsk(T1) == E_ILUSE && mig_tsk(TSK_SELF, 3) == E_ID);
    assert(sta_alm(A1, 0) == E_OK && wai_sem(S1) == E_OK && rang == 1 && stp_alm(A1) == E_OK);
    assert(act_tsk(T2) == E_OK && other == 1); /* it comes first, and waits for a value */
    assert(snd_dtq(D1, INTPTR_MAX) == E_OK && rel_wai(T2) == E_OK && rel_wai(T2) == E_OBJ);
    assert(mig_tsk(TSK_SELF, 2) == E_OK && get_pid(&id) == E_OK && id == 2);
    ext_ker();
}
