" Syntax of the texts of fmpsim, made by editors/make.
if exists('b:current_syntax')
  finish
endif
syntax keyword fmpsimCalls act_tsk iact_tsk mact_tsk imact_tsk can_act mig_tsk ext_tsk ter_tsk chg_pri get_pri slp_tsk tslp_tsk wup_tsk iwup_tsk can_wup rel_wai irel_wai sus_tsk rsm_tsk dly_tsk sig_sem isig_sem wai_sem twai_sem pol_sem set_flg iset_flg clr_flg wai_flg twai_flg pol_flg snd_dtq tsnd_dtq psnd_dtq ipsnd_dtq fsnd_dtq ifsnd_dtq rcv_dtq trcv_dtq prcv_dtq get_mpf tget_mpf pget_mpf rel_mpf sta_cyc msta_cyc stp_cyc sta_alm ista_alm msta_alm imsta_alm stp_alm istp_alm rot_rdq irot_rdq mrot_rdq imrot_rdq get_tid iget_tid get_pid iget_pid loc_cpu iloc_cpu unl_cpu iunl_cpu dis_dsp ena_dsp sns_ctx sns_loc sns_dsp sns_dpn loc_spn iloc_spn try_spn itry_spn unl_spn iunl_spn ret_hdr
syntax keyword fmpsimStatements INCLUDE PROCESSORS TIMER LIMITS DEF_CLASS CLASS CRE_TSK CRE_SEM CRE_FLG CRE_DTQ CRE_MPF CRE_CYC CRE_ALM CRE_SPN
syntax keyword fmpsimCodes E_OK E_PAR E_ID E_CTX E_ILUSE E_OBJ E_QOVR E_RLWAI E_TMOUT
syntax keyword fmpsimAnswers wait spin gone idle held taken none
syntax keyword fmpsimAttributes TA_NULL TA_ACT TA_STA TA_TFIFO TA_TPRI TA_WSGL TA_WMUL TA_CLR LOCAL GLOBAL
syntax keyword fmpsimConstants TSK_SELF TPRI_SELF TPRI_INI TPRC_INI TMO_POL TMO_FEVR TWF_ANDW TWF_ORW
syntax keyword fmpsimEvents tick ipi
syntax keyword fmpsimScripts script end on goto
syntax keyword fmpsimQuestions then or not without for ever deadlock but refused
syntax keyword fmpsimStates running ready waits suspended dormant locked disabled latch due left pri act wup count pattern values free stopped rel lost run
syntax match fmpsimProcessor /\<P[1-8]\>/
syntax match fmpsimNumber /-\?\<\(0x\x\+\|\d\+\)\>/
syntax match fmpsimComment +//.*$+
syntax region fmpsimComment start=+/\*+ end=+\*/+
syntax region fmpsimString start=+"+ skip=+\\"+ end=+"+
syntax match fmpsimDirective /^\s*#.*$/
highlight default link fmpsimCalls Function
highlight default link fmpsimStatements Statement
highlight default link fmpsimCodes Constant
highlight default link fmpsimAnswers Constant
highlight default link fmpsimAttributes StorageClass
highlight default link fmpsimConstants Number
highlight default link fmpsimEvents Special
highlight default link fmpsimScripts Conditional
highlight default link fmpsimQuestions Operator
highlight default link fmpsimStates Identifier
highlight default link fmpsimProcessor Type
highlight default link fmpsimNumber Number
highlight default link fmpsimComment Comment
highlight default link fmpsimString String
highlight default link fmpsimDirective PreProc
let b:current_syntax = 'fmpsim'
