# The life of some tasks, handlers and objects: what each event changes of them.

lives() {
    local folder same=yes names one
    write_life
    life T2 '  T2 dormant' '2 P1 T1 act_tsk(T2) E_OK run=T2' '  T2 running P1' \
        '3 P1 T2 twai_sem(S, 5) wait run=T1' '  T2 waits sem S left=6' \
        '5 P1 T1 sus_tsk(T2) E_OK' '  T2 suspended waits sem S left=5' \
        '6 P1 T1 sig_sem(S) E_OK rel=T2:E_OK' '  T2 suspended' \
        '7 P1 T1 rsm_tsk(T2) E_OK run=T2' '  T2 running P1' \
        '8 P1 T2 chg_pri(T2, 7) E_OK' '  T2 running P1 pri=7' \
        '9 P1 T2 act_tsk(T2) E_OK' '  T2 running P1 pri=7 act=1' \
        '10 P1 T2 wup_tsk(T2) E_OK' '  T2 running P1 pri=7 act=1 wup=1' \
        '11 P1 T2 chg_pri(T1, 1) E_OK run=T1' '  T2 ready P1 pri=7 act=1 wup=1' \
        '19 P1 T1 ext_tsk() gone run=T2' '  T2 running P1 pri=7 act=1 wup=1' \
        '20 P1 T2 ext_tsk() gone' '  T2 running P1' \
        '21 P1 T2 ext_tsk() gone run=idle' '  T2 dormant'
    # what is told at boot stands in the order of the names, and so does what changes at once
    life T1,S,F '  T1 running P1' '  S count=0' '  F pattern=1' \
        '2 P1 T1 act_tsk(T2) E_OK run=T2' '  T1 ready P1' \
        '3 P1 T2 twai_sem(S, 5) wait run=T1' '  T1 running P1' \
        '7 P1 T1 rsm_tsk(T2) E_OK run=T2' '  T1 ready P1' \
        '11 P1 T2 chg_pri(T1, 1) E_OK run=T1' '  T1 running P1 pri=1' \
        '12 P1 T1 sig_sem(S) E_OK' '  S count=1' '13 P1 T1 set_flg(F, 6) E_OK' '  F pattern=7' \
        '19 P1 T1 ext_tsk() gone run=T2' '  T1 dormant'
    life Q,M,L '  Q empty' '  M free=2' '  L free' '14 P1 T1 snd_dtq(Q, -3) E_OK' '  Q values=-3' \
        '15 P1 T1 snd_dtq(Q, 4) E_OK' '  Q values=-3,4' '16 P1 T1 pget_mpf(M) E_OK:0' '  M free=1' \
        '17 P1 T1 loc_spn(L) E_OK' '  L held=P1' '18 P1 T1 unl_spn(L) E_OK' '  L free'
    # a handler counts down unseen, is due and returns
    printf 'P1 %s\n' 'sta_cyc(C)' tick tick ret_hdr tick 'sta_alm(A, 0)' tick ret_hdr 'stp_cyc(C)' > events.txt
    life C,A '  C stopped' '  A stopped' '1 P1 T1 sta_cyc(C) E_OK' '  C left=2' '3 P1 T1 tick taken' '  C left=3 due' '4 P1 C ret_hdr E_OK' '  C left=3' \
        '6 P1 T1 sta_alm(A, 0) E_OK' '  A left=1' '7 P1 T1 tick taken' '  A stopped due' '8 P1 A ret_hdr E_OK' '  A stopped' \
        '9 P1 T1 stp_cyc(C) E_OK' '  C stopped'
    # a name that stands twice is told twice, and one that changes nothing only at boot
    printf 'P1 act_tsk(T2)\nP1 tick\n' > events.txt
    life T2,M,T2 '  T2 dormant' '  M free=2' '  T2 dormant' '1 P1 T1 act_tsk(T2) E_OK run=T2' '  T2 running P1' '  T2 running P1'
    from=events.txt run 0 "$(as_file printf '  M free=2\n')" /dev/null calls life.cfg - --of M
    names_that_name_nothing
    life_cut_short
    # what another program makes of the states
    for folder in "$top"/examples/*/; do
        [ -f "$folder/events.txt" ] && [ "$folder" != "$top/examples/whole-configuration/" ] || continue
        names=$(sed -nE 's/.*CRE_[A-Z]{3}\(([A-Za-z0-9_]+),.*/\1/p' "$folder/machine.cfg")
        play calls --state "$folder/machine.cfg" "$folder/events.txt"
        mv output states.txt
        for one in $names "$(paste -s -d , <<< "$names")"; do
            python3 "$top/tests/program/life.py" "$folder/machine.cfg" "$one" < states.txt > told.txt || same=no
            play calls "--of=$one" "$folder/machine.cfg" "$folder/events.txt"
            diff told.txt output || same=no
        done
    done
    count "$same" calls --of '# of each example'
}

# life NAMES LINE..: the events of events.txt change these lines of them.
life() {
    run 0 "$(as_file printf '%s\n' "${@:2}")" /dev/null calls life.cfg events.txt "--of=$1"
}

# Writes a machine with an object of each kind, and events that change most of them.
write_life() {
    cat > life.cfg <<- END
	PROCESSORS(1);
	DEF_CLASS(K, 1, {1});
	CLASS(K) {
	  CRE_TSK(T1, {TA_ACT, 0, main1, 10, 4096, NULL});
	  CRE_TSK(T2, {TA_NULL, 0, main2, 5, 4096, NULL});
	  CRE_SEM(S, {TA_NULL, 0, 1});
	  CRE_FLG(F, {TA_NULL, 1});
	  CRE_DTQ(Q, {TA_NULL, 2, NULL});
	  CRE_MPF(M, {TA_NULL, 2, 16, NULL, NULL});
	  CRE_CYC(C, {TA_NULL, 0, tack, 3, 1});
	  CRE_ALM(A, {TA_NULL, 0, ring});
	  CRE_SPN(L, {TA_NULL});
	}
	END
    printf 'P1 %s\n' tick 'act_tsk(T2)' 'twai_sem(S, 5)' tick 'sus_tsk(T2)' 'sig_sem(S)' 'rsm_tsk(T2)' 'chg_pri(T2, 7)' 'act_tsk(T2)' 'wup_tsk(T2)' \
        'chg_pri(T1, 1)' 'sig_sem(S)' 'set_flg(F, 6)' 'snd_dtq(Q, -3)' 'snd_dtq(Q, 4)' 'pget_mpf(M)' 'loc_spn(L)' 'unl_spn(L)' 'ext_tsk()' 'ext_tsk()' \
        'ext_tsk()' > events.txt
}

# The first name that names nothing is told, with one that is near, or the task whose function it is, or else what may be named. Nothing is written.
names_that_name_nothing() {
    local names name near other='Tasks, handlers and objects may be named: `fmpsim list` with the path of a configuration has their names.'
    while IFS='|' read -r names name near; do
        run 2 /dev/null "$(as_file printf '%s\n' "fmpsim: --of: life.cfg has nothing called '$name'" "  ${near:-$other}")" calls life.cfg events.txt "--of=$names"
    done <<- END
	T9|T9
	t2|t2|near: T2
	T1,S9,T9|S9
	T1,,T2|
	T1,|
	,T1|
	T1 |T1 |near: T1
	T1, T2| T2|near: T2
	main1|main1|main1 is a function, and its task is T1.
	K|K
	END
    run 2 /dev/null "$(as_file printf '%s\n' "fmpsim: --of: life.cfg has nothing called ''" "  $other")" calls life.cfg events.txt --of ''
    printf 'PROCESSORS(1' > wrong.cfg
    run 1 /dev/null "$(as_file echo 'fmpsim: wrong.cfg: line 1: F2 cut short')" calls wrong.cfg events.txt --of T9
    refused calls life.cfg events.txt --of
    usage 2 errors output calls life.cfg events.txt --of T1 --of T2
    usage 2 errors output calls life.cfg events.txt --of T1 --state
}

# A fault of the events, a device that fails and a pipe that closes.
life_cut_short() {
    printf 'P1 act_tsk(T2)\nP1 jump()\n' > wrong.txt
    run 1 "$(as_file printf '  T2 dormant\n1 P1 T1 act_tsk(T2) E_OK run=T2\n  T2 running P1\n')" "$(as_file echo fmpsim: wrong.txt: line 2: E2 bad word)" calls life.cfg wrong.txt --of T2
    printf 'P1 act_tsk(T2)\nP1 tick' > wrong.txt
    run 1 "$(as_file printf '  T2 dormant\n1 P1 T1 act_tsk(T2) E_OK run=T2\n  T2 running P1\n')" "$(as_file echo fmpsim: wrong.txt: line 2: E6 cut short)" calls life.cfg wrong.txt --of T2
    unread calls life.cfg missing --of T2
    unwritten calls life.cfg events.txt --of T2
    unread_output calls life.cfg events.txt --of T2
}
