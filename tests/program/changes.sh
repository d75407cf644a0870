# What of the state each event changed: the lines of processors, the lines that are new or differ, and the names of those that are gone.

changes() {
    local folder same=yes
    write_changing
    printf 'P1 %s\n' tick 'act_tsk(T2)' 'twai_sem(S, 5)' tick 'sus_tsk(T2)' 'sig_sem(S)' 'rsm_tsk(T2)' 'chg_pri(T2, 7)' 'act_tsk(T2)' 'wup_tsk(T2)' \
        'chg_pri(T1, 1)' 'sig_sem(S)' 'set_flg(F, 6)' 'snd_dtq(Q, -3)' 'snd_dtq(Q, 4)' 'pget_mpf(M)' 'loc_spn(L)' 'unl_spn(L)' 'ext_tsk()' 'ext_tsk()' \
        'ext_tsk()' > events.txt
    # A processor's line is always there. Another one is there where it is new or differs, and its name alone where it is gone.
    changed '  P1 run=T1' '  end' '1 P1 T1 tick taken' '  P1 run=T1' '  end' \
        '2 P1 T1 act_tsk(T2) E_OK run=T2' '  P1 run=T2 ready=T1' '  end' \
        '3 P1 T2 twai_sem(S, 5) wait run=T1' '  P1 run=T1' '  T2 waits sem S left=6' '  end' \
        '4 P1 T1 tick taken' '  P1 run=T1' '  T2 waits sem S left=5' '  end' \
        '5 P1 T1 sus_tsk(T2) E_OK' '  P1 run=T1' '  T2 suspended waits sem S left=5' '  end' \
        '6 P1 T1 sig_sem(S) E_OK rel=T2:E_OK' '  P1 run=T1' '  T2 suspended' '  end' \
        '7 P1 T1 rsm_tsk(T2) E_OK run=T2' '  P1 run=T2 ready=T1' '  T2' '  end' \
        '8 P1 T2 chg_pri(T2, 7) E_OK' '  P1 run=T2 ready=T1' '  T2 pri=7' '  end' \
        '9 P1 T2 act_tsk(T2) E_OK' '  P1 run=T2 ready=T1' '  T2 pri=7 act=1' '  end' \
        '10 P1 T2 wup_tsk(T2) E_OK' '  P1 run=T2 ready=T1' '  T2 pri=7 act=1 wup=1' '  end' \
        '11 P1 T2 chg_pri(T1, 1) E_OK run=T1' '  P1 run=T1 ready=T2' '  T1 pri=1' '  end' \
        '12 P1 T1 sig_sem(S) E_OK' '  P1 run=T1 ready=T2' '  S count=1' '  end' \
        '13 P1 T1 set_flg(F, 6) E_OK' '  P1 run=T1 ready=T2' '  F pattern=7' '  end' \
        '14 P1 T1 snd_dtq(Q, -3) E_OK' '  P1 run=T1 ready=T2' '  Q values=-3' '  end' \
        '15 P1 T1 snd_dtq(Q, 4) E_OK' '  P1 run=T1 ready=T2' '  Q values=-3,4' '  end' \
        '16 P1 T1 pget_mpf(M) E_OK:0' '  P1 run=T1 ready=T2' '  M free=1' '  end' \
        '17 P1 T1 loc_spn(L) E_OK' '  P1 run=T1 ready=T2 locked' '  L held=P1' '  end' \
        '18 P1 T1 unl_spn(L) E_OK' '  P1 run=T1 ready=T2' '  L' '  end' \
        '19 P1 T1 ext_tsk() gone run=T2' '  P1 run=T2' '  T1' '  end' \
        '20 P1 T2 ext_tsk() gone' '  P1 run=T2' '  T2' '  end' \
        '21 P1 T2 ext_tsk() gone run=idle' '  P1 run=-' '  end'
    # One event has all three: lines that differ, a new one, and names, in the order in which the lines stand in a state, the names last.
    printf 'P1 %s\n' 'act_tsk(T2)' 'twai_sem(S, 1)' 'sta_cyc(C)' 'sta_alm(A, 1)' 'act_tsk(T3)' 'slp_tsk()' tick tick ret_hdr ret_hdr 'ext_tsk()' > events.txt
    changed '  P1 run=T1' '  end' \
        '1 P1 T1 act_tsk(T2) E_OK run=T2' '  P1 run=T2 ready=T1' '  end' \
        '2 P1 T2 twai_sem(S, 1) wait run=T1' '  P1 run=T1' '  T2 waits sem S left=2' '  end' \
        '3 P1 T1 sta_cyc(C) E_OK' '  P1 run=T1' '  C left=2' '  end' \
        '4 P1 T1 sta_alm(A, 1) E_OK' '  P1 run=T1' '  A left=2' '  end' \
        '5 P1 T1 act_tsk(T3) E_OK run=T3' '  P1 run=T3 ready=T1' '  end' \
        '6 P1 T3 slp_tsk() wait run=T1' '  P1 run=T1' '  T3 waits slp' '  end' \
        '7 P1 T1 tick taken' '  P1 run=T1' '  T2 waits sem S left=1' '  C left=1' '  A left=1' '  end' \
        '8 P1 T1 tick taken rel=T2:E_TMOUT' '  P1 run=T1 ready=T2 due=A,C' '  C left=3' '  T2' '  A' '  end' \
        '9 P1 A ret_hdr E_OK' '  P1 run=T1 ready=T2 due=C' '  end' \
        '10 P1 C ret_hdr E_OK run=T2' '  P1 run=T2 ready=T1' '  end' \
        '11 P1 T2 ext_tsk() gone run=T1' '  P1 run=T1' '  end'
    # Each event comes with its changes before the next one is read, and the end of a line does not matter.
    printf 'P1 act_tsk(T2)\r\nP1 slp_tsk()\r\n' > events.txt
    from=events.txt run 0 "$(as_file printf '%s\n' '  P1 run=T1' '  end' '1 P1 T1 act_tsk(T2) E_OK run=T2' '  P1 run=T2 ready=T1' '  end' \
        '2 P1 T2 slp_tsk() wait run=T1' '  P1 run=T1' '  T2 waits slp' '  end')" /dev/null calls changing.cfg - --changes
    # Names that look like others: one that begins with P is no processor's, and one is the beginning of another.
    names_that_are_alike
    changes_cut_short
    # what another program makes of the states
    for folder in "$top"/examples/*/; do
        [ -f "$folder/events.txt" ] || continue
        play calls --state "$folder/machine.cfg" "$folder/events.txt"
        mv output states.txt
        python3 "$top/tests/program/changes.py" < states.txt > told.txt || same=no
        play calls --changes "$folder/machine.cfg" "$folder/events.txt"
        diff told.txt output || same=no
        grep -v '^ ' output | cmp - "$folder/trace.txt" || same=no
    done
    count "$same" calls --changes '# of each example'
}

# changed LINE..: the events of events.txt change these lines.
changed() {
    run 0 "$(as_file printf '%s\n' "$@")" /dev/null calls --changes changing.cfg events.txt
}

# Writes a machine with an object of each kind.
write_changing() {
    cat > changing.cfg <<- END
	PROCESSORS(1);
	DEF_CLASS(K, 1, {1});
	CLASS(K) {
	  CRE_TSK(T1, {TA_ACT, 0, main1, 10, 4096, NULL});
	  CRE_TSK(T2, {TA_NULL, 0, main2, 5, 4096, NULL});
	  CRE_TSK(T3, {TA_NULL, 0, main3, 4, 4096, NULL});
	  CRE_SEM(S, {TA_NULL, 0, 1});
	  CRE_FLG(F, {TA_NULL, 1});
	  CRE_DTQ(Q, {TA_NULL, 2, NULL});
	  CRE_MPF(M, {TA_NULL, 2, 16, NULL, NULL});
	  CRE_CYC(C, {TA_NULL, 0, tack, 3, 1});
	  CRE_ALM(A, {TA_NULL, 0, ring});
	  CRE_SPN(L, {TA_NULL});
	}
	END
}

# Semaphores P, P1x, P1xy, _ and end on two processors. Each line is known by its whole name.
names_that_are_alike() {
    cat > alike.cfg <<- END
	PROCESSORS(2);
	DEF_CLASS(K, 1, {1, 2});
	CLASS(K) {
	  CRE_TSK(T, {TA_ACT, 0, main, 10, 4096, NULL});
	  CRE_SEM(P, {TA_NULL, 0, 2});
	  CRE_SEM(P1x, {TA_NULL, 0, 2});
	  CRE_SEM(P1xy, {TA_NULL, 0, 2});
	  CRE_SEM(_, {TA_NULL, 0, 2});
	  CRE_SEM(end, {TA_NULL, 0, 2});
	}
	END
    printf 'P1 %s\n' 'sig_sem(P1xy)' 'sig_sem(P1x)' 'sig_sem(P)' 'sig_sem(_)' 'sig_sem(end)' 'pol_sem(P1x)' 'pol_sem(P)' 'pol_sem(_)' 'pol_sem(end)' > events.txt
    run 0 "$(as_file printf '%s\n' '  P1 run=T' '  P2 run=-' '  end' \
        '1 P1 T sig_sem(P1xy) E_OK' '  P1 run=T' '  P2 run=-' '  P1xy count=1' '  end' \
        '2 P1 T sig_sem(P1x) E_OK' '  P1 run=T' '  P2 run=-' '  P1x count=1' '  end' \
        '3 P1 T sig_sem(P) E_OK' '  P1 run=T' '  P2 run=-' '  P count=1' '  end' \
        '4 P1 T sig_sem(_) E_OK' '  P1 run=T' '  P2 run=-' '  _ count=1' '  end' \
        '5 P1 T sig_sem(end) E_OK' '  P1 run=T' '  P2 run=-' '  end count=1' '  end' \
        '6 P1 T pol_sem(P1x) E_OK' '  P1 run=T' '  P2 run=-' '  P1x' '  end' \
        '7 P1 T pol_sem(P) E_OK' '  P1 run=T' '  P2 run=-' '  P' '  end' \
        '8 P1 T pol_sem(_) E_OK' '  P1 run=T' '  P2 run=-' '  _' '  end' \
        '9 P1 T pol_sem(end) E_OK' '  P1 run=T' '  P2 run=-' '  end' '  end')" /dev/null calls alike.cfg events.txt --changes
}

# What is out where a text has a fault, or a file cannot be read or written. The option goes alone.
changes_cut_short() {
    printf 'P1 act_tsk(T2)\nP3 tick\n' > events.txt
    run 1 "$(as_file printf '  P1 run=T1\n  end\n1 P1 T1 act_tsk(T2) E_OK run=T2\n  P1 run=T2 ready=T1\n  end\n')" \
        "$(as_file echo fmpsim: events.txt: line 2: E5 number out of range)" calls --changes changing.cfg events.txt
    unread calls --changes missing events.txt
    unread calls --changes changing.cfg missing
    unwritten calls --changes changing.cfg events.txt
    usage 2 errors output calls --changes --state changing.cfg events.txt
    usage 2 errors output calls changing.cfg --changes events.txt --of T1
    usage 2 errors output calls --changes changing.cfg events.txt --changes
    usage 2 errors output check --changes changing.cfg events.txt
}
