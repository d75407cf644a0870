# Processors that follow scripts: in threads what holds in every order, by a seed the very trace.

scripts() {
    local ended well=no numbers=(--ticks 1 --turns 100)
    printf 'script user\nget_tid()\nend\n' > user.txt
    printf '%s\n' 'P1 SENDER ext_tsk() gone run=idle' 'P1 SENDER get_tid() E_OK:1' 'P1 tick taken' \
        'P2 RECEIVER ext_tsk() gone run=idle' 'P2 RECEIVER get_tid() E_OK:2' 'P2 tick taken' > lines.txt
    play smp "$spin/machine.cfg" user.txt "${numbers[@]}"
    [ $? = 0 ] && [ ! -s errors ] && diff lines.txt "$(sed -E 's/^[0-9]+ //; s/ [^ ]+ tick / tick /' output | LC_ALL=C sort | as_file)" && well=yes
    count "$well" smp "$spin/machine.cfg" user.txt "${numbers[@]}"
    # one that spins may do so for all turns, so this run may end full; only one without a lock has to end quiet
    play smp "$spin/machine.cfg" "$spin/scripts.txt" "${numbers[@]}"
    ended=$? well=no
    case $ended in
        0) [ "$(grep -c 'tick taken' output)" = 2 ] && [ "$(grep -c ' gone ' output)" = 2 ] && well=yes ;;
        6) [ "$(wc -l < output)" = 100 ] && well=yes ;;
    esac
    [ ! -s errors ] || well=no
    count "$well" smp "$spin/machine.cfg" "$spin/scripts.txt" "${numbers[@]}"
    cp output trace.txt
    run 0 "$(as_file echo yes)" /dev/null check "$spin/machine.cfg" trace.txt
    from=$spin/scripts.txt run 0 "$spin/trace.txt" /dev/null smp "$spin/machine.cfg" - "${numbers[@]}" --seed 11
    # the first four lines of the trace, and no room for more
    from=$spin/scripts.txt run 6 "$(as_file head -n 4 "$spin/trace.txt")" /dev/null smp "$spin/machine.cfg" - --ticks 1 --turns 4 --seed 11
    write_again
    run 6 "$(as_file printf '1 P1 T act_tsk(TSK_SELF) E_OK\n2 P1 T ext_tsk() gone\n3 P1 T act_tsk(TSK_SELF) E_OK\n')" /dev/null \
        smp again.cfg again.txt --ticks 0 --turns 3
    printf 'script main\nslp_tsk()\ntick\nend\n' > tick.txt
    printf 'script main\nslp_tsk()\n' > open.txt
    run 1 /dev/null "$(as_file echo fmpsim: tick.txt: line 3: E2 bad word)" smp again.cfg tick.txt --ticks 0 --turns 1
    run 1 /dev/null "$(as_file echo fmpsim: open.txt: line 1: E6 cut short)" smp again.cfg open.txt --ticks 0 --turns 1 --seed 1
    run 1 /dev/null "$(as_file echo fmpsim: tick.txt: line 1: F3 unsupported API script)" smp tick.txt again.txt --ticks 0 --turns 1
    unread smp again.cfg missing --ticks 0 --turns 1
    unwritten smp again.cfg again.txt --ticks 0 --turns 1 --seed 0
    # a million records of over a kilobyte each
    memory=100000 run 4 /dev/null "$(as_file echo fmpsim: want of memory)" smp again.cfg again.txt --ticks 0 --turns 1000000 --seed 0
    waiting
}

# Who waits at the end of a run, and for what, stands on standard error, and is a status of its own where that is asked for.
waiting() {
    local trace=('1 P1 T1 twai_sem(S1, 2) wait run=T2' '2 P1 T2 slp_tsk() wait run=T3' '3 P1 T3 sus_tsk(T2) E_OK' '4 P1 T3 ext_tsk() gone run=idle')
    local words=(smp wait.cfg wait.txt --ticks 0) seed
    printf 'PROCESSORS(1);\nDEF_CLASS(C, 1, {1});\nCLASS(C) {\nCRE_SEM(S1, {TA_NULL, 0, 1});\n' > wait.cfg
    printf 'CRE_TSK(T%d, {TA_ACT, 0, main%d, %d, 4096, NULL});\n' 1 1 1 2 2 2 3 3 3 >> wait.cfg
    echo '}' >> wait.cfg
    printf 'script main1\ntwai_sem(S1, 2)\nend\nscript main2\nslp_tsk()\nend\nscript main3\nsus_tsk(T2)\nend\n' > wait.txt
    printf 'PROCESSORS(1);\nDEF_CLASS(C, 1, {1});\nCLASS(C) { CRE_TSK(T3, {TA_ACT, 0, main3, 1, 4096, NULL}); }\n' > one.cfg
    printf 'script main3\nget_tid()\nend\n' > one.txt
    # behind a wait of two ticks three are left of it
    printf '%s\n' 'fmpsim: T1 waits sem S1 left=3' 'fmpsim: T2 suspended waits slp' > waits.txt
    for seed in '' '--seed 0' '--seed 18446744073709551615'; do
        # shellcheck disable=SC2086
        {
            run 0 "$(as_file printf '%s\n' "${trace[@]}")" waits.txt "${words[@]}" --turns 10 $seed
            run 7 "$(as_file printf '%s\n' "${trace[@]}")" waits.txt "${words[@]}" --turns 10 --strict $seed
            # full and quiet at once is quiet
            run 7 "$(as_file printf '%s\n' "${trace[@]}")" waits.txt "${words[@]}" --turns 4 --strict $seed
            # at its limit of turns it has the status of that
            run 6 "$(as_file printf '%s\n' "${trace[@]:0:3}")" waits.txt "${words[@]}" --turns 3 --strict $seed
            run 6 "$(as_file echo "${trace[0]}")" "$(as_file head -n 1 waits.txt)" "${words[@]}" --turns 1 $seed
        }
    done
    # each of twenty is told
    printf 'PROCESSORS(1);\nDEF_CLASS(C, 1, {1});\nCLASS(C) {\n' > twenty.cfg
    printf 'CRE_TSK(T%d, {TA_ACT, 0, sleeper, 1, 4096, NULL});\n' {1..20} >> twenty.cfg
    echo '}' >> twenty.cfg
    printf 'script sleeper\nslp_tsk()\nend\n' > twenty.txt
    for seed in {1..19}; do
        echo "$seed P1 T$seed slp_tsk() wait run=T$((seed + 1))"
    done > twenty.trace
    echo '20 P1 T20 slp_tsk() wait run=idle' >> twenty.trace
    run 0 twenty.trace "$(as_file printf 'fmpsim: T%d waits slp\n' {1..20})" smp twenty.cfg twenty.txt --ticks 0 --turns 100 --seed 0
    # nobody waits where all came to the ends of their scripts
    run 0 "$(as_file printf '%s\n' '1 P1 T3 get_tid() E_OK:1' '2 P1 T3 ext_tsk() gone run=idle')" /dev/null smp one.cfg one.txt --ticks 0 --turns 9 --strict
    # what cannot be written is told alone
    to=/dev/full run 3 /dev/null "$(as_file echo fmpsim: write failed)" "${words[@]}" --turns 10 --strict
}
