# The state at boot and after each event. Without its lines the trace is left.

states() {
    local folder same=yes task
    printf 'P1 act_tsk(T2)\nP2 get_pid()\nP2 ipi\n' > events.txt
    printf '%s\n' '  P1 run=T1' '  P2 run=-' '  end' \
        '1 P1 T1 act_tsk(T2) E_OK ipi=2' '  P1 run=T1' '  P2 run=- ready=T2 latch' '  end' \
        '2 P2 - get_pid() idle' '  P1 run=T1' '  P2 run=- ready=T2 latch' '  end' \
        '3 P2 - ipi taken run=T2' '  P1 run=T1' '  P2 run=T2' '  end' > told.txt
    run 0 told.txt /dev/null calls --state "$late/machine.cfg" events.txt
    from=events.txt run 0 told.txt /dev/null calls "$late/machine.cfg" - --state
    for folder in "$top"/examples/*/; do
        [ -f "$folder/events.txt" ] || continue
        play calls --state "$folder/machine.cfg" "$folder/events.txt"
        grep -q '^  P1 run=' output && grep -v '^ ' output | cmp - "$folder/trace.txt" || same=no
    done
    count "$same" calls --state
    printf 'P1 tick\nP3 tick\n' > events.txt
    run 1 "$(as_file printf '  P1 run=T1\n  P2 run=-\n  end\n1 P1 T1 tick taken\n  P1 run=T1\n  P2 run=-\n  end\n')" "$(as_file echo fmpsim: events.txt: line 2: E5 number out of range)" \
        calls --state "$late/machine.cfg" events.txt
    unread calls --state missing events.txt
    unwritten calls --state "$late/machine.cfg" "$late/events.txt"
    # all tasks that a machine may have are ready, each behind those before it
    {
        printf 'PROCESSORS(1);\nDEF_CLASS(C, 1, {1});\nCLASS(C) {\n'
        for task in {1..64}; do
            echo "CRE_TSK(T$task, {TA_ACT, 0, main, 1, 4096, NULL});"
        done
        echo '}'
    } > many.cfg
    echo 'P1 get_tid()' > events.txt
    { seq -s ,T 2 64 | sed 's/^/  P1 run=T1 ready=T/' && echo '  end'; } > state.txt
    run 0 "$({ cat state.txt && echo '1 P1 T1 get_tid() E_OK:1' && cat state.txt; } | as_file)" /dev/null calls --state many.cfg events.txt
}
