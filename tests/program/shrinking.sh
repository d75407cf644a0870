# Events are left out of a list until none can go without that it shows no longer what is asked.

shrinking() {
    local folder=$top/examples/shrink-timeout
    local cfg=$folder/machine.cfg late='rel=WORKER:E_TMOUT' silent
    run 0 "$folder/left.txt" /dev/null shrink "$cfg" "$folder/events.txt" --find "$late"
    # there each task makes its own calls as it is
    run 0 "$folder/left.txt" /dev/null shrink "$cfg" "$folder/events.txt" --find "$late" --runs
    kept_runs
    none_can_go "$cfg" "$folder/left.txt" "$late"
    # of 1,257 events six are left, within a second of processor time on the proved program
    noise 1251 "$folder/left.txt" > many.txt
    count_lines 1257 many.txt
    seconds=2 run 0 "$folder/left.txt" /dev/null shrink "$cfg" many.txt --find "$late"
    # what is given is written in one form, whatever stood between
    printf '\n  P1   act_tsk( WORKER ) \r\n# begun\nP2 ipi\n\nP2 tslp_tsk(0x2)\nP2 tick\nP2 tick\n# over\nP2 tick\n' > loose.txt
    run 0 "$folder/left.txt" /dev/null shrink "$cfg" loose.txt --find "$late"
    from=loose.txt run 0 "$folder/left.txt" /dev/null shrink "$cfg" - --find "$late"
    # steps that have to come one behind the other, and one that must not come between
    printf 'P1 sig_sem(GATE)\nP1 get_tid()\nP1 pol_sem(GATE)\nP1 sig_sem(GATE)\nP1 pol_sem(GATE)\n' > steps.txt
    run 0 "$(as_file printf 'P1 sig_sem(GATE)\nP1 pol_sem(GATE)\nP1 sig_sem(GATE)\nP1 pol_sem(GATE)\n')" /dev/null \
        shrink "$cfg" steps.txt --find '2 times pol_sem(GATE) E_OK'
    # the semaphore is empty after the last of them alone
    run 0 "$(as_file printf 'P1 pol_sem(GATE)\n')" /dev/null shrink "$cfg" "$({ cat steps.txt && echo 'P1 pol_sem(GATE)'; } | as_file)" --find 'pol_sem(GATE) E_TMOUT'
    run 0 "$(as_file printf 'P1 sig_sem(GATE)\nP1 pol_sem(GATE)\n')" /dev/null shrink "$cfg" steps.txt --find 'sig_sem(GATE) * then pol_sem(GATE) E_OK without get_tid() *'
    # the state behind an event is looked at too
    run 0 "$(as_file printf 'P1 act_tsk(WORKER)\n')" /dev/null shrink "$cfg" "$folder/events.txt" --find 'ready=WORKER latch'
    for silent in 'rel=WORKER:E_RLWAI' 'end' 'act_tsk(WORKER) then act_tsk(WORKER)' 'tslp_tsk(2) * then act_tsk(WORKER) *'; do
        run 5 /dev/null "$(as_file echo "fmpsim: $folder/events.txt: the answers to these events do not show it")" \
            shrink "$cfg" "$folder/events.txt" --find "$silent"
    done
    run 5 /dev/null "$(as_file echo 'fmpsim: -: the answers to these events do not show it')" shrink "$cfg" - --find tick
    run 1 /dev/null "$(as_file printf 'fmpsim: --find: byte 1: E3 unknown name\n')" shrink "$cfg" many.txt --find 'act_tsk(NOBODY)'
    run 1 /dev/null "$(as_file printf 'fmpsim: --find: byte 10: E2 bad word\n')" shrink "$cfg" many.txt --find 'tick then'
    printf 'P1 get_tid()\nP3 tick\n' > wrong.txt
    run 1 /dev/null "$(as_file echo 'fmpsim: wrong.txt: line 2: E5 number out of range')" shrink "$cfg" wrong.txt --find end
    run 1 /dev/null "$(as_file printf 'fmpsim: %s: line 1: F3 unsupported API P1\n' "$folder/left.txt")" shrink "$folder/left.txt" wrong.txt --find end
    unread shrink missing "$folder/events.txt" --find end
    unread shrink "$cfg" missing --find end
    unwritten shrink "$cfg" "$folder/events.txt" --find "$late"
}

# With --runs each task and handler makes only calls that it makes in the answers to the whole list, in its own order of them.
kept_runs() {
    printf '%s\n' 'PROCESSORS(2);' 'DEF_CLASS(C1, 1, {1});' 'DEF_CLASS(C2, 2, {2});' 'CLASS(C1) {' \
        'CRE_TSK(HIGH, {TA_NULL, 0, high, 5, 4096, NULL});' 'CRE_TSK(LOW, {TA_ACT, 0, low, 10, 4096, NULL});' 'CRE_SEM(GATE, {TA_NULL, 0, 9});' \
        'CRE_CYC(ISR, {TA_STA, 0, isr, 2147483647, 0});' '}' 'CLASS(C2) {' 'CRE_TSK(FAR, {TA_NULL, 0, far, 5, 4096, NULL});' '}' > runs.cfg
    # HIGH makes the one call, and LOW the other: without act_tsk(HIGH) the first would be LOW's, which makes no such call
    printf 'P1 act_tsk(HIGH)\nP1 sig_sem(GATE)\nP1 ext_tsk()\nP1 pol_sem(GATE)\n' > runs.txt
    left_of runs.txt 'sig_sem(GATE) E_OK' 'P1 sig_sem(GATE)\n' 'P1 act_tsk(HIGH)\nP1 sig_sem(GATE)\n'
    # without ext_tsk() the last call would be HIGH's
    left_of runs.txt 'pol_sem(GATE) E_OK' 'P1 sig_sem(GATE)\nP1 pol_sem(GATE)\n' 'P1 act_tsk(HIGH)\nP1 sig_sem(GATE)\nP1 ext_tsk()\nP1 pol_sem(GATE)\n'
    # LOW makes both calls, but the other way round: its own order counts, and how often it makes each
    printf 'P1 get_tid()\nP1 act_tsk(HIGH)\nP1 sig_sem(GATE)\nP1 get_tid()\nP1 ext_tsk()\nP1 sig_sem(GATE)\n' > runs.txt
    left_of runs.txt 'sig_sem(GATE) * then get_tid() *' 'P1 sig_sem(GATE)\nP1 get_tid()\n' 'P1 act_tsk(HIGH)\nP1 sig_sem(GATE)\nP1 get_tid()\n'
    # a handler is a runner like a task: without the tick its call would be LOW's
    printf 'P1 tick\nP1 isig_sem(GATE)\nP1 ret_hdr\nP1 pol_sem(GATE)\n' > runs.txt
    left_of runs.txt 'isig_sem(GATE) *' 'P1 isig_sem(GATE)\n' 'P1 tick\nP1 isig_sem(GATE)\n'
    # arguments are a part of the call
    printf 'P1 wup_tsk(LOW)\nP1 act_tsk(HIGH)\nP1 wup_tsk(HIGH)\n' > runs.txt
    left_of runs.txt 'wup_tsk(HIGH) *' 'P1 wup_tsk(HIGH)\n' 'P1 act_tsk(HIGH)\nP1 wup_tsk(HIGH)\n'
    # a call that nobody makes any more is no other task's
    printf 'P1 act_tsk(FAR)\nP2 ipi\nP2 get_tid()\n' > runs.txt
    left_of runs.txt 'get_tid() *' 'P2 get_tid()\n' 'P2 get_tid()\n'
    run 5 /dev/null "$(as_file echo 'fmpsim: runs.txt: the answers to these events do not show it')" shrink runs.cfg runs.txt --find 'act_tsk(FAR) E_QOVR' --runs
}

# left_of EVENTS QUESTION LINES LINES: what is left without --runs, and with it.
left_of() {
    run 0 "$(as_file printf '%b' "$3")" /dev/null shrink runs.cfg "$1" --find "$2"
    run 0 "$(as_file printf '%b' "$4")" /dev/null shrink runs.cfg "$1" --find "$2" --runs
}

# noise N FILE: N events that change nothing for WORKER, and those of a file, one behind each hundred.
noise() {
    awk -v n="$1" '
        { kept[NR] = $0 }
        END {
            split("P1 get_tid()|P1 sig_sem(GATE)|P1 set_flg(STATE, 1)|P1 tick|P1 clr_flg(STATE, 0)|P1 pol_sem(GATE)", other, "|")
            for (i = 0; i < n; i++) {
                print other[i % 6 + 1]
                if (i % 200 == 99 && ++k <= NR) print kept[k]
            }
        }' "$2"
}

# count_lines N FILE
count_lines() {
    local well=no
    [ "$(wc -l < "$2")" = "$1" ] && well=yes
    count "$well" "# $2 has $1 lines"
}

# none_can_go CFG EVENTS QUESTION: without any one of its lines the list shows it no longer, and with all it does.
none_can_go() {
    local line
    for ((line = 1; line <= $(wc -l < "$2"); line++)); do
        sed "${line}d" "$2" > fewer.txt
        run 5 /dev/null "$(as_file echo 'fmpsim: fewer.txt: the answers to these events do not show it')" shrink "$1" fewer.txt --find "$3"
    done
    play calls "$1" "$2"
    local well=no
    grep -qw "$3" output && well=yes
    count "$well" calls "$1" "$2" "# $3"
}
