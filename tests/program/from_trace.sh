# Traces that tools/from-trace makes lists of events of: the program plays them to the same trace.

from_trace() {
    local tool=$top/tools/from-trace
    makes 'P1 act_tsk(T2)\nP2 get_pid()\nP2 ipi\n' '1 P1 T1 act_tsk(T2) E_OK ipi=2\n2 P2 - get_pid() idle\n3 P2 - ipi taken run=T2\n'
    makes 'P1 act_tsk(T2)\nP2 ipi\nP1 mact_tsk(T2, 1)\n' 'P1 act_tsk(T2) E_OK\nP2 - ipi taken\n3 P1 mact_tsk(T2, 1) E_OK\n'
    makes 'P1 tick\nP1 tick\nP1 ret_hdr\n' 'P1 tick tick taken\nP1 tick taken\nP1 ret_hdr ret_hdr E_OK\n'
    makes 'P1 pol_flg(F, 3, TWF_ORW)\n' '  P1 run=T1\n  end\n1 P1 T1 pol_flg(F, 3, TWF_ORW) E_OK:3\n  P1 run=T1\n  end\n'
    played_again
    makes_none 1 'x: refused: there is no event in it' ''
    makes_none 1 'x: refused: there is no event in it' '  P1 run=T1\n  end\n'
    makes_none 1 'x: line 1: refused: cut short: the last line has no line feed' '1 P1 T1 tick taken'
    makes_none 1 'x: line 2: refused: this is no line of a trace, as `1 P1 T1 act_tsk(T2) E_OK`' '1 P1 T1 tick taken\nP1 tick\n'
    makes_none 1 'x: line 1: refused: this is no line of a trace, as `1 P1 T1 act_tsk(T2) E_OK`' 'P9 tick taken\n'
    makes_none 1 'x: line 1: refused: this is no line of a trace, as `1 P1 T1 act_tsk(T2) E_OK`' 'PROCESSORS(2);\n'
    makes_none 1 'x: line 1: refused: this is no line of a trace, as `1 P1 T1 act_tsk(T2) E_OK`' 'yes\n'
    makes_none 1 'x: line 1: refused: this is no line of a trace, as `1 P1 T1 act_tsk(T2) E_OK`' '\0377\0376\n'
    rm x
    makes_none 3 'x: cannot be read: No such file or directory'
    makes_none_of_input
}

# makes EVENTS TRACE: of the trace these events are made.
makes() {
    local well=no
    printf '%b' "$2" > x
    [ "$("$tool" x 2> told | od -c)" = "$(printf '%b' "$1" | od -c)" ] && [ ! -s told ] && [ "$("$tool" - < x)" = "$("$tool" x)" ] && well=yes
    count "$well" '#' tools/from-trace '#' "$2"
}

# makes_none STATUS TOLD [TEXT]: the tool ends so, tells this, and makes nothing.
makes_none() {
    local well=no
    [ $# = 2 ] || printf '%b' "$3" > x
    "$tool" x > made 2> told
    [ $? = "$1" ] && [ "$(cat told)" = "$2" ] && [ ! -s made ] && well=yes
    count "$well" '#' tools/from-trace '#' "${3-}"
}

# A trace that comes in is told by its path, too, which is `-`.
makes_none_of_input() {
    local well=no
    echo yes > x
    "$tool" - < x > made 2> told
    [ $? = 1 ] && [ "$(cat told)" = '-: line 1: refused: this is no line of a trace, as `1 P1 T1 act_tsk(T2) E_OK`' ] && [ ! -s made ] && well=yes
    count "$well" '#' tools/from-trace - '#' yes
}

# The events of a trace of scripts are answered with that trace.
played_again() {
    play smp "$spin/machine.cfg" "$spin/scripts.txt" --ticks 4 --turns 400 --seed 7
    mv output trace
    "$tool" trace > events
    run 0 trace /dev/null calls "$spin/machine.cfg" events
}
