# The trace in colours: a refused answer red, a release green, a dispatch cyan, at a terminal or where that is asked for.

colours() {
    local folder same=yes red=$'\e[31m' green=$'\e[32m' cyan=$'\e[36m' off=$'\e[0m'
    printf 'PROCESSORS(2);\nDEF_CLASS(C, 1, {1, 2});\nCLASS(C) {\nCRE_TSK(T1, {TA_ACT, 0, main, 10, 4096, NULL});\n' > machine.cfg
    printf 'CRE_TSK(E_T, {TA_NULL, 0, main, 5, 4096, NULL});\n}\n' >> machine.cfg
    printf '%s\n' 'P1 act_tsk(E_T)' 'P1 slp_tsk()' 'P1 get_tid()' 'P1 wup_tsk(E_T)' 'P1 wup_tsk(9)' 'P2 ipi' > events.txt
    printf '%s\n' '1 P1 T1 act_tsk(E_T) E_OK run=E_T' '2 P1 E_T slp_tsk() wait run=T1' '3 P1 T1 get_tid() E_OK:1' \
        '4 P1 T1 wup_tsk(E_T) E_OK rel=E_T:E_OK run=E_T' '5 P1 E_T wup_tsk(9) E_ID' '6 P2 - ipi none' > trace.txt
    printf '%s\n' "1 P1 T1 act_tsk(E_T) E_OK ${cyan}run=E_T$off" "2 P1 E_T slp_tsk() wait ${cyan}run=T1$off" '3 P1 T1 get_tid() E_OK:1' \
        "4 P1 T1 wup_tsk(E_T) E_OK ${green}rel=E_T:E_OK$off ${cyan}run=E_T$off" "5 P1 E_T wup_tsk(9) ${red}E_ID$off" '6 P2 - ipi none' > coloured.txt
    run 0 trace.txt /dev/null calls machine.cfg events.txt
    run 0 trace.txt /dev/null calls --color=auto machine.cfg events.txt
    run 0 trace.txt /dev/null calls --color=never machine.cfg events.txt
    run 0 coloured.txt /dev/null calls --color=always machine.cfg events.txt
    from=events.txt run 0 coloured.txt /dev/null calls machine.cfg - --color always
    # a state has no colours
    head -n 1 events.txt > one.txt
    run 0 "$(as_file printf '%s\n' '  P1 run=T1' '  P2 run=-' '  end' "$(head -n 1 coloured.txt)" '  P1 run=E_T ready=T1' '  P2 run=-' '  end')" /dev/null \
        calls --state --color=always machine.cfg one.txt
    # without the colours it is the trace
    for folder in "$top"/examples/*/; do
        [ -f "$folder/events.txt" ] || continue
        play calls --color=always "$folder/machine.cfg" "$folder/events.txt"
        sed 's/\x1b\[[0-9]*m//g' output | cmp - "$folder/trace.txt" || same=no
    done
    count "$same" calls --color=always
    play smp --ticks 5 --turns 100 --seed 3 "$spin/machine.cfg" "$spin/scripts.txt" && cp output plain.txt
    same=no
    play smp --ticks 5 --turns 100 --seed 3 --color=always "$spin/machine.cfg" "$spin/scripts.txt" \
        && sed 's/\x1b\[[0-9]*m//g' output | cmp - plain.txt && grep -qF "${cyan}run=" output && same=yes
    count "$same" smp --seed 3 --color=always
    unwritten calls --color=always machine.cfg events.txt
    at_terminal coloured.txt calls machine.cfg events.txt
    NO_COLOR='' at_terminal coloured.txt calls machine.cfg events.txt
    NO_COLOR=1 at_terminal trace.txt calls machine.cfg events.txt
    NO_COLOR=$'\xff' at_terminal trace.txt calls machine.cfg events.txt
    NO_COLOR=1 at_terminal coloured.txt calls --color=always machine.cfg events.txt
    at_terminal trace.txt calls --color=never machine.cfg events.txt
    lives_by_output
}

# What is told of some things is coloured by where it is written, and not by where faults are told.
lives_by_output() {
    local well=no
    terminal "$program" calls --of T1 machine.cfg events.txt > output && grep -qF "${cyan}run=T1$off" output && well=yes
    count "$well" calls --of T1 '# at a terminal'
    well=no
    # standard error is a terminal, and standard output goes into a file
    terminal bash -c '"$@" 2>&1 > plain' bash "$program" calls --of T1 machine.cfg events.txt > told \
        && [ ! -s told ] && grep -qF 'run=T1' plain && ! grep -qF $'\e' plain && well=yes
    count "$well" calls --of T1 '# where standard error is a terminal'
}

# at_terminal OUTPUT WORD..: at a terminal the program on these words writes what this file has.
at_terminal() {
    local same=no
    terminal "$program" "${@:2}" > output && diff "$1" output && same=yes
    count "$same" "${@:2}" '# at a terminal'
}

# terminal COMMAND..: what the command writes where its output is a terminal.
terminal() {
    python3 -c '
import os, pty, subprocess, sys
end, start = pty.openpty()
run = subprocess.Popen(sys.argv[1:], stdout=start)
os.close(start)
told = b""
try:
    while piece := os.read(end, 4096):
        told += piece
except OSError:
    pass
sys.stdout.buffer.write(told.replace(b"\r\n", b"\n"))
sys.exit(run.wait())
' "$@"
}
