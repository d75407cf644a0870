# Where a trace differs. What patch makes of a trace with such a diff is the machine's.

reports() {
    local patched=no wrong
    sed -e '1s/ ipi=2//' -e '2s/idle/E_OK:2/' -e '10s/ run=T2//' "$late/trace.txt" > wrong.txt
    printf '%s\n' 'no 1' '  P1 run=T1' '  P2 run=-' '  end' '- 1 P1 T1 act_tsk(T2) E_OK' '+ 1 P1 T1 act_tsk(T2) E_OK ipi=2' > first.txt
    printf '%s\n' '--- trace' '+++ machine' '@@ -1,1 +1,1 @@' '-1 P1 T1 act_tsk(T2) E_OK' '+1 P1 T1 act_tsk(T2) E_OK ipi=2' \
        '@@ -2,1 +2,1 @@' '-2 P2 - get_pid() E_OK:2' '+2 P2 - get_pid() idle' \
        '@@ -10,1 +10,1 @@' '-10 P2 T3 ext_tsk() gone' '+10 P2 T3 ext_tsk() gone run=T2' > each.txt
    run 5 first.txt /dev/null check --show "$late/machine.cfg" wrong.txt
    run 5 each.txt /dev/null check --all "$late/machine.cfg" wrong.txt
    if ! command -v patch > patch_is_here; then
        left_out 'there is no patch' check --all "$late/machine.cfg" wrong.txt
    else
        patch -s wrong.txt output && diff wrong.txt "$late/trace.txt" && patch -s wrong.txt /dev/null && patched=yes
        count "$patched" check --all "$late/machine.cfg" wrong.txt '|' patch wrong.txt
    fi
    run 0 "$(as_file echo yes)" /dev/null check --show "$late/machine.cfg" "$late/trace.txt"
    run 0 /dev/null /dev/null check "$late/machine.cfg" "$late/trace.txt" --all
    # far behind the first line
    seq 150 | sed 's/$/ P1 T1 tick taken/; 120s/taken/none/' > far.txt
    run 5 "$(as_file printf '%s\n' 'no 120' '  P1 run=T1' '  P2 run=-' '  end' '- 120 P1 T1 tick none' '+ 120 P1 T1 tick taken')" /dev/null check --show "$late/machine.cfg" far.txt
    run 5 "$(as_file printf '%s\n' '--- trace' '+++ machine' '@@ -120,1 +120,1 @@' '-120 P1 T1 tick none' '+120 P1 T1 tick taken')" /dev/null \
        check --all "$late/machine.cfg" far.txt
    # a fault behind a line that differs
    (sed '1s/ ipi=2//' "$late/trace.txt" && printf '11 P1 T1 tick taken') > cut.txt
    run 1 /dev/null "$(as_file echo fmpsim: cut.txt: line 11: E6 cut short)" check --all "$late/machine.cfg" cut.txt
    run 1 /dev/null "$(as_file echo fmpsim: cut.txt: line 11: E6 cut short)" check --show "$late/machine.cfg" cut.txt
    unread check --all "$late/machine.cfg" missing
    unwritten check --show "$late/machine.cfg" "$late/trace.txt"
    for wrong in "$top"/examples/*/trace.txt; do
        state_before "${wrong%/trace.txt}"
    done
}

# state_before FOLDER: with another event in the last line of the example's trace, the state that is shown is the one that `calls --state` tells
# behind the line before it, and the machine's own line is its answer to that event.
state_before() {
    local last own
    last=$(wc -l < "$1/trace.txt")
    sed "${last}s/.*/$last P1 - ipi none run=idle/" "$1/trace.txt" > wrong.txt
    "$top/tools/from-trace" wrong.txt > events.txt
    "$program" calls --state "$1/machine.cfg" events.txt > told
    own=$(grep "^$last " told)
    (echo "no $last" && sed -n "/^$((last - 1)) /,/^  end/{/^  /p}" told && echo "- $last P1 - ipi none run=idle" && echo "+ $own") > shown
    run 5 shown /dev/null check --show "$1/machine.cfg" wrong.txt
}
