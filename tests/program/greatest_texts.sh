# Texts at the limits of numbers and lengths, and traces that end early.

greatest_texts() {
    seq 1000000 | sed 's/$/ P1 T1 tick taken/' > whole.txt
    head -n 2 "$late/trace.txt" > front.txt
    run 0 "$(as_file echo yes)" /dev/null check "$late/machine.cfg" front.txt
    head -c -1 "$late/trace.txt" > front.txt
    run 1 /dev/null "$(as_file echo fmpsim: front.txt: line 10: E6 cut short)" check "$late/machine.cfg" front.txt
    run 1 /dev/null "$(as_file echo fmpsim: /dev/zero: line 0: F9 too many)" calls /dev/zero "$late/events.txt"
    yes 'P1 tick' | head -n 1000001 > long.txt
    run 1 whole.txt "$(as_file echo fmpsim: long.txt: line 1000001: E7 too many)" calls "$late/machine.cfg" long.txt
    # taken whole, it has the same fault, and a million events before another one have none
    run 1 /dev/null "$(as_file echo fmpsim: long.txt: line 1000001: E7 too many)" shrink "$late/machine.cfg" long.txt --find tick
    { head -n 1000000 long.txt && echo 'P1 jump()'; } > front.txt
    run 1 /dev/null "$(as_file echo fmpsim: front.txt: line 1000001: E2 bad word)" shrink "$late/machine.cfg" front.txt --find tick
    # 5 MiB
    head -n 210000 whole.txt > front.txt
    run 0 "$(as_file echo yes)" /dev/null check "$late/machine.cfg" front.txt
    # 1 GiB of line feeds, for one program: this is among the longest of all runs, and both programs are of the same text
    [ "$kind" != llvm ] || endless_events
    [ "$kind" != llvm ] || begun_at_length
}

# endless_events: line feeds come in without end.
endless_events() {
    mkfifo endless
    yes '' > endless &
    from=endless run 1 /dev/null "$(as_file echo fmpsim: -: line 0: E7 too many)" calls "$late/machine.cfg" -
}

# begun_at_length: the trace with which a search begins has 1 GiB, and then a byte more. It is of zeros, so no order has its first line.
begun_at_length() {
    local folder=$top/examples/explore-lock-order words
    words=(explore "$folder/machine.cfg" "$folder/scripts.txt" --ticks 0 --turns 9 --find end --from begun.txt)
    truncate -s 1073741824 begun.txt
    run 1 /dev/null "$(as_file echo fmpsim: begun.txt: line 1: no order of these scripts has it here)" "${words[@]}"
    truncate -s 1073741825 begun.txt
    run 1 /dev/null "$(as_file echo fmpsim: begun.txt: too long)" "${words[@]}"
}
