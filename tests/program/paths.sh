# Paths of folders, of nothing, and of one file twice. `-` is standard input in the place of one text, and no file has this name.

paths() {
    local machine=$late/machine.cfg events=$late/events.txt numbers=(--ticks 0 --turns 1)
    write_again
    unread calls "$top" "$events"
    unread calls "$machine" "$top"
    unread check "$top" "$late/trace.txt"
    unread check "$machine" "$top"
    unread smp "$top" again.txt "${numbers[@]}"
    unread smp again.cfg "$top" "${numbers[@]}"
    unread calls "" "$events"
    one_from_input
    run 1 /dev/null "$(as_file echo "fmpsim: $machine: line 1: E1 bad byte")" calls "$machine" "$machine"
    run 1 /dev/null "$(as_file echo "fmpsim: $events: line 1: F3 unsupported API P1")" calls "$events" "$events"
    run 1 /dev/null "$(as_file echo "fmpsim: $machine: line 1: E2 bad word")" check "$machine" "$machine"
    run 1 /dev/null "$(as_file echo fmpsim: again.cfg: line 1: E1 bad byte)" smp again.cfg again.cfg "${numbers[@]}"
}

# Each text of each command, from standard input, and two of them.
one_from_input() {
    local machine=$late/machine.cfg events=$late/events.txt trace=$late/trace.txt twice begun=begun.txt
    local dead=$top/examples/explore-lock-order question=(--ticks 0 --turns 100 --find 'end & waits sem')
    from=$machine run 0 "$trace" /dev/null calls - "$events"
    from=$events run 0 "$trace" /dev/null calls "$machine" -
    from=$trace run 0 "$(as_file echo yes)" /dev/null check "$machine" -
    from=$machine run 0 "$(as_file echo yes)" /dev/null check - "$trace"
    from=$trace run 0 "$(as_file echo yes)" /dev/null check --partial "$machine" -
    from=$trace run 0 "$late/trace.vcd" /dev/null wave "$machine" -
    from=$machine run 0 "$late/trace.gtkw" /dev/null wave - --gtkw
    play view "$machine" "$trace" && cp output page
    from=$trace run 0 page /dev/null view "$machine" -
    from=$dead/machine.cfg run 5 "$dead/trace.txt" /dev/null explore - "$dead/scripts.txt" "${question[@]}"
    head -n 1 "$dead/trace.txt" > $begun
    from=$begun run 5 "$dead/trace.txt" /dev/null explore "$dead/machine.cfg" "$dead/scripts.txt" --from - "${question[@]}"
    from=$machine run 0 /dev/null /dev/null smp - /dev/null --ticks 0 --turns 1 --seeds 0..0
    twice=$(as_file echo 'fmpsim: only one text can come from standard input')
    from=$machine run 2 /dev/null "$twice" calls - -
    from=$machine run 2 /dev/null "$twice" check - -
    from=$machine run 2 /dev/null "$twice" explore - "$dead/scripts.txt" --from - "${question[@]}"
    from=$machine run 2 /dev/null "$twice" explore "$dead/machine.cfg" - --from - "${question[@]}"
    # the fault of a text from there has its line and its place in it
    from=$(as_file echo 1 P1 T1 tack taken) run 1 /dev/null "$(as_file echo '-:1:9: error: E2 bad word')" check "$machine" - --diagnostics=gcc
    from=$(as_file echo 'PROCESSORS(9);') run 1 /dev/null "$(as_file echo 'fmpsim: -: line 1: F7 value out of range')" check - "$trace"
    # a fault of the configuration is reported before scripts from there are read, and the trace to begin with is opened
    echo 'PROCESSORS(9);' > nine.cfg
    from=$events run 1 /dev/null "$(as_file echo 'fmpsim: nine.cfg: line 1: F7 value out of range')" explore nine.cfg - --from none.txt "${question[@]}"
    # a file of this name
    cp "$trace" ./-
    run 0 "$(as_file echo yes)" /dev/null check "$machine" ./-
    rm ./-
}
