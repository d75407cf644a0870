# The waveform of a trace, which has the line of each event's time. Of a trace that is not the machine's there is none. And the save file of
# a configuration, which a viewer wants beside it.

waves() {
    local folder timed=yes drawn=no
    run 0 "$late/trace.vcd" /dev/null wave "$late/machine.cfg" "$late/trace.txt"
    for folder in "$top"/examples/*/; do
        [ -f "$folder/trace.txt" ] || continue
        play wave "$folder/machine.cfg" "$folder/trace.txt"
        diff "$(as_file grep '^#' output)" "$(as_file seq -f '#%.0f' 0 "$(wc -l < "$folder/trace.txt")")" || timed=no
    done
    count "$timed" wave
    sed '3s/taken/none/' "$late/trace.txt" > changed.txt
    run 5 /dev/null "$(as_file echo fmpsim: changed.txt: line 3 differs: see fmpsim check --show)" wave "$late/machine.cfg" changed.txt
    printf '1 P1 T1 tick taken' > cut.txt
    run 1 /dev/null "$(as_file echo fmpsim: cut.txt: line 1: E6 cut short)" wave "$late/machine.cfg" cut.txt
    run 1 /dev/null "$(as_file printf '%s\n' 'fmpsim: cut.txt: line 1: E6 cut short' '  1 P1 T1 tick taken' '                    ^' \
        '  End the last line with a line feed, and the last script with `end`.')" wave --context "$late/machine.cfg" cut.txt
    run 1 /dev/null "$(as_file echo fmpsim: cut.txt: line 1: F1 syntax)" wave cut.txt "$late/trace.txt"
    unread wave missing "$late/trace.txt"
    unread wave "$late/machine.cfg" missing
    unwritten wave "$late/machine.cfg" "$late/trace.txt"
    run 0 "$late/trace.gtkw" /dev/null wave "$late/machine.cfg" --gtkw
    run 1 /dev/null "$(as_file echo fmpsim: cut.txt: line 1: F1 syntax)" wave cut.txt --gtkw
    unread wave missing --gtkw
    run 3 /dev/null "$(as_file printf '%s\n' 'fmpsim: read failed' '  missing: No such file or directory (os error 2)')" wave --context --gtkw missing
    unwritten wave "$late/machine.cfg" --gtkw
    # against a reader of waveforms that knows nothing of the program
    python3 "$top/tests/program/waves.py" "$program" > output 2>&1 && drawn=yes
    [ "$drawn" = yes ] || cat output
    count "$drawn" wave '# read by waves.py'
}
