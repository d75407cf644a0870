# Each folder of examples: its texts are answered with its trace, and the trace is the machine's. A folder may have more such lists,
# as tried-events.txt with tried-trace.txt. Those with questions are in searches.sh.

examples() {
    local folder options events
    for folder in "$top"/examples/*/; do
        [ -f "$folder/questions.txt" ] && continue
        if [ -f "$folder/events.txt" ]; then
            run 0 "$folder/trace.txt" /dev/null calls "$folder/machine.cfg" "$folder/events.txt"
        else
            read -ra options < "$folder/options.txt"
            run 0 "$folder/trace.txt" /dev/null smp "$folder/machine.cfg" "$folder/scripts.txt" "${options[@]}"
        fi
        run 0 "$(as_file echo yes)" /dev/null check "$folder/machine.cfg" "$folder/trace.txt"
        for events in "$folder"/*-events.txt; do
            [ -f "$events" ] || continue
            run 0 "${events%events.txt}trace.txt" /dev/null calls "$folder/machine.cfg" "$events"
            run 0 "$(as_file echo yes)" /dev/null check "$folder/machine.cfg" "${events%events.txt}trace.txt"
        done
    done
}
