# A trace as a kernel's log, which tools/from-log reads again; and logs in which one thing is wrong, of which none may be answered `yes`.

to_log() {
    local logs=$top/tests/kernel_logs
    made_by_hand
    comes_back
    overlaps
    to_log_refuses
    planted
}

# log_options FILE: the options of tools/from-log that to-log told.
log_options() {
    read -ra options <<< "$(sed -n 's/.*note: tools\/from-log reads this log with //p' "$1")"
    [ "${#options[@]}" -gt 0 ]
}

# A trace whose log was written by hand: what a log does not have is left out.
made_by_hand() {
    local well=no
    (cd "$logs" && "$top/tools/to-log" machine.cfg to_log/trace) > made 2> told && diff "$logs/to_log/log" made && diff "$logs/to_log/errors" told && well=yes
    count "$well" '#' tools/to-log machine.cfg trace
}

# The examples' traces come back from their logs: each line is a part of the machine's.
comes_back() {
    local example well options
    for example in alarm barrier four-processors log-to-six-events migration pool priority round-robin scripted-spin-lock whole-configuration; do
        well=no
        example=$top/examples/$example
        "$top/tools/to-log" "$example/machine.cfg" "$example/trace.txt" > x.log 2> told && log_options told &&
            "$top/tools/from-log" "$example/machine.cfg" x.log --trace "${options[@]}" > made 2> told && [ "$(wc -l < made)" -gt 6 ] && well=yes
        count "$well" '#' tools/to-log "$example/machine.cfg" trace.txt '|' tools/from-log
        run 0 "$(as_file echo yes)" /dev/null check --partial "$example/machine.cfg" made
    done
}

# whole_of_made MACHINE: the machine's own lines for the partial trace made, in the order in which it plays them, are a trace of its own.
whole_of_made() {
    local well=no
    "$program" check --order "$1" made > whole 2> told && [ ! -s told ] && [ "$(wc -l < whole)" -ge "$(grep -vc ' open' made)" ] && well=yes
    count "$well" check --order "$1" made
    run 0 "$(as_file echo yes)" /dev/null check "$1" whole
}

# Logs in which calls overlap, drawn by several seeds. Some order within the bounds is the machine's, which the trace's own need not be.
overlaps() {
    local example well seed bounds=0
    for example in alarm four-processors migration scripted-spin-lock whole-configuration; do
        example=$top/examples/$example
        for seed in 1 2 3 4; do
            well=no
            "$top/tools/to-log" "$example/machine.cfg" "$example/trace.txt" --spread 8 --seed "$seed" > x.log 2> told && log_options told &&
                "$top/tools/from-log" "$example/machine.cfg" x.log --trace "${options[@]}" > made 2> told && ! diff made last > /dev/null 2>&1 && well=yes
            cp made last
            bounds=$((bounds + $(grep -c ' by=' made)))
            count "$well" '#' tools/to-log "$example/machine.cfg" trace.txt --spread 8 --seed "$seed" '|' tools/from-log
            run 0 "$(as_file echo yes)" /dev/null check --partial "$example/machine.cfg" made
            whole_of_made "$example/machine.cfg"
        done
    done
    well=no
    ((bounds > 40)) && well=yes
    count "$well" '#' "$bounds" bounds
}

to_log_refuses() {
    local row status text what well
    while IFS=$'\1' read -r status text what; do
        well=no
        printf '%b' "$text" > x.txt
        "$top/tools/to-log" "$logs/machine.cfg" x.txt > made 2> told
        [ $? = "$status" ] && [ ! -s made ] && [ "$(cat told)" = "$what" ] && well=yes
        count "$well" '#' tools/to-log machine.cfg x.txt '#' "$text"
    done <<- END
	1$(printf '\1')P1 T1 slp_tsk() wait\n$(printf '\1')x.txt:1: refused: \`P1 T1 slp_tsk() wait\` is no line of a whole trace
	1$(printf '\1')1 P1 T1 slp_tsk() wait\n2 P3 - tick taken\n$(printf '\1')x.txt:2: refused: there is no processor 3: the configuration has 2
	1$(printf '\1')1 P1 T9 slp_tsk() wait\n$(printf '\1')x.txt:1: refused: the configuration has no T9
	1$(printf '\1')1 P1 T1 sig_sem(S) E_OK rel=T3:E_OK\n$(printf '\1')x.txt:1: refused: T3 does not wait
	END
}

# Each row changes one line of a log. The wrong log is refused, its trace ends before it, or is not the machine's: a `yes` is never right.
planted() {
    local log line before after verdict well options ended
    read_options
    while IFS=$'\1' read -r log line before after verdict; do
        read -ra options < "$log.options"
        well=no ended=0
        [ "$(sed -n "${line}s/^[^ ]* //p" "$log.log")" = "$before" ] || echo "line $line of $log is another"
        changed "$log.log" "$line" "$after" > wrong.log
        "$top/tools/from-log" "$log.cfg" wrong.log --trace "${options[@]}" > made 2> told || ended=$?
        "$program" check --partial "$log.cfg" made > output 2> errors
        case $?$verdict$ended in
            1refused1) [ "$(cat made)" = refused ] && grep -q '^wrong.log:[0-9]*: refused: ' told && well=yes ;;
            *ends0) [[ $(tail -n 1 made) = 'ends '* ]] && grep -q '^wrong.log:[0-9]*: the trace ends here: ' told && well=yes ;;
            5no0) grep -q '^no [0-9]*$' output && well=yes ;;
        esac
        [ "$(sed -n "${line}s/^[^ ]* //p" "$log.log")" = "$before" ] || well=no
        count "$well" check --partial '#' "$log" "$line" "$before" '->' "$after" '#' "$verdict"
    done < "$(grep -v '^#' "$logs/planted.txt" | tr '\t' '\1' | as_file)"
}

# The logs of the rows: the example's own, and two that to-log makes of examples with handlers and with timeouts. Each is `yes` as it is.
read_options() {
    local log folder options
    for log in example=log-to-six-events handlers=whole-configuration timeouts=shrink-timeout; do
        folder=$top/examples/${log#*=} log=${log%%=*}
        cp "$folder/machine.cfg" "$log.cfg"
        if [ "$log" = example ]; then
            cp "$folder/kernel.log" example.log
            echo --tick 16 --tick 131088 --ipi 65552 > example.options
        else
            "$top/tools/to-log" "$log.cfg" "$folder/trace.txt" > "$log.log" 2> told
            log_options told && echo "${options[@]}" > "$log.options"
        fi
        read -ra options < "$log.options"
        "$top/tools/from-log" "$log.cfg" "$log.log" --trace "${options[@]}" > made 2> told
        run 0 "$(as_file echo yes)" /dev/null check --partial "$log.cfg" made
    done
}

# changed LOG LINE AFTER: the log with another text in this line, without it (`-`), or with its text and that of the next line exchanged (`swap`).
changed() {
    awk -v at="$2" -v after="$3" '
        { place = index($0, "]: "); head[NR] = substr($0, 1, place + 2); text[NR] = substr($0, place + 3); if (!place) { head[NR] = ""; text[NR] = $0 } }
        END {
            if (after == "swap") { kept = text[at]; text[at] = text[at + 1]; text[at + 1] = kept } else text[at] = after
            for (n = 1; n <= NR; n++) if (n != at || after != "-") print head[n] text[n]
        }' "$1"
}
