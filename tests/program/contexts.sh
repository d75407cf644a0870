# What stands beside a fault line, with --context.

contexts() {
    local machine=$late/machine.cfg task='  task: its name, TSK_SELF for 0, or a number of 32 bits with a sign'
    write_again
    printf 'P1 tick\nP1 act_tsk(T9)\n' > events.txt
    run 1 "$(as_file echo 1 P1 T1 tick taken)" "$(as_file printf '%s\n' 'fmpsim: events.txt: line 2: E3 unknown name' '  P1 act_tsk(T9)' \
        '             ^' '  expected: act_tsk(task)' "$task")" calls --context "$machine" events.txt
    from=events.txt run 1 "$(as_file echo 1 P1 T1 tick taken)" "$(as_file printf '%s\n' 'fmpsim: -: line 2: E3 unknown name' '  P1 act_tsk(T9)' \
        '             ^' '  expected: act_tsk(task)' "$task")" calls "$machine" - --context
    printf 'PROCESSORS(1);\nDEF_CLASS(C, 1, {1});\nCLASS(C) { CRE_SEM(S, {TA_NULL, 0, 0}); }\n' > number.cfg
    printf '%s\n' 'fmpsim: number.cfg: line 3: F7 value out of range' '  CLASS(C) { CRE_SEM(S, {TA_NULL, 0, 0}); }' \
        '                                     ^' '  expected: CRE_SEM(semid, {sematr | .., isemcnt, maxsem});' \
        '  sematr: TA_NULL TA_TFIFO TA_TPRI' '  maxsem: within 1 to 65535' '  isemcnt: within 0 to maxsem' \
        '  here: maxsem, which is out of its range' > number.told
    run 1 /dev/null number.told check number.cfg "$late/trace.txt" --context
    printf '1 P1 T1 tick taken' > cut.txt
    run 1 /dev/null "$(as_file printf '%s\n' 'fmpsim: cut.txt: line 1: E6 cut short' '  1 P1 T1 tick taken' '                    ^' \
        '  End the last line with a line feed, and the last script with `end`.')" check "$machine" --context cut.txt
    printf 'script main\nact_tsk(T9)\nend\n' > name.txt
    run 1 /dev/null "$(as_file printf '%s\n' 'fmpsim: name.txt: line 2: E3 unknown name' '  act_tsk(T9)' '          ^' \
        '  expected: act_tsk(task)' "$task")" smp again.cfg name.txt --ticks 0 --turns 1 --context
    run 0 "$late/trace.txt" /dev/null calls --context "$machine" "$late/events.txt"
    sed '3s/taken/none/' "$late/trace.txt" > changed.txt
    run 5 "$(as_file echo no 3)" /dev/null check --context "$machine" changed.txt
    unread_with_causes
    context_at_terminal
    configuration_from_a_pipe
    text_from_a_pipe
    greatest_with_context
}

# At a terminal the line of a fault is shown by itself, for every command, unless the words say otherwise or ask for lines in another form.
context_at_terminal() {
    local words
    printf '%s\n' 'fmpsim: events.txt: line 2: E3 unknown name' '  P1 act_tsk(T9)' '             ^' '  expected: act_tsk(task)' "$task" > shown.txt
    head -n 1 shown.txt > plain.txt
    echo 'events.txt:2:12: error: E3 unknown name' > gcc.txt
    told_at_terminal shown.txt calls "$machine" events.txt
    told_at_terminal shown.txt calls "$machine" events.txt --context
    told_at_terminal plain.txt calls --no-context "$machine" events.txt
    told_at_terminal plain.txt --no-context calls "$machine" events.txt --context
    told_at_terminal gcc.txt --diagnostics=gcc calls "$machine" events.txt
    run 1 "$(as_file echo 1 P1 T1 tick taken)" plain.txt calls "$machine" events.txt --no-context --context
    for words in 'calls number.cfg events.txt' 'check number.cfg events.txt' 'smp number.cfg name.txt --ticks 0 --turns 1' \
        'explore number.cfg name.txt --ticks 0 --turns 1 --find end' 'shrink number.cfg events.txt --find end' 'wave number.cfg events.txt' \
        'view number.cfg events.txt' 'list ./number.cfg'; do
        # shellcheck disable=SC2086
        told_at_terminal "$(as_file sed "s|number.cfg|$(echo $words | grep -o '[./]*number.cfg')|" number.told)" $words
    done
}

# told_at_terminal TOLD WORD..: where standard error is a terminal the program on these words writes there what this file has.
told_at_terminal() {
    local same=no
    python3 -c '
import os, pty, subprocess, sys
end, start = pty.openpty()
run = subprocess.Popen(sys.argv[1:], stdin=subprocess.DEVNULL, stdout=subprocess.DEVNULL, stderr=start)
os.close(start)
told = b""
try:
    while piece := os.read(end, 4096):
        told += piece
except OSError:
    pass
run.wait()
sys.stdout.buffer.write(told.replace(b"\r\n", b"\n"))
' "$program" "${@:2}" > told && diff "$1" told && same=yes
    count "$same" "${@:2}" '# at a terminal'
}

# A configuration from a pipe cannot be read twice, and the place of a fault is shown all the same, also of one of the events.
configuration_from_a_pipe() {
    local unset='  Begin with `PROCESSORS(n);`.'
    mkfifo pipe.cfg
    printf 'DEF_CLASS(C, 1, {1});\n' > pipe.cfg &
    run 1 /dev/null "$(as_file printf '%s\n' 'fmpsim: pipe.cfg: line 1: F10 no PROCESSORS line DEF_CLASS' '  DEF_CLASS(C, 1, {1});' '  ^' "$unset")" \
        calls --context pipe.cfg events.txt
    wait
    cat "$machine" > pipe.cfg &
    run 1 "$(as_file echo 1 P1 T1 tick taken)" "$(as_file printf '%s\n' 'fmpsim: events.txt: line 2: E3 unknown name' '  P1 act_tsk(T9)' \
        '             ^' '  expected: act_tsk(task)' "$task")" calls --context pipe.cfg events.txt
    wait
}

# Another text from a pipe cannot be read twice either, and its line at fault is shown all the same. And a fault of the configuration is told while the pipe
# is still open.
text_from_a_pipe() {
    mkfifo pipe.txt
    cat events.txt > pipe.txt &
    run 1 "$(as_file echo 1 P1 T1 tick taken)" "$(as_file printf '%s\n' 'fmpsim: pipe.txt: line 2: E3 unknown name' '  P1 act_tsk(T9)' \
        '             ^' '  expected: act_tsk(task)' "$task")" calls --context "$machine" pipe.txt
    wait
    cat cut.txt > pipe.txt &
    run 1 /dev/null "$(as_file printf '%s\n' 'fmpsim: pipe.txt: line 1: E6 cut short' '  1 P1 T1 tick taken' '                    ^' \
        '  End the last line with a line feed, and the last script with `end`.')" check "$machine" --context pipe.txt
    wait
    from=name.txt run 1 /dev/null "$(as_file printf '%s\n' 'fmpsim: -: line 2: E3 unknown name' '  act_tsk(T9)' '          ^' \
        '  expected: act_tsk(task)' "$task")" explore again.cfg - --find end --ticks 0 --turns 1 --context
    from=events.txt run 1 "$(as_file echo 1 P1 T1 tick taken)" "$(as_file echo '-:2:12: error: E3 unknown name')" --diagnostics=gcc calls "$machine" -
    shown_from_anywhere
    lines_in_pieces
    sleep 900 > pipe.txt &
    run 1 /dev/null "$(as_file echo fmpsim: number.cfg: line 3: F7 value out of range)" check number.cfg pipe.txt
    kill $!
    wait
}

# Texts that are read whole show their lines alike from a file, a pipe and standard input: a trace, one that leaves out parts, scripts, and events of `shrink`.
# The last scripts have more than 16 MiB of comments before them.
shown_from_anywhere() {
    local shown=$room/shown.told
    printf '%s\n' 'fmpsim: cut.txt: line 1: E6 cut short' '  1 P1 T1 tick taken' '                    ^' \
        '  End the last line with a line feed, and the last script with `end`.' > "$shown"
    alike cut.txt "$shown" check "$machine" cut.txt --context
    alike cut.txt "$(as_file echo cut.txt:1:19: error: E6 cut short)" check --show "$machine" cut.txt --diagnostics=gcc
    printf '1 P1 T1 tick taken\n2 P1 T1 tack taken\n' > word.txt
    alike word.txt "$(as_file echo word.txt:2:9: error: E2 bad word)" check --partial "$machine" word.txt --diagnostics=gcc
    alike word.txt "$(as_file echo word.txt:2:9: error: E2 bad word)" view "$machine" word.txt --diagnostics=gcc
    alike events.txt "$(as_file echo events.txt:2:12: error: E3 unknown name)" shrink "$machine" events.txt --find tick --diagnostics=gcc
    printf '%s\n' 'fmpsim: name.txt: line 2: E3 unknown name' '  act_tsk(T9)' '          ^' '  expected: act_tsk(task)' "$task" > "$shown"
    alike name.txt "$shown" smp again.cfg name.txt --ticks 0 --turns 1 --context
    alike name.txt "$shown" explore again.cfg name.txt --ticks 0 --turns 1 --find end --context
    { yes '# more' | head -n 3000000 && cat name.txt; } > far.txt
    sed '1s/.*/fmpsim: far.txt: line 3000002: E3 unknown name/' "$shown" > "$shown.far"
    alike far.txt "$shown.far" smp again.cfg far.txt --ticks 0 --turns 1 --context
    rm far.txt
}

# alike PATH TOLD WORD..: with the text at this path the program on these words ends with status 1 and tells this, from whatever the text comes.
alike() {
    local words=("${@:3}") at
    run 1 /dev/null "$2" "${words[@]}"
    for at in "${!words[@]}"; do [ "${words[at]}" != "$1" ] || break; done
    words[at]=-
    sed "1s|$1:|-:|" "$2" > alike.told
    from=$1 run 1 /dev/null alike.told "${words[@]}"
    words[at]=pipe.txt
    sed "1s|$1:|pipe.txt:|" "$2" > alike.told
    cat "$1" > pipe.txt &
    run 1 /dev/null alike.told "${words[@]}"
    wait
}

# A line at fault behind others that are gone, in events that come in pieces: after 30,000 comments of 20 bytes, and then one with 200,000 or 17,000,000 blanks
# before its call, of which 100 bytes before the caret are shown.
lines_in_pieces() {
    { yes '# nineteen bytes ..' | head -n 30000 && echo 'P1 act_tsk(T9)' && yes '# more' | head -n 30000; } > far.txt
    from=far.txt run 1 /dev/null "$(as_file printf '%s\n' 'fmpsim: -: line 30001: E3 unknown name' '  P1 act_tsk(T9)' '             ^' \
        '  expected: act_tsk(task)' "$task")" calls "$machine" - --context
    from=far.txt run 1 /dev/null "$(as_file echo '-:30001:12: error: E3 unknown name')" calls "$machine" - --diagnostics=gcc
    { yes '# nineteen bytes ..' | head -n 30000 && printf 'P1 %200000sact_tsk(T9)\n' ''; } > far.txt
    from=far.txt run 1 /dev/null "$(as_file printf '%s\n' 'fmpsim: -: line 30001: E3 unknown name' "$(printf '..%92sact_tsk(T9)' '')" \
        "$(printf '%102s^' '')" '  expected: act_tsk(task)' "$task")" calls "$machine" - --context
    { echo '# one' && printf 'P1 %17000000sact_tsk(T9)\n' ''; } > far.txt
    from=far.txt run 1 /dev/null "$(as_file printf '%s\n' 'fmpsim: -: line 2: E3 unknown name' "$(printf '..%92sact_tsk(T9)' '')" \
        "$(printf '%102s^' '')" '  expected: act_tsk(task)' "$task")" calls "$machine" - --context
    rm far.txt
}

# Under a failed read stands which file it was and why, the first one that cannot be opened or read. Events and scripts from standard
# input are no file, and a trace always is one.
unread_with_causes() {
    local missing='missing: No such file or directory (os error 2)' words
    run 3 /dev/null "$(as_file printf 'fmpsim: read failed\n  %s\n' "$missing")" calls missing "$late/events.txt"
    run 3 /dev/null "$(as_file printf 'fmpsim: read failed\n  %s\n' "$missing")" calls --context missing "$late/events.txt"
    run 3 /dev/null "$(as_file printf 'fmpsim: read failed\n  %s\n' "$top: Is a directory (os error 21)")" check "$late/machine.cfg" "$top"
    run 3 /dev/null "$(as_file printf 'fmpsim: read failed\n  %s\n' "$top: Is a directory (os error 21)")" check "$top" "$late/trace.txt" --context
    from=$late/events.txt run 3 /dev/null "$(as_file printf 'fmpsim: read failed\n  %s\n' "$missing")" calls --context missing -
    from=again.txt run 3 /dev/null "$(as_file printf 'fmpsim: read failed\n  %s\n' "$missing")" smp missing - --ticks 0 --turns 1
    from=$late/trace.txt run 0 "$(as_file echo yes)" /dev/null check --context "$late/machine.cfg" -
    run 3 /dev/null "$(as_file printf 'fmpsim: read failed\n  %s\n' "$missing")" check --context missing -
    # scripts that cannot be read come before a third text
    for words in '--find end --from missing' '--questions missing'; do
        # shellcheck disable=SC2086
        run 3 /dev/null "$(as_file printf 'fmpsim: read failed\n  %s\n' "$top: Is a directory (os error 21)")" explore again.cfg "$top" --ticks 0 --turns 1 $words
        # shellcheck disable=SC2086
        run 3 /dev/null "$(as_file printf 'fmpsim: read failed\n  %s\n' "$missing")" explore again.cfg again.txt --ticks 0 --turns 1 $words
    done
}

# Texts at their greatest length, and above it. The pipe has more than 1 GiB of comments.
greatest_with_context() {
    local fault='fmpsim: full.cfg: line 1: F10 no PROCESSORS line DEF_CLASS'
    { echo 'DEF_CLASS(C, 1, {1});' && yes '' | head -c $((1048576 - 22)); } > full.cfg
    run 1 /dev/null "$(as_file printf '%s\n' "$fault" '  DEF_CLASS(C, 1, {1});' '  ^' '  Begin with `PROCESSORS(n);`.')" \
        calls --context full.cfg "$late/events.txt"
    { cat full.cfg && echo; } > over.cfg
    run 1 /dev/null "$(as_file echo fmpsim: over.cfg: line 0: F9 too many)" calls --context over.cfg "$late/events.txt"
    run 1 /dev/null "$(as_file printf '%s\n' 'fmpsim: /dev/zero: line 0: F9 too many')" calls /dev/zero "$late/events.txt" --context
    if [ "$kind" = by-rattle ]; then
        left_out 'it is not optimized' calls --context "$late/machine.cfg" endless.txt
        return
    fi
    mkfifo endless.txt
    yes "$(printf '#%.0s' {1..1000})" > endless.txt &
    run 1 /dev/null "$(as_file printf '%s\n' 'fmpsim: endless.txt: line 0: E7 too many' \
        '  There may be 1000000 events, 1073741824 bytes, and in a script 256 steps, 256 labels and 1024 jumps.')" calls --context "$late/machine.cfg" endless.txt
    wait
}
