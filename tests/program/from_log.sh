# Logs of a kernel that tools/from-log makes events or a partial trace of. What comes out is what tests/kernel_logs has; the program
# plays the events, and judges the partial trace.

from_log() {
    local tool=$top/tools/from-log logs=$top/tests/kernel_logs refused
    # What finds the order of events where a log does not tell it.
    export FMPSIM=$program
    refused=$(as_file echo refused)
    reads_log events
    run 0 "$logs/answers" /dev/null calls "$logs/machine.cfg" made
    reads_log trace
    echo yes > yes
    run 0 yes /dev/null check --partial "$logs/machine.cfg" made
    log_differs
    log_to_events
    log_in_order
    reads_texts "$logs/told.txt"
    all_calls
    reads_calls
    reads_codes
    reads_numbers
    reads_names
    log_of_a_million
    log_of_great_numbers
    log_command_lines
    refused_in_a_pipe
    logs_of_one_run
}

# log_rows TABLE: its rows, without its comments, with the byte 1 in the place of each tab, so that read sees fields that are empty, too.
log_rows() {
    grep -v '^#' "$1" | tr '\t' '\1' | as_file
}

# reads STATUS MADE TOLD WORD..: of x.log, by the configuration of all kinds of objects, this is made, and this is told.
reads() {
    local well=no ended
    "$tool" "$logs/calls.cfg" x.log "${@:4}" > made 2> told
    ended=$?
    [ "$ended" = "$1" ] && diff "$2" made && diff "$3" told && well=yes
    count "$well" '#' tools/from-log calls.cfg x.log "${@:4}" '#' "$(head -c 300 x.log)"
}

# of_machine STATUS MADE TOLD WORD..: the same by the configuration that tests/kernel_logs has for its log.
of_machine() {
    local well=no ended
    "$tool" "$logs/machine.cfg" x.log "${@:4}" > made 2> told
    ended=$?
    [ "$ended" = "$1" ] && diff "$2" made && diff "$3" told && well=yes
    count "$well" '#' tools/from-log machine.cfg x.log "${@:4}" '#' "$(head -c 300 x.log)"
}

# The table of calls has those that fmpsim has, each once. All of them, one after the other, are events that fmpsim reads.
all_calls() {
    local enter event well=no
    play list
    sed -n 's/^\([a-z]*_[a-z]*\)(.*)$/\1/p' output | sort > wanted
    cut -d $'\1' -f 1 "$(log_rows "$logs/calls.txt")" | cut -d ' ' -f 1 | sort > given
    [ -s wanted ] && diff wanted given && well=yes
    count "$well" list '# has the calls of tests/kernel_logs/calls.txt'
    : > x.log
    : > events
    while IFS=$'\1' read -r enter _ event _; do
        echo "[1]:[1]: enter to $enter." >> x.log
        # A spin lock stands where the call returns.
        [[ $enter != *loc_spn* ]] || echo "[1]:[1]: leave to ${enter%% *} ercd=0." >> x.log
        echo "P1 $event" >> events
    done < "$(log_rows "$logs/calls.txt")"
    {
        block_is_told "$(grep -n rel_mpf x.log | cut -d : -f 1)"
        order_is_not_told "$(grep -n ext_tsk x.log | cut -d : -f 1)" 'a trace of the log ends at line 2'
    } > to_tell
    reads 0 events to_tell
    well=no
    play calls "$logs/calls.cfg" made && [ "$(wc -l < output)" = 77 ] && [ ! -s errors ] && well=yes
    count "$well" calls calls.cfg '# all calls'
}

# block_is_told LINE: what is told of a call of rel_mpf whose block no call has got.
block_is_told() {
    echo "x.log:$1: note: the log does not say which number this block has: it is an address on the target, and a number from 0 in fmpsim, to be written here by hand"
}

# order_is_not_told LINE WHY: what is told of the first event of which the log does not tell whether it took effect before others, where no order is found.
order_is_not_told() {
    echo "x.log:$1: note: the log does not tell whether this took effect before what comes next, so events stand in the order in which they began: $2"
}

# The semaphore has one resource. Task 1 has it, and asks for it once more while task 2 gives it back: the log does not tell which of these took effect
# first, but by what task 1 was answered. Where no order is found the events stand as they began, and why that is so is told: there is no program,
# or an answer that is never right.
log_in_order() {
    local code
    for code in 0:2,1 -50:1,2 -18: ; do
        cat > x.log <<- END
			[1]:[1]: task 1 becomes RUNNABLE.
			[2]:[1]: dispatch to task 1.
			[3]:[1]: enter to act_tsk tskid=2.
			[4]:[1]: task 2 becomes RUNNABLE.
			[5]:[1]: leave to act_tsk ercd=0.
			[6]:[2]: enter to int handler 65552.
			[7]:[2]: leave to int handler 65552.
			[8]:[2]: dispatch to task 2.
			[9]:[1]: enter to pol_sem semid=1.
			[10]:[1]: leave to pol_sem ercd=0.
			[11]:[1]: enter to pol_sem semid=1.
			[12]:[2]: enter to sig_sem semid=1.
			[13]:[2]: leave to sig_sem ercd=0.
			[14]:[1]: leave to pol_sem ercd=${code%:*}.
			END
        : > to_tell
        case ${code#*:} in
            2,1) printf '%s\n' 'P2 sig_sem(S)' 'P1 pol_sem(S)' ;;
            *) printf '%s\n' 'P1 pol_sem(S)' 'P2 sig_sem(S)' ;;
        esac > last
        [ "${code#*:}" ] || order_is_not_told 11 "none that it may be is the machine's, as \`fmpsim check --partial --show\` tells of the trace that --trace writes" > to_tell
        printf '%s\n' 'P1 act_tsk(T2)' 'P2 ipi' 'P1 pol_sem(S)' | cat - last > wanted
        of_machine 0 wanted to_tell --ipi 65552
    done
    # the order in which they began is that of the second of these
    order_is_not_told 11 'nowhere: there is no such program: name it with --fmpsim' > to_tell
    of_machine 0 wanted to_tell --ipi 65552 --fmpsim nowhere
    order_is_not_told 11 'fmpsim cannot be run: Exec format error' > to_tell
    : > nothing && chmod +x nothing
    of_machine 0 wanted to_tell --ipi 65552 --fmpsim ./nothing
}

# answered LINE..: each call that task 1 enters and leaves is a line of a trace with its answer: without these lines each call, and with them in between
# each that may not wait. A task that has ended is dispatched to once more.
answered() {
    local enter leave event answer waits name
    echo '[1]:[1]: dispatch to task 1.' > x.log
    : > wanted
    while IFS=$'\1' read -r enter leave event answer waits; do
        name=${enter%% *}
        [ $# = 0 ] || [ "$waits" = no ] || continue
        echo "[1]:[1]: enter to $enter." >> x.log
        [ "$name" != rel_mpf ] || block_is_told "$(wc -l < x.log)" > to_tell
        if [ "$name" = ext_tsk ]; then
            printf '[1]:[1]: %s.\n' 'dispatch from task 1' 'dispatch to task 1' >> x.log
        else
            [ $# = 0 ] || printf '[1]:[1]: %s.\n' "$@" >> x.log
            echo "[1]:[1]: leave to $name $leave." >> x.log
        fi
        echo "P1 T1 $event $answer" >> wanted
    done < "$(log_rows "$logs/calls.txt")"
    # without those that get a block, all blocks are free
    reads 0 "$([ $# = 0 ] && echo wanted || sed 's/pget_mpf(M2) E_OK:2/pget_mpf(M2) E_OK:0/' wanted | as_file)" to_tell --trace
}

# Each call, left at once, and with a dispatch in it. One that may wait does so where its task is dispatched from, or becomes WAITING, and no other can.
# Where a log does not say what a call answered, or not with what value, the trace goes on.
reads_calls() {
    local enter event answer waits name
    answered
    answered 'dispatch from task 1' 'dispatch to task 1'
    while IFS=$'\1' read -r enter _ event answer waits; do
        name=${enter%% *}
        printf '[1]:[1]: %s.\n' 'task 1 becomes RUNNABLE' 'dispatch to task 1' "enter to $enter" 'task 1 becomes WAITING' > x.log
        if [ "$waits" = waits ]; then
            reads 0 "$(as_file echo "P1 T1 $event wait")" /dev/null --trace
            printf '[1]:[1]: %s.\n' 'dispatch to task 1' "enter to $enter" 'dispatch from task 1' > x.log
            reads 0 "$(as_file echo "P1 T1 $event wait")" /dev/null --trace
        elif [[ $name = [gp][eo][tl]_* ]]; then
            reads 1 "$refused" "$(as_file echo "x.log:4: refused: task 1 becomes WAITING, and it is in no call that can make it wait")" --trace
        fi
        [[ $answer != gone && $name != rel_mpf ]] || continue
        answers_in_part '' '?' "no answer of $name is told here"
        [[ $answer = E_OK:* && $name != sns_* ]] || continue
        answers_in_part ' ercd=E_OK' 'E_OK:*' "no value is told here that $name answered"
    done < "$(log_rows "$logs/calls.txt")"
}

# answers_in_part LEFT ANSWER WHY: where the call is left with no more than this, its line has this answer, those beside it have theirs, and this is told.
answers_in_part() {
    printf '[1]:[2]: %s.\n' 'enter to loc_cpu' 'leave to loc_cpu ercd=0' "enter to $enter" "leave to $name$1" 'enter to unl_cpu' 'leave to unl_cpu ercd=0' > x.log
    reads 0 "$(as_file printf 'P2 %s\n' 'loc_cpu() E_OK' "$event $2" 'unl_cpu() E_OK')" "$(as_file echo "x.log:4: note: $3, so that is not judged")" --trace
}

# Each code by its number and by its name. A code that fmpsim does not answer is not judged.
reads_codes() {
    local code number others
    : > x.log
    : > wanted
    while IFS=$'\1' read -r code number; do
        if [ "$code" = other ]; then
            read -ra others <<< "$number"
            continue
        fi
        printf '[1]:[1]: %s to wai_sem %s.\n' enter semid=1 leave "ercd=$number" enter semid=2 leave "ercd=$code" >> x.log
        printf 'P1 wai_sem(S%s) %s\n' 1 "$code" 2 "$code" >> wanted
    done < "$(log_rows "$logs/codes.txt")"
    reads 0 wanted /dev/null --trace
    for code in "${others[@]}"; do
        printf '[1]:[1]: %s to wai_sem %s.\n' enter semid=1 leave "ercd=$code" > x.log
        reads 0 "$(as_file echo 'P1 wai_sem(S1) ?')" "$(as_file echo "x.log:2: note: \`$code\` is no code that fmpsim answers, so that is not judged")" --trace
    done
}

# Each kind of numbers at both ends of its range, and one beyond each.
reads_numbers() {
    local enter event least greatest below above what number
    while IFS=$'\1' read -r enter event least greatest below above what; do
        printf '[1]:[1]: enter to %s.\n' "${enter/\{N\}/$least}" "${enter/\{N\}/$greatest}" > x.log
        reads 0 "$(as_file printf 'P1 %s\n' "${event/\{N\}/$least}" "${event/\{N\}/$greatest}")" /dev/null
        for number in "$below" "$above"; do
            echo "[1]:[1]: enter to ${enter/\{N\}/$number}." > x.log
            reads 1 "$refused" "$(as_file echo "x.log:1: refused: \`$number\` is no $what")"
        done
    done < "$(log_rows "$logs/numbers.txt")"
}

# The numbers of objects of each kind become the names of the first and of the last; 0 is the caller where a task is meant, and any other
# number stays.
reads_names() {
    local call
    for call in 'ter_tsk tskid=' 'wai_sem semid=' 'rcv_dtq dtqid=' 'get_mpf mpfid=' 'sta_cyc cycid=' 'stp_alm almid=' 'try_spn spnid='; do
        printf "[1]:[1]: enter to $call%s.\n" 0 1 2 3 -1
    done > x.log
    printf '[1]:[1]: enter to set_flg flgid=%s, setptn=1.\n' 0 1 2 3 -1 >> x.log
    for call in ter_tsk:T wai_sem:S rcv_dtq:Q get_mpf:M sta_cyc:Y stp_alm:A try_spn:L; do
        printf "P1 ${call%:*}(%s)\n" 0 "${call#*:}1" "${call#*:}2" 3 -1
    done | sed 's/ter_tsk(0)/ter_tsk(TSK_SELF)/' > wanted
    printf 'P1 set_flg(%s, 1)\n' 0 F1 F2 3 -1 >> wanted
    reads 0 wanted /dev/null
}

# As many events as a list may have, and one more.
log_of_a_million() {
    local well=no
    yes '[1]:[1]: enter to slp_tsk' | head -n 1000000 > x.log
    "$tool" "$logs/calls.cfg" x.log > made 2> told
    [ $? = 0 ] && [ ! -s told ] && [ "$(wc -l < made)" = 1000000 ] && [ "$(sort -u made)" = 'P1 slp_tsk()' ] && well=yes
    count "$well" '#' tools/from-log calls.cfg x.log '# a million events'
    echo '[1]:[1]: enter to slp_tsk' >> x.log
    reads 1 "$refused" "$(as_file echo 'x.log:1000001: refused: it has more than 1000000 events')"
}

# Numbers of any length are no numbers of a log: their lines are passed over, or tell of an argument that is none.
log_of_great_numbers() {
    local great
    great=$(printf '9%.0s' {1..5000})
    printf '%s\n' "[$great]:[1]: enter to slp_tsk." "[1]:[$great]: enter to slp_tsk." "[1]:[1]: dispatch to task $great." \
        "[1]:[1]: enter to int handler $great." '[1]:[1]: enter to slp_tsk.' > x.log
    reads 0 "$(as_file echo 'P1 slp_tsk()')" "$(as_file echo 'x.log:1: passed over: what tells of no event, this line the first, and 3 more')"
    echo "[1]:[1]: enter to act_tsk tskid=$great." > x.log
    reads 1 "$refused" "$(as_file echo "x.log:1: refused: \`${great:0:80}..\` is no number of 32 bits with a sign")"
}

# reads_log FOLDER: of the log, by the words in `words`, `made` is made, and `errors` is told.
reads_log() {
    local words well=no
    read -ra words < "$logs/$1/words"
    (cd "$logs" && "$tool" "${words[@]}") > made 2> told
    [ $? = 0 ] && diff "$logs/$1/made" made && diff "$logs/errors" told && well=yes
    count "$well" '#' tools/from-log "${words[@]}" '# in' "$logs"
}

# A log of a kernel that answers something else is found out, at its event.
log_differs() {
    sed 's/leave to wai_sem ercd=0/leave to wai_sem ercd=-50/' "$logs/kernel.log" > kernel.log
    "$tool" "$logs/machine.cfg" kernel.log --trace --tick 16 --ipi 65552 > made 2> told
    echo 'no 2' > no
    run 5 no /dev/null check --partial "$logs/machine.cfg" made
}

# The example that leads from a board's log to six events: each file is made of the one before it, as its story says.
log_to_events() {
    local story=$top/examples/log-to-six-events words well=no
    words=("$story/machine.cfg" "$story/kernel.log" --tick 16 --tick 131088 --ipi 65552)
    "$tool" "${words[@]}" > made 2> told && cmp made "$story/events.txt" &&
        "$tool" "${words[@]}" --trace > made 2> told && cmp made "$story/partial.txt" && well=yes
    count "$well" '#' tools/from-log "${words[@]}"
    # either text may come from standard input, as `-`
    well=no
    "$tool" "$story/machine.cfg" - "${words[@]:2}" < "$story/kernel.log" | cmp - "$story/events.txt" &&
        "$tool" - "${words[@]:1}" < "$story/machine.cfg" | cmp - "$story/events.txt" && well=yes
    count "$well" '#' tools/from-log -
    run 0 yes /dev/null check --partial "$story/machine.cfg" "$story/partial.txt"
    run 0 "$story/left-ahead.txt" /dev/null shrink "$story/machine.cfg" "$story/events.txt" --find 'twai_sem(DONE, 2) E_OK'
    run 0 "$story/left-timeout.txt" /dev/null shrink "$story/machine.cfg" "$story/events.txt" --find 'rel=WORKER:E_TMOUT'
}

# reads_texts TABLE: each row has a status, the words, the text of x.log, what is made and what is told, with a tab between two.
reads_texts() {
    local status words text made what ended well
    while IFS=$'\1' read -r status words text made what; do
        printf '%b' "$text" > x.log
        read -ra words <<< "$words"
        [ -z "$what" ] || what+='\n'
        well=no
        "$tool" "$logs/machine.cfg" x.log "${words[@]}" > made 2> told
        ended=$?
        [ "$ended" = "$status" ] && diff "$(as_file printf '%b' "$made")" made && diff "$(as_file printf '%b' "$what")" told && well=yes
        count "$well" '#' tools/from-log machine.cfg x.log "${words[@]}" '#' "$text"
    done < "$(log_rows "$1")"
}

# Command lines that are wrong, files that are missing or no configuration, and an output that cannot be written.
log_command_lines() {
    local line words well
    printf '[1]:[1]: enter to slp_tsk.\n' > x.log
    while IFS= read -r line; do
        well=no
        read -ra words <<< "$line"
        "$tool" "${words[@]}" > made 2> told
        [ $? = 2 ] && grep -q '^usage: from-log' told && cmp made "$refused" && well=yes
        count "$well" '#' tools/from-log "${words[@]}"
    done <<- END

	x.cfg
	x.cfg x.log y.log --up-to 1
	x.cfg x.log --up-to
	x.cfg - -
	x.cfg x.log --tick
	x.cfg x.log --tick one
	x.cfg x.log --tick 1 --ipi 1
	x.cfg x.log --all
	- -
	END
    refuses 3 'nowhere: cannot be read: No such file or directory' nowhere x.log
    refuses 3 'nowhere: cannot be read: No such file or directory' "$logs/machine.cfg" nowhere
    refuses 3 '.: cannot be read: Is a directory' "$logs/machine.cfg" .
    refuses 1 'x.log: refused: it has no PROCESSORS(n); with n from 1 to 8: expected is a configuration, as tools/from-toppers makes it' x.log x.log
    well=no
    "$tool" "$logs/machine.cfg" x.log > /dev/full 2> told
    [ $? = 3 ] && [ "$(cat told)" = 'from-log: what was made cannot be written: No space left on device' ] && well=yes
    count "$well" '#' tools/from-log x.log '> /dev/full'
}

# refuses STATUS TOLD WORD..: the tool ends so, tells this, and makes no event.
refuses() {
    local well=no
    "$tool" "${@:3}" > made 2> told
    [ $? = "$1" ] && [ "$(cat told)" = "$2" ] && cmp made "$refused" && well=yes
    count "$well" '#' tools/from-log "${@:3}"
}

# What a refused log leaves in a pipe is refused by whoever reads it, and never `yes`.
refused_in_a_pipe() {
    local command
    for command in calls 'check --partial' check; do
        from=$refused run 1 /dev/null "$(as_file echo 'fmpsim: -: line 1: E2 bad word')" $command "$logs/machine.cfg" -
    done
}

# Several logs of one run are merged by their times, each from the beginning of its own clock. What is told names the file and its line there.
logs_of_one_run() {
    local well=no
    printf '[%s]:[1]: %s.\n' 1 'enter to sns_loc' 3 'leave to sns_loc state=false' 4294967290 'enter to sns_dsp' 2 'leave to sns_dsp state=false' > a.log
    { echo board && printf '[%s]:[2]: %s.\n' 2 'enter to sns_loc' 4 'leave to sns_loc state=true' 4294967295 'enter to pol_sem semid=1'; } > b.log
    printf '[%s]:[2]: %s.\n' 1 'leave to pol_sem ercd=0' >> b.log
    printf 'P%s %s\n' 1 'sns_loc() E_OK:0 by=2' 2 'sns_loc() E_OK:1' 1 'sns_dsp() E_OK:0 by=4' 2 'pol_sem(S) E_OK' > wanted
    printf '%s\n' 'b.log:5: note: the clock of 32 bits begins again at 0 here' 'a.log:4: note: the clock of 32 bits begins again at 0 here' \
        'b.log:1: passed over: what tells of no event, this line the first' | LC_ALL=C sort > to_tell
    "$tool" "$logs/machine.cfg" a.log b.log --trace > made 2> told && diff wanted made && LC_ALL=C sort told | diff to_tell - && well=yes
    count "$well" '#' tools/from-log machine.cfg a.log b.log --trace
    { cat b.log && printf '%s\n' '[3]:[2]: enter to exception handler 1.' '2 messages are lost.' '[4]:[2]: leave to pol_sem ercd=0.'; } > c.log
    echo 'ends 7' >> wanted
    sed 's/^b/c/' to_tell > to_tell_more && echo 'c.log:7: the trace ends here: 2 messages are lost' >> to_tell_more
    well=no
    "$tool" "$logs/machine.cfg" a.log c.log --trace > made 2> told && diff wanted made && LC_ALL=C sort told | diff "$(as_file env LC_ALL=C sort to_tell_more)" - && well=yes
    count "$well" '#' tools/from-log machine.cfg a.log c.log --trace
    echo '[3]:[2]: leave to pol_sem ercd=0.' >> b.log
    refuses 1 "$(printf '%s\n' 'a.log:4: note: the clock of 32 bits begins again at 0 here' 'b.log:5: note: the clock of 32 bits begins again at 0 here' \
        'b.log:6: refused: pol_sem is left, and was not entered: begin the log before it')" "$logs/machine.cfg" a.log b.log
}
