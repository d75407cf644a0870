# Searches through every order: the examples, and how many places some machines have.

searches() {
    local folder question=(--turns 100 --find E_PAR)
    for folder in "$top"/examples/explore-*/; do
        asks "$folder"
    done
    has_places explore-device 16 --ticks any
    has_places explore-lost-wakeup 36 --ticks 0
    has_places explore-lock-order 47 --ticks 0
    has_places explore-priority-inversion 247 --ticks any
    has_places explore-overflow 127 --ticks any
    has_places explore-overflow 2233 --ticks 6
    has_places explore-priority-inversion 2200 --ticks 3
    has_places explore-migration 3600 --ticks 3
    has_places explore-philosophers 19435 --ticks 0
    places_of_each_kind
    places_of_each_wait
    folder=$top/examples/explore-lock-order
    from=$folder/scripts.txt run 5 "$folder/trace.txt" /dev/null explore "$folder/machine.cfg" - --ticks 0 --turns 4 --find 'end & waits sem'
    unread explore "$folder/machine.cfg" missing --ticks 0 --turns 1 --find end
    unwritten explore "$folder/machine.cfg" "$folder/scripts.txt" --ticks 0 --turns 100 --find E_PAR
    unwritten explore "$folder/machine.cfg" "$folder/scripts.txt" --ticks 0 --turns 100 --find 'end & waits sem'
    stays
    begins_behind
    goes_on_from_places
    tells_beside_never
    tells_of_many_calls
    takes_each_word
    questions_of_the_pages
    tells_how_far
    ends_in_time
    takes_memory_for_places
}

# asks FOLDER: each question of the folder is answered as its line says: those of questions.txt about scripts.txt, and those of NAME-questions.txt
# about NAME.txt. A line has the answer, the options, and what is said beside `never` and `not within`, but for the number of places.
asks() {
    local file scripts
    for file in "$1"/*questions.txt; do
        scripts=${file%questions.txt}
        [ "$(basename "$file")" = questions.txt ] && scripts=$1/scripts.txt || scripts=${scripts%-}.txt
        asks_of "$1" "$scripts" "$file"
    done
}

# lines_beside LINES: the path of a file with what is said beside `never` and `not within`, where a `|` is between two lines.
lines_beside() {
    tr '|' '\n' <<< "$1" | sed '/^$/d; s/^/fmpsim: question: /' | as_file
}

# asks_of FOLDER SCRIPTS QUESTIONS
asks_of() {
    local right options beside words well errors
    while IFS=$'\t' read -r right options beside; do
        eval "options=($options)"
        words=(explore "$1/machine.cfg" "$2" "${options[@]}")
        case $right in
            never) run 0 "$(as_file echo never)" "$(lines_beside "$beside")" "${words[@]}" ;;
            not\ within\ *) run 6 "$(as_file echo "$right")" "$(lines_beside "$beside")" "${words[@]}" ;;
            *.txt)
                errors=$1/${right%.txt}.errors
                [ -e "$errors" ] || errors=/dev/null
                run 5 "$1/$right" "$errors" "${words[@]}" && judged "$1/machine.cfg"
                ;;
            *\ lines)
                well=no
                play "${words[@]}"
                [ $? = 5 ] && [ ! -s errors ] && [ "$(wc -l < output) lines" = "$right" ] && well=yes
                count "$well" "${words[@]}" && judged "$1/machine.cfg"
                ;;
            *) count no "${words[@]}" "# $right" ;;
        esac
    done < "$3"
}

# What stays for ever is asked of all orders: one run is not asked it, nor orders that end where ticks are used up.
stays() {
    local folder=$top/examples/explore-deadlock words one='fmpsim: --find: what stays for ever is asked of every order, by fmpsim explore'
    words=(explore "$folder/machine.cfg" "$folder/mended.txt" --turns 1000)
    run 0 "$(as_file echo never)" /dev/null "${words[@]}" --ticks any
    refused "${words[@]}" --ticks 3
    refused "${words[@]}" --ticks 3 --find 'LOG waits for ever'
    refused "${words[@]}" --ticks any --from /dev/null
    run 2 /dev/null "$(as_file echo "$one")" shrink "$folder/machine.cfg" /dev/null --find deadlock
    run 2 /dev/null "$(as_file echo "$one")" smp "$folder/machine.cfg" "$folder/scripts.txt" --ticks 1 --turns 9 --seeds 0..1 --find 'LOG waits for ever'
    run 5 "$folder/trace.txt" "$(as_file printf '%s\n' 'fmpsim: from line 6 on LOG waits for ever' 'fmpsim: a shorter one is not ruled out')" \
        explore "$folder/machine.cfg" "$folder/scripts.txt" --ticks any --turns 16
    takes_any "$folder"
}

# takes_any FOLDER: where nothing is said of ticks, or of lines, it is told what is taken.
takes_any() {
    local ticks='fmpsim: --ticks any, since no number is given' turns='fmpsim: --turns 1000000, since no number is given' stays='fmpsim: from line 6 on LOG waits for ever'
    local words=(explore "$1/machine.cfg" "$1/scripts.txt")
    run 5 "$1/trace.txt" "$(as_file printf '%s\n' "$ticks" "$turns" "$stays")" "${words[@]}"
    run 5 "$1/trace.txt" "$(as_file printf '%s\n' "$ticks" "$stays")" "${words[@]}" --turns 1000
    run 5 "$1/trace.txt" "$(as_file printf '%s\n' "$turns" "$stays")" "${words[@]}" --ticks any
}

# judged CFG: the checker says yes to what was written last.
judged() {
    cp output trace.txt
    run 0 "$(as_file echo yes)" /dev/null check "$1" trace.txt
}

# has_places FOLDER N WORD..: an example has so many places under these options.
has_places() {
    are_places "$2" "$top/examples/$1/machine.cfg" "$top/examples/$1/scripts.txt" "${@:3}" "${question[@]}"
}

# Nothing is on standard error but what is said beside an answer.
is_beside() {
    ! grep -qv '^fmpsim: question: ' errors
}

# are_places N WORD..: a search that shows nothing goes through so many places: there is room for all of them, and with one place less there is not.
are_places() {
    local well=no
    run 0 "$(as_file echo never)" /dev/null explore "${@:2}" --places "$1"
    play explore "${@:2}" --places "$1"
    grep -q "^fmpsim: question: places gone through: $1, all there are; lines to the farthest: [0-9]*\$" errors && well=yes
    count "$well" explore "${@:2}" --places "$1" '# tells how many places'
    well=no
    play explore "${@:2}" --places $(($1 - 1))
    [ $? = 6 ] && is_beside && grep -qxE 'not within [0-9]+' output && well=yes
    count "$well" explore "${@:2}" --places $(($1 - 1))
}

# places_of_each_kind: two processors make two calls each, on things of their own, and end their tasks. What the one did does not depend on how far the
# other has come, so there are four by four places, whatever the calls change: the same place is met by each order that leads to it. An order of
# six steps, three of each, would be 20 different ones, and with all that they come through there would be 69 places.
places_of_each_kind() {
    local kind first second p
    for p in 1 2; do
        printf 'DEF_CLASS(C%s, %s, {%s});\nCLASS(C%s) {\n' $p $p $p $p
        printf 'CRE_TSK(T%s, {TA_ACT, 0, main%s, 10, 4096, NULL});\nCRE_SEM(S%s, {TA_TFIFO, 0, 10});\n' $p $p $p
        printf 'CRE_FLG(F%s, {TA_NULL, 0});\nCRE_DTQ(D%s, {TA_TFIFO, 4, NULL});\nCRE_MPF(M%s, {TA_TFIFO, 4, 64, NULL, NULL});\n' $p $p $p
        printf 'CRE_ALM(A%s, {TA_NULL, 0, alarm});\nCRE_CYC(Y%s, {TA_NULL, 0, cyclic, 3, 2});\nCRE_SPN(L%s, {TA_NULL});\n}\n' $p $p $p
    done | sed '1i PROCESSORS(2);' > kinds.cfg
    while IFS='|' read -r kind first second; do
        for p in 1 2; do
            printf 'script main%s\n%s\n%s\nend\n' $p "${first//@/$p}" "${second//@/$p}"
        done > "$kind.scripts"
        are_places 16 kinds.cfg "$kind.scripts" --ticks 0 --turns 100 --find E_PAR
    done << 'end of kinds'
wakeup|wup_tsk(TSK_SELF)|wup_tsk(TSK_SELF)
priority|chg_pri(TSK_SELF, 5)|chg_pri(TSK_SELF, 6)
semaphore|sig_sem(S@)|sig_sem(S@)
eventflag|set_flg(F@, 1)|set_flg(F@, 6)
data_queue|psnd_dtq(D@, 5)|psnd_dtq(D@, -6)
pool|pget_mpf(M@)|pget_mpf(M@)
alarm|sta_alm(A@, 5)|sta_alm(A@, 7)
cyclic|sta_cyc(Y@)|stp_cyc(Y@)
spin_lock|loc_spn(L@)|unl_spn(L@)
cpu_lock|loc_cpu()|unl_cpu()
dispatching|dis_dsp()|ena_dsp()
end of kinds
}

# places_of_each_wait: likewise of what happens to a second task of each processor, which runs first and waits, and of requests and handlers. How many
# places there are is worked out by hand: of each processor one more than it has events, with a tick twelve, and the product of both. Two waits that count ticks
# at the same time are two places, since a machine keeps which of them began first.
places_of_each_wait() {
    local kind places options first second p
    for p in 1 2; do
        printf 'DEF_CLASS(C%s, %s, {%s});\nCLASS(C%s) {\n' $p $p $p $p
        printf 'CRE_TSK(T%s, {TA_ACT, 0, main%s, 10, 4096, NULL});\nCRE_TSK(U%s, {TA_ACT, 0, other%s, 5, 4096, NULL});\n' $p $p $p $p
        printf 'CRE_SEM(S%s, {TA_TFIFO, 0, 1});\nCRE_FLG(F%s, {TA_NULL, 0});\nCRE_DTQ(Z%s, {TA_TFIFO, 0, NULL});\n' $p $p $p
        printf 'CRE_MPF(M%s, {TA_TFIFO, 1, 64, NULL, NULL});\nCRE_ALM(A%s, {TA_NULL, 0, alarm});\n}\n' $p $p
    done | sed '1i PROCESSORS(2);' > waits.cfg
    while IFS='|' read -r kind places options first second; do
        for p in 1 2; do
            printf 'script other%s\n%b\nend\nscript main%s\n%b\nend\n' $p "${first//@/$p}" $p "${second//@/$p}"
        done > "$kind.scripts"
        are_places "$places" waits.cfg "$kind.scripts" --ticks "$options" --turns 100 --find E_PAR
    done << 'end of waits'
sleep|25|0|slp_tsk()|wup_tsk(U@)
delay|26|0|dly_tsk(5)|rel_wai(U@)
semaphore_wait|25|0|wai_sem(S@)|sig_sem(S@)
eventflag_wait|25|0|wai_flg(F@, 1, TWF_ANDW)|set_flg(F@, 1)
send_wait|25|0|snd_dtq(Z@, 7)|rcv_dtq(Z@)
receive_wait|25|0|rcv_dtq(Z@)|snd_dtq(Z@, 7)
pool_wait|36|0|get_mpf(M@)\nget_mpf(M@)|rel_wai(U@)
suspension|49|0|slp_tsk()|sus_tsk(U@)\nrsm_tsk(U@)\nwup_tsk(U@)
queued_activation|49|0|slp_tsk()|act_tsk(U@)\ncan_act(U@)\nwup_tsk(U@)
kept_processor|49|0|slp_tsk()|mact_tsk(U@, @)\ncan_act(U@)\nwup_tsk(U@)
due_handler|144|1|ext_tsk()|sta_alm(A@, 0)
end of waits
    sed '/CRE_TSK(U/d; /CRE_TSK(T2/s/TA_ACT/TA_NULL/' waits.cfg > request.cfg
    printf 'script main1\nact_tsk(T2)\nend\n' > request.scripts
    # before the activation nothing is done on P2; after it the interrupt comes, and the task ends, before or after that of P1 does
    are_places 7 request.cfg request.scripts --ticks 0 --turns 100 --find E_PAR
}

# begins_behind: a search begins where a trace ends. What it writes begins with that trace, and lines count with those of it.
begins_behind() {
    local folder=$top/examples/explore-lost-wakeup lines words
    words=(explore "$folder/machine.cfg" "$folder/scripts.txt" --turns 100 --find 'end & WORKER waits slp')
    for lines in 0 1 3 7 8; do
        head -n "$lines" "$folder/trace.txt" > begun.txt
        run 5 "$folder/trace.txt" /dev/null "${words[@]}" --ticks 0 --from begun.txt && judged "$folder/machine.cfg"
    done
    # it sleeps before the first wakeup, which ends the sleep: none is refused, and the second ends the other sleep
    echo '1 P2 WORKER slp_tsk() wait run=idle' > begun.txt
    run 0 "$(as_file echo never)" /dev/null "${words[@]}" --ticks 0 --from begun.txt
    # a tick in the trace is one that was taken
    echo '1 P1 PRODUCER tick taken' > begun.txt
    awk '{ $1 = NR + 1; print }' "$folder/trace.txt" | cat begun.txt - > later.txt
    run 5 later.txt /dev/null "${words[@]}" --ticks 1 --from begun.txt
    strays 1 --ticks 0 < begun.txt
    strays 2 --ticks 1 < "$({ cat begun.txt && echo '2 P1 PRODUCER tick taken'; } | as_file)"
    # another answer, half a line, a carriage return, a number that is not the line's, a blank line, and one that tells nothing
    strays 2 --ticks 0 < "$(as_file sed '2s/E_OK/E_QOVR/' "$folder/trace.txt")"
    strays 8 --ticks 0 < "$(as_file head -c -1 "$folder/trace.txt")"
    strays 3 --ticks 0 < "$(as_file sed $'3s/$/\r/' "$folder/trace.txt")"
    strays 1 --ticks 0 < "$(as_file tail -n +2 "$folder/trace.txt")"
    strays 4 --ticks 0 < "$(as_file sed 3G "$folder/trace.txt")"
    strays 9 --ticks 0 < "$({ cat "$folder/trace.txt" && echo end; } | as_file)"
    # what the machine answers to calls that the scripts do not make there, and to an interrupt that was not asked for
    strays 1 --ticks 0 < "$(as_file echo '1 P1 PRODUCER wup_tsk(WORKER) E_OK')"
    strays 1 --ticks 0 < "$(as_file echo '1 P2 WORKER ipi none')"
    run 1 /dev/null "$(as_file echo 'stray.txt:1: error: no order of these scripts has it here')" "${words[@]}" --ticks 0 --from stray.txt --diagnostics=gcc
    unread "${words[@]}" --ticks 0 --from missing
    folder=$top/examples/explore-lock-order
    words=(explore "$folder/machine.cfg" "$folder/scripts.txt" --ticks 0)
    head -n 3 "$folder/trace.txt" > begun.txt
    run 6 "$(as_file echo not within 3)" /dev/null "${words[@]}" --turns 3 --find 'end & waits sem' --from begun.txt
    run 5 "$folder/trace.txt" /dev/null "${words[@]}" --turns 4 --find 'end & waits sem' --from begun.txt
    # it has both, and gives both back
    printf '1 P1 READER wai_sem(FLASH) E_OK\n2 P1 READER wai_sem(BUFFER) E_OK\n' > begun.txt
    run 0 "$(as_file echo never)" /dev/null "${words[@]}" --turns 100 --find 'end & waits sem' --from begun.txt
    # what must not come before came at the first line: that is no fault of the trace
    run 0 "$(as_file echo never)" /dev/null "${words[@]}" --turns 100 --find 'wai_sem(BUFFER) E_OK without wai_sem(FLASH) E_OK' --from begun.txt
}

# A script has 256 calls at most. T waits for ever at one of them, since nobody wakes it up, and does not come to those behind it: eight of ten are told, and how
# many more there are, whatever the limit of lines; and the last call alone.
tells_of_many_calls() {
    printf 'PROCESSORS(1);\nDEF_CLASS(C, 1, {1});\nCLASS(C) { CRE_TSK(T, {TA_ACT, 0, main, 1, 4096, NULL}); }\n' > sleeps.cfg
    { echo script main && yes 'get_tid()' | head -n 245 && echo 'slp_tsk()' && yes 'get_pid()' | head -n 10 && echo end; } > ten.txt
    { printf 'fmpsim: question: no order makes call %s of main: get_pid()\n' {247..254} && echo 'fmpsim: question: nor 2 more calls of the scripts'; } > ten.errors
    run 0 "$(as_file echo never)" ten.errors explore sleeps.cfg ten.txt --ticks 0 --turns 1001 --find E_PAR
    { echo script main && yes 'get_tid()' | head -n 254 && printf 'slp_tsk()\nsns_ctx()\nend\n'; } > last.txt
    run 0 "$(as_file echo never)" "$(as_file echo 'fmpsim: question: no order makes call 256 of main: sns_ctx()')" explore sleeps.cfg last.txt --ticks 0 --turns 1000 --find E_PAR
}

# goes_on_from_places: three orders of two lines lead to all places that are that far, and what is answered from each of them is what is so of all orders.
goes_on_from_places() {
    local folder=$top/examples/explore-lock-order words file
    words=(explore "$folder/machine.cfg" "$folder/scripts.txt" --ticks 0 --find)
    run 6 "$(as_file echo not within 2)" "$(as_file printf 'fmpsim: question: no order of at most 2 lines makes call %s\n' '3 of reader: sig_sem(BUFFER)' \
        '4 of reader: sig_sem(FLASH)' '3 of writer: sig_sem(FLASH)' '4 of writer: sig_sem(BUFFER)')" "${words[@]}" 'end & waits sem' --turns 2
    # each task has both semaphores, or each has one
    printf '%s\n' '1 P1 READER wai_sem(FLASH) E_OK' '2 P1 READER wai_sem(BUFFER) E_OK' > 1.begun
    printf '%s\n' '1 P1 READER wai_sem(FLASH) E_OK' '2 P2 WRITER wai_sem(BUFFER) E_OK' > 2.begun
    printf '%s\n' '1 P2 WRITER wai_sem(BUFFER) E_OK' '2 P2 WRITER wai_sem(FLASH) E_OK' > 3.begun
    for file in [123].begun; do
        run 0 "$(as_file echo yes)" /dev/null check "$folder/machine.cfg" "$file"
        run 0 "$(as_file echo never)" /dev/null "${words[@]}" E_PAR --turns 100 --from "$file"
        if grep -q READER "$file" && grep -q WRITER "$file"; then
            run 5 "$folder/trace.txt" /dev/null "${words[@]}" 'end & waits sem' --turns 100 --from "$file"
        else
            run 0 "$(as_file echo never)" /dev/null "${words[@]}" 'end & waits sem' --turns 100 --from "$file"
        fi
    done
}

# tells_beside_never: how much of a question comes that no order shows, on standard error, whatever becomes of that. It is not told of the orders that go on from a trace,
# and not where it is not found in the seconds that are left: ten, or as many as the answer took.
tells_beside_never() {
    local folder=$top/examples/explore-lost-update words begun well
    words=(explore "$folder/machine.cfg" "$folder/mended.txt" --ticks 0 --turns 100 --find '2 times set_flg(COUNT, 1) E_OK')
    printf 'fmpsim: question: %s\n' 'some order has step 1 of 2, and none has step 2 after it' "an event of some order has 'set_flg(COUNT, 1) E_OK'" > beside.txt
    echo never > never.txt
    run 0 never.txt beside.txt "${words[@]}"
    run 0 never.txt beside.txt "${words[@]}" --seconds 1000 --diagnostics=gcc
    run 0 never.txt /dev/null "${words[@]}" --from /dev/null
    well=no
    "$program" "${words[@]}" > output 2> /dev/full && cmp -s output never.txt && well=yes
    count "$well" "${words[@]}" '# to a standard error that is full'
    # no event may come before it, so there is one place, and without that there are more than any time
    folder=$top/examples/explore-philosophers
    words=(explore "$folder/machine.cfg" "$folder/scripts.txt" --ticks 900000 --turns 1000000 --places 20000000 --find 'lost=* without P*')
    never_within "${words[@]}"
    begun=$SECONDS
    run 0 never.txt /dev/null "${words[@]}"
    count "$([ $((SECONDS - begun)) -ge 9 ] && [ $((SECONDS - begun)) -lt 300 ] && echo yes || echo no)" '# ten seconds'
}

# never_within WORD..: the answer is `never`, and what goes on beside it ends with the seconds, or with ten if there are more, and not before. A machine
# may be so busy that the time is over before the first place is made: then, and only then, more seconds are given.
never_within() {
    local patience begun past well=no
    for patience in 2 20 200; do
        : > output
        begun=$SECONDS
        play "$@" --seconds "$patience"
        if [ $? = 6 ] && [ "$(cat output)" = 'not within 0' ]; then continue; fi
        past=$((SECONDS - begun))
        sed -i '/; lines to the farthest: /d' errors
        cmp output never.txt && [ ! -s errors ] && [ "$past" -ge $((patience < 10 ? patience - 1 : 9)) ] && [ "$past" -lt $((patience + 300)) ] && well=yes
        break
    done
    [ "$well" = yes ] || cat errors
    count "$well" "$@" --seconds "$patience"
}

# strays LINE WORD..: the trace on standard input has this line, and no order of the scripts has it there.
strays() {
    cat > stray.txt
    run 1 /dev/null "$(as_file echo "fmpsim: stray.txt: line $1: no order of these scripts has it here")" "${words[@]}" "${@:2}" --from stray.txt
}

# Each word of a trace and of a state may stand in a question.
takes_each_word() {
    local word
    for word in tick ipi wait spin gone idle held taken none 'rel=*' 'lost=*' 'run=*' 'ready=*' 'due=*' locked disabled latch suspended waits slp dly sem flg \
        sdtq rdtq mpf 'left=*' stopped 'pri=*' 'act=*' 'wup=*' 'count=*' 'pattern=*' 'values=*' 'free=*' 'held=*' end '*(TSK_SELF*' '*TWF_ANDW*' '*TWF_ORW*'; do
        play explore "$spin/machine.cfg" "$spin/scripts.txt" --ticks 0 --turns 2 --find "$word"
        case $? in
            0 | 5 | 6) is_beside && count yes explore --find "$word" || count no explore --find "$word" ;;
            *) count no explore --find "$word" ;;
        esac
    done
}

# named STATEMENT: a machine that has the names of the pages, with this statement for LOG
named() {
    local name
    printf '%s\n' 'PROCESSORS(2);' 'DEF_CLASS(ONE, 1, {1});' 'DEF_CLASS(TWO, 2, {2});' 'CLASS(ONE) {'
    for name in A B C T T1 T2 COMM LOGGER SERVER WORKER; do
        echo "CRE_TSK($name, {TA_NULL, 0, main, 10, 4096, NULL});"
    done
    printf '%s\n' "$1" 'CRE_SEM(BUS, {TA_NULL, 1, 1});' 'CRE_ALM(ALARM, {TA_NULL, 0, alarm});' 'CRE_SPN(L1, {TA_NULL});' \
        'CRE_SEM(S1, {TA_NULL, 0, 1});' 'CRE_DTQ(D1, {TA_NULL, 2, NULL});' 'CRE_MPF(MPF1, {TA_NULL, 2, 16, NULL, NULL});' '}'
}

# questions_of_the_pages: each question that the help, README and GUIDE show is one, on a machine that has the names in it, where LOG is a task or a data
# queue; and on one that has them not, one with a name is none.
questions_of_the_pages() {
    local question well machine
    named 'CRE_TSK(LOG, {TA_NULL, 0, main, 10, 4096, NULL});' > named.cfg
    named 'CRE_DTQ(LOG, {TA_NULL, 1, NULL});' > queue.cfg
    printf 'script main\nend\n' > main.txt
    play explore --help && cp output help.txt
    {
        # in commands, and the last cell of a row that says what can be
        cat help.txt "$top/README.md" "$top/README.ja.md" "$top/docs/GUIDE.md" | grep -oE -- "--find ('[^']*'|[a-z]+)" | sed -E "s/^--find //; s/^'(.*)'\$/\1/"
        grep -E '^\| (can|likewise|either) ' "$top/docs/GUIDE.md" | sed 's/ |$//; s/.* | //' | grep -oE '`[^`]+`' | tr -d '`' | grep -vxF -- --find
    } | sort -u > questions.txt
    well=no
    [ "$(wc -l < questions.txt)" -ge 20 ] && well=yes
    count "$well" explore '# questions in the pages'
    while IFS= read -r question; do
        well=no
        for machine in named.cfg queue.cfg; do
            play explore "$machine" main.txt --ticks any --turns 3 --find "$question"
            case $? in 0 | 5 | 6) well=yes ;; esac
        done
        count "$well" explore named.cfg main.txt --ticks any --turns 3 --find "$question"
    done < questions.txt
    run 1 /dev/null "$(as_file echo 'fmpsim: --find: byte 1: E3 unknown name')" explore named.cfg main.txt --ticks any --turns 3 --find 'T9 waits sem'
}

# are_counting EDIT: standard error has at least one line, this edit makes each of them two numbers, the second grows from line to line, from 1 on, and the first
# from the first line to the last, and falls nowhere: what is done between two lines may come to no place that is new.
are_counting() {
    sed -E "$1" errors | awk 'NF != 2 || $1 + 0 < places + 0 || $2 + 0 <= seconds + 0 { wrong = 1 } NR == 1 { first = $1 } { places = $1; seconds = $2 }
        END { exit wrong || NR == 0 || NR > 1 && places + 0 <= first + 0 }'
}

# counts_up EDIT WORD..: these words and --progress lead to such lines on standard error within three seconds, or on a busy machine within thirty
counts_up() {
    local patience
    for patience in 3 10 30; do
        timeout --preserve-status -s INT "$patience" "$program" "${@:2}" --progress < /dev/null > output 2> errors
        are_counting "$1" && return
    done
    return 1
}

# tells_how_far: at a terminal a search of more than a second tells how far it has come, and takes that away before its answer. A signal ends
# it with nothing written.
tells_how_far() {
    local folder=$top/examples/explore-philosophers words well=no
    words=(explore "$folder/machine.cfg" "$folder/scripts.txt" --ticks 1 --turns 100 --find E_PAR --places 400000)
    if type script > /dev/null 2>&1; then
        script -qec "$(printf '%q ' "$program" "${words[@]}")" /dev/null < /dev/null > output
        # of more places than there are lines in an order
        grep -qaE $'[0-9]+ places, line [0-9]+, [0-9]+ s\r\033\\[K(never|not within [0-9]+)\r$' output \
            && grep -aoE '[0-9]+ places, line [0-9]+' output | awk '$1 + 0 <= $4 + 0 { wrong = 1 } END { exit wrong }' && well=yes
        count "$well" "${words[@]}" '# at a terminal'
        well=no
        grep -qaE $'(^|\r\033\\[K)fmpsim: question: places left where one thing is not looked at, of the first 20000: ' output \
            && ! grep -qaE '[0-9] sfmpsim' output && well=yes
        count "$well" "${words[@]}" '# what holds it up, at a terminal'
    else
        left_out 'there is no command script' "${words[@]}"
    fi
    # here more places are to be found than there is time for
    words=(explore "$folder/machine.cfg" "$folder/scripts.txt" --ticks 900000 --turns 1000000 --find E_PAR --places 20000000)
    well=no
    timeout --preserve-status -s INT 1 "$program" "${words[@]}" < /dev/null > output 2> errors
    [ $? = 130 ] && [ ! -s output ] && [ ! -s errors ] && well=yes
    count "$well" "${words[@]}" '# and a signal'
    # where it is asked for, in lines that count up, of which the first stands there after a second
    well=no
    counts_up 's/^fmpsim: ([0-9]+) places, line [0-9]+, ([0-9]+) s$/\1 \2/' "${words[@]}" && well=yes
    count "$well" "${words[@]}" --progress '# on a pipe'
    words=(smp "$top/examples/scripted-spin-lock/machine.cfg" "$top/examples/scripted-spin-lock/scripts.txt" --ticks 1 --turns 100 --seeds 1..100000000 --find E_PAR)
    well=no
    timeout --preserve-status -s INT 3 "$program" "${words[@]}" < /dev/null > output 2> errors
    [ $? = 130 ] && [ ! -s output ] && [ ! -s errors ] && well=yes
    count "$well" "${words[@]}" '# on a pipe, not asked for'
    well=no
    counts_up 's/^fmpsim: at seed ([0-9]+), ([0-9]+) s$/\1 \2/' "${words[@]}" && well=yes
    count "$well" "${words[@]}" --progress '# on a pipe'
}

# takes_memory_for_places: room for a hundred million places takes no memory where there are few, and a search that has no memory for more of them says so: it has then gone through
# the orders of at least as many lines as one that has room for fewer places.
takes_memory_for_places() {
    local folder=$top/examples/explore-lock-order words=(--turns 1000000 --find E_PAR) well=no least more
    memory=40000 run 0 "$(as_file echo never)" /dev/null explore "$folder/machine.cfg" "$folder/scripts.txt" --ticks 0 "${words[@]}" --places 100000000
    folder=$top/examples/explore-philosophers
    words=(explore "$folder/machine.cfg" "$folder/scripts.txt" --ticks 900000 "${words[@]}")
    memory=12000 play "${words[@]}" --places 1000
    [ $? = 6 ] && least=$(sed -n 's/^not within \([0-9]*\)$/\1/p' output) && [ -n "$least" ] && well=yes
    count "$well" "${words[@]}" --places 1000 '# in the memory in which there is none for more'
    well=no
    memory=12000 play "${words[@]}" --places 100000000
    [ $? = 6 ] && is_beside && more=$(sed -n 's/^not within \([0-9]*\)$/\1/p' output) && [ "$(wc -l < output)" = 1 ] && [ "${more:--1}" -ge "${least:-0}" ] \
        && grep -qxE 'fmpsim: question: places found: [0-9]{4,}, all for which there was memory; lines to the farthest: [0-9]+' errors && well=yes
    count "$well" "${words[@]}" --places 100000000 '# in that memory'
}

# A search that ends after two seconds, and not before, says so of the lines that it has gone through, and leaves nothing to go on from. One that is done before says what it says
# without --seconds.
ends_in_time() {
    local folder=$top/examples/explore-philosophers words begun well lines option
    words=(explore "$folder/machine.cfg" "$folder/scripts.txt" --ticks 900000 --turns 1000000 --places 20000000 --seconds 2)
    for option in 'lost=*' 'end then 20 times P1 * tick taken'; do
        well=no begun=$SECONDS
        : > output
        play "${words[@]}" --find "$option"
        [ $? = 6 ] && lines=$(sed -n 's/^not within \([0-9]*\)$/\1/p' output) && [ "$(wc -l < output)" = 1 ] && [ "${lines:-1000000}" -lt 1000000 ] \
            && is_beside && [ $((SECONDS - begun)) -ge 1 ] && [ $((SECONDS - begun)) -lt 300 ] && well=yes
        count "$well" "${words[@]}" --find "$option"
    done
    # of what stays for ever, and from a trace
    well=no
    play explore "$folder/machine.cfg" "$folder/scripts.txt" --ticks any --drift 1000000 --turns 1000000 --places 20000000 --seconds 2
    [ $? = 6 ] && grep -qx 'not within [0-9]*' output && well=yes
    count "$well" explore --seconds 2 '# of what stays for ever'
    : > begun.trace
    well=no
    play "${words[@]}" --find 'lost=*' --from begun.trace
    [ $? = 6 ] && grep -qx 'not within [0-9]*' output && well=yes
    count "$well" explore --seconds 2 --from begun.trace
    folder=$top/examples/explore-lock-order
    run 5 "$folder/trace.txt" /dev/null explore "$folder/machine.cfg" "$folder/scripts.txt" --ticks 0 --turns 4 --find 'end & waits sem' --seconds 1000000
    run 0 "$(as_file echo never)" /dev/null explore "$folder/machine.cfg" "$folder/scripts.txt" --ticks 0 --turns 100 --find E_PAR --seconds 1000
    for option in 0 1000001 x ''; do
        well=no
        play explore "$folder/machine.cfg" "$folder/scripts.txt" --ticks 0 --turns 4 --find E_PAR --seconds "$option"
        [ $? = 2 ] && grep -q -- '--turns, --drift, --pace and --seconds are numbers from 1 to 1000000' errors && well=yes
        count "$well" explore --seconds "$option"
    done
}
