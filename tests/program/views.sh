# The page of a trace. Of a trace that is not the machine's there is one only with its differences.

views() {
    local folder first='' exact=yes same=yes plain=yes
    for folder in "$top"/examples/*/; do
        [ -f "$folder/trace.txt" ] || continue
        play view "$folder/machine.cfg" "$folder/trace.txt"
        # the trace stands in it byte for byte, but for what is escaped, and all else of it is its own
        part_of output trace | cmp - "$folder/trace.txt" || exact=no
        frame_of output > frame
        [ -n "$first" ] || cp frame "${first:=first}"
        cmp frame first || same=no
    done
    count "$exact" view '# the trace in the page'
    count "$same" view '# head and tail'
    # the template stands in the program as it is, so it has none of these
    ! LC_ALL=C grep -q '["\\]' first && ! LC_ALL=C grep -q '[^ -~]' first || plain=no
    count "$plain" view '# bytes of the template'
    words_of_waits_and_answers
    every_value
    tags_in_fields
    sed '3s/taken/none/' "$late/trace.txt" > changed.txt
    run 5 /dev/null "$(as_file echo fmpsim: changed.txt: line 3 differs: see fmpsim check --show)" view "$late/machine.cfg" changed.txt
    printf '1 P1 T1 tick taken' > cut.txt
    run 1 /dev/null "$(as_file echo fmpsim: cut.txt: line 1: E6 cut short)" view "$late/machine.cfg" cut.txt
    run 1 /dev/null "$(as_file printf '%s\n' 'fmpsim: cut.txt: line 1: E6 cut short' '  1 P1 T1 tick taken' '                    ^' \
        '  End the last line with a line feed, and the last script with `end`.')" view --context "$late/machine.cfg" cut.txt
    run 1 /dev/null "$(as_file echo fmpsim: cut.txt: line 1: F1 syntax)" view cut.txt "$late/trace.txt"
    unread view missing "$late/trace.txt"
    unread view "$late/machine.cfg" missing
    unwritten view "$late/machine.cfg" "$late/trace.txt"
    half_a_page
    differences
    partial_traces
    in_a_browser
}

# words_of_waits_and_answers: what the page says of each kind of wait, as it is told in a state, and of each answer is what they mean.
words_of_waits_and_answers() {
    local word said well=yes
    while IFS='|' read -r word said; do
        grep -qF " $word: '$said'" first || { well=no && echo "$word: no $said"; }
    done << 'end of words'
slp|asleep
dly|delayed
sem|waits for semaphore
flg|waits for eventflag
sdtq|waits to send to
rdtq|waits to receive from
mpf|waits for a block of
E_OK|done
E_TMOUT|the time ran out
E_CTX|not allowed in this context
E_ID|no such object
E_PAR|an argument out of range
E_OBJ|not in this state of the object
E_QOVR|a count is at its limit
E_ILUSE|not used so
E_RLWAI|released by force
wait|the caller waits
spin|the lock is taken: tries again
gone|the caller ended
idle|nobody is there to make the call
held|held back, to be given again
end of words
    count "$well" view '# words of waits and answers'
}

# part_of PAGE NAME: the text of this name in a page, as a browser reads it.
part_of() {
    sed -n "/^<pre hidden id='$2'>\$/,/^<\/pre>\$/p" "$1" | sed '1d;$d;s/&lt;/</g;s/&amp;/\&/g'
}

# frame_of PAGE: a page without its texts.
frame_of() {
    sed "/^<pre hidden id='[a-z]*'>\$/,/^<\/pre>\$/d" "$1"
}

# A machine with objects of each kind, and what each event changes there, worked out by hand.
every_value() {
    local n=0 line told
    printf '%s\n' 'PROCESSORS(2);' 'TIMER(GLOBAL, 2);' 'DEF_CLASS(C, 1, {1, 2});' 'DEF_CLASS(M, 2, {2});' 'CLASS(C) {' \
        'CRE_TSK(T, {TA_ACT, 0, main, 3, 4096, NULL});' 'CRE_TSK(U, {TA_NULL, 0, main, 4, 4096, NULL});' \
        'CRE_SEM(S, {TA_NULL, 0, 2});' 'CRE_FLG(F, {TA_NULL, 5});' 'CRE_DTQ(D, {TA_NULL, 3, NULL});' \
        'CRE_MPF(B, {TA_NULL, 4, 16, NULL, NULL});' 'CRE_SPN(X, {TA_NULL});' '}' 'CLASS(M) {' \
        'CRE_CYC(Y, {TA_STA, 0, cyc, 1, 0});' 'CRE_ALM(A, {TA_NULL, 0, alm});' '}' > all.cfg
    printf '%s\n' 'view 1' 'processors 2' 'timer 2' 'task T 3' 'task U 4' 'sem S 2' 'flg F' 'dtq D 3' 'mpf B 4' 'cyc Y 1' 'alm A' 'spn X' > setup
    # an event, and the values behind it
    printf '%s\n' ': r1 1,r2 0,l1 -,l2 -,h1 -,h2 -,s1 r,s2 -,n1 0,n2 0,a1 1 3 0 0,a2 1 4 0 0,S1 0,F1 5,D1 0,M1 4,C1 2 @1,A1 0,X1 0' \
        'P1 sig_sem(S): S1 1' 'P1 act_tsk(U): s2 y,n2 1' 'P1 wup_tsk(U): a2 1 4 0 1' 'P1 clr_flg(F, 4): F1 4' \
        'P1 psnd_dtq(D, 7): D1 1' 'P1 get_mpf(B): M1 3' 'P1 loc_spn(X): l1 l,X1 1' 'P1 unl_spn(X): l1 -,X1 0' \
        'P1 sta_alm(A, 1): A1 2 @2' 'P1 chg_pri(U, 9): n2 2,a2 1 9 0 1' 'P1 tslp_tsk(5): r1 2,s1 w slp @6,s2 r' 'P1 dis_dsp(): l1 d' \
        'P2 tick: h2 C1,C1 2 @2' 'P1 loc_cpu(): l1 ld' 'P2 ret_hdr: h2 -' 'P2 tick: h2 A1;C1,C1 2 @3,A1 0' 'P1 unl_cpu(): l1 d' 'P1 ena_dsp(): l1 -' \
        'P2 iwup_tsk(T): l1 i,s1 y,n1 4' 'P1 ipi: r1 1,l1 -,s1 r,s2 y' 'P1 sus_tsk(U): s2 s' 'P1 act_tsk(U): a2 1 9 1 1' \
        'P1 act_tsk(U):' > steps
    : > changes
    while read -r line; do
        told=${line##*:}
        echo "#$((n++))" >> changes
        tr , '\n' <<< "${told# }" | tr ';' , | sed '/^$/d' >> changes
    done < steps
    sed 's/:[^:]*$//;/^$/d' steps > events.txt
    play calls all.cfg events.txt
    cp output trace.txt
    play view all.cfg trace.txt
    cp output all.html
    for part in setup changes; do
        part_of all.html $part > told
        diff $part told > differs && line=yes || { line=no && cat differs; }
        count "$line" view all.cfg "# its $part"
    done
}

# What no page has to know of a configuration is in none.
tags_in_fields() {
    local well=yes
    sed 's|main, 3, 4096, NULL|main, 3, "</pre><script>\&", NULL|' all.cfg > tags.cfg
    grep -q '</pre><script>&' tags.cfg || well=no
    run 0 all.html /dev/null view tags.cfg trace.txt
    count "$well" view tags.cfg
}

# The room on the disk is over behind half of a page.
half_a_page() {
    local well=yes
    play view "$late/machine.cfg" "$late/trace.txt"
    mv output whole
    (trap '' XFSZ && ulimit -f 32 && exec "$program" view "$late/machine.cfg" "$late/trace.txt") > half 2> errors
    [ $? = 3 ] && [ "$(wc -c < half)" = 32768 ] && head -c 32768 whole | cmp - half || well=no
    diff errors "$(as_file echo fmpsim: write failed)" || well=no
    count "$well" view '# half a page'
}

# A trace in which some lines were changed is shown as the machine would have it, and these lines stand there too.
differences() {
    local folder part edits well
    for folder in "$top"/examples/*/; do
        [ -f "$folder/trace.txt" ] || continue
        well=yes
        play view "$folder/machine.cfg" "$folder/trace.txt" || well=no
        mv output own.html
        # one that is the machine's own
        play view --differences "$folder/machine.cfg" "$folder/trace.txt" || well=no
        cmp output own.html && [ -z "$(part_of output given)" ] && [ ! -s errors ] || well=no
        # one whose first and last line have another answer
        sed -E '1s/ (taken|wait|E_OK)( |:|$)/ E_CTX\2/; $s/ (taken|wait|none|E_OK)( |:|$)/ E_RLWAI\2/' "$folder/trace.txt" > changed.txt
        cmp -s changed.txt "$folder/trace.txt" && well=no
        shown_instead "$folder/machine.cfg" "$folder/trace.txt" changed.txt || well=no
        count "$well" view --differences "$folder" '# the lines that differ'
    done
    # who called, what was released and who runs; and what a line tells that the machine's does not
    folder=$top/examples/producer-consumer
    for edits in '2s/CONSUMER/PRODUCER/' '7s/ ipi=1//' '9s/E_TMOUT/E_OK/;10s/13/14/;11s/:14/:13/' '14s/-/CONSUMER/;15s/ rel=.*//' \
        '1,$s/^\([0-9]* P[12]\) [^ ]*/\1 -/' '3,4s/$/ lost=-9223372036854775808/;10s/ lost=13//'; do
        well=no
        sed "$edits" "$folder/trace.txt" > changed.txt
        shown_instead "$folder/machine.cfg" "$folder/trace.txt" changed.txt && well=yes
        count "$well" view --differences "$folder" "# $edits"
    done
    # a text that cannot be read has its fault, also where an earlier line differs, and no page
    { sed '2s/CONSUMER/PRODUCER/' "$folder/trace.txt" && printf '16 P2 CONSUMER tick taken'; } > cut.txt
    run 1 /dev/null "$(as_file echo fmpsim: cut.txt: line 16: E6 cut short)" view --differences "$folder/machine.cfg" cut.txt
    run 1 /dev/null "$(as_file echo fmpsim: "$folder/machine.cfg": line 1: E2 bad word)" view --differences "$folder/machine.cfg" "$folder/machine.cfg"
    run 1 /dev/null "$(as_file printf '%s\n' 'fmpsim: cut.txt: line 16: E6 cut short' '  16 P2 CONSUMER tick taken' '                           ^' \
        '  End the last line with a line feed, and the last script with `end`.')" view --context --differences "$folder/machine.cfg" cut.txt
    run 1 /dev/null "$(as_file echo fmpsim: cut.txt: line 1: F1 syntax)" view --differences cut.txt "$folder/trace.txt"
    unread view --differences missing "$folder/trace.txt"
    play view "$folder/machine.cfg" "$folder/trace.txt" && mv output own.page
    from=$folder/trace.txt run 0 own.page /dev/null view --differences "$folder/machine.cfg" -
    unwritten view --differences "$folder/machine.cfg" changed.txt
    half_of_differences
}

# shown_instead CFG TRACE CHANGED: a page of the changed trace is the page of the trace, with its lines that are not those of the trace.
shown_instead() {
    local part
    play view "$1" "$2" || return
    mv output own.html
    play view --differences "$1" "$3"
    [ $? = 5 ] && [ ! -s errors ] || return
    for part in setup trace changes; do
        part_of output $part > told
        part_of own.html $part | cmp - told || return
    done
    awk 'NR == FNR { own[FNR] = $0; next } own[FNR] != $0 { print FNR " " $0 }' "$2" "$3" > wanted
    [ -s wanted ] && part_of output given | diff wanted - && cmp "$(as_file frame_of output)" "$(as_file frame_of own.html)"
}

# A partial trace is shown as the machine's own lines, in a right order within its bounds. Where the verdict is `no` only the differences have a page: up to
# that line, and beside it what the line says, with the rest as the machine answers.
partial_traces() {
    local folder line well
    for folder in "$late" "$top/examples/producer-consumer"; do
        play view "$folder/machine.cfg" "$folder/trace.txt"
        mv output own.html
        # of each line the number and who could make a call are left out, and all behind the answer
        sed -E 's/^[0-9]+ (P[0-9]+) [^ ]+ ((tick|ipi|ret_hdr|[a-z_]+\([^)]*\)) [^ ]+).*/\1 \2/' "$folder/trace.txt" > part.txt
        run 0 own.html /dev/null view --partial "$folder/machine.cfg" part.txt
        run 0 own.html /dev/null view --differences --partial "$folder/machine.cfg" part.txt
        { cat part.txt && echo ends 99; } > cut.txt
        run 6 own.html "$(as_file echo fmpsim: cut.txt: yes to 99)" view --partial "$folder/machine.cfg" cut.txt
    done
    printf '%s\n' 'PROCESSORS(2);' 'DEF_CLASS(C1, 1, {1, 2});' 'DEF_CLASS(C2, 2, {1, 2});' 'CLASS(C1) {' \
        'CRE_TSK(T1, {TA_ACT, 0, main1, 10, 4096, NULL});' 'CRE_SEM(S, {TA_NULL, 0, 1});' 'CRE_DTQ(D, {TA_NULL, 1, NULL});' '}' \
        'CLASS(C2) {' 'CRE_TSK(T2, {TA_ACT, 0, main2, 10, 4096, NULL});' '}' > two.cfg
    # the lines of a trace, those of the page, and what stands beside the last of these
    while IFS='|' read -r line own given; do
        tr ';' '\n' <<< "$line" > x.txt
        tr ';' '\n' <<< "$own" > wanted
        well=no
        play view --partial --differences two.cfg x.txt
        [ $? = 5 ] && [ ! -s errors ] && part_of output trace | diff wanted - && part_of output given | diff "$(as_file echo "$given")" - && well=yes
        count "$well" view --partial --differences two.cfg "# $line"
        run 5 /dev/null "$(as_file echo "fmpsim: x.txt: line $(wc -l < wanted) differs: see fmpsim check --partial --show")" view --partial two.cfg x.txt
    done << 'end of traces'
P2 pol_sem(S) E_OK by=2;P1 sig_sem(S) E_OK;P2 pol_sem(S) E_OK:*;P2 get_tid() ?|1 P1 T1 sig_sem(S) E_OK;2 P2 T2 pol_sem(S) E_OK;3 P2 T2 pol_sem(S) E_TMOUT|3 3 P2 T2 pol_sem(S) E_OK
P2 wai_sem(S) wait;P1 sig_sem(S) ? rel=T1:*|1 P2 T2 wai_sem(S) wait run=idle;2 P1 T1 sig_sem(S) E_OK rel=T2:E_OK ipi=2|2 2 P1 T1 sig_sem(S) E_OK rel=T1:E_OK ipi=2
P2 rcv_dtq(D) wait;P1 psnd_dtq(D, 5) E_OK rel=T2:E_OK:* run=T1|1 P2 T2 rcv_dtq(D) wait run=idle;2 P1 T1 psnd_dtq(D, 5) E_OK rel=T2:E_OK:5 ipi=2|2 2 P1 T1 psnd_dtq(D, 5) E_OK rel=T2:E_OK:5 run=T1 ipi=2
P2 rcv_dtq(D) wait;P1 psnd_dtq(D, 5) E_OK rel=T2:E_RLWAI:*|1 P2 T2 rcv_dtq(D) wait run=idle;2 P1 T1 psnd_dtq(D, 5) E_OK rel=T2:E_OK:5 ipi=2|2 2 P1 T1 psnd_dtq(D, 5) E_OK rel=T2:E_RLWAI ipi=2
P1 psnd_dtq(D, 5) E_OK;P1 fsnd_dtq(D, 6) E_OK lost=7|1 P1 T1 psnd_dtq(D, 5) E_OK;2 P1 T1 fsnd_dtq(D, 6) E_OK lost=5|2 2 P1 T1 fsnd_dtq(D, 6) E_OK lost=7
P2 - tick taken;P1 tick ?|1 P2 T2 tick taken|1 1 P2 - tick taken
end of traces
    unread view --partial two.cfg missing
    unwritten view --partial two.cfg "$(as_file echo P1 tick taken)"
}

# The room on the disk is over behind half of such a page.
half_of_differences() {
    local well=yes
    play view --differences "$folder/machine.cfg" changed.txt
    mv output whole
    (trap '' XFSZ && ulimit -f 32 && exec "$program" view --differences "$folder/machine.cfg" changed.txt) > half 2> errors
    [ $? = 3 ] && [ "$(wc -c < half)" = 32768 ] && head -c 32768 whole | cmp - half || well=no
    diff errors "$(as_file echo fmpsim: write failed)" || well=no
    count "$well" view --differences '# half a page'
}

# What a page tells in a browser is what `calls --state` writes, byte for byte, and it is drawn.
in_a_browser() {
    local folder well
    if ! command -v chromium > /dev/null; then
        left_out 'there is no chromium' view '# pages in a browser'
        return
    fi
    for folder in "$top"/examples/*/; do
        [ -f "$folder/trace.txt" ] || continue
        well=yes
        play view "$folder/machine.cfg" "$folder/trace.txt"
        mv output page.html
        sed -E 's/^[0-9]+ (P[0-9]+) [^ ]+ (tick|ipi|ret_hdr|[a-z_]+\([^)]*\)).*/\1 \2/' "$folder/trace.txt" > events.txt
        play calls --state "$folder/machine.cfg" events.txt
        browsed page.html '#states' | awk '/<body>/ { on = 1; sub(/.*<pre>/, "") } /<\/pre>/ { exit } on' > states
        diff states output > differs || { well=no && head differs; }
        count "$well" view "$folder" '# its states in a browser'
    done
    well=yes
    browsed page.html '#3' > drawn
    grep -q "data-shown=\"$(wc -l < "$folder/trace.txt")\"" drawn && grep -q '<h2>3 P' drawn || well=no
    count "$well" view "$folder" '# drawn in a browser'
    well=yes
    folder=$top/examples/producer-consumer
    sed '9s/E_TMOUT/E_OK/;12s/:16/:17/' "$folder/trace.txt" > changed.txt
    play view --differences "$folder/machine.cfg" changed.txt
    mv output page.html
    browsed page.html '#9' > drawn
    grep -q 'data-shown="15" data-differs="2"' drawn && grep -q '2 lines differ: 1 of 2' drawn && [ "$(grep -o 'class="row given[^<]*' drawn | grep -o 'Given: [^"]*')" \
        = $'Given: 9 P1 PRODUCER psnd_dtq(SAMPLES, 15) E_OK\nGiven: 12 P2 CONSUMER prcv_dtq(SAMPLES) E_OK:17' ] && grep -q 'given: .*<b>E_OK</b>' drawn || well=no
    count "$well" view --differences "$folder" '# drawn in a browser'
}
