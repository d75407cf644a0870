# Runs over 1 to 8 processors, and over machines with everything at its limit.

processors() {
    rings || return
    ticks_by_the_thousand
    limits 8 LOCAL 1000000
    limits 7 'GLOBAL, 7' 20000
}

# within SECONDS WORD..: runs the program on these words, and ends it where it takes longer, with 124.
within() {
    : > output
    timeout --foreground -k 10 "$1" "$program" "${@:2}" < /dev/null > output 2> errors
}

# Standard error has nothing but who waits at the end of a run.
only_waits() {
    ! grep -qvE '^fmpsim: T[0-9]+_*( suspended)? waits [a-z]+( .*)?$' errors
}

# ends SECONDS STATUS WORD..: the same, and that it ends so and tells no error.
ends() {
    local status
    within "$1" "${@:3}"
    status=$?
    [ "$status" = "$2" ] && only_waits || { echo "status $status in place of $2" && cat errors && return 1; }
}

# is_checked MACHINE: the trace in the file trace.txt is this machine's.
is_checked() {
    ends 900 0 check "$1" trace.txt && [ "$(cat output)" = yes ]
}

# write_ring N TIMER LOCK: a machine with a task and a cyclic handler of period 1 for each of N processors, and an alarm. A task wakes
# up that of the next processor and sleeps once, and its handler wakes it up, so that it ends once, in whatever order. Where LOCK is
# not `no` each of them first takes and leaves a spin lock.
write_ring() {
    local n=$1 timer=$2 lock=$3 p of=1
    {
        printf 'PROCESSORS(%d);\nTIMER(%s);\n' "$n" "$timer"
        for ((p = 1; p <= n; p++)); do
            printf 'DEF_CLASS(C%d, %d, {%d});\n' "$p" "$p" "$p"
        done
        echo 'CLASS(C1) { CRE_ALM(BELL, {TA_NULL, 0, bell}); CRE_SPN(LOCK, {TA_NULL}); }'
        for ((p = 1; p <= n; p++)); do
            [ "$timer" != LOCAL ] || of=$p
            printf 'CLASS(C%d) { CRE_TSK(T%d, {TA_ACT, 0, task%d, 10, 4096, NULL}); }\n' "$p" "$p" "$p"
            printf 'CLASS(C%d) { CRE_CYC(BEAT%d, {TA_STA, 0, beat%d, 1, 0}); }\n' "$of" "$p" "$p"
        done
    } > ring.cfg
    {
        for ((p = 1; p <= n; p++)); do
            echo "script task$p"
            [ "$p" != 1 ] || echo 'sta_alm(BELL, 1)'
            [ "$lock" = no ] || printf 'loc_spn(LOCK)\nunl_spn(LOCK)\n'
            printf 'wup_tsk(T%d)\nslp_tsk()\nend\nscript beat%d\n' $((p % n + 1)) "$p"
            [ "$lock" = no ] || printf 'iloc_spn(LOCK)\niunl_spn(LOCK)\n'
            printf 'iwup_tsk(T%d)\nend\n' "$p"
        done
        printf 'script bell\niwup_tsk(T%d)\nend\n' "$n"
    } > ring.txt
}

counted() {
    LC_ALL=C sort | uniq -c
}

# How often trace.txt has a tick that is taken, by its processor, the return of a cyclic handler, and what a task does once.
ring_told() {
    LC_ALL=C sed -nE -e 's/^[0-9]+ (P[0-9]) [^ ]+ tick taken( .*)?$/\1 tick/p' -e 's/^[0-9]+ P[0-9] (BEAT[0-9] ret_hdr) E_OK( .*)?$/\1/p' \
        -e 's/^[0-9]+ P[0-9] (T[0-9] wup_tsk\(T[0-9]\)) .*$/\1/p' -e 's/^[0-9]+ P[0-9] (T[0-9] ext_tsk\(\)) gone( .*)?$/\1/p' trace.txt |
        counted
}

# ring_wanted N TIMER TICKS: the same, as it is where a run of so many ticks ended quiet.
ring_wanted() {
    local n=$1 timer=$2 ticks=$3 p
    for ((p = 1; p <= n; p++)); do
        [ "$timer" != LOCAL ] && [ "$p" != 1 ] || yes "P$p tick" | head -n "$ticks"
        yes "BEAT$p ret_hdr" | head -n "$ticks"
        printf 'T%d wup_tsk(T%d)\nT%d ext_tsk()\n' "$p" $((p % n + 1)) "$p"
    done | counted
}

# is_quiet N TIMER TICKS: trace.txt is that of a run of such a ring that ended quiet.
is_quiet() {
    diff "$(as_file ring_wanted "$@")" "$(as_file ring_told)" && is_checked ring.cfg
}

# trace.txt came to its limit of turns since ticks were held and a lock was asked for again and again: the other lines are few.
is_spun() {
    [ "$(wc -l < trace.txt)" = "$turns" ] && [ "$(grep -vcE ' tick held$| i?loc_spn\(LOCK\) spin( |$)' trace.txt)" -lt 1000 ] &&
        is_checked ring.cfg
}

# ring N TIMER LOCK WORD..: a run of this ring with these words. By a seed it ends quiet; in threads it may also spin. Fails where the
# run had to be ended, so that no other one is waited for.
ring() {
    local words=(smp ring.cfg ring.txt --ticks 5 --turns "$turns" "${@:4}") status well=no
    within 600 "${words[@]}"
    status=$?
    mv output trace.txt
    case $status in
        0) [ ! -s errors ] && is_quiet "$1" "$2" 5 && quiet=$((quiet + 1)) && well=yes ;;
        6) only_waits && [ "$#" = 3 ] && is_spun && well=yes ;;
    esac
    count "$well" "${words[@]}" "# $1 processors, TIMER($2), $3 lock: status $status"
    [ "$status" -lt 124 ]
}

# Each ring in threads and in the order of seeds. In threads three runs are made, or more of them until one ends quiet: where other
# programs keep the machine busy, the clock may come to the limit of turns while it waits for a processor.
rings() {
    local most=20 turns=100000 n timer seed quiet tries well
    for n in {1..8}; do
        for timer in LOCAL 'GLOBAL, 1'; do
            write_ring "$n" "$timer" no
            quiet=0 well=no
            for ((tries = 0; tries < 3 || quiet == 0 && tries < most; tries++)); do
                ring "$n" "$timer" no || return
            done
            [ "$quiet" = 0 ] || well=yes
            count "$well" smp ring.cfg ring.txt "# $n processors, TIMER($timer): a run in threads ends quiet"
            for seed in 0 1 5 9223372036854775808 18446744073709551615; do
                ring "$n" "$timer" no --seed "$seed" || return
            done
            write_ring "$n" "$timer" a
            ring "$n" "$timer" a && ring "$n" "$timer" a --seed 2 && ring "$n" "$timer" a --seed 18446744073709551615 || return
        done
    done
}

# As many ticks are taken as are asked for.
ticks_by_the_thousand() {
    local words=(smp ring.cfg ring.txt --ticks 1001 --turns 1000000 --seed 6) timer well
    for timer in LOCAL 'GLOBAL, 1'; do
        well=no
        write_ring 3 "$timer" no
        ends 600 0 "${words[@]}" && mv output trace.txt && is_quiet 3 "$timer" 1001 && well=yes
        count "$well" "${words[@]}" "# TIMER($timer)"
    done
}

# named LETTER NUMBER: makes $name a name of 64 bytes.
named() {
    printf -v name '%-64s' "$1$2"
    name=${name// /_}
}

# created STATEMENT LETTER NUMBER FIELDS: creates an object of such a name. In the fields MAIN is its function, which has the same name.
created() {
    local name
    named "$2" "$3"
    printf '  CRE_%s(%s, {%s});\n' "$1" "$name" "${4/MAIN/$name}"
}

# write_limits N TIMER: a machine of N processors with 32 classes, 64 tasks and 32 of each other object. Class k begins on processor
# k, or k modulo N. Task k is of class k, or k - 32, and handler k of class k, or under a global timer of class N, which has the last
# processor alone.
write_limits() {
    local n=$1 timer=$2 k of=$1 list name
    {
        printf 'PROCESSORS(%d);\nTIMER(%s);\nLIMITS(255, 32);\n' "$n" "$timer"
        for k in {1..32}; do
            list=$(seq -s ', ' "$n")
            [ "$timer" = LOCAL ] || [ "$k" != "$n" ] || list=$n
            named C "$k"
            printf 'DEF_CLASS(%s, %d, {%s});\n' "$name" $(((k - 1) % n + 1)) "$list"
        done
        for k in {1..64}; do
            named C $(((k - 1) % 32 + 1))
            echo "CLASS($name) {"
            created TSK T "$k" 'TA_ACT, 0, MAIN, 32, 4096, NULL'
            echo '}'
        done
        for k in {1..32}; do
            [ "$timer" != LOCAL ] || of=$k
            named C "$of"
            echo "CLASS($name) {"
            created SEM S "$k" 'TA_TPRI, 65535, 65535'
            created FLG F "$k" 'TA_TPRI|TA_WMUL|TA_CLR, 4294967295'
            created DTQ D "$k" 'TA_TPRI, 1024, NULL'
            created MPF M "$k" 'TA_TPRI, 64, 8, NULL, NULL'
            created SPN L "$k" TA_NULL
            created CYC Y "$k" "TA_STA, 0, MAIN, $((1000 + k)), 0"
            created ALM A "$k" 'TA_NULL, 0, MAIN'
            echo '}'
        done
    } > limits.cfg
}

# write_script LETTER NUMBER FORM..: the script of the function of such a name, with the most steps that there may be, by the forms in
# turn. In a form NAME is a name of the letter before it, another one at every second step.
write_script() {
    local k=$2 forms=("${@:3}") form step last name
    named "$1" "$k"
    echo "script $name"
    for step in {0..255}; do
        form=${forms[step % ${#forms[@]}]} last=32
        [[ $form != T* ]] || last=64
        named "${form%% *}" $(((k + step / 2) % last + 1))
        form=${form#* }
        echo "  ${form/NAME/$name}"
    done
    echo end
}

# A script for each function that there may be: of tasks that go on for ever, and of handlers, with calls on all objects.
write_limit_scripts() {
    local k
    for k in {1..64}; do
        write_script T "$k" 'S pol_sem(NAME)' 'S sig_sem(NAME)' 'F set_flg(NAME, 4294967295)' 'F pol_flg(NAME, 0x80000000, TWF_ORW)' \
            'D psnd_dtq(NAME, -9223372036854775808)' 'D psnd_dtq(NAME, 1)' 'D fsnd_dtq(NAME, 9223372036854775807)' 'D prcv_dtq(NAME)' \
            'M pget_mpf(NAME)' 'M rel_mpf(NAME, 0)' 'L loc_spn(NAME)' 'L unl_spn(NAME)' 'T wup_tsk(NAME)' 'T tslp_tsk(3)' \
            'A sta_alm(NAME, 40)' 'T act_tsk(TSK_SELF)'
    done
    for k in {1..32}; do
        write_script Y "$k" 'T iwup_tsk(NAME)' 'S isig_sem(NAME)' 'F iset_flg(NAME, 1)' 'D ipsnd_dtq(NAME, 7)'
        write_script A "$k" 'T iact_tsk(NAME)' 'T irot_rdq(32)' 'T iget_tid()' 'D ifsnd_dtq(NAME, 8)'
    done
}

# meets PROCESSOR RUNNER EVENT ANSWER: one more event, and its line of the trace.
meets() {
    echo "P$1 $3" >&3
    echo "$((line += 1)) P$1 $2 $3 $4" >&4
}

# meet_limits N TIMER: events on such a machine that come to its limits one after the other, and their trace. At the end all handlers
# of the last processor are due at once, the alarms first. Makes $due the line of that processor's state.
meet_limits() {
    local n=$1 timer=$2 line=0 task name letter k ready='' handlers=''
    named T 1
    task=$name
    named D 1
    for k in {1..1024}; do
        meets 1 "$task" "psnd_dtq($name, $k)" E_OK
    done
    meets 1 "$task" "psnd_dtq($name, 0)" E_TMOUT
    meets 1 "$task" "fsnd_dtq($name, 0)" 'E_OK lost=1'
    named T 2
    for k in {1..255}; do
        meets 1 "$task" "wup_tsk($name)" E_OK
    done
    meets 1 "$task" "wup_tsk($name)" E_QOVR
    named M 32
    for k in {0..63}; do
        meets 1 "$task" "pget_mpf($name)" "E_OK:$k"
    done
    meets 1 "$task" "pget_mpf($name)" E_TMOUT
    named S 32
    meets 1 "$task" "sig_sem($name)" E_QOVR
    named F 32
    meets 1 "$task" "pol_flg($name, 4294967295, TWF_ANDW)" E_OK:4294967295
    named T 64
    meets 1 "$task" "chg_pri($name, 33)" E_PAR
    meets 1 "$task" "get_pri($name)" E_OK:32
    for k in {1..32}; do
        named A "$k"
        meets 1 "$task" "sta_alm($name, 0)" E_OK
    done
    for k in {1..64}; do
        named T "$k"
        [ $((((k - 1) % 32) % n + 1)) != "$n" ] || ready+=,$name
    done
    named T "$n"
    meets "$n" "$name" tick taken
    for letter in A Y; do
        for k in {1..32}; do
            named "$letter" "$k"
            [ "$timer" = LOCAL ] && [ $(((k - 1) % n + 1)) != "$n" ] || handlers+=,$name
        done
    done
    for name in ${handlers//,/ }; do
        meets "$n" "$name" ret_hdr E_OK
    done
    named T "$n"
    due="  P$n run=$name ready=${ready#,"$name",} due=${handlers#,}"
} 3> limits.events 4> limits.told

# limits N TIMER TURNS: all commands on a machine with everything at its limit, and a run of so many turns by its scripts.
limits() {
    local due well=no
    write_limits "$1" "$2"
    write_limit_scripts > limits.txt
    meet_limits "$1" "$2"
    run 0 limits.told /dev/null calls limits.cfg limits.events
    run 0 "$(as_file echo yes)" /dev/null check limits.cfg limits.told
    states_at_limits "$1"
    differences_at_limits
    { echo '# At the limits.' && echo '--- machine.cfg' && cat limits.cfg && echo '--- events' && cat limits.events; } > limits.test
    python3 "$top/tests/program/waves.py" "$program" limits.test > drawn 2>&1 && well=yes
    [ "$well" = yes ] || cat drawn
    count "$well" wave limits.cfg limits.told '# read by waves.py'
    turns_at_limits --turns "$3" --seed 18446744073709551615
    turns_at_limits --turns 20000
    others_at_limits
    searches_at_limits
}

# states_at_limits N: the trace with states has a line for each processor at boot and behind each event, and where all handlers are
# due that line says so. Without these lines it is the trace.
states_at_limits() {
    local well=no
    ends 600 0 calls --state limits.cfg limits.events && grep -v '^ ' output | cmp - limits.told && grep -qxF "$due" output &&
        [ "$(grep -c '^  P[0-9] run=' output)" = $(($1 * ($(wc -l < limits.told) + 1))) ] && well=yes
    count "$well" calls --state limits.cfg limits.events
}

# The line that is one value too many for a data queue, as it were if it had a place.
differences_at_limits() {
    local right wrong
    right=$(sed -n 1025p limits.told)
    wrong=${right/E_TMOUT/E_OK}
    sed "1025s/E_TMOUT/E_OK/" limits.told > wrong.txt
    "$program" calls --state limits.cfg limits.events | sed -n '/^1024 /,/^  end/{/^  /p}' > before
    run 5 "$({ echo no 1025; cat before; printf '%s\n' "- $wrong" "+ $right"; } | as_file)" /dev/null check --show limits.cfg wrong.txt
    run 5 "$(as_file printf '%s\n' '--- trace' '+++ machine' '@@ -1025,1 +1025,1 @@' "-$wrong" "+$right")" /dev/null check --all limits.cfg wrong.txt
}

# events_of TRACE: the events of its lines. A regular expression took ten times as long for them as the run itself.
events_of() {
    LC_ALL=C awk '{
        at = length($1) + length($2) + length($3) + 4
        print $2, index($4, "(") ? substr($0, at, index($0, ")") - at + 1) : $4
    }' "$1"
}

# turns_at_limits --turns TURNS WORD..: a run by the scripts comes to this limit, its trace is the machine's, and `calls` answers its
# events with the same trace. That of a million turns has over 100 MB.
turns_at_limits() {
    local words=(smp limits.cfg limits.txt --ticks 1000000 "$@") well=no
    ends 900 6 "${words[@]}" && mv output trace.txt && [ "$(wc -l < trace.txt)" = "$2" ] && is_checked limits.cfg &&
        events_of trace.txt > events.txt &&
        ends 900 0 calls limits.cfg events.txt && cmp output trace.txt && well=yes
    count "$well" "${words[@]}"
}

# All other commands of a trace or of events. A configuration is listed with a line for each thing: of statements that stand alone three, 32
# classes, 64 tasks, 32 of each of seven kinds of objects, and 128 functions.
others_at_limits() {
    local well=no words all
    run 0 "$(as_file echo yes)" /dev/null check --partial limits.cfg limits.told
    within 900 view limits.cfg limits.told && [ "$(tail -n 1 output)" = '</html>' ] && [ ! -s errors ] && well=yes
    count "$well" view limits.cfg limits.told
    well=no
    within 900 view --differences limits.cfg wrong.txt
    [ $? = 5 ] && [ "$(tail -n 1 output)" = '</html>' ] && [ ! -s errors ] && well=yes
    count "$well" view --differences limits.cfg wrong.txt
    well=no
    within 900 list limits.cfg && [ "$(wc -l < output)" = 675 ] && [ "$(grep -c '^class ' output)" = 32 ] &&
        [ "$(grep -c '^field ' output)" = 224 ] && [ ! -s errors ] && well=yes
    count "$well" list limits.cfg
    # the life of everything that has one: all of it at boot, and then the trace's lines that change some of it
    all=$(sed -nE 's/^ *CRE_[A-Z]{3}\(([A-Za-z0-9_]+),.*/\1/p' limits.cfg | paste -sd,)
    well=no
    within 900 calls --of "$all" limits.cfg limits.events && [ "$(sed '/^1 /,$d' output | wc -l)" = 288 ] && [ ! -s errors ] \
        && ! grep -vE '^( .*)?$' output | grep -E '^[0-9]' | grep -vxFf limits.told && well=yes
    count "$well" calls --of all limits.cfg limits.events
    # of all events one alone asks for a priority out of range
    run 0 "$(as_file grep 'chg_pri(.*, 33)' limits.events)" /dev/null shrink limits.cfg limits.events --find 'chg_pri(*) E_PAR'
}

# Searches by the scripts, and the last seeds there are. The first call of the first task polls the second semaphore, and each call names
# an object that is there.
searches_at_limits() {
    local words=(limits.cfg limits.txt --ticks 1) last=18446744073709551615 seed name task line well=no
    named T 1
    task=$name
    named S 2
    echo "1 P1 $task pol_sem($name) E_OK" > first.txt
    # within one line a script comes to its first call at most: how many places there are, the next eight calls of one script, and how many more
    play explore "${words[@]}" --turns 1 --find E_ID
    [ $? = 6 ] && [ "$(cat output)" = 'not within 1' ] && [ "$(wc -l < errors)" = 10 ] &&
        [ "$(grep -cE '^fmpsim: question: no order of at most 1 lines makes call [2-9] of ' errors)" = 8 ] && well=yes
    count "$well" explore "${words[@]}" --turns 1 --find E_ID
    run 5 first.txt /dev/null explore "${words[@]}" --turns 1 --find "$task pol_sem($name) E_OK"
    run 6 "$(as_file echo not within 2)" /dev/null explore "${words[@]}" --turns 2 --find E_ID --from first.txt
    run 0 /dev/null /dev/null smp "${words[@]}" --turns 2000 --seeds 18446744073709551614..$last --find E_ID
    for seed in 18446744073709551614 $last; do
        # up to the first line with the answer, where the run of the seed is cut off by its turns
        play smp "${words[@]}" --turns 2000 --seed "$seed"
        line=$(grep -n -m 1 -w E_OK output | cut -d : -f 1)
        play smp "${words[@]}" --turns "$line" --seed "$seed"
        mv output seed.trace && mv errors seed.waits
        run 5 seed.trace "$({ echo "fmpsim: seed $seed, line $line" && cat seed.waits; } | as_file)" smp "${words[@]}" --turns 2000 --seeds "$seed..$last" --find E_OK
    done
}
