# The numbers of `smp`: a seed of 64 bits gives its documented order, and all ticks and scripts that are asked for are played; with --late and --stalls
# it draws its documented one of all orders, and --seconds ends a search.

seeds() {
    local seed task rest
    printf 'PROCESSORS(2);\nDEF_CLASS(C1, 1, {1});\nDEF_CLASS(C2, 2, {2});\n' > two.cfg
    printf 'CLASS(C%d) { CRE_TSK(T%d, {TA_ACT, 0, main, 1, 4096, NULL}); }\n' 1 1 2 2 >> two.cfg
    { echo script main && yes 'get_pid()' | head -n 100 && echo end; } > two.txt
    # the lower 32 bits of the last two are one number
    for seed in 0 1 4294967295 18446744073709551615; do
        python3 "$top/tests/program/order.py" "$seed" 10 80 > "$seed.txt"
        run 6 "$seed.txt" /dev/null smp two.cfg two.txt --ticks 10 --turns 80 --seed "$seed"
    done
    # the only processor has nothing to do but its ticks
    printf 'PROCESSORS(1);\n' > idle.cfg
    : > none.txt
    seq 1001 | sed 's/$/ P1 - tick taken/' > ticks.txt
    run 0 ticks.txt /dev/null smp idle.cfg none.txt --ticks 1001 --turns 1002 --seed 18446744073709551615
    run 0 ticks.txt /dev/null smp idle.cfg none.txt --ticks 1001 --turns 1002
    # 64 tasks of one priority, each with a script of its own
    printf 'PROCESSORS(1);\nDEF_CLASS(C, 1, {1});\nCLASS(C) {\n' > many.cfg
    for task in {1..64}; do
        echo "CRE_TSK(T$task, {TA_ACT, 0, main$task, 1, 4096, NULL});" >> many.cfg
        printf 'script main%d\nget_tid()\nend\n' "$task" >> many.txt
        rest=T$((task + 1))
        [ "$task" != 64 ] || rest=idle
        printf '%d P1 T%d %s\n' $((2 * task - 1)) "$task" "get_tid() E_OK:$task" $((2 * task)) "$task" "ext_tsk() gone run=$rest" >> trace.txt
    done
    echo '}' >> many.cfg
    run 0 trace.txt /dev/null smp many.cfg many.txt --ticks 0 --turns 200 --seed 4294967296
    run 0 trace.txt /dev/null smp many.cfg many.txt --ticks 0 --turns 200
    seeds_in_a_row
    seeds_that_show
    seeds_that_draw
    seeds_in_time
}

# Many seeds one after the other. T1 and T2 take two semaphores, each the other one first, T2 after six other calls. They wait for each
# other where the first of T1 is taken before the second of T2, and the first of T2 before the second of T1: so where of the first
# eight numbers of the seed one alone is even, which is P1's turn. By another program these seeds are 21, 73, 101 and more.
seeds_in_a_row() {
    local words=(smp dead.cfg dead.txt --ticks 0 --turns) step line seed wrong well=no
    printf 'PROCESSORS(2);\nDEF_CLASS(C1, 1, {1});\nDEF_CLASS(C2, 2, {2});\n' > dead.cfg
    printf 'CLASS(C1) { CRE_TSK(T1, {TA_ACT, 0, one, 1, 4096, NULL}); CRE_SEM(A, {TA_NULL, 1, 1}); CRE_SEM(B, {TA_NULL, 1, 1}); }\n' >> dead.cfg
    printf 'CLASS(C2) { CRE_TSK(T2, {TA_ACT, 0, two, 1, 4096, NULL}); }\n' >> dead.cfg
    {
        printf 'script one\nwai_sem(A)\nwai_sem(B)\nsig_sem(B)\nsig_sem(A)\nend\nscript two\n'
        for step in {1..6}; do echo 'get_pid()'; done
        printf 'wai_sem(B)\nwai_sem(A)\nsig_sem(A)\nsig_sem(B)\nend\n'
    } > dead.txt
    line=0
    while read -r step; do echo "$((line += 1)) $step"; done > dead.trace << 'END'
P2 T2 get_pid() E_OK:2
P2 T2 get_pid() E_OK:2
P2 T2 get_pid() E_OK:2
P2 T2 get_pid() E_OK:2
P2 T2 get_pid() E_OK:2
P2 T2 get_pid() E_OK:2
P1 T1 wai_sem(A) E_OK
P2 T2 wai_sem(B) E_OK
P1 T1 wai_sem(B) wait run=idle
P2 T2 wai_sem(A) wait run=idle
END
    printf 'fmpsim: %s\n' 'T1 waits sem B' 'T2 waits sem A' > dead.waits
    { echo fmpsim: seed 21 && cat dead.waits; } > dead.errors
    run 7 dead.trace dead.errors "${words[@]}" 25 --seeds 0..99
    run 7 dead.trace dead.errors "${words[@]}" 25 --seeds 0..21 --strict
    run 7 dead.trace dead.errors "${words[@]}" 25 --seeds 21..21
    run 7 dead.trace dead.errors "${words[@]}" 10 --seeds 21..18446744073709551615
    from=dead.txt run 7 dead.trace dead.errors smp dead.cfg - --ticks 0 --turns 25 --seeds +20..21
    run 0 /dev/null /dev/null "${words[@]}" 25 --seeds 0..20
    run 0 /dev/null /dev/null "${words[@]}" 25 --seeds 22..72
    # a run at its limit of turns is none of these
    run 0 /dev/null /dev/null "${words[@]}" 9 --seeds 21..21
    run 0 /dev/null /dev/null smp idle.cfg none.txt --ticks 1 --turns 2 --seeds 18446744073709551615..18446744073709551615
    # the run of the seed alone is the same, and it is the first whose trace tells of no task that is gone
    run 0 dead.trace dead.waits "${words[@]}" 25 --seed 21
    run 7 dead.trace dead.waits "${words[@]}" 25 --seed 21 --strict
    for seed in {0..21}; do
        play "${words[@]}" 25 --seed "$seed"
        grep -q ' gone ' output || break
    done
    [ "$seed" = 21 ] && cmp output dead.trace && well=yes
    count "$well" "${words[@]}" 25 --seed '# the first seed, by trying each'
    # the seeds are wrong, or stand beside one
    for wrong in '5..4' 5 5.6 ..5 5.. 5..x 5..6..7 5..18446744073709551616 ''; do
        run 2 /dev/null "$(as_file echo 'fmpsim: --seeds: expected two numbers as in 0..999, the second not below the first, and no --seed')" "${words[@]}" 25 --seeds "$wrong"
    done
    run 2 /dev/null "$(as_file echo 'fmpsim: --seeds: expected two numbers as in 0..999, the second not below the first, and no --seed')" "${words[@]}" 25 --seeds 0..1 --seed 0
    unread smp dead.cfg missing --ticks 0 --turns 25 --seeds 0..99
    unwritten "${words[@]}" 25 --seeds 0..99
}

# Seeds up to the first whose run shows what a question asks. T1 waits for a hundred ticks, and three are given: where all of these come first,
# nothing can change any more at its call, though its wait counts ticks. So where the first three numbers of a seed are odd, which is the
# clock's place. By another program these seeds are 3, 11, 21 and more.
seeds_that_show() {
    local late='dly_tsk(100) wait & end' words=(smp wait.cfg wait.txt --ticks 3 --turns) seed calls line
    printf 'PROCESSORS(1);\nDEF_CLASS(C, 1, {1});\nCLASS(C) { CRE_TSK(T1, {TA_ACT, 0, main, 1, 4096, NULL}); }\n' > wait.cfg
    printf 'script main\ndly_tsk(100)\nend\n' > wait.txt
    printf '%s\n' '1 P1 T1 tick taken' '2 P1 T1 tick taken' '3 P1 T1 tick taken' '4 P1 T1 dly_tsk(100) wait run=idle' > wait.trace
    printf 'fmpsim: %s\n' 'seed 3, line 4' 'T1 waits dly left=101' > wait.errors
    run 5 wait.trace wait.errors "${words[@]}" 25 --seeds 0..99 --find "$late"
    run 5 wait.trace wait.errors "${words[@]}" 25 --seeds 3..3 --find "$late" --strict
    from=wait.txt run 5 wait.trace wait.errors smp wait.cfg - --ticks 3 --turns 25 --seeds 0..18446744073709551615 --find "$late"
    run 0 /dev/null /dev/null "${words[@]}" 25 --seeds 0..2 --find "$late"
    run 0 /dev/null /dev/null "${words[@]}" 25 --seeds 4..10 --find "$late"
    # the fourth number of seed 11 is even: with a tick more there is one left at the call, and with one less none
    run 0 /dev/null /dev/null smp wait.cfg wait.txt --ticks 4 --turns 25 --seeds 11..11 --find "$late"
    run 5 wait.trace "$(as_file sed 's/seed 3/seed 11/' wait.errors)" "${words[@]}" 25 --seeds 11..11 --find "$late"
    # the trace ends at the first line that shows it, and a run at its limit of turns may show it too
    run 5 "$(as_file head -n 3 wait.trace)" "$(as_file echo fmpsim: seed 3, line 3)" "${words[@]}" 25 --seeds 0..99 --find '3 times tick taken without dly_tsk(100)'
    run 5 "$(as_file head -n 2 wait.trace)" "$(as_file echo fmpsim: seed 3, line 2)" "${words[@]}" 25 --seeds 3..3 --find '2 times tick taken'
    run 5 "$(as_file head -n 1 wait.trace)" "$(as_file echo fmpsim: seed 3, line 1)" "${words[@]}" 25 --seeds 3..3 --find 'tick'
    run 5 "$(as_file head -n 3 wait.trace)" "$(as_file echo fmpsim: seed 3, line 3)" "${words[@]}" 3 --seeds 0..99 --find '3 times tick taken without dly_tsk(100)'
    # behind `end` nothing comes, but for ticks for which nothing waits
    run 0 /dev/null /dev/null "${words[@]}" 25 --seeds 0..99 --find 'end then *'
    run 5 "$(as_file head -n 2 ticks.txt)" "$(as_file echo fmpsim: seed 7, line 2)" smp idle.cfg none.txt --ticks 2 --turns 3 --seeds 7..9 --find 'end then *'
    # the two that wait for each other
    run 5 dead.trace "$(as_file sed 's/seed 21/&, line 10/' dead.errors)" smp dead.cfg dead.txt --ticks 0 --turns 25 --seeds 0..99 --find 'end & waits sem'
    run 5 "$(as_file head -n 9 dead.trace)" "$(as_file printf 'fmpsim: %s\n' 'seed 21, line 9' 'T1 waits sem B')" smp dead.cfg dead.txt --ticks 0 --turns 25 --seeds 21..21 --find 'waits sem'
    run 0 /dev/null /dev/null smp dead.cfg dead.txt --ticks 0 --turns 25 --seeds 22..72 --find 'end & waits sem'
    # the first seed whose first five calls are those of T2, by the documented order
    for seed in {0..99}; do
        python3 "$top/tests/program/order.py" "$seed" 10 80 > five.txt
        calls=$(grep -oE 'E_OK:[12]$' five.txt | head -n 5 | sort -u)
        [ "$calls" != E_OK:2 ] || break
    done
    line=$(grep -nE 'E_OK:2$' five.txt | sed -n '5s/:.*//p')
    run 5 "$(as_file head -n "$line" five.txt)" "$(as_file echo "fmpsim: seed $seed, line $line")" smp two.cfg two.txt --ticks 10 --turns 80 --seeds 0..99 --find '5 times E_OK:2 without E_OK:1'
    # faults of the question, behind those of the texts, and a question without seeds
    run 1 /dev/null "$(as_file echo 'fmpsim: --find: byte 1: E3 unknown name')" "${words[@]}" 25 --seeds 0..99 --find 'act_tsk(NOBODY)'
    run 1 /dev/null "$(as_file echo 'fmpsim: --find: byte 10: E2 bad word')" "${words[@]}" 25 --seeds 0..99 --find 'tick then'
    run 1 /dev/null "$(as_file echo 'fmpsim: wait.cfg: line 1: E1 bad byte')" smp wait.cfg wait.cfg --ticks 3 --turns 25 --seeds 0..99 --find 'tick then'
    run 2 /dev/null "$(as_file echo 'fmpsim: --find: expected --seeds too, as in --seeds 0..999')" "${words[@]}" 25 --find end
    run 2 /dev/null "$(as_file echo 'fmpsim: --find: expected --seeds too, as in --seeds 0..999')" "${words[@]}" 25 --seed 3 --find end
    unwritten "${words[@]}" 25 --seeds 0..99 --find "$late"
}

# At the first line of this seed's order the second processor begins to stand still, for this one line. At the second line the first one begins to, for
# ninety lines: the first number of the line behind a stall counts, too.
one_stall_after_another() {
    printf 'PROCESSORS(2);\nDEF_CLASS(C1, 1, {1});\nDEF_CLASS(C2, 2, {2});\n' > still.cfg
    printf 'CLASS(C%s) { CRE_TSK(T%s, {TA_ACT, 0, asks, 5, 4096, NULL}); }\n' 1 1 2 2 >> still.cfg
    printf 'script asks\nagain:\nget_tid()\ngoto again\nend\n' > still.txt
    { echo '1 P1 T1 get_tid() E_OK:1' && printf '%s P2 T2 get_tid() E_OK:2\n' 2 3 4; } > still.trace
    run 5 still.trace "$(as_file echo 'fmpsim: seed 128708, line 4')" smp still.cfg still.txt --ticks 0 --turns 4 --seeds 128708..128708 --stalls --find '4 times *'
}

# Seeds that draw one of all orders, by another program. Of sixty lines the last one is the first at which there were sixty events.
seeds_that_draw() {
    local words=(smp late.cfg late.txt --ticks 7 --turns) seed option options question sixty='60 times *'
    printf 'PROCESSORS(2);\nDEF_CLASS(C1, 1, {1});\nDEF_CLASS(C2, 2, {2});\n' > late.cfg
    printf 'CLASS(C1) { CRE_TSK(T1, {TA_ACT, 0, one, 5, 4096, NULL}); }\n' >> late.cfg
    printf 'CLASS(C2) { CRE_TSK(T2, {TA_ACT, 0, two, 5, 4096, NULL}); CRE_TSK(T3, {TA_NULL, 0, three, 1, 4096, NULL}); }\n' >> late.cfg
    { printf 'script one\nact_tsk(T3)\nend\nscript three\nend\nscript two\n' && yes 'get_pid()' | head -n 200 && echo end; } > late.txt
    for seed in 0 1 2 3 77 4294967295 18446744073709551615; do
        for options in late stalls 'late stalls'; do
            read -ra option <<< "$options"
            python3 "$top/tests/program/drawn.py" "$seed" 7 60 "${option[@]}" > drawn.txt
            run 5 drawn.txt "$(as_file echo "fmpsim: seed $seed, line 60")" "${words[@]}" 60 --seeds "$seed..$seed" "${option[@]/#/--}" --find "$sixty"
            # one line less is allowed, and then the question is not shown
            run 0 /dev/null /dev/null "${words[@]}" 59 --seeds "$seed..$seed" "${option[@]/#/--}" --find "$sixty"
        done
    done
    one_stall_after_another
    # the first seed in whose order T2 makes a call while the request is pending, which no order without --late has
    question='get_pid() E_OK:2 run=T3'
    for seed in {0..99}; do
        python3 "$top/tests/program/drawn.py" "$seed" 7 60 late > drawn.txt
        ! grep -q 'get_pid() E_OK:2 run=T3' drawn.txt || break
    done
    option=$(grep -n 'get_pid() E_OK:2 run=T3' drawn.txt)
    run 5 "$(as_file head -n "${option%%:*}" drawn.txt)" "$(as_file echo "fmpsim: seed $seed, line ${option%%:*}")" "${words[@]}" 60 --late --seeds 0..99 --find "$question"
    run 0 /dev/null /dev/null "${words[@]}" 60 --stalls --seeds 0..99 --find "$question"
    run 0 /dev/null /dev/null "${words[@]}" 60 --seeds 0..99 --find "$question"
    # without a question: the two tasks that wait for each other, in an order that ends there
    play smp dead.cfg dead.txt --ticks 0 --turns 25 --seeds 0..999 --late --stalls
    cp output drawn.trace
    head -n 1 errors > drawn.seed
    run 0 "$(as_file echo yes)" /dev/null check dead.cfg drawn.trace
    run 7 drawn.trace "$(as_file cat drawn.seed dead.waits)" smp dead.cfg dead.txt --ticks 0 --turns 25 --seeds 0..999 --late --stalls
    run 0 /dev/null /dev/null smp idle.cfg none.txt --ticks 1 --turns 2 --seeds 0..9 --late
    for option in --late --stalls '--seconds 3'; do
        read -ra options <<< "$option"
        run 2 /dev/null "$(as_file echo "fmpsim: ${option%% *}: expected --seeds too, as in --seeds 0..999")" "${words[@]}" 60 "${options[@]}"
        run 2 /dev/null "$(as_file echo "fmpsim: ${option%% *}: expected --seeds too, as in --seeds 0..999")" "${words[@]}" 60 --seed 3 "${options[@]}"
    done
    unwritten "${words[@]}" 60 --seeds 0..99 --late --find "$question"
}

# A search that ends after a second: at least one seed was played, nothing is written, and the last one is told. Where a machine is so busy that few were played
# by then, more seconds are given. One that is done before says what it says without --seconds.
seeds_in_time() {
    local words=(smp dead.cfg dead.txt --ticks 0 --turns 25 --seeds) last ended patience well=no
    for patience in 1 10 100; do
        : > output
        play smp wait.cfg wait.txt --ticks 3 --turns 25 --seeds 0..18446744073709551615 --find E_CTX --seconds "$patience"
        ended=$?
        last=$(sed -n 's/^fmpsim: ended by --seconds after seed \([0-9]*\)$/\1/p' errors)
        [ "$ended" = 6 ] && [ ! -s output ] && [ "$(wc -l < errors)" = 1 ] && [ -n "$last" ] || break
        [ "$last" -le 10 ] || { well=yes && break; }
    done
    count "$well" smp --seeds --seconds "$patience"
    run 6 /dev/null "$(as_file echo 'fmpsim: ended by --seconds after seed 22')" "${words[@]}" 22..72 --seconds 0
    run 0 /dev/null /dev/null "${words[@]}" 22..22 --seconds 0
    run 7 dead.trace dead.errors "${words[@]}" 21..99 --seconds 0
    run 7 dead.trace dead.errors "${words[@]}" 0..99 --seconds 1000
    run 0 /dev/null /dev/null "${words[@]}" 0..20 --seconds 1000
}
