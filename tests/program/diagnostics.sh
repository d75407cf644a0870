# Fault lines as compilers write them, with --diagnostics=gcc.

diagnostics() {
    local machine=$late/machine.cfg told='events.txt:2:12: error: E3 unknown name'
    local task='  task: its name, TSK_SELF for 0, or a number of 32 bits with a sign'
    write_again
    printf 'P1 tick\nP1 act_tsk(T9)\n' > events.txt
    echo 1 P1 T1 tick taken > tick.txt
    run 1 tick.txt "$(as_file echo "$told")" calls --diagnostics=gcc "$machine" events.txt
    run 1 tick.txt "$(as_file echo "$told")" --diagnostics=plain calls "$machine" events.txt --diagnostics=gcc
    run 1 tick.txt "$(as_file printf '%s\n' "$told" '  P1 act_tsk(T9)' '             ^' '  expected: act_tsk(task)' "$task")" \
        --diagnostics=gcc calls --context "$machine" events.txt
    run 1 tick.txt "$(as_file echo fmpsim: events.txt: line 2: E3 unknown name)" calls --diagnostics=plain "$machine" events.txt
    from=events.txt run 1 tick.txt "$(as_file echo '-:2:12: error: E3 unknown name')" calls "$machine" - --diagnostics=gcc
    run 1 /dev/null "$(as_file echo "$told")" shrink "$machine" events.txt --find tick --diagnostics=gcc
    printf 'script main\nact_tsk(T9)\nend\n' > name.txt
    run 1 /dev/null "$(as_file echo name.txt:2:9: error: E3 unknown name)" smp again.cfg name.txt --ticks 0 --turns 1 --diagnostics=gcc
    run 1 /dev/null "$(as_file echo name.txt:2:9: error: E3 unknown name)" explore again.cfg name.txt --ticks 0 --turns 1 --find end --diagnostics=gcc
    traces_and_questions
    configurations
    differences_and_waits
    run 3 /dev/null "$(as_file printf 'fmpsim: read failed\n  missing: No such file or directory (os error 2)\n')" --diagnostics=gcc calls missing events.txt
    run 2 /dev/null "$(as_file echo 'fmpsim: --diagnostics: expected plain or gcc, as in --diagnostics=gcc')" calls --diagnostics=json "$machine" events.txt
    run 2 /dev/null "$(as_file echo 'fmpsim: --diagnostics: expected plain or gcc, as in --diagnostics=gcc')" calls --diagnostics gcc "$machine" events.txt
    run 0 "$late/trace.txt" /dev/null calls --diagnostics=gcc "$machine" "$late/events.txt"
}

# A trace, one that leaves out parts, and a question, which is the one line of no file.
traces_and_questions() {
    printf '1 P1 T1 tick taken' > cut.txt
    run 1 /dev/null "$(as_file echo cut.txt:1:19: error: E6 cut short)" check "$machine" cut.txt --diagnostics=gcc
    printf '1 P1 T1 tick taken\n2 P1 T1 tack taken\n' > word.txt
    run 1 /dev/null "$(as_file echo word.txt:2:9: error: E2 bad word)" check --all "$machine" word.txt --diagnostics=gcc
    run 1 /dev/null "$(as_file echo word.txt:2:9: error: E2 bad word)" wave "$machine" word.txt --diagnostics=gcc
    run 1 /dev/null "$(as_file echo word.txt:2:9: error: E2 bad word)" check --partial "$machine" word.txt --diagnostics=gcc
    printf 'P1 tick taken\nP1 tick ? by=1\n' > bound.txt
    run 1 /dev/null "$(as_file echo bound.txt:2:11: error: E2 bad word)" check --partial "$machine" bound.txt --diagnostics=gcc
    run 1 /dev/null "$(as_file echo '--find:1:10: error: E2 bad word')" shrink "$machine" "$late/events.txt" --find 'tick then' --diagnostics=gcc
}

# The first line of a trace that is not the machine's, and the script of each task that waits at the end.
differences_and_waits() {
    local machine=$late/machine.cfg dead=$top/examples/explore-lock-order words heads told
    sed '5s/E_OK/E_ID/; 7s/E_OK/E_ID/' "$late/trace.txt" > other.txt
    told=$(as_file echo "other.txt:5: error: this line is not the machine's")
    run 5 "$(as_file echo no 5)" "$told" check --diagnostics=gcc "$machine" other.txt
    run 5 "$(as_file echo no 5)" /dev/null check "$machine" other.txt
    run 5 "$(as_file echo no 5)" "$told" check --partial --diagnostics=gcc "$machine" other.txt
    run 5 /dev/null "$told" wave --diagnostics=gcc "$machine" other.txt
    run 5 /dev/null "$told" view --diagnostics=gcc "$machine" other.txt
    run 5 /dev/null "$(as_file echo 'fmpsim: other.txt: line 5 differs: see fmpsim check --show')" view --diagnostics=plain "$machine" other.txt
    run 0 "$(as_file echo yes)" /dev/null check --diagnostics=gcc "$machine" "$late/trace.txt"
    # each of the two takes one of two semaphores, and waits for the other
    cp "$dead/scripts.txt" dead.txt
    words=(smp "$dead/machine.cfg" dead.txt --ticks 0 --turns 100 --diagnostics=gcc)
    heads=$(grep -nE 'script (reader|writer)$' dead.txt | cut -d: -f1 | paste -sd' ')
    play smp "$dead/machine.cfg" dead.txt --ticks 0 --turns 100 --seeds 0..99 --strict
    cp output dead.trace && head -n 1 errors > dead.seed
    # shellcheck disable=SC2086
    printf 'dead.txt:%d: error: READER waits sem BUFFER\ndead.txt:%d: error: WRITER waits sem FLASH\n' $heads > dead.errors
    run 7 dead.trace "$(as_file cat dead.seed dead.errors)" "${words[@]}" --seeds 0..99
    local seed
    read -r _ _ seed < dead.seed
    run 7 dead.trace dead.errors "${words[@]}" --seed "$seed" --strict
    run 0 dead.trace "$(as_file sed 's/error/warning/' dead.errors)" "${words[@]}" --seed "$seed"
    # from standard input likewise, and no script is looked for in a file that is called so
    sed 's/dead.txt:\([0-9]*\): error/-:\1: warning/' dead.errors > input.errors
    from=dead.txt run 0 dead.trace input.errors "${words[@]/dead.txt/-}" --seed "$seed"
    { echo && cat dead.txt; } > ./-
    from=dead.txt run 0 dead.trace input.errors "${words[@]/dead.txt/-}" --seed "$seed"
    rm ./-
}

# The place of the token at fault, or of what is missing before it; the line alone where there is no token; and no line at all.
configurations() {
    printf 'PROCESSORS(1);\nDEF_CLASS(C, 1, {1});\nCLASS(C) { CRE_SEM(S, {TA_NULL, 0, 0}); }\n' > number.cfg
    run 1 /dev/null "$(as_file echo number.cfg:3:36: error: F7 value out of range)" check --diagnostics=gcc number.cfg "$late/trace.txt"
    printf 'PROCESSORS(1);\n  CRE_MTX(M, {TA_NULL, 1});\n' > word.cfg
    run 1 /dev/null "$(as_file echo word.cfg:2:3: error: F3 unsupported API CRE_MTX)" list word.cfg --diagnostics=gcc
    printf 'PROCESSORS(1)\n\nDEF_CLASS(C, 1, {1});\n' > open.cfg
    run 1 /dev/null "$(as_file echo fmpsim: open.cfg: line 3: F1 syntax DEF_CLASS)" list open.cfg
    run 1 /dev/null "$(as_file echo open.cfg:1:14: error: F1 syntax DEF_CLASS)" list open.cfg --diagnostics=gcc
    printf 'PROCESSORS(1);\n/* a' > comment.cfg
    run 1 /dev/null "$(as_file echo comment.cfg:2: error: F2 cut short)" list comment.cfg --diagnostics=gcc
    { echo 'DEF_CLASS(C, 1, {1});' && yes '' | head -c 1048576; } > over.cfg
    run 1 /dev/null "$(as_file echo over.cfg: error: F9 too many)" list over.cfg --diagnostics=gcc
}
