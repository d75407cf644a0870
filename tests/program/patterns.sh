# Patterns of a question: none that some line has is refused, and one that no line has is, whichever command asks.

patterns() {
    local well=no fault
    if python3 "$top/tests/program/patterns.py" "$program" "$top" > output 2> errors && [ "$(tail -n 1 output)" -gt 10000 ]; then
        well=yes
    else
        cat output errors
    fi
    count "$well" shrink machine.cfg - '# patterns.py'
    fault=$(as_file echo 'fmpsim: --find: byte 4: E9 no such line')
    run 1 /dev/null "$fault" explore "$spin/machine.cfg" "$spin/scripts.txt" --ticks any --turns 9 --find 'P1 tick taken'
    run 1 /dev/null "$fault" explore "$spin/machine.cfg" "$spin/scripts.txt" --ticks any --turns 9 --find 'P1 tick taken for ever'
    run 1 /dev/null "$fault" smp "$spin/machine.cfg" "$spin/scripts.txt" --ticks 1 --turns 9 --seeds 0..1 --find 'P1 tick taken'
    run 1 /dev/null "$fault" shrink "$late/machine.cfg" - --find 'P1 tick taken'
    run 1 /dev/null "$(as_file echo '--find:1:4: error: E9 no such line')" shrink "$late/machine.cfg" - --find 'P1 tick taken' --diagnostics=gcc
    # an event that nobody could make is one in a list
    printf 'P1 get_tid()\n' > event.txt
    run 0 event.txt /dev/null shrink "$(as_file printf '%s\n' 'PROCESSORS(1);' 'DEF_CLASS(C, 1, {1});' 'CLASS(C) { CRE_TSK(T, {TA_NULL, 0, f, 1, 4096, NULL}); }')" event.txt --find 'P1 - get_tid() idle'
}
