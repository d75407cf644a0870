# Thousands of events, and traces of a hundred lines and more: what is printed and kept for the first of them is for the last.

many_events() {
    local machine=$late/machine.cfg n
    # five thousand ticks change nothing but what the clock counts
    yes 'P1 tick' | head -n 5000 > ticks.txt
    seq 5000 | sed 's/$/ P1 T1 tick taken/' > ticks.trace
    seq 5000 | sed '5000s/$/ P1 T1 tick held/; 5000!s/$/ P1 T1 tick taken/' > wrong.trace
    run 0 ticks.trace /dev/null calls "$machine" ticks.txt
    run 0 "$(as_file echo yes)" /dev/null check --partial "$machine" ticks.trace
    run 0 /dev/null /dev/null check --all "$machine" ticks.trace
    run 5 "$(as_file echo no 5000)" /dev/null check --partial "$machine" wrong.trace
    run 5 "$(as_file printf '%s\n' '--- trace' '+++ machine' '@@ -5000,1 +5000,1 @@' '-5000 P1 T1 tick held' '+5000 P1 T1 tick taken')" /dev/null check --all "$machine" wrong.trace
    for n in calls view wave; do
        ends_well "$n"
    done
    # an activated task, and what is said of it at the end
    { head -n 4999 ticks.txt && echo 'P1 act_tsk(T2)'; } > late.txt
    run 0 "$(as_file printf '%s\n' '  T2 dormant' '5000 P1 T1 act_tsk(T2) E_OK ipi=2' '  T2 ready P2')" /dev/null calls --of T2 "$machine" late.txt
    shortened
    searched
}

# ends_well COMMAND: the last of five thousand events is told, with all that stands at the end.
ends_well() {
    local well=no
    case $1 in
        calls) play calls --state "$late/machine.cfg" ticks.txt && [ "$(tail -n 1 output)" = '  end' ] && grep -v '^ ' output | cmp -s - ticks.trace && well=yes ;;
        view) play view "$late/machine.cfg" ticks.trace && [ "$(tail -n 1 output)" = '</html>' ] && grep -qx '#5000' output && well=yes ;;
        wave) play wave "$late/machine.cfg" ticks.trace && grep -qx '#5000' output && well=yes ;;
    esac
    [ ! -s errors ] || well=no
    count "$well" "$1" '# five thousand events'
}

# Sixty thousand events are too many but for one of them.
shortened() {
    { yes 'P1 tick' | head -n 59999 && echo 'P1 act_tsk(T2)'; } > long.txt
    run 0 "$(as_file echo 'P1 act_tsk(T2)')" /dev/null shrink "$late/machine.cfg" long.txt --find 'act_tsk(T2)'
    yes 'P1 tick' | head -n 120 > some.txt
    run 0 some.txt /dev/null shrink "$late/machine.cfg" "$(as_file cat some.txt some.txt)" --find '120 times tick'
}

# A machine on which nothing but ticks can happen: the shortest order with 120 of them, from the start and from one of 110 lines; and a
# run of sixty thousand events.
searched() {
    local words=(explore idle.cfg none.txt --ticks any --turns 200)
    printf 'PROCESSORS(1);\n' > idle.cfg
    : > none.txt
    seq 120 | sed 's/$/ P1 - tick taken/' > many.trace
    head -n 110 many.trace > begun.txt
    run 5 many.trace /dev/null "${words[@]}" --find '120 times tick taken'
    run 5 many.trace /dev/null "${words[@]}" --find '120 times tick taken' --from begun.txt
    run 0 /dev/null /dev/null smp idle.cfg none.txt --ticks 60000 --turns 60001 --seeds 7..7 --find E_PAR
}
