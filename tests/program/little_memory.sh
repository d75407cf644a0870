# Each kind of run in more and more room for memory, from the least in which the program starts to one in which it does all.

# The program of Rattle's own compiler is of the same text and library and asks for the same memory, so its 200 runs would say nothing
# more.
little_memory() {
    local least=2000 rooms
    if [ "$kind" = by-rattle ]; then
        left_out 'its memory is not what is tried' '# five runs in little memory'
        return
    fi
    # what the system's loader has no room for ends with 127 or by a signal
    until { memory=$least play --help; } 2> /dev/null || [ $? = 4 ]; do
        least=$((least + 25))
        ((least < 100000)) || { count no --help '# in no room does it start' && return; }
    done
    mapfile -t rooms < "$({ seq "$least" 25 $((least + 1000)) && echo 100000; } | as_file)"
    echo yes > verdict.txt
    # the last line of these events is longer than most of the rooms
    { cat "$late/events.txt" && head -c 2000000 /dev/zero | tr '\0' '#'; } > line.txt
    starved "$late/trace.txt" calls "$late/machine.cfg" "$late/events.txt"
    starved verdict.txt check "$late/machine.cfg" "$late/trace.txt"
    starved "$spin/trace.txt" smp "$spin/machine.cfg" "$spin/scripts.txt" --ticks 1 --turns 100 --seed 11
    starved "$late/trace.vcd" wave "$late/machine.cfg" "$late/trace.txt"
    starved "$late/trace.gtkw" wave --gtkw "$late/machine.cfg"
    starved "$late/trace.txt" calls "$late/machine.cfg" line.txt
}

# starved TEXT WORD..: in each of the $rooms the run of these words writes this text, or whole lines of its beginning and that
# memory ran out. It does so in the first room, and the whole in the last. Where there is room for all but for the stack to grow,
# the system ends the run by a signal: that is so in at most 12 of the rooms below the first in which the run is whole. The frames of an
# unproved program are larger, since what it checks stands in them too, so there it is so in at most 24.
starved() {
    local memory ended well=yes all=() most=12
    [ "$kind" != unproved ] || most=24
    for memory in "${rooms[@]}"; do
        : > output
        play "${@:2}" 2> signals
        ended=$?
        all+=("$ended")
        case $ended in
            0) cmp "$1" output && [ ! -s errors ] || well=no ;;
            4) [ "$(grep -c '^fmpsim: .*want of memory$' errors)" = "$(wc -l < errors)" ] || well=no ;;
            139) [ ! -s errors ] || well=no ;;
            *) well=no ;;
        esac
        head -n "$(wc -l < output)" "$1" | cmp - output || well=no
    done
    [[ "${all[*]}" =~ ^4\ ((4|139)\ )*0(\ 0)*$ ]] && [ "$(grep -o 139 <<< "${all[*]}" | wc -l)" -le "$most" ] || well=no
    [ "$well" = yes ] || echo "from $((rooms)) KiB on it ends so: ${all[*]}"
    count "$well" "${@:2}"
}
