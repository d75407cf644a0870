# Events that look random, the same in every run, over 1 to 8 processors: `calls` plays them on the kernel and `check` on the plain
# machine, which answer alike. `check --show` tells the plain machine's state as `calls --state` does the kernel's, and `calls --changes` what leads from one to the next.

random_events() {
    local seeds=(1 2 3 5 8 13 21 34 55 89) accepted=0 well=no at words
    for at in "${!seeds[@]}"; do
        words=("${seeds[at]}" $((at % 8 + 1)) $((at % 4 == 1 ? 2 : 0)))
        alike "${words[@]}"
    done
    # fewer would say that the events are mostly such as are refused
    [ "$accepted" -gt 2000 ] && well=yes || echo "$accepted calls were accepted"
    count "$well" calls machine.cfg - '# accepted calls of random events'
}

# alike SEED PROCESSORS MASTER: it is so of the events of this seed, whose accepted calls are counted.
alike() {
    local well=no
    if python3 "$top/tests/program/random_events.py" "$program" "$@" > output 2> errors; then
        well=yes
        accepted=$((accepted + $(cat output)))
    else
        cat errors
    fi
    count "$well" calls --state machine.cfg - "# random_events.py $*"
}
