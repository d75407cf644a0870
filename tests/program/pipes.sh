# The events come through a pipe, and the trace goes into one.

pipes() {
    local at_once=no ended pieces
    from=$late/events.txt run 0 "$late/trace.txt" /dev/null calls "$late/machine.cfg" -
    printf 'P1 act_tsk(T2)\nP2 get_pid()\nP2 ipi\n' > events.txt
    printf '1 P1 T1 act_tsk(T2) E_OK ipi=2\n2 P2 - get_pid() idle\n3 P2 - ipi taken run=T2\n' > trace.txt
    one_by_one events.txt trace.txt "$program" calls "$late/machine.cfg" - && at_once=yes
    count "$at_once" calls "$late/machine.cfg" - '# one event after the other'
    printf 'P1 tick\nP1 jump()\n' > events.txt
    from=events.txt run 1 "$(as_file echo 1 P1 T1 tick taken)" "$(as_file echo fmpsim: -: line 2: E2 bad word)" calls "$late/machine.cfg" -
    yes 'P1 tick' | head -n 1000000 > long.txt
    ("$program" calls "$late/machine.cfg" - < long.txt 2> errors; echo $? > ended) | head -n 1 > output
    ended=no
    [ "$(cat ended)" = 3 ] && [ "$(cat output)" = '1 P1 T1 tick taken' ] && [ ! -s errors ] && ended=yes
    count "$ended" calls "$late/machine.cfg" - '|' head -n 1
    unread_output list
    unread_output calls --help
    unread_output smp "$spin/machine.cfg" "$spin/scripts.txt" --ticks 1 --turns 100 --seed 11
    unread_output calls --color=always "$late/machine.cfg" "$late/events.txt"
    unread_outputs
    # Lines are held back, so that 64 KiB of them are one write. This pipe keeps apart what was written apart, and what was not in
    # pieces of 4 KiB: of 120 KiB there are some thirty, and would be 5000 if each line were written by itself.
    head -n 5000 long.txt > events.txt
    pieces=$(in_pieces "$program" calls "$late/machine.cfg" events.txt)
    ended=no
    [ "$pieces" -ge 1 ] && [ "$pieces" -le 60 ] && ended=yes
    count "$ended" calls "$late/machine.cfg" events.txt "# in $pieces writes"
    events_in_pieces
}

# Nobody reads what one of the other commands writes: like `head`, that is silence, and status 3.
unread_outputs() {
    local words
    for words in --state --changes; do unread_output calls "$words" "$late/machine.cfg" "$late/events.txt"; done
    unread_output calls --of T2 "$late/machine.cfg" "$late/events.txt"
    for words in check 'check --show' 'check --partial' wave view; do
        # shellcheck disable=SC2086  # one or two words
        unread_output $words "$late/machine.cfg" "$late/trace.txt"
    done
    sed 's/E_OK/E_CTX/' "$late/trace.txt" > wrong.txt
    unread_output check --all "$late/machine.cfg" wrong.txt
    unread_output view --differences "$late/machine.cfg" wrong.txt
    unread_output wave --gtkw "$late/machine.cfg"
    unread_output list "$late/machine.cfg"
    for words in E_OK E_PAR; do unread_output explore "$spin/machine.cfg" "$spin/scripts.txt" --ticks 0 --turns 30 --find "$words"; done
    echo 'taken shown E_OK' > asked.txt
    unread_output explore "$spin/machine.cfg" "$spin/scripts.txt" --ticks 0 --turns 30 --questions asked.txt
    unread_output smp "$spin/machine.cfg" "$spin/scripts.txt" --ticks 0 --turns 30 --seeds 1..9 --find E_OK
    unread_output shrink "$late/machine.cfg" "$late/events.txt" --find T2
}

# Events in pieces of each length are answered as in one piece.
events_in_pieces() {
    local well=no
    python3 "$top/tests/program/pieces.py" "$program" > output 2> errors && [ "$(cat output)" -gt 600 ] && well=yes || cat output errors
    count "$well" calls machine.cfg - '# pieces.py'
}

# in_pieces COMMAND..: in how many pieces the command's output comes through a pipe that keeps its writes apart.
in_pieces() {
    python3 -c '
import os, subprocess, sys
end, start = os.pipe2(os.O_DIRECT)
with subprocess.Popen(sys.argv[1:], stdout=start):
    os.close(start)
    print(sum(1 for piece in iter(lambda: os.read(end, 4096), b"")))
' "$@"
}

# one_by_one EVENTS TRACE COMMAND..: each line of the trace comes before the command is given the next event.
one_by_one() {
    python3 -c '
import os, select, subprocess, sys
with open(sys.argv[1], "rb") as events, open(sys.argv[2], "rb") as trace:
    with subprocess.Popen(sys.argv[3:], stdin=subprocess.PIPE, stdout=subprocess.PIPE) as run:
        for event, line in zip(events, trace):
            run.stdin.write(event)
            run.stdin.flush()
            if not select.select([run.stdout], [], [], 60)[0] or os.read(run.stdout.fileno(), 4096) != line:
                run.kill()
                sys.exit(1)
        run.stdin.close()
        sys.exit(run.wait())
' "$@"
}
