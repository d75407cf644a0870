# Files that are not there, a full output, and texts that do not fit into memory. The limits of processor time are far above what a
# text costs that is read once, from its beginning to its end.

devices_that_fail() {
    unread calls missing "$late/events.txt"
    unread calls "$late/machine.cfg" missing
    unread check missing "$late/trace.txt"
    unread check "$late/machine.cfg" missing
    unwritten calls "$late/machine.cfg" "$late/events.txt"
    unwritten check "$late/machine.cfg" "$late/trace.txt"
    printf 'P1 act_tsk(T2)\nP1 jump()\n' > wrong.txt
    unwritten calls "$late/machine.cfg" wrong.txt
    unwritten calls --state "$late/machine.cfg" wrong.txt
    yes '#' | head -c 50000000 > long.txt
    head -c 50000000 /dev/zero | tr '\0' '#' > line.txt
    seconds=30 memory=40000 run 0 /dev/null /dev/null calls "$late/machine.cfg" long.txt
    seconds=30 memory=40000 run 4 /dev/null "$(as_file echo fmpsim: line.txt: line 0: E8 want of memory)" calls "$late/machine.cfg" line.txt
    seconds=30 memory=40000 run 4 /dev/null "$(as_file echo fmpsim: want of memory)" check "$late/machine.cfg" long.txt
}
