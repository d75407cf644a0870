# A line of 200 MB is read in time that grows with its length alone: in about half a second of the processor. Half a minute would it
# cost to read it byte by byte, or to move or to look through what is there of it again at each read.

long_lines() {
    local seconds=5
    # the programs differ in how fast they are, and not in what they do: one of them is enough
    if [ "$kind" = by-rattle ]; then
        left_out 'it is not optimized' '# a line of 200 MB'
        return
    fi
    write_again
    head -c 200000000 /dev/zero | tr '\0' '#' > line.txt
    run 0 /dev/null /dev/null calls "$late/machine.cfg" line.txt
    run 1 /dev/null "$(as_file echo fmpsim: line.txt: line 1: E6 cut short)" check "$late/machine.cfg" line.txt
    run 0 "$(as_file echo '1 P1 T ext_tsk() gone run=idle')" /dev/null smp again.cfg line.txt --ticks 0 --turns 1 --seed 0
}
