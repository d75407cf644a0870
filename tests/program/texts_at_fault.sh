# Texts with a fault: what is written before it, its line on standard error, and the status.

texts_at_fault() {
    sed '3s/taken/none/' "$late/trace.txt" > changed.txt
    printf 'P1 tick\nP3 tick\n' > events.txt
    printf '1 P1 T1 tick taken' > cut.txt
    printf 'PROCESSORS(1);\nCRE_MTX(M, {TA_NULL, 1});\n' > word.cfg
    printf 'PROCESSORS(9);\n' > number.cfg
    run 5 "$(as_file echo no 3)" /dev/null check "$late/machine.cfg" changed.txt
    run 1 "$(as_file echo 1 P1 T1 tick taken)" "$(as_file echo fmpsim: events.txt: line 2: E5 number out of range)" calls "$late/machine.cfg" events.txt
    run 1 /dev/null "$(as_file echo fmpsim: cut.txt: line 1: E6 cut short)" check "$late/machine.cfg" cut.txt
    run 1 /dev/null "$(as_file echo fmpsim: word.cfg: line 2: F3 unsupported API CRE_MTX)" calls word.cfg "$late/events.txt"
    run 1 /dev/null "$(as_file echo fmpsim: number.cfg: line 1: F7 value out of range)" check number.cfg "$late/trace.txt"
}
