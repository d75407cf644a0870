# What all runs of the program share. $program is the program, and $kind how it was built: `llvm`, `by-rattle` or `unproved`.

late=$top/examples/late-interrupt
spin=$top/examples/scripted-spin-lock

# count WELL WORD..: counts one run of the program on these words, and tells a failure.
count() {
    if [ "$1" = yes ]; then
        passed=$((passed + 1))
    else
        failed=$((failed + 1))
        printf 'FAILED: %s' "${program##*/}" && printf ' %q' "${@:2}" && echo
    fi
}

# left_out WHY WORD..: tells that the program is not run on these words, here and once more at the end of all.
left_out() {
    printf 'left out of %s, since %s:' "${program##*/}" "$1" && printf ' %q' "${@:2}" && echo
    printf '%s (%s: %s)\n' "${*:2}" "${program##*/}" "$1" >> "$left"
}

# as_file WORD..: the path of a file with what this command writes, or without one with what comes in. It stands where a process substitution
# would, which no test may have: bash gives a later child that gets the same process number the status of that one, and does not wait for it.
as_file() {
    local file
    file=$(mktemp "$room/as_file.XXXXXX") && "${@:-cat}" > "$file" && echo "$file"
}

# play WORD..: runs the program in so many KiB of memory and seconds of processor time, if $memory and $seconds say how many, with
# its output into the file $to and its input from the file $from. In little memory there is room for nothing beside the program, not even
# for a shell that is still to make it, so prlimit does; else it is ended after ten minutes, so that one that waits for ever does not stop
# the test.
play() {
    local patience=(timeout --foreground 600)
    (
        [ -z "${seconds-}" ] || ulimit -t "$seconds"
        [ -z "${memory-}" ] || patience=(prlimit --as=$((memory * 1024)))
        exec "${patience[@]}" "$program" "$@"
    ) < "${from:-/dev/null}" > "${to:-output}" 2> errors
}

# run STATUS OUTPUT ERRORS WORD..: the program on these words ends so, and writes what these two files have.
run() {
    local ended well=yes
    : > output
    play "${@:4}"
    ended=$?
    [ "$ended" = "$1" ] || { well=no && echo "status $ended in place of $1"; }
    # how many places a search went through is compared only where that is told
    grep -q '; lines to the farthest: ' "$3" || sed -i '/; lines to the farthest: /d' errors
    grep -q ': places left where ' "$3" || sed -i '/: places left where /d' errors
    diff "$2" output || well=no
    diff "$3" errors || well=no
    count "$well" "${@:4}"
}

# browsed PAGE PLACE WORD..: what chromium, with these words, has of a page behind its scripts. The page's own clock has gone on for five seconds by
# then, so what it draws in its next frame is there. Chromium does not shut itself in where it is run by root. Where it says nothing it is asked again,
# with more time: on a machine on which much else runs a page takes minutes.
browsed() {
    local words=(--headless --disable-gpu "--user-data-dir=$PWD/profile" --virtual-time-budget=5000 "${@:3}" --dump-dom) patience
    [ "$(id -u)" != 0 ] || words+=(--no-sandbox)
    for patience in 120 600 1200; do
        timeout "$patience" chromium "${words[@]}" "file://$PWD/$1$2" > browsed 2> /dev/null && grep -q '<body' browsed && break
        rm -rf profile
    done
    cat browsed
}

# unread WORD..: the program cannot read one of the files that these words name, and tells below that which one and why.
unread() {
    local well=yes
    : > output
    play "$@"
    [ $? = 3 ] && [ ! -s output ] || well=no
    { [ "$(wc -l < errors)" = 2 ] && [ "$(head -n 1 errors)" = 'fmpsim: read failed' ] && tail -n 1 errors | grep -qE '^  .*: .+ \(os error [0-9]+\)$'; } \
        || { well=no && cat errors; }
    count "$well" "$@"
}

# unwritten WORD..: the program cannot write what these words ask for.
unwritten() {
    to=/dev/full run 3 /dev/null "$(as_file echo fmpsim: write failed)" "$@"
}

# usage STATUS TOLD SILENT WORD..: the program on these words ends so, tells its usage in one file, and the other is empty.
usage() {
    local well=no
    play "${@:4}"
    [ $? = "$1" ] && grep -q '^Usage: fmpsim' "$2" && [ ! -s "$3" ] && well=yes
    count "$well" "${@:4}"
}

# refused WORD..: the program refuses these words, tells why on standard error, and does nothing.
refused() {
    local well=no
    play "$@"
    [ $? = 2 ] && [ -s errors ] && [ ! -s output ] && well=yes
    count "$well" "$@"
}

# unread_output WORD..: nobody reads what the program writes on these words. It ends silently.
unread_output() {
    local ended=no
    mkfifo unread && { sleep 60 < unread & } && exec 4> unread && kill $! && wait $! 2> /dev/null
    ("$program" "$@" >&4 2> errors; echo $? > ended)
    exec 4>&-
    rm unread
    [ "$(cat ended)" = 3 ] && [ ! -s errors ] && ended=yes
    count "$ended" "$@" '# with no reader'
}

# Writes the configuration of a machine whose only task starts itself anew each time, and its scripts.
write_again() {
    printf 'PROCESSORS(1);\nDEF_CLASS(C, 1, {1});\nCLASS(C) { CRE_TSK(T, {TA_ACT, 0, main, 1, 4096, NULL}); }\n' > again.cfg
    printf 'script main\nact_tsk(TSK_SELF)\nend\n' > again.txt
}
