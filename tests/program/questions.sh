# Many questions of one text: what is told of their answers in each form, how they end the program, the traces that are left, and what is
# wrong with a text, all of which is told before the first search.

questions() {
    answers_in_lines
    lines_beside_never
    answers_in_other_forms
    answers_not_known
    answers_in_time
    lines_that_are_wrong
    beside_lines_that_are_wrong
    questions_that_are_wrong
    options_beside_questions
    questions_unread_and_unwritten
}

# is_file FILE TEXT: the file has this text.
is_file() {
    local well=no
    cmp -s "$1" "$2" && well=yes
    count "$well" "# $1 is $2"
}

# without_times FILE: in the place of each case's time, which is seconds with three digits after the point, stands T.
without_times() {
    sed -i -E 's/^(<testcase classname="fmpsim explore" name="[^"]*" time=")[0-9]+\.[0-9]{3}"/\1T"/' "$1"
}

# The answers of examples/explore-deadlock, each expected and not.
answers_in_lines() {
    local folder=$top/examples/explore-deadlock words ci=$top/examples/explore-timeout
    words=(explore "$folder/machine.cfg" "$folder/scripts.txt" --ticks any --turns 1000 --questions asked.txt)
    # a cyclic handler goes on for ever
    printf '%s\n' "fmpsim: ends: no event of any order has 'end'" "fmpsim: ends: an event of some order has 'waits sem'" > beside.txt
    # blanks and tabs of any number, carriage returns, and no line feed at the end
    printf '# what is asked\n\n  \t\nstuck shown deadlock\r\n\r\n#\n \tends\tnever  \tend & waits sem \t\r\n_2 shown E_OK for ever\nno.1-b   never not LOG sig_sem(*) * for ever' > asked.txt
    printf '%s\n' 'ok stuck: shown in 6 lines' 'ok ends: never' 'not ok _2: never' 'not ok no.1-b: shown in 5 lines' > answers.txt
    rm -rf traces
    run 5 answers.txt beside.txt "${words[@]}"
    run 5 answers.txt beside.txt "${words[@]}" --traces traces/new
    [ "$(ls traces/new)" = "$(printf 'no.1-b.trace\nstuck.trace')" ]
    count "$([ $? = 0 ] && echo yes || echo no)" '# a trace is left of each question that was shown'
    is_file traces/new/stuck.trace "$folder/trace.txt"
    is_file traces/new/no.1-b.trace "$folder/helpless.txt"
    # files that are there are written over, and others stay
    seq 1000 > traces/new/stuck.trace
    echo mine > traces/new/ends.trace
    run 5 answers.txt beside.txt "${words[@]}" --traces traces/new
    is_file traces/new/stuck.trace "$folder/trace.txt"
    is_file traces/new/ends.trace "$(as_file echo mine)"
    # the same from standard input
    from=asked.txt run 5 answers.txt beside.txt "${words[@]::${#words[@]}-1}" -
    # all as expected, and a text without a question
    printf '%s\n' 'ok given-back-twice: never' 'ok asks-again: shown in 11 lines' > answers.txt
    run 0 answers.txt /dev/null explore "$ci/machine.cfg" "$ci/mended.txt" --ticks any --turns 100 --questions "$ci/ci.questions"
    : > empty.txt
    run 0 /dev/null /dev/null "${words[@]/asked.txt/empty.txt}"
}

# What is told beside `never`, after all answers, with the name of its question. Of one pattern `never` says everything.
lines_beside_never() {
    local folder=$top/examples/explore-lost-update words
    words=(explore "$folder/machine.cfg" "$folder/mended.txt" --ticks 0 --turns 100 --questions asked.txt)
    printf '%s\n' 'twice never 2 times set_flg(COUNT, 1) E_OK' 'plain never E_PAR' 'well shown set_flg(COUNT, 3) E_OK' 'missed shown E_PAR then end' \
        'stays never E_PAR & E_PAR' > asked.txt
    printf '%s\n' 'ok twice: never' 'ok plain: never' 'ok well: shown in 7 lines' 'not ok missed: never' 'ok stays: never' > answers.txt
    printf 'fmpsim: %s\n' 'twice: some order has step 1 of 2, and none has step 2 after it' "twice: an event of some order has 'set_flg(COUNT, 1) E_OK'" \
        'missed: no order has step 1 of 2' "missed: no event of any order has 'E_PAR'" "stays: no event of any order has 'E_PAR'" > beside.txt
    run 5 answers.txt beside.txt "${words[@]}"
    run 5 answers.txt beside.txt "${words[@]}" --seconds 1000
    "$program" "${words[@]}" > output 2>&1
    cat answers.txt beside.txt | cmp -s - output
    count "$([ $? = 0 ] && echo yes || echo no)" "${words[@]}" '# after all answers'
    printf '%s\n' 'TAP version 13' 1..5 'ok 1 - twice' '# never' 'ok 2 - plain' '# never' 'ok 3 - well' '# shown in 7 lines' 'not ok 4 - missed' '# never' \
        'ok 5 - stays' '# never' > answers.tap
    run 5 answers.tap beside.txt "${words[@]}" --tap
    # what stays for ever and is not found has none
    printf '%s\n' 'ever never E_OK & E_OK for ever' > asked.txt
    run 0 "$(as_file echo 'ok ever: never')" /dev/null explore "$folder/machine.cfg" "$folder/mended.txt" --ticks any --turns 100 --questions asked.txt
}

# The form of TAP, and XML for JUnit, which is written beside either form. A question has each byte that has a name in XML.
answers_in_other_forms() {
    local folder=$top/examples/explore-lock-order words
    words=(explore "$folder/machine.cfg" "$folder/scripts.txt" --ticks 0 --turns 4 --questions asked.txt)
    printf '%s\n' 'lock never end & waits sem' 'parameter never E_PAR' 'odd shown *<"'"'"'>* & *&*' 'well shown end & waits sem' > asked.txt
    printf '%s\n' 'not ok lock: shown in 4 lines' 'not known parameter: not within 4' 'not known odd: not within 4' 'ok well: shown in 4 lines' > answers.txt
    printf '%s\n' 'TAP version 13' 1..4 'not ok 1 - lock' '# shown in 4 lines' 'not ok 2 - parameter' '# not known: not within 4' \
        'not ok 3 - odd' '# not known: not within 4' 'ok 4 - well' '# shown in 4 lines' > answers.tap
    cat > answers.xml << 'END'
<?xml version="1.0" encoding="UTF-8"?>
<testsuite name="fmpsim explore" tests="4" failures="1" errors="2">
<testcase classname="fmpsim explore" name="lock" time="T"><failure message="shown in 4 lines">end &amp; waits sem</failure></testcase>
<testcase classname="fmpsim explore" name="parameter" time="T"><error message="not within 4">E_PAR</error></testcase>
<testcase classname="fmpsim explore" name="odd" time="T"><error message="not within 4">*&lt;&quot;'&gt;* &amp; *&amp;*</error></testcase>
<testcase classname="fmpsim explore" name="well" time="T"/>
</testsuite>
END
    run 5 answers.tap /dev/null "${words[@]}" --tap
    rm -f told.xml
    run 5 answers.txt /dev/null "${words[@]}" --junit told.xml
    without_times told.xml
    is_file told.xml answers.xml
    # written over where it was longer
    seq 1000 > told.xml
    run 5 answers.tap /dev/null "${words[@]}" --junit told.xml --tap
    without_times told.xml
    is_file told.xml answers.xml
    # no name changes where an answer does
    grep -E '^(not )?ok ' answers.tap | sed 's/^not //' > names.txt
    "$program" "${words[@]/%4/100}" --tap > output 2> errors
    count "$(! grep -q 'not within' output && grep -E '^(not )?ok ' output | sed 's/^not //' | cmp -s names.txt - && echo yes || echo no)" '# the names are the same'
    python3 - told.xml << 'END'
import sys, xml.etree.ElementTree as tree
cases = {case.get("name"): case for case in tree.parse(sys.argv[1]).getroot()}
sys.exit(cases["odd"][0].text != "*<\"'>* & *&*" or cases["lock"][0].tag != "failure" or len(cases["well"]) != 0)
END
    count "$([ $? = 0 ] && echo yes || echo no)" '# XML is read back'
    : > empty.txt
    run 0 "$(as_file printf 'TAP version 13\n1..0\n')" /dev/null "${words[@]/asked.txt/empty.txt}" --tap --junit told.xml
    is_file told.xml "$(as_file printf '%s\n' '<?xml version="1.0" encoding="UTF-8"?>' '<testsuite name="fmpsim explore" tests="0" failures="0" errors="0">' '</testsuite>')"
}

# Where none is wrong and one is not known, the status says that; a wrong one counts for more.
answers_not_known() {
    local folder=$top/examples/explore-lock-order words
    words=(explore "$folder/machine.cfg" "$folder/scripts.txt" --ticks 0 --questions asked.txt --turns)
    printf '%s\n' 'well shown end & waits sem' 'other shown E_PAR' > asked.txt
    run 6 "$(as_file printf '%s\n' 'ok well: shown in 4 lines' 'not known other: not within 4')" /dev/null "${words[@]}" 4
    run 6 "$(as_file printf '%s\n' 'not known well: not within 3' 'not known other: not within 3')" /dev/null "${words[@]}" 3
    run 5 "$(as_file printf '%s\n' 'ok well: shown in 4 lines' 'not ok other: never')" /dev/null "${words[@]}" 100
    # of what stays for ever
    folder=$top/examples/explore-deadlock
    echo 'stuck never deadlock' > asked.txt
    run 6 "$(as_file echo 'not known stuck: not within 5')" /dev/null explore "$folder/machine.cfg" "$folder/scripts.txt" --ticks any --turns 5 --questions asked.txt
}

# The seconds are those of all questions together. Where a machine is so busy that they are over before the first question has come to a line, more are given.
answers_in_time() {
    local folder=$top/examples/explore-philosophers words begun well=no lines patience
    printf '%s\n' 'first never lost=*' 'second never deadlock' 'third never E_PAR' > asked.txt
    words=(explore "$folder/machine.cfg" "$folder/scripts.txt" --ticks any --drift 1000000 --turns 1000000 --places 20000000 --questions asked.txt)
    for patience in 2 20 200; do
        begun=$SECONDS
        play "${words[@]}" --seconds "$patience" --junit told.xml
        [ $? = 6 ] && lines=$(sed -n '1s/^not known first: not within \([0-9]*\)$/\1/p' output) && [ -n "$lines" ] && [ ! -s errors ] \
            && tail -n +2 output | cmp -s - "$(as_file printf '%s\n' 'not known second: not within 0' 'not known third: not within 0')" \
            && [ $((SECONDS - begun)) -lt $((patience + 300)) ] || break
        [ "$lines" = 0 ] || { well=yes && break; }
    done
    count "$well" "${words[@]}" --seconds "$patience"
    # the first took all the time, the others nearly none
    python3 - told.xml "$patience" << 'END'
import sys, xml.etree.ElementTree as tree
first, *others = (float(case.get("time")) for case in tree.parse(sys.argv[1]).getroot())
sys.exit(not int(sys.argv[2]) - 1 < first < int(sys.argv[2]) + 300 or len(others) != 2 or max(others) > 0.5)
END
    count "$([ $? = 0 ] && echo yes || echo no)" '# the time of each question'
}

# at_fault LINE WORDS [WORD..]: the text on standard input has this fault there, and nothing is searched for or written.
at_fault() {
    cat > asked.txt
    rm -rf traces told.xml
    run 1 /dev/null "$(as_file echo "fmpsim: asked.txt: line $1: $2")" "${words[@]}" "${@:3}"
    run 1 /dev/null "$(as_file echo "asked.txt:$1: error: $2")" "${words[@]}" "${@:3}" --diagnostics=gcc
    count "$([ ! -e traces ] && [ ! -e told.xml ] && echo yes || echo no)" '# nothing is made'
}

# On a processor with nothing to do no event comes, so that nothing is shown.
lines_that_are_wrong() {
    local words wanted='expected a name, never or shown, and a question' line name
    printf 'PROCESSORS(1);\n' > idle.cfg
    : > none.txt
    words=(explore idle.cfg none.txt --ticks 0 --turns 5 --questions asked.txt --traces traces --junit told.xml)
    name=$(printf 'n%.0s' {1..64})
    for line in a 'a never' 'a shown ' 'a always end' 'a Never end' 'never end' '-a never end' '.a never end' 'a/b never end' 'a:b never end' \
        "n$name never end" $'\xc3\xa9 never end' 'a never: end' 'a b never end'; do
        at_fault 3 "$wanted" <<< $'# a comment\nfine never end\n'"$line"
    done
    at_fault 4 'an earlier line has this name' <<< $'a never end\nb never end\n\na shown end'
    { seq 1001 | sed 's/$/ shown end/'; } | at_fault 1001 'there are more than 1000 questions'
    # the first fault of the text: of a line before one of a question
    at_fault 2 "$wanted" <<< $'a never end\nb\nc never T9 end'
    # each byte of a name, the longest one, and as many questions as there may be
    printf '%s\n' "$name never end" 'AZaz09_.- never end' '9 never end' > asked.txt
    run 0 "$(as_file printf 'ok %s: never\n' "$name" 'AZaz09_.-' 9)" /dev/null "${words[@]}"
    seq 1000 | sed 's/$/ never end/' > asked.txt
    run 0 "$(seq 1000 | sed 's/^/ok /; s/$/: never/' | as_file)" /dev/null "${words[@]}"
    # a comment may have any bytes
    printf '#\xff\xfe\na never end\n' > asked.txt
    run 0 "$(as_file echo 'ok a: never')" /dev/null "${words[@]}"
}

# beside_line LINE TOLD: with --context the line stands below its fault, and this below it.
beside_line() {
    printf 'fine never end\n%s\n' "$1" > asked.txt
    run 1 /dev/null "$(as_file printf '%s\n' 'fmpsim: asked.txt: line 2: expected a name, never or shown, and a question' "  $1" "  $2")" \
        explore idle.cfg none.txt --ticks 0 --turns 5 --questions asked.txt --context
}

# With --context it is told what to write in the place of a line that is none, and nothing more of another fault.
beside_lines_that_are_wrong() {
    local name='The name is missing, which comes first: write `no-error never E_PAR`.'
    local three='Write a name, `never` or `shown`, which is the answer that is expected, and a question: `no-error never E_PAR`.'
    printf 'PROCESSORS(1);\n' > idle.cfg
    : > none.txt
    beside_line 'never end' "$name"
    beside_line '  shown E_OK then end' "$name"
    beside_line 'a: never end' 'A name has no `:` after it: write `no-error never E_PAR`.'
    beside_line 'a "never end"' "$three"
    beside_line 'sig_sem(S) E_QOVR' "$three"
    printf 'fine never end\r\nb\r\n' > asked.txt
    run 1 /dev/null "$(as_file printf '%s\n' 'fmpsim: asked.txt: line 2: expected a name, never or shown, and a question' '  b' "  $three")" \
        explore idle.cfg none.txt --ticks 0 --turns 5 --questions asked.txt --context
    printf 'fine never end\nfine shown end\n' > asked.txt
    run 1 /dev/null "$(as_file echo 'fmpsim: asked.txt: line 2: an earlier line has this name')" explore idle.cfg none.txt --ticks 0 --turns 5 --questions asked.txt --context
}

# The fault of a question is that of --find, with its line, and its byte counts in the question. As compilers tell it the column counts in the line.
questions_that_are_wrong() {
    local folder=$top/examples/explore-deadlock words ticks told
    words=(explore "$folder/machine.cfg" "$folder/scripts.txt" --turns 9 --questions asked.txt --ticks)
    printf '%s\n' 'a never end' '  b  shown  end & LOGG waits sem  ' 'c never' > asked.txt
    run 1 /dev/null "$(as_file echo 'fmpsim: asked.txt: line 2: byte 7: E3 unknown name')" "${words[@]}" any
    run 1 /dev/null "$(as_file echo 'asked.txt:2:19: error: E3 unknown name')" "${words[@]}" any --diagnostics=gcc
    # below it stands with --context what stands below it where --find has it
    play "${words[@]::3}" --turns 9 --ticks any --find 'end & LOGG waits sem' --context
    { echo 'fmpsim: asked.txt: line 2: byte 7: E3 unknown name' && tail -n +2 errors; } > told.txt
    count "$([ "$(wc -l < told.txt)" -gt 1 ] && echo yes || echo no)" '# something stands below a fault'
    run 1 /dev/null told.txt "${words[@]}" any --context
    printf 'a never\t\xff' > asked.txt
    run 1 /dev/null "$(as_file echo 'fmpsim: asked.txt: line 1: byte 1: E1 bad byte')" "${words[@]}" any
    run 1 /dev/null "$(as_file echo 'asked.txt:1: error: E1 bad byte')" "${words[@]}" any --diagnostics=gcc
    echo 'a never E_OK for ever or' > asked.txt
    run 1 /dev/null "$(as_file echo 'fmpsim: asked.txt: line 1: byte 17: E2 bad word')" "${words[@]}" any
    # what stays for ever is asked of all orders, whatever line comes after it
    ticks='what stays for ever, as where there is no --find, is asked with --ticks any: with a number all orders end where it is used up, and what waits there stays so'
    for told in 'a never deadlock' 'a shown LOG waits for ever'; do
        printf '%s\n' 'first never end' "$told" 'c' > asked.txt
        run 2 /dev/null "$(as_file echo "fmpsim: asked.txt: line 2: $ticks")" "${words[@]}" 3
        run 2 /dev/null "$(as_file echo "asked.txt:2: error: $ticks")" "${words[@]}" 3 --diagnostics=gcc
    done
    # the configuration and the scripts are judged before, as they are where there is one question
    echo a > asked.txt
    echo tick > script.txt
    play explore "$folder/machine.cfg" script.txt --ticks 0 --turns 9 --find end && count no '# a script at fault'
    cp errors told.txt
    run 1 /dev/null told.txt explore "$folder/machine.cfg" script.txt "${words[@]:3}" 3
    play explore script.txt none.txt --ticks 0 --turns 9 --find end && count no '# a configuration at fault'
    cp errors told.txt
    run 1 /dev/null told.txt explore script.txt none.txt "${words[@]:3}" 3
}

options_beside_questions() {
    # on the machine of lines_that_are_wrong
    local words=(explore idle.cfg none.txt --ticks 0 --turns 5)
    echo 'a never end' > asked.txt
    refused "${words[@]}" --questions asked.txt --find end
    refused "${words[@]}" --questions asked.txt --from /dev/null
    refused "${words[@]}" --find end --tap
    refused "${words[@]}" --find end --junit told.xml
    refused "${words[@]}" --find end --traces traces
    refused "${words[@]}" --questions
    # nothing is said of ticks where no question asks for all of them
    run 0 "$(as_file echo 'ok a: never')" /dev/null "${words[@]}" --questions asked.txt
    run 2 /dev/null "$(as_file echo 'fmpsim: only one text can come from standard input')" explore idle.cfg - --ticks 0 --turns 5 --questions -
    run 2 /dev/null "$(as_file echo 'fmpsim: only one text can come from standard input')" explore - none.txt --ticks 0 --turns 5 --questions -
}

questions_unread_and_unwritten() {
    local words=(explore idle.cfg none.txt --ticks 1 --turns 5 --questions) line='not ok a: shown in 1 lines'
    echo 'a never end' > asked.txt
    unread "${words[@]}" missing
    unread "${words[@]}" /
    unread explore idle.cfg missing --ticks 1 --turns 5 --questions asked.txt
    unwritten "${words[@]}" asked.txt
    unwritten "${words[@]}" asked.txt --tap
    unread_output "${words[@]}" asked.txt
    # what cannot be made is told before the first search, and what cannot be written when it is to be
    : > file
    run 5 "$(as_file echo "$line")" /dev/null "${words[@]}" asked.txt --traces traces
    is_file traces/a.trace "$(as_file echo '1 P1 - tick taken')"
    run 3 /dev/null "$(as_file printf 'fmpsim: write failed\n  missing/told.xml: No such file or directory (os error 2)\n')" "${words[@]}" asked.txt --junit missing/told.xml
    run 3 "$(as_file echo "$line")" "$(as_file printf 'fmpsim: write failed\n  /dev/full: No space left on device (os error 28)\n')" "${words[@]}" asked.txt --junit /dev/full
    run 3 /dev/null "$(as_file printf 'fmpsim: write failed\n  file/traces: Not a directory (os error 20)\n')" "${words[@]}" asked.txt --traces file/traces
    rm traces/a.trace && mkdir traces/a.trace
    run 3 /dev/null "$(as_file printf 'fmpsim: write failed\n  traces/a.trace: Is a directory (os error 21)\n')" "${words[@]}" asked.txt --traces traces
}
