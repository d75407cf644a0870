# Lists of runs that tools/run-list plays: what it reports of each, and how it ends.

run_lists() {
    local dead=$top/examples/explore-lock-order question="--turns 100 --find 'end & waits sem'"
    cp "$dead/machine.cfg" "$dead/scripts.txt" "$dead/trace.txt" .
    ends 0 '1..4|ok 1 - found|ok 2 - same|ok 3 - never|ok 4 - by_number' << END
found      shown            explore machine.cfg scripts.txt --ticks 0 $question   # a comment
same       shown=trace.txt  explore machine.cfg scripts.txt --ticks 0 $question

# nothing is refused as an argument
never      never            explore machine.cfg scripts.txt --ticks 0 --turns 100 --find E_PAR
by_number  5                explore machine.cfg scripts.txt --ticks 0 $question
END
    [ "$(cat kept/same.txt)" = "$(cat trace.txt)" ] && [ "$(cat kept/never.txt)" = never ]
    count "$(said $?)" '#' tools/run-list '#' what is kept
    ends 5 '1..3|not ok 1 - wrong|ok 2 - right|not ok 3 - other' << END
wrong  never          explore machine.cfg scripts.txt --ticks 0 $question
right  yes            check machine.cfg trace.txt
other  yes=trace.txt  check machine.cfg trace.txt
END
    grep -qxF '  message: "expected never, and its status is 5"' made && grep -qxF '  message: "what it wrote is not what trace.txt has"' made \
        && [ "$(grep -c '^    1 P' made)" = 1 ] && has_cases 3 2 0
    count "$(said $?)" '#' tools/run-list '#' what is told of those that fail
    ends 6 '1..2|not ok 1 - unknown|ok 2 - limit' << END
unknown  never       explore machine.cfg scripts.txt --ticks 0 --turns 2 --find 'end & waits sem'
limit    not_within  explore machine.cfg scripts.txt --ticks 0 --turns 2 --find 'end & waits sem'
END
    grep -qxF '  message: "not known: expected never, and its status is 6"' made && has_cases 2 0 1
    count "$(said $?)" '#' tools/run-list '#' one that is not known
    # a wrong one counts for more than one that is not known
    ends 5 '1..2|not ok 1 - unknown|not ok 2 - no_file' << END
unknown  shown  explore machine.cfg scripts.txt --ticks 0 --turns 2 --find 'end & waits sem'
no_file  done   calls missing.cfg trace.txt
END
    has_cases 2 1 1
    count "$(said $?)" '#' tools/run-list '#' one of each
    ends 0 '1..1|ok 1 - waits' << END
waits  waits  smp machine.cfg scripts.txt --ticks 0 --turns 100 --seeds 0..99
END
    refused_lists
}

# said STATUS: yes where it is 0.
said() {
    [ "$1" = 0 ] && echo yes || echo no
}

# ends STATUS LINES: the list that comes in is played with this status, and these are the lines of its report that do not stand below another,
# with `|` between them. Two runs at a time report the same.
ends() {
    local well=no
    cat > list.txt
    rm -rf kept
    "$top/tools/run-list" list.txt --fmpsim "$program" --junit made.xml --outputs kept > made 2> told
    [ $? = "$1" ] && [ ! -s told ] && [ "$(grep -v '^ ' made | tail -n +2 | paste -sd '|')" = "$2" ] && [ "$(head -n 1 made)" = 'TAP version 13' ] \
        && "$top/tools/run-list" list.txt --fmpsim "$program" --jobs 2 | cmp - made && well=yes
    [ $well = yes ] || cat made told
    count "$well" '#' tools/run-list '#' "$(cat list.txt)"
}

# has_cases TESTS FAILURES ERRORS: the XML that was written last has so many of each.
has_cases() {
    python3 - "$@" << 'END'
import sys
import xml.etree.ElementTree as tree

suite = tree.parse("made.xml").getroot().find("testsuite")
cases = suite.findall("testcase")
counts = [len(cases), sum(1 for case in cases if case.find("failure") is not None), sum(1 for case in cases if case.find("error") is not None)]
sys.exit(counts != [int(word) for word in sys.argv[1:]] or [suite.get(name) for name in ("tests", "failures", "errors")] != sys.argv[1:])
END
}

# Lists at fault, and what cannot be read or started.
refused_lists() {
    refuses 1 'list.txt: refused: there is no run in it' '# nothing\n\n'
    refuses 1 'list.txt: line 2: refused: expected a name, what is expected, and the words of a run' 'a yes check\nb yes\n'
    refuses 1 'list.txt: line 1: refused: ye: expected done, never, none, yes, shown, no, found, limit, not_within, waits, or an exit status' 'a ye check\n'
    refuses 1 'list.txt: line 1: refused: 256: expected done, never, none, yes, shown, no, found, limit, not_within, waits, or an exit status' 'a 256 check\n'
    refuses 1 'list.txt: line 1: refused: yes=: after `=` a file is expected' 'a yes= check\n'
    refuses 1 'list.txt: line 3: refused: a is the name of line 1, too' 'a yes check\n\na no check\n'
    # an answer that the command does not have: a status would fit all the same
    refuses 1 'list.txt: line 1: refused: never: it is expected of explore alone, and this is a run of smp' 'a never smp m.cfg s.txt --seeds 0..9 --find end\n'
    refuses 1 'list.txt: line 2: refused: shown: it is expected of explore and smp alone, and this is a run of shrink' 'a no shrink\nb shown shrink\n'
    refuses 1 'list.txt: line 1: refused: yes: it is expected of check alone, and this is a run of calls' 'a yes=trace.txt --diagnostics=gcc calls\n'
    refuses 1 'list.txt: line 1: refused: none: it is expected of smp and host alone, and this is a run of no command' 'a none --version\n'
    refuses 1 'list.txt: line 1: refused: shown: of a run with --questions `done` is expected, since it is known there what each answer has to be' \
        'a shown explore m.cfg s.txt --questions=asked.txt\n'
    refuses 1 'list.txt: line 1: refused: ../a: a name has letters, digits and `_`, `-` and `.`, and no `.` first' '../a yes check\n'
    refuses 1 'list.txt: line 1: refused: no closing quotation' "a yes check '\\n"
    refuses 1 'list.txt: refused: it is not UTF-8' '\0377\0376\n'
    rm list.txt
    refuses 3 'list.txt: cannot be read: No such file or directory'
    echo 'a yes check machine.cfg trace.txt' > list.txt
    local well=no
    "$top/tools/run-list" list.txt --fmpsim ./missing > made 2> told
    [ $? = 3 ] && [ ! -s made ] && [ "$(cat told)" = 'run-list: ./missing: there is no such program: name it with --fmpsim' ] && well=yes
    count "$well" '#' tools/run-list '#' without a program
    # words that would end XML or a line do not
    printf 'a shown explore machine.cfg scripts.txt --ticks 0 --turns 9 --find "E_PAR & \033]]> <b>"\n' > list.txt
    "$top/tools/run-list" list.txt --fmpsim "$program" --junit made.xml > made 2> told
    [ $? = 5 ] && has_cases 1 1 0
    count "$(said $?)" '#' tools/run-list '#' words of XML
}

# refuses STATUS TOLD [TEXT]: this list is not played, and this is told.
refuses() {
    local well=no
    [ $# = 2 ] || printf '%b' "$3" > list.txt
    "$top/tools/run-list" list.txt --fmpsim "$program" > made 2> told
    [ $? = "$1" ] && [ "$(cat told)" = "$2" ] && [ ! -s made ] && well=yes
    [ $well = yes ] || cat made told
    count "$well" '#' tools/run-list '#' "${3-}"
}
