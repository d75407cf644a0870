# The player of tests/cases itself: a case that says nothing, or not what it means, is a failure with a clear message.

player() {
    write_cases
    plays 0 '' '1 passed, 0 failed' right.test
    plays 0 '' '3 passed, 0 failed' right.table
    refuses_case 'status 0 in place of 1' 's/^--- wrong/--- status\n1\n&/'
    refuses_case "-1 P1 T tick takem" '/^--- trace/,$s/taken/takem/'
    refuses_case '+1 P1 T ipi none' '/^--- events/,/^--- trace/s/tick/ipi/'
    refuses_case "-fmpsim: events: line 1: E1 bad byte" 's/^--- wrong/--- errors\nfmpsim: events: line 1: E1 bad byte\n&/'
    refuses_case 'the answer of the last line differs' 's/^--- trace/--- answer/; s/^1 P1 T tick taken/takem/; /^--- wrong/,$d'
    refuses_case '+  P1 act_tsk(T9)' 's/^P1 tick/P1 act_tsk(T9)\n--- status\n1\n--- errors\nfmpsim: events: line 1: E3 unknown name\n'\
'--- errors --context\nfmpsim: events: line 1: E3 unknown name/; /^--- trace/,$d'
    refuses_case 'it does not begin with its story' '1s/.*/#/'
    refuses_case "a line before the first part: P1 tick" '1s/$/\nP1 tick/'
    refuses_case "unknown part 'wrongs'" 's/^--- wrong/&s/'
    refuses_case "part 'trace' stands twice" 's/^--- wrong/--- trace/'
    refuses_case "it has no part 'machine.cfg'" '/^--- machine/,/^CLASS/d'
    refuses_case "it has no part 'trace'" '/^--- trace/,$d'
    refuses_case "it has no part 'events', 'scripts', 'trace' or 'list'" '/^--- events/,$d'
    refuses_case 'it has events and scripts' 's/^--- wrong/--- scripts/'
    refuses_case "it has scripts, and no part 'words'" '/^--- wrong/,$d; s/^--- events/--- scripts/; s/^P1 tick//'
    refuses_case "a case with events has no part 'words'" 's/^--- wrong/--- words/'
    refuses_case "a case with events has no part 'list'" 's/^--- wrong/--- list/'
    refuses_case "a case with a list has no part 'trace'" '/^--- events/,/^P1 tick/d; s/^--- wrong/--- list/'
    refuses_case "a case with a trace alone has no part 'wrong'" '/^--- events/,/^P1 tick/d'
    refuses_case 'it has a trace, and nothing says what is told of it' '/^--- events/,/^P1 tick/d; /^--- wrong/,$d'
    refuses_case 'its status is no number' 's/^--- wrong/--- status\nnone\n&/'
    refuses_case 'wrong line 1 is the right one' 's/none/taken/'
    refuses_case "no line of the trace has the number of the wrong line" '$s/^1/2/'
    refuses_case "its part 'wrong' has no line" '$d'
    refuses_table 'row 2 has 3 fields, and there are 2 columns' 's/^ipi\t.*/&\tmore/'
    refuses_table "column 'answer' is used nowhere" 's/{answer}/taken/'
    refuses_lists
    refuses_table "a table has no part 'columns'" '/^--- columns/,/^event/d'
    refuses_table 'a table has no rows' '/^tick\t/d; /^ipi\t/d; /^get/d'
    refuses_a_line_more
    plays 1 'no case is called missing' '0 passed, 1 failed' missing
    program=$PWD/missing plays 1 'there is no program' '0 passed, 1 failed' right.test
}

# Of each part that says what the program does, the first case that has it, with a line more there.
refuses_a_line_more() {
    local part name
    for part in trace states wave list check 'check --show' 'check --all' wrong status errors; do
        name=$(grep -rlx --include='*.test' -e "--- $part" "$top/tests/cases" | sort | head -n 1)
        if [ -z "$name" ]; then
            count no '# no case has a part' "$part"
            continue
        fi
        sed "/^--- $part\$/a more" "$name" > wrong.test
        plays 1 "FAILED $PWD/wrong.test" '0 passed, 1 failed' "$PWD/wrong.test"
    done
}

# What is listed of a configuration, as a case and as a table, and a fault. Then the class is another one, in the case and in a row of the
# table, the status too, and the fault is told otherwise, or without what stands beside it.
refuses_lists() {
    local fault='fmpsim: machine.cfg: line 2: F7 value out of range'
    sed -n '1,/^DEF_CLASS/p' right.test > list.test
    printf -- '--- list\nprocessors 1\ntimer local\nlimits wupcnt 1 pri 16\nclass C initial P1 processors P1\n' >> list.test
    {
        printf '# Two names.\n--- columns\nname\n--- rows\nC\nD\n'
        sed '1d; s/\<C\>/{name}/' list.test
    } > list.table
    plays 0 '' '1 passed, 0 failed' list.test
    plays 0 '' '2 passed, 0 failed' list.table
    sed 's/^class C/class D/' list.test > wrong.test
    plays 1 '-class D initial P1' '0 passed, 1 failed' "$PWD/wrong.test"
    sed 's/^class {name}/class C/' list.table > wrong.table
    plays 1 '+class D initial P1' '1 passed, 1 failed' "$PWD/wrong.table"
    { cat list.test && printf -- '--- status\n1\n'; } > wrong.test
    plays 1 'status 0 in place of 1' '0 passed, 1 failed' "$PWD/wrong.test"
    { sed -n '1,/^PROCESSORS/p' right.test && printf 'LIMITS(0, 16);\n--- list\n--- status\n1\n--- errors\n'; } > list.test
    { cat list.test && echo "$fault"; } > right_fault.test
    plays 0 '' '1 passed, 0 failed' right_fault.test
    { cat list.test && echo 'fmpsim: machine.cfg: line 2: F9 too many'; } > wrong.test
    plays 1 "+$fault" '0 passed, 1 failed' "$PWD/wrong.test"
    { cat list.test && printf '%s\n' "$fault" '--- errors --context' "$fault"; } > wrong.test
    plays 1 '+  LIMITS(0, 16);' '0 passed, 1 failed' "$PWD/wrong.test"
}

# One case that passes, and a table of three.
write_cases() {
    cat > right.test << 'END'
# The tick is taken.
--- machine.cfg
PROCESSORS(1);
DEF_CLASS(C, 1, {1});
CLASS(C) { CRE_TSK(T, {TA_ACT, 0, main, 1, 4096, NULL}); }
--- events
P1 tick
--- trace
1 P1 T tick taken
--- wrong
1 P1 T tick none
END
    {
        printf '# What happens to a task that runs.\n--- columns\nevent\tanswer\n--- rows\n'
        printf 'tick\ttaken\nipi\tnone\nget_tid()\tE_OK:1\n'
        sed -n '/^--- machine/,/^CLASS/p' right.test
        printf -- '--- events\nP1 {event}\n--- trace\n1 P1 T {event} {answer}\n'
    } > right.table
}

# plays STATUS MESSAGE LAST NAME: the player ends so on this case, tells this, and its last line is like the pattern LAST.
plays() {
    local well=no
    "$top/tests/play" -p "$program" "$4" > told 2>&1
    [ $? = "$1" ] && grep -qF -e "$2" told && [[ $(tail -n 1 told) = $3 ]] && well=yes
    [ "$well" = yes ] || cat told
    count "$well" '#' tests/play "$4" "$2"
}

# refuses_case MESSAGE EDIT, refuses_table MESSAGE EDIT: with this edit by sed the case, or the table, fails with this message.
refuses_case() {
    sed "$2" right.test > wrong.test
    plays 1 "$1" '0 passed, 1 failed' "$PWD/wrong.test"
}

refuses_table() {
    sed "$2" right.table > wrong.table
    plays 1 "$1" '? passed, 1 failed' "$PWD/wrong.table"
}
