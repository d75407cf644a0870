# Words of the command line that are refused, and help.

command_lines() {
    write_again
    run 2 /dev/null "$(as_file echo fmpsim: a word of the command line is not UTF-8)" calls "$late/machine.cfg" $'\xff'
    refused_lines
    options_anywhere
    numbers_expected
    usage 0 output errors --help
    usage 0 output errors calls --help
    usage 0 output errors check --help
    usage 0 output errors wave --help
    usage 0 output errors view --help
    usage 0 output errors smp --help
    usage 0 output errors explore --help
    usage 0 output errors shrink --help
    usage 0 output errors list --help
}

# Lines that are no command: why stands on standard error, mostly with the usage, and nothing is done.
refused_lines() {
    local line words
    while IFS= read -r line; do
        read -ra words <<< "$line"
        usage 2 errors output "${words[@]}"
    done <<- END

	call machine.cfg events.txt
	machine.cfg events.txt
	calls
	calls machine.cfg
	calls machine.cfg events.txt more
	calls --fast machine.cfg events.txt
	calls --all machine.cfg events.txt
	calls --show machine.cfg events.txt
	calls --changes --state machine.cfg events.txt
	calls --of T1 machine.cfg events.txt --changes
	check machine.cfg
	check machine.cfg trace.txt more
	check --show --all machine.cfg trace.txt
	check --all --partial --order machine.cfg trace.txt
	check --partial --partial machine.cfg trace.txt
	check --order --all machine.cfg trace.txt
	check --show --order machine.cfg trace.txt
	check --partial --show --order machine.cfg trace.txt
	check --order --order machine.cfg trace.txt
	calls --order machine.cfg events.txt
	check --all --all machine.cfg trace.txt
	check --state machine.cfg trace.txt
	check --changes machine.cfg trace.txt
	wave machine.cfg
	wave machine.cfg trace.txt more
	wave --show machine.cfg trace.txt
	wave --partial machine.cfg trace.txt
	wave --gtkw
	wave --gtkw machine.cfg trace.txt
	wave machine.cfg trace.txt --gtkw
	wave --gtkw --gtkw machine.cfg
	view --gtkw machine.cfg
	view machine.cfg
	view machine.cfg trace.txt more
	view --all machine.cfg trace.txt
	view --differences machine.cfg
	view --differences --differences machine.cfg trace.txt
	view --partial machine.cfg
	view --partial --partial machine.cfg trace.txt
	view --partial --order machine.cfg trace.txt
	wave --differences machine.cfg trace.txt
	list act_tsk sig_sem
	list machine.cfg events.txt
	list --state machine.cfg
	smp machine.cfg scripts.txt
	smp machine.cfg scripts.txt --ticks 0
	smp machine.cfg scripts.txt --turns 1
	smp machine.cfg --ticks 0 --turns 1
	shrink machine.cfg events.txt
	shrink machine.cfg --find end
	shrink machine.cfg events.txt events.txt --find end
	shrink machine.cfg events.txt --find end --find end
	shrink machine.cfg events.txt --runs
	shrink machine.cfg events.txt --find end --runs --runs
	calls --runs machine.cfg events.txt
	explore machine.cfg scripts.txt --ticks 1 --turns 1
	explore machine.cfg --ticks any --turns 1 --find end
	explore machine.cfg scripts.txt --ticks any --turns 0 --find end
	explore machine.cfg scripts.txt --ticks all --turns 1 --find end
	explore machine.cfg scripts.txt --ticks 1000001 --turns 1 --find end
	explore machine.cfg scripts.txt --ticks any --turns 1000001 --find end
	explore machine.cfg scripts.txt --ticks any --turns 1 --find end --drift 0
	explore machine.cfg scripts.txt --ticks any --turns 1 --find end --places 0
	explore machine.cfg scripts.txt --ticks any --turns 1 --find end --places 100000001
	explore machine.cfg scripts.txt --memory 0
	explore machine.cfg scripts.txt --memory 1
	explore machine.cfg scripts.txt --memory 4X
	explore machine.cfg scripts.txt --memory 4m
	explore machine.cfg scripts.txt --memory M
	explore machine.cfg scripts.txt --memory=
	explore machine.cfg scripts.txt --memory 1023K
	explore machine.cfg scripts.txt --memory 1025G
	explore machine.cfg scripts.txt --memory 18446744073709551616K
	explore machine.cfg scripts.txt --memory 1M --memory 1M
	explore machine.cfg scripts.txt --most --find end
	explore machine.cfg scripts.txt --most --from trace.txt
	explore machine.cfg scripts.txt --most --questions machine.cfg
	explore machine.cfg scripts.txt --most --tap
	explore machine.cfg scripts.txt --most --junit all.xml
	explore machine.cfg scripts.txt --most --traces begun
	explore machine.cfg scripts.txt --most --most
	END
    while IFS= read -r line; do
        read -ra words <<< "$line"
        refused "${words[@]}"
    done <<- END
	check --show=yes machine.cfg trace.txt
	view --differences=yes machine.cfg trace.txt
	calls --state=yes machine.cfg events.txt
	calls --changes=yes machine.cfg events.txt
	calls --color=sometimes machine.cfg events.txt
	smp machine.cfg scripts.txt --ticks 0 --turns 1 --color=yes
	smp machine.cfg scripts.txt --ticks 0 --turns 1000001
	smp machine.cfg scripts.txt --ticks 0 --turns 1 --seed 18446744073709551616
	END
}

# An option stands before, between or behind the paths, and the run is the same one.
options_anywhere() {
    sed '3s/taken/none/' "$late/trace.txt" > other.txt
    "$program" calls --state "$late/machine.cfg" "$late/events.txt" > with_states
    run 0 with_states /dev/null calls "$late/machine.cfg" --state "$late/events.txt"
    run 0 with_states /dev/null calls "$late/machine.cfg" "$late/events.txt" --state
    "$program" check --all "$late/machine.cfg" other.txt > each
    run 5 each /dev/null check "$late/machine.cfg" --all other.txt
    run 5 each /dev/null check "$late/machine.cfg" other.txt --all
    run 0 "$spin/trace.txt" /dev/null smp --turns 100 --seed 11 "$spin/machine.cfg" --ticks 1 "$spin/scripts.txt"
    run 0 "$spin/trace.txt" /dev/null smp --context "$spin/machine.cfg" "$spin/scripts.txt" --ticks 1 --turns 100 --seed 11
    run 0 "$late/trace.vcd" /dev/null wave --context "$late/machine.cfg" "$late/trace.txt"
    run 0 "$late/trace.gtkw" /dev/null wave --gtkw --context "$late/machine.cfg"
    "$program" view --differences "$late/machine.cfg" other.txt > page
    run 5 page /dev/null view "$late/machine.cfg" other.txt --differences
    run 5 page /dev/null view "$late/machine.cfg" --differences other.txt --context
}

# Of a number of smp that is none, or out of its range, it is told which one is expected, and of `any` where it goes.
numbers_expected() {
    local ticks='fmpsim: --ticks: a number from 0 to 1000000 is expected' seed='fmpsim: --seed: a number from 0 to 18446744073709551615 is expected'
    run 2 /dev/null "$(as_file echo 'fmpsim: --turns: a number from 1 to 1000000 is expected')" smp again.cfg again.txt --ticks 0 --turns 0
    run 2 /dev/null "$(as_file echo "$ticks")" smp again.cfg again.txt --ticks 1000001 --turns 1
    run 2 /dev/null "$(as_file echo "$ticks")" smp again.cfg again.txt --ticks=many --turns 1
    run 2 /dev/null "$(as_file printf '%s\n' "$ticks" '  `any` goes with explore alone')" smp again.cfg again.txt --ticks any --turns 1
    run 2 /dev/null "$(as_file echo "$seed")" smp again.cfg again.txt --ticks 0 --turns 1 --seed none
    run 2 /dev/null "$(as_file echo "$seed")" smp again.cfg again.txt --ticks 0 --turns 1 --seed 18446744073709551616
    near_option
}

# told_last LINE WORD..: these words are refused, and this is the last line that is told.
told_last() {
    local well=no
    play "${@:2}"
    [ $? = 2 ] && [ "$(tail -n 1 errors)" = "  $1" ] && [ ! -s output ] && well=yes
    count "$well" "${@:2}"
}

# `-v` is no option, and `-V` is near. Other options are those of another command, a question of several words has to be in quotation marks,
# and no number has a sign.
near_option() {
    local texts=("$late/machine.cfg" "$spin/scripts.txt")
    local sign='no number has a sign: the least is 0 for --ticks and --seed, and 1 for any other option'
    local quoted="a question of several words stands in quotation marks: --find 'T1 waits'"
    local orders='this goes with explore, which goes through every order' find='a question is asked by explore, by smp with `--seeds`, and by shrink'
    local seeds='explore goes through every order, so that it has no seeds: smp has them' output='what is made goes to standard output: `> FILE` writes it into a file'
    told_last 'near: -V, which prints the version' -v
    told_last 'near: smp, which runs scripts, and calls, which plays events' simulate "${texts[@]}"
    told_last 'near: smp, which runs scripts, and calls, which plays events' run "${texts[@]}"
    told_last "$output" calls "${texts[@]}" -o trace.txt
    told_last "$output" wave "${texts[@]}" --output=trace.vcd
    told_last "$seeds" explore "${texts[@]}" --seed 3
    told_last "$seeds" explore "${texts[@]}" --seeds=0..9
    told_last '`--strict` goes with smp; explore tells with `--find deadlock` whether a task can wait for ever' explore "${texts[@]}" --strict
    told_last "$orders" smp "${texts[@]}" --ticks 1 --turns 9 --questions asked.txt
    told_last "$orders" smp "${texts[@]}" --ticks 1 --turns 9 --drift 2
    told_last "$orders" smp "${texts[@]}" --ticks 1 --turns 9 --pace 2
    told_last "$find" calls "${texts[@]}" --find end
    told_last "$find" check "${texts[@]}" --find=end
    told_last 'the events say where ticks come: `P1 tick`' calls "${texts[@]}" --ticks 3
    told_last 'the state before the first line that differs is shown by `check --show`, all states by `calls --state`' check "${texts[@]}" --state
    told_last '`--show` goes with check; the states are shown by `calls --state`' calls "${texts[@]}" --show
    told_last 'the trace that is found is a text for `check`, `wave` and `view`, and `tools/from-trace` makes events of it for `calls --state`' \
        explore "${texts[@]}" --state
    told_last "$sign" explore "${texts[@]}" --ticks -1
    told_last "$sign" smp "${texts[@]}" --ticks -1 --turns 5
    told_last "$quoted" explore "${texts[@]}" --find T1 waits
    told_last "$quoted" shrink "${texts[@]}" --find T1 waits
    # of a line that is refused for something else nothing of this is told
    play explore "${texts[@]}" --find 'T1 waits' --bogus
    count "$(! grep -qE 'quotation|sign|near' errors && echo yes || echo no)" explore --bogus
}
