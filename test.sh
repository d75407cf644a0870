#!/usr/bin/env bash
# The whole test: rt ci, the tests in Rattle, and then the two programs that it built, by all else that stands under tests. The last line is
# 'N passed, M failed', over everything, and the status is 0 only where nothing failed.
#
#     ./test.sh                         all of it
#     ./test.sh --runs                  the two programs only, as they were built last
#     ./test.sh --unproved [PROGRAM]    in minutes: a program that is built without a proof, or was by `make unproved`
#
# What could not be played here, for want of a browser or of a compiler of C, stands before that line: 'left out: ..'.
set -u
exec < /dev/null
top=$(dirname "$(realpath "${BASH_SOURCE[0]}")")
room=$(mktemp -d) || exit 1
trap end EXIT
passed=0 failed=0 proved='' left=$room/left_out
declare -A running=()

# What is run of a program beside the cases: the function of this name, in the file of this name in tests/program. As many are played beside
# one another as there are processors, each in a folder of its own, so those that take longest come first.
subjects=(processors greatest_texts host board in_process lives player from_toppers random_events searches refused_growth reports little_memory from_log to_log
    lists seeds views looks from_trace perfetto pipes waves colours contexts command_lines pages page_texts devices_that_fail examples long_lines completions editors
    scripts questions shrinking help_texts diagnostics states changes host_tests paths texts_at_fault installing archive wrong_bodies run_lists many_events patterns want_of_memory)

# Nothing that was begun goes on, and no file stays.
end() {
    local process
    for process in "${running[@]}"; do
        kill -KILL -- "-$process" 2> /dev/null
    done
    rm -rf "$room"
}

# add NAME COMMAND..: runs a command that counts for itself, and adds what its last line says. That line is passed on behind its name.
add() {
    local status
    "${@:2}" | tee "$room/told" | sed -u -E "s|$closing|$1: &|"
    status=${PIPESTATUS[0]}
    add_up "$1" "$status" "$room/told"
}
closing='^([0-9]+) passed, ([0-9]+) failed$'

# add_up NAME STATUS FILE: adds what the last line of this file says, which a command wrote that ended so. Without such a line the command died,
# which is a failure, as is a status that it does not explain.
add_up() {
    if [[ $(tail -n 1 "$3") =~ $closing ]]; then
        passed=$((passed + BASH_REMATCH[1]))
        failed=$((failed + BASH_REMATCH[2]))
        (($2 == 0 || BASH_REMATCH[2] > 0)) && return
    fi
    failed=$((failed + 1))
    echo "FAILED: $1 ended with status $2, and counts no failure"
}

# A word of a test that is no command: what it was to check is not checked.
command_not_found_handle() {
    echo "FAILED: there is no $1" | tee -a "$room/missing"
    return 127
}

prove() {
    cd "$top" && add 'rt ci' rt ci
    in_rattle
}

# The tests in Rattle, which are built without a proof.
in_rattle() {
    add 'tests/in_rattle' "$top/tests/in_rattle"
}

# try PROGRAM KIND: plays all cases on a program, and runs all else of it. The kind says how it was built.
try() {
    local subject said=$SECONDS
    # shellcheck disable=SC2034  # the tests look at the kind
    program=$1 kind=$2
    if [ ! -x "$program" ]; then
        count no is not built
        return
    fi
    add 'tests/play' "$top/tests/play" -p "$program"
    for subject in "${subjects[@]}"; do
        while ((${#running[@]} >= $(nproc))); do collect; done
        # in a process group of its own, or a signal that a test sends to a program would be ignored by it
        set -m
        subject "$subject" > "$room/$subject.told" 2>&1 &
        set +m
        running[$subject]=$!
    done
    while ((${#running[@]} > 0)); do collect; done
}

# subject NAME: plays one, in a process of its own. Its last line is what it counts.
subject() {
    passed=0 failed=0 room=$room/$1
    mkdir -p "$room/here" && cd "$room/here" || exit 1
    # shellcheck source=/dev/null
    source "$top/tests/program/$1.sh" && declare -F "$1" > "$room/function" && "$1"
    [ -s "$room/function" ] || count no tests/program/"$1".sh
    [ ! -e "$room/missing" ] || count no tests/program/"$1".sh '# a command that is not there'
    echo "$passed passed, $failed failed"
    ((failed == 0))
}

# Waits a moment, and tells what ended since, each as a whole; in a minute in which none ends it tells what is played.
collect() {
    local subject status
    sleep 0.1
    for subject in "${!running[@]}"; do
        kill -0 "${running[$subject]}" 2> /dev/null && continue
        wait "${running[$subject]}" 2> /dev/null
        status=$?
        unset "running[$subject]"
        sed -E "s|$closing|$subject: &|" "$room/$subject.told"
        add_up "$subject" "$status" "$room/$subject.told"
        rm -rf "${room:?}/$subject" "$room/$subject.told"
        said=$SECONDS
    done
    ((SECONDS - said < 50)) || { echo "played: ${!running[*]}" && said=$SECONDS; }
}

# shellcheck source=tests/program/common.sh
source "$top/tests/program/common.sh"
program=test.sh
for file in "$top"/tests/program/*.sh; do
    name=$(basename "$file" .sh)
    [[ " common ${subjects[*]} " = *" $name "* ]] || count no "$name" is in no list
    ! grep -q '[<>](' "$file" || count no "$name" has a process substitution: see as_file
done
case ${1-} in
    '') prove ;;
    --runs) ;;
    --unproved)
        proved=': nothing was proved'
        [ -n "${2-}" ] || { in_rattle; "$top/tests/unproved" "$room/fmpsim"; }
        try "$(realpath -m "${2:-$room/fmpsim}")" unproved
        ;;
    *) echo 'wanted: ./test.sh [--runs | --unproved [PROGRAM]]' >&2 && exit 2 ;;
esac
if [ -z "$proved" ]; then
    try "$top/crates/fmpsim/out/fmpsim" llvm
    try "$top/crates/fmpsim/out/fmpsim.by-rattle" by-rattle
fi
[ ! -e "$left" ] || echo "left out: $(sort -u "$left" | paste -sd';' | sed 's/;/; /g')"
echo "$passed passed, $failed failed$proved"
[ "$failed" -eq 0 ]
