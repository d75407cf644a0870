# The machine in process: a program in C with the library steps through the cases and compares each line with the trace of the case, by text and
# by numbers, and is told what is wrong where it gives what is wrong. The host's programs, with the library in them, have to find what is known of
# them. `make library` makes the library of what is proved; where there is none, this is left out.

in_process() {
    local library=$top/out/libfmp.a compiler
    if [ ! -e "$library" ]; then
        left_out 'there is no out/libfmp.a, which make library makes' 'the library in process'
        return
    fi
    for compiler in gcc clang; do
        if ! command -v "$compiler" > found; then
            left_out "there is no $compiler" "the library in process with $compiler"
            continue
        fi
        "$compiler" -std=c11 -Wall -Wextra -Werror -I"$top/include" -o "stepper-$compiler" "$top/tests/program/in_process.c" "$library" ||
            count no "$compiler" in_process.c
        is_told "$compiler"
        PYTHONDONTWRITEBYTECODE=1 python3 "$top/tests/program/in_process.py" "$program" "./stepper-$compiler" > played
        add_played
    done
    if command -v valgrind > found && [ -x stepper-gcc ]; then
        PYTHONDONTWRITEBYTECODE=1 python3 "$top/tests/program/in_process.py" "$program" ./stepper-gcc valgrind > played
        add_played
    else
        left_out 'there is no valgrind' 'the library in process under valgrind'
    fi
    if [ -x stepper-gcc ] && command -v make > found; then
        python3 "$top/host/tests/play" --fmpsim "$program" --out "$PWD/built" --library "$library" --cc gcc build known judged > played
        add_played
    else
        left_out 'there is no gcc or no make' 'the host with the library'
    fi
}

# What the stepper says to what is wrong: tests/program/in_process.txt, worked out by hand from include/fmp.h.
is_told() {
    local well=no
    printf 'PROCESSORS(2);\nDEF_CLASS(C, 1, {1, 2});\nCLASS(C) { CRE_TSK(T, {TA_ACT, 0, t, 5, 1, NULL}); CRE_FLG(F, {TA_NULL, 0}); }\n' > two.cfg
    "./stepper-$1" wrong two.cfg > told && diff "$top/tests/program/in_process.txt" told && well=yes
    count "$well" "in_process wrong ($1)"
}

# Adds what the last line says, and tells the rest.
add_played() {
    sed '$d' played
    if [[ $(tail -n 1 played) =~ ^([0-9]+)\ passed,\ ([0-9]+)\ failed$ ]]; then
        passed=$((passed + BASH_REMATCH[1]))
        failed=$((failed + BASH_REMATCH[2]))
    else
        count no tests/program/in_process.py
    fi
}
