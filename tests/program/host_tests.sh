# The example in which a test on the host drives the kernel event by event: in Python, and in C where there is a compiler. The program is named
# by its path, and as one that the shell would find.

host_tests() {
    local folder=$top/examples/host-test
    mkdir bin && ln -s "$(realpath "$program")" bin/fmpsim
    drives python3 "$folder/drive.py"
    if ! command -v cc > found; then
        left_out 'there is no compiler of C (cc)' examples/host-test/drive.c
        return
    fi
    cc -std=c99 -Wall -Wextra -Werror -o drive "$folder/drive.c" && drives ./drive
}

# drives COMMAND..: the driver ends well and writes the trace. One that waits for an answer for ever is ended.
drives() {
    local named well
    for named in "$program" fmpsim; do
        well=no
        PATH=$PWD/bin:$PATH timeout --foreground 600 "$@" "$named" "$folder/machine.cfg" > output 2> errors \
            && cmp output "$folder/trace.txt" && [ ! -s errors ] && well=yes
        count "$well" "# $named driven by ${*##*/}"
    done
}
