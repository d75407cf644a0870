# Unchanged C on the kernel: the library of host is built by each compiler that is there, with programs whose findings are known, and what
# host/tests/play has for the gate is played on this program. `make -C host check-all` plays more.

host() {
    local compilers=() compiler needed
    for needed in make ld objcopy ar nm addr2line; do
        if ! command -v "$needed" > found; then
            left_out "there is no $needed" host
            return
        fi
    done
    for compiler in gcc clang; do
        if command -v "$compiler" > found; then
            compilers+=("$compiler")
        else
            left_out "there is no $compiler" "host with $compiler"
        fi
    done
    ((${#compilers[@]} > 0)) || return
    python3 "$top/host/tests/play" --fmpsim "$program" --out "$PWD/built" --cc "$(IFS=, && echo "${compilers[*]}")" > played
    # it counts for itself
    sed '$d' played
    if [[ $(tail -n 1 played) =~ ^([0-9]+)\ passed,\ ([0-9]+)\ failed$ ]]; then
        passed=$((passed + BASH_REMATCH[1]))
        failed=$((failed + BASH_REMATCH[2]))
    else
        count no host/tests/play
    fi
}
