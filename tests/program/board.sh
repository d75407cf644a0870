# The kit for a board: tests/board/play builds some of its applications on the host of C, which stands for a board, and plays their cases, random lists
# of calls, and kernels that are wrong in one rule. `make -C host check-all` plays all cases.

board() {
    local needed
    for needed in make gcc ld objcopy ar nm cpp; do
        if ! command -v "$needed" > found; then
            left_out "there is no $needed" tools/to-board
            return
        fi
    done
    python3 "$top/tests/board/play" --fmpsim "$program" --out "$PWD/played" > told 2>&1
    # it counts for itself
    sed '$d' told
    if [[ $(tail -n 1 told) =~ ^([0-9]+)\ passed,\ ([0-9]+)\ failed$ ]]; then
        passed=$((passed + BASH_REMATCH[1]))
        failed=$((failed + BASH_REMATCH[2]))
    else
        count no tests/board/play
    fi
}
