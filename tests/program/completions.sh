# The completions and the manual are what the program's help makes. The completions work in bash, and the manual has the options of each command.

completions() {
    local command same=yes right=no
    (mkdir -p made && cd made && "$top/completions/make.sh" "$program" && "$top/man/make" "$program") || same=no
    for command in completions/fmpsim.bash completions/_fmpsim completions/fmpsim.fish man/fmpsim.1; do
        diff "$top/$command" "made/${command#*/}" || same=no
    done
    # each quote is closed, as zsh and fish close them, too
    bash -n "$top/completions/_fmpsim" && bash -n "$top/completions/fmpsim.fish" || same=no
    count "$same" --help
    [ "$(completed calls --)" = "$(long_options calls && echo --diagnostics=gcc)" ] && [ "$(completed smp --t)" = $'--ticks\n--turns' ] \
        && [ "$(completed list twai_s)" = twai_sem ] && [ "$(completed l)" = list ] && [ -z "$(completed calls x)" ] && [ -z "$(completed list Ser)" ] && right=yes
    count "$right" '<Tab>'
    # a value that is a file or a folder is completed as one, and one of a few words by these
    right=yes
    grep -E ":(FILE|TRACE|DIR|WHEN):'" "$top/completions/_fmpsim" && right=no
    grep -E -- '-l (from|questions|junit|traces) -x' "$top/completions/fmpsim.fish" && right=no
    [ "$(grep -c -- "-l color -x -a 'auto always never'" "$top/completions/fmpsim.fish")" = 2 ] || right=no
    count "$right" '<Tab>' '# after an option with a value'
    for command in $(sed -nE "s/.* words='(.*) help --help --version'.*/\1/p" "$top/completions/fmpsim.bash"); do
        same=no
        diff "$(long_options "$command" | grep -vx -e --help | as_file)" \
            "$(sed -n "/^\.SS $command\$/,/^\.S[SH]/p" "$top/man/fmpsim.1" | sed -nE 's/^\.BI? \\-\\-([a-z]+).*/--\1/p' | as_file)" && same=yes
        count "$same" "$command" --help '# as in the manual'
    done
}

# completed WORD..: what the completion of bash makes of the last of these words.
completed() (
    # shellcheck source=/dev/null
    source "$top/completions/fmpsim.bash"
    # shellcheck disable=SC2034 # the completion reads these
    COMP_WORDS=("$program" "$@") COMP_CWORD=$#
    _fmpsim
    printf '%s\n' "${COMPREPLY[@]}"
)

# long_options COMMAND: the options in the help of a command.
long_options() {
    "$program" "$1" --help | sed -nE '/^Options:/,/^$/s/^ +(-[a-z], )?(--[a-z]+) .*/\2/p'
}
