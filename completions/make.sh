#!/usr/bin/env bash
# Makes the completions of bash, zsh and fish from what `fmpsim --help` and the help of each command tell.
# make.sh PROGRAM: writes fmpsim.bash, _fmpsim and fmpsim.fish into the current folder.
set -eu
program=$1

# the commands, with what each is about after a tab
commands() {
    "$program" --help | sed -nE '/^Commands:/,/^$/s/^  ([a-z]+) +(.*)$/\1\t\2/p'
}

# the options of a command, each with the name of its value, or `-`, and what it is about
options() {
    "$program" "$1" --help | sed -n '/^Options:/,/^$/p' \
        | sed -nE 's/^ +(-[a-z], )?--([a-z]+) <([A-Z]+)> +(.*)$/\2\t\3\t\4/p; s/^ +(-[a-z], )?--([a-z]+) +(.*)$/\2\t-\t\3/p'
}

# what the option of all commands is about
about_diagnostics() {
    "$program" --help | sed -nE 's/^ +--diagnostics=<FORM> +(.*)$/\1/p'
}

# as it stands between single quotes, in each of these shells
quoted() {
    sed "s/'/'\\\\''/g"
}

names() {
    cut -f 1 | paste -s -d ' '
}

for_bash() {
    local command
    echo '# Completion of fmpsim for bash: source this file, or put it as `fmpsim` where bash-completion looks.'
    echo '_fmpsim() {'
    echo '    local word=${COMP_WORDS[COMP_CWORD]} words='
    echo '    COMPREPLY=()'
    echo '    case $COMP_CWORD,${COMP_WORDS[1]},$word in'
    echo "        1,*) words='$(commands | names) --help --version' ;;"
    for command in $(commands | names); do
        [ "$command" = help ] || echo "        *,$command,-*) words='$(options "$command" | sed 's/^/--/' | names) --diagnostics=gcc' ;;"
    done
    echo "        2,help,*) words='$(commands | names)' ;;"
    echo '        2,list,*) words=$("${COMP_WORDS[0]}" list 2> /dev/null | grep -owE "^([a-z][a-z0-9_]*|[A-Z][A-Z0-9_]*)") ;;'
    echo '    esac'
    echo '    mapfile -t COMPREPLY < <(compgen -W "$words" -- "$word")'
    echo '}'
    echo 'complete -o default -F _fmpsim fmpsim'
}

for_fish() {
    local command about option value
    echo '# Completion of fmpsim for fish: put this file where fish looks for completions.'
    while IFS=$'\t' read -r command about; do
        echo "complete -c fmpsim -n __fish_use_subcommand -f -a $command -d '$about'"
        [ "$command" = help ] || while IFS=$'\t' read -r option value about; do
            case $value in
                -) value= ;;
                TRACE | FILE | DIR) value=' -r' ;;
                WHEN) value=" -x -a 'auto always never'" ;;
                *) value=' -x' ;;
            esac
            echo "complete -c fmpsim -n '__fish_seen_subcommand_from $command' -l $option$value -d '$about'"
        done < <(options "$command" | quoted)
    done < <(commands | quoted)
    echo "complete -c fmpsim -l diagnostics -x -a 'plain gcc' -d '$(about_diagnostics | quoted)'"
    echo "complete -c fmpsim -n '__fish_seen_subcommand_from list' -a \"(fmpsim list | string match -r '^(?:[a-z][a-z0-9_]*|[A-Z][A-Z0-9_]*)\b')\""
}

for_zsh() {
    local command about option value
    echo '#compdef fmpsim'
    echo '# Completion of fmpsim for zsh: put this file into a folder of $fpath.'
    echo '_fmpsim() {'
    echo '    local context state line'
    echo "    _arguments -C '--help[Print help]' '--version[Print version]' '1:command:->command' '*::word:->words'"
    echo '    case $state,$line[1] in'
    echo '        command,*)'
    echo '            local -a commands=('
    commands | quoted | sed -E "s/^([a-z]+)\t(.*)$/                '\1:\2'/"
    echo '            )'
    echo '            _describe command commands ;;'
    for command in $(commands | names); do
        [ "$command" = help ] && continue
        echo "        words,$command)"
        echo '            _arguments \'
        options "$command" | quoted | sed -E "s/^([a-z]+)\t-\t(.*)$/                '--\1[\2]' \\\\/; s/^([a-z]+)\t(TRACE|FILE)\t(.*)$/                '--\1=[\3]:\2:_files' \\\\/; s/^([a-z]+)\tWHEN\t(.*)$/                '--\1=[\2]:WHEN:(auto always never)' \\\\/; s/^([a-z]+)\tDIR\t(.*)$/                '--\1=[\2]:DIR:_files -\\/' \\\\/; s/^([a-z]+)\t([A-Z]+)\t(.*)$/                '--\1=[\3]:\2:' \\\\/"
        echo "                '--diagnostics=[$(about_diagnostics | quoted)]:FORM:(plain gcc)' \\"
        if [ "$command" = list ]; then
            echo "                '1:name:{ compadd -- \${(f)\"\$(fmpsim list 2> /dev/null | grep -owE \"^([a-z][a-z0-9_]*|[A-Z][A-Z0-9_]*)\")\"}; _files }' ;;"
        else
            echo "                '*:file:_files' ;;"
        fi
    done
    echo '    esac'
    echo '}'
    echo '_fmpsim "$@"'
}

for_bash > fmpsim.bash
for_zsh > _fmpsim
for_fish > fmpsim.fish
