# Completion of fmpsim for bash: source this file, or put it as `fmpsim` where bash-completion looks.
_fmpsim() {
    local word=${COMP_WORDS[COMP_CWORD]} words=
    COMPREPLY=()
    case $COMP_CWORD,${COMP_WORDS[1]},$word in
        1,*) words='calls check wave view smp explore shrink list help --help --version' ;;
        *,calls,-*) words='--state --changes --of --context --color --help --diagnostics=gcc' ;;
        *,check,-*) words='--show --all --partial --order --context --help --diagnostics=gcc' ;;
        *,wave,-*) words='--gtkw --context --help --diagnostics=gcc' ;;
        *,view,-*) words='--differences --partial --context --help --diagnostics=gcc' ;;
        *,smp,-*) words='--ticks --turns --seed --seeds --find --late --stalls --seconds --strict --progress --context --color --help --diagnostics=gcc' ;;
        *,explore,-*) words='--ticks --turns --find --most --prompt --drift --pace --spurious --places --memory --from --seconds --questions --tap --junit --traces --progress --context --help --diagnostics=gcc' ;;
        *,shrink,-*) words='--find --runs --context --help --diagnostics=gcc' ;;
        *,list,-*) words='--context --help --diagnostics=gcc' ;;
        2,help,*) words='calls check wave view smp explore shrink list help' ;;
        2,list,*) words=$("${COMP_WORDS[0]}" list 2> /dev/null | grep -owE "^([a-z][a-z0-9_]*|[A-Z][A-Z0-9_]*)") ;;
    esac
    mapfile -t COMPREPLY < <(compgen -W "$words" -- "$word")
}
complete -o default -F _fmpsim fmpsim
