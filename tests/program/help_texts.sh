# What the program tells of itself: its help is written or that fails, its version is that of the manual and of CHANGELOG.md, and its exit
# statuses are told as in the manual and in docs/formats/faults.md.

help_texts() {
    local command version told well
    # what each status means, wherever it is told, and which ones a command may end with
    local means=('done|yes|all ticks were taken|never' 'a fault in a text|a text has a fault' 'the command line is wrong'
        'output (could )?not be written' 'want of memory|memory ran out' '\bno\b|not the machine|shows it' 'turns|not known' 'a task waits')
    local -A statuses=([calls]='0 1 2 3 4' [check]='0 1 2 3 4 5 6' [wave]='0 1 2 3 4 5' [view]='0 1 2 3 4 5 6' [smp]='0 1 2 3 4 5 6 7' [explore]='0 1 2 3 4 5 6' [shrink]='0 1 2 3 4 5' [list]='0 1 2 3 4')
    version=$(sed -nE 's/^\.TH FMPSIM 1 "" "(fmpsim [0-9.]+)" .*/\1/p' "$top/man/fmpsim.1")
    # a program that was built without a proof says so
    told=$version
    [ "$kind" != unproved ] || told+=' unproved build'
    run 0 "$(as_file echo "$told")" /dev/null --version
    unwritten --version
    well=no
    [ "$(sed -nE 's/^## (fmpsim [0-9.]+).*/\1/p' "$top/CHANGELOG.md" | head -n 1)" = "$version" ] && well=yes
    count "$well" '# the version of CHANGELOG.md'
    unwritten --help
    for command in calls check wave view smp explore shrink list; do
        unwritten "$command" --help
        well=no
        play "$command" --help
        told "${statuses[$command]}" < "$(sed '1,/^Exit status:/d' output | sed -E ':all; N; $!b all; s/\n {3,}/ /g; s/(^|\n) +/\1/g' | as_file)" && well=yes
        count "$well" "$command" --help '# its exit statuses'
    done
    well=no
    told '0 1 2 3 4 5 6 7' < "$(sed -n '/^\.SH EXIT STATUS/,/^\.SH EXAMPLES/p' "$top/man/fmpsim.1" | manual_items | as_file)" && well=yes
    count "$well" '# exit statuses in the manual'
    well=no
    told '0 1 2 3 4 5 6 7' < "$(sed -n '/^## Exit statuses/,$p' "$top/docs/formats/faults.md" | sed -nE 's/^\| ([0-9]) \| (.*) \|$/\1 \2/p' | as_file)" && well=yes
    count "$well" '# exit statuses in docs/formats/faults.md'
}

# told STATUSES: standard input has a line for each of these statuses and no other, which says what the status means.
told() {
    local status words all=
    while read -r status words; do
        all+="$status "
        if [[ ! $status =~ ^[0-7]$ ]] || ! grep -qiE "${means[status]}" <<< "$words"; then
            echo "status $status: $words"
            return 1
        fi
    done
    [ "$all" = "$1 " ]
}

# The items of a list of the manual, each in a line.
manual_items() {
    awk '/^\.TP/ { if (item) print item; item = ""; begun = 1; next }
         /^\.SH/ || !begun { next }
         { sub(/^\.BR? /, ""); gsub(/\\/, ""); item = item (item ? " " : "") $0 }
         END { print item }'
}
