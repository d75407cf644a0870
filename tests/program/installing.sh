# `make install` puts the program, its manual and completions, the tools, the pages and the examples below a folder, and `make uninstall` takes
# away these and no more.

installing() {
    local well=no
    if ! command -v make > make_is_here; then
        left_out 'there is no make' make install
        return
    fi
    mkdir -p there/bin there/share/fmpsim/docs && touch there/bin/other there/share/fmpsim/docs/other
    found_in there > others
    make_here PROGRAM=missing install || { found_in there | cmp - others && grep -q 'no program missing' said && well=yes; }
    count "$well" '# make install without a program'
    comes_and_goes there "PREFIX=$PWD/there"
    mkdir -p staged/usr/bin && touch staged/usr/bin/other
    found_in staged/usr > others
    comes_and_goes staged/usr "DESTDIR=$PWD/staged" PREFIX=/usr
}

# comes_and_goes FOLDER WORD..: make with these words installs below this folder, which has the files in `others` before and after.
comes_and_goes() {
    local well=no
    wanted | LC_ALL=C sort -u - others > files
    make_here "${@:2}" "PROGRAM=$program" install && found_in "$1" | diff files - && well=yes || cat said
    count "$well" '# make install' "${@:2}"
    is_same "$1"
    pages_lead "$1/share/fmpsim"
    # a package stands elsewhere when it is made
    mv "$1" moved && tools_run "$PWD/moved/bin" && mv moved "$1"
    well=no
    make_here "${@:2}" uninstall && found_in "$1" | diff others - && [ -z "$(find "$1/share" -path '*/share/fmpsim*' -type d -empty)" ] && well=yes || cat said
    count "$well" '# make uninstall' "${@:2}"
}

# make_here WORD..: make does so with the Makefile.
make_here() {
    make -C "$top" "$@" > said 2>&1
}

# found_in FOLDER: what is below it and is no folder, in order.
found_in() {
    (cd "$1" && find . ! -type d | sed 's|^\./||' | LC_ALL=C sort)
}

# What is installed.
wanted() {
    printf '%s\n' bin/fmpsim bin/fmphost-cfg bin/fmpsim-{from-{toppers,log,trace},to-log,to-perfetto,to-board,run-list} share/man/man1/fmpsim.1 share/bash-completion/completions/fmpsim \
        share/fish/vendor_completions.d/fmpsim.fish share/zsh/site-functions/_fmpsim \
        share/fmpsim/{LICENSE,include/fmp.h,tools/{from-toppers,from-log,to-log,from-trace,to-perfetto,to-board,run-list,{board_case,board_files,board_kit,board_log,board_machine,board_play,c_numbers,fmpsim_program,log_answers,log_calls,log_lines,log_order,log_pools,log_spread,log_tasks,log_written,perfetto_tracks,test_reports,toppers_settings,trace_lines}.py},tests/play,host/{README.md,fmphost.mk},editors/README.md,docs/{BOARD.md,GUIDE.md,GUIDE.ja.md,HOST.md,FORMATS.md,PROFILE.md,DECISIONS.md,DESIGN.md,view.png,wave.png}}
    [ ! -e "$top/out/libfmp.a" ] || printf '%s\n' include/fmp.h lib/libfmp.a
    (cd "$top" && find board tests/cases editors/{vim,vscode} tools/toppers-stub docs/formats examples host/{include,src,gen,programs} -type f | sed 's|^|share/fmpsim/|')
}

# is_same FOLDER: each installed file is the repository's, and may be executed where that one may.
is_same() {
    local file well=yes
    cmp "$program" "$1/bin/fmpsim" && [ "$("$1/bin/fmpsim" --version)" = "$("$program" --version)" ] || well=no
    cmp "$top/man/fmpsim.1" "$1/share/man/man1/fmpsim.1" || well=no
    cmp "$top/completions/fmpsim.bash" "$1/share/bash-completion/completions/fmpsim" || well=no
    cmp "$top/completions/_fmpsim" "$1/share/zsh/site-functions/_fmpsim" || well=no
    cmp "$top/completions/fmpsim.fish" "$1/share/fish/vendor_completions.d/fmpsim.fish" || well=no
    while read -r file; do
        cmp "$top/$file" "$1/share/fmpsim/$file" || well=no
        [ -x "$top/$file" ] && [ ! -x "$1/share/fmpsim/$file" ] && well=no && echo "$file cannot be executed"
    done < "$(sed -n 's|^share/fmpsim/||p' files | grep -v /other | as_file)"
    count "$well" '# what is installed' "$1"
}

# pages_lead FOLDER: each page that the manual names is there, and each link of a page leads to what is there.
pages_lead() {
    local page link well=yes
    grep -o 'docs/[A-Za-z/]*\.md' "$top/man/fmpsim.1" | sort -u > named
    while read -r page; do
        [ -f "$1/$page" ] || { well=no && echo "the manual names $page"; }
    done < named
    [ -s named ] || well=no
    find "$1" -name '*.md' > pages
    while read -r page; do
        while read -r link; do
            [ -e "$(dirname "$page")/$link" ] || { well=no && echo "$page leads to $link"; }
        done < "$(grep -o '](\([^)# ]*\)' "$page" | sed 's/^](//' | grep -v -e '^$' -e '^http' | as_file)"
    done < pages
    count "$well" '# installed pages' "$1"
}

# tools_run FOLDER: the tools there do what they do here.
tools_run() {
    local well=no words
    read -ra words < "$top/tests/kernel_logs/events/words"
    (cd "$top/tests/kernel_logs" && "$1/fmpsim-from-log" "${words[@]}") 2> told | diff "$top/tests/kernel_logs/events/made" - && well=yes
    count "$well" "# $1/fmpsim-from-log"
    well=no
    (cd "$top/tests/kernel_logs" && "$1/fmpsim-to-log" machine.cfg to_log/trace) 2> told | diff "$top/tests/kernel_logs/to_log/log" - && well=yes
    count "$well" "# $1/fmpsim-to-log"
    well=no
    "$1/fmpsim-from-trace" "$late/trace.txt" > made && "$1/fmpsim" calls "$late/machine.cfg" made | cmp - "$late/trace.txt" && well=yes
    count "$well" "# $1/fmpsim-from-trace"
    well=no
    "$1/fmpsim-to-perfetto" "$late/machine.cfg" "$late/trace.txt" > made 2> told && "$top/tools/to-perfetto" "$late/machine.cfg" "$late/trace.txt" 2> told | cmp - made && [ -s made ] && well=yes
    count "$well" "# $1/fmpsim-to-perfetto"
    well=no
    "$1/fmpsim-to-board" --cases --every 500 -o kit > made 2> told && [ -s kit/app001/board.c ] && [ -s kit/app001/app.cfg ] && grep -q ' cases, ' made && well=yes
    rm -rf kit
    count "$well" "# $1/fmpsim-to-board"
    well=no
    "$1/fmphost-cfg" "$top/host/programs/queue/machine.cfg" -o . --fmpsim "$1/fmpsim" && grep -q '#define QUEUE 1' kernel_cfg.h && [ -s kernel_cfg.c ] && well=yes
    count "$well" "# $1/fmphost-cfg"
    if ! command -v cpp > cpp_is_here; then
        left_out 'there is no cpp' fmpsim-from-toppers
        return
    fi
    well=no
    read -ra words < "$top/tests/toppers/fmp1/words"
    (cd "$top/tests/toppers/fmp1" && "$1/fmpsim-from-toppers" "${words[@]}") 2> told | diff "$top/tests/toppers/fmp1/machine.cfg" - && well=yes
    count "$well" "# $1/fmpsim-from-toppers"
}
