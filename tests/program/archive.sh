# `make dist` makes one archive of the last commit and of the program, which is installed and played where there is no `rt`.

archive() {
    local name=fmpsim-0.1.0-linux-x86_64 word
    for word in git make readelf sha256sum; do
        command -v "$word" > is_here || { left_out "there is no $word" make dist && return; }
    done
    git -C "$top" rev-parse HEAD > commit 2> said || { left_out 'there is no repository' make dist && return; }
    [[ $("$program" --version) != *unproved* ]] || name=fmpsim-0.1.0-unproved-linux-x86_64
    twice_the_same
    tar xzf "one/$name.tar.gz" || count no '# make dist' "$name"
    has_all_files
    is_summed
    tells_what_it_is
    pages_stay_inside
    without_rt
    workflow_runs
    names_what_is_linked
    tells_of_the_gate
    has_the_library
    makes_no_archive
}

# dist FOLDER WORD..: make does so in this checkout, into here/FOLDER.
dist() {
    make -s -C "$1" dist "PROGRAM=$program" LIBRARY= "${@:2}" > made 2> said
}

# The second archive is made in a clone, where files have other times and rights, and one that is not committed stands beside them.
twice_the_same() {
    local well=no
    dist "$top" "DIST=$PWD/one" && [ "$(cat made)" = "$PWD/one/$name.tar.gz" ] && (umask 077 && git clone -q "$top" clone) && echo new > clone/docs/NEW.md &&
        TZ=Asia/Tokyo dist "$PWD/clone" "DIST=$PWD/two" && cmp "one/$name.tar.gz" "two/$name.tar.gz" && well=yes || cat said
    count "$well" '# make dist, twice'
    well=no
    [ "$(cat said)" = 'dist: what is not committed is not in the archive: 1 files' ] && well=yes || cat said
    count "$well" '# make dist, with a file that is not committed'
    well=no
    tar tvzf "one/$name.tar.gz" --numeric-owner > listed && ! grep -vqE '^-rw(xr-xr-x|-r--r--) 0/0 ' listed && LC_ALL=C sort -c -k 6 listed &&
        [ "$(head -c 10 "one/$name.tar.gz" | od -An -tx1 | cut -c -24)" = ' 1f 8b 08 00 00 00 00 00' ] && well=yes
    count "$well" '# tar tvf' "$name.tar.gz"
}

# Each file of the commit that a user or a case needs is in it as it was committed, and so is what is made.
has_all_files() {
    local well=no
    git -C "$top" archive HEAD Makefile LICENSE NOTICE README{,.ja}.md CHANGELOG.md CONTRIBUTING.md board docs man completions editors examples host include tools \
        tests/README.md tests/board tests/cases tests/play > commit.tar && mkdir -p wanted/bin && tar xf commit.tar -C wanted
    cp "$program" wanted/bin/fmpsim && touch wanted/ABOUT.md wanted/SHA256SUMS
    diff -rq wanted "$name" | LC_ALL=C sort > differing
    printf 'Files wanted/%s and '"$name"'/%s differ\n' {ABOUT.md,ABOUT.md,README.ja.md,README.ja.md,README.md,README.md,SHA256SUMS,SHA256SUMS} | diff - differing && well=yes
    count "$well" '# the files of' "$name.tar.gz"
    well=no
    diff "$(as_file sh -c 'cd wanted && find . -type f -perm -u+x | sort')" "$(as_file sh -c 'cd "$1" && find . -type f -perm -u+x | sort' sh "$name")" && well=yes
    count "$well" '# what may be executed in' "$name.tar.gz"
}

# The sums are right, and there is one for each file but their own; they find a byte that was changed.
is_summed() {
    local well=no
    (cd "$name" && sha256sum --quiet -c SHA256SUMS) && diff "$(as_file sh -c 'cut -c 67- "$1/SHA256SUMS"' sh "$name")" \
        "$(as_file sh -c 'cd "$1" && find . -type f ! -name SHA256SUMS | cut -c 3- | LC_ALL=C sort' sh "$name")" && well=yes
    count "$well" '#' sha256sum -c SHA256SUMS
}

# The page about it has the newest version of the C library that the program names, and both READMEs say of the program whether it was proved.
tells_what_it_is() {
    local well=no newest proof='the proved program' line='This archive has the proved program' japanese='は証明されています'
    [[ $name != *unproved* ]] || { proof='a program that is built without a proof' && line='The program of this archive is built without a proof' && japanese='証明なし'; }
    newest=$(grep -ao 'GLIBC_[0-9.]*' "$program" | sort -uV | tail -n 1)
    grep -q "^fmpsim 0.1.0 for Linux on x86-64: $proof\.$" "$name/ABOUT.md" && grep -q " libc\.so\.6 of the GNU C library ${newest#GLIBC_} or later" "$name/ABOUT.md" &&
        grep -q "$(cat commit)" "$name/ABOUT.md" && grep -q 'The library `out/libfmp.a` is not here\.' "$name/ABOUT.md" && well=yes
    count "$well" '# ABOUT.md of' "$name.tar.gz"
    well=no
    sed -n 3p "$name/README.md" | grep -q "^\*\*$line" && sed -n 3p "$name/README.ja.md" | grep -q "$japanese" &&
        sed 3,4d "$name/README.md" | cmp - wanted/README.md && sed 3,4d "$name/README.ja.md" | cmp - wanted/README.ja.md && well=yes
    count "$well" '# README.md of' "$name.tar.gz"
}

# A link of a page leads to what is there, or to the sources that ABOUT.md names.
pages_stay_inside() {
    local page link well=yes
    while read -r page; do
        while read -r link; do
            [ -e "$(dirname "$page")/$link" ] || [[ $link =~ ^(\.\./)*(crates|bench|tests/edits)(/|$) ]] || { well=no && echo "$page leads to $link"; }
        done < "$(grep -o '](\([^)# ]*\)' "$page" | sed 's/^](//' | grep -v -e '^$' -e '^http' | as_file)"
    done < "$(as_file find "$name" -name '*.md')"
    count "$well" '# pages of' "$name.tar.gz"
}

# Where no folder of PATH has an rt, it is installed from the unpacked folder, and plays.
without_rt() {
    local folder left='' well=no IFS=:
    for folder in $PATH; do
        [ ! -e "$folder/rt" ] || { mkdir -p "without$folder" && ln -s "$folder"/* "without$folder" && rm "without$folder/rt" && folder=$PWD/without$folder; }
        left+=${left:+:}$folder
    done
    unset IFS
    (
        PATH=$left
        ! command -v rt > is_here && make -s -C "$name" install "PREFIX=$PWD/there" > said 2>&1 && cmp there/bin/fmpsim "$program" &&
            there/bin/fmpsim calls "$name/examples/late-interrupt/machine.cfg" "$name/examples/late-interrupt/events.txt" | cmp - "$late/trace.txt" &&
            there/bin/fmpsim-from-trace "$late/trace.txt" | cmp - "$(as_file "$top/tools/from-trace" "$late/trace.txt")" && [ -s there/share/man/man1/fmpsim.1 ]
    ) && well=yes || cat said
    count "$well" '# make install in' "$name"
    well=no
    (PATH=$left && "$name/tests/play" "$name/tests/cases/waves" "$name/tests/cases/events") > played 2>&1 && tail -n 1 played | grep -qE '^[1-9][0-9]* passed, 0 failed$' && well=yes || cat played
    count "$well" "# $name/tests/play"
    # it plays the archive's own program: without it nothing passes
    well=no
    mv "$name/bin/fmpsim" away && ! "$name/tests/play" "$name/tests/cases/waves" > played 2>&1 && mv away "$name/bin/fmpsim" && well=yes
    count "$well" "# $name/tests/play, without bin/fmpsim"
}

# The commands of the workflow in the examples, one after the other in a folder as it describes: the archive in tools, and the example's files at the top.
workflow_runs() {
    local well=no example=$name/examples/explore-timeout
    mkdir -p pushed/tools && cp "one/$name.tar.gz" pushed/tools && cp "$example"/{machine.cfg,mended.txt,ci.questions} pushed
    python3 - "$example/workflow.yml" > steps.sh <<- 'END'
	import re, sys
	for step in re.findall(r"^        run: (?:\|\n((?: {10}.*\n)+)|(.*\n))", open(sys.argv[1]).read(), re.M):
	    print(re.sub(r"^ {10}", "", step[0], flags=re.M) + step[1], end="")
	END
    (
        cd pushed && export HOME=$PWD/home GITHUB_PATH=$PWD/path PATH=$PWD/home/.local/bin:$PATH
        bash -e ../steps.sh > said 2>&1 && [ "$(tail -n 2 said)" = "$(printf '%s\n' 'ok given-back-twice: never' 'ok asks-again: shown in 11 lines')" ] &&
            grep -q '<testsuite' report.xml && [ "$(ls traces)" = asks-again.trace ] && [ "$(cat path)" = "$HOME/.local/bin" ] &&
            [ "$(command -v fmpsim)" = "$HOME/.local/bin/fmpsim" ]
    ) && well=yes || cat pushed/said
    count "$well" "# $example/workflow.yml"
}

# Each library of the kit that a crate stands on.
names_what_is_linked() {
    local library well=yes
    sed -n 's/^[^#]*: //p' "$top/crates.txt" | tr ' ' '\n' | grep -v '^fmp' | sort -u > libraries
    [ -s libraries ] || well=no
    while read -r library; do
        grep -qw "$library" "$name/NOTICE" || { well=no && echo "NOTICE does not name $library"; }
    done < libraries
    count "$well" '# NOTICE of' "$name.tar.gz"
}

# What the gate wrote last stands there; one that failed, or that proved nothing of a proved program, is refused.
tells_of_the_gate() {
    local well=no proved=''
    [[ $name != *unproved* ]] || proved=': nothing was proved'
    { seq -f 'line %g' 30 && echo "7 passed, 0 failed$proved"; } > gate.log
    dist "$top" "DIST=$PWD/gate" "GATE=$PWD/gate.log" && tar xzf "gate/$name.tar.gz" -O "$name/ABOUT.md" > about && grep -qx '    line 12' about && ! grep -qx '    line 11' about &&
        [ "$(tail -n 1 about)" = "    7 passed, 0 failed$proved" ] && well=yes || cat said
    count "$well" '# make dist GATE=gate.log'
    echo '7 passed, 1 failed' >> gate.log
    refuses_to "$PWD/gate.log: the last line of a gate that passed is 'N passed, 0 failed'" "GATE=$PWD/gate.log"
    [ -n "$proved" ] || { echo '7 passed, 0 failed: nothing was proved' >> gate.log && refuses_to "$PWD/gate.log: in this gate nothing was proved" "GATE=$PWD/gate.log"; }
    refuses_to "$PWD/nowhere cannot be read: No such file or directory" "GATE=$PWD/nowhere"
}

# The library, where there is one.
has_the_library() {
    local well=no
    echo library > lib.a
    dist "$top" "DIST=$PWD/library" "LIBRARY=$PWD/lib.a" && tar xzf "library/$name.tar.gz" -C library && cmp lib.a "library/$name/out/libfmp.a" &&
        grep -q 'The library `out/libfmp.a` is here, for `include/fmp.h`\.' "library/$name/ABOUT.md" && grep -q '  out/libfmp\.a$' "library/$name/SHA256SUMS" && well=yes || cat said
    count "$well" '# make dist LIBRARY=lib.a'
}

makes_no_archive() {
    refuses_to "$PWD/missing cannot be read: No such file or directory" "PROGRAM=$PWD/missing"
    echo 'echo fmpsim 0.1.0' > script && chmod +x script
    refuses_to "$PWD/script is no program for x86-64" "PROGRAM=$PWD/script"
    cp "$(command -v make)" other
    [ "$(head -c 4 other | od -An -c | tr -d ' ')" != '177ELF' ] || refuses_to "$PWD/other --version tells '$(./other --version | head -n 1)" "PROGRAM=$PWD/other"
    refuses_to 'the archive cannot be written: ' "DIST=/dev/null/out"
}

# refuses_to TOLD WORD..: make dist with these words ends, tells what begins so, and makes nothing.
refuses_to() {
    local well=no
    ! dist "$top" "DIST=$PWD/none" "${@:2}" && [ ! -e none ] && [ ! -s made ] && grep -qF "dist: $1" said && well=yes || cat said
    count "$well" '# make dist' "${@:2}"
}
