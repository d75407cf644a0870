# The syntax files of the editors have each word that the program knows, and are those that editors/make makes.

editors() {
    local same=no
    mkdir made_here && "$top/editors/make" "$program" made_here && diff "$top/editors/vim/syntax/fmpsim.vim" made_here/vim/syntax/fmpsim.vim &&
        diff "$top/editors/vscode/syntaxes/fmpsim.tmLanguage.json" made_here/vscode/syntaxes/fmpsim.tmLanguage.json && same=yes
    count "$same" '# editors/make'
    have_each_word
    coloured_by_vim
    grammar_matches
}

# Each call and statement that `list` tells, and each code that a page names, for which `list` has a text.
have_each_word() {
    local word file missing=''
    "$program" list | sed -nE '/^Faults/q; s/^([a-z]+_[a-z]+|[A-Z]+(_[A-Z]+)?)( *\(.*|$)/\1/p' > words
    grep -oh '`E_[A-Z]*`' "$top"/docs/PROFILE.md "$top"/docs/formats/*.md | tr -d '`' | sort -u > named
    while read -r word; do
        "$program" list "$word" > told 2>&1 && echo "$word" >> words
    done < named
    while read -r word; do
        for file in vim/syntax/fmpsim.vim vscode/syntaxes/fmpsim.tmLanguage.json; do
            grep -qw -- "$word" "$top/editors/$file" || missing+=" $word"
        done
    done < words
    [ -z "$missing" ] && [ "$(wc -l < words)" = 101 ] || { echo "missing:$missing, of $(wc -l < words) words" && false; } && missing=yes
    count "$missing" '# the words of the editors'
}

# Vim itself says which group a word has.
coloured_by_vim() {
    local well=no
    if ! vim --version 2> /dev/null | grep -q +syntax; then
        left_out 'there is no vim with colours' editors/vim
        return
    fi
    mkdir -p home/.vim && cp -r "$top/editors/vim/." home/.vim/
    printf '1 P1 T1 act_tsk(T2) E_OK ipi=2\n' > trace.txt
    printf '%s\n' 'fmpsimProcessor 1 3' 'fmpsimCalls 1 9' 'fmpsimCodes 1 21' 'fmpsimEvents 1 26' 'fmpsimNumber 1 1' > wanted
    printf '%s\n' 'set nocompatible' 'set runtimepath^=home/.vim' 'filetype on' 'syntax on' 'edit trace.txt' 'redir! > groups' 'for c in [3, 9, 21, 26, 1]' \
        "silent echo synIDattr(synID(1, c, 1), 'name') . ' 1 ' . c" endfor 'redir END' 'qa!' > look.vim
    HOME=$PWD/home timeout 60 vim -es -u NONE -S look.vim > said 2>&1
    grep '^fmpsim\|^ 1' groups | diff wanted - && well=yes || cat said
    count "$well" '# editors/vim'
}

# The grammar of VS Code is JSON, its expressions are ones, and the extension names it.
grammar_matches() {
    local well=no
    python3 - "$top/editors/vscode" <<- 'END' && well=yes
	import json, re, sys
	from pathlib import Path
	folder = Path(sys.argv[1])
	package = json.loads((folder / "package.json").read_text())
	grammar = json.loads((folder / package["contributes"]["grammars"][0]["path"]).read_text())
	wanted = {"act_tsk": "support.function.fmpsim", "CRE_TSK": "keyword.other.fmpsim", "E_QOVR": "constant.language.fmpsim", "goto": "keyword.control.fmpsim",
	          "P8": "storage.type.fmpsim", "-12": "constant.numeric.fmpsim", "act_tsk2": None}
	for word, name in wanted.items():
	    found = [it["name"] for it in grammar["patterns"] if re.fullmatch(it.get("match", "(?!)"), word)]
	    if found[:1] != [name] and (found or name):
	        sys.exit(f"{word}: {found}")
	END
    count "$well" '# editors/vscode'
}
