# The template of a page is what tools/page-texts makes of its files, and that tool finds what does not belong there.

page_texts() {
    local well=yes
    "$top/tools/page-texts" --check > told 2> errors || well=no
    [ ! -s told ] && [ ! -s errors ] || { well=no && cat told errors; }
    count "$well" '# tools/page-texts --check'
    by_node
    page=crates/fmp_run_page/page made=crates/fmp_run_page/src
    mkdir -p "$page" "$made" tools && cp "$top/tools/page-texts" tools
    edited_texts
    # a line at the end of the script, and what is said of it
    said_of "const word = 'a\\b';" "controls.js:LAST: cannot stand in the program: '\\\\'"
    said_of "const word = 'a\"b';" "controls.js:LAST: cannot stand in the program: '\"'"
    said_of $'const word = \'\xc3\xa4\';' "controls.js:LAST: cannot stand in the program: 'ä'"
    said_of 'last(differs, 1); ' "controls.js:LAST: cannot stand in the program: ' '"
    said_of 'last(unknown, 1);' 'the script: nothing declares unknown'
    said_of 'const spare = 1;' 'the script: spare is declared and never used'
    said_of 'function last(a) { return a; }' 'the script: last is declared 2 times at the top'
    said_of 'if (N == 1) last(differs, 1);' 'controls.js: ==: write === or !=='
    said_of 'for (var i of differs) last(differs, i);' 'controls.js: var: write const or let'
    said_of "\$('tip').innerHTML = text;" 'controls.js: innerHTML: a text of the trace is never made HTML or script'
    said_of "location = 'https://example.org/';" 'controls.js: https:: the page stands alone, without a network'
    # what is like these and is none of them
    said_of "differs.filter(x => /[/'=]=/.test(x) && x !== 1).forEach(({ n: y }) => { try { last(differs, y); } catch (e) { throw e; } });" ''
}

# The files of the page, each by itself and all in a row, are a script.
by_node() {
    local file well=yes
    if ! command -v node > /dev/null; then
        left_out 'there is no node' '#' node --check
        return
    fi
    "$top/tools/page-texts" --script > script.js || well=no
    for file in "$top"/crates/fmp_run_page/page/*.js script.js; do
        node --check "$file" || { well=no && echo "$file"; }
    done
    count "$well" '#' node --check
}

fresh_texts() {
    cp "$top/$page"/* "$page" && cp "$top/$made"/*.rt "$made"
}

# A file that was changed is named until the text is made of it, and then the text has the change.
edited_texts() {
    local well=yes
    fresh_texts
    sed -i 's/fmpsim timeline/fmpsim times/' "$page/head.html"
    tools/page-texts --check > told && well=no
    [ "$(cat told)" = 'src/head.rt is not what page/head.html makes' ] || well=no
    tools/page-texts > told && [ ! -s told ] && grep -q '<title>fmpsim times</title>' "$made/head.rt" || well=no
    tools/page-texts --check > told && [ ! -s told ] || well=no
    echo '// Another file.' > "$page/other.js"
    tools/page-texts > told && well=no
    [ "$(cat told)" = 'page/other.js is in no list' ] || well=no
    rm "$page/other.js"
    count "$well" '# tools/page-texts, a change'
}

# said_of LINE TOLD: with this line the tool says this, LAST for the line's number, and makes nothing; where that is nothing, it makes the text.
said_of() {
    local well=yes
    fresh_texts
    echo "$1" >> "$page/controls.js"
    tools/page-texts > told
    [ $? = "$([ -z "$2" ] && echo 0 || echo 1)" ] || well=no
    [ "$(cat told)" = "${2/LAST/$(wc -l < "$page/controls.js")}" ] || { well=no && cat told; }
    if [ -z "$2" ]; then grep -qF "$1" "$made/controls.rt"; else cmp "$made/controls.rt" "$top/$made/controls.rt"; fi || well=no
    count "$well" '# tools/page-texts:' "$1"
}
