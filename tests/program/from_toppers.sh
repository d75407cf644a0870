# Static API files of TOPPERS that tools/from-toppers makes configurations of. What comes out is what tests/toppers has, and the program
# reads it; what is left out or refused is told, with its line.

from_toppers() {
    local folder tool=$top/tools/from-toppers texts=$top/tests/toppers
    if ! command -v cpp > cpp_is_here; then
        left_out 'there is no cpp' tools/from-toppers
        return
    fi
    for folder in "$texts"/*/; do
        converts "$folder"
    done
    numbers_in_order
    makes_texts "$texts/made.txt"
    makes_numbers "$texts/values.txt"
    makes_ranges "$texts/ranges.txt"
    makes_attributes "$texts/attributes.txt"
    makes_notifications "$texts/notifications.txt"
    leaves_out "$texts/left_out.txt"
    tells_texts "$texts/told.txt"
    tells_included
    tells_constants
    tells_too_many
    tells_too_deep
    tells_names
    tells_greatest_text
    tells_command_lines
}

# rows TABLE: its rows, without its comments, with the byte 1 in the place of each tab, so that read sees fields that are empty, too.
rows() {
    grep -v '^#' "$1" | tr '\t' '\1' | as_file
}

# makes MADE TOLD WORD..: the tool ends with status 0, makes this, and tells this; the program reads what was made.
makes() {
    local well=no
    "$tool" "${@:3}" > made.cfg 2> told
    [ $? = 0 ] && diff "$1" made.cfg && diff "$2" told && well=yes
    count "$well" '#' tools/from-toppers "${@:3}" '#' "$(head -c 300 x.cfg)"
    run 0 /dev/null /dev/null calls made.cfg /dev/null
}

# makes_texts TABLE: each row has the words, the text of x.cfg, what is made, and what is told.
makes_texts() {
    local words text made what
    while IFS=$'\1' read -r words text made what; do
        printf '%b' "$text" > x.cfg
        read -ra words <<< "$words"
        [ -z "$what" ] || what+='\n'
        makes "$(as_file printf '%b' "$made")" "$(as_file printf '%b' "$what")" "${words[@]}"
    done < "$(rows "$1")"
}

# makes_numbers TABLE: each row has an expression, and the number that it is, as the pattern of an eventflag. There may be 32 of these.
makes_numbers() {
    local expression number part many
    split -l 32 "$(rows "$1")" part.
    for part in part.*; do
        many=0
        echo 'CLASS(TCL_1) {' > x.cfg
        printf '%s\n' 'PROCESSORS(1);' 'DEF_CLASS(TCL_1, 1, {1});' 'CLASS(TCL_1) {' > wanted
        while IFS=$'\1' read -r expression number; do
            many=$((many + 1))
            echo "  CRE_FLG(F$many, {TA_NULL, $expression});" >> x.cfg
            echo "  CRE_FLG(F$many, {TA_NULL, $number});" >> wanted
        done < "$part"
        echo '}' | tee -a wanted >> x.cfg
        makes wanted /dev/null x.cfg --long 64
    done
}

# makes_ranges TABLE: each number of a statement at both ends of its range, and one beyond each. What stands in its range comes out as it
# is, or is lowered to the greatest that does.
makes_ranges() {
    local what least most greatest text number line before
    while IFS=$'\1' read -r what least most greatest text; do
        before=${text%%\{N\}*}
        line=$(printf '%b' "$before" | wc -l)
        line=$((line + 1))
        for number in "$least" "$most"; do
            printf '%b' "${text/\{N\}/$number}" > x.cfg
            makes x.cfg /dev/null x.cfg
        done
        for number in $((most + 1)) "$greatest"; do
            [ "$most" != "$greatest" ] || break
            printf '%b' "${text/\{N\}/$number}" > x.cfg
            makes "$(as_file printf '%b' "${text/\{N\}/$most}")" "$(as_file echo "x.cfg:$line: lowered: $what from $number to $most, the greatest" \
                'here, which can change an answer: sig_sem answers E_QOVR from there on')" x.cfg
        done
        for number in $((least - 1)) $((greatest + 1)); do
            printf '%b' "${text/\{N\}/$number}" > x.cfg
            tells 1 "$(as_file echo "x.cfg:$line: refused: $what is $number here, and may be $least to $greatest")" x.cfg
        done
    done < "$(rows "$1")"
}

# makes_attributes TABLE: each row has a statement with {A} for its attribute, and the attributes that it may have. All others are refused,
# but for those without a meaning, which are taken away.
makes_attributes() {
    local statement allowed attribute given line
    while IFS=$'\1' read -r statement allowed; do
        line=3
        printf '%s\n' 'PROCESSORS(1);' 'DEF_CLASS(C, 1, {1});' 'CLASS(C) {' | tee wanted refused > x.cfg
        : > to_tell
        for attribute in TA_NULL TA_ACT TA_TFIFO TA_TPRI TA_WSGL TA_WMUL TA_CLR TA_STA TA_CEILING TA_MPRI TA_NOACTQUE; do
            given="  ${statement/\{I\}/OF_$attribute}"
            if [[ " $allowed " = *" $attribute "* ]]; then
                echo "${given/\{A\}/$attribute}" | tee -a wanted >> x.cfg
            else
                line=$((line + 1))
                echo "${given/\{A\}/$attribute}" >> refused
                echo "x.cfg:$line: refused: \`$attribute\` is no attribute that fmpsim has for ${statement%%(*}: ${allowed// /, }" >> to_tell
            fi
        done
        for attribute in TA_HLNG TA_ASM TA_RSTR TA_FPU TA_NOTHING; do
            given="  ${statement/\{I\}/OF_$attribute}"
            echo "${given/\{A\}/$attribute}" >> x.cfg
            echo "${given/\{A\}/TA_NULL}" >> wanted
        done
        echo '}' | tee -a wanted refused >> x.cfg
        makes wanted /dev/null x.cfg
        mv refused x.cfg
        tells 1 to_tell x.cfg
    done < "$(rows "$1")"
}

# makes_notifications TABLE: each row has a notification, and the script that its function needs, or `none` where it makes no call.
makes_notifications() {
    local notification script name kind line=3
    printf '%s\n' 'PROCESSORS(1);' 'DEF_CLASS(C, 1, {1});' 'CLASS(C) {' | tee wanted > x.cfg
    : > to_tell
    while IFS=$'\1' read -r notification script; do
        line=$((line + 1)) name=A$line kind=${notification%%,*}
        echo "  CRE_ALM($name, {TA_NULL, $notification});" >> x.cfg
        echo "  CRE_ALM($name, {TA_NULL, 0, notify_$name});" >> wanted
        printf 'x.cfg:%s: left out: what %s does (%s), which ' "$line" "$name" "${kind#\{}" >> to_tell
        case $script in
            none) echo "changes no answer: its function is notify_$name, which makes no call" >> to_tell ;;
            '`'*) echo "can change an answer: its function is notify_$name, whose script has the lines $script" >> to_tell ;;
            *) echo "can change an answer: its function is notify_$name, whose script is $script" >> to_tell ;;
        esac
    done < "$(rows "$1")"
    echo '}' | tee -a wanted >> x.cfg
    makes wanted to_tell x.cfg
}

# leaves_out TABLE: each row has a statement that is left out, and what is told of it.
leaves_out() {
    local statement told line=3
    printf '%s\n' 'PROCESSORS(1);' 'DEF_CLASS(C, 1, {1});' 'CLASS(C) {' | tee wanted > x.cfg
    : > to_tell
    while IFS=$'\1' read -r statement told; do
        line=$((line + 1))
        echo "  $statement" >> x.cfg
        echo "x.cfg:$line: left out: $told" >> to_tell
    done < "$(rows "$1")"
    printf '%s\n' '  CRE_SPN(A, {TA_NULL});' '}' | tee -a wanted >> x.cfg
    makes wanted to_tell x.cfg
}

# Objects have their numbers in the order of creation, over all files that are included.
numbers_in_order() {
    local name number=0
    for name in FIRST SECOND THIRD FOURTH FIFTH SIXTH SEVENTH EIGHTH NINTH TENTH ELEVENTH; do
        number=$((number + 1))
        echo "P1 pol_sem($number)" >> events
        echo "$number P1 - pol_sem($name) idle" >> trace
    done
    (cd "$top/tests/toppers/included" && "$tool" main.cfg -I kernel) > made.cfg 2> told
    run 0 trace /dev/null calls made.cfg events
}

# converts FOLDER: of its files, by the words in `words`, `machine.cfg` is made, and `errors` is told.
converts() {
    local words well=no
    read -ra words < "$1/words"
    (cd "$1" && "$tool" "${words[@]}") > made.cfg 2> told
    [ $? = 0 ] && diff "$1/machine.cfg" made.cfg && diff "$1/errors" told && well=yes
    count "$well" '#' tools/from-toppers "${words[@]}" '# in' "$1"
    run 0 /dev/null /dev/null calls made.cfg /dev/null
}

# tells STATUS TOLD WORD..: the tool ends so, tells this, and makes a configuration only where the status is 0; the program reads that.
tells() {
    local well=no ended
    "$tool" "${@:3}" > made.cfg 2> told
    ended=$?
    [ "$ended" = "$1" ] && diff "$2" told && { [ "$1" = 0 ] || [ ! -s made.cfg ]; } && well=yes
    count "$well" '#' tools/from-toppers "${@:3}"
    [ "$ended" != 0 ] || run 0 /dev/null /dev/null calls made.cfg /dev/null
}

# tells_texts TABLE: each row has a status, the words, the text of x.cfg, and what is told, with a tab between two.
tells_texts() {
    local status words text what
    while IFS=$'\1' read -r status words text what; do
        printf '%b' "$text" > x.cfg
        read -ra words <<< "$words"
        [ -z "$what" ] || what+='\n'
        tells "$status" "$(as_file printf '%b' "$what")" "${words[@]}"
    done < "$(rows "$1")"
}

# Files that x.cfg includes and that are cut short: their lines are told, and nothing runs on into the file that includes them.
tells_included() {
    printf 'CLASS(TCL_1) {\n  CRE_SPN(A, {TA_NULL});\n#include "y.h"\n  INCLUDE("y.cfg");\n}\n' > x.cfg
    printf '/* nothing */\n' > y.h
    printf '\n  CRE_SPN(B, {TA_NULL})' > y.cfg
    tells 1 "$(as_file echo 'y.cfg:2: refused: `;` is expected after this, the end of the CRE_SPN of line 2')" x.cfg
    printf '\n  CRE_SPN(B, {TA_NULL' > y.cfg
    tells 1 "$(as_file echo 'y.cfg:2: refused: cut short: CRE_SPN does not end in its file')" x.cfg
    printf '\n  CRE_SPN(B, {TA_NULL}); /* open' > y.cfg
    tells 1 "$(as_file echo 'y.cfg:2: refused: cut short: this comment is not closed')" x.cfg
    printf '}\nCLASS(TCL_2) {\n' > y.cfg
    tells 1 "$(as_file echo 'y.cfg:1: refused: this `}` closes a CLASS of another file')" x.cfg
    printf 'CRE_SPN(B, {TA_NULL});' > y.cfg
    tells 0 /dev/null x.cfg
    printf '\nextern int open(int' > y.h
    tells 1 "$(as_file echo 'y.h:2: refused: cut short: what begins with `extern` in this header does not end in it')" x.cfg
    printf 'INCLUDE("y.cfg");\nCLASS(TCL_1) { CRE_SPN(C, {TA_NULL}); }\n' > x.cfg
    printf '\n\nCLASS(TCL_1) {\n' > y.cfg
    tells 1 "$(as_file echo 'y.cfg:3: refused: cut short: this CLASS is not closed in its file')" x.cfg
}

# Constants of enums whose numbers are not known are told where they are used, as is a constant that is a function's own.
tells_constants() {
    local why='is a constant of an enum, whose number is not known here:'
    printf '%s\n' 'enum { SIZED = sizeof(int), NEXT, KNOWN = 3, CUT = 1 / 0 };' 'static void f(void) { enum { INSIDE = 4 }; }' > y.h
    printf 'CLASS(TCL_1) {\n#include "y.h"\n' > x.cfg
    printf '  CRE_FLG(%s, {TA_NULL, %s});\n' A SIZED B NEXT C KNOWN D CUT E INSIDE >> x.cfg
    echo '}' >> x.cfg
    printf 'x.cfg:%s\n' "3: refused: \`SIZED\` $why \`sizeof\` is a word of C that is not computed here" \
        "4: refused: \`NEXT\` $why \`sizeof\` is a word of C that is not computed here" "6: refused: \`CUT\` $why a division by 0" \
        '7: refused: `INSIDE` is no number: no file that was read has a #define of it, or an enum with it; -D INSIDE=NUMBER says what it is' > to_tell
    tells 1 to_tell x.cfg
    echo 'enum { SIZED = 1' > y.h
    tells 1 "$(as_file echo 'y.h:1: refused: cut short: what begins with `enum` in this header does not end in it')" x.cfg
}

# As many objects of each kind as fmpsim has room for, and one more of each; as many classes, and one more.
tells_too_many() {
    local statement given number most line=3
    printf '%s\n' 'PROCESSORS(1);' 'DEF_CLASS(C, 1, {1});' 'CLASS(C) {' > x.cfg
    : > beyond
    while IFS=$'\1' read -r statement _; do
        [ "${statement%%(*}" = CRE_TSK ] && most=64 || most=32
        for ((number = 1; number <= most; number++)); do
            given="  ${statement/\{I\}/${statement:4:3}$number}"
            echo "${given/\{A\}/TA_NULL}" >> x.cfg
        done
        line=$((line + most))
        given="  ${statement/\{I\}/${statement:4:3}$number}"
        echo "${given/\{A\}/TA_NULL}" >> beyond
        echo "refused: ${statement%%(*} stands more often than fmpsim has room for: $most times" >> told_beyond
    done < "$(rows "$texts/attributes.txt")"
    { cat x.cfg beyond && echo '}'; } > y.cfg
    echo '}' >> x.cfg
    makes x.cfg /dev/null x.cfg
    tells 1 "$(nl -v "$((line + 1))" -w 1 -s ': ' told_beyond | sed 's/^/y.cfg:/' | as_file)" y.cfg
    { printf 'DEF_CLASS(C%d, 1, {1});\n' {1..32} && echo 'CLASS(C32) { CRE_SPN(S, {TA_NULL}); }'; } > x.cfg
    tells 0 /dev/null x.cfg
    echo 'CLASS(TCL_1) { }' >> x.cfg
    tells 1 "$(as_file echo 'x.cfg:34: refused: more than 32 classes')" x.cfg
}

# As many files as may be included, in one another and one behind the other, and one more; and as many parentheses.
tells_too_deep() {
    local number opened closed what='1.cfg:1: refused: more than 1000 files are included, or more than 60 in one another'
    for number in {1..62}; do
        echo "INCLUDE(\"$((number + 1)).cfg\");" > "$number.cfg"
    done
    echo 'CLASS(TCL_1) { CRE_SPN(A, {TA_NULL}); }' > 61.cfg
    tells 0 /dev/null 1.cfg
    echo 'INCLUDE("62.cfg");' > 61.cfg
    tells 1 "$(as_file echo "$what")" 1.cfg
    : > 2.cfg
    { printf 'INCLUDE("2.cfg");\n%.0s' {1..1000} && echo 'CLASS(TCL_1) { CRE_SPN(A, {TA_NULL}); }'; } > 1.cfg
    tells 0 /dev/null 1.cfg
    echo 'INCLUDE("2.cfg");' >> 1.cfg
    tells 1 "$(as_file echo "$what")" 1.cfg
    opened=$(printf '(%.0s' {1..60}) closed=$(printf ')%.0s' {1..60})
    echo "CLASS(TCL_1) { CRE_FLG(A, {TA_NULL, ${opened}1$closed}); }" > x.cfg
    tells 0 /dev/null x.cfg
    echo "CLASS(TCL_1) { CRE_FLG(A, {TA_NULL, -${opened}1$closed}); }" > x.cfg
    tells 1 "$(as_file echo 'x.cfg:1: refused: a number with more than 60 signs and parentheses in one another')" x.cfg
}

# Names of 64 bytes, and of 65: of classes, objects, functions, and the functions of notifications; and in a field without effect.
tells_names() {
    local most
    most=$(printf 'a%.0s' {1..64})
    printf '%s\n' 'PROCESSORS(1);' "DEF_CLASS($most, 1, {1});" "CLASS($most) {" "  CRE_SPN(${most/a/b}, {TA_NULL});" \
        "  CRE_ALM(B, {TA_NULL, $most, $most});" '}' > x.cfg
    makes x.cfg /dev/null x.cfg
    printf '%s\n' "DEF_CLASS(a$most, 1, {1});" 'CLASS(TCL_1) {' "  CRE_SPN(b$most, {TA_NULL});" "  CRE_ALM(C, {TA_NULL, 0, a$most});" \
        "  CRE_ALM(${most:6}, {TA_NULL, {TNFY_ACTTSK, T}});" '}' > x.cfg
    printf 'x.cfg:%s\n' "1: refused: a name of at most 64 bytes is expected in place of \`$most..\`" \
        "3: refused: a name of at most 64 bytes is expected in place of \`b${most:1}..\`" \
        "4: refused: \`$most..\` is no name of a function of at most 64 bytes" \
        "5: refused: \`notify_${most:7}..\` is to be the function of this notification, and is too long or taken" > to_tell
    tells 1 to_tell x.cfg
    printf '%s\n' 'CLASS(TCL_1) {' "  CRE_ALM(${most:7}, {TA_NULL, {TNFY_INCVAR, &v}});" "  CRE_ALM(B, {TA_NULL, a$most, f});" '}' > x.cfg
    printf '%s\n' 'PROCESSORS(1);' 'DEF_CLASS(TCL_1, 1, {1});' 'CLASS(TCL_1) {' "  CRE_ALM(${most:7}, {TA_NULL, 0, notify_${most:7}});" \
        '  CRE_ALM(B, {TA_NULL, 0, f});' '}' > wanted
    echo "x.cfg:2: left out: what ${most:7} does (TNFY_INCVAR), which changes no answer: its function is notify_${most:7}, which makes no call" > to_tell
    makes wanted to_tell x.cfg
    printf '%s\n' "DEF_CLASS($most, 1, {1});" 'CRE_SPN(A, {TA_NULL});' > x.cfg
    tells 0 /dev/null x.cfg --class "$most"
}

# A configuration of 1,048,576 bytes, which is the most that fmpsim reads, and one of a byte more.
tells_greatest_text() {
    local begin=$'PROCESSORS(1);\nDEF_CLASS(C, 1, {1});\nCLASS(C) {\n  CRE_ALM(A, {TA_NULL, "' end=$'", f});\n}\n' fill
    fill=$(head -c "$((1048576 - ${#begin} - ${#end}))" /dev/zero | tr '\0' a)
    printf '%s' "$begin" "$fill" "$end" > x.cfg
    makes x.cfg /dev/null x.cfg
    printf '%s' "$begin" "a$fill" "$end" > x.cfg
    tells 1 "$(as_file echo 'x.cfg:1: refused: the configuration has more than the 1048576 bytes that fmpsim reads')" x.cfg
}

# Command lines that are wrong, no cpp, and an output that cannot be written.
tells_command_lines() {
    local line words well python
    printf 'CLASS(TCL_1) { CRE_SPN(A, {TA_NULL}); }\n' > x.cfg
    while IFS= read -r line; do
        well=no
        read -ra words <<< "$line"
        "$tool" "${words[@]}" > made.cfg 2> told
        [ $? = 2 ] && grep -q '^usage: from-toppers' told && [ ! -s made.cfg ] && well=yes
        count "$well" '#' tools/from-toppers "${words[@]}"
    done <<- END

	x.cfg x.cfg
	x.cfg -I
	x.cfg --processors
	x.cfg --processors 0
	x.cfg --processors 9
	x.cfg --processors two
	x.cfg -D 1
	x.cfg --class
	x.cfg --class 1
	x.cfg --class TCL-1
	x.cfg --class P1
	x.cfg --class idle
	x.cfg --class aaaaaaaaaaaaaaaaaaaaaaaaaaaaaaaaaaaaaaaaaaaaaaaaaaaaaaaaaaaaaaaaa
	x.cfg --all
	END
    python=$(python3 -c 'import sys; print(sys.executable)')
    well=no
    PATH=$PWD/nothing "$python" "$tool" x.cfg > made.cfg 2> told
    [ $? = 3 ] && grep -q '^from-toppers: there is no cpp' told && [ ! -s made.cfg ] && well=yes
    count "$well" '#' tools/from-toppers x.cfg '# without cpp'
    well=no
    "$tool" x.cfg > /dev/full 2> told
    [ $? = 3 ] && [ "$(cat told)" = 'from-toppers: what was made cannot be written: No space left on device' ] && well=yes
    count "$well" '#' tools/from-toppers x.cfg '> /dev/full'
}
