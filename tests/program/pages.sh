# The pages say what is there, and the tools that look at them and count the gate's figures answer as was worked out by hand.

pages() {
    local well=no asked
    "$top/tools/check-pages" && well=yes
    count "$well" '# tools/check-pages'
    for asked in page_checks places gate_table; do
        well=no
        python3 "$top/tests/program/$asked.py" && well=yes
        count "$well" "# tests/program/$asked.py"
    done
}
