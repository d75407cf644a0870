# No contract says when memory runs out. So each line of code that says by itself that it did stands in a list, and was read: a function that gives up
# at will has to have one more.

want_of_memory() {
    local well=yes
    python3 "$top/tests/program/want_of_memory.py" "$top/crates" > said.txt
    diff "$top/tests/program/want_of_memory.txt" said.txt || well=no
    count "$well" tests/program/want_of_memory.txt
}
