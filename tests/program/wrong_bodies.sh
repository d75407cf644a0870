# The wrong bodies, of which the gate tries a few and tests/edits/try the others: each still applies to the code.

wrong_bodies() {
    local well=yes
    "$top/tests/edits/look" || well=no
    count "$well" tests/edits/look
}
