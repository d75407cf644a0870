#!/usr/bin/env python3
"""Writes the 77 calls, from their signatures in include/kernel.h, the kinds of their arguments in `fmpsim list`, and what each does (DOES).

    fmpsim list | gen/calls.py include/kernel.h > src/calls.c
    fmpsim list | gen/calls.py include/kernel.h --numbers > src/call_numbers.h

Their numbers are those of include/fmp.h: the order in which `fmpsim list` has them, from 1, and ret_hdr after them.
"""
import re
import sys

OBJECTS = ["task", "semaphore", "eventflag", "data queue", "pool", "cyclic", "alarm", "spin lock"]
OUT = {"PRI *": "PRI", "ID *": "ID", "FLGPTN *": "FLGPTN", "intptr_t *": "intptr_t", "void **": None}
# What a call does, by its name without the `i` of a handler's call; src/calls.h says what each word means. The rest follows from its arguments.
DOES = {
    "GIVES": "sig_sem set_flg snd_dtq psnd_dtq tsnd_dtq fsnd_dtq rel_mpf wup_tsk act_tsk mact_tsk sta_alm msta_alm sta_cyc msta_cyc rsm_tsk rel_wai unl_spn",
    "TAKES": "wai_sem twai_sem pol_sem wai_flg twai_flg pol_flg rcv_dtq trcv_dtq prcv_dtq get_mpf tget_mpf pget_mpf can_wup can_act loc_spn try_spn",
    "SENDS": "snd_dtq psnd_dtq tsnd_dtq fsnd_dtq",
    "RECEIVES": "rcv_dtq trcv_dtq prcv_dtq",
    "SLEEPS": "slp_tsk tslp_tsk",
    "GETS_BLOCK": "get_mpf pget_mpf tget_mpf",
    "RETURNS_BLOCK": "rel_mpf",
    "STARTS": "sta_cyc msta_cyc sta_alm msta_alm",
    "STOPS": "stp_cyc stp_alm",
    "ACTIVATES": "act_tsk mact_tsk",
    "MIGRATES": "mig_tsk",
    "TERMINATES": "ter_tsk",
    "SUSPENDS": "sus_tsk",
    "SETS_PRIORITY": "chg_pri",
    "ROTATES": "rot_rdq mrot_rdq",
    "GIVES_WAY_ITSELF": "sus_tsk mig_tsk chg_pri",
    "LOCKS_CPU": "loc_cpu loc_spn try_spn",
    "UNLOCKS_CPU": "unl_cpu unl_spn ret_hdr",
    "DISABLES_DISPATCH": "dis_dsp",
    "ENABLES_DISPATCH": "ena_dsp",
    "RETURNS": "ret_hdr",
}


def does(name, wanted):
    """The words of a call, in the order of DOES."""
    plain = name[1:] if name.startswith("i") else name
    words = [word for word, names in DOES.items() if plain in names.split()]
    if "timeout" in wanted or plain == "dly_tsk":
        words.append("TIMED")
    if "processor" in wanted and any(what in OBJECTS for what in wanted):
        words.append("MOVES")
    return words


def constant(what):
    return "A_" + what.upper().replace(" ", "_")


def argument(what, kind, word):
    """The number that it is in an event."""
    if what == "mode":
        return "%s == TWF_ANDW ? TWF_ANDW : TWF_ORW" % word
    if what == "block":
        return "block_at(mpfid, %s)" % word
    return "(int_t)" + word if kind == "RELTIM" else word


def request(name, parameters, wanted):
    """The expression that asks, and the out-parameter with its type, or None."""
    values, out = [], None
    for parameter in [] if parameters == "void" else parameters.split(", "):
        kind, word = re.match(r"(.*?)(\w+)$", parameter).groups()
        if kind.strip() in OUT:
            out = (OUT[kind.strip()], word)
            continue
        values.append(argument(wanted.pop(0), kind.strip(), word))
    assert not wanted, (name, wanted)
    return "ask(PLACE, %s)" % ", ".join([name.upper(), *values]), out


def body(result, name, parameters, wanted):
    lines = []
    if "mode" in wanted:
        lines += ["/* What is no mode cannot be asked. The kernel answers E_PAR to a pattern of 0 in the same order of errors. */",
                  "if (wfmode != TWF_ORW && wfmode != TWF_ANDW)", "    waiptn = 0;"]
    text, out = request(name, parameters, list(wanted))
    if out:
        # what the call told is stored by the program's own thread of control, so it is an access like its others
        value = "(%s)told()" % out[0] if out[0] else "block_of(mpfid, (int)told())"
        stores = ["    stores(PLACE, %s, sizeof *%s);" % (out[1], out[1]), "    *%s = %s;" % (out[1], value)]
        lines += ["ER ercd = %s;" % text, "if (ercd == E_OK) {", *stores, "}", "return ercd;"]
    elif result == "ER_UINT":
        lines += ["ER ercd = %s;" % text, "return ercd == E_OK ? (ER_UINT)told() : ercd;"]
    elif result == "bool_t":
        lines += ["return %s == E_OK && told() != 0;" % text]
    else:
        lines += ["return %s;" % text]
    return "".join("    %s\n" % line for line in lines)


def table(kinds):
    rows = []
    for name, wanted in [*kinds.items(), ("ret_hdr", [])]:
        words = " | ".join(does(name, wanted)) or "0"
        rows.append('    [%s] = {"%s", {%s}, %s},' % (name.upper(), name, ", ".join(map(constant, wanted)) or "A_NOTHING", words))
    return "\n".join(["", "const struct call calls[] = {", *rows, "};"])


def numbers(kinds):
    names = ["%s = %d" % (name.upper(), number) for number, name in enumerate([*kinds, "ret_hdr"], 1)]
    lines = ["    %s," % ", ".join(names[at:at + 8]) for at in range(0, len(names), 8)]
    return "\n".join(["/* Made by gen/calls.py of `fmpsim list`: the calls by their numbers, which are those of fmp.h. */", "#ifndef CALL_NUMBERS_H",
                      "#define CALL_NUMBERS_H", "enum call_number {", *lines, "};", "#endif"])


def main():
    with open(sys.argv[1]) as file:
        header = file.read()
    kinds = {name: [kind.strip() for kind in arguments.split(",") if kind.strip()] for name, arguments in re.findall(r"^(\w+)\((.*)\)$", sys.stdin.read(), re.M)}
    made = [(result, name, parameters) for result, name, parameters in re.findall(r"^extern (ER|ER_UINT|bool_t) (\w+)\((.*)\);$", header, re.M) if name in kinds]
    assert len(made) == len(kinds) == 77, (len(made), len(kinds))
    unknown = {name for names in DOES.values() for name in names.split()} - {*kinds, "ret_hdr"}
    assert not unknown, unknown
    if "--numbers" in sys.argv[2:]:
        print(numbers(kinds))
        return
    print('/* Made by gen/calls.py of include/kernel.h and `fmpsim list`. */\n#include "calls.h"\n#include "kernel.h"\n#include "requests.h"')
    for result, name, parameters in made:
        print("\n%s %s(%s) {\n%s}" % (result, name, parameters, body(result, name, parameters, kinds[name])))
    print(table(kinds))


main()
