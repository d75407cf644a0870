#!/usr/bin/env python3
"""Asks tools/places about a few texts, of which it was worked out by hand where a call stands, and whether each call stands at each place of all calls.

    tests/program/places.py        the last line is 'N passed, M failed'
"""
import sys

from page_checks import ask, closing, tool

places = tool("places")

TITLES = "value rule function name lists safety balance waits counts records refusals footprint description".split()
PROVING = "1. **Before**\n\n## Where a new call goes: thirteen places\n\n" + "".join(
    f"{n}. **The {title}** (so): a line of `act_tsk`,\n   and **another**.\n" for n, title in enumerate(TITLES, 1)) + "\n## Where else\n\n14. **After**\n"
FILES = {
    "docs/PROVING.md": PROVING,
    "crates/fmp_calls/src/table/task.rt": 'task!(\n    ActTsk(task) = b"act_tsk",\n    MactTsk(task, processor) = b"mact_tsk",\n',
    "crates/fmp_calls/src/table/time.rt": 'time!(\n    RetHdr = b"ret_hdr",\n',
    "crates/fmp_codes/src/calls.rt": "ActTsk(i32),\nMactTsk(i32, i32),\nRetHdr,\n",
    "crates/fmp_step_tasks/src/calls.rt": "fn act_tsk()\n\nfn mact_tsk() // as act_tsk\n",
    "crates/fmp_step/src/family.rt": "act_tsk\n",
    "crates/fmp_law_records/proofs/counts/Lives.antt": "lives (ActTsk t) = t\n",
    "crates/fmp_law_records/specs/Counts.antt": "ActTsk\n",
    "crates/fmp_law_records/specs/Effects/Lists.antt": "call_act_tsk\n",
    "crates/fmp_law_records/specs/Accepting.antt": "-- iact_tsk, IactTsk, act_tsks and mact_tsk are others\n",
    "tests/every.table": "act_tsk(T1)\nmact_tsk(T1, 2)\nret_hdr\n",
    "tests/one.test": "1 P1 T1 act_tsk(T2) E_OK\n",
    "docs/STATEMENT.md": "act_tsk mact_tsk ret_hdr\n",
}
KNOWN = {"act_tsk": "ActTsk", "mact_tsk": "MactTsk", "ret_hdr": "RetHdr"}


def asks_where():
    ask("the calls", places.calls(FILES), KNOWN)
    ask("the places", places.places(FILES), {n: f"The {title}" for n, title in enumerate(TITLES, 1)})
    index = places.Index(FILES, KNOWN)
    found = {place: paths for place, paths in index.by_place("act_tsk").items() if paths}
    ask("where act_tsk stands", found, {
        1: ["crates/fmp_codes/src/calls.rt"],
        3: ["crates/fmp_step_tasks/src/calls.rt"],
        4: ["crates/fmp_calls/src/table/task.rt"],
        9: ["crates/fmp_law_records/proofs/counts/Lives.antt", "crates/fmp_law_records/specs/Counts.antt"],
        11: ["crates/fmp_law_records/specs/Effects/Lists.antt"],
        0: ["crates/fmp_step/src/family.rt"],
        None: ["docs/PROVING.md", "tests/every.table", "tests/one.test", "docs/STATEMENT.md"],
    })
    ask("where mact_tsk is a record's", index.by_place("mact_tsk")[10], ["crates/fmp_law_records/specs/Accepting.antt"])
    ask("its lines", index.lines("crates/fmp_step_tasks/src/calls.rt", "act_tsk"), [(1, "fn act_tsk()"), (3, "fn mact_tsk() // as act_tsk")])


def asks_what_is_printed():
    index = places.Index(FILES, KNOWN)
    empty = lambda n: f"\n{n}. The {TITLES[n - 1]}: 0 files"
    said = [*places.listing(index, "ret_hdr")]
    ask("what is printed of ret_hdr", said, [
        "\n1. The value: 1 file", "crates/fmp_codes/src/calls.rt:3: RetHdr,", empty(2), empty(3),
        "\n4. The name: 1 file", 'crates/fmp_calls/src/table/time.rt:2: RetHdr = b"ret_hdr",',
        *map(empty, range(5, 14)), "\nOther crates: 0 files",
        "\nTests, pages and tools that name every call: 2 files", "tests/every.table:3: ret_hdr", "docs/STATEMENT.md: tools/statement writes it",
    ])
    said = [*places.listing(index, "act_tsk")]
    ask("what is left out", said[-1], "\nnot shown: 2 files outside of the crates (--all)")
    said = [*places.listing(index, "act_tsk", is_all=True)]
    # the page has four lines before the first place, and two lines for each of the thirteen
    others = [f"docs/PROVING.md:{3 + 2 * n}: {n}. **The {title}** (so): a line of `act_tsk`," for n, title in enumerate(TITLES, 1)]
    ask("all", said[-15:], ["\nAll others: 2 files", *others, "tests/one.test:1: 1 P1 T1 act_tsk(T2) E_OK"])
    # a call that the table does not have yet stands in one of the files
    files = FILES | {"crates/fmp_codes/src/calls.rt": "ActTsk(i32),\nFrzTsk(i32),\n"}
    index = places.Index(files, {"frz_tsk": places.variant_of("frz_tsk"), **KNOWN})
    said = [*places.listing(index, "act_tsk", "frz_tsk")]
    begun = ["  [x] crates/fmp_codes/src/calls.rt", "  [ ] crates/fmp_step_tasks/src/calls.rt"]
    ask("a call that is begun", [line for line in said if "  [" in line][:2], begun)
    ask("a list of every call but that", "  [ ] tests/every.table" in said, True)


def asks_the_repository():
    files = dict(places.texts())
    known = places.calls(files)
    ask("so many calls", len(known), 77)
    ask("each place has its paths", [*places.places(files)], sorted(places.PATHS))
    index = places.Index(files, known)
    of_all = (1, 2, 3, 4, 5, 6, 11, 12, 13)
    for name in known:
        found = index.by_place(name)
        ask(f"{name} stands at each place of all calls", [n for n in of_all if not found[n]], [])


if __name__ == "__main__":
    asks_where()
    asks_what_is_printed()
    asks_the_repository()
    sys.exit(closing())
