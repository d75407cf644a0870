#!/usr/bin/env python3
"""Asks tools/gate-table what was worked out by hand: a chain, the clock on some cores, a merge, limits, and which crates are the ruler of a run.

    tests/program/gate_table.py        the last line is 'N passed, M failed'
"""
import importlib.machinery
import importlib.util
import sys
from pathlib import Path

TOOLS = Path(__file__).resolve().parents[2] / "tools"
sys.dont_write_bytecode = True
sys.path.insert(0, str(TOOLS))
LOADER = importlib.machinery.SourceFileLoader("gate_table", str(TOOLS / "gate-table"))
table = importlib.util.module_from_spec(importlib.util.spec_from_loader("gate_table", LOADER))
LOADER.exec_module(table)
figures = table.gate_figures

# d stands on b and c, which both stand on a.
BELOW = {"a": [], "b": ["a"], "c": ["a"], "d": ["b", "c"]}
LINES = {"a": 100, "b": 90, "c": 80, "d": 70}
COST = {"a": 10, "b": 20, "c": 5, "d": 7}
FAILED = []
ASKED = []


def row(name, check, tests="", edits="", **other):
    return {"crate": name, "check": check, "tests": tests, "edits": edits, "clauses": "4", "?": "2", "megabytes": "100.0", "ruler": "12 crates at 1.50"} | other


def rows():
    return {name: row(name, str(cost)) for name, cost in COST.items()}


def ask(what, found, wanted):
    ASKED.append(what)
    if found != wanted:
        FAILED.append(what)
        print(f"FAILED: {what}: {found!r}, and not {wanted!r}")


def asks_clocks():
    ask("chain", figures.longest_chain(BELOW, COST), (37, ["a", "b", "d"]))
    its = rows()
    # b and c go beside one another on two cores; on one core all four follow one another
    for lanes, wanted in ((1, 42.0), (2, 37.0)):
        tasks = table.tasks_of(BELOW, its)
        ask(f"clock on {lanes}", table.clock(tasks, table.behind_of(tasks, LINES), lanes), wanted)
    # the edits of a, 30 s, wait for its check and leave the other core to b, c and d, which takes 10 + 20 + 5 + 7
    its["a"]["edits"] = "30"
    tasks = table.tasks_of(BELOW, its)
    ask("clock with edits", table.clock(tasks, table.behind_of(tasks, LINES), 2), 45.0)
    ask("tasks", sorted(tasks), [("a", "check"), ("a", "edits"), ("b", "check"), ("c", "check"), ("d", "check")])


def asks_merges():
    new, its, lines = table.merged(BELOW, rows(), LINES, "b", "c")
    ask("merged crates", new, {"a": [], "d": ["b+c"], "b+c": ["a"]})
    ask("merged seconds", its["b+c"]["check"], 18.5)
    ask("merged lines", lines["b+c"], 170)
    try:
        table.merged(BELOW, rows(), LINES, "a", "d")
        ask("a and d", "merged", "refused")
    except SystemExit as told:
        ask("a and d", str(told), "a and d cannot be one: between them stand b c")
    ask("edge", table.cut(BELOW, "d", "c")["d"], ["b"])


def asks_limits():
    limits = {"sum": 42.0, "chain": 20.0, "beside": 5.0}
    ask("within limits", [*figures.over_budget(BELOW, rows(), limits)], [])
    ask("over the sum", len([*figures.over_budget(BELOW, rows(), limits | {"sum": 41.9})]), 1)
    # c is on no longest chain: its limit is the one beside, unless it has one by name
    ask("c beside", [it.split()[0] for it in figures.over_budget(BELOW, rows(), limits | {"beside": 4.9})], ["c"])
    ask("c by name", [*figures.over_budget(BELOW, rows(), limits | {"beside": 4.9, "c": 5.0})], [])


def measured(number, factor, size=100.0):
    """What a run measured of crates k0, k1, .., each of 10 s by its row, and so many times that."""
    return {f"k{at}": {"run": {"check": {"seconds": 10.0 * factor, "megabytes": size}}} for at in range(number)}


def asks_rulers():
    its = {f"k{at}": row(f"k{at}", "10", sources="s", below="u") for at in range(12)}
    sums = {name: ("s", "u") for name in its}
    table.gate_figures.counted = lambda folder: {"functions": 9, "clauses": 4, "?": 2}
    found = measured(12, 2.0)
    ask("as in all rows", table.ruler_of("run", its, found, sums), (list(its), 2.0))
    # k11 has other sources: it is of the ruler only where its clauses, its `?` and its library are as they were
    sums["k11"] = ("other", "u")
    found["k11"]["run"]["check"]["seconds"] = 50.0
    for size, wanted in ((100.5, 12), (99.5, 12), (100.6, 11), (99.4, 11), (None, 11)):
        found["k11"]["run"]["check"]["megabytes"] = size
        ask(f"library of {size}", len(table.ruler_of("run", its, found, sums)[0]), wanted)
    its["k11"]["ruler"] = "estimated"
    sums["k11"] = ("s", "u")
    ask("estimated", len(table.ruler_of("run", its, found, sums)[0]), 11)
    its["k11"] |= {"ruler": "12 crates at 1.50", "clauses": "5"}
    found["k11"]["run"]["check"]["megabytes"] = 100.0
    sums["k11"] = ("other", "u")
    ask("another clause", len(table.ruler_of("run", its, found, sums)[0]), 11)
    # nine crates are no ruler, unless one is wanted anew
    few = measured(9, 3.0)
    ask("nine", table.rulers(its, few, sums, False), {})
    ask("nine, anew", table.rulers(its, few, sums, True)["run"][1], 3.0)


def asks_choices():
    ruled = {"one": (["a"] * 10, 1.5), "two": (["a"] * 20, 2.0), "three": (["a"] * 20, 2.0)}
    its = {run: {"check": {"seconds": took}} for run, took in (("one", 90.0), ("two", 40.0), ("three", 41.0), ("four", 99.0))}
    ask("largest ruler, most seconds", table.chosen(its, ruled), "three")
    ask("no ruler", table.chosen({"four": its["four"]}, ruled), None)


asks_clocks()
asks_merges()
asks_limits()
asks_rulers()
asks_choices()
print(f"{len(ASKED) - len(FAILED)} passed, {len(FAILED)} failed")
sys.exit(bool(FAILED))
