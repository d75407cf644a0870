#!/usr/bin/env python3
"""Asks tools/check-pages, tools/crate-list and tools/wrap-pages about small texts, of which it was worked out by hand what is wrong with them.

    tests/program/page_checks.py        the last line is 'N passed, M failed'
"""
import importlib.machinery
import importlib.util
import sys
from pathlib import Path

TOOLS = Path(__file__).resolve().parents[2] / "tools"
sys.dont_write_bytecode = True
sys.path.insert(0, str(TOOLS))


def tool(name):
    """A tool as a module: its file has no ending that Python knows."""
    loader = importlib.machinery.SourceFileLoader(name.replace("-", "_"), str(TOOLS / name))
    module = importlib.util.module_from_spec(importlib.util.spec_from_loader(loader.name, loader))
    loader.exec_module(module)
    return module


pages = tool("check-pages")
lists = tool("crate-list")
wraps = tool("wrap-pages")
FAILED = []
ASKED = []


def ask(what, found, wanted):
    ASKED.append(what)
    if found != wanted:
        FAILED.append(what)
        print(f"FAILED: {what}: {found!r}, and not {wanted!r}")


def choice(number, end="*2026-11-22*", anchor=None):
    return f'- <a id="{anchor or number}"></a>{number}. **So it is**, over two\n  lines. {end}\n'


def asks_choices():
    kernel = "# What it does\n\n## One\n\n" + choice(1) + choice(3) + "\n## Two\n\n" + choice(4)
    for what, made, wanted in (
        ("two pages", choice(2), []),
        ("superseded", choice(2, "*2026-11-22,\n  superseded in part by [4](K.md#4)*"), []),
        ("twice", choice(3), ["D: twice 3"]),
        ("another anchor", choice(2, anchor=5), ["D: the anchor 5 of 2"]),
        ("no number", "- **So it is.** *2026-11-22*\n", ["D: the anchor None of a choice without a number"]),
        ("no day", choice(2, ""), ["D: 2 does not end with its day"]),
        ("no day before another", choice(2, "") + choice(5), ["D: 2 does not end with its day"]),
        ("by an earlier one", choice(2, "*2026-11-22, superseded by [1](K.md#1)*"), ["D: 2 is superseded by 1"]),
        ("by another than it links to", choice(2, "*2026-11-22, superseded by [4](K.md#3)*"), ["D: 2 is superseded by 4"]),
    ):
        ask(f"choices: {what}", [*pages.choices({"K": kernel, "D": made})], wanted)


def asks_for_whom():
    texts = {
        "README.md": "# A\n", "docs/GUIDE.ja.md": "# A\n", "examples/one/README.md": "# A\n",
        "docs/A.md": "# A\n\n**For users.** So it is.\n\n## B\n", "docs/formats/b.md": "# B\n\nSo it is.\n\n## C\n\n**For users.**\n", "examples/README.md": "# C\n",
    }
    wanted = [f"{page}: does not say for whom it is (**For ..**)" for page in ("docs/formats/b.md", "examples/README.md")]
    ask("for whom", [*pages.addressed({Path(page): text for page, text in texts.items()})], wanted)


LINES = """# What stands here,
# in two lines.

# values

# codes, and `Task`: a number
low: arrayvec fmp_top
low_c staticlib: low

# plain machine

# what stands on it
high: low fmp_top
# no line
# but this one
fmp_top: low
"""


def asks_crates():
    low, low_c = ("low", "codes, and `Task`: a number", ["arrayvec", "fmp_top"]), ("low_c", "", ["low"])
    high, top = ("high", "what stands on it", ["low", "fmp_top"]), ("fmp_top", "but this one", ["low"])
    wanted = [("values", [low, low_c]), ("plain machine", [high, top])]
    ask("crates: layers", [(name, [*map(tuple, crates)]) for name, crates in pages.crate_lines.layers(LINES)], wanted)
    ask("crates: the list", "\n".join(pages.crate_lines.listed(LINES.replace("low_c s", "# for C\nlow_c s"))), """
**Values**

- `low`: codes, and `Task`: a number
- `low_c`: for C

**Plain machine**

- `high`: what stands on it
- `fmp_top`: but this one""")
    found = pages.crates_listed(LINES, ["high", "low", "other"], "`low` ## Crate by crate `high`, `other` ## What an event changes `low`")
    ask("crates: what is wrong", [*found], [
        "crates.txt: low stands on fmp_top",
        "crates.txt: no line of at most 150 columns above low_c says what it is for",
        "crates.txt: no other",
        "docs/CONTRACTS.md: no row of low",
    ])


def asks_the_list():
    page = f"# A\n\n{lists.ABOVE}{{}}{lists.BELOW}\n\nB\n"
    wanted = page.format("\n**Values**\n\n- `low`: one\n")
    ask("the list, where another stood", lists.made(page.format("\nother\n"), "# values\n\n# one\nlow:\n"), wanted)
    ask("the list, where it stands", lists.made(wanted, "# values\n\n# one\nlow:\n"), wanted)
    try:
        lists.made("# A\n", "# values\n")
        ask("a page without a place for the list", "taken", "refused")
    except SystemExit as end:
        ask("a page without a place for the list", str(end).partition(":")[0], "docs/ARCHITECTURE.md")


def asks_wrapping():
    nine, ten = "word word", "word word "
    # fifteen times ten columns, and four of the next word, are 154; the next line begins with the blank that an item has
    long, first = ten * 17 + "end", ten * 15 + "word"
    for what, text, wanted in (
        ("a paragraph", long, f"{first}\n{nine} {nine[:4]} end"),
        ("an item", f"- {long}\n- short", f"- {ten * 15}\n  {nine} {nine} end\n- short".replace(" \n", "\n")),
        ("an item in an item", f"1. one:\n   - {long}", f"1. one:\n   - {ten * 15}\n     {nine} {nine} end".replace(" \n", "\n")),
        ("what is no longer than it may be", ten * 15 + "0123456789", ten * 15 + "0123456789"),
        ("a row, a heading and a shown text", f"# {long}\n\n| {long} |\n\n    {long}\n\n```\n{long}\n```", None),
        ("code", f"{ten * 15}`{nine}` {nine}", f"{ten * 15}".strip() + f"\n`{nine}` {nine}"),
        # without that there would be room for the word, and the next line would begin with the -
        ("what would begin an item", f"{ten * 15}word - {nine}", f"{ten * 15}".strip() + f"\nword - {nine}"),
    ):
        ask(f"wrapping: {what}", wraps.made(text + "\n"), (wanted or text) + "\n")


def closing():
    """The last line, and the status that goes with it."""
    print(f"{len(ASKED) - len(FAILED)} passed, {len(FAILED)} failed")
    return 1 if FAILED else 0


if __name__ == "__main__":
    asks_choices()
    asks_for_whom()
    asks_crates()
    asks_the_list()
    asks_wrapping()
    sys.exit(closing())
