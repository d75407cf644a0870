"""The lines of crates.txt: the layers, and in each the crates with what they are for and what they stand on.

A comment between two empty lines is the name of a layer. The comment of one line above a crate says what it is for.
"""
from collections import namedtuple
from pathlib import Path

TOP = Path(__file__).resolve().parent.parent
Crate = namedtuple("Crate", "name about below")


def layers(text):
    """The name of each layer with its crates, in their order."""
    found = []
    for block in text.split("\n\n"):
        lines = [line for line in block.splitlines() if line]
        if len(lines) == 1 and lines[0].startswith("# "):
            found.append((lines[0][2:], []))
        elif found:
            found[-1][1].extend(crates_of(lines))
    return found


def crates_of(lines):
    about = ""
    for line in lines:
        if line.startswith("#"):
            about = line[1:].strip()
            continue
        # after a name the kind of its crate may stand, as `staticlib`
        name, _, below = line.partition("#")[0].partition(":")
        yield Crate(name.split()[0], about, below.split())
        about = ""


def listed(text):
    """The list of docs/ARCHITECTURE.md."""
    for layer, crates in layers(text):
        yield f"\n**{layer[0].upper()}{layer[1:]}**\n"
        yield from (f"- `{crate.name}`: {crate.about}" for crate in crates)
