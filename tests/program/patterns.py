"""Asks for every row of words of the lines that the machine answers to the events of tests/cases: none of them is a fault of the question.

    python3 patterns.py PROGRAM TOP

Of each line of a trace each row of its words is a pattern, and each with a star in place of those between its first word and its last one. Of each line of a
state each fact is one, with the thing that has it and without, and the thing with all facts from the first to each other. Those of one configuration are asked for
together. The last line says how many patterns there were, and the status is 0 where none was refused.
"""
import importlib.machinery
import importlib.util
import re
import subprocess
import sys
import tempfile
from pathlib import Path

# The bytes of a question on the command line, and of a pattern.
ROOM = 100_000
LONGEST = 1022


def all_cases(top):
    """The parts of each case of tests/cases, as tests/play reads them."""
    loader = importlib.machinery.SourceFileLoader("play", str(top / "tests/play"))
    sys.dont_write_bytecode = True
    play = importlib.util.module_from_spec(importlib.util.spec_from_loader("play", loader))
    loader.exec_module(play)
    for path in sorted((top / "tests/cases").rglob("*.t*")):
        yield from (parts for _, parts in play.cases_of(path))


# What stands after `waits`, and says nothing by itself.
WAITS = {"slp", "dly", "sem", "flg", "sdtq", "rdtq", "mpf"}

# The words of facts. Where an object has such a name, a pattern with it behind another word has two meanings, and is a fault.
FACTS = WAITS | {"locked", "disabled", "latch", "dormant", "running", "ready", "suspended", "waits", "empty", "stopped", "due", "free", "end"}


def rows_of(line):
    """The patterns that a line of a trace gives."""
    words = line.split(" ")
    for first in range(len(words)):
        for last in range(first, len(words)):
            yield " ".join(words[first:last + 1])
            if last > first + 1:
                yield f"{words[first]} * {words[last]}"


def facts_of(line):
    """The patterns that a line of a state gives: each value after a `=` is a fact of its own."""
    thing, *words = line.split(" ")
    if not words:
        yield thing
    facts = [f"{key}={one}" if equals else key for key, equals, values in (word.partition("=") for word in words) for one in values.split(",")]
    for last, fact in enumerate(facts):
        yield f"{thing} {' '.join(facts[:last + 1])}"
        if last == 0 or facts[last - 1] not in WAITS:
            yield from (fact, f"{thing} {fact}", f"{thing} * {fact}")


def patterns_of(program, config, events):
    """What the machine answers, with the states, as patterns. A line of a state has blanks before it, and one of a trace a number."""
    told = subprocess.run([program, "calls", "--state", config, "-"], input=events, capture_output=True, check=False)
    for line in told.stdout.decode(errors="replace").splitlines():
        if line.startswith(" "):
            yield from facts_of(line.lstrip(" "))
        else:
            yield from rows_of(line.partition(" ")[2])


def is_doubtful(pattern, names):
    """Whether a word of a pattern behind the first one is a name and a word of facts."""
    return any(word in FACTS and word in names for word in pattern.split(" ")[1:])


def questions_of(patterns):
    """Questions that ask for all of them, of so many bytes that they are to be had on a command line."""
    some, size = [], 0
    for pattern in patterns:
        if some and ROOM < size + len(pattern):
            yield " & ".join(some)
            some, size = [], 0
        some.append(pattern)
        size += len(pattern) + 3
    if some:
        yield " & ".join(some)


def refused(program, config, question):
    """What stands on standard error, where the question has a fault. No event shows it, as there is none."""
    told = subprocess.run([program, "shrink", config, "-", f"--find={question}"], input=b"", capture_output=True, check=False)
    return None if told.returncode == 5 else told.stderr.decode(errors="replace")


def main():
    program, top = sys.argv[1], Path(sys.argv[2])
    texts = {}
    for parts in all_cases(top):
        if "machine.cfg" in parts and "events" in parts:
            texts.setdefault(parts["machine.cfg"], set()).add(parts["events"])
    count, well = 0, True
    with tempfile.TemporaryDirectory() as room:
        config = str(Path(room) / "machine.cfg")
        for text in sorted(texts):
            Path(config).write_bytes(text)
            names = set(re.findall(r"\bCRE_[A-Z]{3}\s*\(\s*(\w+)", text.decode(errors="replace")))
            patterns = {pattern for events in texts[text] for pattern in patterns_of(program, config, events) if len(pattern) <= LONGEST}
            patterns = {pattern for pattern in patterns if not is_doubtful(pattern, names)}
            count += len(patterns)
            for question in questions_of(sorted(patterns)):
                fault = refused(program, config, question)
                if fault is not None:
                    well = False
                    print(fault, question[:400])
    print(count)
    return 0 if well else 1


sys.exit(main())
