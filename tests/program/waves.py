#!/usr/bin/env python3
"""Replays waveforms: what `wave` draws of a run says the same as the run's trace and as `calls --state`.

    tests/program/waves.py PROGRAM [CASE..]

CASE names cases as for tests/play: those with events that end well are replayed. Without one, its reader of Value Change Dumps is
tried first, which is written from the standard (IEEE 1364) with the strings that GTKWave adds, on what it has to refuse and on what it
has to read, and the replay, on a waveform each of whose lines is left out in turn. Then all examples are replayed, tasks with each
number, runs by seeds, and the cases of tests/cases/waves and states. With each waveform comes the save file of its configuration, which
has to name each variable once. The last line is 'N passed, M failed'.
"""
import importlib.machinery
import importlib.util
import itertools
import re
import subprocess
import sys
import tempfile
from concurrent.futures import ThreadPoolExecutor
from functools import lru_cache
from pathlib import Path
from typing import NamedTuple

TOP = Path(__file__).resolve().parents[2]
SECONDS = 600


class Wrong(Exception):
    """What is wrong with a dump, or with what it says."""


def holds(right, cause):
    if not right:
        raise Wrong(cause)


# The reader of dumps.

DUMPS = ("$dumpvars", "$dumpall", "$dumpon", "$dumpoff")
REMARKS = ("$comment", "$date", "$version")
DECLARATIONS = ("$timescale", "$scope", "$upscope", "$var", "$enddefinitions")
COMMANDS = (*DUMPS, *REMARKS, *DECLARATIONS)
SCOPES = ("begin", "fork", "function", "module", "task")
WITH_BITS = ("event", "integer", "parameter", "reg", "supply0", "supply1", "time", "tri", "triand", "trior", "trireg", "tri0", "tri1",
             "wand", "wire", "wor")
REALS = ("real", "realtime")


class Variable(NamedTuple):
    scope: str  # the innermost one that it stands in
    kind: str
    width: int
    identifier: str
    name: str


class Change(NamedTuple):
    time: int
    place: int  # of the variable among all of them
    value: str


class Dump:
    """A dump, read word by word."""

    def __init__(self, text):
        self.variables, self.times, self.changes = [], [], []
        self.command, self.words = None, []
        self.scopes, self.places = [], {}
        self.defined = self.dumping = False
        self.value = None  # one whose identifier comes next
        for word in text.split():
            self.take(word)
        holds(self.command is None, "a declaration without $end")
        holds(self.defined, "no $enddefinitions")
        holds(self.value is None, "a value without its variable")
        holds(not self.dumping, "a dump without $end")

    def take(self, word):
        if self.command:
            self.take_in_command(word)
        elif self.value:
            (form, value), self.value = self.value, None
            self.change(form, value, word)
        elif word == "$end":
            holds(self.dumping, "an $end of nothing")
            self.dumping = False
        elif word.startswith("$"):
            self.begin_command(word)
        else:
            holds(self.defined, "no $enddefinitions")
            self.time(word[1:]) if word.startswith("#") else self.begin_value(word)

    def begin_command(self, word):
        holds(word in COMMANDS, "an unknown command")
        if word in DUMPS:
            holds(self.defined, "no $enddefinitions")
            holds(not self.dumping, "a dump within a dump")
            self.dumping = True
        else:
            holds(not self.defined or word == "$comment", "a declaration behind $enddefinitions")
            self.command = word

    def take_in_command(self, word):
        if word == "$end":
            command, words, self.command, self.words = self.command, self.words, None, []
            if command in DECLARATIONS:
                getattr(self, command[1:])(words)
        elif self.command not in REMARKS:
            # An identifier is any visible characters, and so may look like a command.
            identifies = self.command == "$var" and len(self.words) == 2
            holds(identifies or word not in COMMANDS, "a declaration without $end")
            self.words.append(word)

    def timescale(self, words):
        holds(re.fullmatch(r"(1|10|100) ?(s|ms|us|ns|ps|fs)", " ".join(words)), "a bad timescale")

    def scope(self, words):
        holds(len(words) == 2 and words[0] in SCOPES, "a bad scope")
        self.scopes.append(words[1])

    def upscope(self, words):
        holds(not words, "a bad scope")
        holds(self.scopes, "a scope is closed twice")
        self.scopes.pop()

    def enddefinitions(self, words):
        holds(not words, "words in $enddefinitions")
        holds(not self.scopes, "a scope is not closed")
        self.defined = True

    def var(self, words):
        # The bits that are dumped may stand behind the name.
        holds(len(words) == 4 or len(words) == 5 and words[4].startswith("["), "a bad variable")
        kind, width, identifier, name = words[:4]
        holds(kind in (*WITH_BITS, *REALS, "string"), "an unknown kind")
        holds(re.fullmatch("[0-9]+", width) and int(width) > 0, "a bad width")
        holds(identifier not in self.places, "a variable is declared twice")
        self.places[identifier] = len(self.variables)
        self.variables.append(Variable(self.scopes[-1] if self.scopes else "", kind, int(width), identifier, name))

    def time(self, digits):
        holds(not self.dumping, "a time within a dump")
        holds(re.fullmatch("[0-9]+", digits), "a bad time")
        holds(not self.times or self.times[-1] < int(digits), "a time that does not rise")
        self.times.append(int(digits))

    def begin_value(self, word):
        first, rest = word[0], word[1:]
        if first in "01xXzZ":
            self.change("scalar", first, rest)
        elif first in "bB":
            holds(re.fullmatch("[01xXzZ]+", rest), "a bad vector")
            self.value = "vector", rest
        elif first in "rR":
            holds(re.fullmatch("[0-9+.eE-]*[0-9][0-9+.eE-]*", rest), "a bad real")
            self.value = "real", rest
        elif first == "s":
            self.value = "string", rest
        else:
            raise Wrong("an unknown value")

    def change(self, form, value, identifier):
        holds(self.times, "a value before the first time")
        holds(identifier in self.places, "a value of no variable")
        place = self.places[identifier]
        kind, width = self.variables[place].kind, self.variables[place].width
        if form == "scalar":
            holds(kind in WITH_BITS and width == 1, "a scalar of a variable that is not one bit wide")
        elif form == "vector":
            holds(kind in WITH_BITS, "a vector of a variable without bits")
            holds(len(value) <= width, "a vector wider than its variable")
        elif form == "real":
            holds(kind in REALS, "a real of a variable that is no real")
        else:
            holds(kind == "string", "a string of a variable that is no string")
        self.changes.append(Change(self.times[-1], place, value))


# What the reader has to refuse, by its cause.

REFUSED = [
    ("an unknown command", "$dump $end $enddefinitions $end"),
    ("an unknown command", "$Var wire 1 ! a $end $enddefinitions $end"),
    ("an $end of nothing", "$end $enddefinitions $end"),
    ("a declaration without $end", "$scope module a $var wire 1 ! b $end"),
    ("a declaration without $end", "$timescale 1 ns $enddefinitions $end"),
    ("a declaration without $end", "$comment $enddefinitions"),
    ("a bad timescale", "$timescale 2 ns $end $enddefinitions $end"),
    ("a bad timescale", "$timescale 10 min $end $enddefinitions $end"),
    ("a bad timescale", "$timescale ns $end $enddefinitions $end"),
    ("a bad scope", "$scope a $end $enddefinitions $end"),
    ("a bad scope", "$scope package a $end $enddefinitions $end"),
    ("a scope is not closed", "$scope module a $end $enddefinitions $end"),
    ("a scope is not closed", "$scope module a $end $scope module b $end $upscope $end $enddefinitions $end"),
    ("a scope is closed twice", "$upscope $end $enddefinitions $end"),
    ("a scope is closed twice", "$scope module a $end $upscope $end $upscope $end $enddefinitions $end"),
    ("a bad variable", "$var wire 1 ! $end $enddefinitions $end"),
    ("a bad variable", "$var wire 1 ! a b $end $enddefinitions $end"),
    ("an unknown kind", "$var text 1 ! a $end $enddefinitions $end"),
    ("a bad width", "$var wire 0 ! a $end $enddefinitions $end"),
    ("a variable is declared twice", "$var wire 1 ! a $end $var wire 1 ! b $end $enddefinitions $end"),
    ("no $enddefinitions", "$var wire 1 ! a $end #0 1!"),
    ("no $enddefinitions", "$var wire 1 ! a $end"),
]

HEADER = """\
$timescale 100ps $end
$scope module top $end
$var wire 1 ! bit $end
$var reg 4 & nibble [3:0] $end
$var real 64 % number $end
$var string 1 $ text $end
$var event 1 $end_ mark $end
$upscope $end
$enddefinitions $end
"""

# Behind the header.
REFUSED_CHANGES = [
    ("an unknown command", "#0 $dumpports 1! $end"),
    ("a declaration behind $enddefinitions", "#0 $var wire 1 a a $end"),
    ("an $end of nothing", "#0 1! $end"),
    ("a dump within a dump", "#0 $dumpvars 1! $dumpall 1! $end $end"),
    ("a dump without $end", "#0 $dumpvars 1!"),
    ("a time within a dump", "#0 $dumpvars 1! #1 $end"),
    ("a value before the first time", "1!"),
    ("a value before the first time", "$dumpvars b1 & $end #0"),
    ("a bad time", "#"),
    ("a bad time", "#1x"),
    ("a time that does not rise", "#3 1! #3 0!"),
    ("a time that does not rise", "#3 1! #2 0!"),
    ("a value of no variable", "#0 1?"),
    ("a value of no variable", "#0 1"),
    ("a value of no variable", "#0 stext ?"),
    ("a scalar of a variable that is not one bit wide", "#0 1&"),
    ("a scalar of a variable that is not one bit wide", "#0 1%"),
    ("a scalar of a variable that is not one bit wide", "#0 1$"),
    ("a vector wider than its variable", "#0 b10101 &"),
    ("a vector wider than its variable", "#0 b00 !"),
    ("a vector of a variable without bits", "#0 b1 $"),
    ("a bad vector", "#0 b12 &"),
    ("a bad real", "#0 rx %"),
    ("a real of a variable that is no real", "#0 r1.5 &"),
    ("a string of a variable that is no string", "#0 s1 !"),
    ("a value without its variable", "#0 b1"),
    ("an unknown value", "#0 2!"),
]

# Each form of a value, as it is kept.
VALUES = "#7 z! bx10Z & r-1.5e3 % sa-b $ 1$end_ $comment #3 $end #9 b1 !"
KEPT = [(7, 0, "z"), (7, 1, "x10Z"), (7, 2, "-1.5e3"), (7, 3, "a-b"), (7, 4, "1"), (9, 0, "1")]

# In the form of the standard's example: nested scopes, a dump of each command, and unknown bits.
STANDARD = """\
$date March 3, 2001 09:12:45
$end
$version SIMULATOR 2.0
$end
$timescale 1 ns
$end
$scope module top $end
$scope module m1 $end
$var trireg 1 *@ net1 $end
$var trireg 1 *# net2 $end
$var trireg 1 *$ net3 $end
$upscope $end
$scope task t1 $end
$var reg 16 (k sum[15:0] $end
$var integer 32 {2 index $end
$upscope $end
$upscope $end
$enddefinitions $end
$comment
  $dumpvars stood at time #500,
  where each variable is told.
$end
#500
$dumpvars
x*@
x*#
x*$
bx (k
bx {2
$end
#505
0*@
1*#
b10zx1110x11100 (k
b1111000101z01x {2
#535
$dumpall 0*@ 1*# 0*$
bz (k
b1111000101z01x {2
$end
#1000
$dumpoff
x*@
$end
#2000
$dumpon
z*@
$end
#2010
1*$
"""
STANDARD_VARIABLES = [("m1", "trireg", 1, "*@", "net1"), ("m1", "trireg", 1, "*#", "net2"), ("m1", "trireg", 1, "*$", "net3"),
                      ("t1", "reg", 16, "(k", "sum[15:0]"), ("t1", "integer", 32, "{2", "index")]


def cause_of(text):
    """Why a text is no dump, if it is none."""
    try:
        Dump(text)
    except Wrong as wrong:
        return str(wrong)
    return "nothing"


def reader_refuses(cause, text):
    holds(cause_of(text) == cause, f"the reader refuses {text!r} for {cause_of(text)}, and not for {cause}")


def reader_keeps_values():
    dump = Dump(HEADER + VALUES)
    holds(dump.times == [7, 9] and dump.changes == KEPT, f"the reader keeps {dump.changes}")


def reader_reads_the_standard():
    dump = Dump(STANDARD)
    holds(dump.times == [500, 505, 535, 1000, 2000, 2010] and len(dump.changes) == 17, f"the reader keeps {dump.changes}")
    holds(dump.variables == STANDARD_VARIABLES, f"the reader reads {dump.variables}")


# The replay.

OF_PROCESSOR = (("string", 1, "r", "running"), ("string", 1, "c", "call"), ("wire", 1, "l", "locked"), ("wire", 1, "d", "disabled"),
                ("wire", 1, "i", "latch"), ("string", 1, "h", "due"), ("event", 1, "t", "tick"))
# The objects that have a number: their statement, the letter and the last word of their signal, and which field is the number at boot.
OF_OBJECTS = (("CRE_SEM", "S", "count", 1), ("CRE_FLG", "F", "pattern", 1), ("CRE_DTQ", "D", "values", None), ("CRE_MPF", "M", "free", 1),
              ("CRE_SPN", "X", "holder", None))
# What is told of a task: the kind, the width, the letter and the word.
OF_TASK = (("string", 1, "s", "state"), ("string", 1, "w", "wait"), ("integer", 32, "p", "priority"), ("integer", 32, "a", "activations"),
           ("integer", 32, "u", "wakeups"))
COMMENT_OR_STRING = re.compile(r'/\*.*?\*/|//[^\n]*|"(?:\\.|[^"\\])*"', re.S)


def defined_in(text):
    return dict(re.findall(r"^[ \t]*#[ \t]*define[ \t]+(\w+)[ \t]+(\w+)[ \t]*$", text, re.M))


# These two are asked again for each state of a run, and kept: of a large configuration they take longer than all else.
@lru_cache(maxsize=64)
def tasks_of(machine):
    """The tasks of a configuration with their priorities at boot, in their order."""
    text = COMMENT_OR_STRING.sub(" ", machine)
    tasks = re.findall(r"\bCRE_TSK\s*\(\s*(\w+)\s*,\s*\{([^}]*)\}", text)
    words = {name: fields.split(",")[3].strip() for name, fields in tasks}
    return {name: int(defined_in(text).get(word, word), 0) for name, word in words.items()}


@lru_cache(maxsize=64)
def numbers_of(machine):
    """The objects of a configuration that have a number, with what that is called and what it is at boot, in the order of their kinds."""
    text = COMMENT_OR_STRING.sub(" ", machine)
    defined, numbers = defined_in(text), []
    for statement, letter, word, place in OF_OBJECTS:
        for n, (name, fields) in enumerate(re.findall(statement + r"\s*\(\s*(\w+)\s*,\s*\{([^}]*)\}", text), 1):
            number = "0" if place is None else fields.split(",")[place].strip()
            numbers.append((letter, n, name, word, int(defined.get(number, number), 0)))
    return numbers


def declared(processors, machine):
    """The variables of a waveform."""
    for p in range(1, processors + 1):
        yield from (Variable(f"P{p}", kind, width, f"{letter}{p}", f"P{p}_{word}") for kind, width, letter, word in OF_PROCESSOR)
    for n, task in enumerate(tasks_of(machine), 1):
        yield from (Variable("tasks", kind, width, f"{letter}{n}", f"{task}_{word}") for kind, width, letter, word in OF_TASK)
    yield from (Variable("objects", "integer", 32, f"{letter}{n}", f"{name}_{word}") for letter, n, name, word, _ in numbers_of(machine))


def states_of(told):
    """The lines of the state at boot and of that behind each event, each as its words."""
    states, lines = [], []
    for line in told.splitlines():
        if line == "  end":
            states.append(lines)
            lines = []
        elif line.startswith(" "):
            lines.append(line.split())
    return states


def values_of(state, machine):
    """What each variable but the calls has to say in a state, by its name."""
    tasks, numbers = tasks_of(machine), {(name, word): number for _, _, name, word, number in numbers_of(machine)}
    values = {f"{task}_state": "dormant" for task in tasks} | {f"{task}_wait": "-" for task in tasks}
    told_of = {}
    for words in state:
        parts = dict(part.split("=", 1) for part in words[1:] if "=" in part)
        if "run" in parts:
            running, processor = parts["run"], words[0]
            values[f"{processor}_running"] = "idle" if running == "-" else running
            values[f"{processor}_due"] = parts.get("due", "-").split(",")[0]
            for flag in ("locked", "disabled", "latch"):
                values[f"{processor}_{flag}"] = "1" if flag in words[1:] else "0"
            for task in parts.get("ready", "").split(","):
                values[f"{task}_state"] = "ready"
            values[f"{running}_state"] = "running"
        for word, part in parts.items():
            word, part = ("holder", part[1:]) if word == "held" else (word, part)
            if (words[0], word) in numbers:
                numbers[words[0], word] = len(part.split(",")) if word == "values" else int(part)
        if words[0] in tasks:
            told_of[words[0]] = parts
    for task, *words in state:
        if words[0] in ("suspended", "waits"):
            told = ["waiting"] * ("waits" in words[:2]) + ["suspended"] * (words[0] == "suspended")
            values[f"{task}_state"] = "-".join(told)
        if task in tasks and "waits" in words[:2]:
            kind, *name = words[words.index("waits") + 1:][:2]
            values[f"{task}_wait"] = kind if kind in ("slp", "dly") else f"{kind}:{name[0]}"
    # a dormant task has no numbers, and of another those are told that are not as at its start
    for task, priority in tasks.items():
        for word, part, usual in (("priority", "pri", priority), ("activations", "act", 0), ("wakeups", "wup", 0)):
            numbers[task, word] = 0 if values[f"{task}_state"] == "dormant" else int(told_of.get(task, {}).get(part, usual))
    return values | {f"{name}_{word}": f"{number:b}" for (name, word), number in numbers.items()}


def ticking(line):
    """The processor of a line of a trace, where that is of a tick."""
    words = line.split()
    return words[1] if words[3] == "tick" else None


def called(line):
    """The processor of a line of a trace, and its event with the answer."""
    processor, event, answer = re.match(r"\d+ (P\d) \S+ (\w+\(.*?\)|\w+) (\S+)", line).groups()
    return processor, "".join(event.split()) + "=" + answer


def replay(machine, trace, told, wave):
    """A waveform says what the trace and the states say: that at boot, and those behind its events."""
    dump, states = Dump(wave), states_of(told)
    processors = sum(words[1].startswith("run=") for words in states[0])
    holds(dump.variables == list(declared(processors, machine)), "other variables are declared")
    names = [variable.name for variable in dump.variables]
    holds(len(names) == len(set(names)), "two variables have one name")
    lines = [None, *trace.splitlines()]
    holds(dump.times == list(range(len(lines))) and len(states) == len(lines), "the times are not those of the lines")
    now, calls = {}, {f"P{p}_call": "-" for p in range(1, processors + 1)}
    place_of = {variable: place for place, variable in enumerate(dump.variables)}
    changes_at = {time: [*changes] for time, changes in itertools.groupby(dump.changes, lambda change: change.time)}
    for time, (line, state) in enumerate(zip(lines, states)):
        changed = [(dump.variables[change.place], change.value) for change in changes_at.get(time, [])]
        ticks = [(variable.scope, value) for variable, value in changed if variable.kind == "event"]
        processor = ticking(line) if line else None
        holds(ticks == ([(processor, "1")] if processor else []), f"#{time} has the ticks {ticks}")
        told_once = [variable for variable, _ in changed]
        holds(len(told_once) == len(set(told_once)), f"#{time} tells a variable twice")
        if line:
            processor, call = called(line)
            calls[f"{processor}_call"] = call
            told_calls = [(variable.name, value) for variable, value in changed if variable.name in calls]
            holds(told_calls == [(f"{processor}_call", call)], f"#{time} tells the calls {told_calls}")
        places = [place_of[variable] for variable, _ in changed if line is None or variable.name not in calls and variable.kind != "event"]
        holds(places == sorted(places), f"#{time} tells the variables in another order than they are declared")
        for variable, value in changed:
            if variable.kind != "event":
                holds(variable.name in calls or now.get(variable) != value, f"#{time} tells the old value of {variable.identifier}")
                now[variable] = value
        wanted = values_of(state, machine) | calls
        for variable in dump.variables:
            if variable.kind != "event":
                found, right = now.get(variable), wanted[variable.name]
                holds(found == right, f"#{time} says {found} of {variable.name}, which is {right}")


# How GTKWave shows a value: bits and strings as they are, a number in decimal, a pattern in hexadecimal.
FORMATS = {word: "@24" for word in ("priority", "activations", "wakeups", "count", "values", "free", "holder")} | {"pattern": "@22"}


def saves(save, wave):
    """A save file has each variable of a waveform once, in their order, under a comment for each scope, and shows it as its kind wants."""
    lines = save.splitlines()
    window = list(itertools.takewhile(lambda line: line[0] in "[*", lines))
    holds({line.split()[0] for line in window} == {"[timestart]", "[size]", "[pos]", "*-1.000000", "[signals_width]", "[sst_expanded]"}, "another window")
    wanted = []
    variables = Dump(wave).variables
    scopes = {variable.scope for variable in variables}
    for name in [*sorted(scopes - {"tasks", "objects"}), "tasks", "objects"]:
        wanted += ["@200", f"-{name}"]
        for variable in variables:
            if variable.scope == name:
                wanted += [FORMATS.get(variable.name.split("_")[-1], "@28"), f"{name}.{variable.name}"]
    holds(lines[len(window):] == wanted, "other traces")


def events_of(trace):
    """The events of a trace, as they are handed in."""
    events = (re.match(r"\d+ (P\d) \S+ (\w+\(.*?\)|\w+) ", line) for line in trace.splitlines())
    return "".join(f"{event[1]} {event[2]}\n" for event in events)


class Player:
    """Runs the program on texts."""

    def __init__(self, program, room):
        self.program, self.room = program, Path(room)

    def run(self, words, **texts):
        with tempfile.TemporaryDirectory(dir=self.room) as folder:
            for name, text in texts.items():
                (Path(folder) / name).write_text(text, encoding="latin-1")
            ended = subprocess.run([self.program, *words], cwd=folder, stdin=subprocess.DEVNULL, capture_output=True, timeout=SECONDS)
        holds(not ended.stderr, f"{words[0]} says {ended.stderr.decode(errors='replace').strip()}")
        return ended.returncode, ended.stdout.decode("ascii")

    def texts(self, machine, events):
        """The trace, the states and the waveform of events."""
        trace = self.well(["calls", "machine", "events"], machine=machine, events=events)
        told = self.well(["calls", "--state", "machine", "events"], machine=machine, events=events)
        wave = self.well(["wave", "machine", "trace"], machine=machine, trace=trace)
        saves(self.well(["wave", "machine", "--gtkw"], machine=machine), wave)
        return trace, told, wave

    def well(self, words, **texts):
        status, told = self.run(words, **texts)
        holds(status == 0, f"{words[0]} ends with {status}")
        return told

    def replays(self, machine, events):
        trace, told, wave = self.texts(machine, events)
        replay(machine, trace, told, wave)

    def replays_trace(self, machine, trace):
        """A trace is drawn as that of its events."""
        events = events_of(trace)
        holds(self.well(["calls", "machine", "events"], machine=machine, events=events) == trace, "its events have another trace")
        self.replays(machine, events)

    def replays_seed(self, machine, scripts, seed):
        words = ["smp", "machine", "scripts", "--ticks", "2", "--turns", "100", "--seed", str(seed)]
        status, trace = self.run(words, machine=machine, scripts=scripts)
        holds(status in (0, 6) and len(trace.splitlines()) > 8, f"the run ends with {status} and {len(trace.splitlines())} lines")
        self.replays_trace(machine, trace)

    def misses_no_line(self, machine, trace, wave):
        """Of a waveform each line in turn is left out, and the replay names it."""
        told = self.texts(machine, events_of(trace))[1]
        replay(machine, trace, told, wave)
        lines = wave.splitlines(keepends=True)
        for n, line in enumerate(lines):
            try:
                replay(machine, trace, told, "".join(lines[:n] + lines[n + 1:]))
            except Wrong:
                continue
            holds(line == "$timescale 1 us $end\n", f"the replay does not miss line {n + 1} of the waveform: {line.strip()}")


# What is replayed beside the examples and the cases.

# As many tasks as there can be run one after the other, so each number is drawn.
NUMBERS = ("PROCESSORS(1);\nDEF_CLASS(C, 1, {1});\nCLASS(C) {\n"
           + "".join(f"  CRE_TSK(T{n}, {{TA_ACT, 0, main, 1, 4096, NULL}});\n" for n in range(1, 65)) + "}\n")
ALL_END = 64 * "P1 ext_tsk()\n"

SPINNING = """\
PROCESSORS(2);
DEF_CLASS(C1, 1, {1, 2});
DEF_CLASS(C2, 2, {1, 2});
CLASS(C1) {
  CRE_TSK(T1, {TA_ACT, 0, main1, 10, 4096, NULL});
  CRE_SPN(L, {TA_NULL});
}
CLASS(C2) {
  CRE_TSK(T2, {TA_ACT, 0, main2, 10, 4096, NULL});
}
"""
SPINNING_SCRIPTS = """\
script main1
  loc_spn(L)
  unl_spn(L)
  chg_pri(T1, 5)
end
script main2
  dly_tsk(0)
  loc_spn(L)
  unl_spn(L)
end
"""


def loaded_play():
    """tests/play, as a module."""
    sys.dont_write_bytecode = True
    loader = importlib.machinery.SourceFileLoader("play", str(TOP / "tests/play"))
    play = importlib.util.module_from_spec(importlib.util.spec_from_loader("play", loader))
    loader.exec_module(play)
    return play


def worked_out(name):
    """The configuration, the trace and the waveform of a case that has them, worked out by hand."""
    _, parts = next(loaded_play().cases_of(TOP / "tests/cases/waves" / name))
    return [parts[part].decode("latin-1") for part in ("machine.cfg", "trace", "wave")]


def cases(names):
    """The cases that end well and have events, by those names, as tests/play reads them."""
    play = loaded_play()
    try:
        files = play.files_of(names)
    except play.Wrong as wrong:
        raise Wrong(str(wrong)) from None
    for path in files:
        for name, parts in play.cases_of(path):
            if not isinstance(parts, str) and "events" in parts and "status" not in parts:
                yield name, parts["machine.cfg"].decode("latin-1"), parts["events"].decode("latin-1")


def replays_of(player, names):
    """The cases that are replayed: what each is called, and how it is done."""
    for name, machine, events in cases(names):
        yield name, lambda machine=machine, events=events: player.replays(machine, events)


def all_of(player):
    """All that is tried, likewise."""
    for cause, text in REFUSED:
        yield f"reader: {cause}", lambda cause=cause, text=text: reader_refuses(cause, text)
    for cause, text in REFUSED_CHANGES:
        yield f"reader: {cause}", lambda cause=cause, text=text: reader_refuses(cause, HEADER + text)
    yield "reader: values", reader_keeps_values
    yield "reader: the standard's example", reader_reads_the_standard
    late = TOP / "examples/late-interrupt"
    whole = [(late / name).read_text() for name in ("machine.cfg", "trace.txt", "trace.vcd")]
    yield "replay: each line left out", lambda: player.misses_no_line(*whole)
    yield "replay: each line left out, of objects", lambda: player.misses_no_line(*worked_out("objects.test"))
    for folder in sorted((TOP / "examples").iterdir()):
        if (folder / "trace.txt").is_file():
            texts = [(folder / name).read_text() for name in ("machine.cfg", "trace.txt")]
            yield f"examples/{folder.name}", lambda texts=texts: player.replays_trace(*texts)
    yield "each number", lambda: player.replays(NUMBERS, ALL_END)
    for seed in range(8):
        yield f"seed {seed}", lambda seed=seed: player.replays_seed(SPINNING, SPINNING_SCRIPTS, seed)
    yield from replays_of(player, [str(TOP / "tests/cases" / folder) for folder in ("waves", "states")])


def well(tried):
    """Whether what was tried goes as it has to. Tells where it does not."""
    name, goes = tried
    try:
        goes()
        return True
    except (Wrong, subprocess.TimeoutExpired) as wrong:
        cause = str(wrong)
    except (ValueError, LookupError, TypeError) as wrong:
        cause = f"the program's text has not its form: {wrong!r}"
    print(f"FAILED waves: {name}\n  {cause}")
    return False


def main():
    if len(sys.argv) < 2:
        sys.exit("waves.py: no program is named\n0 passed, 1 failed")
    program, names = str(Path(sys.argv[1]).resolve()), sys.argv[2:]
    try:
        with tempfile.TemporaryDirectory() as room, ThreadPoolExecutor() as threads:
            player = Player(program, room)
            right = list(threads.map(well, replays_of(player, names) if names else all_of(player)))
    except Wrong as wrong:
        sys.exit(f"waves.py: {wrong}\n0 passed, 1 failed")
    print(f"{sum(right)} passed, {len(right) - sum(right)} failed")
    sys.exit(0 if all(right) and right else 1)


if __name__ == "__main__":
    main()
