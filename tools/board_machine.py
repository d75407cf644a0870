"""What tools/to-board asks of fmpsim: a configuration, and a machine behind a pipe that answers an event at a time."""
import re
import subprocess
from dataclasses import dataclass, field
from typing import Optional

from log_calls import Refused

LINE = re.compile(r"(\d+) P(\d) (\S+) (tick|ipi|ret_hdr|\w+\([^()]*\)) (\S+)((?: rel=\S+)*)( lost=\S+)?( run=\S+)?( ipi=\S+)?$")
PROCESSOR = re.compile(r"  P(\d) run=(\S+)(.*)$")
CALL = re.compile(r"(i?\w+)\((.*)\)$")
FAULT = re.compile(r"line (\d+)")
# Where the numbers begin by which a board calls those who run. Tasks begin at 1.
CYCLICS, ALARMS = 100, 140
KINDS = ("task", "sem", "flg", "dtq", "mpf", "cyc", "alm", "spn")
# A task of the lowest priority on each processor, so that somebody runs where nobody else does.
BACKGROUND = "BOARD_BG"
LOWEST = 16
MOST_TASKS = 64


class Line:
    """A line of a trace."""

    def __init__(self, text: str) -> None:
        found = LINE.match(text)
        if not found:
            raise Refused(f"fmpsim writes a line that is not known here: {text}", status=3)
        self.text = text
        self.processor, self.who, self.event, self.answer = int(found[2]), found[3], found[4], found[5]
        self.releases, self.lost = found[6].split(), found[7] or ""
        self.name = self.event.split("(")[0]
        self.arguments = re.findall(r"[-\w]+", self.event[len(self.name):])

    def happened(self) -> tuple:
        """What a board could see of it."""
        who = "-" if self.who.startswith(BACKGROUND) else self.who
        return self.processor, who, self.event, self.answer, tuple(self.releases), self.lost


class State:
    """A state as `calls --state` writes it."""

    def __init__(self, lines: list) -> None:
        self.run, self.due, self.held, self.latched, self.objects = {}, {}, {}, {}, []
        for line in lines:
            found = PROCESSOR.match(line)
            if not found:
                self.objects.append(line.split())
                continue
            number, words = int(found[1]), found[3].split()
            self.run[number] = found[2]
            self.due[number] = next((word[4:].split(",") for word in words if word.startswith("due=")), [])
            self.held[number] = "locked" in words
            self.latched[number] = "latch" in words and "locked" not in words and "disabled" not in words

    def who(self, processor: int) -> str:
        """Who runs there, a handler before the task."""
        return self.due[processor][0] if self.due[processor] else self.run[processor]

    def is_idle(self, processor: int) -> bool:
        return self.who(processor) == "-" or self.who(processor).startswith(BACKGROUND)

    def prompt(self) -> Optional[int]:
        """A processor that may take its request."""
        return next((number for number in sorted(self.run) if self.latched[number] and not self.due[number]), None)

    def holder(self, lock: str) -> bool:
        """Whether someone holds a spin lock."""
        return any(words[0] == lock and any(word.startswith("held=") for word in words) for words in self.objects)


class Machine:
    """`fmpsim calls --state CFG -`."""

    def __init__(self, program: str, path: str) -> None:
        pipe = {"stdin": subprocess.PIPE, "stdout": subprocess.PIPE, "stderr": subprocess.DEVNULL}
        self.process = subprocess.Popen([program, "calls", "--state", "--color=never", path, "-"], text=True, **pipe)
        self.state = State(self.heard())

    def heard(self) -> list:
        lines = []
        for line in self.process.stdout:
            line = line.rstrip("\n")
            if line == "  end":
                return lines
            lines.append(line)
        raise Refused("fmpsim ended before it answered an event", status=3)

    def feed(self, event: str) -> Line:
        self.process.stdin.write(event + "\n")
        self.process.stdin.flush()
        lines = self.heard()
        self.state = State(lines[1:])
        return Line(lines[0])

    def close(self) -> None:
        self.process.stdin.close()
        self.process.stdout.close()
        self.process.wait()


def told_by(program: str, *words: str) -> str:
    """What fmpsim writes on these words. A text that it refuses is refused with its own message."""
    try:
        told = subprocess.run([program, *words], capture_output=True, text=True, errors="replace", stdin=subprocess.DEVNULL)
    except OSError as error:
        raise Refused(f"{program}: {error.strerror}", status=3) from None
    if told.returncode:
        refused = Refused(told.stderr.strip() or f"fmpsim ended with status {told.returncode}", status=3 if told.returncode == 3 else 1)
        refused.output = told.stdout
        raise refused
    return told.stdout


def signatures(program: str) -> dict:
    """The kinds of the arguments of each call, in the order of the calls."""
    found = (CALL.match(line.strip()) for line in told_by(program, "list").split("Statements of a configuration")[0].splitlines())
    return {call[1]: [kind.strip() for kind in call[2].split(",") if kind.strip()] for call in found if call}


@dataclass
class Class:
    """A class: the processor on which its tasks and handlers begin, and those to which they may go."""
    initial: int
    processors: list


@dataclass
class Config:
    """A configuration, as `fmpsim list` tells it."""
    told: str
    processors: int = 0
    master: int = 0
    limits: tuple = (1, LOWEST)
    classes: dict = field(default_factory=dict)
    objects: dict = field(default_factory=lambda: {kind: [] for kind in KINDS})

    def read(self) -> "Config":
        """Takes the lines in."""
        for line in self.told.splitlines():
            words = line.split()
            if words[0] == "processors":
                self.processors = int(words[1])
            elif words[0] == "timer" and words[1] == "global":
                self.master = int(words[2][1:])
            elif words[0] == "limits":
                self.limits = (int(words[2]), int(words[4]))
            elif words[0] == "class":
                self.classes[words[1]] = Class(int(words[3][1:]), [int(word[1:]) for word in words[5:]])
            elif words[0] in self.objects:
                self.objects[words[0]].append({"name": words[2], **dict(zip(words[3::2], words[4::2]))})
        return self

    def class_of(self, told: dict) -> Class:
        """An object's class. What has none of its own in the list may stand in any."""
        return self.classes[told["class"].split("|")[0]] if "class" in told else next(iter(self.classes.values()))

    def runners(self) -> dict:
        """Those who run, by the numbers that a board has for them."""
        names = {base + at: told["name"] for kind, base in (("task", 0), ("cyc", CYCLICS), ("alm", ALARMS)) for at, told in enumerate(self.objects[kind], 1)}
        return names | {len(self.objects["task"]) + number: f"{BACKGROUND}{number}" for number in range(1, self.processors + 1)}

    def augmented(self) -> str:
        """The same machine, with a background task on each processor."""
        out = [f"PROCESSORS({self.processors});"] + ([f"TIMER(GLOBAL, {self.master});"] if self.master else [])
        for name, it in self.classes.items():
            out.append(f"DEF_CLASS({name}, {it.initial}, {{{', '.join(map(str, it.processors))}}});")
        out += [f"DEF_CLASS(BOARD_CLASS{number}, {number}, {{{number}}});" for number in range(1, self.processors + 1)]
        for kind, at, told in self.each():
            owner = told.get("class", next(iter(self.classes), "")).split("|")[0]
            out.append(f"CLASS({owner}) {{ {statement(kind, told, at)} }}")
        out += [f"CLASS(BOARD_CLASS{number}) {{ {self.background(number)} }}" for number in range(1, self.processors + 1)]
        return "\n".join(out) + "\n"

    def each(self):
        """Each object, with its kind and its number."""
        for kind in KINDS:
            for at, told in enumerate(self.objects[kind], 1):
                yield kind, at, told

    def background(self, processor: int) -> str:
        number = len(self.objects["task"]) + processor
        return statement("task", {"name": f"{BACKGROUND}{processor}", "attr": "TA_ACT", "itskpri": str(LOWEST)}, number)


def config_of(program: str, path: str) -> Config:
    return Config(told_by(program, "list", path if "/" in path else "./" + path)).read()


def statement(kind: str, told: dict, number: int, stack: str = "4096", unit: str = "") -> str:
    """What creates an object. A time is in ticks, or in ticks times a unit."""
    name, attr = told["name"], told.get("attr", "TA_NULL")
    if kind == "task":
        return f"CRE_TSK({name}, {{{attr}, {number}, board_task, {told['itskpri']}, {stack}, NULL}});"
    if kind == "cyc":
        return f"CRE_CYC({name}, {{{attr}, {number}, board_cyclic, {told['cyctim']}{unit}, {told['cycphs']}{unit}}});"
    if kind == "alm":
        return f"CRE_ALM({name}, {{TA_NULL, {number}, board_alarm}});"
    fields = {"sem": ("isemcnt", "maxsem"), "flg": ("iflgptn",), "dtq": ("dtqcnt",), "mpf": ("blkcnt",), "spn": ()}[kind]
    rest = {"dtq": ["NULL"], "mpf": ["16", "NULL", "NULL"]}.get(kind, [])
    return f"CRE_{kind.upper()}({name}, {{{', '.join([attr, *(told[key] for key in fields), *rest])}}});"
