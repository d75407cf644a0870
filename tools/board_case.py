"""A case of a board: its steps as numbers, and what each has to answer."""
import re
from dataclasses import dataclass, field

from board_machine import BACKGROUND, Config, Line
from board_play import Player, Step
from log_calls import CODES, Refused

NUMBERS = {word: number for number, word in CODES.items()}
MODES = {"TWF_ORW": 1, "TWF_ANDW": 2}
OBJECTS = {"task": "task", "semaphore": "sem", "eventflag": "flg", "data queue": "dtq", "pool": "mpf", "cyclic": "cyc", "alarm": "alm", "spin lock": "spn"}
GETS_BLOCK = ("get_mpf", "tget_mpf", "pget_mpf")
RETURNS, TICK = 200, 201
MOST_STEPS = 4000


@dataclass
class Row:
    """A step as board_case.h has it."""
    processor: int
    call: int
    waits: int
    block: int
    arguments: list
    runs: list
    text: str


@dataclass
class Case:
    """A case: what it is called, how many of its steps are its own, the steps, what each has to answer, and who has to run at the end."""
    name: str
    own: int
    rows: list = field(default_factory=list)
    expected: list = field(default_factory=list)
    last: list = field(default_factory=list)
    # what the tool has to know of it where it is chosen
    ticks: bool = False


class CaseMaker:
    """Makes a case of what was played."""

    def __init__(self, player: Player) -> None:
        self.config, self.calls = player.config, player.calls
        self.player = player
        self.numbers = {name: number for number, name in enumerate(player.calls, 1)}
        self.who = {name: number for number, name in player.config.runners().items()}

    def case(self, name: str, own: int) -> Case:
        """The case of all steps so far, of which the first ones are its own."""
        steps = self.player.steps
        if len(steps) > MOST_STEPS:
            raise Refused(f"it has {len(steps)} steps: a board has room for {MOST_STEPS}")
        case = Case(name, own, ticks=any(step.line.name == "tick" for step in steps))
        for step in steps:
            want = self.wanted(step)
            case.expected.append(want)
            case.rows.append(self.row(step, want))
        case.last = self.runs(self.player.state)
        return case

    def runs(self, state) -> list:
        """Who has to run on each processor. Where nobody does a background task waits, which no case has."""
        names = [state.who(at) for at in range(1, self.config.processors + 1)]
        if "-" in names:
            raise Refused("a background task does not run here, and nobody else: a board cannot be asked")
        return [self.who[name] for name in names]

    def row(self, step: Step, want: dict) -> Row:
        line = step.line
        kinds = self.calls.get(line.name, [])
        call = {"tick": TICK, "ret_hdr": RETURNS}.get(line.name) or self.numbers[line.name]
        block = want["value"] if line.name in GETS_BLOCK and want.get("code") == 0 else -1
        arguments = [signed(self.number(kind, word)) for kind, word in zip(kinds, line.arguments)]
        return Row(line.processor, call, int(line.answer == "spin"), block, arguments or [0], self.runs(step.before), line.text)

    def wanted(self, step: Step) -> dict:
        """What the step has to answer: a code and a value, a wait or a spinning with how it ends, or nothing."""
        line = step.line
        want = {"text": told_of(line), "who": self.who[line.who], "p": line.processor}
        if line.name in ("tick", "ret_hdr"):
            return want | {"kind": line.name}
        if line.answer in ("gone", "wait", "spin"):
            want["kind"] = line.answer
            if step.ends:
                want["rel"] = step.ends[0]
                want["code"], want["value"] = answer_of(step.ends[1])
            return want
        want["code"], want["value"] = answer_of(line.answer)
        return want | {"kind": "code"}

    def number(self, kind: str, word: str) -> int:
        """An argument as a number."""
        if re.fullmatch(r"-?\d+", word):
            return int(word)
        if word in MODES or word == "TSK_SELF":
            return MODES.get(word, 0)
        if word.startswith(BACKGROUND):
            return self.who[word]
        names = [told["name"] for told in self.config.objects[OBJECTS[kind]]]
        return names.index(word) + 1


def told_of(line: Line) -> str:
    """Where and by whom what is done, as reports have it."""
    return f"P{line.processor} {line.who} {line.event}"


def signed(value: int) -> int:
    return value - 2**32 if value >= 2**31 else value


def answer_of(text: str) -> tuple:
    code, _, value = text.partition(":")
    return NUMBERS[code], int(value) if value else 0
