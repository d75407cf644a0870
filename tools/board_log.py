"""What a board's log says of a case, beside what the profile does."""
import re
from dataclasses import dataclass, field
from typing import Optional

from log_calls import CODES

WORD = "board: "
HEAD = re.compile(r"case (\d+) of kit (\d+), ends ([01]) at step (\d+) on P(\d+)$")
RUNS = re.compile(r"P(\d+) runs (-?\d+) of (\d+) at step (\d+), (\d+) begun$")
STEP = re.compile(r"step (\d+) P(\d+) (-?\d+) back (\d+) code (-?\d+)$")
VALUE = re.compile(r"step (\d+) P(\d+) (-?\d+) value (-?\d+) (-?\d+)$")
END = re.compile(r"end of case (\d+) of kit (\d+), (\d+) steps, sum (\d+)$")
# Codes that the profile has not.
OTHER_CODES = {-5: "E_SYS", -9: "E_NOSPT", -10: "E_RSFN", -11: "E_RSATR", -26: "E_MACV", -27: "E_OACV", -33: "E_NOMEM", -34: "E_NOID", -42: "E_NOEXS", -51: "E_DLT",
               -52: "E_CLS"}


@dataclass
class Made:
    """A step as the board told it."""
    who: int
    back: int
    code: int
    value: int = 0


@dataclass
class Play:
    """A case as one log tells it: its number, that of its kit, and what is wrong with the log."""
    case: int
    kit: int
    ends: bool = False
    step: int = 0
    begun: int = 0
    runs: dict = field(default_factory=dict)
    steps: dict = field(default_factory=dict)
    sum: int = 0
    fault: Optional[str] = None

    def add(self, numbers: list) -> None:
        for number in numbers:
            self.sum = (self.sum * 31 + number) % 2**32

    def take(self, text: str) -> bool:
        """A line between the first and the last. False where it is none."""
        found = RUNS.match(text) or STEP.match(text) or VALUE.match(text)
        if not found:
            return False
        numbers = [int(it) for it in found.groups()]
        self.add(numbers)
        if found.re is RUNS:
            self.runs[numbers[0]], self.begun = (numbers[1], numbers[2]), numbers[4]
        elif found.re is STEP:
            self.steps[numbers[0]] = Made(numbers[2], numbers[3], numbers[4])
        elif numbers[0] in self.steps:
            self.steps[numbers[0]].value = numbers[3] * 2**32 + numbers[4] % 2**32
        return True

    def end(self, case: int, kit: int, steps: int, total: int) -> None:
        if (case, kit) != (self.case, self.kit):
            self.fault = f"mixed: it ends as case {case} of kit {kit}"
        elif len(self.steps) != steps or sorted(self.steps) != list(range(1, steps + 1)) or self.sum % 2**31 != total:
            self.fault = "mixed or cut: lines are missing, or not of this case"


def plays_of(text: str) -> list:
    """The plays that a log tells, one behind the other, each as a whole or with what is wrong with it."""
    plays, play = [], None
    for number, line in enumerate(text.splitlines(), 1):
        at = line.find(WORD)
        if at < 0:
            continue
        told = line[at + len(WORD):].rstrip().removesuffix(".")
        head, end = HEAD.match(told), END.match(told)
        if head:
            if play:
                play.fault = f"cut or mixed: another log begins in it, at line {number}"
            numbers = [int(it) for it in head.groups()]
            play = Play(numbers[0], numbers[1], numbers[2] == 1, numbers[3])
            play.add(numbers)
            plays.append(play)
        elif play is None:
            plays.append(Play(0, 0, fault=f"cut or mixed: line {number} belongs to no log that began before it"))
        elif end:
            play.end(*(int(it) for it in end.groups()))
            play = None
        elif not play.take(told):
            play.fault = f"line {number} is no line of a log: {told[:60]}"
    if play and not play.fault:
        play.fault = "cut: it has no end"
    return plays


class Judge:
    """Says where a play differs from what the profile does, the first that happened first."""

    def __init__(self, case: dict, names: dict, play: Play) -> None:
        self.case, self.names, self.play, self.found = case, names, play, []

    def name(self, number: int) -> str:
        return self.names.get(str(number), f"nobody ({number})") if number else "nobody"

    def differences(self) -> list:
        """All that is told, in the order of time."""
        for at, want in enumerate(self.case["expected"], 1):
            made = self.play.steps.get(at)
            if made:
                self.look(at, want, made)
        if not self.play.ends:
            self.look_at_the_stop()
        elif len(self.play.steps) < len(self.case["expected"]):
            self.tell(len(self.play.steps) + 1, f"after step {len(self.play.steps)}: it ends, and has {len(self.case['expected'])} steps")
        return [text for _, text in sorted(self.found, key=lambda it: it[0])]

    def tell(self, when: float, text: str) -> None:
        self.found.append((when, text + (" (in the run-down)" if when > self.case["own"] + 1 else "")))

    def look(self, at: int, want: dict, made: Made) -> None:
        """One step: who made it, and what it answered."""
        where, answer = f"step {at}: {want['text']}", said(made.code, made.value)
        kind, ended = want["kind"], made.back > 0
        if made.who != want["who"]:
            self.tell(at, f"{where}: made by {self.name(made.who)}")
        if kind == "code" and ended and (made.code, made.value) != (want["code"], want["value"]):
            self.tell(at, f"{where}: your kernel answers {answer}, the profile {said(want['code'], want['value'])}")
        elif kind == "gone" and ended:
            self.tell(at, f"{where}: your kernel answers {answer}, the profile ends the task")
        elif kind in ("wait", "spin") and ended:
            self.look_at_wait(at, want, made, where, answer)

    def look_at_wait(self, at: int, want: dict, made: Made, where: str, answer: str) -> None:
        """A call that waits, or that spins for a lock: not back too early, and with its answer."""
        word = {"wait": "waits", "spin": "spins"}[want["kind"]]
        if "rel" not in want or made.back < want["rel"] + 1:
            until = f"{word} until step {want['rel'] + 1}" if want.get("rel", self.case["own"]) < self.case["own"] else f"{word} on"
            by = "" if made.back == at else f" by step {made.back}"
            self.tell(made.back, f"{where}: your kernel answers {answer}{by}, the profile {until}")
        elif (made.code, made.value) != (want["code"], want["value"]):
            self.tell(want["rel"] + 1.2, f"{where}: your kernel ends it with {answer}, the profile with {said(want['code'], want['value'])}")

    def look_at_the_stop(self) -> None:
        """The next step did not come, or did not end."""
        done, play = self.play.step, self.play
        others = [(at, runs, right) for at, (runs, right) in sorted(play.runs.items()) if runs != right]
        if play.begun > done:
            self.tell(done + 1.5, f"step {done + 1}: {self.case['expected'][done]['text']}: it does not come back")
        elif not others:
            self.tell(done + 0.5, f"after step {done}: the next step is not made")
        else:
            for at, runs, right in others:
                self.tell(done + 0.5, f"after step {done}: P{at} runs {self.name(runs)}, the profile {self.name(right)}")


def said(code: int, value: int) -> str:
    """An answer as a trace has it."""
    return (CODES.get(code) or OTHER_CODES.get(code) or str(code)) + (f":{value}" if value else "")
