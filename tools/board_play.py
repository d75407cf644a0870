"""Plays events in the order that a board has: each request is taken, and each lock got, as soon as that may be."""
import re
from dataclasses import dataclass
from typing import Optional

from board_machine import BACKGROUND, Config, Line, Machine, State
from log_calls import SPINS, Refused

# What nobody makes on a board, or what changes nothing there.
UNSEEN = ("idle", "held", "none")
# Where a case has more tasks than these, its run-down would be longer than all else.
MOST_TASKS_RUN_DOWN = 12
MOST_TURNS, MOST_ENDS, MOST_ASKED, MOST_OBJECTS = 60, 150, 4, 8
GREATEST = 2**32 - 1
# What answers who runs: a background task where nobody does.
NAMES_RUNNER = ("get_tid", "iget_tid")


@dataclass
class Step:
    """A step of a board: its line, the state before it, its line in the text of the events, and where it waits the step that ends that, with the answer."""
    line: Line
    before: State
    place: Optional[int] = None
    ends: Optional[tuple] = None


@dataclass
class Event:
    """An event of a text: its line there, and what fmpsim answered as the events were given."""
    place: int
    given: Line


class Player:
    """A machine with background tasks, and the steps that were made on it."""

    def __init__(self, machine: Machine, config: Config, calls: dict) -> None:
        self.machine, self.config, self.calls = machine, config, calls
        self.steps, self.notes = [], []
        # Who waits, and who spins on which processor: the step in which that began.
        self.waits, self.spins = {}, {}
        # Who spins as the events were given: a board makes one call of all tries.
        self.tries = {}
        self.settle()

    @property
    def state(self) -> State:
        return self.machine.state

    def settle(self) -> None:
        """Takes what may be taken: requests, and locks that are free."""
        while True:
            processor, spinning = self.state.prompt(), self.may_lock()
            if processor:
                self.machine.feed(f"P{processor} ipi")
            elif spinning:
                self.lock(spinning)
            else:
                return

    def may_lock(self) -> Optional[int]:
        """A processor whose runner spins for a lock that is free."""
        free = [at for at, step in self.spins.items() if self.state.who(at) == step.line.who and not self.state.holder(step.line.arguments[0])]
        locks = [self.spins[at].line.arguments[0] for at in free]
        twice = next((lock for lock in locks if locks.count(lock) > 1), None)
        if twice:
            raise Refused(f"two processors spin for {twice}, and which of them gets it is not said", self.steps[-1].place or 0)
        return free[0] if free else None

    def lock(self, processor: int) -> None:
        step = self.spins.pop(processor)
        line = self.machine.feed(f"P{processor} {step.line.event}")
        if line.answer == "spin":
            raise Refused(f"{step.line.who} spins on where the lock is free", step.place or 0, 3)
        step.ends = (len(self.steps) - 1, line.answer)

    def make(self, event: str, place: Optional[int] = None) -> Line:
        """One step."""
        before = self.state
        line = self.machine.feed(event)
        step = Step(line, before, place)
        self.steps.append(step)
        self.follow(step)
        self.settle()
        return line

    def follow(self, step: Step) -> None:
        """Who waits since this step, and whose wait ends with it."""
        line = step.line
        for release in line.releases:
            task, _, answer = release[len("rel="):].partition(":")
            if task in self.waits:
                self.waits.pop(task).ends = (len(self.steps) - 1, answer)
        if line.name == "ter_tsk" and line.answer == "E_OK":
            self.waits.pop(line.arguments[0], None)
        if line.answer == "wait":
            self.waits[line.who] = step
        elif line.answer == "spin":
            self.spins[line.processor] = step

    # --- events as a user gave them ---

    def play(self, event: Event) -> None:
        """One event as it was given, if a board has it."""
        given, at = event.given, event.given.processor
        text = self.shifted(given)
        spinning = self.spins.get(at)
        if given.name == "ipi" or self.is_another_try(given):
            return
        if spinning and self.state.who(at) == spinning.line.who:
            raise Refused(f"`{given.event}` on P{at}, where {spinning.line.who} spins: a board cannot be asked", event.place)
        self.check(given, event.place)
        if given.name != "tick" and self.state.is_idle(at) or given.name == "ret_hdr" and not self.state.due[at]:
            self.leave_out(event, "nobody" if self.state.is_idle(at) else "no handler")
            return
        if given.name == "tick" and (self.state.held[at] or self.state.due[at] or self.config.master not in (0, at)):
            self.leave_out(event, "no tick")
            return
        self.tell_change(event, self.make(f"P{at} {text}", event.place))

    def is_another_try(self, given: Line) -> bool:
        """Whether this is the call once more of one that spins."""
        if given.name not in SPINS or given.answer in UNSEEN:
            return False
        before = self.tries.pop((given.processor, given.who), None)
        if given.answer == "spin":
            self.tries[given.processor, given.who] = given.event
        return before == given.event

    def leave_out(self, event: Event, what: str) -> None:
        given = event.given
        if given.answer in UNSEEN or given.name == "ret_hdr" and given.answer == "E_CTX":
            self.note(event.place, f"{given.answer}: a board is not asked")
        else:
            self.note(event.place, f"{given.who if given.name != 'tick' else given.answer} as given, {what} on a board")

    def tell_change(self, event: Event, line: Line) -> None:
        """A note, where the line is another one on a board."""
        given = event.given
        before, now = list(given.happened()), list(line.happened())
        now[2] = given.event
        if line.name in NAMES_RUNNER and self.names_background(line.answer):
            now[3] = "E_OK:0"
        if before == now:
            return
        if given.answer == "idle":
            self.note(event.place, f"idle as given, {line.who} on a board")
        elif before[1] != now[1]:
            self.note(event.place, f"{given.who} as given, {line.who} on a board")
        else:
            shown = [" ".join([it.answer, *it.releases]) + it.lost for it in (given, line)]
            self.note(event.place, f"{shown[0]} as given, {shown[1]} on a board")

    def names_background(self, answer: str) -> bool:
        return answer.startswith("E_OK:") and int(answer[len("E_OK:"):]) > len(self.config.objects["task"])

    def note(self, place: int, what: str) -> None:
        self.notes.append((place, what))

    def shifted(self, line: Line) -> str:
        """The event with a number that names no task here, where the numbers of the background tasks would name one."""
        tasks, first = len(self.config.objects["task"]), line.arguments[0] if line.arguments else ""
        names_task = self.calls.get(line.name, [""])[:1] == ["task"] and re.fullmatch(r"\d+", first)
        if names_task and tasks < int(first) <= tasks + self.config.processors:
            return line.event.replace("(" + first, f"({int(first) + self.config.processors}", 1)
        return line.event

    def check(self, line: Line, place: int) -> None:
        """Refuses what no board can be asked."""
        for word in line.arguments:
            if re.fullmatch(r"-?\d+", word) and not -2**31 <= int(word) <= GREATEST:
                raise Refused(f"{word} has more than 32 bits: a board may have none", place)


# --- after the case ---

def run_down(player: Player) -> None:
    """Whatever a call can tell of the state is asked for, and everybody comes to run and ends: so the order of queues, counts and values are seen."""
    tasks = [told["name"] for told in player.config.objects["task"]]
    if len(tasks) > MOST_TASKS_RUN_DOWN or player.spins:
        return
    if not player.state.due[1] and not player.state.held[1]:
        for task in tasks:
            if player.make(f"P1 get_pri({task})").answer.startswith("E_OK"):
                player.make(f"P1 can_wup({task})")
    turn, goes_on = 0, all_end(player)
    while goes_on and turn < MOST_TURNS and (words := rest(player, tasks)):
        turn, goes_on = turn + 1, wake(player, words, turn)
    if goes_on:
        ask_for_objects(player)


def all_end(player: Player) -> bool:
    """Who runs ends, until the background tasks run."""
    for _ in range(MOST_ENDS):
        at = next((at for at in sorted(player.state.run) if not player.state.who(at).startswith(BACKGROUND)), None)
        if at is None:
            return True
        if player.state.who(at) == "-" or player.spins:
            return False
        player.make(f"P{at} ret_hdr" if player.state.due[at] else f"P{at} ext_tsk()")
    return False


def rest(player: Player, tasks: list) -> Optional[list]:
    """The words of a task that is suspended or waits, those that are suspended first."""
    lines = [words for words in player.state.objects if words[0] in tasks]
    suspended = next((words for words in lines if "suspended" in words), None)
    return suspended or next((words for words in lines if "waits" in words), None)


def wake(player: Player, words: list, turn: int) -> bool:
    """Goes on with a task that does not run, by the words of its state, up to its end. False where that cannot be done."""
    task = words[0]
    if "suspended" in words:
        player.make(f"P1 rsm_tsk({task})")
        return all_end(player)
    kind, what = (words[words.index("waits") + 1:] + [""])[:2]
    player.make({
        "slp": f"P1 wup_tsk({task})", "sem": f"P1 sig_sem({what})", "flg": f"P1 set_flg({what}, {GREATEST})", "sdtq": f"P1 prcv_dtq({what})",
        "rdtq": f"P1 psnd_dtq({what}, {turn})",
    }.get(kind, f"P1 rel_wai({task})"))
    if words in player.state.objects:
        player.make(f"P1 rel_wai({task})")
    return all_end(player)


def ask_for_objects(player: Player) -> None:
    """Takes what the objects have."""
    for kind, call in (("sem", "pol_sem({})"), ("flg", f"pol_flg({{}}, {GREATEST}, TWF_ORW)"), ("dtq", "prcv_dtq({})"), ("mpf", "pget_mpf({})")):
        for told in player.config.objects[kind][:MOST_OBJECTS]:
            ask_for(player, "P1 " + call.format(told["name"]), 1 if kind == "flg" else MOST_ASKED)


def ask_for(player: Player, event: str, most: int) -> None:
    for _ in range(most):
        if not player.make(event).answer.startswith("E_OK"):
            return
