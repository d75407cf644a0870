"""Chooses what a board is asked: a user's own events, or the cases of tests/cases."""
import importlib.machinery
import importlib.util
import os
import re
import tempfile
from collections import Counter
from dataclasses import dataclass, field
from pathlib import Path

from board_case import Case, CaseMaker
from board_files import Application
from board_machine import LOWEST, MOST_TASKS, Config, Line, Machine, config_of, told_by
from board_play import UNSEEN, Event, Player, run_down
from log_calls import Refused

TOP = Path(__file__).resolve().parent.parent
# FMP3 counts microseconds, and takes no more than these.
MOST_TICKS_FMP3 = 4000000
MOST_EVENTS = 2000
# What of a reason differs from case to case.
VARIES = re.compile(r"(?<!\w)-?\d+\b|`.*`|^[A-Z]\w*(?=: )|^\w+ by a (?:task|handler)(?=: )")


@dataclass
class Chooser:
    """What cases are made for: the program, its calls, the kernel, and whether its target has a tick at will."""
    program: str
    calls: dict
    kernel: str
    ticks: bool
    # Of the cases: how many could not be asked, by why.
    left_out: Counter = field(default_factory=Counter)

    def refuse_config(self, config: Config) -> None:
        """Refuses a configuration that no application can be made of."""
        tasks = len(config.objects["task"])
        if config.limits != (1, LOWEST):
            raise Refused(f"LIMITS({config.limits[0]}, {config.limits[1]}): a released kernel has 1 and {LOWEST}")
        if tasks + config.processors > MOST_TASKS:
            raise Refused(f"{tasks} tasks leave no room for one of the lowest priority on each processor: there may be {MOST_TASKS}")
        if config.master and self.kernel == "fmp3":
            raise Refused(f"TIMER(GLOBAL, {config.master}): FMP3 has no global timer")
        for kind, _, told in config.each():
            it = config.class_of(told)
            if len(it.processors) not in (1, config.processors):
                raise Refused(f"{told['name']}: a kernel has no class of processors {' and '.join(map(str, it.processors))}: its classes are of one or of all")
            times = [int(told[key]) for key in ("cyctim", "cycphs") if key in told]
            if self.kernel == "fmp3" and any(time > MOST_TICKS_FMP3 for time in times):
                raise Refused(f"{told['name']}: FMP3 has no time of more than {MOST_TICKS_FMP3} ms")

    def player(self, config: Config, room: str) -> "Checked":
        path = os.path.join(room, "board.cfg")
        Path(path).write_text(config.augmented())
        return Checked(Machine(self.program, path), config, self)

    # --- a user's own events ---

    def application(self, path: str, texts: list, tell) -> Application:
        """The application of a configuration with a case for each text of events."""
        config = config_of(self.program, path)
        try:
            self.refuse_config(config)
        except Refused as refused:
            raise Refused(f"{path}: refused: {refused}") from None
        application = Application(config)
        for text in texts:
            application.cases.append(self.case_of_text(config, path, text, tell))
        return application

    def case_of_text(self, config: Config, path: str, text: str, tell) -> Case:
        """The case of one text of events. What is another one on a board is told with its line."""
        given = lines_of(told_by(self.program, "calls", "--color=never", path, text))
        with tempfile.TemporaryDirectory() as room:
            player = self.player(config, room)
            try:
                for place, line in zip(places_of(Path(text).read_text(errors="replace")), given):
                    player.play(Event(place, line))
                case = finished(player, text)
            except Refused as refused:
                where = f"{text}:{refused.line}" if refused.line else text
                raise Refused(f"{where}: refused: {refused}", status=refused.status) from None
            finally:
                player.machine.close()
        for place, what in player.notes:
            tell(f"{text}: line {place}: {what}")
        return case

    # --- the cases ---

    def applications(self, every: int) -> list:
        """Of the cases, or of one in some of them, those that a board can be asked: by their configurations."""
        groups, number = {}, 0
        play = cases_module()
        with tempfile.TemporaryDirectory() as room:
            for path in play.files_of([]):
                for name, parts in play.cases_of(path):
                    if "events" not in parts or isinstance(parts, str):
                        continue
                    number += 1
                    if number % every == 0:
                        self.take_case(groups, name, parts, room)
        return list(groups.values())

    def take_case(self, groups: dict, name: str, parts: dict, room: str) -> None:
        """A case comes to those of its configuration, or is counted as left out. One of which a board sees nothing is passed over."""
        files = {key: os.path.join(room, key) for key in ("machine.cfg", "events")}
        for key, path in files.items():
            Path(path).write_bytes(parts[key])
        try:
            config = config_of(self.program, files["machine.cfg"])
            asked = [line for line in lines_told(self.program, *files.values()) if is_asked(line)]
        except Refused:
            return
        if not asked:
            return
        try:
            self.refuse_config(config)
            case = self.case_of_lines(config, name, asked, room)
        except Refused as refused:
            self.left_out[VARIES.sub("..", str(refused))] += 1
            return
        groups.setdefault(config.told, Application(config)).cases.append(case)

    def case_of_lines(self, config: Config, name: str, asked: list, room: str) -> Case:
        """The case, if its answers on a board are those that were worked out by hand."""
        if len(asked) > MOST_EVENTS:
            raise Refused("a case of very many events")
        player = self.player(config, room)
        try:
            for place, line in enumerate(asked, 1):
                player.play(Event(place, line))
            if player.notes:
                raise Refused("a case whose answers are others where interrupts are prompt, or with background tasks")
            return finished(player, name)
        finally:
            player.machine.close()


class Checked(Player):
    """A player that refuses what the kernel's board cannot be asked."""

    def __init__(self, machine: Machine, config: Config, chooser: Chooser) -> None:
        self.chooser = chooser
        super().__init__(machine, config, chooser.calls)

    def check(self, line: Line, place: int) -> None:
        super().check(line, place)
        if line.name == "tick" and not self.chooser.ticks:
            raise Refused("a tick: not with --no-ticks", place)
        if self.chooser.kernel == "fmp3":
            self.check_fmp3(line, place)

    def check_fmp3(self, line: Line, place: int) -> None:
        """FMP3 has one name for a call of tasks and of handlers, and counts microseconds."""
        in_handler = bool(self.state.due[line.processor])
        if line.name.startswith("i") and line.name[1:] in self.calls and not in_handler or in_handler and "i" + line.name in self.calls:
            raise Refused(f"{line.name} by a {'handler' if in_handler else 'task'}: FMP3 has one name for both", place)
        for kind, word in zip(self.calls.get(line.name, []), line.arguments):
            if kind in ("time", "timeout") and re.fullmatch(r"\d+", word) and MOST_TICKS_FMP3 < int(word) < 2**31:
                raise Refused(f"{word} ms: FMP3 has no time of more than {MOST_TICKS_FMP3} ms", place)


def finished(player: Player, name: str) -> Case:
    """The case of what was played, with its run-down."""
    own = len(player.steps)
    if not own:
        raise Refused("there is nothing in it that a board can be asked")
    run_down(player)
    return CaseMaker(player).case(name, own)


def is_asked(line: Line) -> bool:
    """Whether somebody makes it on a board. Interrupts come by themselves there."""
    return line.name != "ipi" and line.answer not in UNSEEN and (line.name, line.answer) != ("ret_hdr", "E_CTX")


def lines_of(trace: str) -> list:
    return [Line(line) for line in trace.splitlines()]


def lines_told(program: str, config: str, events: str) -> list:
    """The lines of a case's trace. Its last event may be at fault: then those before it count."""
    try:
        return lines_of(told_by(program, "calls", "--color=never", config, events))
    except Refused as refused:
        if refused.status == 3:
            raise
        return lines_of(refused.output)


def places_of(text: str) -> list:
    """The numbers of the lines that are events."""
    return [number for number, line in enumerate(text.split("\n"), 1) if line.strip() and not line.lstrip(" \t").startswith("#")]


def cases_module():
    """tests/play, which reads the cases."""
    path = TOP / "tests" / "play"
    if not path.exists():
        raise Refused(f"{path}: cannot be read: --cases plays the cases of tests/cases", status=3)
    loader = importlib.machinery.SourceFileLoader("play", str(path))
    spec = importlib.util.spec_from_loader("play", loader)
    module = importlib.util.module_from_spec(spec)
    loader.exec_module(module)
    return module
