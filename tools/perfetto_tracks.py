"""What a trace tells of times, processors, tasks, requests and objects, for tools/to-perfetto, whose head says what is derived from what."""
import re

from log_calls import Refused, plain, printable
from log_tasks import TIMED
from trace_lines import NO_EFFECT

TICK = 1000
MOST_WHOLE = 1000
WAITS = {"wai_sem": "sem", "wai_flg": "flg", "snd_dtq": "sdtq", "rcv_dtq": "rdtq", "get_mpf": "mpf", "slp_tsk": "slp", "dly_tsk": "dly"}
# Comments, and what a configuration says of numbers: defined names, and the first number of an object.
COMMENT = re.compile(r"(\"(?:[^\"\\]|\\.)*\")|//[^\n]*|/\*.*?\*/", re.S)
DEFINED = re.compile(r"^[ \t]*#[ \t]*define[ \t]+(\w+)[ \t]+(\w+)[ \t\r]*$", re.M | re.A)
FIRST = re.compile(r"\bCRE_(?:SEM|FLG|MPF)\s*\(\s*(\w+)\s*,\s*\{[^,{}]*,\s*(\w+)", re.A)


class Times:
    """The time of each line, and of the end: `of`."""

    def __init__(self, records):
        taken, last, here, self.of = {}, 0, [], []
        for it in records:
            if it.name == "tick" and it.answer == "taken":
                taken[it.processor] = taken.get(it.processor, 0) + 1
                if taken[it.processor] > last:
                    self.spread(last, here)
                    last, here = taken[it.processor], []
            here.append(it)
        self.spread(last, here)
        self.of.append((last + 1) * TICK)

    def spread(self, tick, lines):
        """The lines of a tick, the first of them at it, but for the boot, which is before its lines."""
        before = 1 if tick == 0 else 0
        parts = len(lines) + before
        for at in range(before, parts):
            self.of.append(tick * TICK + (TICK * at // parts if parts <= MOST_WHOLE else round(TICK * at / parts, 3)))


class Processors:
    """Of each processor from when to when which task ran (`tasks`) and which handler was due (`handlers`)."""

    def __init__(self, machine, boot, records, times):
        self.all_tasks, self.all_handlers = set(machine.names["task"]), set(machine.names["cyclic"]) | set(machine.names["alarm"])
        self.first, self.tasks, self.handlers = {}, {}, {}
        for p in range(1, machine.processors + 1):
            mine = [(times.of[place], it) for place, it in enumerate(records) if it.processor == p]
            self.first[p] = self.at_boot(p, boot, mine)
            self.tasks[p] = list(self.running(p, mine, times.of[-1]))
            self.handlers[p] = list(self.due(mine, times.of[-1]))

    def at_boot(self, p, boot, mine):
        """The task that runs at the boot, `idle`, or nothing if that is not told."""
        for _, words in boot or []:
            if words[0] == f"P{p}" and words[1].startswith("run="):
                return "idle" if words[1] == "run=-" else words[1][4:]
        for _, it in mine:
            if it.runner == "-":
                return "idle"
            if it.runner in self.all_tasks:
                return it.runner
            if it.run is not None:
                return None
        return None

    def running(self, p, mine, end):
        begin, task = 0, self.first[p]
        for time, it in mine:
            if it.runner != "-" and it.runner not in self.all_tasks | self.all_handlers:
                raise Refused(f"the configuration has no {printable(it.runner)}", it.line)
            if it.run is not None:
                if it.run != "idle" and it.run not in self.all_tasks:
                    raise Refused(f"the configuration has no task {printable(it.run)}", it.line)
                if task not in (None, "idle"):
                    yield begin, time, task
                begin, task = time, it.run
        if task not in (None, "idle"):
            yield begin, end, task

    def due(self, mine, end):
        """A handler is due from the line before its first one to its return. Where no line follows, its own last line says that it goes on."""
        begin, handler, before = None, None, 0
        for time, it in mine:
            if it.runner in self.all_handlers and handler is None:
                begin, handler = before, it.runner
            if handler and it.name == "ret_hdr" and it.answer == "E_OK":
                yield begin, time, handler
                handler = None
            before = time
        if handler:
            yield begin, end, handler


class Task:
    """What is known of a task."""

    def __init__(self, active):
        self.active, self.queued, self.waits, self.suspended, self.runs = active, False, None, False, None
        # The processor on which it may run since the boot.
        self.unsure = None
        self.begin, self.spans = 0, []

    def shown(self):
        if not self.active:
            return None
        parts = [f"running P{self.runs}"] if self.runs else []
        parts += ["suspended"] if self.suspended else []
        parts += [f"waits {self.waits}"] if self.waits else []
        return " ".join(parts) or ("ready or running" if self.unsure else "ready")


class Tasks:
    """Of each task from when to when it was what."""

    def __init__(self, machine):
        names = machine.names["task"]
        self.all = {name: Task(at in machine.started) for at, name in enumerate(names, 1)}
        self.started = {names[at - 1]: p for at, p in machine.started.items()}

    def boot(self, first):
        for p, task in first.items():
            if task in self.all:
                self.all[task].runs = p
        for name, p in self.started.items():
            self.all[name].unsure = p if first[p] is None else None

    def spans(self, name, end):
        task = self.all[name]
        if task.shown():
            task.spans.append((task.begin, end, task.shown()))
        return task.spans

    def after(self, it, time):
        """What becomes of tasks by a line. Only these may change."""
        changed = {it.runner, it.target(), it.run, *(task for task, _ in it.ends)}
        changed |= {name for name, task in self.all.items() if it.processor in (task.runs, task.unsure)} if it.run is not None else set()
        changed = [self.all[name] for name in sorted(changed - {None}) if name in self.all]
        before = [task.shown() for task in changed]
        self.call(it)
        self.release(it)
        self.dispatch(it)
        for task, shown in zip(changed, before):
            if task.shown() != shown:
                if shown:
                    task.spans.append((task.begin, time, shown))
                task.begin = time
        for _, words in it.state or []:
            self.agrees(words, it)
        if it.state is not None:
            self.none_missing(it)

    def call(self, it):
        name, target = plain(it.name), self.all.get(it.target())
        if it.answer == "gone":
            self.ends(self.all[it.runner])
        elif it.answer == "wait":
            kind = WAITS[TIMED.get(name, name)]
            self.all[it.runner].waits = kind if kind in ("slp", "dly") else f"{kind} {it.target()}"
        elif it.answer == "E_OK" and target:
            if name in ("act_tsk", "mact_tsk"):
                target.active, target.queued = True, target.active
            elif name == "can_act":
                target.queued = False
            elif name == "ter_tsk":
                self.ends(target)
            elif name in ("sus_tsk", "rsm_tsk"):
                target.suspended = name == "sus_tsk"

    @staticmethod
    def ends(task):
        task.active, task.queued, task.waits, task.suspended = task.queued, False, None, False

    def release(self, it):
        for name, _ in it.ends:
            task = self.all.get(name)
            if not task or not task.waits:
                raise Refused(f"{printable(name)} does not wait", it.line)
            task.waits = None

    def dispatch(self, it):
        if it.run is None:
            return
        for task in self.all.values():
            if task.runs == it.processor:
                task.runs = None
            if task.unsure == it.processor:
                task.unsure = None
        if it.run in self.all:
            self.all[it.run].runs = it.processor

    def agrees(self, words, it):
        """A line of a state says of a task that it waits for what the lines before say."""
        task = self.all.get(words[0])
        if task and len(words) == 1:
            raise Refused("a name alone stands in the changes of --changes: expected are the states of --state", it.line)
        if task:
            rest = " ".join(words[1:])
            found = re.search(r"waits (?:slp|dly|\w+ \w+)", rest)
            if (found and found[0]) != (task.waits and f"waits {task.waits}"):
                raise Refused(f"the state after it says of {words[0]}: {printable(rest)}", it.line)

    def none_missing(self, it):
        """A state has a line of each task that waits; the changes of --changes have it once."""
        lines = {words[0] for _, words in it.state}
        for name, task in self.all.items():
            if task.waits and name not in lines:
                raise Refused(f"the state after it has no line of {name}, which waits: expected are the states of --state", it.line)


class Requests:
    """The requests to each processor that are pending: their times and processors."""

    def __init__(self, machine):
        self.pending = {p: [] for p in range(1, machine.processors + 1)}
        self.drawn = 0

    def after(self, it, time):
        """Each request that its processor took by this line, as a time and a processor."""
        for begin in self.taken(it):
            self.drawn += 1
            yield begin
        for p in it.requests:
            if p in self.pending:
                self.pending[p].append((time, it.processor))

    def taken(self, it):
        """What a line takes. If it dispatched is not told, it is not told either which line takes what was pending, now or later."""
        waiting = self.pending[it.processor]
        latch = self.latch(it)
        if it.answer in NO_EFFECT or latch:
            return []
        self.pending[it.processor] = []
        return waiting if it.name == "ipi" or it.run is not None or latch is False else []

    @staticmethod
    def latch(it):
        """Whether the state after a line has a request of its processor; nothing where there is no state."""
        for _, words in it.state or []:
            if words[0] == f"P{it.processor}" and words[1].startswith("run="):
                return "latch" in words[2:]
        return None


class Objects:
    """The values of objects, which states have where they are not as at the boot."""

    def __init__(self, machine, text):
        text = COMMENT.sub(lambda found: found[1] or " ", text)
        defined = dict(DEFINED.findall(text))
        self.first = {name: 0 for kind in ("dataqueue", "spinlock") for name in machine.names[kind]}
        for name, word in FIRST.findall(text):
            number = defined.get(word, word)
            try:
                self.first[name] = int(number, 0)
            except ValueError:
                raise Refused(f"what {name} has at the boot is not told: {printable(number)} is no number") from None

    def values(self, boot, records, times):
        """The name of each object, a time and its value, at the boot and wherever it is another."""
        shown = {}
        for time, state in [(0, boot), *((times.of[place], it.state) for place, it in enumerate(records))]:
            if state is None:
                raise Refused("a line has no state below it, and others have one: expected is a whole trace of --state")
            now = dict(self.first)
            for line, words in state:
                if words[0] in now and len(words) == 2:
                    now[words[0]] = self.value(words[1], line)
            for name, value in now.items():
                if shown.get(name) != value:
                    yield name, time, value
            shown = now

    @staticmethod
    def value(word, line):
        """The number of a line's field."""
        key, _, rest = word.partition("=")
        if key == "values":
            return len(rest.split(","))
        number = rest.removeprefix("P") if key == "held" else rest
        if key not in ("count", "pattern", "free", "held") or not number.isdigit():
            raise Refused(f"`{printable(word)}` is no value of an object", line)
        return int(number)
