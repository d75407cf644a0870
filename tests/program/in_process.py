"""Plays cases on the machine of the library, and compares what it tells with the trace of the case.

    in_process.py FMPSIM STEPPER [valgrind]

STEPPER is tests/program/in_process.c with the library; FMPSIM says which number each name has, and no more. Each case with events and a trace is
played by its lines and by numbers, its state is saved and restored in the middle, and where it has states these are compared. With `valgrind` a
few cases are played under it. The last line is 'N passed, M failed'.
"""
import re
import subprocess
import sys
import tempfile
from concurrent.futures import ThreadPoolExecutor
from importlib.machinery import SourceFileLoader
from importlib.util import module_from_spec, spec_from_loader
from pathlib import Path

TOP = Path(__file__).resolve().parents[2]
LINE = re.compile(r"(\d+) P(\d) (\S+) (\w+(?:\([^)]*\))?) (\S+)(.*)")
EVENT = re.compile(r"P(\d)[ \t]+(\w+)[ \t]*(?:\(([^)]*)\))?[ \t\r]*")
SAID = ["wait", "spin", "gone", "idle", "held", "taken", "none"]
CODES = {"E_OK": 0, "E_PAR": -17, "E_ID": -18, "E_CTX": -25, "E_ILUSE": -28, "E_OBJ": -41, "E_QOVR": -43, "E_RLWAI": -49, "E_TMOUT": -50}
CONSTANTS = {"TSK_SELF": 0, "TPRI_SELF": 0, "TPRI_INI": 0, "TPRC_INI": 0, "TMO_POL": 0, "TMO_FEVR": -1, "TWF_ORW": 1, "TWF_ANDW": 2}
KINDS = {"task": "task", "semaphore": "sem", "eventflag": "flg", "data queue": "dtq", "pool": "mpf", "cyclic": "cyc", "alarm": "alm", "spin lock": "spn"}
RUNNERS = {"task": 1, "alm": 2, "cyc": 3}


def cases():
    """The cases of tests/cases whose events are all right, with their parts as texts."""
    loader = SourceFileLoader("play", str(TOP / "tests/play"))
    play = module_from_spec(spec_from_loader("play", loader))
    sys.dont_write_bytecode = True
    loader.exec_module(play)
    for path in play.files_of([]):
        for name, parts in play.cases_of(path):
            if isinstance(parts, dict) and {"machine.cfg", "events"} <= parts.keys() and not {"status", "errors", "explore", "words", "scripts"} & parts.keys():
                yield name, {part: text.decode("latin-1") for part, text in parts.items()}


def calls(fmpsim):
    """The calls with their numbers and the kinds of their arguments, in the order of the list."""
    listed = subprocess.run([fmpsim, "list"], capture_output=True, text=True, check=True).stdout.splitlines()[1:]
    found = {}
    for line in listed[:listed.index("")]:
        name, _, kinds = line.rstrip(")").partition("(")
        found[name] = (len(found) + 1, kinds.split(", ") if kinds else [])
    return found | {"tick": (79, []), "ipi": (80, [])}


def objects(fmpsim, config):
    """The numbers of the names, by the word of their kind."""
    listed = subprocess.run([fmpsim, "list", config], capture_output=True, encoding="latin-1", check=True).stdout.splitlines()
    found = {}
    for line in listed:
        words = line.split()
        if len(words) > 2 and words[1].isdigit():
            found[words[0], words[2]] = int(words[1])
    return found


def told_of(line, names):
    """What the structures have to tell where this is the line of the trace."""
    number, processor, runner, _, answer, rest = LINE.fullmatch(line).groups()
    kind, who = next(((RUNNERS[kind], names[kind, runner]) for kind in RUNNERS if (kind, runner) in names), (0, 0))
    said, value = (SAID.index(answer) + 1, "") if answer in SAID else (0, answer.partition(":")[2])
    code = 0 if said else CODES[answer.partition(":")[0]]
    told = f"  {number} P{processor} runner {kind}:{who} said {said} code {code}" + (f" value {value}" if value else "")
    for field, text in re.findall(r" (rel|lost|run|ipi)=(\S+)", rest):
        if field == "rel":
            task, ended, *value = text.split(":")
            told += f" rel {names['task', task]}:{CODES[ended]}" + "".join(f":{it}" for it in value)
        elif field == "ipi":
            told += "".join(f" ipi {it}" for it in text.split(","))
        else:
            told += f" {field} " + (text if field == "lost" else str(0 if text == "idle" else names["task", text]))
    return told


def said_lines(events):
    """The lines of a text of events that say something."""
    return [line for line in events.split("\n") if line.strip(" \t\r") and not line.lstrip(" \t").startswith("#")]


def argument(text, kind, names):
    if text in CONSTANTS:
        return CONSTANTS[text]
    return names[KINDS[kind], text] if (KINDS.get(kind), text) in names else int(text, 0)


def numbers_of(line, known, names):
    """The numbers of an event. A KeyError or ValueError: it has a name of another kind, or a number that is written in another way."""
    processor, name, text = EVENT.fullmatch(line.strip(" \t\r")).groups()
    number, kinds = known[name]
    given = [argument(part.strip(" \t"), kind, names) for part, kind in zip((text or "").split(","), kinds)]
    return " ".join(map(str, [processor, number, *given, *[7] * (4 - len(given))]))


class Player:
    def __init__(self, fmpsim, stepper, watcher):
        self.fmpsim, self.stepper, self.watcher = fmpsim, stepper, watcher
        self.known = calls(fmpsim)

    def step(self, what, config, text, *words):
        watch = ["valgrind", "-q", "--error-exitcode=9", "--leak-check=full", "--show-leak-kinds=all"] if self.watcher else []
        made = subprocess.run([*watch, self.stepper, what, config, *words], input=text, capture_output=True, encoding="latin-1", timeout=600)
        return made.stdout if (made.returncode, made.stderr) == (0, "") else f"status {made.returncode}\n{made.stderr}{made.stdout}"

    def play(self, case):
        """What is wrong with each way to play a case."""
        name, parts = case
        with tempfile.TemporaryDirectory() as room:
            config = f"{room}/machine.cfg"
            Path(config).write_text(parts["machine.cfg"], "latin-1")
            ways = []
            lines = said_lines(parts["events"])
            if "trace" in parts:
                names = objects(self.fmpsim, config)
                trace = parts["trace"].splitlines()
                right = "".join(f"{line}\n{told_of(line, names)}\n" for line in trace)
                ways.append(("text", right, self.step("text", config, "\n".join(lines))))
                try:
                    given = "\n".join(numbers_of(line, self.known, names) for line in lines)
                    ways.append(("numbers", right, self.step("numbers", config, given)))
                except (KeyError, ValueError, AttributeError):
                    pass
                half = len(lines) // 2
                rest = "turn\n" + "".join(f"{line}\n" for line in trace[half:])
                ways.append(("again", rest * 3, self.step("again", config, "\n".join(lines), str(half))))
            if "states" in parts:
                ways.append(("states", parts["states"], self.step("states", config, "\n".join(lines))))
            return [(f"{name} {way}", right == made, right, made) for way, right, made in ways]


def main():
    fmpsim, stepper, *watcher = sys.argv[1:]
    player = Player(fmpsim, stepper, bool(watcher))
    chosen = list(cases())
    if watcher:
        chosen = [case for case in chosen if "trace" in case[1]][::60]
    passed = failed = 0
    with ThreadPoolExecutor(4) as many:
        for found in many.map(player.play, chosen):
            for name, well, right, made in found:
                passed, failed = passed + well, failed + (not well)
                if not well and failed <= 5:
                    print(f"FAILED: in process, {name}: wanted\n{right}but it is\n{made}")
    print(f"{passed} passed, {failed} failed")
    return failed > 0


if __name__ == "__main__":
    sys.exit(main())
