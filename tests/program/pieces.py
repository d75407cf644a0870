"""pieces.py PROGRAM: events come through a pipe in pieces, each when the program has read the one before: the rows of two tables of
tests/cases/events in pieces of each length, and the last row behind long comments. They are answered as in one piece, as their table says.
Prints how many runs there were."""
import array
import fcntl
import importlib.machinery
import importlib.util
import os
import signal
import subprocess
import sys
import tempfile
import termios
from pathlib import Path

TOP = Path(__file__).resolve().parent.parent.parent
TABLES = ("first-faults-of-events.table", "blanks-and-comments.table")
# The length of the pieces, and that of the comment.
LONG_COMMENTS = ((1, 5000), (1000, 1_000_000), (65_536, 1_000_000))
program = sys.argv[1]


def loaded_play():
    """tests/play, as a module."""
    sys.dont_write_bytecode = True
    loader = importlib.machinery.SourceFileLoader("play", str(TOP / "tests/play"))
    play = importlib.util.module_from_spec(importlib.util.spec_from_loader("play", loader))
    loader.exec_module(play)
    return play


def is_unread(pipe):
    """Whether there is a byte in the pipe that was not read."""
    count = array.array("i", [0])
    fcntl.ioctl(pipe, termios.FIONREAD, count)
    return count[0] > 0


def hand_in(run, pieces):
    """Hands in the pieces, each when the one before was read, as long as the program runs."""
    for piece in pieces:
        try:
            run.stdin.write(piece)
        except BrokenPipeError:
            return
        while is_unread(run.stdin) and run.poll() is None:
            os.sched_yield()


def answered(machine, events, length):
    """How the program ends on these events in pieces of this length, and what it writes and tells."""
    pipes = dict.fromkeys(("stdin", "stdout", "stderr"), subprocess.PIPE)
    with tempfile.NamedTemporaryFile(suffix=".cfg") as cfg:
        cfg.write(machine)
        cfg.flush()
        with subprocess.Popen([program, "calls", cfg.name, "-"], bufsize=0, **pipes) as run:
            hand_in(run, (events[at : at + length] for at in range(0, len(events), length)))
            trace, errors = run.communicate()
            return run.returncode, trace, errors


def expected(parts):
    """The same, as the parts of a case say it."""
    return int(parts.get("status", b"0")), parts["trace"], parts.get("errors", b"").replace(b": events:", b": -:", 1)


def cut_cases():
    """Each row of the tables, and the last one behind long comments: what it is called, its parts, and the length of its pieces."""
    play = loaded_play()
    for table in TABLES:
        for name, parts in play.cases_of(TOP / "tests/cases/events" / table):
            for length in range(1, len(parts["events"]) + 1):
                yield name, parts, length
    for length, comment in LONG_COMMENTS:
        yield f"{name} behind a comment", {**parts, "events": b"#" * comment + b"\n" + parts["events"]}, length


# A program that reads no more does not stop the test.
signal.alarm(600)
runs = 0
for name, parts, length in cut_cases():
    if answered(parts["machine.cfg"], parts["events"], length) != expected(parts):
        sys.exit(f"{name} is answered otherwise in pieces of {length} bytes")
    runs += 1
print(runs)
