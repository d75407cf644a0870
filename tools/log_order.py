"""The order in which the events of a log took effect, where the log does not tell it: the one that fmpsim finds for the partial trace of the log."""
import gc
import os
import subprocess
import sys
import tempfile
from collections import Counter

from fmpsim_program import program_at
from log_calls import Refused

# How `check` ends: each line is the machine's own; one differs; the trace ends before its log, or there was no room.
YES, NO, LIMIT = 0, 5, 6
# A spin lock that is asked for, and not had: a trace has it, a list of events has not.
SPINNING = ("loc_spn(", "iloc_spn(")
# The files of a run of the program: what it reads, and what it writes.
NAMES = ("machine.cfg", "partial.txt", "own.txt")


class Unordered(Exception):
    """Why no order is found."""


def end_of(path, trace, up_to):
    """Writes a partial trace, which has to end where its log is no longer read, and not before."""
    last = ""
    with open(path, "w", encoding="utf-8") as out:
        for last in trace:
            out.write(last)
    word, _, line = last.rstrip().partition(" ")
    if word == "ends" and not 0 < up_to < int(line):
        raise Unordered(f"a trace of the log ends at line {line}")


def event_in(line):
    """The event of a line of a whole trace, as it stands in a list."""
    _, processor, _, rest = line.split(" ", 3)
    word = rest[:rest.index(" ")]
    return sys.intern(f"{processor} {rest[:rest.index(')') + 1] if '(' in word else word}\n")


def own_events(program, room):
    """The events of the machine's own lines of the partial trace in a folder, in the order in which it plays them."""
    config, trace, own = (os.path.join(room, name) for name in NAMES)
    with open(own, "wb") as out:
        run = subprocess.run([program, "check", "--order", config, trace], stdin=subprocess.DEVNULL, stdout=out, stderr=subprocess.PIPE, check=False)
    if run.returncode == NO:
        raise Unordered("none that it may be is the machine's, as `fmpsim check --partial --show` tells of the trace that --trace writes")
    if run.returncode not in (YES, LIMIT):
        told = run.stderr.decode(errors="replace").splitlines() or [f"fmpsim ends with status {run.returncode}"]
        raise Unordered(told[0])
    if not os.path.getsize(own):
        raise Unordered("there are more orders than fmpsim has room for")
    with open(own, encoding="utf-8") as lines:
        return [event_in(line) for line in lines]


def in_order(events, own):
    """The events of a list, in the order of others; behind them those that are not among these, since the trace ends before, or since what is under way at
    its end had no effect yet."""
    left, later = Counter(own), []
    for event in events:
        if left[event]:
            left[event] -= 1
        else:
            later.append(event)
    if any(count and not event.split(" ", 1)[1].startswith(SPINNING) for event, count in left.items()):
        raise Unordered("the trace has other events than the list")
    return own + later


def ordered(events, config, make_trace, up_to, fmpsim):
    """The events of a list in the order that fmpsim finds for the partial trace that is made, or why there is none."""
    try:
        program = program_at(fmpsim, Refused)
        with tempfile.TemporaryDirectory() as room:
            config_path, trace_path, _ = (os.path.join(room, name) for name in NAMES)
            with open(config_path, "w", encoding="utf-8") as out:
                out.write(config)
            end_of(trace_path, make_trace(), up_to)
            # What the trace was made of goes away before the program runs.
            gc.collect()
            return in_order(events, own_events(program, room))
    except (Refused, Unordered) as why:
        raise Unordered(str(why)) from None
    except OSError as error:
        raise Unordered(f"fmpsim cannot be run: {error.strerror}") from None
