"""The lines of a whole trace, as `fmpsim calls`, `smp` and `explore` write them, with the lines of states below them.

tools/to-log and tools/to-perfetto read traces by these.
"""
import re

from log_calls import CALLS, CODES, Refused, printable

LINE = re.compile(r"(\d+) P([1-8]) (\S+) (tick|ipi|ret_hdr|([a-z_]+)\(([^)]*)\)) ([A-Za-z_]+)(?::(-?\d+))?((?: [a-z]+=\S+)*)$", re.A)
NUMBERS = {word: number for number, word in CODES.items()}
# What changes nothing.
NO_EFFECT = {"idle", "held", "none"}
ANSWERS = NO_EFFECT | {"taken", "gone", "wait", "spin"} | set(NUMBERS)


class Record:
    """A line of a trace."""

    def __init__(self, number, line):
        found = LINE.match(line)
        if not found or found[5] and found[5] not in CALLS or found[7] not in ANSWERS:
            raise Refused(f"`{printable(line)}` is no line of a whole trace", number)
        self.line, self.number, self.processor, self.runner = number, int(found[1]), int(found[2]), found[3]
        self.event, self.name = found[4], found[5] or found[4]
        self.arguments = found[6].split(", ") if found[6] else []
        self.answer, self.value, self.run, self.lost, self.ends, self.requests = found[7], found[8], None, None, [], []
        # The lines of the state after it, where they stand there.
        self.state = None
        for word in found[9].split():
            self.field(*word.split("=", 1))

    def field(self, key, rest):
        if key == "rel":
            task, _, code = rest.partition(":")
            self.ends.append((task, code))
        elif key == "run":
            self.run = rest
        elif key == "lost":
            self.lost = rest
        elif key == "ipi":
            self.requests = [int(p) for p in rest.split(",") if p.isdigit()]

    def target(self):
        return self.runner if self.arguments[:1] == ["TSK_SELF"] else self.arguments[0] if self.arguments else None


def trace_of(text, machine):
    """The state at the boot, if there is one, and the lines of a trace, each with the state below it, if there is one."""
    boot, records = None, []
    for number, line in enumerate(text.split("\n"), 1):
        if line.startswith("  "):
            below = records[-1].state if records else boot
            if below is None:
                below = []
                if records:
                    records[-1].state = below
                else:
                    boot = below
            below.append((number, line.split()))
        elif line and not line.startswith(" "):
            records.append(Record(number, line))
            if records[-1].processor > machine.processors:
                raise Refused(f"there is no processor {records[-1].processor}: the configuration has {machine.processors}", number)
    return boot, records
