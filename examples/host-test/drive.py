#!/usr/bin/env python3
"""Runs tasks that are written as generators on the kernel that fmpsim plays: each text that a task yields is a service call, and
what comes back is the kernel's answer to it.

    drive.py FMPSIM machine.cfg

Which task goes on is what the kernel says, so this program schedules nothing. The trace goes to standard output.
"""
import re
import subprocess
import sys

LINE = re.compile(r"\d+ P\d \S+ (?:\w+\(.*?\)|\w+) (\S+)((?: \S+)*)\n")


class Kernel:
    """fmpsim as a process beside this one. It answers each event at once."""

    def __init__(self, program, configuration):
        words = [program, "calls", "--state", configuration, "-"]
        self.process = subprocess.Popen(words, stdin=subprocess.PIPE, stdout=subprocess.PIPE, text=True)
        self.running, self.requested = {}, {}
        self.read_state()

    def read_state(self):
        """Reads a state up to its end: who runs on each processor, and whether a request to it is pending."""
        for line in self.process.stdout:
            words = line.split()
            if words == ["end"]:
                return
            if words[1].startswith("run="):
                self.running[words[0]] = words[1].removeprefix("run=")
                self.requested[words[0]] = "latch" in words
        raise EOFError("fmpsim ended")

    def answer(self, event):
        """Gives an event. Tells its answer, and what each task that it released is answered."""
        self.process.stdin.write(event + "\n")
        self.process.stdin.flush()
        line = self.process.stdout.readline()
        print(line, end="")
        self.read_state()
        word, changes = LINE.fullmatch(line).groups()
        return word, dict(change.removeprefix("rel=").split(":", 1) for change in changes.split() if change.startswith("rel="))


def play(kernel, tasks):
    """Lets each processor in turn take its request and make the next call of its running task, until none has anything to do."""
    told, moved = {}, True
    while moved:
        moved = False
        for processor in list(kernel.running):
            if kernel.requested[processor]:
                kernel.answer(f"{processor} ipi")
            task = kernel.running[processor]
            if task == "-":
                continue
            try:
                call = tasks[task].send(told.pop(task, None))
            except StopIteration:
                call = "ext_tsk()"
            word, released = kernel.answer(f"{processor} {call}")
            told.update(released if word == "wait" else {task: word, **released})
            moved = True


def producer():
    for value in (10, 20, 30):
        yield f"snd_dtq(QUEUE, {value})"


def consumer(received):
    while len(received) < 3:
        answer = yield "rcv_dtq(QUEUE)"
        received.append(int(answer.removeprefix("E_OK:")))


received = []
play(Kernel(*sys.argv[1:]), {"PRODUCER": producer(), "CONSUMER": consumer(received)})
assert received == [10, 20, 30], received
