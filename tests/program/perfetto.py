#!/usr/bin/env python3
"""Reads the timelines of tools/to-perfetto back: they say the same as the trace and as the states of `calls --state`.

    tests/program/perfetto.py PROGRAM

Each example's trace is drawn with its states and without. Of both the lines come back, their times follow the ticks, and at each line what is
drawn of processors, tasks, objects and requests is what the states say, or, without states, nothing where the trace does not tell it. The
last line is 'N passed, M failed'.
"""
import json
import subprocess
import sys
import tempfile
from collections import defaultdict
from pathlib import Path

TOP = Path(__file__).resolve().parents[2]
TRACKS = {"processors": "task", "tasks": "state"}


class Wrong(Exception):
    """What is wrong with a timeline."""


def holds(right, cause):
    if not right:
        raise Wrong(cause)


class Drawn:
    """A timeline: of each track its spans, of each counter its samples, the lines and the arrows."""

    def __init__(self, text):
        self.spans, self.samples, self.lines, self.arrows, names = defaultdict(list), defaultdict(list), {}, defaultdict(dict), {}
        events = json.loads(text)["traceEvents"]
        for it in events:
            if it["ph"] == "M" and it["name"] in ("process_name", "thread_name"):
                names[it["pid"], it["tid"]] = it["args"]["name"]
        for it in events:
            if it["ph"] == "X":
                track, begin = names[it["pid"], it["tid"]], it["ts"]
                holds(it["dur"] > 0, f"{it} has no length")
                if it["cat"] == "event":
                    self.lines[it["args"]["line"]] = (begin, track.removesuffix(" events"), it)
                else:
                    self.spans[it["cat"], track].append((begin, round(begin + it["dur"], 3), it["name"]))
            elif it["ph"] == "C":
                self.samples[it["name"]].append((it["ts"], it["args"]["value"]))
            elif it["ph"] in "sf":
                self.arrows[it["id"]][it["ph"]] = (it["ts"], names[it["pid"], it["tid"]].removesuffix(" events"))

    def at(self, kind, track, time):
        found = [name for begin, end, name in self.spans[kind, track] if begin <= time < end]
        holds(len(found) <= 1, f"{track} has {found} at {time}")
        return found[0] if found else None

    def value(self, name, time):
        return [value for at, value in self.samples[name] if at <= time][-1]

    def text(self):
        """The trace."""
        for number, (_, processor, it) in sorted(self.lines.items()):
            said = it["args"]
            fields = [f" rel={rel}" for rel in said.get("rel", [])] + [f" {key}={said[key]}" for key in ("lost", "run") if key in said]
            fields += [" ipi=" + ",".join(map(str, said["ipi"]))] if "ipi" in said else []
            yield f"{number} {processor} {said['runner']} {it['name']}{''.join(fields)}\n"


def states_of(text):
    """The state at the boot and after each line, by the first words of its lines."""
    states, lines = [{}], []
    for line in text.splitlines():
        if not line.startswith("  "):
            lines.append(line)
            states.append({})
        elif line != "  end":
            states[-1][line.split()[0]] = line.split()[1:]
    return states, lines


def task_of(state, name):
    """What a state says of a task, in the words of its track."""
    words = [word for word in state.get(name, []) if "=" not in word]
    for processor, fields in state.items():
        said = dict(word.split("=") for word in fields if "=" in word)
        if said.get("run") == name:
            words.insert(0, f"running {processor}")
        elif name in said.get("ready", "").split(","):
            return "ready"
    return " ".join(words) or None


def compare_tracks(drawn, states, lines, tasks, told):
    """At the boot and at each line. `told` says whether states were drawn too."""
    last = {line.split()[1]: number for number, line in enumerate(lines, 1)}
    for number, state in enumerate(states):
        time = drawn.lines[number][0] if number else 0
        for processor in (name for name in state if name[0] == "P" and name[1:].isdigit()):
            said = dict(word.split("=") for word in state[processor] if "=" in word)
            runs = drawn.at("task", processor, time)
            known = told or any(f" {processor} " in line and "run=" in line for line in lines[:number]) or processor in last
            if known or runs:
                holds((runs or "-") == said["run"], f"{processor} runs {runs} at line {number}")
            due = said.get("due", "").split(",")[0] or None
            handler = drawn.at("handler", processor, time)
            holds(handler == due or handler is None and number >= last.get(processor, 0), f"{processor} has {handler} at line {number}, and {due} is due")
        for task in tasks:
            is_now, has_to = drawn.at("state", task, time), task_of(state, task)
            unsure = not told and is_now == "ready or running" and (has_to or "").split()[0] in ("ready", "running")
            holds(is_now == has_to or unsure, f"{task} is {is_now} at line {number}, and the state says {has_to}")


def compare_objects(drawn, states, firsts):
    for number, state in enumerate(states):
        time = drawn.lines[number][0] if number else 0
        for name, first in firsts.items():
            key, _, rest = state[name][0].partition("=") if name in state else ("count", "", first)
            has_to = len(rest.split(",")) if key == "values" else int(rest.removeprefix("P"))
            holds(drawn.value(name, time) == has_to, f"{name} is {drawn.value(name, time)} at line {number}")


def compare_arrows(drawn, states, lines, told):
    """A request is pending while the latch is set, and its arrow ends at the line of its processor that clears it."""
    pending, wanted, taken = defaultdict(list), set(), set()
    for number, line in enumerate(lines, 1):
        processor, fields = line.split()[1], [word for word in line.split() if word.startswith("ipi=")]
        if pending[processor] and "latch" not in states[number][processor]:
            wanted |= {(begin, number) for begin in pending.pop(processor)}
            taken |= {number} if " ipi taken" in line else set()
        for p in fields[0][4:].split(",") if fields else []:
            pending[f"P{p}"].append(number)
    places = {place[:2]: number for number, place in drawn.lines.items()}
    found = {(places[arrow["s"]], places[arrow["f"]]) for arrow in drawn.arrows.values()}
    holds(found == wanted if told else found <= wanted, f"the arrows are {sorted(found)} and not {sorted(wanted)}")
    holds(taken <= {end for _, end in found}, f"no arrow leads to one of the lines {sorted(taken)}")


def compare_times(drawn, lines):
    """Each line comes after the one before, and in the tick that the processor with the most ticks is in."""
    ticks, most, before = defaultdict(int), 0, 0
    for number, line in enumerate(lines, 1):
        time = drawn.lines[number][0]
        if line.split()[3:5] == ["tick", "taken"]:
            ticks[line.split()[1]] += 1
            holds(ticks[line.split()[1]] <= most or time == 1000 * (most + 1), f"line {number} is at {time}")
        most = max([0, *ticks.values()])
        holds(before < time and time // 1000 == most, f"line {number} is at {time}")
        before = time


def firsts_of(listed):
    """What the objects have at the boot, by what `list` says of the configuration."""
    names = {"sem": "isemcnt", "flg": "iflgptn", "mpf": "blkcnt", "dtq": None, "spn": None}
    rows = [line.split() for line in listed.splitlines()]
    return {row[2]: row[row.index(names[row[0]]) + 1] if names[row[0]] else 0 for row in rows if row[0] in names}


def output_of(*words):
    return subprocess.run([str(word) for word in words], capture_output=True, text=True, check=True, timeout=600).stdout


def look_at(program, folder, room):
    """An example's trace, with states and without."""
    events, trace = room / "events", room / "trace"
    config, plain = folder / "machine.cfg", folder / "trace.txt"
    events.write_text(output_of(TOP / "tools/from-trace", plain))
    trace.write_text(output_of(program, "calls", "--state", config, events))
    listed = output_of(program, "list", config)
    tasks = [line.split()[2] for line in listed.splitlines() if line.startswith("task ")]
    states, lines = states_of(trace.read_text())
    for path, told in ((trace, True), (plain, False)):
        drawn = Drawn(output_of(TOP / "tools/to-perfetto", config, path))
        holds("".join(drawn.text()) == plain.read_text(), "the lines are not those of the trace")
        compare_times(drawn, lines)
        compare_tracks(drawn, states, lines, tasks, told)
        compare_arrows(drawn, states, lines, told)
        firsts = firsts_of(listed)
        holds(set(drawn.samples) == (set(firsts) if told else set()), f"the objects are {set(drawn.samples)}")
        if told:
            compare_objects(drawn, states, {name: str(first) for name, first in firsts.items()})


def main():
    passed = failed = 0
    folders = sorted(path.parent for path in (TOP / "examples").glob("*/trace.txt"))
    for folder in folders:
        try:
            with tempfile.TemporaryDirectory() as room:
                look_at(Path(sys.argv[1]).resolve(), folder, Path(room))
            passed += 1
        except (Wrong, subprocess.CalledProcessError, KeyError, IndexError) as error:
            print(f"FAILED: to-perfetto {folder.name}: {type(error).__name__}: {error} {getattr(error, 'stderr', '') or ''}")
            failed += 1
    print(f"{passed} passed, {failed} failed")
    return 1 if failed or passed < 20 else 0


if __name__ == "__main__":
    sys.exit(main())
