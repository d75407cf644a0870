"""What is told of a run: its order with values, from where accesses were called, its log, its stacks, and reports for pipelines."""
import os
import re
import shutil
import subprocess
import xml.etree.ElementTree as xml

from known import line_of

TOLD = "told"


def ordered(test, cc, name, program, *words, env=None):
    """What is told, and the lines of the order that is written."""
    path = test.out / (name + ".order")
    path.unlink(missing_ok=True)
    _, told = test.run(cc, program, *words, "--order", path, env=env)
    return told, path.read_text().splitlines() if path.exists() else []


def stands_in_order(wanted, lines):
    """Each of these is in one of the lines, one behind the other."""
    at = 0
    for text in wanted:
        at = next((number + 1 for number, line in enumerate(lines) if number >= at and text in line), None)
        if at is None:
            return False
    return True


def written(task, what, text):
    return "%s writes %s   [%s_task %s]" % (task, what, task.lower(), line_of(TOLD, text))


# The first order goes on on P1 as long as it can: so ONE has written all that TWO reads. The numbers are those that stand in told.c.
def values(test):
    for cc in test.compilers:
        told, lines = ordered(test, cc, "values", TOLD, "--every-order")
        wanted = ["#        [0 ONE] one begins with 7", written("ONE", "level = 1", "level = 1"), written("ONE", "below = 0xfffe (-2)", "below = -2"), "ONE writes pointer = 0x",
                  "#        [0 ONE] one has\\nwritten", "#        serial port: hello\\n", "ONE reads total = 0   [add", "ONE writes total = 1   [add", "TWO reads level = 1   [", "TWO reads below = 0xfffe (-2)   ["]
        test.check(stands_in_order(wanted, lines) and any("ONE writes pointer = 0x" in line and " (total)   [" in line for line in lines), "%s: an order has values" % cc, "\n".join(lines) + told)
        told, lines = ordered(test, cc, "values", TOLD, "--every-order", "--races", "none")
        wanted = ["ONE writes text = bytes 61 62 63   [", "TWO reads text = bytes "]
        test.check(stands_in_order(wanted, lines) or stands_in_order(wanted[1:] + wanted[:1], lines), "%s: an order has bytes" % cc, "\n".join(lines) + told)


def callers(test):
    """Both accesses of a race, each with the calls that led to it, the innermost first."""
    add = "add %s" % line_of(TOLD, "total += n")
    one = ["ONE on P1 writes it: " + add, "called from add_through %s" % line_of(TOLD, "    add(n)"), "called from one_task %s" % line_of(TOLD, "add_through(1)")]
    two = ["TWO on P2 reads it: " + add, "called from two_task %s" % line_of(TOLD, "    add(2)")]
    for cc in test.compilers:
        for words in (["--every-order"], ["--places"]):
            _, told = test.run(cc, TOLD, *words)
            lines = [line.removeprefix("fmphost:").strip() for line in told.splitlines()]
            at = lines.index(one[0]) if one[0] in lines else 0
            test.check(lines[at:at + 5] == one + two, "%s: %s tells from where both were called" % (cc, words[0]), told)
        _, told = test.run(cc, "bad", "--seeds", "1", env={"HOW": "claim of C"})
        test.check("called from bad_task %s\n" % line_of("bad", "c_claim(n);") in told, "%s: from where an assertion was called" % cc, told)


def logs(test):
    """The log is that of the run that is told, once, and in its order."""
    for cc in test.compilers:
        for words in (["--every-order", "--races", "none"], ["--seeds", "1..30", "--races", "none"], ["--seeds", "1..30", "--races", "none", "--jobs", "3"], ["--every-order"]):
            _, told = test.run(cc, TOLD, *words, "--log")
            lines = [line for line in told.splitlines() if not line.startswith("fmphost:")]
            kinds = sorted(line.split("] ")[-1] for line in lines)
            numbers = [int(line[1:].split()[0]) for line in lines if line.startswith("[")]
            test.check(kinds == ["hello", "one begins with 7", "one has", "two begins", "written"] and numbers == sorted(numbers), "%s: %s --log" % (cc, " ".join(words)), told)
        _, told = test.run(cc, TOLD, "--every-order", "--all", "--log")
        kinds = len(re.findall(r"^fmphost: order \d", told, re.M))
        test.check(kinds > 1 and told.count("one begins") == kinds, "%s: each finding has its own log" % cc, told)
        _, told = test.run(cc, TOLD, "--every-order", "--races", "none")
        test.check("begins" not in told, "%s: no log without --log" % cc, told)


def until(test):
    """A replay stops before the turn of a line, where all stand is told, and a debugger sees the callers of whoever goes on."""
    for cc in test.compilers:
        told, lines = ordered(test, cc, "until", TOLD, "--every-order")
        number = next((number for number, line in enumerate(lines, 1) if "TWO reads level" in line), 0)
        path = test.out / "until.order"
        ended, told = test.run(cc, TOLD, "--replay", path, "--until", number)
        place = "two_task %s" % line_of(TOLD, "(void)level")
        wanted = ["%s:%d: here P2 goes on" % (path, number), "P1: idle", "P2: TWO, before it reads level: " + place, "race on total"]
        test.check(ended == 5 and stands_in_order(wanted, told.splitlines()), "%s: --until" % cc, told)
        ended, told = test.run(cc, TOLD, "--replay", path, "--until", len(lines) + 1)
        test.check(ended == 3 and "has no turn in line %d" % (len(lines) + 1) in told, "%s: --until behind the end" % cc, told)
        if not shutil.which("gdb"):
            test.left_out("host with gdb", "there is no gdb")
            continue
        words = ["gdb", "-batch", "-ex", "break fmphost_until", "-ex", "run", "-ex", "backtrace", "-ex", "continue", "--args", str(test.room(cc) / TOLD / "run"), "--replay", str(path), "--until", str(number)]
        seen = subprocess.run(words, capture_output=True, text=True, env=dict(os.environ, FMPSIM=test.fmpsim), errors="replace")
        test.check(re.search(r"^#\d+ .*\btwo_task \(.*told\.c:%s$" % place.split(":")[1], seen.stdout, re.M) and "race on total" in seen.stderr, "%s: --until in gdb" % cc, seen.stdout + seen.stderr)


# HOW, words, status, the task that uses too much, and for rows of the table the least that it uses: what its array has. More than 400 bytes beyond that no frame here has.
STACKS = [
    ("large", [], 5, "LARGE uses ", {"LARGE": 1500}), ("large", ["--stack-factor", "2"], 0, None, {"LARGE": 1500, "TICK": 1500}), ("varies", [], 5, "VARIES uses ", {"VARIES": 5000}),
    ("named", [], 0, None, {"NAMED": 3000, "UNKNOWN": 3000, "TICK": 1500, "NEVER": 0}), ("named", ["--all"], 0, None, {"NAMED": 3000}),
    ("none", [], 0, None, {"LARGE": 0, "VARIES": 0}),
]
GIVEN = {"LARGE": "1024", "VARIES": "4096", "NAMED": "4096", "UNKNOWN": "-", "NEVER": "512", "TICK": "-"}


def stacks(test):
    """How much of its stack each used, and who used more than the configuration gives."""
    for cc in test.compilers:
        for how, words, status, who, rows in STACKS:
            ended, told = test.run(cc, "frames", "--every-order", "--stacks", *words, env={"HOW": how})
            table = {name: (int(used), given, place) for name, used, given, place in re.findall(r"^fmphost: (\w+) +(\d+) +(\d+|-)  (.+)$", told, re.M)}
            well = ended == status and {name: row[1] for name, row in table.items()} == GIVEN and all(least <= table[name][0] <= least + 400 for name, least in rows.items())
            well = well and (who is None) == (" bytes of stack" not in told) and (who or "") in told and table["NEVER"] == (0, "512", "it never ran")
            test.check(well, "%s: frames, HOW=%s %s: status %s" % (cc, how, " ".join(words), ended), told)
        ended, told = test.run(cc, "frames", "--every-order", env={"HOW": "large"})
        test.check(ended == 0 and "stack" not in told, "%s: no stack is told without --stacks" % cc, told)
        _, told = test.run(cc, "frames", "--every-order", "--stacks", env={"HOW": "large"})
        test.check("called from passed_on %s\n" % line_of("frames", "return fill(n)") in told and "called from large_task" in told, "%s: who called what used too much" % cc, told)


def reported(test, words, folder=None):
    """What one writes for a pipeline: status, standard output and error."""
    told = subprocess.run(list(map(str, words)), capture_output=True, text=True, env=dict(os.environ, FMPSIM=test.fmpsim), cwd=folder)
    return told.returncode, told.stdout, told.stderr


def cases(path):
    """Of JUnit's XML: how many cases, failures and errors, and what each case is."""
    suite = xml.parse(path).getroot().find("testsuite")
    counts = tuple(int(suite.get(word)) for word in ("tests", "failures", "errors"))
    return counts, [(case.get("classname"), case[0].tag if len(case) else "ok", case[0].get("message") if len(case) else "") for case in suite]


REPORTED = [
    ("count", ["--every-order"], 5, "failure", "expected none, and its status is 5: order 1: race on total, 4 bytes at"), ("count:LOCKED", ["--every-order"], 0, "ok", ""),
    ("endless", ["--seeds", "1..2"], 6, "error", "not known: expected none, and its status is 6"), ("count", ["--seeds", "1", "--config", "/nowhere/it"], 3, "error", "not known: expected none, and its status is 3"),
]


def reports(test):
    """--junit and --tap, and a list that has both runs of fmpsim and of the host: one writer writes both."""
    cc = test.compilers[0]
    path = test.out / "report.xml"
    for program, words, status, kind, message in REPORTED:
        run = test.room(cc) / program.replace(":", "-") / "run"
        path.unlink(missing_ok=True)
        ended, tap, told = reported(test, [run, *words, "--tap", "--junit", path])
        counts, rows = cases(path)
        well = ended == status and counts == (1, kind == "failure", kind == "error") and rows[0][:2] == ("fmphost", kind) and rows[0][2].startswith(message)
        well = well and tap.startswith("TAP version 13\n1..1\n%s 1 - " % ("ok" if kind == "ok" else "not ok")) and "fmphost: " in told
        test.check(well, "%s %s --tap --junit: status %s" % (program, " ".join(words), ended), tap + told + str(rows))
        ended, tap, _ = reported(test, [run, *words, "--junit", path])
        test.check(ended == status and tap == "", "%s %s --junit alone writes nothing else" % (program, " ".join(words)), tap)
    ended, tap, told = reported(test, [test.room(cc) / "count" / "run", "--tap", "--seeds", "9..1"])
    test.check(ended == 2 and tap == "", "--tap with wrong words", tap + told)
    folder = test.room(cc)
    (folder / "runs.txt").write_text("clean none count-LOCKED/run --every-order\nraces found count/run --every-order\nrefused 1 check nothing.cfg\nwrong none ./count/run --seeds 1..9\n")
    (folder / "nothing.cfg").write_text("")
    run_list = os.path.join(os.path.dirname(os.path.dirname(os.path.dirname(os.path.abspath(__file__)))), "tools", "run-list")
    ended, tap, told = reported(test, [run_list, folder / "runs.txt", "--fmpsim", test.fmpsim, "--junit", path])
    lines = [line for line in tap.splitlines() if re.match("(not )?ok", line)]
    (folder / "runs.txt").write_text("x found check nothing.cfg trace.txt\n")
    refused = reported(test, [run_list, folder / "runs.txt", "--fmpsim", test.fmpsim])
    test.check(refused[0] == 1 and "found: it is expected of host alone, and this is a run of check" in refused[2], "found is no answer of fmpsim", refused[2])
    test.check(ended == 5 and lines[:2] == ["ok 1 - clean", "ok 2 - races"] and lines[3] == "not ok 4 - wrong" and len(lines) == 4, "a list of runs of the host", tap + told)


def all_of_it(test):
    if not test.compilers:
        return
    for part in values, callers, logs, until, stacks, reports:
        part(test)
