"""What tools/to-board tells of texts: of events that are others on a board, of what it refuses, and of logs that are not whole."""
import os
import re
import subprocess
from pathlib import Path

from on_host import HERE, TOOL, TOP

LATE = TOP / "examples/late-interrupt"


def all_of_it(test):
    tells(test)
    logs(test)


def tells(test):
    """The rows of told.txt: the words, the status, and what is on standard error."""
    rows = [line.split("\t") for line in (HERE / "told.txt").read_text().splitlines() if line and not line.startswith("#")]
    folder = test.out / "told"
    folder.mkdir()
    for number, (words, config, events, status, wanted) in enumerate(rows, 1):
        (folder / "x.cfg").write_text(config_text(config))
        (folder / "x.txt").write_text(events.replace("\\n", "\n") + "\n")
        kit = folder / f"kit{number}"
        own = dict(os.environ, FMPSIM=test.host.fmpsim)
        told = subprocess.run([str(TOOL), *words.format(kit=kit.name).split()], capture_output=True, text=True, cwd=folder, env=own)
        lines = told.stderr.splitlines() or [""]
        well = told.returncode == int(status) and wanted.format(kit=kit.name) in ("|".join(lines), lines[-1]) and kit.exists() == (status == "0")
        test.check(well, f"tools/to-board {words}: {config}: {events}: {wanted}", f"status {told.returncode}, {told.stderr}")


def config_text(told):
    if told == "@":
        return (HERE / "wrong.cfg").read_text()
    if not told.startswith("@"):
        return told.replace("\\n", "\n")
    tasks = "".join(f"CRE_TSK(T{number}, {{TA_ACT, 0, m, 9, 4096, NULL}}); " for number in range(int(told[1:])))
    return f"PROCESSORS(2);\nDEF_CLASS(C, 1, {{1, 2}});\nCLASS(C) {{ {tasks}}}\n"


def logs(test):
    """Logs that are cut, mixed, of another case or of another kit."""
    kit = test.host.kit("logs", LATE / "machine.cfg", LATE / "events.txt", LATE / "events.txt")
    one, two = (test.host.play(kit / "app001", number, number) for number in (1, 2))
    foreign = resummed(re.sub(r"of kit \d+", "of kit 7", one))
    lines = one.splitlines(keepends=True)
    stamped = "".join(f"[{at}] console: {line.rstrip()}\r\n" for at, line in enumerate(lines))
    rows = [
        ("whole", one + two, 0, "2 the same, 0 different, 0 without a whole log; 0 cases of the kit have none"),
        ("with a console's own words", "boot\n" + stamped + "halted\n", 0, "1 the same, 0 different, 0 without a whole log; 0 cases of the kit have none"),
        ("cut at its end", two + "".join(lines[:-3]), 6, "no whole log: cut: it has no end"),
        ("cut at its beginning", "".join(lines[2:]), 6, "no whole log: cut or mixed: line 1 belongs to no log that began before it"),
        ("a line lost", "".join(lines[:4] + lines[5:]), 6, "no whole log: mixed or cut: lines are missing, or not of this case"),
        ("a number is another", one.replace("code 0", "code -5", 1), 6, "no whole log: mixed or cut: lines are missing, or not of this case"),
        ("two at once", lines[0] + two + "".join(lines[1:]), 6, "no whole log: cut or mixed: another log begins in it, at line 2"),
        ("of another case", resummed(re.sub(r"case 1 of", "case 9 of", one)) + two, 6, "no whole log: of another case: case 9 of kit "),
        ("of another kit beside one of this", foreign + two, 6, "no whole log: of another kit: case 1 of kit 7"),
        ("of another kit", foreign, 1, "to-board: there is no log of this kit: no whole log: of another kit: case 1 of kit 7"),
        ("an answer is another", resummed(one.replace("code 0", "code -41", 1)), 5, "step 1: P1 T1 act_tsk(T2): your kernel answers E_OBJ, the profile E_OK"),
        ("nothing", "", 1, "to-board: there is no log of this kit"),
    ]
    for name, text, status, wanted in rows:
        compared(test, kit, name, text, status, wanted)
    reports(test, kit, one.replace("code 0", "code -5", 1) + two)


def resummed(text):
    """A log with the sum of its own numbers: each is added to 31 times the sum so far, in 32 bits, of which 31 are told."""
    total = 0
    for line in text.splitlines()[:-1]:
        for number in re.findall(r"(?<![a-z])-?\d+|(?<=P)\d+", line):
            total = (total * 31 + int(number)) % 2**32
    return re.sub(r"sum \d+", f"sum {total % 2**31}", text)


def compared(test, kit, name, text, status, wanted):
    log = test.out / "x.log"
    log.write_text(text)
    told = test.host.tool("--compare", kit, log)
    test.check(told.returncode == status and wanted in told.stdout + told.stderr, f"a log: {name}: {status}, {wanted}", f"status {told.returncode}: {told.stdout}{told.stderr}")


def reports(test, kit, text):
    """TAP and JUnit's XML of one that is not whole and one that is the same."""
    log, xml = test.out / "x.log", test.out / "x.xml"
    log.write_text(text)
    told = test.host.tool("--compare", "--tap", "--junit", xml, kit, log)
    lines = told.stdout.splitlines()
    test.check(told.returncode == 6 and lines[:2] == ["TAP version 13", "1..2"] and [line.split(" - ")[0] for line in lines if "ok " in line] == ["not ok 1", "ok 2"],
               "--tap", told.stdout)
    made = xml.read_text() if xml.exists() else ""
    test.check('tests="2" failures="0" errors="1"' in made and made.count("<testcase") == 2 and made.count("<error ") == 1, "--junit", made)
    told = test.host.tool("--compare", "--junit", test.out / "missing/x.xml", kit, log)
    test.check(told.returncode == 3 and "cannot be written" in told.stderr, "--junit where nothing can be written", told.stderr)


# --- static API files ---

def bare(listed):
    """A configuration as `fmpsim list` tells it, without the names of its classes and the functions."""
    classes = {found[1]: found[2] for found in re.finditer(r"^class (\S+) (.*)$", listed, re.M)}
    lines = [line for line in listed.splitlines() if not re.match(r"class|function|field", line)]
    return sorted(re.sub(r" class (\S+)", lambda found: f" class <{classes[found[1].split('|')[0]]}>", line) for line in lines)


def read_back(test, folder: Path, kernel: str):
    """The static API is the machine that fmpsim played, as tools/from-toppers reads it."""
    listed = subprocess.run([test.host.fmpsim, "list", str(folder / "machine.cfg")], capture_output=True, text=True).stdout
    many = re.search(r"processors (\d)", listed)[1]
    master = re.search(r"timer global P(\d)", listed)
    words = ["-D", "BOARD_TICK=1", "--processors", many] + (["-D", "TOPPERS_SYSTIM_GLOBAL", "-D", f"TOPPERS_SYSTIM_PRCID={master[1]}"] if master else [])
    made = subprocess.run([str(TOP / "tools/from-toppers"), "app.cfg", "-I", ".", *words], capture_output=True, text=True, cwd=folder)
    (folder / "read.cfg").write_text(made.stdout)
    read = subprocess.run([test.host.fmpsim, "list", str(folder / "read.cfg")], capture_output=True, text=True).stdout
    test.check(made.returncode == 0 and bare(read) == bare(listed), f"{folder} ({kernel}) read by tools/from-toppers", made.stderr + "\n".join(set(bare(read)) ^ set(bare(listed))))
