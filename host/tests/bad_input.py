"""What may go wrong: each has a line that says so and a status, and nothing that was found is lost."""
import os
import shutil
import subprocess
import sys
from pathlib import Path

from known import line_of

HOST = Path(__file__).resolve().parent.parent

# Words, status, and what is told.
WORDS = [
    (["--seeds", "9..1"], 2, "--seeds: the first seed is above the last"), (["--seeds"], 2, "--seeds: expected a value"),
    (["--seeds", "1..x"], 2, "--seeds: expected A..B"), (["--seeds", "99999999999999999999"], 2, "--seeds: expected A..B"),
    (["--nothing"], 2, "--nothing: no such word"), (["--ticks", "-1"], 2, "--ticks: expected a number from 0"),
    (["--ticks", "any"], 2, "goes with --places alone"), (["--turns", "0"], 2, "--turns: expected a number from 1"),
    (["--every-order", "--places"], 2, "--places: says another way"), (["--races", "some"], 2, "--races: expected none"),
    (["--may-wait", "NOBODY"], 2, "--may-wait: no task has that name"), (["--jobs", "2", "--every-order"], 2, "--jobs: goes with --seeds alone"),
    (["--until", "3"], 2, "--until: goes with --replay alone"), (["--stack-factor", "2"], 2, "--stack-factor: goes with --stacks alone"),
    (["--stacks", "--stack-factor", "0"], 2, "--stack-factor: expected a number from 1"), (["--refused", "E_NOTHING"], 2, "--refused: expected none, own, all or codes"), (["--shared", "nothing_of_this"], 2, "--shared: no variable has that name"), (["--replay", "/nowhere/it"], 3, "/nowhere/it: No such file"), (["--trace", "/nowhere/it"], 3, "/nowhere/it: No such file"),
    (["--order", "/dev/full"], 3, "/dev/full: No space left"), (["--view", "/nowhere/it"], 3, "/nowhere/it: fmpsim view failed"),
]
# What the program `bad` does by HOW: status, and what is told. Where it is found, its seed is, too.
HOW = {
    "null": (5, "Segmentation fault in BAD, at address 0x0: bad_task bad.c:"), "divide": (5, "Floating point exception in BAD"),
    "deep": (5, "stack overflow in BAD: deep bad.c:"), "loop": (5, "BAD comes to no service call for 2 s: bad_task bad.c:"),
    "exit": (5, "the program called exit(0)"), "abort": (5, "Aborted in BAD"), "out": (5, "Segmentation fault in BAD, at address 0x0: bad_task bad.c:"),
    "jump": (5, "BAD has jumped to the stack of OTHER: other_task bad.c:"), "jump and end": (5, "BAD has jumped to the stack of OTHER"),
    "_exit": (5, "the program called _exit(7): leave " + line_of("bad", "        _exit(7)")), "quick_exit": (5, "the program called quick_exit(7): leave " + line_of("bad", "quick_exit(7);")),
    "kill": (5, "the program sent itself the signal 9: leave " + line_of("bad", "kill(getpid(), SIGKILL)")), "stop": (5, "the program sent itself the signal 19: leave bad.c:"), "killed": (5, "fmphost: Killed in BAD\n"),
    "fork": (5, "the program called fork(): a task has no process of its own: leave " + line_of("bad", "        fork();")), "thread": (5, "the program called pthread_create()"),
    "exec": (5, "the program called execvp(): leave bad.c:"), "claim": (5, "n == 2 is false, in BAD"), "claim of C": (5, "claims.c:6: n == 3 is false, in BAD"),
    "handler aborts": (5, "Aborted in CLOCK"),
    "handler waits": (0, "nothing found"), "handler ends": (0, "nothing found"), "poll": (6, "what comes after 2000 turns: BAD goes on (seed 1, and 2 more)"),
    "wide": (5, "stack overflow in BAD: wide bad.c:"), "time": (3, "does not do the same again"), "unsteady": (3, "does not do the same again"),
}


def programs_at_fault(test):
    for cc in test.compilers:
        for how, (status, wanted) in HOW.items():
            # a machine may be so busy that fmpsim does not answer in two seconds either: then there are more
            for patience in (["--seconds", "2"], ["--seconds", "20"]) if how == "loop" else ([],):
                ended, told = test.run(cc, "bad", "--seeds", "1..3", "--ticks", "2", "--may-wait", "OTHER", *patience, env={"HOW": how})
                if "fmpsim does not answer" not in told:
                    break
            wanted = wanted.replace("for 2 s", "for %s s" % patience[1]) if patience else wanted
            test.check(ended == status and wanted in told and (status != 5 or "seed 1" in told) and "-fsanitize" not in told and (status != 3 or "is false" not in told), "%s: bad, HOW=%s: status %s" % (cc, how, ended), told)
        for words in (["--every-order"], ["--places"]):
            ended, told = test.run(cc, "bad", *words, "--may-wait", "OTHER", env={"HOW": "time"})
            test.check(ended == 3 and "does not do the same again" in told, "%s: bad, HOW=time %s" % (cc, words[0]), told)
        told = test.make(cc, "P=bad:BEFORE")
        ended, said = test.run(cc, "bad:BEFORE", env={"HOW": "exit"})
        test.check(ended == 3 and "a service call outside tasks and handlers" in said, "%s: a call in a constructor" % cc, told.stderr + said)


def words_at_fault(test):
    for words, status, wanted in WORDS:
        ended, told = test.run(test.compilers[0], "count", *words)
        test.check(ended == status and wanted in told, "count %s: status %s" % (" ".join(words), ended), told)
    # what was found is told, though its file cannot be written
    ended, told = test.run(test.compilers[0], "one_message_behind", "--every-order", "--trace", "/dev/full")
    test.check(ended == 3 and "DISPLAY waits for ever" in told and "/dev/full: No space left" in told, "a full disk", told)


def replays_at_fault(test):
    cc, order, trace, other = test.compilers[0], test.out / "bad.order", test.out / "bad.trace", test.out / "cut"
    test.run(cc, "one_message_behind", "--every-order", "--order", order, "--trace", trace)
    lines = order.read_text().splitlines(keepends=True)
    swapped = [lines[0], *reversed(lines[1:])]
    cases = [
        ("".join(lines[:4]), "one_message_behind", 6, "ends here, and more may happen"),
        ("".join(lines)[:-9], "one_message_behind", 3, "this line is cut short"),
        (lines[0] + "P1 ipi  -\n", "one_message_behind", 3, "this cannot happen here: P1 ipi"),
        (lines[0] + "P7 go\n", "one_message_behind", 3, "no such processor"),
        (lines[0] + "what is this\n", "one_message_behind", 3, "this is no line of an order or of a trace"),
        ("".join(lines[:2]), "queue", 3, "is the file of another program?"),
        (trace.read_text().splitlines()[0] + "\n", "queue", 3, "is the file of another program?"), ("".join(swapped), "one_message_behind", 3, ""),
        ("".join(trace.read_text().splitlines(keepends=True)[:4]), "one_message_behind", 6, "ends here, and more may happen"),
        (trace.read_text(), "one_message_behind", 5, "DISPLAY waits for ever"),
        (lines[0] + "".join(" ".join(line.split()[:2]) + "\n" for line in lines[1:]), "one_message_behind", 5, "DISPLAY waits for ever"),
    ]
    test.run(cc, "queue", "--seeds", 1, "--order", order)
    cases.append((order.read_text() + "P1 go\n", "queue", 3, ":%d: the program has ended before this: P1 go" % (order.read_text().count("\n") + 1)))
    for text, program, status, wanted in cases:
        other.write_text(text)
        ended, told = test.run(cc, program, "--replay", other)
        test.check(ended == status and wanted in told, "--replay on %s: status %s in place of %d" % (program, ended, status), text + told)


def stand_in(test, name, text):
    path = test.out / name
    path.write_text("#!/bin/sh\nreal='%s'\n%s\n" % (test.fmpsim, text))
    path.chmod(0o755)
    return str(path)


def fmpsim_at_fault(test):
    cc = test.compilers[0]
    cases = [
        ("/nowhere/fmpsim", "/nowhere/fmpsim is not found"),
        (stand_in(test, "old", '[ "$1" != --version ] || { echo fmpsim 0.0.9; exit; }\nexec "$real" "$@"'),
         "this is fmpsim 0.0.9, and kernel_cfg.c was made with fmpsim"),
    ]
    behind_pipes = [
        (stand_in(test, "ends", '[ "$1" = calls ] || exec "$real" "$@"\nsed -u 2q | "$real" "$@"'), "fmpsim has ended before the run"),
        (stand_in(test, "silent", '[ "$1" = calls ] || exec "$real" "$@"\nexec sleep 5'), "fmpsim does not answer for 2 s"),
        (stand_in(test, "strange", '[ "$1" = calls ] || exec "$real" "$@"\n"$real" "$@" | sed -u s/E_OK/E_NEW/'), "fmpsim says what this program does not know"),
    ]
    for fmpsim, wanted in cases if test.library else cases + behind_pipes:
        patience = ["--seconds", "2"] if "for 2 s" in wanted else []
        ended, told = test.run(cc, "one_message_behind", *patience, fmpsim=fmpsim)
        test.check(ended == 3 and wanted in told, "fmpsim that is %s: status %s" % (Path(fmpsim).name, ended), told)
    ended, told = test.run(cc, "queue", "--config", HOST / "programs/producer/machine.cfg")
    test.check(ended == 3 and "is not what kernel_cfg.c was made of: make it anew" in told, "another configuration", told)
    changed = test.out / "changed.cfg"
    changed.write_text((HOST / "programs/queue/machine.cfg").read_text().replace("producer, 5", "producer, 6"))
    ended, told = test.run(cc, "queue", "--config", changed)
    test.check(ended == 3 and "is not what kernel_cfg.c was made of" in told, "a configuration that was changed", told)


def generator_at_fault(test):
    tool, text = HOST / "gen/fmphost-cfg", test.out / "wrong.cfg"
    text.write_text("PROCESSORS(2);\nCRE_TSK(A, {TA_ACT});\n")
    cases = [([text, "-o", test.out], 1, "line 2: F4"), (["/nowhere/x.cfg"], 3, "x.cfg"), ([], 2, "usage"),
             ([text, "--fmpsim", "/nowhere/it"], 3, "/nowhere/it: No such file"), ([HOST / "programs/queue/machine.cfg", "-o", "/nowhere"], 3, "/nowhere")]
    for words, status, wanted in cases:
        told = subprocess.run([sys.executable, str(tool), "--fmpsim", test.fmpsim, *map(str, words)], capture_output=True, text=True)
        test.check(told.returncode == status and wanted in told.stderr, "fmphost-cfg %s: status %d" % (" ".join(map(str, words)), told.returncode), told.stderr)


MAIN = '#include "kernel.h"\n#include "kernel_cfg.h"\nvoid main_task(intptr_t exinf)\n{\n    wai_sem(S);\n%s}\n'
CFG = "PROCESSORS(1);\nDEF_CLASS(C1, 1, {1});\nCLASS(C1) {\n  CRE_TSK(MAIN, {TA_ACT,\n    /* first */ %s, %s, 5, %s, NULL});\n  CRE_SEM(S, {TA_NULL, 0, 2});\n}\n"
# What a project names and does not have: a line of C, the exinf, the function and the stack's size in the configuration; and what make tells, or nothing.
MISSING = {
    "nothing": ("", "1", "main_task", "4096", ""), "exinf": ("", "MISSING + 1", "main_task", "4096", "machine.cfg:5:17: error: "), "function": ("", "1", "other_task", "4096", "machine.cfg:4: error: no file of the project has the function other_task"),
    "call": ("    loc_mtx(1);\n", "1", "main_task", "4096", "main.c:6: error: loc_mtx is not in the profile"), "size": ("", "1", "main_task", "STACK_SIZE", ""),
    "two calls": ("    get_tim(0);\n    wai_sem(S);\n    ref_tsk(1, 0);\n", "1", "main_task", "4096", "main.c:8: error: ref_tsk is not in the profile"),
    "own call": ("    ref_sem(1);\n}\nint ref_sem(int semid)\n{\n    return semid;\n", "1", "main_task", "4096", ""),
}


def names_at_fault(test):
    """A name that is nowhere is told with the line that has it, of the user's own file."""
    for cc in test.compilers:
        for name, (line, exinf, function, size, wanted) in MISSING.items():
            if cc != test.compilers[0] and not test.full and name not in ("exinf", "call"):
                continue
            folder = test.out / ("missing %s" % name)
            shutil.rmtree(folder, ignore_errors=True)
            folder.mkdir(parents=True)
            (folder / "main.c").write_text(MAIN % line)
            (folder / "machine.cfg").write_text(CFG % (exinf, function, size))
            (folder / "Makefile").write_text("FMPHOST_CFG = machine.cfg\nFMPHOST_LIBRARY = %s/libfmphost.a\ninclude %s/fmphost.mk\n" % (test.room(cc), HOST))
            told = subprocess.run(["make", "-s", "-C", str(folder), "CC=" + cc, "FMPSIM=" + test.fmpsim, "FMPHOST_FMP=" + test.library], capture_output=True, text=True)
            well = (told.returncode == 0) == (wanted == "") and wanted in told.stderr and "kernel_cfg.c" not in told.stderr
            test.check(well, "%s: a project without its %s: status %d" % (cc, name, told.returncode), told.stderr)


def project(test, name, program, line, words, wanted):
    """Two lines in a project's Makefile, in a folder whose path has a blank."""
    folder = test.out / name
    shutil.rmtree(folder, ignore_errors=True)
    shutil.copytree(HOST / "programs" / program, folder)
    (folder / "Makefile").write_text("%s\ninclude %s/fmphost.mk\n" % (line, HOST))
    run = told = subprocess.run(["make", "-s", "-C", str(folder), "CC=" + test.compilers[0], "FMPSIM=" + test.fmpsim], capture_output=True, text=True)
    if told.returncode == 0:
        run = subprocess.run([str(folder / "fmphost-out/run"), *words], capture_output=True, text=True, env=dict(os.environ, FMPSIM=test.fmpsim))
    test.check(run.returncode == 0 and wanted in run.stderr, "the Makefile of " + name, told.stderr + run.stderr)


def all_of_it(test):
    if not test.compilers:
        return
    programs_at_fault(test)
    words_at_fault(test)
    replays_at_fault(test)
    fmpsim_at_fault(test)
    generator_at_fault(test)
    names_at_fault(test)
    project(test, "a project", "queue", "FMPHOST_CFG = machine.cfg", ["--every-order"], "nothing found")
    project(test, "a project of TOPPERS", "sample1", "FMPHOST_TOPPERS = sample1.cfg -I target", ["--seeds", "1..3", "--serial", "caQ", "--races", "none", "--refused", "none", "--ticks", "100"], "3 seeds")
