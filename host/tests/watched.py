"""In full: the host as AddressSanitizer, UndefinedBehaviorSanitizer and valgrind see it."""
import os
import re
import shutil
import subprocess

RUNS = [("suspend:two", ["--seeds", "1..30", "--races", "none", "--all"]), ("stale_wakeup", ["--every-order", "--ticks", "1", "--races", "none", "--runs", "60"]),
        ("signatures", ["--every-order", "--ticks", "1"]), ("endless:DEADLOCK", ["--places"]), ("sample1", ["--seeds", "1..5", "--serial", "cas3sbwlumQ", "--all", "--refused", "none"]),
        ("calls77", ["--seeds", "1..10", "--races", "none", "--refused", "none", "--all"])]


def sanitized(test, cc):
    """The library has them, and not the program: that one's accesses call the host's hooks already."""
    out = test.out / (cc + "-sanitized")
    words = "FMPHOST_SANITIZERS=-fsanitize=address,undefined -fno-sanitize-recover=undefined"
    for program, run in RUNS:
        told = test.make(cc, words, "P=" + program, out=out)
        ended, said = test.run(cc, program, *run, out=out, seconds=600, env={"ASAN_OPTIONS": "detect_leaks=0"})
        # each run warns once that swapcontext may lead to false alarms
        said = "\n".join(line for line in said.splitlines() if "ASan doesn't fully support makecontext" not in line)
        clean = told.returncode == 0 and ended in (0, 5, 6) and not re.search(r"Sanitizer|runtime error|^==\d+==", said, re.M)
        test.check(clean, "%s: %s with AddressSanitizer and UndefinedBehaviorSanitizer: status %s" % (cc, program, ended), told.stderr + said)


def with_valgrind(test, cc):
    for program, run in (RUNS[2], ("queue", ["--seeds", "1..3"])):
        path = str(test.room(cc) / program.replace(":", "-") / "run")
        command = ["valgrind", "-q", "--trace-children=yes", "--trace-children-skip=%s,*/sh" % test.fmpsim, "--error-exitcode=99", path, *run]
        told = subprocess.run(command, capture_output=True, text=True, env=dict(os.environ, FMPSIM=test.fmpsim), timeout=1200)
        test.check(told.returncode in (0, 5) and not re.search(r"^==\d+==", told.stderr, re.M), "%s: %s with valgrind: status %d" % (cc, program, told.returncode), told.stderr)


def all_of_it(test):
    if not test.full:
        return
    for cc in test.compilers:
        sanitized(test, cc)
    if not shutil.which("valgrind"):
        test.left_out("host with valgrind", "there is no valgrind")
    elif test.compilers:
        with_valgrind(test, test.compilers[0])
