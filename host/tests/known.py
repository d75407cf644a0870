"""Programs whose findings are known: by the rules, and by the lines of C that stand in them."""
import os
import re
import subprocess
from pathlib import Path

PROGRAMS = Path(__file__).resolve().parent.parent / "programs"


def line_of(name, text, nth=1):
    """`count.c:24`: where this stands in the program, for the nth time."""
    for path in sorted((PROGRAMS / name).glob("*.c")):
        found = [number for number, line in enumerate(path.read_text().splitlines(), 1) if text in line]
        if len(found) >= nth:
            return "%s:%d" % (path.name, found[nth - 1])
    raise ValueError("%s is not in %s" % (text, name))


# Program, words, status, and what has to stand in what is told: `nothing found`, a claim, who waits, or a race with its variable and both places.
def rows():
    total, busy = line_of("count", "total++"), "suspend.c"
    beats = [line_of("handler", "beats++", 1), line_of("handler", "beats++", 2)]
    deadlock = "PHIL1 waits for ever in wai_sem(FORK2); PHIL2 waits for ever in wai_sem(FORK1)"
    yield "count", ["--seeds", "1..20"], 5, ["race on total, 4 bytes", "count_task " + total]
    yield "count", ["--every-order"], 5, ["race on total, 4 bytes", "count_task " + total]
    yield "count", ["--every-order", "--races", "none"], 5, ["total == 4 is false, in JUDGE"]
    yield "count", ["--seeds", "1..50", "--races", "none"], 5, ["total == 4 is false, in JUDGE"]
    yield "count:LOCKED", ["--every-order"], 0, ["nothing found"]
    yield "count:SEMAPHORE", ["--every-order"], 0, ["nothing found"]
    yield "count:LOCKED", ["--seeds", "1..30"], 0, ["nothing found"]
    yield "count:VOLATILE", ["--every-order"], 5, ["total == 4 is false, in JUDGE"]
    yield "count:VOLATILE", ["--every-order", "--volatile"], 5, ["race on total, 4 bytes"]
    yield "handler", ["--seeds", "1..20"], 5, ["race on beats, 4 bytes", "clock_handler " + beats[0], "main_task " + beats[1]]
    yield "handler:LOCKED", ["--every-order", "--ticks", "2"], 0, ["nothing found"]
    yield "handler", ["--seeds", "1..20", "--races", "between"], 0, ["nothing found"]
    yield "suspend:one", ["--every-order", "--ticks", "1"], 0, ["nothing found"]
    yield "suspend:two", ["--seeds", "1..200"], 5, ["race on pair", "CTRL on P1", "COPY on P2", "ctrl_task " + busy, "copy_task " + busy]
    yield "suspend:two", ["--every-order", "--ticks", "1", "--races", "none"], 5, ["first == second is false, in COPY"]
    yield "stale_wakeup", ["--every-order", "--ticks", "2"], 5, ["race on a variable on CLIENT's stack", "SERVER on P2", "CLIENT on P1"]
    yield "stale_wakeup", ["--every-order", "--ticks", "2", "--races", "none"], 5, ["answer == 2 * i is false, in CLIENT"]
    yield "one_message_behind", ["--every-order"], 5, ["DISPLAY waits for ever in slp_tsk()"]
    yield "one_message_behind", ["--seeds", "1..100"], 5, ["DISPLAY waits for ever in slp_tsk()"]
    yield "one_message_behind", ["--every-order", "--may-wait", "DISPLAY"], 0, ["nothing found"]
    yield "ring", ["--seeds", "1..20", "--ticks", "4"], 5, ["race on count, 4 bytes", "UART on P1", "READER on P1"]
    yield "ring", ["--seeds", "1..60", "--ticks", "4", "--races", "none"], 6, ["what comes after 4 ticks of a processor: READER waits in wai_sem(RECEIVED) (seed 1, and 59 more)"]
    yield "ring", ["--seeds", "1..60", "--ticks", "4", "--races", "none", "--may-wait", "READER"], 0, ["nothing found within 4 ticks, each of 60 seeds to its end"]
    yield "philosophers:two", ["--every-order"], 5, [deadlock]
    yield "philosophers:two", ["--all-orders"], 5, [deadlock]
    yield "philosophers:three", ["--places"], 5, ["PHIL1 waits for ever in wai_sem(FORK2); PHIL2 waits for ever in wai_sem(FORK3); PHIL3 waits for ever in wai_sem(FORK1)"]
    yield "philosophers:five", ["--every-order"], 5, ["PHIL5 waits for ever in wai_sem(FORK1)"]
    yield "philosophers:two+POLITE", ["--every-order"], 0, ["nothing found"]
    yield "philosophers:three+POLITE", ["--places"], 0, ["nothing found"]
    yield "philosophers:two", ["--preemptions", "0"], 6, ["orders in which a processor that could go on is left more than 0 times", "but not all was looked at"]
    yield "queue", ["--preemptions", "100"], 0, ["nothing found, every order"]
    yield "philosophers:two", ["--preemptions", "1"], 5, [deadlock]
    yield "producer", ["--every-order"], 0, ["nothing found"]
    yield "queue", ["--all-orders"], 0, ["nothing found"]
    yield "queue", ["--places"], 0, ["nothing found"]
    yield "signatures", ["--every-order", "--ticks", "1"], 0, ["nothing found"]
    yield "endless:DEADLOCK", ["--places"], 5, ["COMM waits for ever, whatever the order is from here on"]
    yield "endless", ["--places"], 0, ["nothing found"]
    yield "endless", ["--seeds", "1..5"], 6, ["what comes after 2000 turns: COMM goes on, LOG goes on, IDLE goes on (seed 1, and 4 more)", "5 cut at 2000 turns: nothing found, but"]
    yield "endless", ["--every-order", "--turns", "40", "--runs", "10"], 6, ["what comes after 40 turns: COMM goes on", "nothing found, but not all was looked at"]
    yield "producer", ["--every-order", "--runs", "3"], 6, ["orders after the first 3", "cut at 3 orders: nothing found, but not all was looked at"]
    yield "sample1", ["--seeds", "1..20", "--serial", "cas3sQ", "--ticks", "12"], 5, ["race on message", "MAIN_TASK on P1 writes it: main_task sample1.c"]
    words = ["--seeds", "1..20", "--serial", "caAGwWQ", "--races", "between"]
    yield "sample1", [*words, "--ticks", "12", "--refused", "none"], 6, ["MAIN_TASK waits in dly_tsk(0)"]
    yield "sample1", [*words, "--ticks", "100", "--refused", "none"], 0, ["nothing found"]
    yield "sample1", [*words, "--ticks", "100"], 5, ["wup_tsk(TASK1_1) answers E_OBJ in MAIN_TASK, which has it logged: svc_perror sample1.c:"]
    yield "signatures", ["--seeds", "1..40", "--stalls", "30", "--late", "20"], 0, ["nothing found"]
    yield "one_message_behind", ["--seeds", "1..300", "--stalls", "50", "--late", "10"], 5, ["DISPLAY waits for ever in slp_tsk()"]


# Programs that end as far as was looked, and whether that is all: what time brings later, a handler or a wait that is left, what was cut. A place
# where ticks were cut off is no end, so nobody waits for ever there.
def extents():
    worker = ": WORKER waits in dly_tsk(100)"
    yield "later:wait", ["--every-order"], 5, ["waited == 0 is false, in WORKER", "order 1\n"]
    yield "later:wait", ["--seeds", "1..5"], 5, ["waited == 0 is false, in WORKER"]
    yield "later:wait", ["--every-order", "--ticks", "0"], 6, ["what comes after 0 ticks of a processor" + worker]
    yield "later:two", ["--every-order"], 6, ["what comes after 3 ticks of a processor" + worker]
    yield "later:two", ["--seeds", "1..5"], 6, ["what comes after 3 ticks of a processor" + worker + " (seed 1, and 4 more)"]
    yield "later:two", ["--every-order", "--ticks", "101"], 5, ["waited == 0 is false, in WORKER"]
    yield "later:period", ["--every-order", "--ticks", "3"], 0, ["nothing found within 3 ticks, every order"]
    yield "later:period", ["--every-order", "--ticks", "4"], 5, ["++periods < 4 is false, in CLOCK"]
    yield "later:wakes", ["--every-order", "--ticks", "0"], 6, ["WORKER waits in slp_tsk(), CLOCK has not run", "handlers that had ticks left and never ran: CLOCK"]
    yield "later:wakes", ["--every-order", "--ticks", "4"], 0, ["nothing found within 4 ticks, every order"]
    yield "later:wakes", ["--places"], 6, ["what comes after 3 ticks of a processor: WORKER waits in slp_tsk()"]
    yield "later:wakes", ["--places", "--ticks", "any"], 0, ["nothing found within any ticks, every place"]
    yield "later:wakes", ["--every-order", "--patience", "15"], 5, ["WORKER waits for ever in slp_tsk()"]
    yield "later:deadlock", ["--every-order", "--ticks", "1"], 6, ["ONE waits in wai_sem(B), TWO waits in wai_sem(A)"]
    yield "later:deadlock", ["--places", "--ticks", "any"], 5, ["ONE waits for ever, whatever the order is from here on"]
    yield "later:deadlock", ["--every-order", "--ticks", "1", "--may-wait", "ONE,TWO"], 0, ["nothing found within 1 tick, every order"]
    yield "later:alarm", ["--every-order"], 6, ["LATE has not run", "handlers that had ticks left and never ran: LATE"]
    yield "later:memory", ["--seeds", "1"], 0, ["nothing found, each of 1 seeds to its end"]
    yield "later:large", ["--seeds", "1"], 6, ["accesses beyond the first 131072 words of memory"]
    yield "later:unused", ["--every-order", "--may-wait", "WORKER"], 0, ["never ran: tasks SPARE; handlers LATE; functions long_wait_task, ", "never_called", "spare_task"]
    yield "count:LOCKED", ["--seeds", "1..3"], 0, ["nothing found, each of 3 seeds to its end"]


# What is right, and what is beside it and is not: memory that the allocator hands over, C11's fences, a handler that was stopped, a variable that is
# shared on purpose, a server that waits for its next request.
def no_false():
    serves = "SERVER waits for ever in rcv_dtq(REQUESTS); right if it only serves: --may-wait SERVER\n"
    yield "handover", ["--every-order"], 0, ["nothing found, every order"]
    yield "handover", ["--seeds", "1..50"], 0, ["nothing found, each of 50 seeds to its end"]
    yield "handover:USED", ["--every-order"], 5, ["race on 0x", "GIVER on P1 frees it: give_task handover.c", "TAKER on P2 reads it: take_task handover.c"]
    for way in ("", ":BARRIER", ":ATOMIC", ":CHANGED"):
        yield "fences" + way, ["--every-order"], 0, ["nothing found, every order"]
    for way in (":RELEASE_ALONE", ":ACQUIRE_ALONE", ":BARRIER+RELEASE_ALONE", ":BARRIER+ACQUIRE_ALONE", ":LATE", ":OVERWRITTEN"):
        yield "fences" + way, ["--every-order"], 5, ["race on data, 4 bytes", "WRITER on P1 writes it", "READER on P2 reads it"]
    yield "stopped:own", ["--every-order", "--ticks", "2"], 0, ["nothing found within 2 ticks, every order"]
    yield "stopped:own+ALARM", ["--every-order", "--ticks", "2"], 0, ["nothing found within 2 ticks, every order"]
    yield "stopped:own+ALARM+SEEN", ["--every-order", "--ticks", "2"], 0, ["nothing found within 2 ticks, every order"]
    yield "stopped:other+ALARM+SEEN", ["--every-order", "--ticks", "2"], 5, ["race on beats, 4 bytes", "BELL on P1 writes it", "MAIN on P2"]
    yield "stopped:other", ["--every-order", "--ticks", "2"], 5, ["race on beats, 4 bytes", "CLOCK on P1 writes it", "MAIN on P2"]
    yield "stopped:own+NOT_STOPPED", ["--every-order", "--ticks", "2"], 5, ["race on beats, 4 bytes"]
    yield "count", ["--every-order", "--shared", "total"], 5, ["total == 4 is false, in JUDGE", "not: race"]
    yield "suspend:two", ["--every-order", "--ticks", "1", "--shared", "pair"], 5, ["first == second is false, in COPY", "not: race"]
    yield "server", ["--every-order"], 5, [serves]
    yield "server", ["--seeds", "1..5"], 5, [serves]
    yield "server", ["--every-order", "--may-wait", "SERVER"], 0, ["nothing found"]
    yield "server:LOST", ["--every-order"], 5, ["SERVER waits for ever in rcv_dtq(REQUESTS); CLIENT waits for ever in rcv_dtq(ANSWERS)\n", "not: right if"]
    yield "philosophers:two", ["--every-order"], 5, ["PHIL1 waits for ever in wai_sem(FORK2); PHIL2 waits for ever in wai_sem(FORK1)\n", "not: right if"]


# What is seen of memory: blocks of pools, what a task that was ended left half done, a local variable whose address is given away.
def seen():
    yield "pools", ["--every-order"], 0, ["nothing found, every order"]
    yield "pools:KEPT", ["--every-order"], 5, ["block 1 of POOL, which GIVER got, is never given back"]
    yield "pools:AFTER", ["--every-order"], 5, ["TAKER writes block 0 of POOL, which is not handed out: take_task pools.c"]
    yield "pools:BEYOND", ["--every-order"], 5, ["GIVER writes beyond block 0 of POOL, byte 20 of 20: give_task pools.c"]
    yield "ended", ["--every-order", "--ticks", "1"], 5, ["first == second is false, in WORKER"]
    yield "ended", ["--places", "--ticks", "1"], 5, ["first == second is false, in WORKER"]
    yield "ended:RIGHT", ["--every-order", "--ticks", "1"], 0, ["nothing found within 1 tick, every order"]
    yield "locals", ["--every-order", "--may-wait", "GIVER"], 5, ["race on a variable on GIVER's stack", "GIVER on P1 writes it", "TAKER on P2 reads it"]
    yield "locals:STATIC", ["--every-order", "--may-wait", "GIVER"], 5, ["race on ", "number", "GIVER on P1 writes it", "TAKER on P2 reads it"]
    yield "locals:STATIC", ["--every-order", "--may-wait", "GIVER", "--shared", "number"], 0, ["nothing found, every order"]
    yield "count:LOCKED", ["--seeds", "1"], 0, ["not: not seen"]
    for words in (["--every-order"], ["--places"]):
        yield "unseen", words, 5, ["race on data, 4 bytes", "ONE on P1 writes it", "TWO on P2 reads it"]
        yield "unseen", [*words, "--races", "none"], 0, ["nothing found"]
        yield "unseen:ALWAYS_AFTER", words, 0, ["nothing found"]
    yield "unseen:handed", ["--places"], 5, ["race on data, 4 bytes", "ONE on P1 writes it", "TWO on P2 reads it"]
    yield "unseen:SERIAL", ["--places", "--ticks", "any", "--serial", "aaaaab"], 5, ["last != 'b' is false, in ONE"]


# What refused does by HOW, what --refused says, and what is told: where nothing, the status is 0.
REFUSED = [
    ("id", [], "wai_sem(99) answers E_ID in TRY, which does not look at it: try_task refused.c:"), ("void", [], "sig_sem(99) answers E_ID"),
    ("can", [], "can_wup(99) answers E_ID"), ("parameter", [], "chg_pri(TSK_SELF, 99) answers E_PAR"), ("use", [], "unl_spn(LOCK) answers E_ILUSE"),
    ("locked", [], "dly_tsk(1) answers E_CTX in TRY, which does not look at it"), ("object", [], None), ("object", ["all"], "rel_wai(OTHER) answers E_OBJ"),
    ("object", ["E_PAR,E_OBJ"], "rel_wai(OTHER) answers E_OBJ"), ("object", ["E_PAR"], None), ("id", ["none"], None), ("id", ["E_OBJ"], None),
    ("logged object", [], "rel_wai(OTHER) answers E_OBJ in TRY, which has it logged: svc_perror refused.c:"), ("logged object", ["none"], None),
    ("logged timeout", [], "pol_sem(SEMAPHORE) answers E_TMOUT in TRY, which has it logged"), ("logged well", [], None), ("logged expected", [], None),
    ("compared", [], None), ("negative", [], None), ("kept", [], None), ("returned", [], None), ("counted", [], None), ("asserted", [], None),
    ("compared", ["all"], None), ("expected", [], None), ("expected", ["all"], None), ("expected otherwise", [], "wai_sem(99) answers E_ID"),
]


def refused(test):
    for cc in test.compilers:
        for how, said, wanted in REFUSED:
            words = ["--every-order"] + (["--refused", *said] if said else [])
            ended, told = test.run(cc, "refused", *words, env={"HOW": how})
            well = ended == 5 and wanted in told if wanted else ended == 0
            test.check(well, "%s: refused, HOW=%s %s: status %s" % (cc, how, " ".join(said), ended), told)


WRITE = ["memcpy", "memmove", "memset", "strcpy", "stpcpy", "strncpy", "strcat", "strncat", "sprintf", "snprintf", "vsnprintf", "strtol"]
READ = ["memcmp", "memchr", "strlen", "strnlen", "strcmp", "strncmp", "strcasecmp", "strncasecmp", "strchr", "strrchr", "strstr", "strspn", "strcspn", "strpbrk",
        "atoi", "strtoul", "strdup", "strndup", "strcpy from", "memcpy from", "snprintf of", "syslog"]


def texts(test):
    """Each function of the C library that reads or writes a text races as an access of the calling line does; and what is not seen is named."""
    for cc in test.compilers:
        for how in WRITE + READ:
            ended, told = test.run(cc, "texts", "--every-order", env={"HOW": how})
            wanted = ["race on text", "WRITER on P1 writes it: %s texts.c" % ("writes" if how in WRITE else "write_task")] + ["READER on P2 reads it"]
            if how == "vsnprintf":
                wanted[1] = "WRITER on P1 writes it: printed texts.c"
            test.check(ended == 5 and all(text in told for text in wanted), "%s: texts, HOW=%s: status %s" % (cc, how, ended), told)
        ended, told = test.run(cc, "texts", "--every-order", "--all", env={"HOW": "strlen"})
        test.check("fmphost: not seen: what these do with memory: qsort\n" in told, "%s: what is not seen" % cc, told)


# clang calls no hook for a field of a function's own structure, though its address is given away.
GCC_ALONE = ["race on a variable on CLIENT's stack"]


def is_told(text, told):
    """`not: TEXT` has not to be told."""
    return text[5:] not in told if text.startswith("not: ") else text in told


def findings(test):
    for cc in test.compilers:
        for program, words, status, wanted in [*rows(), *extents(), *no_false(), *seen()]:
            if cc == "clang" and wanted[0] in GCC_ALONE:
                continue
            ended, told = test.run(cc, program, *words)
            well = ended == status and all(is_told(text, told) for text in wanted) and ("race on" in told) == ("race on" in wanted[0])
            test.check(well, "%s: %s %s: status %s in place of %d" % (cc, program, " ".join(words), ended, status), told)


# Clean programs with a timer, and how many orders they may have at most: a tick that nobody sees makes none.
FEW = [("first", [], 400), ("first:SPIN", [], 400), ("first:SPIN", ["--ticks", "10"], 400)]


def few(test):
    for cc in test.compilers[:1]:
        for program, words, most in FEW:
            ended, told = test.run(cc, program, "--every-order", *words)
            orders = re.search(r"fmphost: (\d+) orders?, ", told)
            well = ended == 0 and "nothing found within" in told and orders and int(orders[1]) <= most
            test.check(well, "%s: %s %s in at most %d orders: status %s" % (cc, program, " ".join(words), most, ended), told)


def at_terminal(test, cc, program, *words):
    """What a program writes on standard error where that is a terminal."""
    here, there = os.openpty()
    path = str(test.room(cc) / program / "run")
    with subprocess.Popen([path, *words], env=dict(os.environ, FMPSIM=test.fmpsim), stderr=there, stdout=subprocess.DEVNULL) as run:
        os.close(there)
        told = b""
        while True:
            try:
                some = os.read(here, 4096)
            except OSError:  # the terminal is closed on its other side
                break
            told += some
            if not some:
                break
        run.wait()
    os.close(here)
    return told.decode()


def progress(test):
    """Where a search takes seconds it says how far it is: at a terminal, and elsewhere where that is asked."""
    for cc in test.compilers[:1]:
        words = ["--seeds", "1..200"]  # some four seconds where nothing else runs
        _, told = test.run(cc, "endless", *words, "--progress")
        test.check(re.search(r"^fmphost: \d+ seeds so far, \d+ turns, \d+ s$", told, re.M), "%s: --progress" % cc, told)
        _, told = test.run(cc, "endless", *words)
        test.check("so far" not in told, "%s: no progress without a terminal" % cc, told)
        told = at_terminal(test, cc, "endless", *words)
        test.check(re.search(r"\rfmphost: \d+ seeds so far, [^\n\r]*\x1b\[K", told) and "\r\x1b[Kfmphost: not looked at" in told, "%s: progress at a terminal" % cc, told)


def all_calls(test):
    """Each of the calls that fmpsim lists is made in some run of calls77, and of each that has an argument some are refused."""
    listed = subprocess.run([test.fmpsim, "list"], capture_output=True, text=True).stdout
    calls = dict(re.findall(r"^(\w+)\((.*)\)$", listed, re.M))
    made, refused = set(), set()
    cc = test.compilers[0] if test.compilers else None
    trace = test.out / "calls77.trace"
    for mix in range(24 if cc else 0):
        for seed in range(1, 4):
            test.run(cc, "calls77", "--seeds", seed, "--races", "none", "--refused", "none", "--ticks", "12", "--trace", trace, env={"MIX": str(mix)})
            text = trace.read_text()
            made |= set(re.findall(r"^\d+ P\d \S+ (\w+)", text, re.M))
            refused |= set(re.findall(r"^\d+ P\d \S+ (\w+)\([^)]*\) E_(?:ID|PAR|CTX|OBJ|NOEXS|ILUSE)", text, re.M))
    if cc:
        test.check(len(calls) == 77 and made == {*calls, "ret_hdr", "tick", "ipi"}, "calls77 makes all calls", "not made: %s" % sorted({*calls} - made))
        # those that no context and no argument refuses
        never = {name for name, arguments in calls.items() if not arguments}
        test.check(not {*calls} - never - refused, "calls77 has each call refused", "never refused: %s" % sorted({*calls} - never - refused))


JUDGED = {
    "sample1": (60, ["--serial", "cas3sbwlumQ"]), "producer": (100, []), "count:LOCKED": (100, []), "count:SEMAPHORE": (100, []), "suspend:one": (100, []),
    "suspend:two": (100, []), "stale_wakeup": (100, []), "ring": (100, []), "handler:LOCKED": (40, []), "philosophers:three": (100, []),
    "one_message_behind": (60, []), "calls77": (60, []), "later:wait": (20, []), "later:two": (20, []), "later:wakes": (20, []),
}


def judged(test):
    """fmpsim check says yes to the trace of each run: in full more than a thousand. And one that says no is told."""
    runs = 0
    for cc in test.compilers:
        for program, (most, words) in JUDGED.items():
            seeds = most if test.full else 4
            ended, told = test.run(cc, program, "--seeds", "1..%d" % seeds, "--races", "none", "--refused", "none", "--all", "--check", "--ticks", "12", *words)
            test.check(ended in (0, 5, 6) and "%d seeds" % seeds in told, "%s: fmpsim check on %s" % (cc, program), told)
            runs += seeds
    print("judged: the traces of %d runs" % runs)
    liar = test.out / "liar"
    liar.write_text("#!/bin/sh\n[ \"$1\" != check ] || { echo no; exit 1; }\nexec '%s' \"$@\"\n" % test.fmpsim)
    liar.chmod(0o755)
    for cc in test.compilers[:1]:
        ended, told = test.run(cc, "queue", "--seeds", "1", "--check", fmpsim=str(liar))
        test.check(ended == 3 and "fmpsim check says no of" in told, "a trace that is refused is told", told)


def files(test, cc, program, words, names):
    """What these words write: trace, order and page."""
    paths = [test.out / name for name in names]
    for path in paths:
        path.unlink(missing_ok=True)
    ended, told = test.run(cc, program, *words, *[word for pair in zip(("--trace", "--order", "--view"), paths) for word in pair])
    return ended, told, [path.read_bytes() if path.exists() else None for path in paths]


def summary_less(told):
    return [line for line in told.splitlines() if " turns, " not in line]


def again(test):
    """The same seed writes the same bytes again, alone or beside others; an order is played again, and its picture is fmpsim view's."""
    for cc in test.compilers:
        for program, words in (("suspend:two", ["--seeds", "1..200"]), ("stale_wakeup", ["--seeds", "1..200", "--races", "none"]), ("queue", ["--seeds", "7"]),
                               ("one_message_behind", ["--every-order"]), ("count", ["--every-order", "--races", "none"]), ("philosophers:three", ["--places"]),
                               ("suspend:two", ["--every-order", "--ticks", "1", "--races", "none"]), ("endless:DEADLOCK", ["--places"]),
                               ("later:period", ["--every-order", "--ticks", "4"])):
            name = "%s: %s %s" % (cc, program, " ".join(words))
            ended, told, one = files(test, cc, program, words, ["one.trace", "one.order", "one.html"])
            beside = ["--jobs", "3"] if words[0] == "--seeds" else []
            other = files(test, cc, program, words + beside, ["other.trace", "other.order", "other.html"])
            test.check(None not in one and other[2] == one and ended == other[0] and summary_less(told) == summary_less(other[1]), name + " twice", told + other[1])
            races = ["--races", "none"] if "none" in words else []
            ended_again, told_again, replayed = files(test, cc, program, ["--replay", test.out / "one.order", *races], ["other.trace", "other.order", "other.html"])
            whole = "whatever the order" not in told and "cut at" not in told
            test.check(replayed == one and (not whole or ended_again == ended), name + " replayed", told_again)
            configuration = PROGRAMS / program.split(":")[0] / ("machine.cfg" if not re.search(":[a-z]", program) else re.search(":([a-z]+)", program)[1] + ".cfg")
            if program.startswith("later"):  # a trace has each tick by itself
                ended_again, told_again, replayed = files(test, cc, program, ["--replay", test.out / "one.trace"], ["other.trace", "other.order", "other.html"])
                test.check(replayed[0] == one[0] and ended_again == ended, name + ", its trace replayed", told_again)
            page = subprocess.run([test.fmpsim, "view", str(configuration), str(test.out / "one.trace")], capture_output=True).stdout
            test.check(page == one[2] and page.startswith(b"<!"), name + " viewed")
