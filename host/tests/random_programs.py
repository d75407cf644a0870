"""Small programs whose steps are letters (programs/steps): the same ends by every order as by all, and no race within one lock."""
import random
import re

TASK = "swplutckdexyxyxyABWSZzDnrRmMUVTLfgGabqCP"
HANDLER = "xyIJKOQ"
WITHIN_A_LOCK, LOCKED_HANDLER = "XXXXXswpdevABWSZzDRmMUVTLfgGabqCP", "EEIJK"
# Kinds of machines: two processors, one timer for both, three processors, and tasks that wait in one queue.
WAYS = ["", ":global", ":three", ":queue"]
# Programs for what turns touch that is in no state, and for what random ones meet rarely: machine, steps, ticks. The first are few orders.
SMALL = [
    (":global", "Zx||y|x|y", 2), (":global", "ay||Zx||x", 2), (":global", "Dx||Zy||", 2), (":global", "Z||Zx||x", 2), (":three", "s||wx|wx|", 0),
    (":queue", "s||wx|wx|", 0), (":queue", "sC||wx|w|", 0), (":queue", "n||rx|r|", 0), (":queue", "f||gx|gx|", 0), (":queue", "sx||w|w|", 0), ("", "cAxk|y|x|y|", 1),
    ("", "w||zs||", 1), ("", "Cx||Zx||", 1), (":queue", "f||g|L", 0), (":queue", "s||w|L", 0),
]
LARGE = [
    (":three", "Wx||Sx||", 0), (":three", "Bx||x||", 0), (":three", "m||Mx|x|", 0), (":three", "Px||x||", 0), (":queue", "w||w|ssx|", 0),
    ("", "dA|y|xB|x|", 0), ("", "UxV||xy|y|", 0), ("", "Tx|x|Ay||", 0), ("", "luxy||tuy||OQ", 0), ("", "Zx||L||K", 2), ("", "Zx||W||", 2), ("", "z||sy||", 2),
    (":ready", "xy|y|A|1", 0),
]
# Of places: that one waits before the other is in no state.
PLACES = [("", "As|w|w|", 0)]


def steps(chance, letters, most):
    return "".join(chance.choice(letters) for _ in range(chance.randint(0, most)))


def ends(test, cc, way, text, words):
    """How many orders, how many ends and their sum; whether that is all; and what was told."""
    _, told = test.run(cc, "steps" + way, "--races", "none", "--refused", "none", "--ends", "--turns", "300", *words, env={"OPS": text})
    last = told.strip().splitlines()[-1] if told.strip() else ""
    found = re.search(r"(\d+) (?:order|step)s?, .*?(\d+) ends ([0-9a-f]+)", last)
    if not found:
        return None, False, told
    return (int(found.group(2)), found.group(3)), "cut at" not in last, told


def same_ends(test, cc, way, text, ticks, mode, most):
    """None where there are too many orders to be gone through."""
    mine, whole, told = ends(test, cc, way, text, [mode, "--ticks", ticks, "--runs", "400" if mode == "--every-order" else "4000"])
    if mine is None:
        return False, told
    if not whole:
        return None, ""
    all_of_them, whole, told_all = ends(test, cc, way, text, ["--all-orders", "--ticks", ticks, "--runs", most])
    if all_of_them is not None and not whole:
        return None, ""
    return mine == all_of_them, told + told_all


def against_all(test, cc, seed, programs, mode, most):
    chance, compared, skipped = random.Random(seed), 0, 0
    while compared < programs and skipped < 4 * programs:
        few = "".join(chance.sample(TASK, 6)) + "xy"  # few kinds of steps in one program meet more often
        text = "|".join([steps(chance, few, 4), steps(chance, few, 3), steps(chance, few, 4), steps(chance, few, 2), steps(chance, HANDLER, 2)])
        way, ticks = chance.choice(WAYS), chance.choice("0012")
        well, told = same_ends(test, cc, way, text, ticks, mode, most)
        if well is None:
            skipped += 1
            continue
        compared += 1
        test.check(well, "%s: steps%s, OPS='%s' --ticks %s: %s has the ends of --all-orders" % (cc, way, text, ticks, mode), told)
    print("%s of %d random programs has all ends; %d were too large" % (mode, compared, skipped), flush=True)


def directed(test):
    for way, text, ticks in SMALL + (LARGE if test.full else []):
        for cc in test.compilers if test.full else test.compilers[:1]:
            well, told = same_ends(test, cc, way, text, str(ticks), "--every-order", "6000")
            test.check(well, "%s: steps%s, OPS='%s' --ticks %d: --every-order has the ends of --all-orders" % (cc, way, text, ticks), told)
    directed_places(test)
    patient(test)


# Steps, --patience, and who waits for more ticks than that in some order, or nobody. A `Z` lasts two ticks, since a timeout of 1 ends at the second. T4 is
# activated behind six ticks, and waits for one Z or for two; T3 begins to wait before or behind two of them, or
# behind two ticks of its own processor: then at most two more come, which a search has to try though they are another processor's.
PATIENCE = [("ZZs||Zw|", "1", "T3"), ("ZZs||Zw|", "2", None), ("ZZZBZs|||w", "2", None), ("ZZZBZZs|||w", "2", "T4"), ("ZZs||w|", "3", "T3"), ("ZZs||w|", "4", None)]


def patient(test):
    for text, ticks, who in PATIENCE:
        for cc in test.compilers if test.full else test.compilers[:1]:
            for mode in ("--every-order", "--all-orders", "--places"):
                ended, told = test.run(cc, "steps", mode, "--ticks", 9, "--patience", ticks, "--races", "none", env={"OPS": text})
                well = ended == 5 and who + " waits for ever in wai_sem(S1)" in told if who else ended == 0
                test.check(well, "%s: steps, OPS='%s' %s --patience %s: status %s" % (cc, text, mode, ticks, ended), told)


def directed_places(test):
    for way, text, ticks in PLACES:
        for cc in test.compilers:
            well, told = same_ends(test, cc, way, text, str(ticks), "--places", "6000")
            test.check(well, "%s: steps%s, OPS='%s' --ticks %d: --places has the ends of --all-orders" % (cc, way, text, ticks), told)


def no_race_within_a_lock(test, cc, seed, programs):
    chance, runs = random.Random(seed), 0
    for _ in range(programs):
        text = "|".join([steps(chance, WITHIN_A_LOCK, n) for n in (5, 4, 5, 3)] + [steps(chance, LOCKED_HANDLER, 2)])
        way = chance.choice(WAYS)
        for words in (["--every-order", "--runs", "150" if test.full else "40", "--ticks", "1"],
                      ["--seeds", "1..20" if test.full else "1..5", "--all", "--ticks", "3"]):
            ended, told = test.run(cc, "steps" + way, "--turns", "300", "--refused", "none", *words, env={"OPS": text})
            test.check("race on" not in told and ended in (0, 5, 6), "%s: steps%s, OPS='%s' %s has no race" % (cc, way, text, words[0]), told)
            runs += int(re.search(r"(\d+) (?:order|seed)s?,", told).group(1)) if ended in (0, 5, 6) else 0
    print("no race in %d runs of %d programs within a lock" % (runs, programs), flush=True)


def all_of_it(test):
    for cc in test.compilers:
        first = cc == test.compilers[0]
        against_all(test, cc, 41 if first else 42, 200 if test.full else 6 if first else 2, "--every-order", "3000" if test.full else "600")
        against_all(test, cc, 7 if first else 8, 50 if test.full else 2 if first else 1, "--places", "3000" if test.full else "600")
        no_race_within_a_lock(test, cc, 5, 75 if test.full else 4)
