"""The facts of a state, as the lines of `calls --state` and the statements of the configuration tell them, and a question that asks for those of one event after the other."""
import re

# The values that a statement gives an object, by its kind: what no line of a state tells where it is as at boot.
FIRST = {
    "SEM": lambda fields: f"count={int(fields[1])}",
    "FLG": lambda fields: f"pattern={int(fields[1])}",
    "DTQ": lambda fields: "empty",
    "MPF": lambda fields: f"free={int(fields[1])}",
    "CYC": lambda fields: f"left={int(fields[4]) + 1}" if "TA_STA" in fields[0] else "stopped",
    "ALM": lambda fields: "stopped",
    "SPN": lambda fields: "free",
    "TSK": lambda fields: f"pri={int(fields[3])}",
}


def configured(text):
    """The kind of each object, and what is so of it at boot."""
    found = re.findall(r"CRE_([A-Z]{3})\((\w+), \{(.*?)\}\)", text)
    return {name: (kind, FIRST[kind](fields.split(", "))) for kind, name, fields in found}


def values(words, key):
    """What stands after a key in a line, between commas."""
    return [one for word in words if word.startswith(f"{key}=") for one in word.partition("=")[2].split(",")]


def facts_of(objects, state):
    """Facts, and whether each is so in a state."""
    lines = {line.split()[0]: line.split()[1:] for line in state}
    heads = {name: words for name, words in lines.items() if re.fullmatch(r"P\d", name) and words[0].startswith("run=")}
    due = {name for words in heads.values() for name in values(words, "due")}
    for name, words in heads.items():
        ready = values(words, "ready")
        yield from ((f"{name} {words[0]}", True), (f"{name} run=-", words[0] == "run=-"), (f"{name} ready=*", bool(ready)), (f"{name} due=*", "due=" in " ".join(words)))
        yield from ((f"{name} {word}", word in words) for word in ("locked", "disabled", "latch"))
        yield from ((f"{name} ready={other}", other in ready) for other, (kind, _) in objects.items() if kind == "TSK")
    for name, (kind, first) in objects.items():
        words = lines.get(name, [])
        yield from (task_facts if kind == "TSK" else object_facts)(name, kind, first, words, heads, name in due)


def task_facts(name, _kind, first, words, heads, _due):
    """Those of a task. One that has no line and is not ready is dormant or runs."""
    runs = [p for p, head in heads.items() if head[0] == f"run={name}"]
    ready = [p for p, head in heads.items() if name in values(head, "ready")]
    dormant = not words and not runs and not ready
    number = next((word for word in words if word.startswith("pri=")), first)
    yield from ((f"{name} dormant", dormant), (f"{name} running", bool(runs)), (f"{name} ready", bool(ready)), (f"{name} {number}", not dormant), (f"{name} pri=*", not dormant))
    yield from ((f"{name} running {p}", p in runs) for p in heads)
    yield from ((f"{name} ready {p}", p in ready) for p in heads)
    yield from ((f"{name} {key}={(values(words, key) or ['0'])[0]}", not dormant) for key in ("act", "wup"))
    yield from ((f"{name} {key}=3", values(words, key) == ["3"]) for key in ("act", "wup"))
    yield from ((f"{name} {word}", word in words) for word in ("waits", "suspended", "slp", "dly", "sem", "flg", "sdtq", "rdtq", "mpf"))
    yield f"{name} left=*", bool(values(words, "left"))
    yield from ((f"{name} left={left}", True) for left in values(words, "left"))
    if "waits" in words:
        told = [word for word in words if "=" not in word or word.startswith("left=")]
        yield from ((f"{name} {' '.join(told)}", True), (" ".join(told[told.index("waits"):]), True), (f"{name} dormant {' '.join(told)}", False))


def object_facts(name, kind, first, words, heads, due):
    """Those of any other object."""
    now = words or [first]
    if kind == "DTQ":
        yield from ((f"{name} empty", now == ["empty"]), (f"{name} values=*", now != ["empty"]), (f"{name} values=7", "7" in values(now, "values")))
        yield from ((f"{name} values={value}", True) for value in values(now, "values"))
    elif kind == "SPN":
        yield from ((f"{name} free", now == ["free"]), (f"{name} held=*", now != ["free"]))
        yield from ((f"{name} held={p}", now == [f"held={p}"]) for p in heads)
    elif kind in ("CYC", "ALM"):
        yield from ((f"{name} {now[0]}", True), (f"{name} stopped", now == ["stopped"]), (f"{name} left=*", now != ["stopped"]), (f"{name} due", due))
        yield from ((f"{p} due={name}", name in values(head, "due")) for p, head in heads.items())
    else:
        key = now[0].partition("=")[0]
        yield from ((now[0], True), (f"{name} {now[0]}", True), (f"{name} {key}=9", now == [f"{key}=9"]), (f"{name} {key}=*", True))


def question_of(objects, states, chosen):
    """A question that only these states show, one after the other: of the facts of each those that are chosen, with `not` where they are not so."""
    return " then ".join(" & ".join(fact if so else f"not {fact}" for fact, so in chosen(list(facts_of(objects, state)))) for state in states)
