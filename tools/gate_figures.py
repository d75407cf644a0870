"""The figures of the gate: what tools/gate-table writes and tools/check-pages reads.

- docs/record/gate.csv has a row for each crate: what it is made of, and what its checks cost in table seconds.
- docs/record/budget.csv has the limits, in table seconds: of the sum, of a crate on the longest chain and of one beside it, and of named crates.
- docs/record/planted.csv says which crates were searched for wrong bodies that their contracts let through.
"""
import csv
import hashlib
import re
from pathlib import Path

TOP = Path(__file__).resolve().parent.parent
RECORD = TOP / "docs/record"
FIELDS = ["crate", "functions", "clauses", "?", "megabytes", "check", "tests", "edits", "machine", "date", "ruler", "sources", "below"]
LIMITS = ("sum", "chain", "beside")
KINDS = ("check", "tests", "edits")
PARTS = ("src", "specs", "proofs")
FUNCTION = re.compile(r"^ *(?:pub(?:\(\w+\))? )?(?:const )?fn \w+", re.M)
CLAUSE = re.compile(r"^ *(?:ensures|requires)\b", re.M)


def crates(top=TOP):
    """The crates of crates.txt, lowest first, each with those of the repository that its line names."""
    below = {}
    for line in (top / "crates.txt").read_text().splitlines():
        name, _, deps = line.partition("#")[0].partition(":")
        if name.strip():
            below[name.split()[0]] = deps.split()
    return {name: [dep for dep in deps if dep in below] for name, deps in below.items()}


def under(below, name):
    """All crates that a crate stands on."""
    found, left = set(), [*below[name]]
    while left:
        it = left.pop()
        if it not in found:
            found.add(it)
            left += below[it]
    return found


def above(below, name):
    """The crate, and all that stand on it."""
    return {it for it in below if it == name or name in under(below, it)}


def read(path):
    """The rows of a file of docs/record, in their order."""
    with path.open(newline="") as file:
        return list(csv.DictReader(file))


def gate_rows(path=RECORD / "gate.csv"):
    return {row["crate"]: row for row in read(path)} if path.exists() else {}


def write_gate(rows, path=RECORD / "gate.csv"):
    path.parent.mkdir(parents=True, exist_ok=True)
    with path.open("w", newline="") as file:
        out = csv.DictWriter(file, FIELDS, lineterminator="\n")
        out.writeheader()
        out.writerows(rows)


def seconds(row, kinds=KINDS):
    """The table seconds of a row, of these kinds together."""
    return sum(float(row[kind] or 0) for kind in kinds)


def longest_chain(below, cost):
    """The chain of crates, each on the one before it, that costs most, with what it costs."""
    longest = {}

    def reach(name):
        if name not in longest:
            best = max((reach(dep) for dep in below[name]), key=lambda it: it[0], default=(0, []))
            longest[name] = (best[0] + cost[name], [*best[1], name])
        return longest[name]

    return max((reach(name) for name in below), key=lambda it: it[0])


def code_of(folder):
    """The text of a crate's sources, without comments."""
    return "\n".join(re.sub(r"//.*", "", path.read_text()) for path in sorted((folder / "src").rglob("*.rt")))


def counted(folder):
    """What a crate is made of, by its sources: functions, clauses, question marks. The prover counts more functions: what lets values go, and closures."""
    code = code_of(folder)
    return {"functions": len(FUNCTION.findall(code)), "clauses": len(CLAUSE.findall(code)), "?": code.count("?")}


def own_sum(folder, deps):
    """A sum of a crate's own sources and of its line of crates.txt."""
    found = hashlib.sha256(repr(deps).encode())
    for path in sorted(it for part in PARTS for it in (folder / part).rglob("*") if it.is_file()):
        found.update(repr((str(path.relative_to(folder)), path.read_bytes())).encode())
    return found.hexdigest()[:8]


def sums_of(name, below, top, kept):
    """The sums of a crate's own sources and of those of all crates below. kept has the own sums that are known."""
    for it in {name, *under(below, name)} - kept.keys():
        kept[it] = own_sum(top / "crates" / it, below[it])
    under_it = sorted((it, kept[it]) for it in under(below, name))
    return kept[name], hashlib.sha256(repr(under_it).encode()).hexdigest()[:8]


def budget(path=RECORD / "budget.csv"):
    """The limits in table seconds, by what they limit."""
    return {row["what"]: float(row["seconds"]) for row in read(path)}


def over_budget(below, rows, limits):
    """What is over its limit, in words."""
    total = sum(seconds(row) for row in rows.values())
    if total > limits["sum"]:
        yield f"all crates together take {total:.0f} table seconds, and the limit is {limits['sum']:.0f}: name what a change takes away for what it adds"
    _, chain = longest_chain(below, {name: seconds(rows[name], ("check",)) if name in rows else 0 for name in below})
    for name in below:
        limit = limits.get(name, limits["chain" if name in chain else "beside"])
        if name in rows and seconds(rows[name]) > limit:
            yield f"{name} takes {seconds(rows[name]):.0f} table seconds, and its limit is {limit:.0f}"
