"""want_of_memory.py CRATES: each line of code that makes an AllocError, or that names the fault of want of memory, by its file.

No contract says when memory runs out, so a function that always answers want of memory meets its own. This is the list of the places that can do so by
themselves; all others pass on what an allocation answered.
"""
import re
import sys
from pathlib import Path

# Where the name is that of a type.
TYPE = re.compile(r"[<,:] *AllocError\b")
NOT_CODE = re.compile(r"^\s*(//|use |pub use |ghost |ensures |requires |#\[)")
FAULT = re.compile(r"::Memory\b")


def lines(path):
    """The lines of a file that say want of memory by themselves."""
    for line in path.read_text().splitlines():
        if NOT_CODE.match(line):
            continue
        if FAULT.search(line) or "AllocError" in TYPE.sub("", line):
            yield line.strip()


for file in sorted(Path(sys.argv[1]).glob("*/src/**/*.rt")):
    for line in lines(file):
        print(f"{file.relative_to(sys.argv[1])}: {line}")
