"""What tests came to, in the Test Anything Protocol and as JUnit's XML: tools/run-list and tools/to-board write both."""
import json
import re
from dataclasses import dataclass, field
from typing import Optional
from xml.sax.saxutils import quoteattr

MOST_SHOWN = 20


@dataclass
class Result:
    """What a test came to. Why it is not as expected is None where it is; whether it is known at all is another thing."""
    name: str
    group: str
    why: Optional[str]
    known: bool = True
    seconds: float = 0.0
    # What stands beside the message: words, and blocks of lines.
    words: Optional[str] = None
    blocks: list = field(default_factory=list)


def lines_of(output: bytes) -> list:
    """The first lines of what was written, each of printed bytes."""
    lines = output.decode(errors="replace").removesuffix("\n").split("\n")
    shown = [re.sub(r"[^\t\x20-\x7e\xa0-\ud7ff\ue000-\ufffd]", "?", line) for line in lines[:MOST_SHOWN]]
    return shown + ([f".. and {len(lines) - MOST_SHOWN} more"] if len(lines) > MOST_SHOWN else [])


def tap_of(number: int, result: Result) -> str:
    """The lines of a result in the Test Anything Protocol."""
    told = f"{'not ok' if result.why else 'ok'} {number} - {result.name}\n"
    if not result.why:
        return told
    told += f"  ---\n  message: {json.dumps(result.why)}\n"
    if result.words is not None:
        told += f"  words: {json.dumps(result.words)}\n"
    for title, output in result.blocks:
        if output:
            told += f"  {title}: |\n" + "".join(f"    {line}\n" for line in lines_of(output))
    return told + "  ...\n"


def case_of(result: Result) -> str:
    """A result as a case of JUnit's XML. What was told last stands first there."""
    attributes = f'classname={quoteattr(result.group)} name={quoteattr(result.name)} time="{result.seconds:.3f}"'
    if not result.why:
        return f"    <testcase {attributes}/>\n"
    kind = "failure" if result.known else "error"
    text = "\n".join(line for _, told in reversed(result.blocks) if told for line in lines_of(told)).replace("&", "&amp;").replace("<", "&lt;").replace(">", "&gt;")
    return f"    <testcase {attributes}>\n      <{kind} message={quoteattr(result.why)}>{text}</{kind}>\n    </testcase>\n"


def junit_of(name: str, results: list) -> str:
    """All results as JUnit's XML."""
    failures = sum(1 for result in results if result.why and result.known)
    errors = sum(1 for result in results if result.why and not result.known)
    counts = f'tests="{len(results)}" failures="{failures}" errors="{errors}" time="{sum(result.seconds for result in results):.3f}"'
    cases = "".join(case_of(result) for result in results)
    return f'<?xml version="1.0" encoding="UTF-8"?>\n<testsuites {counts}>\n  <testsuite name={quoteattr(name)} {counts}>\n{cases}  </testsuite>\n</testsuites>\n'
