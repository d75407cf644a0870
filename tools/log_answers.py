"""What a call answered by the line of a kernel's log in which it is left, as far as that line tells it."""
from log_calls import BLOCKS, CODES, COUNTS, SENSES, VALUED, printable, whole

# It took effect, and what it answered is not told. Of a code the value may not be told, and of the end of a wait neither.
UNTOLD, NO_VALUE, NOTHING_TOLD = "?", "E_OK:*", "*"
VALUES = (-2**63, 2**63 - 1)


def answer_of(name, given):
    """The answer, and what of it cannot be read, or nothing. A block is told by its address, behind a `@`."""
    if not given:
        return UNTOLD, f"no answer of {name} is told here"
    word = given[0][1]
    number = {"true": 1, "false": 0}.get(word, whole(word))
    if name in SENSES:
        return (f"E_OK:{number}", None) if number in (0, 1) else (UNTOLD, f"`{printable(word)}` is neither true nor false")
    if name in COUNTS and number is not None and 0 <= number <= VALUES[1]:
        return f"E_OK:{number}", None
    code = word if word in CODES.values() else CODES.get(number)
    if code is None:
        return UNTOLD, f"`{printable(word)}` is no code that fmpsim answers"
    if code == "E_OK" and name in COUNTS:
        return NO_VALUE, f"no value is told here that {name} answered"
    if code == "E_OK" and (name in VALUED or name in BLOCKS):
        return valued(name, given[1:])
    return code, None


def valued(name, given):
    """The answer of a call that succeeded and answers a value, or the address of a block."""
    if not given:
        return NO_VALUE, f"no value is told here that {name} answered"
    value = whole(given[0][1])
    if value is None or name in VALUED and not VALUES[0] <= value <= VALUES[1]:
        return NO_VALUE, f"`{printable(given[0][1])}` is no value that {name} answers"
    return f"E_OK:{'@' if name in BLOCKS else ''}{value}", None
