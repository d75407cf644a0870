"""Whole numbers as C computes them: literals with their suffixes, constants of enums, operators, casts, and the kernel's types of numbers.

What is read are tokens with their places, so that a number that is refused is told with its file and line.
"""
import re
from collections import namedtuple

IDENTIFIER = re.compile(r"[A-Za-z_]\w*", re.A)
LITERAL = re.compile(r"(0[xX][0-9a-fA-F]+|0[0-7]*|[1-9][0-9]*)((?:[uU]?(?:l|L|ll|LL)?)|(?:(?:l|L|ll|LL)[uU]))", re.A)
SIZED = re.compile(r"U?(?:INT(?:8|16|32|64|MAX|PTR)?|LONG)_C")
TYPES = {
    "int8_t": (8, False), "int16_t": (16, False), "int32_t": (32, False), "int64_t": (64, False),
    "uint8_t": (8, True), "uint16_t": (16, True), "uint32_t": (32, True), "uint64_t": (64, True),
    "bool_t": (32, False), "int_t": (32, False), "uint_t": (32, True), "long_t": (64, False), "ulong_t": (64, True),
    "ID": (32, False), "PRI": (32, False), "ER": (32, False), "TMO": (32, False), "INTPRI": (32, False), "ATR": (32, True),
    "MODE": (32, True), "STAT": (32, True), "FLGPTN": (32, True), "RELTIM": (32, True), "HRTCNT": (32, True),
    "INTNO": (32, True), "EXCNO": (32, True), "SYSTIM": (64, True), "SIZE": (64, True), "size_t": (64, True),
    "intptr_t": (64, False), "uintptr_t": (64, True), "EXINF": (64, False),
}
# How many bits a `long` has, by the word that asks for it.
LONG = {"bits": 32}
C_TYPES = {"int", "unsigned", "signed", "long", "short", "char", "const"}
C_WORDS = C_TYPES | {"void", "static", "extern", "typedef", "struct", "union", "enum", "inline", "return", "if", "while", "for"}
# Words of C that may stand in a number, and that only a compiler computes.
COMPILED = C_WORDS | {"sizeof", "float", "double", "_Alignof", "__alignof__", "__builtin_offsetof"}
DEEPER = {"(": 1, "{": 1, "[": 1, ")": -1, "}": -1, "]": -1}
LEVELS = (("|",), ("^",), ("&",), ("<<", ">>"), ("+", "-"), ("*", "/", "%"))
MOST_DEPTH = 60

Token = namedtuple("Token", "word file line")
Value = namedtuple("Value", "value bits unsigned")


class Refused(Exception):
    """What is wrong, the file and line where, or none, and the status that the program ends with."""

    def __init__(self, token, what, status=1):
        super().__init__(what)
        self.place = token and (token.file, token.line)
        self.status = status


def printable(text):
    return "".join(it if " " <= it <= "~" else "?" for it in text)


def quoted(word):
    word = printable(word)
    return f"`{word if len(word) <= 64 else word[:64] + '..'}`"


def is_of_word(letter):
    return letter.isalnum() or letter == "_"


def joined(tokens):
    """The text of tokens, with a blank between two words, and after `,` and `/`."""
    parts, last = [], ""
    for token in tokens:
        apart = last in (",", "/") or is_of_word(last[-1:]) and is_of_word(token.word[0])
        parts.append(" " + token.word if apart else token.word)
        last = token.word
    return "".join(parts)


def split(tokens):
    """What stands between the commas that are in no brackets."""
    parts, depth = [[]], 0
    for token in tokens:
        depth += DEEPER.get(token.word, 0)
        if token.word == "," and depth == 0:
            parts.append([])
        else:
            parts[-1].append(token)
    return parts


def closing(tokens, at):
    """The place of the bracket that closes the one at `at`, or the end."""
    depth = 0
    for place in range(at, len(tokens)):
        depth += DEEPER.get(tokens[place].word, 0)
        if depth == 0:
            return place
    return len(tokens)


def wrapped(value, bits, unsigned):
    value %= 2**bits
    return Value(value - 2**bits if not unsigned and value >= 2 ** (bits - 1) else value, bits, unsigned)


def literal(token):
    """The value of a number as C writes it, by the types that C gives it."""
    found = LITERAL.fullmatch(token.word)
    if not found:
        raise Refused(token, f"{quoted(token.word)} is no number of C")
    digits, suffix = found[1].lower(), found[2].lower()
    base = 16 if digits.startswith("0x") else 8 if digits.startswith("0") else 10
    plain = digits.removeprefix("0x").lstrip("0") or "0"
    value = int(plain, base) if len(plain) <= 24 else 2**64
    for bits in (64,) if "ll" in suffix else (LONG["bits"], 64) if "l" in suffix else (32, 64):
        for unsigned in (True,) if "u" in suffix else (False,) if base == 10 else (False, True):
            if value < 2 ** (bits - (not unsigned)):
                return Value(value, bits, unsigned)
    raise Refused(token, f"{quoted(token.word)} has more than 64 bits")


def computed(token, left, right):
    """What an operator makes of two values, as C does."""
    sign, a, b = token.word, left.value, right.value
    if sign in ("<<", ">>"):
        if not 0 <= b < left.bits:
            raise Refused(token, f"a number of {left.bits} bits is shifted by {b}")
        return wrapped(a << b if sign == "<<" else a >> b, left.bits, left.unsigned)
    bits = max(left.bits, right.bits)
    unsigned = any(it.unsigned and it.bits == bits for it in (left, right))
    a, b = wrapped(a, bits, unsigned).value, wrapped(b, bits, unsigned).value
    if sign in ("/", "%"):
        if b == 0:
            raise Refused(token, "a division by 0")
        quotient = abs(a) // abs(b) if (a < 0) == (b < 0) else -(abs(a) // abs(b))
        value = quotient if sign == "/" else a - b * quotient
    else:
        value = {"|": a | b, "^": a ^ b, "&": a & b, "+": a + b, "-": a - b, "*": a * b}[sign]
    result = wrapped(value, bits, unsigned)
    if not unsigned and result.value != value:
        raise Refused(token, f"{value} is too much for the {bits} bits with a sign in which C computes it")
    return result


class Constants:
    """The constants of the enums that were read. `missing` are the headers that were not found, which may have others."""

    def __init__(self, missing=()):
        self.known, self.missing = {}, missing

    def value(self, token):
        """The value that a name stands for."""
        word, found = token.word, self.known.get(token.word)
        if isinstance(found, Value):
            return found
        if found:
            raise Refused(token, f"{quoted(word)} is a constant of an enum, whose number is not known here: {found}")
        if word in COMPILED:
            raise Refused(token, f"{quoted(word)} is a word of C that is not computed here")
        why = f"{quoted(word)} is no number: no file that was read has a #define of it, or an enum with it"
        if len(self.missing) > 1:
            raise Refused(token, f"{why}, and {', '.join(self.missing)} were not found: are their folders named with -I?")
        if self.missing:
            raise Refused(token, f"{why}, and {self.missing[0]} was not found: is its folder named with -I?")
        raise Refused(token, f"{why}; -D {printable(word[:64])}=NUMBER says what it is")

    def take(self, tokens):
        """Takes the constants of the enums that stand in a text of C, outside the bodies of functions."""
        at, last = 0, ""
        while at < len(tokens):
            word = tokens[at].word
            if word == "__attribute__":
                at = closing(tokens, at + 1)
            elif word == "{" and last == ")":
                at, last = closing(tokens, at), "}"
            elif word == "enum":
                at, last = self.take_enum(tokens, at + 1), word
            else:
                last = word
            at += 1

    def take_enum(self, tokens, at):
        """Takes the constants of one enum, if it has a list of them. Answers the place of the last token that belongs to it."""
        while at < len(tokens) and tokens[at].word != "{":
            if tokens[at].word == "__attribute__":
                at = closing(tokens, at + 1)
            elif tokens[at].word != ":" and not IDENTIFIER.fullmatch(tokens[at].word):
                return at - 1
            at += 1
        end = closing(tokens, at)
        before = -1
        for part in split(tokens[at + 1:end]):
            if part and IDENTIFIER.fullmatch(part[0].word):
                before = self.number(part, before)
        return end

    def number(self, part, before):
        """The number of a constant, or why it is not known. Without a number of its own it has one more than the constant before it."""
        number = before + 1 if isinstance(before, int) else before
        assigned = next((at for at, token in enumerate(part) if token.word == "="), len(part) - 1)
        try:
            if assigned < len(part) - 1:
                number = Expression(part[assigned + 1:], self).value()
        except Refused as why:
            number = str(why)
        self.known[part[0].word] = of_enum(number) if isinstance(number, int) else number
        return number


def of_enum(number):
    """A constant of an enum: an int where it fits, and else of the least type that it fits."""
    bits = 32 if -(2**31) <= number < 2**32 else 64
    return wrapped(number, bits, number >= 2 ** (bits - 1))


class Expression:
    """An expression of C with integers, which is computed while it is read."""

    def __init__(self, tokens, constants):
        self.tokens, self.constants, self.at, self.depth = tokens, constants, 0, 0

    def word(self, ahead=0):
        return self.tokens[self.at + ahead].word if self.at + ahead < len(self.tokens) else ""

    def take(self, wanted=None):
        if self.at == len(self.tokens):
            raise Refused(self.tokens[-1], f"{quoted(joined(self.tokens))} is no whole number: something is missing at its end")
        token = self.tokens[self.at]
        if wanted and token.word != wanted:
            raise Refused(token, f"`{wanted}` is expected before {quoted(token.word)}")
        self.at += 1
        return token

    def value(self):
        number = self.level(0)
        if self.at < len(self.tokens):
            token = self.tokens[self.at]
            raise Refused(token, f"{quoted(token.word)} may not stand in a number: + - * / % << >> & | ^ ~ and parentheses may")
        return number.value

    def level(self, level):
        if level == len(LEVELS):
            return self.unary()
        left = self.level(level + 1)
        while self.word() in LEVELS[level]:
            token = self.take()
            left = computed(token, left, self.level(level + 1))
        return left

    def unary(self):
        token = self.take()
        if self.depth > MOST_DEPTH:
            raise Refused(token, f"a number with more than {MOST_DEPTH} signs and parentheses in one another")
        self.depth += 1
        if token.word in ("+", "-", "~"):
            number = self.unary()
            if token.word == "~":
                number = wrapped(~number.value, number.bits, number.unsigned)
            elif token.word == "-":
                number = computed(Token("-", token.file, token.line), Value(0, number.bits, number.unsigned), number)
        else:
            number = self.primary(token)
        self.depth -= 1
        return number

    def primary(self, token):
        if token.word == "(":
            kind = self.type_words(")")
            if kind:
                return converted(self.unary(), kind)
            number = self.level(0)
            self.take(")")
            return number
        if token.word == "CAST" and self.word() == "(":
            self.take()
            kind = self.type_words(",")
            if not kind:
                raise Refused(token, f"{quoted(self.word())} is no type that numbers have")
            number = converted(self.level(0), kind)
            self.take(")")
            return number
        if SIZED.fullmatch(token.word) and self.word() == "(":
            return self.sized(token)
        if IDENTIFIER.fullmatch(token.word):
            return self.constants.value(token)
        return literal(token)

    def sized(self, token):
        """What UINT_C and the like make of a number: a literal gets their suffix, since without it some have too many bits."""
        self.take()
        bits = 64 if re.search("64|MAX|PTR", token.word) else LONG["bits"] if "LONG" in token.word else None
        suffix = ("U" if token.word.startswith("U") else "") + ("LL" if bits == 64 else "L" if bits else "")
        if self.word(1) == ")" and LITERAL.fullmatch(self.word() + suffix):
            inside = self.take()
            number = literal(inside._replace(word=inside.word + suffix))
        else:
            number = self.level(0)
            number = wrapped(number.value, bits or number.bits, token.word.startswith("U"))
        self.take(")")
        return number

    def type_words(self, end):
        """The type that stands here before `end`, which are passed over with it; or none."""
        ahead = 0
        while self.word(ahead) in C_TYPES:
            ahead += 1
        words = [self.word(it) for it in range(ahead)]
        kind = (words.count("long") > 1 and 64 or "long" in words and LONG["bits"] or "short" in words and 16 or "char" in words and 8 or 32, "unsigned" in words)
        if self.word(ahead) in TYPES:
            kind = TYPES[self.word(ahead)]
            kind, ahead = (LONG["bits"] if self.word(ahead) in ("long_t", "ulong_t") else kind[0], kind[1]), ahead + 1
        if not ahead or self.word(ahead) != end:
            return None
        self.at += ahead + 1
        return kind


def converted(number, kind):
    """A number after a cast. One of less than 32 bits is an int again."""
    value = wrapped(number.value, *kind).value
    return Value(value, *(kind if kind[0] >= 32 else (32, False)))
