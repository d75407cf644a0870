"""The files of definitions, crates/*/specs: what each defines and imports, and which definitions a definition cites."""
import re
from dataclasses import dataclass, field
from pathlib import Path

TOP = Path(__file__).resolve().parent.parent
CODE = re.compile(r'(?:"(?:[^"\\]|\\.)*"|-(?!-)|[^"-])*')
STRING = re.compile(r'"(?:[^"\\]|\\.)*"')
HEAD = re.compile(r"(?:(?:pub|abbrev|unfoldable|opaque) )*(?:(?:record|data) ([A-Z]\w*)\b|(\S+) :)")
DEFINES = ("pub ", "abbrev ", "unfoldable ", "opaque ", "record ", "data ")
SOME = re.compile(r"(?:unfoldable )?(?:pub )?use Rattle\.(\w+)\.specs\.([\w.]+)\.\{(.*)\}$")
WHOLE = re.compile(r"(?:pub )?use Rattle\.(\w+)\.specs\.([\w.]+) as (\w+)$")
IMPORT = re.compile(r"(?:unfoldable )?(?:pub )?(?:use|mod) ")
WORD = re.compile(r"(\.?)([^\s(){}\[\],;.λ→×]+)")
BINDS = re.compile(r" [=:←](?: |$)")


@dataclass
class Block:
    """A `module _ (..) where`, and the comment above it."""

    indent: int
    lines: list
    comment: list


@dataclass
class Definition:
    """Its lines as they stand, the comment above them, and the blocks in which they stand, the outer one first."""

    name: str
    indent: int
    lines: list
    comment: list
    blocks: tuple
    is_lemma: bool

    def code(self):
        return [code for line in self.lines if (code := without_comment(line))]


@dataclass
class File:
    """A file of definitions. A constructor is found under the name of its `data`; an alias is of a file, and an import of a name in one."""

    path: Path
    comment: list = field(default_factory=list)
    definitions: dict = field(default_factory=dict)
    constructors: dict = field(default_factory=dict)
    imports: dict = field(default_factory=dict)
    aliases: dict = field(default_factory=dict)
    cites: dict = field(default_factory=dict)


def without_comment(line):
    return (CODE.match(line)[0] if "--" in line else line).rstrip()


def read_import(file, code):
    if found := SOME.match(code):
        for name in found[3].split(", "):
            real, _, local = name.partition(" as ")
            file.imports[local or real] = (f"{found[1]}.{found[2]}", real)
    elif found := WHOLE.match(code):
        file.aliases[found[3]] = f"{found[1]}.{found[2]}"


class Reader:
    """Reads a file line by line."""

    def __init__(self, path):
        self.file, self.blocks, self.now, self.comment, self.infix, self.opening = File(path), [], None, [], [], None
        for line in path.read_text().split("\n"):
            self.read_line(line, without_comment(line))

    def read_line(self, line, code):
        if not code:
            self.comment += [line] if line.strip() or self.comment else []
            return
        if self.opening:
            self.opening.lines.append(line)
        elif IMPORT.match(code):
            self.file.comment = self.file.comment or self.comment
            read_import(self.file, code)
        elif code.startswith("infix"):
            self.infix = [*self.comment, line]
        else:
            self.read_code(line, code.strip())
        if self.opening and code.endswith("where"):
            self.blocks, self.opening = [*self.blocks, self.opening], None
        self.comment = []

    def read_code(self, line, code):
        indent = len(line) - len(line.lstrip())
        self.blocks = [block for block in self.blocks if block.indent < indent]
        found = HEAD.match(code) if code.startswith(DEFINES) and indent == 2 * len(self.blocks) else None
        if code.startswith("module "):
            self.opening, self.now = Block(indent, [line], self.comment), None
        elif found:
            name = found[1] or found[2]
            is_lemma = bool(found[2]) and code.startswith("pub ")
            self.now = Definition(name, indent, [*self.infix, line], self.comment, tuple(self.blocks), is_lemma)
            self.file.definitions[name], self.infix = self.now, []
        elif self.now:
            self.now.lines += [*self.comment, line]
            if " data " in f" {self.now.lines[0]}" and indent == self.now.indent + 2 and (found := re.match(r"(\S+) :", code)):
                self.file.constructors[found[1]] = self.now.name


def files():
    found = {}
    for path in sorted((TOP / "crates").glob("*/specs/**/*.antt")):
        parts = path.relative_to(TOP).parts
        found[f"{parts[1]}.{'.'.join(parts[3:])[:-5]}"] = Reader(path).file
    return found


def words(lines):
    """Each word of these lines that they do not bind, with the one before it where a point joins both: it is of an alias, or a field."""
    for line in lines:
        last, bare = "", STRING.sub("", line)
        for found in WORD.finditer(bare):
            point, word = found.groups()
            if not BINDS.match(bare, found.end()):
                yield (last if point else ""), word, bool(point)
            last = word


def cited(file, definition):
    """The names that a definition cites, each with its file: of crates of the project, the kit and the code."""
    code = definition.code() + [line for block in definition.blocks for line in map(without_comment, block.lines)]
    there = {*file.definitions, *file.constructors, *file.imports}
    for before, word, point in words(code):
        if point:
            if before in file.aliases:
                yield file.aliases[before], word
            continue
        for name in ("◌>>=◌", word, f"◌{word}◌") if word == "do" else (word, f"◌{word}◌"):
            if name in there:
                yield file.imports.get(name, (None, name))


def resolved(found, module, name):
    """Where a name is defined: the file and the name there. It may be one that no file of the project defines."""
    while file := found.get(module):
        name = file.constructors.get(name, name)
        if name in file.definitions or name not in file.imports:
            break
        module, name = file.imports[name]
    return module, name


def closure(found, roots, within=None):
    """The definitions that these names lead to, of some if it is said of which, and what they cite that no file of the project defines."""
    seen, outside, todo = set(), set(), list(roots)
    while todo:
        place = resolved(found, *todo.pop())
        file = found.get(place[0])
        if not file or place[1] not in file.definitions:
            outside.add(place)
            continue
        if place in seen or within is not None and place not in within:
            continue
        seen.add(place)
        if place[1] not in file.cites:
            file.cites[place[1]] = {*cited(file, file.definitions[place[1]])}
        todo += [(module or place[0], name) for module, name in file.cites[place[1]]]
    return seen, outside
