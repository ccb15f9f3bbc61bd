"""Reads `.antt` files: their imports and what they define."""
import re
from dataclasses import dataclass, field
from functools import cache
from pathlib import Path

from words import is_name, locals_of, words_of

PREFIX = re.compile(r"^(?:(?:abbrev|unfoldable|pub) )*")
IMPORT = re.compile(r"^(?:pub )?use ([^\s{]+?)(?:\.\{([^}]*)\}|(?: as (\S+))?)$")


@dataclass
class Part:
    """A field of a record or a case of data: its name, its place among the lines, and the words of its type."""
    name: str
    line: int
    words: list


@dataclass
class Definition:
    """What a file defines under one name."""
    crate: str
    folder: str
    file: str
    name: str
    kind: str
    line: int
    is_public: bool
    outer: str = ""
    comment: list = field(default_factory=list)
    lines: list = field(default_factory=list)
    parts: list = field(default_factory=list)
    clauses: list = field(default_factory=list)

    @property
    def key(self):
        return (f"{self.crate}.{self.folder}.{self.file}", self.name)

    @property
    def where(self):
        return f"{self.crate}::{self.file}.{self.name}"

    @property
    def count(self):
        """How many lines define it: those that are neither blank nor comment."""
        return sum(1 for line in self.lines if line.strip() and not line.strip().startswith("--"))


@dataclass
class Source:
    """A file of definitions or of proofs."""
    crate: str
    folder: str
    file: str
    path: Path
    imports: dict = field(default_factory=dict)
    modules: dict = field(default_factory=dict)
    definitions: list = field(default_factory=list)

    @property
    def module(self):
        return f"{self.crate}.{self.folder}.{self.file}"


def add_import(source, line):
    """Adds what a line of imports names: an item as (module, name), a module under its last name or under its alias."""
    found = IMPORT.match(line)
    if not found:
        raise ValueError(f"{source.path}: an import of another form: {line}")
    module, items, alias = found.groups()
    module = module.removeprefix("Rattle.")
    if items is None:
        source.modules[alias or module.rsplit(".", 1)[-1]] = module
        return
    passed = passed_on(common_file(source.path, module))
    for item in items.split(","):
        name, _, other = item.strip().partition(" as ")
        if name:
            source.imports[other.strip() or name] = passed.get(name, (module, name))


def common_file(path, module):
    """The file `proofs/Common.antt` of a crate of the repository, where that is the module; else none."""
    crate, _, rest = module.partition(".")
    crates = next((it for it in Path(path).parents if it.name == "crates"), None)
    return crates / crate / "proofs/Common.antt" if crates and rest == "proofs.Common" else None


@cache
def passed_on(file):
    """What a crate's Common passes on: each name with what it imports it as."""
    if file is None or not file.is_file():
        return {}
    return read_source(file, file.parent.parent.name, "proofs", "Common").imports


def read_source(path, crate, folder, file):
    """Reads a file."""
    source = Source(crate, folder, file, path)
    read_lines(source, list(enumerate(path.read_text(encoding="utf-8").split("\n"), 1)))
    for definition in source.definitions:
        fill_parts(definition)
    return source


def goes_on(line):
    """The line goes on with what stands before it: it is set in, or closes a bracket."""
    return line[:1].isspace() or line[:1] in tuple(")]}")


def read_lines(source, lines, outer=""):
    """Reads lines whose statements begin in the first column; those in a `module _` are read so too, with its head as what stands outside."""
    current, inner, comment = None, None, []
    for number, line in lines:
        comment = comment + [line] if line.startswith("--") and inner is None else comment
        begins = line and not goes_on(line)
        if begins and inner:
            read_module(source, inner, outer)
            inner = None
        if begins and line.startswith("module "):
            inner = [(number, line)]
        elif inner is not None:
            inner.append((number, line))
        elif begins and re.match(r"(?:pub )?use ", line):
            add_import(source, line.strip())
        elif begins and not line.startswith("--"):
            current = next_definition(source, current, number, line)
            current.outer = outer
            current.lines.append(line)
            current.comment, comment = current.comment + comment, []
        elif current and line.strip() and not line.startswith("--"):
            current.lines.append(line)
        comment = [] if begins and not line.startswith("--") else comment
    if inner:
        read_module(source, inner, outer)


def read_module(source, lines, outer):
    """Reads a `module _ HEAD where`, whose statements stand two or four blanks in."""
    size = next(place for place, (_, line) in enumerate(lines, 1) if line.endswith(" where"))
    head = " ".join(line.strip() for _, line in lines[:size]).removeprefix("module _").removesuffix("where")
    body = lines[size:]
    margin = min(len(line) - len(line.lstrip()) for _, line in body if line.strip())
    read_lines(source, [(number, line[margin:]) for number, line in body], f"{outer} {head}")


def next_definition(source, current, number, line):
    """The definition that a line belongs to, which begins in the first column: a new one where the line is its head."""
    if re.match(r"unfolding |pub mod |mod ", line):
        return current or Definition(source.crate, source.folder, source.file, "", "head", number, False)
    bare = line[PREFIX.match(line).end():]
    prefix = line[:len(line) - len(bare)]
    kind = bare.split(" ", 1)[0] if bare.startswith(("record ", "data ")) else "value"
    bare = bare.removeprefix("record ").removeprefix("data ")
    name, _, rest = bare.partition(" ")
    if kind == "value" and not rest.startswith(":") and current is not None:
        return current
    is_public = "pub" in prefix.split() or "pub" in line.split()[:2]
    definition = Definition(source.crate, source.folder, source.file, name, "abbrev" if "abbrev" in prefix else kind, number, is_public)
    source.definitions.append(definition)
    return definition


def fill_parts(definition):
    """Finds the fields of a record, the cases of data, and else the clauses."""
    if definition.kind in ("record", "data"):
        definition.parts = parts_of(definition)
    definition.clauses = clauses_of(definition)


def parts_of(definition):
    """The fields or cases: lines two blanks in that begin with a name and a colon."""
    parts, text = [], []
    for place, line in enumerate(definition.lines):
        found = re.match(r"  (?:pub )?([^\s:(){}]+) :(?: |$)", line)
        if found and place and not line.strip().startswith("--"):
            text = [line]
            parts.append((found[1], place, text))
        elif text:
            text.append(line)
    return [Part(name, place, words_of("\n".join(text))) for name, place, text in parts]


def clauses_of(definition):
    """The texts of a definition: its head, and each clause as its own."""
    clauses = []
    for line in definition.lines:
        if clauses and (goes_on(line) or line.startswith("--")):
            clauses[-1] += "\n" + line
        elif not line.startswith("unfolding "):
            clauses.append(line)
    return clauses


def names_in(definition, is_constructor):
    """The names that a definition speaks of, each as its word and the one after it where that is a field."""
    if definition.kind in ("record", "data"):
        yield from names_of_parts(definition)
        return
    for place, clause in enumerate(definition.clauses):
        words = words_of(clause)
        hidden = locals_of(words) | {definition.name}
        if place:
            hidden |= patterns_of(words, is_constructor)
        yield from free_names(words, hidden)


def bound_in(definition, is_constructor):
    """The names that a definition binds, but for its fields."""
    names = set()
    for place, clause in enumerate(definition.clauses):
        words = words_of(clause)
        names |= locals_of(words)
        if place and definition.kind not in ("record", "data"):
            names |= patterns_of(words, is_constructor)
    return names - {definition.name}


def names_of_parts(definition):
    """The names that a record or data speaks of: a field hides a name in the fields after it."""
    first = definition.parts[0].line if definition.parts else len(definition.lines)
    words = words_of("\n".join(definition.lines[:first]))
    hidden = locals_of(words) | {definition.name}
    yield from free_names(words, hidden)
    for part in definition.parts:
        words = [it for it in part.words if it.text != "pub"][1:]
        yield from free_names(words, hidden | locals_of(words))
        if definition.kind == "record":
            hidden = hidden | {part.name}


def patterns_of(words, is_constructor):
    """The variables of a clause's left side."""
    names = set()
    for word in words:
        if word.text == "=":
            break
        if is_name(word.text) and not is_constructor(word.text):
            names.add(word.text)
    return names


def free_names(words, hidden):
    """Those names of words that nothing binds: each with its field, or with none."""
    for place, word in enumerate(words):
        if word.is_field or word.is_label or not is_name(word.text) or word.text in hidden:
            continue
        follows = words[place + 2].text if place + 2 < len(words) and words[place + 2].is_field else None
        yield word.text, follows
