"""Reads `.rt` files: their functions with contracts, their types and what they import."""
import re
from dataclasses import dataclass, field
from pathlib import Path

HIDDEN = re.compile(r'//[^\n]*|\bb?r(#*)".*?"\1|b?"(?:\\.|[^"\\])*"|(?<![\w\'])b?\'(?:\\[^\']+|[^\'\\])\'', re.DOTALL)
VISIBILITY = re.compile(r"pub(?:\([a-z]+\))?\s+")
KEYWORD = re.compile(r"(?:(?:const|unsafe|async)\s+(?=(?:unsafe\s+)?fn\b))*(ghost use|ghost|use|mod|const|static|type|struct|enum|trait|impl|fn|macro_rules!)(?=\W)")
CLAUSE = re.compile(r"(requires|ensures)\*?\s*(\w*)\s*$")
# Stands in a head where a clause was taken out.
TAKEN = "§"


@dataclass
class Clause:
    """A clause of a contract."""
    kind: str
    name: str
    text: str
    line: int


@dataclass
class Function:
    """A function with its contract."""
    name: str
    owner: str
    trait: str
    is_public: bool
    head: str
    line: int
    size: int = 0
    clauses: list = field(default_factory=list)
    body: str = ""


@dataclass
class Type:
    """A struct, an enum or a trait as it stands in a file."""
    kind: str
    name: str
    text: str
    line: int
    is_public: bool
    ghosts: dict = field(default_factory=dict)


@dataclass
class RustFile:
    """A file of code."""
    crate: str
    module: str
    path: Path
    text: str = ""
    uses: list = field(default_factory=list)
    public_uses: list = field(default_factory=list)
    modules: list = field(default_factory=list)
    ghost_uses: list = field(default_factory=list)
    functions: list = field(default_factory=list)
    types: list = field(default_factory=list)
    models: dict = field(default_factory=dict)


@dataclass
class Item:
    """An item of a file: its kind, what stands before its first brace, and where its text is."""
    kind: str
    is_public: bool
    start: int
    end: int


def cleaned(text):
    """The text with blanks in place of comments, strings and characters."""
    return HIDDEN.sub(lambda it: re.sub(r"[^\n]", " ", it[0]), text)


def end_of_group(text, at):
    """Where the group ends that the bracket at the place begins."""
    depth = 0
    for place in range(at, len(text)):
        if text[place] in "([{":
            depth += 1
        elif text[place] in ")]}":
            depth -= 1
            if depth == 0:
                return place + 1
    raise ValueError(f"a bracket is never closed: {text[at:at + 60]}")


def items_of(text, start, end):
    """The items of a stretch of the text."""
    at = start
    while at < end:
        if text[at].isspace() or text[at] == ";":
            at += 1
        elif text[at] == "#":
            at = end_of_group(text, text.index("[", at))
        else:
            item = item_at(text, at)
            yield item
            at = item.end


def item_at(text, at):
    """The item that begins at the place."""
    found = VISIBILITY.match(text, at)
    keyword = KEYWORD.match(text, found.end() if found else at)
    if not keyword:
        raise ValueError(f"no item begins here: {text[at:at + 80]}")
    kind = keyword[1]
    is_public = bool(found) and "(" not in found[0]
    ends_with_group = kind in ("struct", "enum", "trait", "impl", "mod", "macro_rules!")
    return Item(kind, is_public, keyword.start(), end_of_item(text, keyword.end(), ends_with_group, kind == "fn"))


def end_of_item(text, at, ends_with_group, is_function):
    """Where an item ends: at its semicolon, or after its braces."""
    begin = at
    while at < len(text):
        if text[at] == ";":
            return at + 1
        if text[at] in "([{":
            is_end = text[at] == "{" and (ends_with_group or is_function and not CLAUSE.search(text[begin:at]))
            at = end_of_group(text, at)
            if is_end:
                return at
        else:
            at += 1
    raise ValueError(f"an item never ends: {text[begin:begin + 60]}")


def read_rust(path, crate, module):
    """Reads a file."""
    file = RustFile(crate, module, path)
    whole = path.read_text(encoding="utf-8")
    file.text = whole
    text = cleaned(whole)
    read_items(file, text, 0, len(text), ("", ""))
    return file


def read_items(file, text, start, end, context):
    """Reads items; the context is the type and the trait whose items they are."""
    for item in items_of(text, start, end):
        own = text[item.start:item.end]
        line = text.count("\n", 0, item.start) + 1
        if item.kind == "ghost use":
            file.ghost_uses.append(own[len("ghost use"):].strip(" \n;"))
        elif item.kind == "use":
            (file.public_uses if item.is_public else file.uses).append(" ".join(own[3:].strip(" \n;").split()))
        elif item.kind == "mod" and own.endswith(";"):
            file.modules.append((own[3:].strip(" ;"), item.is_public))
        elif item.kind in ("struct", "enum", "type"):
            name = re.match(r"\w+\s+(\w+)", own)[1]
            file.types.append(Type(item.kind, name, own, line, item.is_public))
        elif item.kind == "fn":
            file.functions.append(function_of(own, line, context, item.is_public))
        elif item.kind in ("trait", "impl"):
            read_group(file, text, item, line)
        elif item.kind == "ghost":
            add_ghost(file, own, context)


def read_group(file, text, item, line):
    """Reads a trait or an implementation."""
    begin = text.index("{", item.start)
    head = " ".join(text[item.start:begin].split())
    if item.kind == "trait":
        name = re.match(r"trait (\w+)", head)[1]
        file.types.append(Type("trait", name, head, line, item.is_public))
        context = (name, "trait")
    else:
        bare = without_generics(head.removeprefix("impl").strip()) if head.startswith("impl<") else head.removeprefix("impl").strip()
        trait, _, owner = bare.rpartition(" for ")
        context = (bare_name(owner), bare_name(trait))
    read_items(file, text, begin + 1, item.end - 1, context)


def without_generics(text):
    """The text without the generics in angle brackets that it begins with."""
    depth = 0
    for place, letter in enumerate(text):
        depth += {"<": 1, ">": -1}.get(letter, 0)
        if depth == 0:
            return text[place + 1:].strip()
    return text


def bare_name(text):
    """The last name of a type's path, without generics."""
    return re.sub(r"<.*", "", text.strip()).split("::")[-1].strip(" &")


def add_ghost(file, own, context):
    """Keeps a ghost item: of a trait what it declares, of an implementation what it says."""
    found = re.match(r"ghost (\w+)\s*[:=]\s*\{(.*)\}", own, re.DOTALL)
    if found:
        file.models.setdefault(context, {})[found[1]] = found[2]


def function_of(own, line, context, is_public):
    """The function of an item's text."""
    name = re.search(r"\bfn\s+(\w+)", own)[1]
    function = Function(name, context[0], context[1], is_public or context[1] == "trait", "", line, own.count("\n"))
    at, head = own.index(name), []
    while at < len(own) and own[at] != ";":
        if own[at] not in "([{":
            head.append(own[at])
            at += 1
            continue
        end = end_of_group(own, at)
        before = CLAUSE.search("".join(head)[-60:]) if own[at] == "{" else None
        if before:
            function.clauses.append(Clause(before[1], before[2], own[at + 1:end - 1], line + own.count("\n", 0, at)))
            head.append(TAKEN)
        elif own[at] == "{":
            function.body = own[at:end]
            break
        else:
            head.append(own[at:end])
        at = end
    function.head = re.sub(r"(requires|ensures)\*?\s*\w*\s*" + TAKEN, "", "".join(head)).strip()
    return function
