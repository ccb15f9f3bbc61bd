"""What holds each definition: the laws, worked rows, must-fail edits and proved callers that name it, and what docs/held-by.txt says."""
import re
import sys
from dataclasses import dataclass, field
from functools import cache

from callers import EXAMPLES, LAWS, callers_by_function
from closure import name_of
from sources import names_in, read_source
from surface import public_functions

HAND = "docs/held-by.txt"
# The head under which it gives reasons why nothing calls a function.
CALLED = "# called by"
ROW_FILES = re.compile(r"(Examples|Rows)$")
# A part of a note that only names laws or worked rows.
PLAIN = re.compile(r"(laws?|worked rows?) `\w+`(?:(?:,| and) `\w+`)*$")

@dataclass
class Held:
    """What holds one definition."""
    laws: list = field(default_factory=list)
    rows: list = field(default_factory=list)
    edits: list = field(default_factory=list)
    callers: list = field(default_factory=list)
    hand: list = field(default_factory=list)
    users: list = field(default_factory=list)

    @property
    def is_own(self):
        """Something holds it by its name."""
        return bool(self.laws or self.rows or self.edits or self.callers or self.hand)

    def parted(self):
        """The laws and the worked rows, those of notes first, and what else the notes say."""
        laws, rows, notes = list(self.laws), list(self.rows), []
        for part in (it for note in self.hand for it in note.split("; ")):
            plain = PLAIN.match(part)
            if plain:
                names = laws if plain[1].startswith("law") else rows
                names[:0] = [it for it in re.findall(r"`(\w+)`", part) if it not in names]
            elif part not in notes:
                notes.append(part)
        return laws, rows, notes

    def text(self):
        """All that holds it, by name."""
        laws, rows, notes = self.parted()
        said = set(re.findall(r"`(\w+)`", " ".join(notes)))
        kinds = [("law", laws), ("worked row", rows), ("edit", self.edits), ("proved callers of", self.callers)]
        kinds = [(kind, [it for it in names if it not in said]) for kind, names in kinds]
        parts = notes + [listed(kind, names) for kind, names in kinds if names]
        return "; ".join(parts) or "in " + ", ".join(f"`{it}`" for it in self.users) if parts or self.users else "nothing"

    def letters(self):
        """The kinds of what holds it: laws (L), worked rows (R), edits (E), proved callers (C), tests and else what notes say (T); held by none of
        these, it stands in a definition that is held (I)."""
        laws, rows, notes = self.parted()
        kinds = {"L": laws, "R": rows, "E": self.edits, "C": self.callers, "T": notes}
        return "".join(letter for letter, names in kinds.items() if names) or ("I" if self.users else "-")


def listed(kind, names):
    """The names of a kind."""
    names = list(dict.fromkeys(names))
    plural = kind if kind.endswith("of") or len(names) == 1 else kind + "s"
    return f"{plural} " + ", ".join(f"`{it}`" for it in names)


def report_missing(kind, name):
    """Says that there is nothing of the kind with the name."""
    sys.stderr.write(f"tools/definitions: no {kind} is called {name}\n")


def print_all(tree, name):
    """Prints all that holds the definitions of a name; says so and fails where there is none."""
    found = {key: it for key, it in holders_of(tree).items() if key[1] == name}
    for key, it in found.items():
        print(f"{tree.definitions[key].where}: {it.text()}")
    if not found:
        report_missing("definition that is to be believed", name)
    return 0 if found else 1


@dataclass
class Note:
    """What the source file says of some names of a crate: details of what is held, and what holds it."""
    crate: str
    names: list
    details: str
    holders: str
    line: int


def notes_of(tree):
    """The notes of the source file on definitions."""
    return [it for it in all_notes(tree) if it.crate]


def reasons_of(tree):
    """Why nothing calls a public function, by its name."""
    return {name: it.holders for it in all_notes(tree) if not it.crate for name in it.names}


def all_notes(tree, name=HAND):
    """The notes of a source file; those on functions stand under `# called by`."""
    path, notes, crate = tree.top / name, [], ""
    lines = path.read_text(encoding="utf-8").split("\n") if path.is_file() else []
    for number, line in enumerate(lines, 1):
        if line.startswith("# "):
            crate = "" if line == CALLED else line[2:].strip()
        elif line.startswith("  ") and notes:
            notes[-1].holders = f"{notes[-1].holders} {line.strip()}".strip()
        elif line.strip() and not line.startswith("--"):
            names, _, details = line.partition(": ") if crate else (line, "", "")
            notes.append(Note(crate, names.split(), details.strip(), "", number))
    return notes


def meant_by(tree, note, name):
    """The definitions that a name of a note can mean: `FILE.NAME`, or a name of the crate."""
    file, _, bare = name.rpartition(".")
    return [key for key, it in tree.definitions.items() if it.crate == note.crate and it.name == bare and file in ("", it.file) and tree.is_believed(key)]


def laws_by_name(tree):
    """For each definition the laws whose statements name it."""
    found = {}
    for crate in tree.crates.values():
        for file, function in public_functions(crate):
            if file.module != LAWS:
                continue
            for key in statement_of(tree, file, function):
                found.setdefault(key, []).append(function.name)
    return found


def statement_of(tree, file, function):
    """The definitions that a law's statements name: those of files of laws, and what these name themselves."""
    direct = {it for clause in function.clauses for it in tree.clause_rests_on(file, function, clause) if isinstance(it, tuple)}
    laws = {it for it in tree.closure(direct) if isinstance(it, tuple) and tree.is_law(it)}
    named = {word for it in laws | direct for word in tree.rests_on(it) if isinstance(word, tuple)}
    return direct | laws | named


def rows_by_name(tree):
    """For each definition the worked rows whose statements name it."""
    found = {}
    for crate in tree.crates.values():
        for path in sorted(crate.folder.glob("proofs/**/*.antt")):
            if not ROW_FILES.search(path.stem):
                continue
            source = read_source(path, crate.name, "proofs", path.stem)
            for lemma in source.definitions:
                for key in named_in_statement(tree, source, lemma):
                    found.setdefault(key, []).append(lemma.name)
    return found


def named_in_statement(tree, source, lemma):
    """The definitions that a lemma's statement names."""
    lemma.clauses = lemma.clauses[:1]
    found = (tree.resolve(source, *it) for it in names_in(lemma, lambda word: False))
    return {it for it in found if isinstance(it, tuple)}


def edits_by_name(tree):
    """For each definition the edits in a function whose contract names it."""
    found = {}
    for crate in tree.crates.values():
        folders = (crate.folder.glob(f"{it}/*.edit") for it in ("must-fail", "refused"))
        for path in sorted(it for files in folders for it in files):
            for key in named_by_edit(tree, crate, path.read_text(encoding="utf-8")):
                found.setdefault(key, []).append(path.stem)
    return found


def named_by_edit(tree, crate, text):
    """The definitions that the contract names of the function that an edit changes; or those of a file of definitions that it changes."""
    name = re.search(r"^file: (\S+)", text, re.MULTILINE)[1]
    olds = re.findall(r"^old: (.*)$", text, re.MULTILINE)
    if name.startswith("specs/"):
        source = crate.specs[name.rpartition("/")[2].removesuffix(".antt")]
        return {it.key for it in source.definitions if any(old in "\n".join(it.lines) for old in olds)}
    file = crate.code[name.removeprefix("src/").removesuffix(".rt").replace("/", ".")]
    lines = {file.text.count("\n", 0, file.text.find(old)) + 1 for old in olds if old in file.text}
    changed = [it for it in file.functions if any(it.line <= line <= it.line + it.size for line in lines)]
    return {key for it in changed for key in tree.named_by_contract(file, it)}


def callers_by_name(tree):
    """For each definition the public functions whose contract names it, and which an example calls or a function with a contract of another crate."""
    found = {}
    for (crate, file, function), callers in callers_by_function(tree):
        if file.module in (LAWS, EXAMPLES) or not any(it.is_example or it.is_proved and it.crate != crate.name for it in callers):
            continue
        for key in tree.named_by_contract(file, function):
            found.setdefault(key, []).append(name_of(crate, file, function).rpartition("::")[2])
    return found


@cache
def holders_of(tree):
    """What holds each definition that is to be believed."""
    laws, rows, edits, callers = laws_by_name(tree), rows_by_name(tree), edits_by_name(tree), callers_by_name(tree)
    held = {}
    for key in sorted(filter(tree.is_believed, tree.definitions), key=tree.places.get):
        held[key] = Held(laws.get(key, []), rows.get(key, []), edits.get(key, []), callers.get(key, []))
    for note in notes_of(tree):
        for key in (it for name in note.names for it in meant_by(tree, note, name)):
            held[key].hand.append(f"{note.details}: {note.holders}" if note.details else note.holders)
    add_users(tree, held)
    return held


def add_users(tree, held):
    """Adds to each definition those that name it and are held."""
    users = {}
    for key in held:
        for word in tree.rests_on(key):
            users.setdefault(word, []).append(key)
    is_held = {key for key, it in held.items() if it.is_own}
    grows = True
    while grows:
        more = {key for key in held if key not in is_held and any(it in is_held for it in users.get(key, []))}
        is_held |= more
        grows = bool(more)
    for key, one in held.items():
        found = sorted((it for it in users.get(key, []) if it in is_held), key=tree.places.get)
        one.users = [tree.definitions[it].name for it in found]


def names_known(tree):
    """The names of functions, definitions and worked rows."""
    crates = [*tree.crates.values(), tree.tests]
    functions = {it.name for crate in crates for file in crate.code.values() for it in file.functions}
    return functions | set(tree.crates) | {name for _, name in tree.definitions} | {it for found in rows_of(tree) for it in found}


def rows_of(tree):
    """The names of worked rows, file by file."""
    for crate in tree.crates.values():
        for path in sorted(crate.folder.glob("proofs/**/*.antt")):
            if ROW_FILES.search(path.stem):
                yield [it.name for it in read_source(path, crate.name, "proofs", path.stem).definitions]


def faults(tree):
    """The definitions that nothing holds, and the notes that speak of none."""
    for key, held in holders_of(tree).items():
        if not held.is_own and not held.users:
            yield f"nothing holds {tree.definitions[key].where}: no law, worked row, edit or caller names it, and no note in {HAND}"
    yield from faults_of_notes(tree, HAND, notes_of(tree))


def faults_of_notes(tree, path, notes):
    """The notes that speak of what is not there."""
    known = names_known(tree)
    for note in notes:
        for name in sorted(set(re.findall(r"`([a-z]\w*_\w+)`", re.sub(r"\([^()]*\)", "", note.holders))) - known):
            yield f"{path}:{note.line} says that {name} holds something, which is not there"
        for name in sorted(set(re.findall(r"`(\w+\.rows)`", note.holders))):
            if not (tree.top / "tests/rows.d" / name).is_file():
                yield f"{path}:{note.line} says that {name} holds something, which is not there"
        for name in dict.fromkeys(note.names):
            found = len(meant_by(tree, note, name))
            if found != 1:
                yield f"{path}:{note.line} speaks of {name}, which {note.crate} defines {found} times to be believed (FILE.NAME says which)"
