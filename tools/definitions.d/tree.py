"""The definitions and contracts of the whole repository, and what each rests on."""
import re
from dataclasses import dataclass, field
from pathlib import Path

from kinds import Kind
from rust import cleaned, read_rust
from sources import Source, add_import, free_names, names_in, read_source
from words import locals_of, words_of

LAW_FILES = re.compile(r"Laws$")
# The folders of definitions: what a reader must believe, what proofs of other crates may cite, and private words.
FOLDERS = ("Public", "Shared", "Private")


@dataclass(frozen=True)
class Declared:
    """A type of the code, or a trait, as contracts and definitions name it."""
    crate: str
    name: str

    @property
    def where(self):
        return f"{self.crate}::{self.name}"


@dataclass
class Crate:
    """A crate: its files of definitions and of code, and the order in which specs/Public.antt, specs/Shared.antt and specs/Private.antt list the former."""
    name: str
    folder: Path
    believed: list = field(default_factory=list)
    shared: list = field(default_factory=list)
    private: list = field(default_factory=list)
    specs: dict = field(default_factory=dict)
    code: dict = field(default_factory=dict)


class Tree:
    """The repository as read: `top` is its folder."""

    def __init__(self, top):
        self.top = Path(top)
        self.crates = {it.name: it for it in map(self.read_crate, crate_names(self.top)) if it}
        self.tests = self.read_tests()
        self.definitions = {}
        self.sources = {}
        self.constructors = {}
        self.types = {}
        for crate in self.crates.values():
            for source in crate.specs.values():
                self.add_source(source)
            for file in crate.code.values():
                for one in file.types:
                    self.types[Declared(crate.name, one.name)] = (file, one)
        self.kept = {}
        self.places = {}
        self.number_places()

    def read_crate(self, name):
        """Reads a crate; none where it has no code."""
        folder = self.top / "crates" / name
        if not (folder / "src").is_dir():
            return None
        crate = Crate(name, folder)
        crate.believed, crate.shared, crate.private = (listed_in(folder / f"specs/{it}.antt") for it in FOLDERS)
        for path in sorted(folder.glob("specs/*/*.antt")):
            crate.specs[path.stem] = read_source(path, name, f"specs.{path.parent.name}", path.stem)
        for path in sorted(folder.glob("src/**/*.rt")):
            module = ".".join(path.relative_to(folder / "src").with_suffix("").parts)
            crate.code[module] = read_rust(path, name, module)
        return crate

    def read_tests(self):
        """Reads the tests of the libraries, which nothing proves."""
        tests = Crate("library_tests", self.top / "tests/library.d")
        for path in sorted(tests.folder.rglob("*.rs")):
            module = ".".join(path.relative_to(tests.folder).with_suffix("").parts)
            tests.code[module] = read_rust(path, tests.name, module)
        return tests

    def add_source(self, source):
        """Adds what a file defines, and the cases of its data."""
        self.sources[source.module] = source
        for definition in source.definitions:
            self.definitions[definition.key] = definition
            if definition.kind == "data":
                for case in definition.parts:
                    self.constructors[(source.module, case.name)] = definition.key
                    self.constructors[(f"{source.module}.{definition.name}", case.name)] = definition.key

    def number_places(self):
        """Gives each definition its place in reading order: after all it uses, crate by crate, file by file."""
        place = 0
        for crate in self.crates.values():
            for file in self.files_in_order(crate):
                for definition in sorted(crate.specs[file].definitions, key=lambda it: it.line):
                    self.places[definition.key] = place
                    place += 1

    def files_in_order(self, crate):
        """The crate's files of definitions, each after those that it imports, else as they are listed."""
        order, seen = [], set()

        def visit(file):
            if file in seen or file not in crate.specs:
                return
            seen.add(file)
            source = crate.specs[file]
            named = [module for module, _ in source.imports.values()] + list(source.modules.values())
            for module in named:
                parts = module.split(".")
                if parts[:2] == [crate.name, "specs"] and len(parts) > 3 and parts[2] in FOLDERS:
                    visit(parts[3])
            order.append(file)

        for file in [*crate.believed, *crate.shared, *crate.private, *crate.specs]:
            visit(file)
        return order

    def is_law(self, key):
        """The definition stands in a file of laws."""
        return bool(LAW_FILES.search(self.definitions[key].file))

    def is_believed(self, key):
        """The definition stands in a file that a reader must believe."""
        definition = self.definitions[key]
        return definition.file in self.crates[definition.crate].believed

    def target(self, module, name):
        """What an import names: a definition by its key, a type of the code, or nothing of this repository."""
        if (module, name) in self.definitions:
            return (module, name)
        if (module, name) in self.constructors:
            return self.constructors[(module, name)]
        parts = module.split(".")
        if len(parts) > 2 and parts[1:3] == ["specs", "declared"] and parts[0] in self.crates:
            return self.declared_at(parts, name)
        return None

    def declared_at(self, parts, name):
        """The type that a path of `declared` names, or one of its variants; a constant is none."""
        if "TheConstants" in parts:
            return None
        named = [] if "TheVariants" in parts else [name]
        for one in [*named, *reversed(parts[3:])]:
            if Declared(parts[0], one) in self.types:
                return Declared(parts[0], one)
        raise ValueError(f"no type is declared at {'.'.join(parts)}.{name}")

    def resolve(self, source, word, follows):
        """What a name of a file means."""
        own = self.target(source.module, word)
        if own:
            return own
        if word in source.imports:
            return self.target(*source.imports[word])
        if word in source.modules and follows:
            return self.target(source.modules[word], follows)
        return None

    def is_constructor(self, source, word):
        """The word is a case of data, or a value that is none of the file's variables."""
        return (source.module, word) in self.constructors or word in source.imports or word in source.modules

    def rests_on(self, item):
        """What a definition or a type of the code names directly."""
        if item not in self.kept:
            self.kept[item] = self.named_by_type(item) if isinstance(item, Declared) else self.named_by_definition(item)
        return self.kept[item]

    def named_by_definition(self, key):
        """What a definition names."""
        source = self.sources[key[0]]
        found = (self.resolve(source, *it) for it in names_in(self.definitions[key], lambda word: self.is_constructor(source, word)))
        return {it for it in found if it and it != key}

    def named_by_type(self, declared):
        """What a type of the code is for contracts: what its model is, or the types of its fields; of a trait, what it declares."""
        file, one = self.types[declared]
        for (owner, trait), ghosts in file.models.items():
            if owner == declared.name and trait == "Model":
                return self.named_by_term(file, ghosts["Value"], set())
            if owner == declared.name and trait == "trait":
                return set().union(*(self.named_by_term(file, it, set()) for it in ghosts.values()))
        return self.types_in(file, one.text) - {declared}

    def named_by_term(self, file, text, hidden):
        """What a term in a file of code names."""
        source = self.ghost_source(file)
        words = words_of(text)
        found = set()
        for word, follows in free_names(words, hidden | locals_of(words)):
            meant = self.resolve(source, word, follows) or self.type_named(file, word)
            if meant:
                found.add(meant)
        return found

    def ghost_source(self, file):
        """The names that a file of code imports for its contracts."""
        if file.path not in self.kept:
            self.kept[file.path] = self.read_ghost_uses(file)
        return self.kept[file.path]

    @staticmethod
    def read_ghost_uses(file):
        """Reads the imports of a file of code for its contracts."""
        source = Source(file.crate, "src", file.module, file.path)
        for line in file.ghost_uses:
            add_import(source, "use " + " ".join(line.split()))
        return source

    def types_in(self, file, text):
        """The types of the repository that a text of code names."""
        found = {self.type_named(file, name) for name in re.findall(r"[A-Z]\w*", cleaned(text))}
        return {it for it in found if it}

    def type_named(self, file, name):
        """The type with the name that the file means: its own, one that it imports, or one of its crate."""
        if not name[:1].isupper():
            return None
        wanted = [file.crate] + [crate for crate in self.crates for line in file.uses if line.startswith(f"{crate}::") and re.search(rf"\b{re.escape(name)}\b", line)]
        named = "\n".join(file.uses)
        is_own = any(it.name == name for it in file.types)
        if not is_own and not re.search(rf"\b{re.escape(name)}\b", named):
            return None
        for crate in ([file.crate] if is_own else reversed(wanted)):
            if Declared(crate, name) in self.types:
                return Declared(crate, name)
        return None

    def model_of(self, declared):
        """The type that contracts see in place of a type of the code, where it has a model."""
        file, one = self.types[declared]
        for (owner, trait), ghosts in file.models.items():
            if owner == declared.name and trait == "Model":
                return Kind(self.ghost_source(file), tuple(words_of(ghosts["Value"])))
        return None

    def closure(self, start):
        """All that these items rest on, themselves included."""
        found, waiting = set(), list(start)
        while waiting:
            item = waiting.pop()
            if item not in found:
                found.add(item)
                waiting += self.rests_on(item)
        return found

    def through_types(self, items):
        """The definitions among these items, and those that types of the code among them are for contracts."""
        found, seen, waiting = set(), set(), list(items)
        while waiting:
            item = waiting.pop()
            if not isinstance(item, Declared):
                found.add(item)
            elif item not in seen:
                seen.add(item)
                waiting += self.rests_on(item)
        return found

    def named_by_contract(self, file, function):
        """The definitions that a contract names."""
        key = (file.path, function.line)
        if key not in self.kept:
            self.kept[key] = self.through_types({it for clause in function.clauses for it in self.clause_rests_on(file, function, clause)})
        return self.kept[key]

    def clause_rests_on(self, file, function, clause):
        """What a clause of a contract names, and the types of the values that it speaks of."""
        values, types = values_of(function), set()
        words = words_of(clause.text)
        for word in words:
            if not word.is_field and word.text in values:
                types |= self.types_in(file, values[word.text])
        bounds = re.search(r"<([^()]*)>\(", function.head.split("(")[0] + "(")
        for word in words:
            bound = bounds and re.search(rf"\b{re.escape(word.text)}: (\w+)", bounds[1]) if word.text[:1].isupper() else None
            if bound:
                types |= self.types_in(file, bound[1])
        return types | self.named_by_term(file, clause.text, set(values))


def values_of(function):
    """The values that a contract speaks of, each with the text of its type."""
    params, result = function.head.partition("(")[2], function.head.rpartition("->")[2]
    values = {name: kind for name, kind in re.findall(r"(\w+)\s*:\s*([^,]+)", params)}
    values["result"] = result if "->" in function.head else ""
    values["self"] = function.owner
    if re.search(r"\bSelf\b", values["result"]):
        values["result"] += " " + function.owner
    return values


def crate_names(top):
    """The crates in the order in which they stand on each other, those below first."""
    lines = (top / "crates.txt").read_text(encoding="utf-8").split("\n")
    return [line.split(":")[0].strip() for line in lines if ":" in line and not line.startswith("#")]


def listed_in(path):
    """The files of definitions that a list names; none where there is no list."""
    text = path.read_text(encoding="utf-8") if path.is_file() else ""
    return re.findall(r"^pub mod (\w+)", text, re.MULTILINE)
