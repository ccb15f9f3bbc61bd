"""Names that nothing uses: definitions, lemmas, functions, imports."""
import re

from callers import CALL
from holders import ROW_FILES
from sources import read_source
from taken import ANSWERS
from words import words_of

GHOST_USE = re.compile(r"ghost use [^;]*;")


def all_sources(tree):
    """The files of definitions and of proofs."""
    for crate in tree.crates.values():
        yield from crate.specs.values()
        for path in sorted(crate.folder.glob("proofs/**/*.antt")):
            if path.name != "Lib.antt":
                yield read_source(path, crate.name, "proofs", ".".join(path.relative_to(crate.folder / "proofs").with_suffix("").parts))


def spoken_in(definition):
    """The words of a definition, each with those after it that are its fields; its own head is left out."""
    words = words_of("\n".join([definition.outer, *definition.lines]))
    brackets = {"[]"} if "[" in {it.text for it in words} else set()
    return {it.text for it in words} | brackets | {f"{word.text}.{field.text}" for word, field in zip(words, words[2:]) if field.is_field}


def names_used(tree, sources):
    """The names that definitions, lemmas and contracts use, as (module, name)."""
    used = set()
    for source in sources:
        for definition in source.definitions:
            used |= {(source.module, it) for it in spoken_in(definition) if it != definition.name}
            used |= meant_by_words(source, spoken_in(definition))
    for crate in tree.crates.values():
        for file in crate.code.values():
            words = {it.text for it in words_of(GHOST_USE.sub("", file.text))}
            used |= meant_by_words(tree.ghost_source(file), words | {"[]"} | {part for it in words for part in it.split("::")})
    return used


def meant_by_words(source, words):
    """What words mean by a file's imports: an operator is meant where its sign stands."""
    found = {source.imports[it] for it in words if it in source.imports}
    found |= {it for name, it in source.imports.items() if "◌" in name and any(part in words for part in name.split("◌") if part)}
    for word in words:
        alias, _, name = word.partition(".")
        if name and alias in source.modules:
            found.add((source.modules[alias], name))
    return found


def owners(used):
    """The names with those of the data whose cases are used: `Data.case` of a module uses `Data`."""
    return used | {tuple(module.rsplit(".", 1)) for module, _ in used if "." in module}


def unused_definitions(sources, used):
    """Definitions and lemmas that nothing names, but for answers of proofs and worked rows."""
    for source in sources:
        if source.path.name in ANSWERS or ROW_FILES.search(source.path.stem):
            continue
        for definition in source.definitions:
            cases = {(source.module, it.name) for it in definition.parts} if definition.kind == "data" else set()
            if definition.key not in used and not cases & used:
                yield f"{source.path}:{definition.line}: nothing names {definition.name}"


def is_common(source):
    """The file passes on names from one place, and declares nothing."""
    return source.path.name == "Common.antt"


def unused_imports(sources):
    """Imports that their file does not use."""
    cited = {(source.crate, target) for source in sources if source.folder == "proofs" and not is_common(source) for target in source.imports.values()}
    for source in sources:
        if is_common(source):
            yield from (f"{source.path}: nothing imports {name}" for name, target in sorted(source.imports.items()) if (source.crate, target) not in cited)
            continue
        words = set().union(*(spoken_in(it) for it in source.definitions)) if source.definitions else set()
        meant = meant_by_words(source, words)
        for name, target in sorted(source.imports.items()):
            if target not in meant:
                yield f"{source.path}: the import {name} is not used"
        for alias in sorted(set(source.modules) - {it.partition(".")[0] for it in words}):
            yield f"{source.path}: the import {alias} is not used"


def unused_functions(tree):
    """Functions of the code that are not handed out and that nothing calls."""
    called, spoken = set(), set()
    for crate in tree.crates.values():
        for file in crate.code.values():
            for function in file.functions:
                called |= {name for _, name in CALL.findall(function.body) if name != function.name}
                spoken |= {(crate.name, it.text) for it in words_of(function.body)}
    for crate in tree.crates.values():
        for file in crate.code.values():
            for one in file.functions:
                is_own = one.trait == "" and not one.is_public and one.name != "main" and not is_test(file, one)
                if is_own and one.name not in called and (crate.name, one.name) not in spoken:
                    yield f"{file.path}:{one.line}: nothing calls {one.name}"


def is_test(file, function):
    """The function is a test, by the line before it."""
    before = file.text.split("\n")[max(0, function.line - 3):function.line]
    return any("test" in line for line in before if line.strip().startswith("#["))


def print_all(tree):
    """Prints what nothing uses."""
    sources = list(all_sources(tree))
    used = owners(names_used(tree, sources))
    for line in [*unused_definitions(sources, used), *unused_imports(sources), *unused_functions(tree)]:
        print(line.replace(f"{tree.top}/", "", 1))
