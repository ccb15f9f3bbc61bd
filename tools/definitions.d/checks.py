"""What is wrong with the definitions that a reader must believe."""
import re

from closure import name_of
from sources import bound_in
from surface import public_facts, public_functions
from tree import Declared


def private_words(tree):
    """Each believed definition that names a private word, with that word."""
    for key in sorted(filter(tree.is_believed, tree.definitions), key=tree.places.get):
        for word in sorted(tree.through_types(tree.rests_on(key)) - {key}, key=tree.places.get):
            if not tree.is_believed(word):
                yield tree.definitions[key], tree.definitions[word]


def clauses_of_all(tree):
    """What each public contract names, with the contract's name."""
    traits = {it.name for it, (_, one) in tree.types.items() if one.kind == "trait"}
    for crate in tree.crates.values():
        for file, function in public_functions(crate):
            for clause in function.clauses:
                yield f"{name_of(crate, file, function)}.{clause.name or clause.kind}", tree.clause_rests_on(file, function, clause)
        for file, owner, text in public_facts(crate, traits):
            yield f"{crate.name}::{file.module.replace('.', '::')}::{owner}", tree.named_by_term(file, text, set())


def private_contracts(tree):
    """Each public contract that names a private word, with that word."""
    for name, found in clauses_of_all(tree):
        for word in sorted((it for it in found if not isinstance(it, Declared)), key=tree.places.get):
            if not tree.is_believed(word):
                yield name, tree.definitions[word]


def in_no_closure(tree):
    """The believed definitions that no public contract rests on."""
    found = tree.closure(set().union(*(it for _, it in clauses_of_all(tree))))
    return [tree.definitions[it] for it in sorted(filter(tree.is_believed, tree.definitions), key=tree.places.get) if it not in found]


def bound_twice(tree):
    """Each believed definition that binds a name which also means a definition, with that name: what it rests on can't be read off."""
    for key in sorted(filter(tree.is_believed, tree.definitions), key=tree.places.get):
        source = tree.sources[key[0]]
        for name in sorted(bound_in(tree.definitions[key], lambda word, source=source: tree.is_constructor(source, word))):
            if tree.resolve(source, name, None) not in (None, key):
                yield tree.definitions[key], name


def foreign_words(tree):
    """Each line of a crate that imports a private file of another, and that file."""
    for path in sorted(it for end in ("antt", "rt") for it in tree.top.glob(f"crates/*/*/**/*.{end}") if "out" not in it.parts):
        own = path.relative_to(tree.top).parts[1]
        for count, line in enumerate(path.read_text(encoding="utf-8").split("\n"), 1):
            for crate, file in re.findall(r"\bRattle\.(\w+)\.specs\.Private\.(\w+)", line):
                if crate != own:
                    yield f"{path.relative_to(tree.top)}:{count}", f"{crate}::{file}"


def faults(tree):
    """What is wrong, a line each."""
    for definition, name in bound_twice(tree):
        yield f"{definition.where} binds {name}, which is a definition too: what it rests on can't be read off"
    for definition, word in private_words(tree):
        yield f"{definition.where} is to be believed, and rests on the private word {word.where}"
    for name, word in private_contracts(tree):
        yield f"the public contract {name} cites the private word {word.where}"
    for place, file in foreign_words(tree):
        yield f"{place} imports {file}, which is private to its crate"
    for definition in in_no_closure(tree):
        yield f"{definition.where} is to be believed, and no public contract rests on it"
