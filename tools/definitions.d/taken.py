"""Which fields and cases lemmas, laws, examples and callers take apart."""
from dataclasses import dataclass, field

from callers import CALL
from kinds import Kind, arguments, bare, binder, components, group_at, groups, sides, signature, split
from sources import Source, goes_on, read_lines, read_source
from words import is_name, words_of

# The files of a proof's answers, what their goals call what they give, and after which of its parts come values and facts.
ANSWERS = ("Answers.antt", "Invariants.antt")
GOAL_NAMES = ("c", "g", "l", "h")
GOAL_MARKS = ("ensures", "requires", "now", "old", "new", "entry", "result")


@dataclass
class Taken:
    """What is taken apart: (key of the definition, name of the field or case, or number of the component); and by name, where the type is not known, the
    definitions that may be meant."""
    tree: object
    sure: set = field(default_factory=set)
    perhaps: set = field(default_factory=set)
    lemmas: dict = field(default_factory=dict)
    owners: dict = field(default_factory=dict)


@dataclass
class Place:
    """Where words stand: the file, the types of its names as far as they are known, and the definitions that may be meant there."""
    source: object
    names: dict
    near: set


def head(taken, kind):
    """The definition that a type begins with; nothing where it is a product, a function, or something else."""
    words = bare(list(kind.words)) if kind else []
    if not words or len(split(words, "→")) > 1 or len(split(words, "×")) > 1:
        return None
    follows = words[1].text if len(words) > 1 and words[1].is_field else None
    found = taken.tree.resolve(kind.source, words[0].text, follows)
    if found is None or isinstance(found, tuple):
        return taken.tree.definitions.get(found)
    model = taken.tree.model_of(found)
    return head(taken, model) if model else None


def project(taken, kind, name):
    """The type of a field of a value of the type; that it is taken is noted."""
    if kind is None:
        return None
    parts = components(kind.words)
    if parts:
        return Kind(kind.source, tuple(parts[int(name)])) if name.isdigit() and int(name) < len(parts) else None
    definition = head(taken, kind)
    if definition is None:
        return None
    source = taken.tree.sources.get(definition.key[0]) or kind.source
    for part in definition.parts if definition.kind == "record" else []:
        if part.name == name:
            taken.sure.add((definition.key, name))
            return Kind(source, tuple(split(part.words, ":")[1]) if len(split(part.words, ":")) == 2 else tuple(after_colon(part.words)))
    return project_body(taken, definition, source, name)


def after_colon(words):
    """The words after the first colon."""
    place = next(at for at, it in enumerate(words) if it.text == ":")
    return words[place + 1:]


def project_body(taken, definition, source, name):
    """The type of a component of what an abbreviation stands for."""
    if definition.kind in ("record", "data") or definition.name in source.definitions[:0]:
        return None
    found = None
    for place, clause in enumerate(definition.clauses[1:], 1):
        body = Kind(source, tuple(sides(clause)[1]))
        parts = components(body.words)
        if parts and name.isdigit() and int(name) < len(parts):
            taken.sure.add((definition.key, f"{place}.{name}"))
            found = found or Kind(source, tuple(parts[int(name)]))
        elif not parts and len(definition.clauses) == 2 and head(taken, body) is not definition:
            return project(taken, body, name)
    return found


def match(taken, place, pattern, kind):
    """Binds the names of a pattern, and notes the cases and components that it takes apart."""
    pattern = bare(pattern)
    if pattern and pattern[0].text in "{[" and len(groups(pattern)) == 1:
        pattern, kind = pattern[1:-1], None
    if not pattern:
        return
    if pattern[0].text == "(" and len(groups(pattern)) == 1:
        for at, part in enumerate(split(pattern[1:-1], ",")):
            is_kept = [it.text for it in part] != ["_"]
            match(taken, place, part, project(taken, kind, str(at)) if is_kept else None)
        return
    key = constructor(taken, place.source, pattern)
    if key:
        taken.sure.add(key)
        inner = [it for it in groups(pattern)[1:] if not it[0].is_field and it[0].text not in ".,"]
        kinds = case_kinds(taken, key)
        for at, part in enumerate(inner):
            match(taken, place, part, kinds[at] if at < len(kinds) else None)
    elif len(pattern) == 1 and is_name(pattern[0].text):
        place.names[pattern[0].text] = kind
    else:
        for part in groups(pattern):
            if len(part) > 1:
                match(taken, place, part, None)
            elif is_name(part[0].text) and not part[0].is_field:
                place.names[part[0].text] = None


def constructor(taken, source, pattern):
    """The case of data that a pattern begins with."""
    word = pattern[0].text
    follows = pattern[2].text if len(pattern) > 2 and pattern[2].is_field else None
    for module, name in filter(None, [source.imports.get(word), (source.module, word), (source.modules.get(word), follows) if follows else None]):
        owner = taken.tree.constructors.get((module, name))
        if owner:
            return (owner, name)
    return None


def case_kinds(taken, key):
    """The types of what a case holds."""
    definition = taken.tree.definitions[key[0]]
    part = next(it for it in definition.parts if it.name == key[1])
    return [Kind(taken.tree.sources[key[0][0]], tuple(words)) for is_implicit, _, words in arguments(after_colon(part.words))[0] if not is_implicit]


def walk(taken, place, words):
    """Notes what a term takes apart, from left to right."""
    at = 0
    while at < len(words):
        word = words[at]
        if word.text == "let" and at + 2 < len(words):
            bind_let(taken, place, words, at)
        elif word.text == "λ":
            bind_lambda(taken, place, words, at)
        elif word.text == "|":
            bind_case(taken, place, words, at)
        elif is_name(word.text) and not word.is_field and not word.is_label or word.text == ")":
            chain(taken, place, words, at)
        at += 1


def bind_let(taken, place, words, at):
    """Binds the name of a `let`."""
    name = words[at + 1].text
    if words[at + 2].text == ":":
        end = next((it for it in range(at + 3, len(words)) if words[it].text == "="), len(words))
        place.names[name] = Kind(place.source, tuple(words[at + 3:end]))
    else:
        place.names[name] = type_of(taken, place, until_in(words, at + 3))


def until_in(words, at):
    """The words up to the `in` that closes a `let`."""
    depth, found = 0, []
    for word in words[at:]:
        depth += (word.text in OPENINGS) - (word.text in CLOSINGS)
        if depth == 0 and word.text == "in" or depth < 0:
            return found
        found.append(word)
    return found


OPENINGS, CLOSINGS = ("(", "[", "{", "let"), (")", "]", "}", "in")


def type_of(taken, place, words):
    """The type of a term, where it is a name with fields or a call of a lemma."""
    words = bare(words)
    if not words or not is_name(words[0].text):
        return None
    kind = place.names.get(words[0].text)
    if kind is None and words[0].text not in place.names:
        return result_of(taken, place, words[0].text)
    inner = [it for it in words[1:] if it.text != "."]
    if not all(it.is_field for it in inner):
        return None
    for it in inner:
        kind = project(taken, kind, it.text)
    return kind


def result_of(taken, place, name):
    """The type of what a lemma answers."""
    module, own = place.source.imports.get(name, (place.source.module, name))
    found = taken.lemmas.get((module, own))
    return Kind(found[0], tuple(arguments(signature(found[1]))[1])) if found else None


def bind_lambda(taken, place, words, at):
    """Binds the names after a lambda: those with a type, and those without."""
    end = next((it for it in range(at + 1, len(words)) if words[it].text == "." and (it + 1 == len(words) or not words[it + 1].is_field)), len(words))
    for group in groups(words[at + 1:end]):
        names, kind = binder(group)
        if names:
            place.names.update({it: Kind(place.source, tuple(kind)) for it in names})
        else:
            match(taken, place, group, None)


def bind_case(taken, place, words, at):
    """Binds the pattern of a case of an `elim`."""
    end = next((it for it in range(at + 1, len(words)) if words[it].text in ("↦", "|", "]")), len(words))
    if end < len(words) and words[end].text == "↦":
        match(taken, place, words[at + 1:end], None)


def chain(taken, place, words, at):
    """Notes the fields that follow a name or a call in parentheses."""
    fields = []
    while at + 2 * len(fields) + 2 < len(words) and words[at + 2 * len(fields) + 1].text == "." and words[at + 2 * len(fields) + 2].is_field:
        fields.append(words[at + 2 * len(fields) + 2].text)
    if not fields:
        return
    root = words[at].text
    kind = type_of(taken, place, list(group_before(words, at))) if root == ")" else place.names.get(root)
    for depth, name in enumerate(fields):
        if kind is None and can_be_field(place.source, root, fields[:depth]):
            is_answer = place.source.path.name in ANSWERS
            taken.perhaps |= {(it, name) for it in taken.owners.get(name, []) if it in place.near or len(taken.owners[name]) == 1 and not is_answer}
        kind = project(taken, kind, name)


def can_be_field(source, root, before):
    """A name after these can be the field of a definition: in answers of proofs what comes from the goal is one only after what a contract says or a value."""
    return source.path.name not in ANSWERS or root not in GOAL_NAMES or any(it in GOAL_MARKS for it in before)


def group_before(words, at):
    """The words in the parentheses that end at the place."""
    depth = 0
    for begin in range(at, -1, -1):
        depth += (words[begin].text in ")]}") - (words[begin].text in "([{")
        if depth == 0:
            return words[begin + 1:at]
    return []


def read_definition(taken, source, definition, names, near):
    """Notes what a definition or a lemma takes apart."""
    outer = dict(names)
    for group in groups(words_of(definition.outer)):
        bound, kind = binder(group)
        outer.update({it: Kind(source, tuple(kind)) for it in bound})
    if definition.kind in ("record", "data"):
        walk(taken, Place(source, bound_in(source, words_of("\n".join(definition.lines)), outer), near), words_of("\n".join(definition.lines)))
        return
    types = signature(definition)
    walk(taken, Place(source, bound_in(source, types, outer), near), types)
    for clause in definition.clauses[1:]:
        read_clause(taken, Place(source, dict(outer), near), types, clause)


def bound_in(source, words, names):
    """The names with those that groups of the words bind."""
    found = dict(names)
    for place, word in enumerate(words):
        if word.text in "({":
            bound, kind = binder(group_at(words, place))
            found.update({it: Kind(source, tuple(kind)) for it in bound})
    return found


def read_clause(taken, place, types, clause):
    """Notes what a clause takes apart: its patterns, its term, and the lemmas of its own."""
    clause, inner = without_own(place.source, clause)
    before, after = sides(clause)
    patterns = [it for it in groups(before)[1:]]
    wanted, result = arguments(types)
    explicit = [it for it in wanted if not it[0]] + unfolded(taken, place.source, result)
    implicit = [it for it in wanted if it[0]]
    for pattern in patterns:
        queue = implicit if pattern[0].text == "{" else explicit
        _, _, kind = queue.pop(0) if queue else (False, "", [])
        source = place.source if not isinstance(kind, Kind) else kind.source
        words = kind.words if isinstance(kind, Kind) else tuple(kind)
        match(taken, place, pattern[1:-1] if pattern[0].text == "{" else pattern, Kind(source, words) if words else None)
    for definition in inner:
        read_definition(taken, place.source, definition, place.names, place.near)
    walk(taken, place, after)


def unfolded(taken, source, result):
    """The arguments of the statement that a lemma's result names."""
    definition = head(taken, Kind(source, tuple(result)))
    if definition is None or definition.kind in ("record", "data") or len(definition.clauses) != 2:
        return []
    own = taken.tree.sources.get(definition.key[0], source)
    return [(False, name, Kind(own, tuple(kind))) for is_implicit, name, kind in arguments(sides(definition.clauses[1])[1])[0] if not is_implicit]


def without_own(source, clause):
    """A clause without the lemmas of its own after `where`, and these."""
    lines = clause.split("\n")
    place = next((at for at, line in enumerate(lines) if line.strip() == "where" or at and line.endswith(" where")), None)
    if place is None or not lines[place + 1:]:
        return clause, []
    margin = min(len(line) - len(line.lstrip()) for line in lines[place + 1:] if line.strip())
    own = Source(source.crate, source.folder, source.file, source.path)
    read_lines(own, [(at, line[margin:]) for at, line in enumerate(lines[place + 1:])])
    for definition in own.definitions:
        definition.clauses = [it for it in clauses_in(definition)]
    return "\n".join(lines[:place]), own.definitions


def clauses_in(definition):
    """The clauses of a lemma of a clause's own."""
    clauses = []
    for line in definition.lines:
        if clauses and goes_on(line):
            clauses[-1] += "\n" + line
        elif not line.startswith("unfolding "):
            clauses.append(line)
    return clauses


def near_of(tree, source):
    """The definitions that a file names, and those that stand near an answer of a proof: which the contracts of its file of code name."""
    found = {it for it in (tree.target(*one) for one in source.imports.values()) if isinstance(it, tuple)}
    if source.path.name in ANSWERS:
        parts = source.path.relative_to(tree.crates[source.crate].folder / "proofs").parts
        for size in range(len(parts), 0, -1):
            file = tree.crates[source.crate].code.get(".".join(parts[:size]))
            if file:
                found |= named_around(tree, file)
                break
    return found | {it for one in found for it in tree.through_types(tree.rests_on(one))}


def named_around(tree, file):
    """The definitions that the contracts of a file of code name, and those of the functions that it calls by a name that the crates have."""
    called = {name for one in file.functions for _, name in CALL.findall(one.body)}
    pairs = [(file, one) for one in file.functions]
    pairs += [(other, one) for crate in tree.crates.values() for other in crate.code.values() for one in other.functions if one.name in called and one.is_public]
    return {it for other, one in pairs for it in tree.named_by_contract(other, one)}


def taken_in(tree):
    """What the proofs, the definitions and the contracts of the repository take apart."""
    taken = Taken(tree)
    for definition in tree.definitions.values():
        for part in definition.parts if definition.kind == "record" else []:
            taken.owners.setdefault(part.name, []).append(definition.key)
    sources = [source for crate in tree.crates.values() for source in crate.specs.values()]
    for crate in tree.crates.values():
        for path in sorted(crate.folder.glob("proofs/**/*.antt")):
            if path.name != "Lib.antt":
                file = ".".join(path.relative_to(crate.folder / "proofs").with_suffix("").parts)
                sources.append(read_source(path, crate.name, "proofs", file))
    taken.lemmas = {it.key: (source, it) for source in sources for it in source.definitions}
    for source in sources:
        near = near_of(tree, source)
        for definition in source.definitions:
            read_definition(taken, source, definition, {}, near)
    for crate in tree.crates.values():
        for file in crate.code.values():
            read_contracts(taken, crate, file)
    return taken


def read_contracts(taken, crate, file):
    """Notes what the contracts of a file of code take apart."""
    source = taken.tree.ghost_source(file)
    for function in file.functions:
        near = taken.tree.named_by_contract(file, function)
        for clause in function.clauses:
            words = words_of(clause.text)
            walk(taken, Place(source, bound_in(source, words, {}), near | {it for one in near for it in taken.tree.through_types(taken.tree.rests_on(one))}), words)
