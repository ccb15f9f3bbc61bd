"""The fields and cases of definitions to be believed that nothing takes apart."""
from dataclasses import dataclass

import kinds
from checks import in_no_closure
from holders import Note, all_notes, faults_of_notes, meant_by
from taken import taken_in

HAND = "docs/not-taken-apart.txt"


@dataclass(frozen=True)
class Untaken:
    """A field, a case, or a component of a product that nothing takes apart."""
    key: tuple
    part: str
    is_component: bool


def untaken_in(tree):
    """All that nothing takes apart of the definitions that public contracts rest on, in reading order."""
    taken = taken_in(tree)
    found = taken.sure | taken.perhaps
    aside = {it.key for it in in_no_closure(tree)}
    for key in sorted(filter(tree.is_believed, tree.definitions), key=tree.places.get):
        if key not in aside:
            yield from untaken_of(tree.definitions[key], found)


def untaken_of(definition, found):
    """What nothing takes apart of a definition."""
    key = definition.key
    names = [it.name for it in definition.parts]
    used = with_witnesses(definition, {name for name in names if (key, name) in found})
    yield from (Untaken(key, name, False) for name in names if name not in used)
    if definition.kind not in ("record", "data"):
        for place, clause in enumerate(definition.clauses[1:], 1):
            parts = kinds.components(kinds.sides(clause)[1])
            yield from (Untaken(key, f"{place}.{at}", True) for at in range(len(parts)) if (key, f"{place}.{at}") not in found)


def with_witnesses(definition, used):
    """The fields with those that the type of a used one speaks of."""
    grows = definition.kind == "record"
    while grows:
        spoken = {word.text for part in definition.parts if part.name in used for word in part.words if not word.is_field}
        more = {part.name for part in definition.parts if part.name in spoken} - used
        used, grows = used | more, bool(more)
    return used


def reasons_of(tree):
    """The reasons that are given: (definition, name of the field or case, or empty for all) with their notes."""
    found = {}
    for note in all_notes(tree, HAND):
        for name in note.names:
            bare, part = parted(tree, note, name)
            for key in meant_by(tree, note, bare):
                found[(key, part)] = note
    return found


def parted(tree, note, name):
    """The name of a definition, perhaps with its file, and that of its field or case: `IsGame`, `IsGame.ends`, `Games.IsGame`, `Games.IsGame.ends`."""
    words = name.split(".")
    size = 1 if len(words) < 3 and (len(words) == 1 or meant_by(tree, note, words[0]) or words[0] not in tree.crates[note.crate].specs) else 2
    return ".".join(words[:size]), ".".join(words[size:])


def faults(tree):
    """The fields and cases without a reason, and the reasons without need."""
    reasons, needed = reasons_of(tree), set()
    for one in untaken_in(tree):
        given = {(one.key, one.part), (one.key, "")} & set(reasons)
        needed |= given
        if not one.is_component and not given:
            yield f"nothing takes apart {tree.definitions[one.key].where}.{one.part}: no lemma, law, example or caller, and no reason in {HAND}"
    for reason in sorted(set(reasons) - needed, key=lambda it: reasons[it].line):
        yield f"{HAND}:{reasons[reason].line} gives a reason for {'.'.join(filter(None, [reason[0][1], reason[1]]))}, which needs none"
    notes = [Note(it.crate, [parted(tree, it, name)[0] for name in it.names], "", it.holders, it.line) for it in all_notes(tree, HAND)]
    yield from faults_of_notes(tree, HAND, notes)


def print_all(tree):
    """Prints all that nothing takes apart; of products, as far as the types in proofs are known."""
    for one in untaken_in(tree):
        note = " (of a product: clause and component; types that the prover makes are not seen)" if one.is_component else ""
        print(f"{tree.definitions[one.key].where}.{one.part}{note}")
