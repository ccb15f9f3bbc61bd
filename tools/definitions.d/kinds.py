"""Types as they stand in a file, as far as it takes to say whose field a field is."""
from dataclasses import dataclass
from functools import cache

from words import is_name, words_of

OPENING, CLOSING = frozenset("([{"), frozenset(")]}")


@dataclass(frozen=True)
class Kind:
    """A type as it stands: the file whose names it uses, and its words."""
    source: object
    words: tuple

    def __hash__(self):
        return id(self)


def split(words, mark):
    """The stretches of words between the marks that stand in no brackets."""
    parts, depth = [[]], 0
    for word in words:
        depth += (word.text in OPENING) - (word.text in CLOSING)
        if depth == 0 and word.text == mark:
            parts.append([])
        else:
            parts[-1].append(word)
    return parts


def groups(words):
    """The words by brackets: each bracket with what it holds is one, and each word outside brackets."""
    found, depth = [], 0
    for word in words:
        if depth:
            found[-1].append(word)
        else:
            found.append([word])
        depth += (word.text in OPENING) - (word.text in CLOSING)
    return found


def group_at(words, place):
    """The bracket that begins at the place, with what it holds."""
    depth = 0
    for end in range(place, len(words)):
        depth += (words[end].text in OPENING) - (words[end].text in CLOSING)
        if depth == 0:
            return words[place:end + 1]
    return words[place:]


def bare(words):
    """The words without brackets around all of them that bind no name and hold no tuple."""
    while words and words[0].text == "(" and words[-1].text == ")" and len(groups(words)) == 1 and all(len(split(words[1:-1], mark)) == 1 for mark in ":,"):
        words = words[1:-1]
    return words


def binder(group):
    """The names and the type of `(a b : T)` or `{a b : T}`; no names where the group is none."""
    if group[0].text not in "({" or len(group) < 4 or not any(it.text == ":" for it in group):
        return [], []
    names, *rest = split(group[1:-1], ":")
    if not rest or not all(is_name(it.text) or it.text == "_" for it in names):
        return [], []
    return [it.text for it in names], group[len(names) + 2:-1]


def components(words):
    """The components of a product, `(x y : A) × B` being three; none where it is no product."""
    if not any(it.text == "×" for it in words):
        return []
    parts = split(bare(list(words)), "×")
    if len(parts) < 2 or len(split(bare(list(words)), "→")) > 1:
        return []
    found = []
    for part in parts:
        names, kind = binder(part) if len(groups(part)) == 1 else ([], [])
        found += [kind] * len(names) if names else [part]
    return found


def arguments(words):
    """The arguments of a function's type, each as (is implicit, name, words), and the words of its result."""
    *before, result = split(bare(list(words)), "→")
    found = []
    for part in before:
        inner = groups(part)
        bound = [(group[0].text == "{", *binder(group)) for group in inner]
        if inner and all(names for _, names, _ in bound):
            found += [(is_implicit, name, kind) for is_implicit, names, kind in bound for name in names]
        else:
            found.append((False, "", part))
    return found, result


def signature(definition):
    """The words of a definition's type, without its name."""
    text = definition.clauses[0] if definition.clauses else ""
    words = words_of(text)
    place = next((at for at, word in enumerate(words) if word.text == ":" and at), len(words))
    return words[place + 1:]


@cache
def sides(clause):
    """The words of a clause before and after its equals sign."""
    before, *after = split(words_of(clause), "=")
    return before, [it for part in after for it in part]
