"""Cuts texts of specs, proofs and contracts into words."""
import re
from functools import cache
from typing import NamedTuple

WORD = re.compile(r'--[^\n]*|"(?:\\.|[^"\\\n])*"|[(){}\[\];,.λ]|[^\s(){}\[\];,."λ]+')
OPERATORS = {":", "=", "→", "|", "↦", "×", "_", "-", "¬", "⊥", "→"}


class Word(NamedTuple):
    """A word of a text: whether it is a field of what stands before it, and whether it only labels what follows."""
    text: str
    is_field: bool
    is_label: bool


@cache
def words_of(text):
    """The words of a text, without comments and strings; not to be changed."""
    found = [it for it in WORD.finditer(text) if not it[0].startswith(("--", '"'))]
    return [Word(it[0], is_field(text, it), is_label(found, place)) for place, it in enumerate(found)]


def is_field(text, found):
    """A field follows a point without a blank, which follows what has the field without a blank."""
    at = found.start()
    return at > 1 and text[at - 1] == "." and not text[at - 2].isspace() and text[at - 2] not in "([{,;λ"


def is_label(found, place):
    """A label stands in braces, before an equals sign."""
    if place == 0 or place + 1 == len(found) or found[place + 1][0] != "=":
        return False
    return found[place - 1][0] in "{;"


def locals_of(words):
    """The names that a term binds: those after a lambda, and those before a colon in parentheses."""
    names, place = set(), 0
    while place < len(words):
        if words[place].text == "λ":
            names |= names_until(words, place + 1, ".", ":")
        elif words[place].text in "({":
            names |= bound_in_group(words, place)
        elif words[place].text == "let":
            names |= names_until(words, place + 1, "=", ":")
        place += 1
    return names


def names_until(words, place, *ends):
    """The words from a place up to the first of the ends."""
    names = set()
    while place < len(words) and words[place].text not in ends:
        names |= {words[place].text} if is_name(words[place].text) else set()
        place += 1
    return names


def bound_in_group(words, place):
    """The names of a group `(a b : T)`; none where it is another one."""
    names = set()
    for word in words[place + 1:]:
        if word.text == ":":
            return names
        if not is_name(word.text):
            return set()
        names.add(word.text)
    return set()


def is_name(text):
    """The word can be the name of a value."""
    return text not in OPERATORS and text[0] not in "(){}[];,.λ0123456789"
