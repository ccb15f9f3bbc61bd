"""How other programs write moves, signs of evaluation, results and comments, and what the standard
has in their place.

pgn-mend has this module beside itself, or in ../share/pgn-extract where it is installed.
"""
import bisect
import io
import re
from array import array
from collections import Counter
from typing import NamedTuple

# The letters of king, queen, rook, bishop and knight, as the standard lists them.
ENGLISH = b"KQRBN"
LANGUAGES = {
    "cs": b"KDVSJ", "da": b"KDTLS", "de": b"KDTLS", "es": b"RDTAC", "et": b"KLVOR", "fi": b"KDTLR",
    "fr": b"RDTFC", "hu": b"KVBFH", "is": b"KDHBR", "it": b"RDTAC", "nl": b"KDTLP", "no": b"KDTLS",
    "pl": b"KHWGS", "pt": b"RDTBC", "ro": b"RDTNC", "sv": b"KDTLS",
}  # fmt: skip
# Signs with the NAGs that the standard has for them; a lone byte 0xB1 is that of Latin-1.
NAGS = {
    b"=": 10, b"\xe2\x88\x9e": 13, b"+=": 14, b"+/=": 14, b"\xe2\xa9\xb2": 14, b"=+": 15,
    b"=/+": 15, b"\xe2\xa9\xb1": 15, b"+/-": 16, b"\xc2\xb1": 16, b"\xb1": 16, b"-/+": 17,
    b"\xe2\x88\x93": 17, b"+-": 18, b"-+": 19,
}  # fmt: skip
WHITE = rb"[ \t\n\v\f\r]"
WORD = rb"A-Za-z0-9_+#=:/\x80-\xff-"
NO_WORD_BEFORE, NO_WORD_AFTER, NO_LETTER_AFTER = (
    rb"(?<![%b])" % WORD, rb"(?![%b])" % WORD, rb"(?![A-Za-z0-9_\x80-\xff])",
)  # fmt: skip
DASHES = (b"\xe2\x88\x92", b"\xe2\x80\x93")
DASH = rb"(?:-|\xe2\x88\x92|\xe2\x80\x93)"
# What is no movetext. (One without an end goes on to the end of the text, which is then read once.)
COMMENT = rb"\{[^}]*+(?:\}|\Z)|;[^\n]*+|(?<=\n)%[^\n]*+"
TAG = rb'\[%b*+[A-Za-z0-9_]++%b*+"(?:[^"\\\n]++|\\.)*+"%b*+\]' % (WHITE, WHITE, WHITE)
# Where a game ends: at the end of the text, or before a tag.
GAME_ENDS = rb"(?=(?>(?:%b++|\{[^}]*+\}|;[^\n]*+)*)(?:\[|\Z))" % WHITE
# (these stand in no word that is read, so they may stand directly after a move)
LONG_DASH = rb"(?:\xe2\x88\x92|\xe2\x80\x93)"
LONG_SIGN = rb"\+/?%b|%b/?\+" % (LONG_DASH, LONG_DASH)
SIGN = rb"\+/?%b|%b/?\+|\+/?=|=/?\+" % (DASH, DASH)
# A lone sign of equality is no offer of a draw in parentheses, and no part of a promotion.
EQUAL = rb"(?:(?<!\()=|=(?!\)))(?!%b*+[QRBNqrbn](?![a-h1-8x:-]))" % WHITE
HALF = rb"(?:\xc2\xbd|(?<![\x80-\xff])\xbd|1/2)"
OTHER_RESULT = (
    rb"(?:%b(?:[ \t]*+[:]?%b?[ \t]*+%b)?"
    rb"|1[ \t]*+(?::|%b)[ \t]*+0|0[ \t]*+(?::|%b)[ \t]*+1)" % (HALF, DASH, HALF, DASH, DASH)
)
ROOK_STEP = rb"(?:[Oo0]|\xd0\x9e|\xd0\xbe)"
SQUARES = rb"[a-h]?[1-8]?[x:-]?[a-h][1-8]" + NO_LETTER_AFTER
PROMOTED = rb"(?:(?<=[a-h][18]=)|(?<=[a-h][18]))"
TAKEN = rb"(?:(?<=[a-hx:][a-h][36])|(?<=[a-hx:][a-h][36][+#]))"
# Blanks of web pages and of texts that were set, as a no-break space; a lone byte 0xA0 is that of
# Latin-1.
BLANK = (
    rb"\xc2\xa0|\xe1\x9a\x80|\xe2\x80[\x80-\x8b\xaf]|\xe2\x81[\x9f\xa0]|\xe3\x80\x80"
    rb"|(?<![\x80-\xff])\xa0(?![\x80-\xff])"
)
# The value of a Result tag that spells a result, and what such a value is.
RESULT_TAG = re.compile(
    COMMENT + rb'|\[%b*+Result%b*+"(?P<value>%b)"%b*+\]|' % (WHITE, WHITE, OTHER_RESULT, WHITE) + TAG,
    re.DOTALL)
RESULT_VALUE = re.compile(OTHER_RESULT)
# How each kind is found, by its name. A text that can be read and not played has the last ones too.
FOUND = {
    "blanks": BLANK,
    "signs": rb"%b(?:%b|%b)%b|(?<=[a-h][1-8])(?:%b)%b"
    rb"|(?<![/=])(?:\xc2\xb1|\xe2\x88[\x93\x9e]|\xe2\xa9[\xb1\xb2])(?!/)"
    rb"|(?<![\x80-\xff])\xb1(?![\x80-\xff])"
    % (NO_WORD_BEFORE, SIGN, EQUAL, NO_WORD_AFTER, LONG_SIGN, NO_WORD_AFTER),
    "results": NO_WORD_BEFORE + OTHER_RESULT + NO_WORD_AFTER + GAME_ENDS,
    "en-passant": rb"%b%b*+(?:\(e\.?[ ]?p\.?\)|/?e\.[ ]?p\.?|/?ep\.?)%b"
    % (TAKEN, WHITE, NO_LETTER_AFTER),
    "castling": rb"%b(?:%b(?:%b%b){1,2}|[Oo]{2,3})(?![A-Za-z0-9_=:/\x80-\xff-])"
    % (NO_WORD_BEFORE, ROOK_STEP, DASH, ROOK_STEP),
    "figurines": rb"\xe2\x99[\x94-\x9f](?:\xef\xb8[\x8e\x8f])?+",
}  # fmt: skip
PLAYED = {
    "signs": rb"(?<=[a-h][1-8])(?:\+/?-|-/?\+|\+/=|=/?\+|=)%b"
    rb"|(?:(?<=[a-h][1-8][+#])|(?<=[a-h][18]=[QRBN]))(?:\+/?-|-/?\+)%b"
    % (NO_WORD_AFTER, NO_WORD_AFTER),
    "lower-case": rb"%b[nrqk](?=%b)|%b[nrqb]%b"
    % (NO_WORD_BEFORE, SQUARES, PROMOTED, NO_LETTER_AFTER),
    "languages": rb"%b[A-Z](?=%b)|%b[A-Z]%b" % (NO_WORD_BEFORE, SQUARES, PROMOTED, NO_LETTER_AFTER),
}  # fmt: skip
# What is reported of an edit of a kind.
SAID = {
    "blanks": "no-break space or the like made a space",
    "signs": "sign of evaluation written as a NAG",
    "results": "result written as the standard has it",
    "en-passant": "e.p. taken out",
    "castling": "castling written as the standard has it",
    "figurines": "figurine written as a letter",
    "lower-case": "lower-case piece letter made a capital",
    "languages": "piece letter of another language written in English",
    "nested": "brace within a comment made a parenthesis",
}


class Edit(NamedTuple):
    """What comes to stand in a stretch of a text, and the kind of that."""

    begin: int
    end: int
    new: bytes
    kind: str


class Done(NamedTuple):
    """What was done to a game: its kind, what is reported of it, and in how many places."""

    kind: str
    text: str
    places: int = 1

    def __str__(self):
        return self.text if self.places == 1 else f"{self.text} in {self.places} places"


class Stretches:
    """Where the bytes of an edited text stood before: its stretches, and where each began."""

    __slots__ = ("places", "sources")

    def __init__(self, rows=((0, 0),)):
        self.places, self.sources = array("i"), array("i")
        for place, source in rows:
            self.add(place, source)

    def add(self, place, source):
        """A stretch begins at a place."""
        self.places.append(place)
        self.sources.append(source)

    def source_of(self, place):
        """Where a byte stood."""
        number = bisect.bisect(self.places, place) - 1
        return self.sources[number] + place - self.places[number]

    def after(self, before):
        """Where the bytes stood before another edit that came before this."""
        if len(before.places) == 1:
            return self
        rows, number = Stretches(()), 0
        for count, (place, source) in enumerate(zip(self.places, self.sources)):
            while number < len(before.places) and before.places[number] <= source:
                number += 1
            rows.add(place, before.source_of(source))
            end = self.places[count + 1] if count + 1 < len(self.places) else None
            while number < len(before.places) and (
                end is None or place + before.places[number] - source < end
            ):
                rows.add(place + before.places[number] - source, before.sources[number])
                number += 1
        return rows

    def part(self, begin, end, source_begin):
        """The same of a part of the text, and of a part of where it stood."""
        rows = Stretches([(0, self.source_of(begin) - source_begin)])
        low, high = bisect.bisect(self.places, begin), bisect.bisect_left(self.places, end)
        for number in range(low, high):
            rows.add(self.places[number] - begin, self.sources[number] - source_begin)
        return rows


class Made(NamedTuple):
    """A text with edits, where its bytes stood, and how many edits of each kind it has."""

    text: bytes
    stretches: Stretches
    counts: Counter


def with_edits(text, edits, has_stretches=True):
    """A text with edits, which is made without a list of them, and without a copy."""
    made, last, size, stretches, counts = io.BytesIO(), 0, 0, Stretches(), Counter()
    for begin, end, new, kind in edits:
        made.write(text[last:begin])
        size += made.write(new) + begin - last
        if has_stretches:
            stretches.add(size, end)
        counts[kind] += 1
        last = end
    if not counts:
        return Made(text, stretches, counts)
    made.write(text[last:])
    return Made(made.getvalue(), stretches, counts)


def done_in(counts):
    """What is reported of edits."""
    return [Done(kind, SAID[kind], count) for kind, count in sorted(counts.items())]


# What stands in the place of each kind.


def nag(found):
    """The NAG of a sign, apart from the words beside it."""
    sign = found[0]
    for dash in DASHES if sign not in NAGS else ():
        sign = sign.replace(dash, b"-")
    text, begin, end = found.string, found.start(), found.end()
    before = b"" if begin == 0 or text[begin - 1 : begin] in b" \t\n\v\f\r(" else b" "
    after = b"" if text[end : end + 1] in b" \t\n\v\f\r)" else b" "
    return b"%b$%d%b" % (before, NAGS[sign], after)


def result_of(text):
    """The result that a text is a spelling of."""
    if b"/" in text or b"\xbd" in text:
        return b"1/2-1/2"
    return {b"1": b"1-0", b"0": b"0-1"}.get(text[:1], text)


def result_in_tag(value):
    """The result that the value of a Result tag is a spelling of, or else the value."""
    return result_of(value) if RESULT_VALUE.fullmatch(value) else value


def castling(found):
    """Castling, unless zeros and hyphens alone write it, which are read as they are."""
    steps = len(re.findall(ROOK_STEP, found[0]))
    new = b"-".join([b"O"] * steps)
    return found[0] if found[0] == new.replace(b"O", b"0") else new


def figurine(found):
    """The letter of a figurine that stands in a move; a pawn has none."""
    text, begin, end = found.string, found.start(), found.end()
    number = (found[0][2] - 0x94) % 6
    if number == 5:
        is_file = text[end : end + 1] in (b"a", b"b", b"c", b"d", b"e", b"f", b"g", b"h")
        return b"" if is_file else found[0]
    is_promoted = text[begin - 1 : begin] in (b"=", b"1", b"8")
    is_move = re.compile(rb"[a-h1-8x:-]").match(text, end) or is_promoted
    return ENGLISH[number : number + 1] if is_move else found[0]


NEW = {
    "blanks": lambda found: b" ",
    "signs": nag,
    "results": lambda found: result_of(found[0]),
    "en-passant": lambda found: b"",
    "castling": castling,
    "figurines": figurine,
    "lower-case": lambda found: found[0].upper(),
}


def pattern_of(kinds, found):
    """What finds kinds, and passes over what is no movetext."""
    groups = [b"(?P<k%d>%b)" % (number, found[kind]) for number, kind in enumerate(kinds)]
    return re.compile(b"|".join([COMMENT, TAG, *groups]), re.DOTALL)


class Movetext:
    """What is edited in movetext: kinds by their names."""

    def __init__(self, kinds):
        self.kinds = sorted(set(kinds) & set(FOUND))
        self.pattern = pattern_of(self.kinds, FOUND)
        both = {**FOUND, "languages": PLAYED["languages"], "lower-case": PLAYED["lower-case"]}
        if "signs" in kinds:
            both["signs"] = b"%b|%b" % (FOUND["signs"], PLAYED["signs"])
        played = sorted(set(kinds) & set(both))
        self.has_languages = "languages" in played
        self.played = {
            False: [it for it in played if it != "languages"],
            True: [it for it in played if it != "lower-case"],
        }
        self.patterns = {key: pattern_of(names, both) for key, names in self.played.items()}

    def readable(self, text):
        """A text with edits that can make it readable."""
        return with_edits(text, self.edits(text, self.pattern, self.kinds, None))

    def playable(self, text, letters=None):
        """A text with edits that can make it playable, perhaps from the letters of a language;
        where its bytes stood is not kept."""
        key = letters is not None
        edits = self.edits(text, self.patterns[key], self.played[key], letters)
        return with_edits(text, edits, has_stretches=False)

    @staticmethod
    def edits(text, pattern, kinds, letters):
        """The edits of a text."""
        for found in pattern.finditer(text):
            if not found.lastgroup:
                continue
            kind = kinds[int(found.lastgroup[1:])]
            new = letters.get(found[0], found[0]) if kind == "languages" else NEW[kind](found)
            if new != found[0]:
                yield Edit(*found.span(), new, kind)


def with_results_in_tags(text):
    """A text whose Result tags have the standard's results."""
    values = (it for it in RESULT_TAG.finditer(text) if it["value"])
    edits = (Edit(*it.span("value"), result_of(it["value"]), "results") for it in values)
    changes = (it for it in edits if it.new != text[it.begin : it.end])
    return with_edits(text, changes, has_stretches=False)


# Letters of languages.

LETTERS = re.compile(b"|".join([COMMENT, TAG, b"(?P<letter>%b)" % PLAYED["languages"]]), re.DOTALL)


def letters_in(text):
    """The piece letters of a text."""
    return {found["letter"] for found in LETTERS.finditer(text) if found.lastgroup}


def tables(text, language=None):
    """The letters of languages that a text can be written in, with the names of those that have
    them: of one that is named, or of each that has all letters and one that is none of English."""
    used, english = letters_in(text), {bytes([it]) for it in ENGLISH}
    found = {}
    for name in [language] if language else sorted(LANGUAGES):
        own = {bytes([it]) for it in LANGUAGES[name]}
        # (a pawn may have its letter, which is a knight's in Dutch)
        if used <= own | {b"P"} and (language or used & own - english):
            found.setdefault(LANGUAGES[name], []).append(name)
    for own, names in found.items():
        yield {bytes([it]): bytes([new]) for it, new in zip(own, ENGLISH)}, names


# Comments in comments.


BRACE = re.compile(rb"[{}]|;[^\n]*+|(?<=\n)%[^\n]*+|" + TAG, re.DOTALL)


def braces(text):
    """The edits that make parentheses of the braces within comments, up to a brace that is lost."""
    place = 0
    while found := BRACE.search(text, place):
        place = found.end()
        if found[0] != b"{":
            continue
        end, count = comment_end(text, place)
        if end is None:
            return
        if count:
            yield from inner_braces(text, place, end)
        place = end + 1


def comment_end(text, begin):
    """Where a comment ends in which each brace has its other one, and how many stand within."""
    depth, count = 1, 0
    for found in re.compile(rb"[{}]").finditer(text, begin):
        depth += 1 if found[0] == b"{" else -1
        if not depth:
            return found.start(), count
        count += 1
    return None, count


def inner_braces(text, begin, end):
    """The edits of one comment."""
    for found in re.compile(rb"[{}]").finditer(text, begin, end):
        yield Edit(*found.span(), b"(" if found[0] == b"{" else b")", "nested")


def without_nested(text):
    """A text whose comments have no braces in them."""
    return with_edits(text, braces(text))
