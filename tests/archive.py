"""Twenty sources as an archivist has them, a file of today, and what became of each of their games,
counted without any code of this project.

Each game has a tag Annotator with a mark of its own, by which it is found wherever it stands.
"""

import bz2
import collections
import gzip
import io
import lzma
import random
import re
import shutil
import subprocess
import zipfile
from dataclasses import dataclass

from harness import make_games

SEED = 64
PLIES = range(12, 60)
EVENT = b'[Event "'
RESULTS = ("1-0", "0-1", "1/2-1/2", "*")
LOCATION = re.compile(
    rb"^(?:pgn-extract: )?(?:(?P<file>[^:\n]*): ?)?(?:game )?\d+@(?P<offset>\d+)"
    rb"(?P<kind>: | = | ~ )", re.MULTILINE)
# The places where a game may have gone.
BASE, FAULTS, DUPLICATES = "the base", "faults", "duplicates"
# What other programs write in place of e.p. captures and castling; and the moves.
SPELT = "e4 Nf6 e5 d5 exd6e.p. exd6 Nf3 Be7 Be2 o-o 0-0"
MEANT = "e4 Nf6 e5 d5 exd6 exd6 Nf3 Be7 Be2 O-O O-O"


@dataclass
class Game:
    """A game of a source: its tags, its moves and its result; where it is to go; and moves that the
    base has in place of these."""

    tags: dict
    moves: list
    result: str
    goal: str = BASE
    meant: list | None = None

    def text(self, result=None, before="", signs=""):
        """It as it stands in a file."""
        tags = "".join(f'[{name} "{value}"]\n' for name, value in self.tags.items())
        numbered = [
            f"{ply // 2 + 1}. {move}" if ply % 2 == 0 else move
            for ply, move in enumerate(self.moves)
        ]
        return f"{before}{tags}\n{make_games.wrapped([*numbered[:4], *signs.split(), *numbered[4:], self.result if result is None else result])}\n\n"


class Sources:
    """Makes games, each with a line of its own, and keeps what is known of them."""

    def __init__(self):
        chance = random.Random(SEED)
        lines = [[move for move, _ in line] for line, _ in (make_games.played(chance) for _ in range(6))]
        self.lines = [it[:plies] for plies in PLIES for it in lines if len(it) >= plies]
        self.games = {}

    def make(self, source, number, line, moves=None, **more):
        """A game of a source with the moves of a line, or with others."""
        mark, result = f"{source}/{number}", RESULTS[line % 3]
        tags = {"Event": "Café", "Site": "Town", "Date": f"{1990 + line % 9}.05.01", "Round": str(number), "White": f"Müller{line}, K", "Black": "García, José",
                "Result": result, "Annotator": mark}
        self.games[mark] = Game(tags, moves or self.lines[line], result, **more)
        return self.games[mark]

    def some(self, source, first, count):
        """Games of a source, with lines from the first one on."""
        return [self.make(source, number, first + number) for number in range(count)]

    def texts(self, source, first, count):
        """Their texts."""
        return "".join(it.text() for it in self.some(source, first, count))


def german(game):
    """The text of a game with German letters."""
    head, _, moves = game.text().partition("\n\n")
    return head + "\n\n" + moves.translate(str.maketrans("NBRQ", "SLTD"))


def zipped(*members):
    """A zip of files."""
    out = io.BytesIO()
    with zipfile.ZipFile(out, "w") as file:
        for name, text in members:
            file.writestr(name, text)
    return out.getvalue()


def with_zstd(text):
    """What the program zstd makes of a text, or the text where it is missing."""
    if not shutil.which("zstd"):
        return text
    return subprocess.run(["zstd", "-qc"], input=text, stdout=subprocess.PIPE, check=True).stdout


def near(made):
    """Games that are nearly the same: the second goes on, and a name is spelt otherwise."""
    for number in range(2):
        line = made.lines[90 + number]
        first, second = (
            made.make("13", 2 * number + it, 90 + number, line[: len(line) - 2 + 2 * it])
            for it in range(2)
        )
        second.tags["White"] = f"K. MÜLLER{90 + number}"
        yield from (first.text(), second.text())


def variants(made):
    """Chess960 among other games."""
    game = made.make("14", 0, 0, ["e4", "e5", "Ng3", "Ng6", "O-O", "O-O"], goal=FAULTS)
    game.tags.update(Variant="Chess960", FEN="bqnrkrnb/pppppppp/8/8/8/8/PPPPPPPP/BQNRKRNB w FDfd - 0 1")
    yield from (game.text(), made.make("14", 1, 100).text())


def broken(made):
    """A lost brace, an illegal move, an illegal variation, and text that is no game, each before a
    game that is none of these."""
    sound = iter(made.some("16", 110, 4))
    yield made.make("16", 5, 120, goal=FAULTS).text(signs="{lost") + next(sound).text()
    moves = made.lines[121]
    no_square = made.make("16", 6, 121, [*moves[:6], "Qa9", *moves[7:]], goal=FAULTS)
    yield no_square.text() + next(sound).text()
    yield made.make("16", 7, 122, goal=FAULTS).text(signs="(3. Qh8)") + next(sound).text()
    yield "> a letter\n\n" + next(sound).text()


def untidy(made):
    """Tags before Event, bare quotes, braces within braces, and signs."""
    games = made.some("19", 130, 4)
    white = games[0].tags.pop("White")
    games[1].tags["Event"] = 'Café "Rex"'
    yield from (
        games[0].text(before=f'[White "{white}"]\n'), games[1].text(),
        games[2].text(signs="{one {two} three}"), games[3].text(signs="+-"),
    )


def spelt(made):
    """Castling and captures in passing as other programs write them."""
    for number, end in enumerate(("", " a6", " a6 h3")):
        spelt, meant = (SPELT + end).split(), (MEANT + end).split()
        yield made.make("06", number, 60 + number, spelt, meant=meant).text()


def of_1252(text):
    return text.encode("cp1252")


def write_sources(folder):
    """Writes the sources, and a file of today: all games by their marks."""
    made = Sources()
    for it in (first := made.some("01", 0, 8)):
        it.tags["Round"] = "1"
    unended, cut = made.some("07", 64, 3), made.some("15", 104, 3)
    half = "".join(it.text() for it in cut)
    cut[-1].meant = cut[-1].moves[:4]
    doubled = [
        made.make("02", number, 4 + number, goal=DUPLICATES if number < 4 else BASE)
        for number in range(8)
    ]
    again = [made.make("20", number, number, goal=DUPLICATES) for number in range(8)]
    files = {
        "01 café.pgn": "".join(it.text() for it in first).encode(),
        "02-dos.pgn": of_1252("".join(it.text() for it in doubled)).replace(b"\n", b"\r\n") + b"\x1a",
        "03-mark.pgn": b"\xef\xbb\xbf" + made.texts("03", 20, 5).encode(),
        "04-1252.pgn": of_1252(made.texts("04", 30, 5)),
        "05-german.pgn": of_1252("".join(map(german, made.some("05", 40, 5)))),
        "06-spelt.pgn": "".join(spelt(made)).encode(),
        "07-unended.pgn": "".join(it.text("" if it is unended[-1] else None) for it in unended).encode(),
        "08-week.zip": zipped(
            ("readme.txt", "no game"),
            *((f"{it}.pgn", of_1252(made.texts(f"08{it}", 70 + 2 * it, 2))) for it in range(2))),
        "09-clocks.pgn.zst": with_zstd(
            "".join(it.text(signs="{[%clk 0:03:00]}") for it in made.some("09", 75, 3)).encode()),
        "10.pgn.gz": gzip.compress(made.texts("10", 80, 3).encode()),
        "11.pgn.bz2": bz2.compress(made.texts("11", 84, 3).encode()),
        "12.pgn.xz": lzma.compress(made.texts("12", 87, 3).encode()),
        "13-near.pgn": "".join(near(made)).encode(),
        "14-variants.pgn": "".join(variants(made)).encode(),
        "15-cut.pgn": half[: half.rindex(" 3. ")].encode(),
        "16-broken.pgn": "".join(broken(made)).encode(),
        "17-windows.pgn": made.texts("17", 124, 3).encode("utf-16"),
        "18-mac.pgn": made.texts("18", 127, 3).replace("\n", "\r").encode(),
        "19-untidy.pgn": "".join(untidy(made)).encode(),
        "20-annotated.pgn": "".join(it.text(signs="{a thought}") for it in again).encode(),
    }
    known = [made.make("today", number, number, goal=DUPLICATES) for number in range(3)]
    bad = made.make("today", 3, 0, ["e4", "Ke6"], goal=FAULTS)
    (folder / "sources").mkdir()
    for name, text in files.items():
        (folder / "sources" / name).write_bytes(text)
    today = [*known, bad, *made.some("today+", 140, 4)]
    (folder / "today.pgn").write_bytes(of_1252("".join(it.text() for it in today)))
    return made.games


def text_of(file):
    """What a file has; nothing where it is not there."""
    return file.read_bytes() if file.is_file() else b""


def marks_in(text):
    """The marks of the games in a text."""
    return [it.decode() for it in re.findall(rb'\[Annotator "([^"]*)"', text)]


def piece_at(text, offset):
    """What stands at an offset, up to the next Event line."""
    return text[offset:].partition(b"\n" + EVENT)[0]


def named_in(folder, report, kind, texts):
    """The marks of the games that a report names, which stand in the files of a folder, or in a
    file."""
    for found in LOCATION.finditer(text_of(folder / report)):
        if found["kind"] == kind:
            file = folder / (found["file"].decode() if found["file"] else texts)
            yield from marks_in(piece_at(text_of(file), int(found["offset"])))


def games_of(text):
    """The games of a clean text."""
    return [it for it in re.split(rb'^(?=\[Event ")', text, flags=re.MULTILINE) if it]


def moves_of(game):
    """The moves of a clean game."""
    text = re.sub(r"\{[^}]*\}|\$\d+|\d+\.+", " ", game.decode().partition("\n\n")[2])
    return [it for it in text.split() if it not in RESULTS]


def faults_of_base(folder, games):
    """What the base has otherwise than it should, or twice."""
    base = games_of(text_of(folder / "base.pgn"))
    lines = [" ".join(moves_of(it)) for it in base]
    yield from (f"the base has twice: {it}" for it in sorted(set(lines)) if lines.count(it) > 1)
    for text, line in zip(base, lines):
        mark, *more = marks_in(text) or [""]
        if more or mark not in games or line != " ".join(games[mark].meant or games[mark].moves):
            yield f"{mark} has in the base: {line}"
        said = text.decode()
        if mark != "19/1" and 'Event "Café' not in said or "García, José" not in said:
            yield f"{mark} has lost letters in the base"


def faults_of_parts(folder):
    """Whether the years together are the base, each game in its own."""
    base = games_of(text_of(folder / "base.pgn"))
    years = {it.stem: games_of(it.read_bytes()) for it in (folder / "years").glob("*")}
    if sorted(it for some in years.values() for it in some) != sorted(base):
        yield "the years are not the base"
    yield from (
        f"a game stands in {year}" for year, some in years.items()
        for it in some if f'[Date "{year}.'.encode() not in it
    )


def faults(folder, games):
    """What is wrong with what became of the games after both days."""
    places = collections.defaultdict(list, {mark: [] for mark in games})
    for mark in marks_in(text_of(folder / "base.pgn")):
        places[mark].append(BASE)
    for day, texts in (("", ""), ("-today", "-today.pgn")):
        for mark in named_in(folder, f"faults{day}.txt", b": ", f"mended{texts}"):
            places[mark].append(FAULTS)
        for mark in named_in(folder, f"duplicates{day}.txt", b" = ", f"clean{texts}"):
            places[mark].append(DUPLICATES)
    yield from (
        f"{mark} is in {found}" for mark, found in places.items()
        if mark not in games or found != [games[mark].goal]
    )
    pairs = [*named_in(folder, "duplicates.txt", b" ~ ", "")]
    yield from [] if sorted(pairs) == ["13/0", "13/2"] else [f"nearly the same are {pairs}"]
    yield from faults_of_base(folder, games)
    yield from faults_of_parts(folder)
