"""The opening of each game, found by a judge of its own.

The judge is given rows of the program with these columns, all plies of each game: of the games, and
of a book of openings, whose games are its lines. It asks for nothing else of the program, and for
no option of openings.

A position is what the first four fields of its FEN are, but for an en passant square on which no
pawn can take: the player of bench/make_games.py knows which moves are legal. The opening of a game
is the last ply of its main line at which a line of the book ends, and of the lines that end there
the first one.

Rows are read once, and a book's ends are held. So the time grows with the rows, and memory with the
book alone.
"""

from typing import NamedTuple

from harness import make_games

ROWS = ["--rows", "@file,@id,@ply,@fen", "--tsv", "--no-header"]


class Opening(NamedTuple):
    """The opening of a game: its ply, and the number of the line in the book, from 0 on."""

    ply: int
    line: int


class Game(NamedTuple):
    """A game of the rows: the name of its file where rows have it, its mark, and the position at
    each ply."""

    file: bytes
    mark: bytes
    positions: list


def is_taken(men, side, square):
    """Whether a pawn can take en passant on the square, by the first, second and fourth field of a
    FEN."""
    position = make_games.Position()
    for rank, row in zip(range(8, 0, -1), men.split("/")):
        cells = "".join("." * int(it) if it.isdigit() else it for it in row)
        position.board[10 * rank + 11 : 10 * rank + 19] = cells
    position.white, position.rights = side == "w", set()
    position.passed = 10 * int(square[1]) + 11 + make_games.FILES.index(square[0])
    return position.takes_en_passant()


def position_of(fen):
    """The men, the side to move, the castling rights, and the en passant square where a pawn can
    take on it."""
    men, side, rights, square = fen.decode().split(" ")[:4]
    is_used = square != "-" and is_taken(men, side, square)
    return men, side, rights, square if is_used else "-"


def games_in(rows):
    """The games of rows, which are lines."""
    game = None
    for row in rows:
        file, mark, ply, fen = row.rstrip(b"\n").split(b"\t")
        if ply == b"0":
            if game:
                yield game
            game = Game(file, mark, [])
        game.positions.append(position_of(fen))
    if game:
        yield game


def ends_in(rows):
    """Of each position in which a line of the book ends the number of the first such line."""
    ends = {}
    for number, line in enumerate(games_in(rows)):
        ends.setdefault(line.positions[-1], number)
    return ends


def opening_of(positions, ends):
    """The opening of a game by its positions; None where it has none."""
    for ply in range(len(positions) - 1, -1, -1):
        if positions[ply] in ends:
            return Opening(ply, ends[positions[ply]])
    return None


def openings_in(rows, ends):
    """Of each game of the rows its file, its mark and its opening."""
    for game in games_in(rows):
        yield game.file, game.mark, opening_of(game.positions, ends)
