"""What draws boards in SVG, for pgn-board and for the documents (tools/draw-board).

A command has this module beside itself, or in ../share/pgn-extract where it is installed.
"""
import html
import re

FIGURINES = "\u2654\u2655\u2656\u2657\u2658\u2659\u265a\u265b\u265c\u265d\u265e\u265f"
MEN = dict(zip("KQRBNPkqrbnp", FIGURINES))
# How wide a square is, what stands left of the board and below it, and both together.
SIDE, EDGE = 36, 20
SIZE = 8 * SIDE + EDGE
# Attributes of an element of SVG that holds a board. The fonts have all figurines.
FONTS = (
    'font-family="DejaVu Sans, Segoe UI Symbol, Apple Symbols, Noto Sans Symbols 2, sans-serif"'
    ' text-anchor="middle"'
)
SPACE = 'xmlns="http://www.w3.org/2000/svg"'


def squares_of(rank):
    """The eight squares of a rank: what stands on each, `?` for anything and a space for nothing."""
    items = re.findall(r"\[[^]]*\]|.", rank)
    spread = [it for item in items for it in (" " * int(item) if item.isdigit() else [item])]
    return [it for item in spread for it in ("?" * (9 - len(spread)) if item == "*" else [item])]


def square(row, column):
    """A square of an empty board, from the top and from the left."""
    fill = "#d8c8a8" if (row + column) % 2 else "#f6efe0"
    place = f'x="{EDGE + column * SIDE}" y="{row * SIDE}"'
    return f'<rect {place} width="{SIDE}" height="{SIDE}" fill="{fill}"/>'


def board(is_flipped=False):
    """An empty board with White below, or flipped: its squares, and the names of its ranks and
    files."""
    yield from (square(row, column) for row in range(8) for column in range(8))
    step = -1 if is_flipped else 1
    for place, rank, file in zip(range(8), "87654321"[::step], "abcdefgh"[::step]):
        middle = place * SIDE + SIDE // 2
        yield f'<text x="{EDGE // 2}" y="{middle + 4}" font-size="12">{rank}</text>'
        yield f'<text x="{EDGE + middle}" y="{SIZE - 6}" font-size="12">{file}</text>'


def item_on(left, middle, item):
    """What stands on a square between whose edges these are the middles."""
    if item == "?":
        return f'<circle cx="{left}" cy="{middle}" r="2" fill="#887"/>'
    lower, size = (10, 28) if len(item) == 1 else (4, 11)
    text = MEN.get(item) or html.escape(item, quote=False)
    return f'<text x="{left}" y="{middle + lower}" font-size="{size}">{text}</text>'


def men(ranks, is_flipped=False):
    """What stands on the squares of eight ranks, the last rank first."""
    step = -1 if is_flipped else 1
    for row, rank in enumerate(ranks[::step]):
        for column, item in enumerate(rank[::step]):
            if item != " ":
                left, top = EDGE + column * SIDE, row * SIDE
                yield item_on(left + SIDE // 2, top + SIDE // 2, item)
