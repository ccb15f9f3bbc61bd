#!/usr/bin/env python3
"""Writes a collection of games for timing: bench/make_games.py plain|annotated MEGABYTES PATH [SEED].

A pool of games is played by random legal moves from the seed, with a small player of its own that shares nothing with the program; the
collection takes games of the pool in random order, each under tags of its own. Annotated games have comments, glyphs and variations too.
It prints how many games, plies and bytes it wrote, on one line: GAMES PLIES BYTES.
"""
import itertools
import random
import sys

POOL = 120
LONGEST = 110
FILES = "abcdefgh"
STEPS = {
    "N": (-21, -19, -12, -8, 8, 12, 19, 21),
    "B": (-11, -9, 9, 11),
    "R": (-10, -1, 1, 10),
    "Q": (-11, -10, -9, -1, 1, 9, 10, 11),
    "K": (-11, -10, -9, -1, 1, 9, 10, 11),
}
START = "RNBQKBNR"
# The men of Black and of White.
MEN = ("pnbrqk", "PNBRQK")


def square_name(square):
    return FILES[square % 10 - 1] + str(square // 10 - 1)


class Position:
    """A position on a board of 120 cells: rank r and file f stand at 10 * (r + 1) + f; upper case is White."""

    def __init__(self):
        self.board = ["#"] * 120
        for rank in range(1, 9):
            for file in range(1, 9):
                self.board[10 * (rank + 1) + file] = "."
        for file in range(1, 9):
            self.board[20 + file] = START[file - 1]
            self.board[30 + file] = "P"
            self.board[80 + file] = "p"
            self.board[90 + file] = START[file - 1].lower()
        self.white = True
        self.rights = set("KQkq")
        self.passed = None

    def is_enemy(self, man):
        return man in MEN[not self.white]

    def is_attacked(self, square, by_white):
        board = self.board
        back = -10 if by_white else 10
        pawn, knight, bishop, rook, queen, king = MEN[by_white]
        if pawn in (board[square + back - 1], board[square + back + 1]):
            return True
        if knight in [board[square + step] for step in STEPS["N"]]:
            return True
        if king in [board[square + step] for step in STEPS["K"]]:
            return True
        return any(
            board[self.next_man(square, step)] in (man, queen)
            for kind, man in (("B", bishop), ("R", rook))
            for step in STEPS[kind]
        )

    def king(self, white):
        return self.board.index("K" if white else "k")

    def in_check(self):
        return self.is_attacked(self.king(self.white), not self.white)

    def pseudo_legal(self):
        board, own, others = self.board, MEN[self.white], MEN[not self.white]
        for square in range(21, 99):
            man = board[square]
            if man not in own:
                continue
            kind = man.upper()
            if kind == "P":
                yield from self.pawn_moves(square)
                continue
            for step in STEPS[kind]:
                at = square + step
                while board[at] == "." or board[at] in others:
                    yield (square, at, "")
                    if kind in "NK" or board[at] != ".":
                        break
                    at += step
        yield from self.castling_moves()

    def pawn_moves(self, square):
        ahead = 10 if self.white else -10
        first, last = (3, 9) if self.white else (8, 2)
        targets = []
        if self.board[square + ahead] == ".":
            targets.append(square + ahead)
            if square // 10 == first and self.board[square + 2 * ahead] == ".":
                targets.append(square + 2 * ahead)
        for at in (square + ahead - 1, square + ahead + 1):
            if self.is_enemy(self.board[at]) or at == self.passed:
                targets.append(at)
        for at in targets:
            for kind in "QRBN" if at // 10 == last else ("",):
                yield (square, at, kind)

    def castling_moves(self):
        home = 25 if self.white else 95
        for right, step, empty in (("K", 1, (1, 2)), ("Q", -1, (-1, -2, -3))):
            if (right if self.white else right.lower()) not in self.rights:
                continue
            if any(self.board[home + e] != "." for e in empty):
                continue
            if not any(self.is_attacked(home + k * step, not self.white) for k in (0, 1, 2)):
                yield (home, home + 2 * step, "")

    def play(self, move):
        source, target, promotion = move
        after = Position.__new__(Position)
        after.board = board = self.board[:]
        man = board[source]
        board[source] = "."
        if man in "Pp" and target == self.passed:
            board[target + (-10 if self.white else 10)] = "."
        board[target] = (promotion if self.white else promotion.lower()) or man
        if man in "Kk" and abs(target - source) == 2:
            corner = target + 1 if target > source else target - 2
            board[(source + target) // 2] = board[corner]
            board[corner] = "."
        lost = {25: "KQ", 95: "kq", 21: "Q", 28: "K", 91: "q", 98: "k"}
        after.rights = self.rights - set(lost.get(source, "")) - set(lost.get(target, ""))
        after.passed = (source + target) // 2 if man in "Pp" and abs(target - source) == 20 else None
        after.white = not self.white
        return after

    def next_man(self, square, step):
        """The square of the first man on the line from a square, or of the border."""
        square += step
        while self.board[square] == ".":
            square += step
        return square

    def pinned(self, king):
        """The squares of the men that keep an enemy on a line from the king."""
        own, (_, _, bishop, rook, queen, _) = MEN[self.white], MEN[not self.white]
        for kind, man in (("B", bishop), ("R", rook)):
            for step in STEPS[kind]:
                at = self.next_man(king, step)
                if self.board[at] in own and self.board[self.next_man(at, step)] in (man, queen):
                    yield at

    def legal(self):
        king = self.king(self.white)
        bound, is_in_check = {king, *self.pinned(king)}, self.in_check()
        for move in self.pseudo_legal():
            # (no other move leaves a king attacked that is not attacked now)
            if is_in_check or move[0] in bound or move[1] == self.passed:
                after = self.play(move)
                if after.is_attacked(after.king(self.white), after.white):
                    continue
            yield move

    def takes_en_passant(self):
        """Whether a legal move takes a pawn en passant."""
        back, pawn = (-10, "P") if self.white else (10, "p")
        beside = () if self.passed is None else (self.passed + back - 1, self.passed + back + 1)
        takes = (self.play((it, self.passed, "")) for it in beside if self.board[it] == pawn)
        return any(not it.is_attacked(it.king(self.white), it.white) for it in takes)

    def san(self, move, after, moves):
        source, target, promotion = move
        man = self.board[source].upper()
        takes = self.board[target] != "." or (man == "P" and target == self.passed)
        if man == "K" and abs(target - source) == 2:
            text = "O-O" if target > source else "O-O-O"
        elif man == "P":
            text = (square_name(source)[0] + "x" if takes else "") + square_name(target)
            text += "=" + promotion if promotion else ""
        else:
            rivals = [m[0] for m in moves if m[1] == target and m[0] != source and self.board[m[0]] == self.board[source]]
            name = square_name(source)
            if not rivals:
                name = ""
            elif all(square_name(r)[0] != name[0] for r in rivals):
                name = name[0]
            elif all(square_name(r)[1] != name[1] for r in rivals):
                name = name[1]
            text = man + name + ("x" if takes else "") + square_name(target)
        if after.in_check():
            text += "+" if any(True for _ in after.legal()) else "#"
        return text


def played(chance):
    """A random game: for each ply the SAN of its move and of another legal move, if there is one; and the result."""
    position = Position()
    line = []
    while len(line) < LONGEST:
        moves = list(position.legal())
        if not moves:
            break
        move, other = chance.choice(moves), chance.choice(moves)
        after = position.play(move)
        line.append((position.san(move, after, moves), position.san(other, position.play(other), moves)))
        position = after
    mated = line and line[-1][0].endswith("#")
    return line, ("0-1" if position.white else "1-0") if mated else "1/2-1/2"


def wrapped(tokens):
    lines, line = [], ""
    for token in tokens:
        if line and len(line) + 1 + len(token) > 79:
            lines.append(line)
            line = token
        else:
            line = line + " " + token if line else token
    return "\n".join(lines + [line])


def plain(line, result):
    tokens = []
    for ply, (san, _) in enumerate(line):
        if ply % 2 == 0:
            tokens.append(f"{ply // 2 + 1}.")
        tokens.append(san)
    return wrapped(tokens + [result])


def annotated(chance, line, result):
    tokens = []
    for ply, (san, other) in enumerate(line):
        number = f"{ply // 2 + 1}" + (". " if ply % 2 == 0 else "... ")
        tokens.append(number + san)
        if chance.random() < 0.1:
            tokens.append(chance.choice(["$1", "$2", "$14", "$146"]))
        tokens.append(f"{{[%eval {chance.randint(-99, 99) / 10}] [%clk 0:{chance.randint(0, 59):02}:{chance.randint(0, 59):02}]}}")
        if chance.random() < 0.08:
            tokens.append(f"({number}{other} {{worth a thought, but no more}} (  {number}{san} {{as in the game}} ) )")
    return wrapped(tokens + [result])


def played_games(kind, chance, size=POOL):
    """A pool of so many games, plain or annotated: of each its plies, its result and its movetext."""
    pool = []
    for _ in range(size):
        line, result = played(chance)
        pool.append((len(line), result, plain(line, result) if kind == "plain" else annotated(chance, line, result)))
    return pool


def collection(chance, pool):
    """Games of the pool in random order, each under tags of its own, without end: their plies and their texts."""
    for number in itertools.count(1):
        plies, result, text = chance.choice(pool)
        tags = [("Event", "Casual game"), ("Site", "?"), ("Date", "2026.11.22"), ("Round", str(number)), ("White", f"Player {chance.randint(1, 9999)}"),
                ("Black", f"Player {chance.randint(1, 9999)}"), ("Result", result), ("WhiteElo", str(chance.randint(1000, 2800)))]
        yield plies, "".join(f'[{name} "{value}"]\n' for name, value in tags) + "\n" + text + "\n\n"


def main():
    kind, megabytes, path = sys.argv[1:4]
    chance = random.Random(int(sys.argv[4]) if len(sys.argv) > 4 else 1994)
    wanted, games, plies, written = int(megabytes) * 1_000_000, 0, 0, 0
    with open(path, "w", encoding="ascii", newline="\n") as out:
        for length, game in collection(chance, played_games(kind, chance)):
            out.write(game)
            games, plies, written = games + 1, plies + length, written + len(game)
            if written >= wanted:
                break
    print(games, plies, written)


if __name__ == "__main__":
    main()
