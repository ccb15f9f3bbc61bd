#!/usr/bin/env python3
"""Rows of the games of a file, few games at a time, by libpgn_extract.so beside this file.

    rows.py FILE COLUMNS [ARGUMENT]..     as rows.py games.pgn White,@ply,@fen --where check

An index gives the marks of the games. Each further call begins at one (--from) and ends before
another (--until): so no call needs much room, and the next row is there before all are made.
"""
import ctypes
import os
import sys
from pathlib import Path

LIBRARY = Path(__file__).resolve().with_name("libpgn_extract.so")
# The room of a first call (bytes), and how many games a further one reads.
ROOM, GAMES = 65536, 100


def run(arguments, games, text=b"", library=LIBRARY, room=ROOM):
    """The status of the program over texts, its output, and what it reports."""
    call, words = ctypes.CDLL(str(library)).pgn_run, "\n".join(arguments).encode()
    texts = [it for given in (words, games, text) for it in (given, ctypes.c_size_t(len(given)))]
    rooms = [room, room]
    while True:
        buffers = [ctypes.create_string_buffer(max(1, it)) for it in rooms]
        wanted = [ctypes.c_size_t(), ctypes.c_size_t()]
        places = [[buffers[it], ctypes.c_size_t(rooms[it]), ctypes.byref(wanted[it])] for it in (0, 1)]
        status = call(*texts, *places[0], *places[1])
        if all(it.value <= room for it, room in zip(wanted, rooms)):
            return status, *(it.raw[:count.value] for it, count in zip(buffers, wanted))
        rooms = [max(it.value, room) for it, room in zip(wanted, rooms)]


def rows(games, columns, arguments=(), library=LIBRARY, step=GAMES):
    """Yields the status, the rows and the reports of so many games, and so on."""
    index = run(["--index"], games, library=library)[1].decode().splitlines()
    begins = [None, *index[step::step]]
    for begin, end in zip(begins, [*begins[1:], None]):
        words = ["--rows", columns, *arguments]
        words += ["--no-header", "--from", begin] if begin else []
        words += ["--until", end] if end else []
        yield run(words, games, library=library)


def print_rows(path, columns, *arguments):
    """Writes the rows, and gives the worst status."""
    worst = 0
    for status, out, err in rows(Path(path).read_bytes(), columns, arguments):
        sys.stdout.buffer.write(out)
        sys.stderr.buffer.write(err)
        worst = max(worst, status)
        if status > 1:
            break
    sys.stdout.buffer.flush()
    return worst


def main(arguments):
    if len(arguments) < 2:
        print(__doc__, file=sys.stderr)
        return 2
    try:
        return print_rows(*arguments)
    except (OSError, MemoryError) as fault:
        print(f"rows.py: {fault or 'out of memory'}", file=sys.stderr)
        # (what is left to be written cannot be)
        os._exit(3)


if __name__ == "__main__":
    sys.exit(main(sys.argv[1:]))
