"""What the commands beside pgn-extract share that sort games, or write them again: runs of other
commands, a folder for what waits, and where games stand in files.

They have this module where they have pgn_tools.
"""
import contextlib
import itertools
import os
import re
import stat
import subprocess
from collections import deque, namedtuple

from pgn_tools import (
    BLOCK, EVENT_LINE, FAILED, REFUSED, FAULTY, Fault, Signals, end_group, identity, plain,
    refuse_output, shown, temporary_folder, unopened, write,
)

SORT = "sort"
# How many lines are shown of what a run reported that failed.
SHOWN = 9


# Runs of other commands.


class Scratch:
    """The folder for temporary files, and the runs that go on. At the end neither is left."""

    def __init__(self, name):
        import tempfile

        # (a signal waits until somebody takes the folder away)
        Signals.let_wait(True)
        self.made = tempfile.TemporaryDirectory(prefix=f"{name}-", dir=temporary_folder())
        self.folder, self.runs = self.made.name, set()

    def __enter__(self):
        try:
            Signals.let_wait(False)
        except Fault:
            self.__exit__()
            raise
        return self

    def __exit__(self, *_):
        Signals.let_wait(True)
        for run in self.runs:
            end_group(run.process)
            run.process.wait()
        self.made.cleanup()

    def file(self):
        """A file without a name."""
        import tempfile

        return tempfile.TemporaryFile(dir=self.folder, buffering=BLOCK)


class Run:
    """A run of another command, whose output is read, or goes to a file. What it reports goes to
    standard error (None), to a file, or to a pipe where that is a line at most."""

    def __init__(self, scratch, command, reports=subprocess.PIPE, **more):
        self.name, self.scratch = command[0], scratch
        Signals.let_wait(True)
        streams = {"stdout": subprocess.PIPE, "stderr": reports, "bufsize": BLOCK, **more}
        self.process = subprocess.Popen(command, process_group=0, **streams)
        scratch.runs.add(self)
        Signals.let_wait(False)
        self.reports = self.process.stderr or reports

    def lines(self):
        """Its output."""
        return self.process.stdout

    def put(self, text):
        """Puts a text into it, where its input is a pipe."""
        try:
            self.process.stdin.write(text)
        except BrokenPipeError:
            self.end(good=())

    def close_input(self):
        """Puts no more into it."""
        with contextlib.suppress(BrokenPipeError):
            self.process.stdin.close()

    def end(self, good=(0,)):
        """Waits for its end, which has to be a good one: the status. Its reports can be read."""
        status = self.process.wait()
        self.scratch.runs.remove(self)
        if self.reports and self.reports.seekable():
            self.reports.seek(0)
        if status not in good:
            kind = REFUSED if status == REFUSED and self.name != SORT else FAILED
            number = f"{'signal' if status < 0 else 'status'} {abs(status)}"
            raise Fault(kind, f"{shown(self.name)}: {number}{self.said()}")
        return status

    def said(self):
        """The last lines that a run reported which failed."""
        if not self.reports:
            return ""
        # (a line without an end is one for which there was no room)
        last = deque(self.reports, SHOWN)
        some = (it for it in last if it.endswith(b"\n") and b"game " not in it)
        said = os.fsdecode(b"".join(some)).strip()
        return f": {said or 'it could not say why; is there room in TMPDIR?'}"


class Sorter:
    """A run of sort: lines are put in, and come out in the order of their bytes."""

    def __init__(self, scratch, *options):
        command = [SORT, *options, "-T", scratch.folder]
        in_bytes = {**os.environ, "LC_ALL": "C"}
        self.run = Run(scratch, command, stdin=subprocess.PIPE, env=in_bytes)
        self.put = self.run.put

    def lines(self):
        """All lines in order."""
        self.run.close_input()
        yield from self.run.lines()
        self.run.end()


# Games where they stand in files.


# What stands at a place.
GAME, UNPLAYABLE, UNREADABLE = b"-", b"f", b"u"
EVENT = EVENT_LINE[1:]
# A line with a mark and the report of a faulty game, after the name of the FILE: number, offset,
# and what follows.
MARK = rb"(?P<number>[0-9]{1,19})@(?P<offset>[0-9]{1,19})"
LINE = re.compile(MARK + rb"(?: (?P<rest>.*))?\n")
REPORT = re.compile(rb"game " + MARK + rb": (?P<rest>.*)\n")
# Faults of what is no game, so that it goes on up to the next mark.
NO_GAME = (b"unreadable", b"too long")
# The parts of a game, as docs/FORMATS.md defines them. What may hold the bytes of a result and is
# none, and then a result; a tag, and what may stand between tags.
RESULTS = (b"1-0", b"0-1", b"1/2-1/2", b"*")
WHITE = b" \t\n\v\f\r"
STRING = rb'"((?:[^"\\]++|\\.)*+)"'
NO_RESULT = STRING + rb"|\{[^}]*+\}|[;%][^\n]*+"
RESULT = rb"(?P<result>\*|(?<![\w+#=:/-])(?:1-0|0-1|1/2-1/2)(?![\w+#=:/-]))"
PART = re.compile(NO_RESULT + rb"|" + RESULT, re.DOTALL)
TAG = re.compile(
    rb"\[[ \t\n\v\f\r]*+([A-Za-z0-9_]++)[ \t\n\v\f\r]*+" + STRING + rb"[ \t\n\v\f\r]*+\]",
    re.DOTALL)
GAP = re.compile(rb"(?:[ \t\n\v\f\r]++|\{[^}]*+\}|[;%][^\n]*+)*+")
# A text up to its first result, or up to a part that is cut.
WHOLE = re.compile(
    rb'(?>(?:[^"{;%%*01]++|%b|(?!%b)[01])*+)%b?+'
    % (NO_RESULT, RESULT.replace(b"?P<result>", b"?:"), RESULT), re.DOTALL)
# How much of a game is read for its tags, at first.
FRONT = 1 << 12


class Source(namedtuple("Source", "path name seen")):
    """A FILE: its path, what lines of the program have of its name, and what it was known by before
    it was read."""

    def lines_begin(self):
        """What lines of marks begin with."""
        return self.name + b":" if self.name else b""

    def reports_begin(self):
        """What reports begin with."""
        return b"pgn-extract: " + self.name + b": " if self.name else b"pgn-extract: "

    def open(self):
        """The file, open, as it was before it was read."""
        try:
            file = open(self.path, "rb", BLOCK)
        except OSError as fault:
            raise Fault(FAILED, f"{shown(self.path)} has changed: {fault.strerror}") from fault
        if identity(os.fstat(file.fileno())) != identity(self.seen):
            raise self.changed()
        return file

    def changed(self):
        """The fault of a file that is not what it was."""
        return Fault(FAILED, f"{shown(self.path)} has changed")


def sources_of(paths):
    """The FILEs, each of which has to be a file that can be opened, and no output."""
    refuse_output(paths)
    for path in paths:
        try:
            seen = os.stat(path)
            if not stat.S_ISREG(seen.st_mode):
                is_folder = stat.S_ISDIR(seen.st_mode)
                kind = "no regular file, and games are read twice"
                raise OSError(f"it is {'a folder' if is_folder else kind}")
            os.close(os.open(path, os.O_RDONLY))
        except (OSError, ValueError) as fault:
            raise unopened(path, fault) from fault
        # (the program names files as this does, where there are several)
        name = os.fsencode(path) if len(paths) > 1 else b""
        yield Source(path, re.sub(rb"[\x00-\x1f\x7f]|\xc2[\x80-\x9f]", b"?", name), seen)


def refuse_change(source):
    """Ends where a source is not what it was."""
    source.open().close()


class Places:
    """Where games stand, as lines in the order of the FILEs. The bytes of a line are in this order
    too: the FILE, the offset, the number, and the kind."""

    def __init__(self, scratch):
        self.scratch = scratch
        self.sound, self.faulty, self.has_faulty = scratch.file(), scratch.file(), False

    @staticmethod
    def line(source, mark, kind):
        """The place at a mark that was matched."""
        return b"%07d %s %s %s\n" % (source, mark["offset"].rjust(19, b"0"), mark["number"], kind)

    @staticmethod
    def read(line):
        """The FILE of a place, its offset, its number and its kind."""
        source, offset, number, kind = line.split()
        return int(source), int(offset), int(number), kind

    def noted(self, program, mode, number, source):
        """Of each game in the lines of a run over a source its place, its offset, and what stands
        after its mark. Where games stand is noted, also those that the run reports."""
        begin, has_rest = source.lines_begin(), mode != "--index"
        command = [program, mode, *(["--with-names"] if source.name else []), "--", source.path]
        run = Run(self.scratch, command, self.scratch.file())
        for line in run.lines():
            mark = line.startswith(begin) and LINE.fullmatch(line, len(begin))
            if not mark or (mark["rest"] is not None) != has_rest:
                raise Fault(FAILED, f"{program}: this is no line of {mode}: {ascii(line[:60])}")
            place = self.line(number, mark, GAME)
            self.sound.write(place)
            yield place, int(mark["offset"]), mark["rest"]
        run.end(good=(0, FAULTY))
        self.note_reports(number, source, run.reports)

    def note_reports(self, number, source, reports):
        """Reports what a run did of faulty games, and notes where they stand."""
        begin = source.reports_begin()
        for line in reports:
            write(2, plain(line))
            if mark := line.startswith(begin) and REPORT.fullmatch(line, len(begin)):
                kind = UNREADABLE if mark["rest"] in NO_GAME else UNPLAYABLE
                self.faulty.write(self.line(number, mark, kind))
                self.has_faulty = True

    def in_order(self):
        """All of them, by their FILEs: the number of each, and its places."""
        self.sound.seek(0)
        self.faulty.seek(0)
        import heapq

        return itertools.groupby(heapq.merge(self.sound, self.faulty), lambda it: int(it[:7]))


def stretches(places, size):
    """Of the places in a file of a size each with its kind, and where what stands there begins and
    ends: at the next place, or at the end."""
    for place, following in itertools.pairwise(itertools.chain(places, [None])):
        _, begin, _, kind = Places.read(place)
        yield place, kind, begin, Places.read(following)[1] if following else size


def end_of_game(text):
    """Where a game ends of which the text has no more than a gap after it."""
    text = text.rstrip(WHITE)
    line = text.rfind(b"\n") + 1
    # (a result at the very end is that of the game, unless it stands in a line comment or an escape
    # line)
    if text.endswith(RESULTS) and text.find(b";", line) < 0 and text[line : line + 1] != b"%":
        return len(text)
    return next((part.end() for part in PART.finditer(text) if part["result"]), None)


def pieces_of(source, file, begin, end, kind):
    """What stands in a file from one offset up to another: a game without the gap after it, and
    else all of it in pieces."""
    file.seek(begin)
    block = BLOCK if kind == UNREADABLE else end - begin
    for place in range(begin, end, block):
        size = min(block, end - place)
        text = file.read(size)
        length = size if kind == UNREADABLE else end_of_game(text)
        if len(text) < size or not length:
            raise source.changed()
        yield text[:length]


def tags_in(text):
    """The tags that stand at the front of a text, of each name the contents of the first; and where
    what follows them begins."""
    tags, place = {}, 0
    while tag := TAG.match(text, place):
        tags.setdefault(tag[1], tag[2])
        place = GAP.match(text, tag.end()).end()
    return tags, place


def tags_at(file, begin):
    """The tags of a game that can be read and begins at an offset of a file."""
    size = FRONT
    while True:
        text = os.pread(file.fileno(), size, begin)
        tags, place = tags_in(text)
        # (what is cut there may be a tag, or stand between tags)
        if len(text) < size or text[place : place + 1] not in (b"", b"[", b"{", b";", b"%"):
            return tags
        size *= 2


def size_in(text):
    """How many bytes of a text stand after the tags at its front, up to the end of a game; nothing
    where that is not there."""
    game, begin, place = WHOLE.match(text), 0, 0
    if not game["result"]:
        return None
    while tag := TAG.match(text, place):
        begin, place = tag.end(), GAP.match(text, tag.end()).end()
    return len(text[begin : game.end()].strip(WHITE))


def text_size_at(file, begin):
    """How many bytes stand after the tags of a game that can be read and begins at an offset of a
    file."""
    size = FRONT
    while True:
        text = os.pread(file.fileno(), size, begin)
        # (a result at the end of what was read may be a part of a word)
        found = size_in(text[:-1] if len(text) == size else text)
        if found is not None or len(text) < size:
            return found or 0
        size *= 2


def value_of(contents):
    """The value that a tag's contents give."""
    return re.sub(rb'\\(["\\])', rb"\1", contents)
