"""What the commands beside pgn-extract share: how they find it, report, refuse outputs and end.

A command has this module beside itself, or in ../share/pgn-extract where it is installed.
"""
import contextlib
import errno
import io
import os
import re
import signal
import stat
import sys
import time
from collections import namedtuple

FAULTY, REFUSED, FAILED = 1, 2, 3
# What the program is called: the second name is that of Debian's package alone, which can stand
# beside another pgn-extract.
PROGRAMS = ("pgn-extract", "pgn-extract-proved")
VERSION = re.compile(rb"pgn-extract [0-9]+\.[0-9]+\.[0-9]+ \(.*\n")
# A command names itself in this variable for what it runs. One that finds it would run itself.
RUN_BY = "PGN_EXTRACT_RUN_BY"
BLOCK = 1 << 20
# What begins a block of a text, and how long one may be that the program reads.
EVENT_LINE, LONGEST_BLOCK = b'\n[Event "', 1 << 24
# How many seconds a short run has to end by itself once it is told to: a build takes ten of them.
GRACE = 15
NO_ROOM = (errno.ENOSPC, errno.EDQUOT, errno.EFBIG)
# What a terminal would obey, and bytes that are no UTF-8, with what reports have in their place;
# and the same for texts of several lines.
ESCAPES = {
    **{it: f"\\x{it:02x}" for it in (*range(0x20), 0x7F)},
    **{it: f"\\u{it:04x}" for it in range(0x80, 0xA0)},
    **{0xDC00 + it: f"\\x{it:02x}" for it in range(0x80, 0x100)},
}
ESCAPES_IN_LINES = {it: new for it, new in ESCAPES.items() if it != ord("\n")}


def shown(text):
    """A name or an argument as a terminal may show it."""
    return text.translate(ESCAPES)


def shown_lines(text):
    """A report of any number of lines as a terminal may show it."""
    return text.translate(ESCAPES_IN_LINES)


def plain(text):
    """What the program reports, as it stands, and on a terminal as that may show it."""
    return os.fsencode(shown_lines(os.fsdecode(text))) if os.isatty(2) else text


class Fault(Exception):
    """Why all ends: a status, or a signal's number below 0, and reasons if somebody reads them."""


class NoProgram(Fault):
    """The program is not found: the first candidate is another one, or the system cannot run it."""

    def __init__(self, named=None, fault=None):
        self.named, self.fault = named, fault
        reason = "pgn-extract is neither beside this command nor on the path"
        reason += "; PGN_EXTRACT may name it"
        if named:
            reason = f"{shown(named)} is not the program pgn-extract that this command runs"
        super().__init__(REFUSED, reason)


# (what few runs use is imported there: it would take a quarter of the time that others need)
def on_path(name):
    """The path of a command, or None."""
    import shutil

    return shutil.which(name)


def candidates(own):
    """Where the program may be: what PGN_EXTRACT names, else what has its names beside the folder
    of the command (installed, in a checkout, in a release), and then on the path."""
    if named := os.environ.get("PGN_EXTRACT"):
        yield named
        return
    folders = (own, f"{own}/..", f"{own}/../bin")
    beside = [os.path.normpath(f"{folder}/{name}") for name in PROGRAMS for folder in folders]
    yield from filter(os.path.isfile, beside)
    yield from filter(None, map(on_path, PROGRAMS))


def reason_of(fault):
    """What is said of a fault of the system or of Python."""
    if isinstance(fault, OSError) and fault.errno in NO_ROOM:
        return f"no room for temporary files: {fault.strerror}"
    return "there is no memory left" if isinstance(fault, MemoryError) else str(fault)


class Command:
    """A command beside the program: its own path, what it is called, what its --help says, and
    whether it runs the program."""

    def __init__(self, path, name, document, needs_program=True):
        self.place = os.path.dirname(os.path.realpath(path))
        self.name, self.document, self.needs_program = name, document, needs_program
        # (where nobody catches a fault Python ends with 1, which here means that games are bad)
        sys.excepthook = lambda _kind, fault, _trace: (
            os.write(2, self.report(reason_of(fault))),
            os._exit(FAILED),
        )

    def report(self, *reasons):
        """Lines of a report by this command."""
        lines = "".join(f"{self.name}: {shown_lines(it)}\n" for it in reasons)
        return lines.encode("utf-8", "backslashreplace")

    def usage(self):
        """The line of the help that says what the arguments are."""
        return self.document.splitlines()[2].strip()

    def find_program(self, is_silent=False):
        """The path of the program and its version: the first of the candidates that is it. What
        they report is shown, or not."""
        if RUN_BY in os.environ:
            reason = "a command beside pgn-extract runs this one in its place"
            raise Fault(REFUSED, reason)
        os.environ[RUN_BY] = self.name
        missing = None
        for named in candidates(self.place):
            path = os.path.abspath(named if os.path.dirname(named) else on_path(named) or named)
            try:
                version, fault = asked([path, "--version"], shows=not is_silent).output, None
            except OSError as caught:
                version, fault = b"", caught
            if VERSION.fullmatch(version):
                return path, version
            missing = missing or NoProgram(named, fault)
        raise missing or NoProgram()

    def answer(self, arguments, work):
        """Answers --help and --version, or has the work done with the program: the status."""
        if arguments in (["-h"], ["--help"]):
            write(1, self.document.encode())
            return 0
        if arguments != ["--version"] and not self.needs_program:
            return work(None, arguments)
        program, version = self.find_program()
        if arguments == ["--version"]:
            verb = "runs" if self.needs_program else "stands beside"
            write(1, f"{self.name} {verb} {shown(program)}\n".encode() + version)
            return 0
        return work(program, arguments)

    def end_with(self, fault):
        """Says why all ends: the status."""
        # (nothing is left that is to be put away)
        Signals.wait = False
        status, *reasons = fault.args if isinstance(fault, Fault) else (FAILED, reason_of(fault))
        if status < 0:
            signal.signal(-status, signal.SIG_DFL)
            os.kill(os.getpid(), -status)
        try:
            write(2, self.report(*reasons))
        except Fault:
            status = FAILED
        return status

    def main(self, work):
        """Runs the command, and ends this process with its status."""
        obey(Signals.stop)
        try:
            for stream in (1, 2):
                os.fstat(stream)
            status = self.answer(sys.argv[1:], work)
            os.close(1)
            os.close(2)
        except SystemExit as refused:
            status = refused.code
        except Exception as fault:
            status = self.end_with(fault)
        os._exit(status)


# Files and streams.


class LastBlock:
    """The block in which a text that grows ends: how long it is."""

    def __init__(self):
        self.size, self.end = 0, EVENT_LINE[:1]

    def add(self, text):
        """The text goes on: how long the block before its first Event line is, if it has one."""
        seam = self.end + text
        first, before = seam.find(EVENT_LINE), self.size
        self.end = seam[1 - len(EVENT_LINE) :]
        if first < 0:
            self.size += len(text)
            return None
        self.size = len(seam) - seam.rfind(EVENT_LINE) - 1
        return before + first + len(text) - len(seam) + 1


def identity(seen):
    """What a file is known by."""
    return seen.st_dev, seen.st_ino, seen.st_size, seen.st_mtime_ns, seen.st_ctime_ns


def refuse_output(names, streams=(2, 1)):
    """Ends all where an output is one of the files, which would grow while it is read. None is
    standard input."""
    # (where that is standard error no report is made, since it would stand in the file)
    for stream in streams:
        output = os.fstat(stream)
        for name in names if stat.S_ISREG(output.st_mode) else ():
            try:
                seen = os.fstat(0) if name is None else os.stat(name)
            except (OSError, ValueError):
                continue
            if os.path.samestat(seen, output):
                label = "standard input" if name is None else shown(name)
                reason = f"the output is one of the files: {label}"
                raise Fault(REFUSED, *[reason] * (stream == 1))


def write(stream, text):
    """Writes all of a text."""
    while text:
        try:
            text = text[os.write(stream, text) :]
        except OSError as fault:
            raise Fault(FAILED, f"write failed: {fault.strerror}") from fault


class Stream(io.RawIOBase):
    """Standard output or standard error, as what can be buffered."""

    def __init__(self, number):
        super().__init__()
        self.number = number

    def writable(self):
        return True

    def write(self, text):
        # (what a signal leaves in a buffer would wait for whoever reads)
        if Signals.came:
            raise Fault(-Signals.came)
        write(self.number, text)
        return len(text)


def usual_mode():
    """What a new file may be used for, by the will of who runs the command."""
    mask = os.umask(0o077)
    os.umask(mask)
    return 0o666 & ~mask


def put_new(file, path):
    """Gives a file, whole, a name in the same file system under which nothing stands."""
    try:
        os.link(file, path, follow_symlinks=False)
    except FileExistsError:
        raise
    except OSError:
        # (a file system may have no links; a name that is made in this moment is lost there)
        if os.path.lexists(path):
            raise FileExistsError(errno.EEXIST, os.strerror(errno.EEXIST)) from None
        os.rename(file, path)
    else:
        os.unlink(file)


def temporary_folder():
    """The folder for temporary files."""
    return os.path.abspath(os.environ.get("TMPDIR") or "/tmp")


# Arguments.


def parser_of(name, **given):
    """A parser that shows arguments as a terminal may show them."""
    import argparse

    class Parser(argparse.ArgumentParser):
        def error(self, message):
            super().error(shown(message))

    return Parser(prog=name, **given)


def number_from(least, most):
    """What reads a number between two others."""
    import argparse

    def read(text):
        if not re.fullmatch(r"[0-9]{1,9}", text, re.ASCII) or not least <= int(text) <= most:
            raise argparse.ArgumentTypeError(f"takes a number from {least} to {most}")
        return int(text)

    return read


def parsed(parser, arguments):
    """The options and files of a command line, in any order."""
    # (argparse itself loses files after `--` where options stand among the files)
    end = arguments.index("--") if "--" in arguments else len(arguments)
    options = parser.parse_intermixed_args(arguments[:end])
    options.files += arguments[end + 1 :]
    return options


# Runs of other commands.


class Signals:
    """Signals that end all: by way of what is to be put away, not while a run begins or ends."""

    wait, came = False, 0

    @classmethod
    def stop(cls, number, _frame):
        """Does it, or lets it wait."""
        cls.came = number
        if not cls.wait:
            raise Fault(-number)

    @classmethod
    def let_wait(cls, waits):
        """Lets signals wait, or no more."""
        cls.wait = waits
        if cls.came and not waits:
            raise Fault(-cls.came)


def obey(handler):
    """Has the handler called at each signal that ends a command, but for those that are ignored by
    the will of who began it."""
    # (where this one is ignored nobody learns how a run ended)
    signal.signal(signal.SIGCHLD, signal.SIG_DFL)
    for number in (signal.SIGHUP, signal.SIGINT, signal.SIGTERM):
        if signal.getsignal(number) != signal.SIG_IGN:
            signal.signal(number, handler)


def end_group(process, number=signal.SIGKILL):
    """Ends a run that leads a group, and all that it began."""
    with contextlib.suppress(ProcessLookupError):
        os.killpg(process.pid, number)


# How a short run ended, and what it wrote.
Asked = namedtuple("Asked", "status output reports")


def spawned(command, streams):
    """Begins a command in a group of its own: its process. These files are its standard input, its
    output and its reports; those that are left out it shares with this process."""
    places = [(os.POSIX_SPAWN_DUP2, it.fileno(), number) for number, it in enumerate(streams)]
    # (a module of Python's own would take as long as a short run; Python ignores these signals)
    return os.posix_spawnp(
        command[0], command, os.environ, file_actions=places, setpgroup=0,
        setsigdef=(signal.SIGPIPE, signal.SIGXFSZ))


def memory_file(text=b""):
    """A file that is held in memory, at the beginning of a text."""
    file = open(os.memfd_create("pgn-extract"), "r+b", buffering=0)
    write(file.fileno(), text)
    file.seek(0)
    return file


def asked(command, text=b"", shows=False):
    """What a short run answers to a text. Its reports are given, or shown on standard error. A
    signal ends it too, with all that it began."""
    output, written = (open(it, mode) for it, mode in zip(os.pipe(), ("rb", "wb")))
    with output, memory_file(text) as asks, memory_file() as reports:
        Signals.let_wait(True)
        try:
            with written:
                process = spawned(command, [asks, written, *([] if shows else [reports])])
            try:
                Signals.let_wait(False)
                said, status = output.read(), os.waitpid(process, 0)[1]
            except BaseException:
                end_slowly(process)
                raise
        finally:
            Signals.let_wait(False)
        reports.seek(0)
        return Asked(os.waitstatus_to_exitcode(status), said, reports.read())


def end_slowly(process):
    """Ends what leads a group, which has some time for it: a program that is being built takes away
    what it made."""
    for number in (signal.SIGTERM, signal.SIGKILL):
        with contextlib.suppress(ProcessLookupError):
            os.killpg(process, number)
        for _ in range(10 * GRACE):
            with contextlib.suppress(ChildProcessError):
                if not os.waitpid(process, os.WNOHANG)[0]:
                    time.sleep(0.1)


# Files of games.


# How files begin that are no texts of games, with their kinds; where a tar says that it is one; how
# many bytes tell; and what is said of them.
KINDS = {
    b"\x1f\x8b": "gzip", b"BZh": "bzip2", b"\xfd7zXZ\0": "xz", b"\x28\xb5\x2f\xfd": "zstd",
    b"PK\x03\x04": "zip", b"7z\xbc\xaf\x27\x1c": "7z", b"Rar!\x1a\x07": "RAR",
    b"\xff\xfe": "UTF-16", b"\xfe\xff": "UTF-16", b"[\0": "UTF-16", b"\0[": "UTF-16",
}  # fmt: skip
TAR, TAR_AT, KIND_SIZE = b"ustar", 257, 262
COMPRESSED = "compressed (%s): decompress it first (pgn-mend reads it)"
NO_TEXT = {
    "7z": "compressed (7z): unpack it by 7z first",
    "RAR": "compressed (RAR): unpack it by unrar first",
    "UTF-16": "in UTF-16: make UTF-8 of it first (pgn-mend reads it)",
    "pack": "a pack, which pgn-extract and pgn-tree read with --packed",
}


def unopened(path, fault):
    """The fault of a FILE that cannot be opened."""
    reason = getattr(fault, "strerror", None) or fault
    if isinstance(fault, FileNotFoundError):
        reason = "no such file"
    return Fault(REFUSED, f"cannot open {shown(path)}: {reason}")


def refuse_unopened(paths):
    """Refuses FILEs that cannot be opened. A pipe keeps its bytes."""
    for path in paths:
        try:
            if stat.S_ISREG(os.stat(path).st_mode):
                os.close(os.open(path, os.O_RDONLY))
        except (OSError, ValueError) as fault:
            raise unopened(path, fault) from fault


def kind_of(front):
    """The kind of a file that is no text of games, by its first bytes; else None."""
    # (packs of older programs are records: their first bytes are a size, and those of a number are few)
    if front.startswith(b"PGNPACK") or (len(front) > 8 and front[0] <= 2 and front[4:8] == bytes(4)):
        return "pack"
    for begin, kind in KINDS.items():
        if front.startswith(begin):
            return kind
    # (a name in a tar ends in a zero byte, which no text has)
    return "tar" if front.startswith(TAR, TAR_AT) and b"\0" in front[:TAR_AT] else None


def kind_notes(paths):
    """What is said of those FILEs that are no texts of games. A pipe keeps its bytes."""
    for path in paths:
        front = b""
        with contextlib.suppress(OSError, ValueError):
            if stat.S_ISREG(os.stat(path).st_mode):
                with open(path, "rb", 0) as file:
                    front = file.read(KIND_SIZE)
        if kind := kind_of(front):
            yield f"{shown(path)} is {NO_TEXT.get(kind, COMPRESSED % kind)}"
