"""What the scripts of tests/ share: the program under test, runs with a time limit, made games, missing tools, the count of cases.

A script is a docstring and a function over a Setup that counts its cases:

    import sys
    import harness

    def try_all(setup):
        setup.case("one game", harness.difference(setup.run(["--index"], b"1. e4 *\\n"), (0, b"1@0\\n", b"")))

    if __name__ == "__main__":
        sys.exit(harness.main(__doc__, try_all))

- The program under test is what `--program` names, else the one that the gate built. No variable of the environment changes it.
- A tool that looks for a program by PGN_EXTRACT is given the one under test: `setup.run_tool`.
- Of a command in Python of which many runs are made, `harness.run_copied` makes one in a quarter of
  the time; its starts, limits and signals are tried by `run`.
- With `--few` a script tries little of each kind, and with `--until-failed` it ends at the first failed case, for tests/mutants. A script of several sweeps has `--only SWEEP` too: `harness.run_sweeps`.
- The current folder is a private one, which is gone at the end.
- What a script raises is one failed case more, and no case at all is a failure too.
- The last line is 'N passed, M failed', with ', K skipped' where a tool is missing. The status is 0 where cases passed and none failed, else 1.
"""

import argparse
import array
import contextlib
import fcntl
import functools
import importlib
import os
import random
import re
import select
import shutil
import signal
import subprocess
import sys
import tempfile
import termios
import threading
import time
import traceback
from dataclasses import dataclass
from pathlib import Path
from typing import NamedTuple

TOP = Path(__file__).resolve().parents[1]
sys.path.insert(0, str(TOP / "bench"))
import make_games  # noqa: E402

BUILT = TOP / "crates/cli/out/cli"
# What the commands beside the program share.
SHARED = TOP / "tools/pgn_tools.py"
# All modules beside them: what they share, what those share that sort games, and what pgn-mend and
# pgn-board have for themselves.
MODULES = (SHARED, *(TOP / f"tools/pgn_{it}.py" for it in ("games", "movetext", "drawing")))
# The variable by which tools are given a program.
TOOL_VARIABLE = "PGN_EXTRACT"
# The status of a run that was ended at its time limit, as timeout(1) has it.
OVERDUE = 124
SEED = 1994
# How many bytes a pipe holds.
PIPE = 1 << 16
# How much of a text a message shows, and how many faults of a case.
SHOWN = 300
FAULTS_SHOWN = 5


# Of each example, read by eye: its sound games, the moves of their main lines and of all lines, and the games that an export reports.
EXAMPLES = {
    "annotated.pgn": (1, 4, 8, 0),
    "broken.pgn": (1, 16, 16, 2),
    "download.pgn": (2, 46, 50, 6),
    "immortal.pgn": (2, 78, 78, 0),
    "messy.pgn": (1, 13, 15, 0),
    "old-mac.pgn": (2, 2, 2, 0),
    "openings.pgn": (72, 343, 343, 0),
    "spellings.pgn": (0, 0, 0, 2),
    "two-games.pgn": (2, 2, 2, 0),
    "unplayable.pgn": (1, 5, 5, 3),
    "untidy.pgn": (1, 4, 4, 3),
    "utf-16.pgn": (0, 0, 0, 1),
}


class Ended(NamedTuple):
    """How a run ended: its status (minus a signal's number, or OVERDUE), its output and its standard error."""

    status: int
    out: bytes
    err: bytes


# The processes that run now, each at the head of its group; none is begun once this script was told
# to stop, and then each has these seconds to end what it began.
RUNNING = set()
STOPPED = threading.Event()
# Set with `--until-failed` at the first failed case: no process is begun after it.
ENOUGH = threading.Event()
GRACE = 5


def end_group(running, number):
    """Sends a signal to a process and to all of its group."""
    try:
        os.killpg(running.pid, number)
    except ProcessLookupError:
        pass


def stop(number, _):
    """Ends what runs, and then this script, which takes its private folder away."""
    STOPPED.set()
    for running in list(RUNNING):
        end_group(running, signal.SIGTERM)
    sys.exit(128 + number)


def stop_by_signals():
    """Has a signal that ends this script end what it began."""
    for number in (signal.SIGINT, signal.SIGTERM, signal.SIGHUP):
        if signal.getsignal(number) != signal.SIG_IGN:
            signal.signal(number, stop)


def end_softly(running):
    """Ends a process: it first ends what it began by itself, and then what is left is ended."""
    end_group(running, signal.SIGTERM)
    try:
        return running.communicate(timeout=GRACE)
    except subprocess.TimeoutExpired:
        end_group(running, signal.SIGKILL)
        return running.communicate()


def output_of(running, text, seconds):
    """What a process writes to its end, and whether it was ended at the time limit."""
    try:
        return *running.communicate(text, seconds), False
    except subprocess.TimeoutExpired:
        return *end_softly(running), True


def run(command, text=b"", seconds=60, **more):
    """Runs a list of arguments over the bytes on standard input; `more` is what subprocess.Popen takes, as `env`, `stdout` or `preexec_fn`."""
    if ENOUGH.is_set():
        raise HasFailed
    streams = {"stdin": subprocess.PIPE, "stdout": subprocess.PIPE, "stderr": subprocess.PIPE}
    environment = usual_environment()
    # (in a session of its own, so that its children end with it at the time limit)
    with subprocess.Popen([os.fspath(it) for it in command], **{**streams, "env": environment, "start_new_session": True, **more}) as running:
        try:
            RUNNING.add(running)
            if STOPPED.is_set():
                end_group(running, signal.SIGTERM)
            out, err, is_overdue = output_of(running, None if "stdin" in more else text, seconds)
        except BaseException:
            end_softly(running)
            raise
        finally:
            RUNNING.discard(running)
    if STOPPED.is_set():
        # (of a thread too, which would go on with the next run)
        sys.exit(1)
    return Ended(OVERDUE if is_overdue else running.returncode, out or b"", err or b"")


def keep_files():
    """Gives no process that is begun what this one was given open, but for the streams."""
    for it in map(int, os.listdir("/proc/self/fd")):
        with contextlib.suppress(OSError):
            os.set_inheritable(it, it <= 2)


class Begun(NamedTuple):
    """A process that was begun without a Popen of its own, at the head of its group."""

    pid: int


def read_ends(ends, seconds):
    """What comes from the ends of pipes until they are closed; None where that takes longer."""
    texts, limit, waits = {it: [] for it in ends}, time.monotonic() + seconds, select.poll()
    open_ends = set(ends)
    for it in ends:
        waits.register(it, select.POLLIN)
    while open_ends:
        ready = waits.poll(max(0, limit - time.monotonic()) * 1000)
        if not ready:
            return None
        for end, _ in ready:
            texts[end].append(os.read(end, 1 << 16))
            if not texts[end][-1]:
                waits.unregister(end)
                open_ends.remove(end)
    return [b"".join(it) for it in texts.values()]


def begin(command, pipes, environment):
    """Begins a process on three pipes, whose other ends are closed then."""
    ends = [pipes[0][0], pipes[1][1], pipes[2][1]]
    actions = [(os.POSIX_SPAWN_DUP2, end, place) for place, end in enumerate(ends)]
    usual = [signal.SIGPIPE, signal.SIGXFSZ]
    words = [os.fspath(it) for it in command]
    how = {"file_actions": actions, "setsid": True, "setsigdef": usual}
    try:
        return Begun(os.posix_spawn(words[0], words, environment, **how))
    finally:
        for it in ends:
            os.close(it)


def usual_environment():
    """The environment without what names a program."""
    return {name: value for name, value in os.environ.items() if name != TOOL_VARIABLE}


def run_short(command, text, seconds, env=None, stdin=None):
    """What `run_program` does with a text that a pipe holds whole, or with an open file."""
    if ENOUGH.is_set():
        raise HasFailed
    pipes = [os.pipe() for _ in range(3)]
    if stdin:
        os.dup2(stdin.fileno(), pipes[0][0], inheritable=False)
    ends, running, texts, status = [pipes[1][0], pipes[2][0]], None, None, OVERDUE
    try:
        with open(pipes[0][1], "wb", buffering=0) as end, contextlib.suppress(BrokenPipeError):
            running = begin(command, pipes, usual_environment() if env is None else env)
            RUNNING.add(running)
            if STOPPED.is_set():
                end_group(running, signal.SIGTERM)
            end.write(text)
        texts = read_ends(ends, seconds)
    finally:
        for it in ends:
            os.close(it)
        if running:
            if texts is None:
                end_group(running, signal.SIGKILL)
            status = os.waitstatus_to_exitcode(os.waitpid(running.pid, 0)[1])
            RUNNING.discard(running)
    if STOPPED.is_set():
        sys.exit(1)
    return Ended(OVERDUE, b"", b"") if texts is None else Ended(status, *texts)


def run_program(command, text=b"", seconds=60, **more):
    """`run` of a program at a path, which begins no other: in half the time where nothing but the
    environment or an open file as the input is asked for, and a pipe holds the text."""
    is_file = not isinstance(more.get("stdin"), int)
    if more.keys() <= {"env", "stdin"} and is_file and len(text) <= PIPE:
        return run_short(command, text, seconds, **more)
    return run(command, text, seconds, **more)


@functools.cache
def code_of(name):
    """The code of a command in Python, with the modules loaded that it imports."""
    sys.dont_write_bytecode, sys.path[:0] = True, [str(SHARED.parent)]
    text = Path(name).read_text(encoding="utf-8")
    for it in re.findall(r"^(?:import|from) (\w+)", text, re.MULTILINE):
        importlib.import_module(it)
    return compile(text, name, "exec")


def become(words, environment):
    """Makes this process, a copy, a run of a command in Python, and ends it as that ends."""
    os.closerange(3, 1 << 16)
    # (as Python has it at a start)
    for it in (signal.SIGPIPE, signal.SIGXFSZ):
        signal.signal(it, signal.SIG_IGN)
    tempfile.tempdir = None
    os.environ.clear()
    os.environ.update(environment)
    sys.argv, status = words, 1
    try:
        exec(code_of(words[0]), {"__name__": "__main__", "__file__": words[0]})
        status = 0
    except SystemExit as ended:
        status = ended.code if isinstance(ended.code, int) else bool(ended.code)
    except BaseException:
        sys.excepthook(*sys.exc_info())
    finally:
        sys.stdout.flush()
        os._exit(status)


def run_copied(command, text=b"", seconds=60, *, env, **more):
    """Runs a command in Python as `run` does, in a copy of this process that has it compiled: it
    takes a quarter of the time. What starts and limits do to a command needs `run`."""
    words = [os.fsdecode(it) for it in command]
    code_of(words[0])
    more |= {"env": env, "preexec_fn": lambda: become(words, env)}
    return run(words, text, seconds, **more)


# A run that comes to a state is waited for no longer than this (seconds).
PATIENCE = 20


def state_of(process):
    """The letter of a process's state: R, S or D where it goes on, T where it is stopped, Z where it has ended."""
    try:
        return Path(f"/proc/{process}/stat").read_text(encoding="ascii").rpartition(")")[2].split()[0]
    except (FileNotFoundError, ProcessLookupError):
        return "Z"


def wait_for(condition, seconds=PATIENCE):
    """Whether a condition comes true in time."""
    end = time.monotonic() + seconds
    while not condition():
        if time.monotonic() > end:
            return False
        time.sleep(0.02)
    return True


def run_stopped(command, env):
    """Runs a command that is stopped, and goes on, where it waits since nobody reads its output: a write is cut short there. How it ended, and OVERDUE where it never waits."""
    readable, writable = os.pipe()
    size = fcntl.fcntl(readable, fcntl.F_SETPIPE_SZ, os.sysconf("SC_PAGE_SIZE") * 4)
    streams = {"stdin": subprocess.DEVNULL, "stdout": writable, "stderr": subprocess.PIPE}
    with open(readable, "rb") as pipe, subprocess.Popen([os.fspath(it) for it in command], env=env, **streams) as running:
        os.close(writable)
        held, waits = array.array("i", [0]), 0

        def is_full():
            nonlocal waits
            before = held[0]
            fcntl.ioctl(pipe, termios.FIONREAD, held)
            waits = waits + 1 if size // 2 < held[0] == before else 0
            return waits > 10 or running.poll() is not None

        is_waiting = wait_for(is_full) and waits > 0
        for number, states in ((signal.SIGSTOP, "TZ"), (signal.SIGCONT, "RSDZ")):
            running.send_signal(number)
            is_waiting &= wait_for(lambda states=states: state_of(running.pid) in states)
        out, err = pipe.read(), running.stderr.read()
        return Ended(running.wait(PATIENCE) if is_waiting else OVERDUE, out, err)


class Measured(NamedTuple):
    """What a run took: its status, its processor seconds and the most MiB that it held."""

    status: int
    seconds: float
    held: float


# Runs a command in a process that holds little itself, since what a child holds is counted from what its parent held.
MEASURE = """
import resource, subprocess, sys
status = subprocess.run(sys.argv[2:], stdin=subprocess.DEVNULL, stdout=open(sys.argv[1], "wb"), stderr=subprocess.DEVNULL).returncode
used = resource.getrusage(resource.RUSAGE_CHILDREN)
print(status, used.ru_utime + used.ru_stime, used.ru_maxrss / 1024)
"""


def measured(command, out, seconds=300, **more):
    """What a run of a list of arguments took; its output goes to the file `out`."""
    ended = run([sys.executable, "-IS", "-c", MEASURE, out, *command], seconds=seconds, **more)
    if ended.status != 0:
        return Measured(ended.status, 0.0, 0.0)
    status, used, held = ended.out.split()
    return Measured(int(status), float(used), float(held))


def shown(thing, begin=0):
    """A thing for a message, from a place of it on, cut where it is long."""
    text = repr(thing)
    return (".." if begin else "") + text[begin : begin + SHOWN] + (".." if len(text) > begin + SHOWN else "")


def difference(found, wanted):
    """What a message says of two things that should be equal, from just before where they differ; None where they are."""
    if found == wanted:
        return None
    found = tuple(found) if isinstance(found, Ended) else found
    same = len(os.path.commonprefix([repr(found), repr(wanted)]))
    begin = same - SHOWN // 4 if same > SHOWN // 2 else 0
    return f"{shown(found, begin)} in place of {shown(wanted, begin)}"


def raw_in(text):
    """What a terminal would obey: bytes that are no UTF-8, control characters but line feeds."""
    try:
        signs = set(text.decode("utf-8")) - {"\n"}
        signs = {it for it in signs if it < " " or "\x7f" <= it <= "\x9f"}
    except UnicodeDecodeError as fault:
        return f"{text[fault.start :][:1]} is no UTF-8: {shown(text)}"
    return f"{sorted(signs)} stand raw in {shown(text)}" if signs else None


# A name that a terminal would obey: an escape, a bell, DEL, U+009B, and a byte that is no UTF-8.
UNSHOWN = b"x\x1b]0;y\x07\x7f\xc2\x9b31m\x9b\xff\r\nz"


def copy_command(command, target):
    """Copies a command beside the program, and beside it what the commands share."""
    shutil.copy(command, target)
    for module in MODULES:
        shutil.copy(module, Path(target).parent)


class MissingTool(Exception):
    """A tool that has to be there is missing."""


class HasFailed(BaseException):
    """A case has failed, and no more is wanted (no handler of faults takes it for one)."""


@dataclass
class Setup:
    """What a script is given: the program under test, whether to try few cases, its own options, and the count."""

    program: Path
    few: bool
    options: argparse.Namespace
    passed: int = 0
    failed: int = 0
    skipped: int = 0
    # Whether the first failed case ends the script.
    is_until_failed: bool = False

    def case(self, name, faults=None):
        """Counts one case, which failed where a fault is given (a text, or several), and says whether it passed."""
        found = [faults] if isinstance(faults, str) else [it for it in faults or () if it]
        for fault in found[:FAULTS_SHOWN]:
            print(f"FAILED {name}: {fault}", flush=True)
        if len(found) > FAULTS_SHOWN:
            print(f"FAILED {name}: and {len(found) - FAULTS_SHOWN} faults more", flush=True)
        self.passed, self.failed = self.passed + (not found), self.failed + bool(found)
        if found and self.is_until_failed:
            ENOUGH.set()
            raise HasFailed
        return not found

    def sweep(self, name, cases):
        """Counts the cases of a sweep, pairs of a name and faults, and prints how many there are."""
        tried = [self.case(f"{name}, {case}", faults) for case, faults in cases]
        print(f"{name}: {len(tried)} tried, {tried.count(False)} failed", flush=True)
        if not tried:
            self.case(name, "nothing was tried")

    def some(self, things, most=3):
        """All of several things; with `--few` at most so many, spread over them, the first and the last among them."""
        every = list(things)
        if not self.few or len(every) <= most:
            return every
        return [every[place * (len(every) - 1) // (most - 1)] for place in range(most)]

    def run(self, arguments, text=b"", seconds=60, **more):
        """Runs the program under test."""
        return run_program([self.program, *arguments], text, seconds, **more)

    def run_tool(self, command, text=b"", seconds=60, by=None, **more):
        """Runs a tool that drives the program under test; its path is one of the repository."""
        environment = {**more.pop("env", os.environ), TOOL_VARIABLE: str(self.program)}
        return (by or run)([TOP / command[0], *command[1:]], text, seconds, env=environment, **more)

    def has_tool(self, name, package, is_needed=False):
        """Whether a tool is on the path. One that is missing is skipped aloud; in CI, and where it is needed everywhere, it ends the script as a failure."""
        if shutil.which(name):
            return True
        if is_needed or os.environ.get("CI"):
            raise MissingTool(f"{name} is missing: apt-get install {package}")
        print(f"skipped: {name} is missing (apt-get install {package})", flush=True)
        self.skipped += 1
        return False

    def library(self, source):
        """The path of a library made from a C file of tests/."""
        made = Path(source).with_suffix(".so").resolve()
        return self.compiled(source, made, "-shared", "-fPIC", "-ldl")

    def compiled(self, source, made, *words):
        """The path of what cc makes of a C file of tests/ with more arguments."""
        self.has_tool("cc", "gcc", is_needed=True)
        built = run(["cc", "-O1", "-o", made, TOP / "tests" / source, *words])
        if built.status:
            raise MissingTool(f"cc does not compile tests/{source} (apt-get install gcc libc6-dev): {shown(built.err)}")
        return made

    def tail(self):
        """Prints the last line, and gives the status that the script ends with."""
        print(f"{self.passed} passed, {self.failed} failed" + (f", {self.skipped} skipped" if self.skipped else ""), flush=True)
        return 0 if self.passed and not self.failed else 1


@dataclass(frozen=True)
class MadeGame:
    """A game that was made: its text, and the plies of its main line as its maker counted them."""

    text: bytes
    plies: int


@dataclass(frozen=True)
class MadeGames:
    """Games that were made, and what the program has to say of the file that they are."""

    games: list

    def text(self):
        return b"".join(it.text for it in self.games)

    def plies(self):
        return sum(it.plies for it in self.games)

    def marks(self):
        """The number and the offset of each game."""
        offset = 0
        for number, game in enumerate(self.games, 1):
            yield number, offset
            offset += len(game.text)

    def index(self):
        """The whole output of `--index`."""
        return b"".join(b"%d@%d\n" % mark for mark in self.marks())

    def listing(self):
        """The whole output of `--list`."""
        return b"".join(b"%d@%d %d\n" % (*mark, ply) for mark, game in zip(self.marks(), self.games) for ply in range(game.plies + 1))


# The modulus of the seals of packs.
MODULUS = 2**61 - 1


def sealed(text):
    """A text and its seal: the eight bytes after which all of it is a multiple of the modulus."""
    return text + (MODULUS - (int.from_bytes(text, "big") << 64) % MODULUS).to_bytes(8, "big")


def segment(records):
    """The segment of a pack with these records."""
    size = len(records).to_bytes(4, "big")
    return sealed(b"PGNPACK2" + size + size) + sealed(records)


def segments_in(pack):
    """The place of each segment of a pack, and the bytes of its records."""
    place = 0
    while place < len(pack):
        front = pack[place : place + 16]
        size = int.from_bytes(front[12:], "big")
        body = pack[place + 24 : place + 24 + size]
        if front[:8] != b"PGNPACK2" or sealed(front) + sealed(body) != pack[place : place + 32 + size]:
            raise ValueError(f"no segment at byte {place}")
        yield place, body[: int.from_bytes(front[8:12], "big")]
        place += 32 + size


def records_in(pack):
    """The bytes of all records of a pack."""
    return b"".join(records for _, records in segments_in(pack))


@functools.cache
def made_games(kind, count, seed=SEED):
    """So many sound games, 'plain' or 'annotated' (with comments, glyphs and variations), made from the seed by bench/make_games.py."""
    chance = random.Random(seed)
    pool = make_games.played_games(kind, chance, min(make_games.POOL, max(1, count // 2)))
    return MadeGames([MadeGame(text.encode("ascii"), plies) for (plies, text), _ in zip(make_games.collection(chance, pool), range(count))])


def report(cause, number=1, offset=0):
    """The line that reports a faulty game."""
    return b"pgn-extract: game %d@%d: %s\n" % (number, offset, cause)


def filled(tokens):
    """Tokens in lines of at most 79 bytes."""
    lines, line, size = [], [], 0
    for token in tokens:
        if line and size + 1 + len(token) > 79:
            lines.append(b" ".join(line))
            line, size = [], 0
        size += len(token) + (1 if line else 0)
        line.append(token)
    return b"".join(it + b"\n" for it in [*lines, b" ".join(line)])


# A mode of rows, and the row of names with which its output begins.
ROWS = ["--rows", "@id,@ply,@turn,@result"]
HEADER = b"@id,@ply,@turn,@result\n"


@dataclass(frozen=True)
class Sound:
    """What a sound game without a result gives: the plies of its main line, its movetext as tokens, its event, and its other tags in the order of an export."""

    plies: int
    tokens: list
    event: bytes = b"?"
    tags: list = ()

    def listing(self, number, offset):
        """What `--list` prints of the game."""
        mark = f"{number}@{offset} "
        lines = f"\n{mark}".join(map(str, range(self.plies + 1)))
        return f"{mark}{lines}\n".encode()

    def export(self):
        """What an export without options writes of the game."""
        roster = b'[Event "%s"]\n[Site "?"]\n[Date "????.??.??"]\n[Round "?"]\n[White "?"]\n[Black "?"]\n[Result "*"]\n' % self.event
        return roster + b"".join(self.tags) + b"\n" + filled(self.tokens) + b"\n"

    def moves(self, number, offset):
        """What `--moves` prints of a game that has neither variations nor comments and starts as usual."""
        moves = [it for it in self.tokens if not it.endswith(b".") and it != b"*"]
        return b" ".join([b"%d@%d -" % (number, offset), *moves]) + b"\n"

    def rows(self, number, offset):
        """What the mode of rows prints of a game that starts as usual."""
        return b"".join(b"%d@%d,%d,%c,*\n" % (number, offset, ply, b"wb"[ply % 2]) for ply in range(self.plies + 1))

    def answer(self, arguments, number, offset):
        """What the output has of the game: with `--index`, `--list`, `--moves` or rows, or of an export."""
        if arguments[:1] in (ROWS[:1], tuple(ROWS[:1])):
            return self.rows(number, offset)
        if "--index" in arguments:
            return b"%d@%d\n" % (number, offset)
        if "--moves" in arguments:
            return self.moves(number, offset)
        return self.listing(number, offset) if "--list" in arguments else self.export()


# A comment, a line of a tag, a glyph, a result, a number, a parenthesis, a move or a pass.
TOKEN = re.compile(r"(?P<comment>\{[^}]*\})|(?P<tag>^\[\w+ \".*\"\]$)|(?P<glyph>\$\d+)|(?P<result>(?:1-0|0-1|1/2-1/2|\*)(?=\s|$))|(?P<number>\d+\.+)|(?P<open>\()|(?P<close>\))|(?P<move>[A-Za-z-][\w=+#-]*)", re.MULTILINE)


class Token(NamedTuple):
    """A token of movetext with each gap in it as one space, and in how many variations it stands; parentheses stand in their own variation."""

    kind: str
    depth: int
    text: str


def games_in(text):
    """The tokens of each game in a text of PGN as exports are written, without tags and numbers: a simple reader, which shares nothing with the program."""
    games, tokens, depth = [], [], 0
    for found in TOKEN.finditer(text.decode("latin-1")):
        kind = found.lastgroup
        depth += kind == "open"
        if kind not in ("tag", "number"):
            tokens.append(Token(kind, depth, " ".join(found[0].split())))
        depth -= kind == "close"
        if kind == "result":
            games.append(tokens)
            tokens = []
    return games


def moves_of(game, deepest=None):
    """The moves of a game, or those in at most so many variations."""
    return [it.text for it in game if it.kind == "move" and (deepest is None or it.depth <= deepest)]


def read_arguments(document, add_options):
    """The options of the command line."""
    parser = argparse.ArgumentParser(description=document, formatter_class=argparse.RawDescriptionHelpFormatter)
    parser.add_argument("--program", type=Path, default=BUILT, help="the program under test, in place of the one that the gate built")
    parser.add_argument("--few", action="store_true", help="try little of each kind")
    parser.add_argument("--until-failed", action="store_true", help="end at the first failed case")
    if add_options:
        add_options(parser)
    return parser.parse_args()


def guarded(setup, try_some):
    """Tries some cases; what is raised there is one failed case."""
    try:
        try_some()
    except MissingTool as missing:
        setup.case("tools", str(missing))
    except Exception:
        setup.case("the script", traceback.format_exc())


def run_sweeps(document, sweeps, add_options=None):
    """`main` of a script whose cases are sweeps: by their names, functions over a Setup that yield pairs of a case's name and its faults. One of them alone is tried with `--only`."""

    def add_all(parser):
        parser.add_argument("--only", choices=sweeps, help="try one sweep alone")
        if add_options:
            add_options(parser)

    def try_all(setup):
        for name in [setup.options.only] if setup.options.only else sweeps:
            guarded(setup, lambda: setup.sweep(name, sweeps[name](setup)))

    return main(document, try_all, add_all)


def main(document, try_all, add_options=None):
    """Runs a script's cases in a private folder, and gives the status that it ends with."""
    options = read_arguments(document, add_options)
    stop_by_signals()
    keep_files()
    setup = Setup(options.program.resolve(), options.few, options)
    setup.is_until_failed = options.until_failed
    came_from = os.getcwd()
    with tempfile.TemporaryDirectory(prefix="pgn-tests-") as folder:
        os.chdir(folder)
        try:
            if os.access(setup.program, os.X_OK):
                guarded(setup, lambda: try_all(setup))
            else:
                setup.case("tools", f"{setup.program} is not there: tools/build")
        except HasFailed:
            pass
        finally:
            os.chdir(came_from)
    return setup.tail()
