"""The table of docs/PROOFS.md: on how many lines of definitions contracts rest, and how many there
are."""
import re

from closure import clauses_found, closure_of, lines_of as lines_of_keys

DOCUMENT = "docs/PROOFS.md"
# The table of contracts begins so; the crates follow, a column each.
RESTS = "| Contract |"
CONTRACTS = re.compile(r"^" + re.escape(RESTS) + r".*\n\|[-|]+\n(?:\|.*\n)*", re.MULTILINE)


def lines_of(path):
    """How many lines of the file define something."""
    lines = (line.strip() for line in path.read_text(encoding="utf-8").split("\n"))
    return sum(1 for line in lines if line and not line.startswith(("--", "use ", "pub use ")))


def counted(tree):
    """The crates that have files which a reader must believe, each with these and their lines."""
    for crate in tree.crates.values():
        if crate.believed:
            public = crate.folder / "specs/Public"
            yield crate.name, [(name, sum(map(lines_of, public.glob(f"{name}.antt"))))
                               for name in crate.believed]


def files(tree):
    """A line a crate: the files that a reader must believe, each with its lines."""
    lines = ((crate, ", ".join(f"{name} {count}" for name, count in counts))
             for crate, counts in counted(tree))
    return "".join(f"{crate}: {line}\n" for crate, line in lines)


def rests(tree, text):
    """The table of contracts that stands in the text: for each contract the lines of definitions that
    it rests on, in each crate and together. The last row has all lines."""
    lines = {crate: sum(count for _, count in counts) for crate, counts in counted(tree)}
    crates = list(lines)
    head = f"{RESTS} " + " | ".join(f"`{it}`" for it in crates) + " | Together |\n|" + "---|" * (len(crates) + 2) + "\n"
    rows = "".join(row(tree, name, crates) for name in names_in(text))
    every = " | ".join(map(str, [*lines.values(), sum(lines.values())]))
    return f"{head}{rows}| all | {every} |\n"


def names_in(text):
    """The contracts in the table."""
    return re.findall(r"^\| `([\w:.]+::[\w:.]+)` \|", text, re.MULTILINE)


def row(tree, name, crates):
    """The row of a contract; one that is not there rests on nothing."""
    closure = closure_of(tree, clauses_found(tree, name))
    counts = [lines_of_keys(tree, [it for it in closure.definitions if tree.definitions[it].crate == crate]) for crate in crates]
    return f"| `{name}` | " + " | ".join(str(it) if it else "" for it in counts) + f" | {closure.count} |\n"


def written(tree):
    """The document with the table as it should be; none where it lacks it."""
    text = (tree.top / DOCUMENT).read_text(encoding="utf-8")
    return CONTRACTS.sub(lambda it: rests(tree, it[0]), text) if CONTRACTS.search(text) else None


def faults(tree):
    """How the document's table differs."""
    found = CONTRACTS.search((tree.top / DOCUMENT).read_text(encoding="utf-8"))
    missing = [it for it in names_in(found[0]) if not clauses_found(tree, it)] if found else []
    yield from (f"{DOCUMENT} names the contract {it}, which is not there" for it in missing)
    if not found or not missing and found[0] != rests(tree, found[0]) or not names_in(found[0]):
        yield f"{DOCUMENT} has another table of contracts than tools/definitions makes (tools/definitions --write)"


def write(tree):
    """Writes the table into the document."""
    text = written(tree)
    if text is None:
        raise SystemExit(f"{DOCUMENT} lacks the table of contracts")
    (tree.top / DOCUMENT).write_text(text, encoding="utf-8")
