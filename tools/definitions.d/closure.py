"""Prints what the clauses of contracts rest on."""
from dataclasses import dataclass, field

from tree import Declared


@dataclass
class Closure:
    """What clauses rest on: definitions and laws in reading order, and types of the code."""
    tree: object
    definitions: list = field(default_factory=list)
    laws: list = field(default_factory=list)
    types: list = field(default_factory=list)

    @property
    def count(self):
        """How many lines the definitions have."""
        return lines_of(self.tree, self.definitions)


def lines_of(tree, keys):
    """How many lines define these."""
    return sum(tree.definitions[it].count for it in keys)


def clauses_found(tree, wanted):
    """The clauses with the name `crate::module::[Type.]function[.clause]`, each with its file and its function; none where there is no such name."""
    found = []
    for crate in tree.crates.values():
        for file in crate.code.values():
            for function in file.functions:
                name = name_of(crate, file, function)
                if wanted == name or wanted.startswith(name + "."):
                    clause = wanted[len(name) + 1:]
                    found += [(file, function, it) for it in function.clauses if clause in ("", it.name)]
    return found


def clauses_named(tree, wanted):
    """The clauses with the name; ends the program where there are none."""
    found = clauses_found(tree, wanted)
    if not found:
        raise SystemExit(f"no contract has a clause {wanted} (CRATE::MODULE::[TYPE.]FUNCTION[.CLAUSE])")
    return found


def name_of(crate, file, function):
    """The whole name of a function."""
    owner = f"{function.owner}." if function.owner else ""
    return f"{crate.name}::{file.module.replace('.', '::')}::{owner}{function.name}"


def closure_of(tree, clauses):
    """What the clauses rest on, together."""
    start = set().union(*(tree.clause_rests_on(*it) for it in clauses))
    found = tree.closure(start)
    keys = sorted((it for it in found if not isinstance(it, Declared)), key=tree.places.get)
    closure = Closure(tree)
    closure.laws = [it for it in keys if tree.is_law(it)]
    closure.definitions = [it for it in keys if not tree.is_law(it)]
    closure.types = sorted((it for it in found if isinstance(it, Declared)), key=lambda it: it.where)
    return closure


def summary(closure):
    """The counts of a closure."""
    laws = f", and {lines_of(closure.tree, closure.laws)} lines of {len(closure.laws)} statements of laws" if closure.laws else ""
    return f"{closure.count} lines of {len(closure.definitions)} definitions{laws}, over {len(closure.types)} types of the code"


def run(tree, words):
    """Prints the closure of all clauses that the words name: whole, or by its counts alone; the status is 1 where it has more lines than are wanted."""
    most = None
    if "--at-most" in words:
        at = words.index("--at-most")
        most, words = int(words[at + 1]), words[:at] + words[at + 2:]
    closure = closure_of(tree, [it for name in words if name != "--counts" for it in clauses_named(tree, name)])
    if most is None:
        (print_counts if "--counts" in words else print_whole)(closure)
    print(f"-- {summary(closure)}")
    return 1 if most is not None and closure.count > most else 0


def print_counts(closure):
    """Prints each definition with its count of lines, the largest first."""
    keys = closure.definitions + closure.laws
    for key in sorted(keys, key=lambda it: (-closure.tree.definitions[it].count, closure.tree.places[it])):
        definition = closure.tree.definitions[key]
        note = " (law)" if closure.tree.is_law(key) else "" if closure.tree.is_believed(key) else " (private)"
        print(f"{definition.count:4} {definition.where}{note}")


def print_whole(closure):
    """Prints each definition as it stands, in reading order, by file with its lines."""
    tree = closure.tree
    for keys in files_of(tree, closure.definitions + closure.laws):
        first = tree.definitions[keys[0]]
        print(f"-- crates/{first.crate}/{first.folder.replace('.', '/')}/{first.file}.antt: {lines_of(tree, keys)} lines\n")
        for key in keys:
            print("\n".join(tree.definitions[key].comment + tree.definitions[key].lines).rstrip() + "\n")
    for one in closure.types:
        print(f"-- {one.where}, a type of the code")


def files_of(tree, keys):
    """The definitions in stretches that stand in one file."""
    stretches = []
    for key in keys:
        if stretches and stretches[-1][0][0] == key[0]:
            stretches[-1].append(key)
        else:
            stretches.append([key])
    return stretches
