"""What holds each definition, and who calls each public function, by letters: a file of data."""

import callers
import holders

DATA = "tools/definitions.d/held.tsv"
HEAD = """\
# Written by `tools/definitions --write`, from the tree and docs/held-by.txt; docs/PROOFS.md has the
# letters. Of a definition: crate, file, name, what holds it. Of a function: crate, name, callers.
"""


def rows(tree):
    """The rows of the file, each with its columns."""
    held = holders.holders_of(tree)
    for crate in tree.crates.values():
        for file in crate.believed:
            for it in crate.specs[file].definitions if file in crate.specs else []:
                yield crate.name, file, it.name, held[it.key].letters()
    for name, found in callers.listed(tree):
        crate, _, own = name.partition("::")
        yield crate, own, letters(crate, found)


def letters(crate, found):
    """The kinds of callers: an example over known bytes (M), a function with a contract of another
    crate (C), any other of another crate (U), one of its own crate (O), a test (T); `-` for
    none."""
    others = [it for it in found if not it.is_example and not it.is_test]
    kinds = {
        "M": any(it.is_example for it in found),
        "C": any(it.crate != crate and it.is_proved for it in others),
        "U": any(it.crate != crate and not it.is_proved for it in others),
        "O": any(it.crate == crate for it in others),
        "T": any(it.is_test for it in found),
    }
    return "".join(letter for letter, is_so in kinds.items() if is_so) or "-"


def print_callers(tree, name):
    """Prints all callers of the public functions of a name, or why there are none; fails where
    there is no such function."""
    reasons = holders.reasons_of(tree)
    listed = [(whole, found) for whole, found in callers.listed(tree)
              if name in (whole, whole.replace(".", "::").rpartition("::")[2])]
    for whole, found in listed:
        print(f"{whole}: {', '.join(it.name for it in found) or reasons.get(whole, 'nothing')}")
    if not listed:
        holders.report_missing("public function", name)
    return 0 if listed else 1


def written(tree):
    """The file as it should be."""
    return HEAD + "".join("\t".join(row) + "\n" for row in rows(tree))


def faults(tree):
    """What is wrong with the file: another one, and functions without a caller."""
    path = tree.top / DATA
    if not path.is_file() or path.read_text(encoding="utf-8") != written(tree):
        yield (f"{DATA} has other letters than tools/definitions makes "
               "(tools/definitions --write)")
    reasons = holders.reasons_of(tree)
    for name, found in callers.listed(tree):
        if not found and name not in reasons:
            yield f"nothing calls {name}, and {holders.HAND} gives no reason"
        if found and name in reasons:
            yield f"{holders.HAND} gives a reason why nothing calls {name}, and {found[0].name} does"
    for name in callers.unproved(tree):
        yield f"only tests call {name}, which requires something: let a function of a crate call it"
    for name in sorted(set(reasons) - {it for it, _ in callers.listed(tree)}):
        yield f"{holders.HAND} gives a reason for {name}, which is no public function"


def write(tree):
    """Writes the file."""
    (tree.top / DATA).write_text(written(tree), encoding="utf-8")
