"""Who calls each public function."""
import re
from dataclasses import dataclass
from functools import cache

from closure import name_of
from surface import public_functions

# The modules that call nothing for others: laws are contracts of functions that do nothing, and what calls over memory are examples of calls.
LAWS, EXAMPLES = "laws", "memory"
CALL = re.compile(r"(\w+::|\.)?\b(\w+)(?:::<[^()]*>)?\(")


@dataclass(frozen=True)
class Caller:
    """A function that calls another: its crate, its name, and whether it has a contract, is an
    example, or is a test."""
    crate: str
    name: str
    is_proved: bool
    is_example: bool
    is_test: bool


@dataclass(frozen=True)
class Call:
    """A call as it stands in a body: what stands before the name, and where."""
    before: str
    crate: object
    file: object
    function: object


@dataclass
class Calls:
    """All calls of the repository by the name that is called, and by type the functions that answer one."""
    by_name: dict
    givers: dict


def calls_of(tree):
    """All calls."""
    by_name, givers = {}, {}
    for crate in [*tree.crates.values(), tree.tests]:
        for file in crate.code.values():
            for function in file.functions:
                for before, name in set(CALL.findall(function.body)):
                    by_name.setdefault(name, []).append(Call(before, crate.name, file, function))
                for answer in re.findall(r"[A-Z]\w+", function.head.rpartition("->")[2] if "->" in function.head else ""):
                    givers.setdefault(answer, set()).add(function.name)
    return Calls(by_name, givers)


@cache
def callers_by_function(tree):
    """Each public function with its callers: (crate, file, function), callers."""
    return list(each_with_callers(tree, calls_of(tree)))


def each_with_callers(tree, calls):
    """Each public function with those of the calls that are its own."""
    for crate in tree.crates.values():
        for file, function in public_functions(crate):
            if function.trait in ("", "trait"):
                is_call = is_call_of_member if function.owner else is_call_of_function
                found = [it for it in calls.by_name.get(function.name, []) if it.function is not function and is_call(calls, crate, file, function, it)]
                by_name = {}
                for it in found:
                    by_name[name_of(tree.crates.get(it.crate, tree.tests), it.file, it.function)] = it
                callers = [caller(tree, name, it) for name, it in sorted(by_name.items())]
                yield (crate, file, function), callers


def caller(tree, name, call):
    """Who makes the call; a function that a trait asks for has the contract that stands there, but
    for one of a test."""
    is_test = call.crate == tree.tests.name
    has_contract = bool(call.function.clauses) or call.function.trait not in ("", "trait")
    is_example = not is_test and call.file.module == EXAMPLES
    return Caller(call.crate, name, not is_test and has_contract, is_example, is_test)


def is_call_of_member(calls, crate, file, function, call):
    """A call by this name is one of the type's function: it says the type, or a parameter for the trait; or it is a method's call, in a file that names
    the type or beside a call that answers one."""
    if call.before == f"{function.owner}::" or call.before == "Self::" and call.function.owner == function.owner:
        return True
    if call.before != ".":
        return function.trait == "trait" and bool(re.match(r"[A-Z]::", call.before))
    called = {name for _, name in CALL.findall(call.function.body)}
    return bool(re.search(rf"\b{function.owner}\b", call.file.text)) or bool(called & calls.givers.get(function.owner, set()))


def is_call_of_function(calls, crate, file, function, call):
    """A call by this name is one of the function: it says the module, or its file imports the function or has it."""
    if call.before:
        return call.before in (f"{file.module.split('.')[-1]}::", f"{crate.name}::")
    imports = [line for line in call.file.uses if re.search(rf"\b{function.name}\b", line)]
    return call.file is file or any(call.crate == crate.name or line.startswith(f"{crate.name}::") for line in imports)


def listed(tree):
    """Each public function but for examples and for laws that want nothing of their callers, by its name, with its callers; none of a crate without
    definitions."""
    for (crate, file, function), callers in callers_by_function(tree):
        is_law = file.module == LAWS and not wants(function)
        if crate.specs and not is_law and file.module != EXAMPLES:
            yield name_of(crate, file, function), callers


def wants(function):
    """The function wants something of its callers."""
    return any(it.kind == "requires" for it in function.clauses)


def unproved(tree):
    """The names of public functions that want something of their callers, and that tests alone
    call."""
    for (crate, file, function), callers in callers_by_function(tree):
        are_tests = callers and all(it.is_test for it in callers)
        if wants(function) and are_tests and file.module != EXAMPLES:
            yield name_of(crate, file, function)
