"""The public contracts of each crate: what its lib.rt hands out."""
import re
from dataclasses import dataclass, field


@dataclass
class Surface:
    """What a crate hands out: names of types and traits, and functions that stand alone, as (module, name)."""
    types: set = field(default_factory=set)
    functions: set = field(default_factory=set)


def surface_of(crate):
    """What a crate hands out."""
    surface = Surface()
    if "lib" in crate.code:
        add_module(crate, surface, "lib", "")
    return surface


def add_module(crate, surface, module, folder):
    """Adds what a public module hands out; its own modules stand in the folder of that name."""
    file = crate.code[module]
    surface.types |= {it.name for it in file.types if it.is_public}
    surface.functions |= {(module, it.name) for it in file.functions if it.is_public and not it.owner}
    for inner, is_public in file.modules:
        if is_public:
            add_module(crate, surface, folder + inner, folder + inner + ".")
    for line in file.public_uses:
        path, names = used_names(line)
        for name in names:
            add_name(crate, surface, folder + path, name)


def used_names(line):
    """The path and the names of an import of code."""
    found = re.match(r"(?:crate::)?((?:\w+::)*)(?:\{(.*)\}|(\w+))$", line)
    return found[1].rstrip(":").replace("::", "."), [it.strip() for it in (found[2] or found[3]).split(",") if it.strip()]


def add_name(crate, surface, module, name):
    """Adds what the name means in a module, which may itself have it from another."""
    file = crate.code.get(module)
    if file is None:
        return
    if any(it.name == name for it in file.types):
        surface.types.add(name)
    elif any(it.name == name and not it.owner for it in file.functions):
        surface.functions.add((module, name))
    for line in file.public_uses:
        path, names = used_names(line)
        if name in names:
            add_name(crate, surface, path if line.startswith("crate::") else f"{module}.{path}", name)


def public_functions(crate):
    """The functions that a crate hands out, each with its file: those that stand alone, and those of its types and traits."""
    surface = surface_of(crate)
    for file in crate.code.values():
        for function in file.functions:
            alone = not function.owner and (file.module, function.name) in surface.functions
            member = function.owner in surface.types and function.is_public
            given = function.owner in surface.types and function.trait not in ("", "trait") and function.clauses
            if alone or member or given:
                yield file, function


def public_facts(crate, traits):
    """The terms that a crate's public types and traits hand out beside functions, each with its file and the name of the type. What a type says for
    one of the `traits` of the repository is no promise of its own: the trait makes it."""
    surface = surface_of(crate)
    for file in crate.code.values():
        for (owner, trait), ghosts in file.models.items():
            if owner in surface.types and trait not in traits:
                for name, text in ghosts.items():
                    if trait != "Model" or name == "Value":
                        yield file, owner, text
