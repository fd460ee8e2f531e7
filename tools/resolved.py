"""Where names end: what the kit wrote of each module of definitions and contracts that it checked,
of ours and of its own (`checked.a` in a library). There each definition has the whole names of all
that it mentions, whatever imports brought them. What isn't known raises a ValueError, so that
nothing is left out unnoticed.

An *end* is such a whole name: the module that defines it, and the name there. The file `A/B.antt`
in `specs` of a crate is the module `Rattle-CRATE-specs.A.B`. Other crates import from the module
`Rattle-CRATE.specs.A.B`, which passes on all public names of the file, each with its end."""

import functools
import json
import re

import compiled
import lanes

# What begins the terms in a module, each of them, and what follows each.
TERMS, TERM, AFTER_TERM = b"APT2", b"ATB2", b'{"derived":'
# A module that another passes on, with its end; and what the kit says of the names that it does.
PASSED = re.compile(r"(?m)^--@ passes pub module (\S+) (\S+)$")
INTERFACE = re.compile(r"(?m)^--@ interface (.*)$")
# The end of the type of each constructor that was found.
TYPES = {}


def number_at(data, place):
    """Returns the number at a place, of seven bits a byte, the lowest first, and its end."""
    number, shift = 0, 0
    while True:
        number |= (data[place] & 127) << shift
        place, shift = place + 1, shift + 7
        if data[place - 1] < 128:
            return number, place


def names_at(data, place):
    """Returns the names at a place: how many there are, and then each after its length."""
    count, place = number_at(data, place)
    names = []
    for _ in range(count):
        size, place = number_at(data, place)
        names.append(data[place : place + size].decode())
        place += size
    return names


def after_term(data, place):
    """Returns where that begins and ends which follows the term at a place. The term's length
    precedes it."""
    for length in range(1, 6):
        size, begin = number_at(data, place - length)
        if begin == place and place + size < len(data):
            size, start = number_at(data, place + size)
            if data[start:].startswith(AFTER_TERM):
                return start, start + size
    raise ValueError("what the kit has checked can't be read")


def terms_in(data):
    """Yields each term in a module: the names in it, and the names that it defines."""
    place = data.find(TERM)
    while place >= 0:
        start, end = after_term(data, place)
        names, made = names_at(data, place + len(TERM)), json.loads(data[start:end])
        yield names, [name for of in made["globals"] for name in (of["kernel"] or {}).values()]
        place = data.find(TERM, end)


class Checked:
    """The modules that the kit has checked of a crate, of ours or of its own, by their names."""

    def __init__(self, crate):
        self.path = f"{compiled.library(crate)}/toolchain/checked"
        self.places = {}
        with open(f"{self.path}.json", encoding="utf-8") as file:
            for line in file:
                name, start, size = json.loads(line)
                self.places[name.removeprefix("part/")] = start, size

    def text(self, module):
        """Returns the head and the body of what the kit wrote of a module."""
        start, size = self.places[module]
        with open(f"{self.path}.a", "rb") as file:
            file.seek(start)
            head, _, body = file.read(size).partition(b"\n--@ body ")
        if f"--@ module {module}\n" not in head.decode() + "\n":
            raise ValueError(f"what the kit has checked of {module} can't be read")
        return head.decode() + "\n", body


@functools.lru_cache(maxsize=None)
def checked(crate):
    """Returns the modules that the kit has checked of a crate."""
    if crate in compiled.LIBRARIES:
        compiled.check_libraries()
    return Checked(crate)


@functools.lru_cache(maxsize=None)
def logic():
    """Returns the modules of the kit's logic, and those that its machine has built in."""
    built_in = {"Prim", "Prim.Native.Nat", "Prim.Native.Char", "Prim.Native.String"}
    return lanes.modules_of_logic() | built_in


def crate_of(module):
    """Returns the crate of a module, or None if it is of the kit's logic."""
    crate = re.match(r"Rattle-(\w+)(?:-specs|-proofs)?(?=\.|$)", module)
    return crate and crate[1]


@functools.lru_cache(maxsize=None)
def is_module(module):
    """Returns whether the kit has checked a module."""
    crate = crate_of(module)
    if not crate:
        return module in logic()
    known = crate in compiled.LIBRARIES or crate in lanes.crates_of_kit()
    return known and module in checked(crate).places


def is_of_ours(end):
    """Returns whether an end is of a crate of the program."""
    return crate_of(end) in compiled.LIBRARIES


@functools.lru_cache(maxsize=None)
def passed_on(module):
    """Returns the names and the modules that a module passes on, each with its end."""
    head, _ = checked(crate_of(module)).text(module)
    names = {}
    for use in json.loads(INTERFACE.search(head)[1])["uses"]:
        *of_type, names[use["spelling"]] = use["of"].split(" ")
        if of_type:
            TYPES[names[use["spelling"]]] = of_type[0]
    return names, dict(PASSED.findall(head))


@functools.lru_cache(maxsize=None)
def made_of_code():
    """Returns the modules that the kit has made of our types and contracts."""
    made = {(crate, module.replace("/", ".")) for crate, module, _ in compiled.statements()}
    return {f"Rattle-{crate}-{module}" for crate, module in made}


@functools.lru_cache(maxsize=None)
def module_at(path):
    """Returns the module to which a path of a `use` line leads, or None if there is none."""
    _, crate, *below = path.split(".")
    module = f"Rattle-{crate}"
    own = "-".join([module, ".".join(below)])
    if path in logic() or own in made_of_code():
        return path if path in logic() else own
    for part in below:
        inner = f"{module}.{part}"
        module = inner if is_module(inner) else passed_on(module)[1].get(part)
        if not module:
            return None
    return module


@functools.lru_cache(maxsize=None)
def end_of(path, name=None):
    """Returns the end of a name that a path of a `use` line leads to, or the module that the path
    names. Where the kit has made the module of our code, it is what the path says."""
    module = module_at(path)
    if not module:
        raise ValueError(f"{path} leads to no module that the kit has checked")
    if name is None:
        return module
    if not crate_of(module) or module in made_of_code():
        return f"{module}.{name}"
    if name not in passed_on(module)[0]:
        raise ValueError(f"{path} has no {name} that the kit has checked")
    return passed_on(module)[0][name]


@functools.lru_cache(maxsize=None)
def parts(end):
    """Returns the module and the name there of an end."""
    at = len(end)
    while (at := end.rfind(".", 0, at)) > 0:
        if is_module(end[:at]) or end[:at] in made_of_code():
            return end[:at], end[at + 1 :]
    raise ValueError(f"{end} is in no module that the kit has checked")


def ends_among(names):
    """Returns those of the names in a term that are ends. The others are names of what it binds,
    and of its distinctions of cases."""
    return {name for name in names if "." in name and not re.fullmatch(r"[^.]+\.elim", name)}


def mentions_of(module, body):
    """Yields each definition in a module, by its name there, and the ends that its term mentions. A
    definition may have several terms. Where the kit has kept proofs, it has written one term for
    all definitions of a module, which has no name here."""
    _, _, terms = body.partition(b"\n")
    if terms.startswith(TERM):
        yield "", ends_among(names_at(terms, len(TERM)))
        return
    if not terms.startswith(TERMS):
        raise ValueError(f"what the kit has checked of {module} can't be read")
    for names, made in terms_in(terms):
        whole = next((name for name in [names[0], *made] if name.startswith(f"{module}.")), None)
        if not whole:
            raise ValueError(f"{module} has a definition that can't be read")
        yield whole[len(module) + 1 :], ends_among(names[1:])


@functools.lru_cache(maxsize=None)
def mentions(crate):
    """Returns what the terms mention in the modules of definitions and contracts of a crate of
    ours: by module and by name there, the ends."""
    by_module = {}
    for module in checked(crate).places:
        if module.startswith(f"Rattle-{crate}-specs"):
            of_module = by_module.setdefault(module, {})
            for name, ends in mentions_of(module, checked(crate).text(module)[1]):
                of_module.setdefault(name, set()).update(ends)
    return by_module


@functools.lru_cache(maxsize=None)
def has_proofs():
    """Returns whether the kit has kept the proofs of a library, and not only what it states."""
    return any("" in terms for crate in compiled.LIBRARIES for terms in mentions(crate).values())


@functools.lru_cache(maxsize=None)
def contracts():
    """Returns the ends that are mentioned in what the kit has made of each contract, type, trait
    and `impl` of ours, by its symbol; those in the proofs of a trait's laws are left out."""
    by_symbol = {}
    for crate in compiled.LIBRARIES:
        for module, terms in mentions(crate).items():
            path = re.match(rf"Rattle-{crate}-specs\.(?:contracts|declared)\.(.*)", module)
            if path and not module.endswith(".TheImpl.Laws"):
                symbol = compiled.symbol_of(crate, path[1].split("."))
                by_symbol.setdefault(symbol, set()).update(*terms.values())
    return by_symbol
