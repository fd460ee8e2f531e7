"""What the kit wrote into each library that it has proved, its own ones, too: what it has read, the
text of each contract, and each function that it has compiled, also those that no source spells out,
with all that this calls. What isn't known here raises a ValueError, so that nothing is left out
unnoticed.

A *symbol* is the kit's name for a function, a type, a trait or an `impl` block, such as
`sum_lines::sinks::sink::give_all`."""

import functools
import gc
import glob
import itertools
import json
import os
import re

import lanes
from sources import all_reached, crates_of_program

# All but the program's own crate, which has `main` alone, and isn't kept as a library.
LIBRARIES = crates_of_program()[:-1]

# All that our functions and the types in them are made of. Functions in C, threads, locks, pointers
# to functions and calls through them have other words. `Ptr` also stands for the place of an
# element.
WORDS = set(
    """
    Call Fn Method Given Impl types dicts Assign Opd Copy Aggregate Repeat AddrOf LendStatic SizeOf
    NumOf If Switch Exit Seq Skip Block Loop Return Unreachable Op1 Op2 Not And Or Xor Shl Shr Add
    Sub Mul Div Rem Eq Ne Lt Le WrapAdd Offset Unsigned Cast Map Vec2 Shuffle Here local steps Field
    Variant Parts Deref Const Int Ints Lit width value values True False Unit Bool Ptr Array Vector
    Struct Ref Imm Mut Static Erased Named Param name lifetimes ty home ValueLocal MemorySlot
""".split()
)
BEFORE_A_SYMBOL = {"Fn", "Impl", "name", "Struct"}
# What the kit has written of each function, in `mir.json`; and of modules, a line each, in
# `made.json`: the line begins with what it is.
OF_A_FUNCTION = {"body", "generics", "lifetimes", "locals", "outlives", "params", "types"}
KIND = re.compile(r'\{"(\w+)":')
KINDS = set(
    """
    BoundOf Carried Close Code ConstantsOf Contract CrossingOf GhostsOf Given ImplGoals ImplLaws
    ImplMeets ImplMet ImplProof ImplStatement ImplValues Key Kinds LawsOf Layout LinkOfCrate
    LinkOfFunction LinkPassed Lts MadeProof Met Mir Named Needs PairOfBody Parent Parts PartsOfType
    ReachOf Read StandsFor Statement Symbol TypeOf ValueOf VariantsOf WaysBack ways
""".split()
)


def is_symbol(key, text):
    """Returns whether a text below a key is a symbol."""
    return key in BEFORE_A_SYMBOL and (text[:1] in "&(" or "::" in text)


def inside(tree):
    """Yields, in no order, each key in a tree of JSON with its value, and each text there that is
    no symbol with None. What is in a list counts as below the list's key."""
    left = [(None, tree)]
    while left:
        above, tree = left.pop()
        pairs = tree.items() if isinstance(tree, dict) else [(None, element) for element in tree]
        for key, value in pairs:
            if key:
                yield key, value
            if isinstance(value, (dict, list)):
                left.append((key or above, value))
            elif isinstance(value, str) and not is_symbol(key or above, value):
                yield value, None


class Function:
    """A compiled function: what it names, in order: each call (`TRAIT#N` for the Nth function, from
    0 on, of a trait that the caller's type has), and once each `impl` block that it chooses for
    what it calls; the functions that may run then; the block in which it stands; and the words that
    it is made of."""

    def __init__(self, name, record):
        generics = record["generics"]
        self.name, self.crate = name, name.split("::")[0]
        self.block = (generics["method_of"] or {}).get("Impl", [""])[0]
        self.words = set()
        calls, chosen = [], set()
        for key, value in inside([record["body"], record["locals"]]):
            self.words.add(key)
            if key == "Method":
                trait = generics["bounds"][value[0]["Given"]]["of"]
                calls.append(f"{trait}#{value[1]}")
            elif key == "Fn":
                calls.append(value[0])
            elif key == "Impl":
                chosen.add(value[0])
        methods = {block["name"]: block["methods"] for block in generics["impls"]}
        self.named = sorted([*calls, *chosen])
        self.runs = {*calls}.union(*(methods[block] for block in chosen))


def library(crate):
    """Returns the folder of what the kit has made of a crate of ours or of its own."""
    return lanes.library(crate, crate in LIBRARIES)


@functools.lru_cache(maxsize=None)
def check_libraries():
    """Fails if a library isn't of what its sources are now."""
    crates = [crate for crate in lanes.crates().values() if crate.name in LIBRARIES]
    if stale := [crate.name for crate in crates if not crate.is_built()]:
        raise ValueError(
            f"{', '.join(stale)} isn't proved and built from what the sources are now: "
            "./digests does it"
        )


@functools.lru_cache(maxsize=None)
def records(crate):
    """Returns what the kit has written of a crate's functions, by their symbols."""
    gc.disable()
    with open(f"{library(crate)}/toolchain/mir.json", encoding="utf-8") as file:
        by_symbol = dict(json.load(file))
    gc.freeze()  # or Python goes through all of this, again and again
    gc.enable()
    if strange := [name for name, record in by_symbol.items() if record.keys() != OF_A_FUNCTION]:
        raise ValueError(f"the kit has written of {strange[0]} what isn't known here")
    return by_symbol


@functools.lru_cache(maxsize=None)
def function(name):
    """Returns the function with this symbol, or None if there is none, as for a block."""
    record = records(name.split("::")[0]).get(name)
    return record and Function(name, record)


@functools.lru_cache(maxsize=None)
def ours():
    """Returns the functions of the program's libraries, by their symbols."""
    check_libraries()
    functions = {name: function(name) for crate in LIBRARIES for name in records(crate)}
    for of_ours in functions.values():
        if unknown := of_ours.words - WORDS:
            raise ValueError(f"{of_ours.name} has {unknown}, which isn't known here")
    return functions


def reached(names, among=None):
    """Returns the symbols of these functions and of all that may run by them, ours and the kit's;
    or of those alone that are among some."""

    def functions(symbols):
        return [name for name in symbols if (among is None or name in among) and function(name)]

    return {*all_reached(functions(names), lambda name: functions(function(name).runs))}


def symbol(crate, name):
    """Returns the symbol of the function of that name in a crate, which has one."""
    (known,) = [other for other in records(crate) if other.split("::")[-1] == name]
    return known


def around_command():
    """Returns the functions of ours that run before and after `command`, by their symbols."""
    around, left, command = {}, [symbol("digests", "program")], symbol("digests", "command")
    while left:
        called = ours().get(left.pop())
        if called and called.name not in around and called.name != command:
            around[called.name] = called
            left += called.named
    return around


def callers_of(names):
    """Returns the other functions of ours that name one of these, or the block in which one stands,
    and those that name them in turn. A function in a block is called through a trait, so the search
    ends there."""
    above, asked = set(), {*names}
    while asked:
        wanted = asked | {ours()[name].block for name in asked}
        callers = {caller.name for caller in ours().values() if wanted & {*caller.named}}
        new = callers - above - {*names}
        above |= new
        asked = {name for name in new if not ours()[name].block}
    return sorted(above)


def statements():
    """Yields what the kit has made of contracts and views: the crate, the module, and what it has
    there, as JSON."""
    check_libraries()
    for crate in LIBRARIES:
        module = ""
        with open(f"{library(crate)}/lang/antt/made.json", encoding="utf-8") as file:
            for line in file:
                kind = KIND.match(line)
                if not kind:
                    module = json.loads(line)
                elif kind[1] not in KINDS:
                    raise ValueError(f"{module} of {crate} has {kind[1]}, which isn't known here")
                elif module.startswith("specs/"):
                    yield crate, module, line


def clauses():
    """Yields what the kit has read of contracts and views: the crate, the module that it makes of
    each, and the text: in braces, a clause or a ghost member, and otherwise what a `ghost use` of
    the file imports."""
    for crate, module, line in statements():
        for key, value in inside(json.loads(line)):
            if key == "Read" and value:
                yield crate, module, value["bytes"]


def without_parameters(name):
    """Returns the symbol of a type's function without the names of the type's parameters."""
    return re.sub(r"\+[\w+]*(?=::\w+$)", "", name)


def symbol_of(crate, parts):
    """Returns the symbol of that of which the kit has made a module of a crate, with these parts
    after `contracts` or `declared`."""
    parts = itertools.takewhile(lambda part: not re.match("The[A-Z]|(Key|Laws)$", part), parts)
    return without_parameters("::".join([crate, *parts]))


@functools.lru_cache(maxsize=None)
def mentions():
    """Returns what the kit has resolved in each contract, type, trait and `impl` of ours: by its
    symbol the symbols there, the kit's, too."""
    by_symbol = {}
    for crate, module, line in statements():
        record = json.loads(line)
        record.get("Contract", {}).pop("types", None)  # those of the whole file, which say nothing
        named = {value for key, value in inside(record) if key == "symbol"} - {None}
        of_module = by_symbol.setdefault(symbol_of(crate, module.split("/")[2:]), set())
        of_module.update(map(without_parameters, named))
    return by_symbol


def mentioned_in(name):
    """Returns the symbols of types, traits and blocks in what has this symbol."""
    if name not in mentions():
        raise ValueError(f"the kit has written nothing of {name}")
    return mentions()[name]


@functools.lru_cache(maxsize=None)
def laws():
    """Returns the members of our traits that are laws."""
    lines = [line for _, _, line in statements() if line.startswith('{"BoundOf"')]
    bounds = [json.loads(line)["BoundOf"] for line in lines]
    return {name for bound in bounds for name, _ in bound["laws"]}


def module(crate, file):
    """Returns the kit's name for the module of a file of code."""
    return re.sub("::lib$", "", f"{crate}::{file[:-len('.rt')]}".replace("/", "::"))


@functools.lru_cache(maxsize=None)
def modules():
    """Returns the modules of our code."""
    return {module(crate, file) for crate, file, _ in read_files()}


def home(name):
    """Returns the module of the function of ours with this symbol; that of a type's function is its
    type's."""
    parts = name.split("::")
    above = ("::".join(parts[:size]) for size in range(len(parts) - 1, 0, -1))
    return next(module for module in above if module in modules())


def read_files():
    """Yields the files of code as the kit has read them: the crate, the path in its `src`, and the
    path."""
    check_libraries()
    for crate in LIBRARIES:
        folder = f"{library(crate)}/lang/src"
        for path in sorted(glob.glob(f"{folder}/**/*.rt", recursive=True)):
            yield crate, os.path.relpath(path, folder), path
