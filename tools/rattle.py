"""The files of code (`.rt`) and all their items, as the kit has read them, with the comments of the
sources. What isn't known raises a ValueError, so that nothing is left out unnoticed."""

import itertools
import re

import compiled
import resolved
from items import Item, Source, as_in_a_source, clauses_in, uses_of
from sources import TOP, all_reached, dependencies, text_of, tokens_of

# What else stands at the margin.
NO_ITEM = re.compile(r"(?:pub (?:\( \w+ \) )?)?(?:mod|use|ghost use|macro_rules !) ")
# A module that the kit has made of our code: of a contract, a type or a trait, of its parts, or of
# a file's constants.
MADE_OF_CODE = re.compile(r"Rattle-(\w+)-specs\.(?:contracts|declared)\.([\w.+]+)")


class File:
    """A file as the kit has read it: its text, its rows and where they begin, its clauses, and its
    tokens by their lines; its items; and what it imports: the names of clauses, and those of code,
    each with its crates. `outline` has what stands at its margin, without the functions, and
    `modules` the modules below it."""

    def __init__(self, crate, file, path):
        self.crate, self.file, self.text = crate, file, text_of(path)
        self.rows = self.text.split("\n")
        self.starts = [0, *itertools.accumulate((len(row) + 1 for row in self.rows), initial=0)]
        self.module = compiled.module(crate, file)
        tokens, self.tokens = tokens_of(path), {}
        for token in tokens:
            self.tokens.setdefault(token.line, []).append(token)
        self.clauses = [*clauses_in(tokens, text_of(path))]
        if re.search(r"\n\S", "".join(part.text for part in [*tokens, *self.clauses])):
            raise ValueError(f"{path} has a text or a clause that goes on at the margin")
        self.uses = uses_of([row for row in self.rows if row.startswith("ghost use ")])
        self.items, self.imports, self.outline, self.modules = [], {}, [], []
        self.read_rows()
        self.refuse_inner_items()
        self.find_in_source()
        self.outline = [row if isinstance(row, str) else row.outline for row in self.outline]

    def read_rows(self):
        """Reads what begins at the margin: the items, the ends of blocks, and all else."""
        block = None
        starts = [number for number, row in enumerate(self.rows, 1) if row[:1].strip()]
        for first, end in zip(starts, [*starts[1:], len(self.rows)]):
            row = self.rows[first - 1]
            if row == "}":
                block.lines = range(block.lines[0], end)
                block = None
            elif NO_ITEM.match(row):
                self.read_other_row(row)
            elif block:
                block.members.append(Item(self, range(first, end), block))
            else:
                new = Item(self, range(first, end), None)
                self.items.append(new)
                if new.kind != "fn":
                    self.outline.append(new)
                if new.kind in ("impl", "trait"):
                    block = new

    def read_other_row(self, row):
        """Reads a row that names modules, or imports names of code; those of clauses are known."""
        if row.startswith("ghost use "):
            return
        self.outline.append(as_in_a_source(row).rstrip(";"))
        self.modules += re.findall(r"\bmod (\w+)", row)
        for use in re.finditer(r"\buse (\w+)(.*)", row):
            self.bring_in(*use.groups())

    def bring_in(self, first, names):
        """Adds what a `use` line imports: names below the first one, which is this crate, a module
        of the file, the kit's `std`, or a crate on which this one stands. An item of ours is found
        by its name, and a word of the kit goes by its own, so only one has another."""
        is_own = first in ("crate", "self", "super", *self.modules)
        is_known = is_own or first in ("std", *dependencies()[self.crate])
        if not is_known or re.search(r" as (?!_ |StdHasher )", names):
            raise ValueError(
                f"{self.crate} gives a second name in {self.file}, or takes one from a crate that "
                f"isn't known: use {first}{names}"
            )
        for name in re.findall(r"\w+", names):
            self.imports.setdefault(name, set()).add(self.crate if is_own else first)

    def refuse_inner_items(self):
        """Fails if a function has items in its body, which the kit's names for functions and types
        don't tell apart."""
        code = [one for of_line in self.tokens.values() for one in of_line if one.kind == "Code"]
        opened = set()
        for token, after in zip(code, code[1:]):
            if token.text == "{" and after.text != "}":
                opened.add(token.line)
        for item in self.all_items():
            if item.kind == "fn" and opened & {*item.lines}:
                raise ValueError(
                    f"{item.path} of {self.crate} has items in its body, which can't be read"
                )

    def all_items(self):
        """Yields its items, and those in them."""
        for item in self.items:
            yield item
            yield from item.members

    def find_in_source(self):
        """Finds each item in the source, which has the same, in the same order."""
        source = Source(f"{TOP}/crates/{self.crate}/src/{self.file}")
        items = [item for item in self.all_items() if not item.is_derived]
        names = [(item.kind, None if item.kind == "impl" else item.name) for item in items]
        if [(begin[1] or begin[3], begin[2]) for begin in source.begins] != names:
            raise ValueError(f"{source.path} has other items than those that the kit has read")
        starts = [source.first_line(begin) for begin in source.begins]
        for item, begin, start, end in zip(
            items, source.begins, starts, [*starts[1:], len(source.rows)]
        ):
            item.find_in(source, begin, end)
            item.comment = comment_above(source.rows[: start - 1])


def comment_above(rows):
    """Returns the lines of the comment at the end of some rows, without their marks: of those that
    begin with `///`, or of all if none does."""
    stripped = [row.strip() for row in reversed(rows)]
    comment = [*itertools.takewhile(lambda row: row.startswith("//"), stripped)][::-1]
    shown = [row for row in comment if row.startswith("///")] or comment
    return [row.lstrip("/").removeprefix(" ") for row in shown]


class Code:
    """The items of the program's libraries. `called` has those that contracts name, and `types` the
    names of types, each with that of the type that it means."""

    def __init__(self):
        self.files = [File(*of_file) for of_file in compiled.read_files()]
        self.items = [item for file in self.files for item in file.items]
        self.functions = []
        for file in self.files:
            self.functions += [item for item in file.all_items() if item.kind == "fn"]
        named = ("trait", "struct", "enum", "type")
        self.called = [item for item in self.items if item.kind in named or item.trait == "Model"]
        self.types = {}
        for item in self.items:
            if item.kind in ("struct", "enum"):
                self.types[item.name] = item.name
        for item in self.items:
            if item.kind == "type":
                self.types[item.name] = re.search(r"= (\w+)", item.head)[1]
        # Each item by its symbol. A type's function is where the type is.
        self.symbols = {}
        # By a symbol, the trait, or the type and its model.
        self.declared_as = {}
        # By name, the other names of types, and the constants, in whose place the kit puts what
        # they stand for.
        self.replaced = {}
        self.find_symbols()
        self.check()

    def check(self):
        """Compares each item with the source, where constants stand for their values."""
        values = {}
        for constant in itertools.chain(*self.replaced.values()):
            values.setdefault(constant.name, set()).add(constant.value)
        for item in self.items:
            if not item.is_derived:
                item.check(values)

    def find_symbols(self):
        """Finds the symbol of each item."""
        types = [item for item in self.items if item.kind in ("struct", "enum")]
        homes = {(item.crate, item.name): item.in_file.module for item in types}
        if len(homes) < len(types):
            raise ValueError("a crate has two types of the same name")
        for item in self.items:
            is_of_type = item.kind == "impl" and item.trait in (None, "Model")
            home = homes[item.crate, item.name] if is_of_type else item.in_file.module
            item.symbol = f"{home}::{item.block}"
            self.symbols[item.symbol] = item
            for member in item.members:
                member.symbol = f"{item.symbol}::{member.name}"
                self.symbols[member.symbol] = member
            if item.kind in ("type", "const", "static"):
                self.replaced.setdefault(item.name, []).append(item)
            elif item in self.called:
                self.declared_as.setdefault(item.symbol, []).append(item)

    def laws(self):
        """Returns each law: a public function of a module `laws`."""
        functions = [item for item in self.items if item.kind == "fn" and item.public]
        return [item for item in functions if item.file == "laws.rt"]

    def function(self, crate, name):
        """Returns the function of that name in a crate, which has one."""
        return self.symbols[compiled.symbol(crate, name)]

    def of_symbol(self, symbol):
        """Returns the function or the `impl` with this symbol, or None if no source of ours spells
        it out; `TRAIT#N` is the Nth function of a trait."""
        symbol, _, number = symbol.partition("#")
        item = self.symbols.get(compiled.without_parameters(symbol))
        if not item or not number:
            return item
        return [member for member in item.members if member.kind != "type"][int(number)]

    @staticmethod
    def meant(item, namesakes):
        """Returns those items, of some of one name, that an item means by it: those of the crates
        that a path in it or a `use` of its file names, or else of its own crate, or else of those
        that this stands on."""
        if len({other.crate for other in namesakes}) < 2:
            return namesakes
        name = namesakes[0].name
        in_paths = re.findall(rf"\b(\w+) : : (?:\w+ : : )*{name}\b", item.code())
        imported = {*item.in_file.imports.get(name, ()), *in_paths}
        for crates in (imported, [item.crate], dependencies()[item.crate]):
            if chosen := [other for other in namesakes if other.crate in crates]:
                return chosen
        return namesakes

    def mentioned_in(self, item):
        """Returns the symbols that an item mentions, its own, too. Those of ours must be known
        here."""
        parts = [item, *item.members]
        contracts = [part.symbol for part in parts if part.kind not in ("type", "const", "static")]
        mentioned = {item.symbol}.union(*map(compiled.mentioned_in, contracts))
        for symbol in mentioned - self.symbols.keys():
            if symbol.split("::")[0] in compiled.LIBRARIES:
                raise ValueError(
                    f"{symbol}, which {item.path} of {item.crate} names, isn't known here"
                )
        return sorted(mentioned)

    def named(self, item):
        """Yields the traits, types and models that an item names, and the other names of types, and
        constants, in whose place the kit puts what they stand for."""
        for symbol in self.mentioned_in(item):
            yield from self.declared_as.get(symbol, ())
        for name in sorted(self.replaced.keys() & {*re.findall(r"\w+", item.code())}):
            meant = self.meant(item, self.replaced[name])
            if len({other.crate for other in meant}) > 1:
                raise ValueError(
                    f"{name}, which {item.name} of {item.crate} names, is of several crates"
                )
            yield from meant

    def named_with_blocks(self, item):
        """Yields what `named` does, and the blocks of traits that an item mentions."""
        yield from self.named(item)
        for symbol in self.mentioned_in(item):
            block = self.symbols.get(symbol)
            if block and block.kind == "impl" and block.trait:
                yield block

    def blocks(self, items):
        """Returns the blocks in which the types that these items name, and those that these name in
        turn, have their traits."""
        named = all_reached(items, self.named_with_blocks)
        return [item for item in named if item.kind == "impl" and item.trait != "Model"]

    @staticmethod
    def symbol_at(end):
        """Returns the symbol of that of which the kit has made what has this end, or None if it is
        nothing of our code."""
        module, name = resolved.parts(end)
        made_of = MADE_OF_CODE.fullmatch(module)
        if not made_of or made_of[1] not in compiled.LIBRARIES:
            return None
        constant = [name] if module.endswith(".TheConstants") else []
        return "::".join([compiled.symbol_of(made_of[1], made_of[2].split(".")), *constant])

    def declared(self, end):
        """Returns the items to which an end leads, if the kit has made it of our types, and what
        these name: a trait, a type or, if it has a view, its model, or a constant."""
        symbol = self.symbol_at(end)
        if not symbol or "-specs.contracts." in end:
            return []
        of_code = self.declared_as.get(symbol) or [self.symbols.get(symbol)]
        if of_code == [None]:
            raise ValueError(f"{end} isn't known here")
        found = all_reached(of_code, lambda item: () if self.has_view(item) else self.named(item))
        return [item for item in found if item.trait == "Model" or not self.has_view(item)]

    def has_view(self, item):
        """Returns whether contracts see values of a type by its view. Definitions then know of it
        only of what type that is."""
        return any(other.trait == "Model" for other in self.declared_as.get(item.symbol, ()))

    def reached(self, function):
        """Returns a function, and what its contract's words mean: the traits that bound its
        parameters with those that these name, and the models of the types of its parameters and of
        their members."""
        return all_reached([function], self.named)
