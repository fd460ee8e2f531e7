"""The definitions of `specs/` (`.antt`) of the program's libraries: what each says, and what it
refers to, as the kit has resolved it. What isn't known raises a ValueError, so that nothing is left
out unnoticed.

An *origin* says where an imported name comes from: a module and the name there, or a module and
`None`, if the name stands for the module itself. `resolved.py` says what an *end* is."""

import functools
import itertools
import re

import resolved
from compiled import LIBRARIES
from sources import all_reached, code_of, dependencies, files, text_of, tokens_of

# What a block of a file begins with: a signature, a type, or how an operator binds.
START = re.compile(
    r"(?:(?:abbrev |unfoldable )?pub|abbrev) (?P<name>[^\s:]+) :(?: |$)|"
    r"infixl \d+ (?P<operator>\S+)$|"
    r"pub (?P<type>record|data) (?P<of_type>\w+) (?=[:({]|$)"
)
IMPORT = re.compile(r"(?:pub )?use ")
# The modules of the kit's logic from which a definition may import: a law's proof does.
LOGIC = {"std.HLevel"}
# The words of the kit that have another name here, since two of them have the same.
RENAMED = {"HoldsMd5": "Rattle-md5-specs.Md5.Holds", "HoldsSha1": "Rattle-sha1-specs.Sha1.Holds"}
# A module that the kit has made of our code.
MADE_OF_CODE = re.compile(r"Rattle-\w+-specs\.(?:contracts|declared)\.")
# A part of a type.
PART = re.compile(r"  (?:pub )?\w+(?: \w+)* :(?: |$)")
# What no block has: other declarations, local ones, and other ways to a name.
UNKNOWN = set(
    """
    as axiom coe com deriving fcoe hcom infix infixr mod module mutual open package ruleset tcoe
    unfold unfolding use 𝕀 𝔽
""".split()
)


def blocks(lines):
    """Yields the numbers of the lines of each block: blank lines separate them."""
    for is_blank, numbers in itertools.groupby(range(len(lines)), lambda n: not lines[n].strip()):
        if not is_blank:
            yield [*numbers]


def imports_of(line):
    """Yields the names that a `use` line imports, each with its origin."""
    use = re.match(r"(?:pub\s+)?use\s+([\w.-]+?)(?:\.\{(.*)\}|\s+as\s+(\S+?))?\s*;?$", line)
    if not use:
        raise ValueError(f"this line imports no names: {line}")
    path, names, alias = use.groups()
    if names is None:
        alias = alias or path.split(".")[-1]
        yield alias, (checked_path(path, alias, line), None)
    for name in (names or "").split(","):
        name, _, alias = (part.strip() for part in name.partition(" as "))
        below, _, name = name.rpartition(".")
        if name:
            below = f"{path}.{below}" if below else path
            yield alias or name, (checked_path(below, alias, line), name)


@functools.lru_cache(maxsize=None)
def crates():
    """Returns the crates that a path may lead through: those of crates.txt, the kit's, too."""
    return {"std", *dependencies(), *itertools.chain(*dependencies().values())}


@functools.lru_cache(maxsize=None)
def taken_names():
    """Returns the names that no module of ours may have: those of crates, and the other words with
    which a path may begin."""
    of_logic = {module.partition(".")[0] for module in resolved.logic()}
    return {"Rattle", "core", *crates(), *of_logic}


def checked_path(path, alias, line):
    """Returns a path of a `use` line, which has to lead from `Rattle` through a crate to its
    definitions. Any other first word might be a name that another line brings."""
    if alias in taken_names():
        raise ValueError(f"{alias} is a crate's name, and something else gets it: {line}")
    first, crate, part = [*path.split("."), "", ""][:3]
    allowed = ("specs", "proofs") if crate == "std" else ("specs",)
    if path not in LOGIC and (first != "Rattle" or crate not in crates() or part not in allowed):
        raise ValueError(f"{path} doesn't lead from Rattle through a crate to its specs: {line}")
    return path


def paths_in(tokens, known):
    """Returns the paths among tokens, each a tuple: of a name and of those after its dots, or of an
    operator. Of the known operators those count whose parts are all there, in whatever order, which
    may be too many. A `do` stands for the operator that it calls."""
    words = {token.text for token in tokens if token.kind == "Antt"}
    if "do" in words:
        words = words - {"do"} | {"◌>>=◌"}
    names = {tuple(word.split(".")) if re.match(r"\w", word) else (word,) for word in words}
    operators = {name for name in known if "◌" in name}
    return names | {(name,) for name in operators if words.issuperset(parts_of(name))}


def parts_of(operator):
    """Returns the words of an operator, without the places of its operands."""
    return [part for part in operator.split("◌") if part]


def origins_in(source):
    """Returns the imported names in a definition or in the clauses of an item, each with its
    origin."""
    first_names = {path[0] for path in paths_in(source.tokens, source.imports)}
    return {name: source.imports[name] for name in sorted(first_names & source.imports.keys())}


class Definition:
    """A definition: its name; its module, and how many definitions precede it there; its lines: the
    comment above it, how it binds as an operator, and itself; its tokens; and, of a type, its
    constructors. Its size is its lines without those on how it binds."""

    def __init__(self, module, start, comment, fixity, block, tokens):
        self.module = module
        self.place = len(module.definitions)
        self.name = start["name"] or start["of_type"]
        self.file = (module.crate, module.file)
        self.lines = [*comment, *fixity, *block]
        self.size = len(comment) + len(block)
        self.tokens = tokens
        self.is_lemma = not start["type"] and tokens[0].text == "pub"
        self.constructors = []
        if start["type"] == "data":
            for line in filter(PART.match, block):
                self.constructors += line.partition(" :")[0].split()
        self.imports = module.imports
        self.end = f"{module.checked}.{self.name}"


class Module:
    """A file of `specs/`: it defines names and passes names on, or names the files below it. Its
    head is the comment at its top, and `taken` has the names that it defines."""

    def __init__(self, crate, file, path):
        self.crate, self.file = crate, file
        self.name = f"Rattle.{crate}.specs.{file.replace('/', '.')}"
        self.checked = f"Rattle-{crate}-specs.{file.replace('/', '.')}"  # as the kit calls it
        self.imports, self.definitions, self.head, self.taken = {}, {}, [], set()
        if crates := taken_names() & {*file.split("/")}:
            self.fail(f"{min(crates)} is a crate's name, and a module has it")
        lines, code = text_of(path).split("\n"), code_of(path).split("\n")
        is_list = all(re.fullmatch(r"(?:pub mod \w+)? *", line) for line in code)
        if file.endswith("/Lib") or file == "Lib" and not is_list:
            self.fail(
                "a list of files is specs/Lib.antt, or beside the folder, and has no definitions"
            )
        if not is_list:
            self.read(lines, code, tokens_of(path))

    def fail(self, why):
        """Raises the error that this can't be read."""
        raise ValueError(f"{self.name}: {why}")

    def read(self, lines, code, tokens):
        """Reads the blocks of a file, of which these are the lines, the code in each, and the
        tokens. Each is a comment and imports, or a comment and a definition; either part may be
        missing."""
        for block in blocks(lines):
            comment = [*itertools.takewhile(lambda n: lines[n].startswith("--"), block)]
            rest = block[len(comment) :]
            comment = [lines[n] for n in comment]
            if rest and not IMPORT.match(code[rest[0]]):
                self.define(self.definition(comment, rest, lines, code, tokens))
                continue
            if not self.head and not self.definitions:
                self.head = comment
            for n in rest:
                self.bring_in(lines[n])

    def definition(self, comment, numbers, lines, code, tokens):
        """Returns the definition at the lines of these numbers, and the comment above it."""
        starts = [START.match(code[n]) for n in numbers]
        first = next(
            (place for place, one in enumerate(starts) if not one or not one["operator"]), 0
        )
        start = starts[first]
        fixity, block = numbers[:first], numbers[first:]
        is_start = start and not start["operator"]
        for n, begins in zip(block, starts[first:]):
            is_own = is_start and (begins is start or not begins and self.continues(start, code[n]))
            if not is_own or lines[n].startswith("--"):
                self.fail(f"this belongs to no definition: {lines[n]}")
        own_tokens = [token for token in tokens if token.line - 1 in block]
        fixity, block = ([lines[n] for n in part] for part in (fixity, block))
        return Definition(self, start, comment, fixity, block, own_tokens)

    def bring_in(self, line):
        """Adds what a `use` line imports."""
        for name, origin in imports_of(line):
            if self.imports.setdefault(name, origin) != origin:
                self.fail(f"{name} is imported twice")

    @staticmethod
    def continues(start, line):
        """Returns whether a line continues the definition that starts so: it is a part of a type,
        or an equation or a part of one."""
        if start["type"]:
            return line.startswith("    ") or PART.match(line) or line.strip() in ("", "}")
        parts = [part for part in re.split("(◌)", start["name"]) if part]
        left_side = " ".join(r"\S+" if part == "◌" else re.escape(part) for part in parts)
        return line[0] in " })" or re.match(rf"{left_side} (?:.* )?=(?: |$)", line)

    def define(self, new):
        """Adds a definition."""
        for name in (new.name, *new.constructors):
            if name in self.taken or name in self.imports or name in UNKNOWN:
                self.fail(f"{name} is defined again")
            if any(sign.isalnum() and not sign.isascii() for sign in name):
                self.fail(f"{name} has a letter that isn't ASCII's")
            self.taken.add(name)
        words = [token.text for token in new.tokens]
        if unknown := UNKNOWN & {*words}:
            self.fail(f"{new.name} has {unknown}, which isn't known here")
        wanted = 1 if words[1] in ("record", "data") else 0
        if words.count("where") != wanted and not self.file.endswith("Laws"):  # which have proofs
            self.fail(f"{new.name} has 'where', which isn't known here")
        self.definitions[new.name] = new


class Specs:
    """All definitions of the program's libraries. `owners` has, for a module of ours, as the kit
    calls it, and a name there, the definition of that name, or of the type whose constructor it is;
    `ends` has what each definition mentions."""

    def __init__(self):
        modules = [Module(*file) for file in files("specs", ".antt") if file[0] in LIBRARIES]
        self.modules = {module.name: module for module in modules}
        self.owners, self.ends = {}, {}
        for module in modules:
            for definition in module.definitions.values():
                for name in (definition.name, *definition.constructors):
                    self.owners[module.checked, name] = definition
        for module in modules:
            self.find_ends(module)
        for module in modules:
            for name, origin in module.imports.items():
                self.check(name, *origin)

    def find_ends(self, module):
        """Finds what the definitions of a module mention, as the kit has resolved it."""
        for definition in module.definitions.values():
            self.ends[definition] = set()
        mentioned = resolved.mentions(module.crate).get(module.checked, {})
        if "" in mentioned:  # the kit has kept proofs
            self.read_ends(module)
            return
        for name, ends in mentioned.items():
            self.ends[self.owner(module.checked, name)] |= ends
        for definition in module.definitions.values():
            if not self.ends[definition]:
                module.fail(f"the kit has checked no {definition.name}")

    def read_ends(self, module):
        """Finds what the texts of a module's definitions mention, by its imports."""
        for definition in module.definitions.values():
            named = self.named(definition.tokens, {}, module)
            above = {other.end for other in named if other.place < definition.place}
            words = self.words(definition.tokens, definition.imports)
            self.ends[definition] = above | {*words.values()}

    def found_with(self, definition):
        """Returns the ends that the kit has found in a definition; or, where it has kept proofs, in
        its whole file."""
        whole = resolved.mentions(definition.module.crate)[definition.module.checked].get("")
        return self.ends[definition] if whole is None else whole

    def owner(self, module, name):
        """Returns the definition to which what the kit has checked in a module of ours belongs: it
        has its name, or one that begins with it."""
        within = name.strip("{}").partition(".")[0].strip("{}")
        definition = self.owners.get((module, name)) or self.owners.get((module, within))
        if not definition:
            raise ValueError(f"{module} has {name}, which no file defines that can be read")
        return definition

    def of_end(self, end):
        """Returns the definition to which an end leads, or None if it is the kit's, or one that the
        kit has made of our code."""
        if not resolved.is_of_ours(end) or MADE_OF_CODE.match(end):
            return None
        return self.owner(*resolved.parts(end))

    def of_ends(self, ends):
        """Returns the definitions to which ends lead."""
        return {self.of_end(end) for end in ends} - {None}

    def check(self, name, path, original):
        """Fails if what is imported under a name isn't found to its end, or if a word of the kit
        gets another name."""
        end = self.end_of(path, original)
        is_renamed = original and name != original and RENAMED.get(name) != end
        if is_renamed and not resolved.is_of_ours(end):
            raise ValueError(f"{original} of {path} goes by its own name, not by {name}")

    def end_of(self, path, name=None):
        """Returns the end of a name that a path of a `use` line leads to, also through files that
        only pass it on, or the module that the path names."""
        module = self.modules.get(path)
        if not module or name is None:
            return resolved.end_of(path, name)
        if name in module.taken:
            return f"{module.checked}.{name}"
        if name not in module.imports:
            raise ValueError(f"{path} has no {name} that can be read")
        return self.end_of(*module.imports[name])

    def words(self, tokens, imports):
        """Returns the imported words among tokens, as they stand there, each with its end. A word
        that leads through modules has dots; one that stands for a module alone is none."""
        ends = {}
        for first, *below in paths_in(tokens, imports):
            path, name = imports.get(first, (None, None))
            word = first
            while path and name is None and below:
                part, *below = below
                word = f"{word}.{part}"
                inner = f"{path}.{part}"
                if inner in self.modules or resolved.module_at(inner):
                    path = inner
                else:
                    name = part
            if name:
                ends[word] = self.end_of(path, name)
        return ends

    def named(self, tokens, imports, module=None):
        """Returns the definitions that tokens name, given what is imported, and the file in which
        they stand, if they stand in one."""
        imported = self.of_ends(self.words(tokens, imports).values())
        own = module.taken if module else ()
        first_names = {path[0] for path in paths_in(tokens, own)}
        return imported | {self.owners[module.checked, name] for name in own if name in first_names}

    def references(self, definition):
        """Returns the definitions that this one refers to."""
        return self.of_ends(self.ends[definition]) - {definition}

    def reached(self, first, instead=None):
        """Returns the first definitions and all that they reach. Those that `instead` has reach
        what it says instead of what they refer to."""

        def next_of(definition):
            return instead and instead.get(definition) or self.references(definition)

        return {*all_reached(first, next_of)}
