"""An item of the code (`.rt`): what the kit has read of it, and its own text, cut out of the source
by the tokens that it has there. These are compared with those that the kit has read, so that
nothing is shown that wasn't proved. What isn't known raises a ValueError, so that nothing is left
out unnoticed."""

import bisect
import collections
import re

import compiled
from definitions import imports_of
from sources import code_of, text_of, tokens_of

# The kit writes an item on a line, its tokens separated by spaces. Clauses and ghost members stand
# as in the source.
ITEM = re.compile(
    r"(?P<attributes>(?:# \[ .*? \] )*?)(?P<public>pub (?!\())?(?:pub \( [^)]* \) )?"
    r"(?:const (?=fn ))?"
    r"(?:unsafe (?=impl ))?(?P<kind>fn|trait|struct|enum|type|const|static|impl) (?P<name>\w*).*"
)
# The beginning of an item in a source, and the attributes that end before it.
IN_A_SOURCE = re.compile(
    r"(?m)^(?:    )?(?:pub(?:\([^)]*\))? )?(?:const (?=fn ))?"
    r"(fn|trait|struct|enum|type|const|static) (\w+)|^(?:unsafe )?(impl)\b"
)
ATTRIBUTES = re.compile(r"(?m)(?:^ *#\[(?:[^\[\]]|\[[^\[\]]*\])*\]\s*)*\Z")
# What a source has that isn't shown, besides the bodies of functions.
NOT_SHOWN = re.compile(r"(?m)#\[(?:[^\[\]]|\[[^\[\]]*\])*\]|^ +ghost use [^;]*;")
# A number that the kit has computed of a constant, and of what it may have computed it.
COMPUTED, SUM = re.compile(r"\((\d+)_\w+\)"), re.compile(r"[\d+*<-]+")
VALUES = ("const", "static", "type")  # the kinds of items that end only with a semicolon
OPENING, CLOSING = {*"([{"}, {*")]}"}


def as_in_a_source(line):
    """Returns a line on modules, its tokens separated by spaces, as a source has it; and any other
    line of a source as it is."""
    for tokens, text in ((" :: ", "::"), (" ,", ","), (", }", " }"), (" ;", ";")):
        line = line.replace(tokens, text)
    return line.strip()


# A clause or a ghost member: its head, up to the opening bracket; its label (`result` without one),
# if it is one that a function ensures; its name, if it is a member; its first line; its text, and
# the tokens in its brackets.
Clause = collections.namedtuple("Clause", "head label member line text tokens")


def clauses_in(tokens, text):
    """Yields the clauses and ghost members among the tokens of a file."""
    head, inner = [], None
    for token in tokens:
        if token.kind == "Head":
            head.append(token)
            inner = [] if token.text == "{" else None
        elif token.kind == "End":
            first = head[0].text
            label = (head[1].text.strip("{") or "result") if first == "ensures" else None
            member = head[1].text if first == "ghost" else None
            words = " ".join(filter(None, [word.text.strip("{") for word in head]))
            inside = text[head[-1].start : token.end]
            yield Clause(words, label, member, head[0].line, inside, inner)
            head, inner = [], None
        elif inner is None:
            head = []  # it was the `use` of a `ghost use`
        else:
            inner.append(token)


def uses_of(rows):
    """Returns the names that `ghost use` lines import, each with its origin."""
    origins = {}
    for row in rows:
        origins.update(imports_of(row.strip().removeprefix("ghost ")))
    return origins


def with_depth(tokens):
    """Yields each token of code with how many brackets, also angle brackets, are open after it."""
    depth, before = 0, ""
    for token in tokens:
        if token.kind == "Code":
            depth += token.text in OPENING or token.text == "<"
            depth -= token.text in CLOSING or token.text == ">" and before != "-"
        before = token.text
        yield token, depth


def at_commas(tokens):
    """Returns the parts of tokens that commas outside of brackets separate."""
    parts = [[]]
    for token, depth in with_depth(tokens):
        if token.text == "," and not depth:
            parts.append([])
        else:
            parts[-1].append(token)
    return [part for part in parts if part]


def outside_clauses(tokens):
    """Yields the tokens that aren't of a clause or a ghost member."""
    is_inside = False
    for token in tokens:
        is_inside = is_inside or token.kind == "Head"
        if not is_inside:
            yield token
        is_inside = is_inside and token.kind != "End"


def on_one_line(tokens, text):
    """Returns tokens of a text on one line, without comments, and without what only a break of a
    line needs."""
    line, before = "", None
    for token in tokens:
        gap = text[before.end : token.start] if before else ""
        is_broken = "\n" in gap
        if is_broken and token.text in (*CLOSING, ">"):
            line = line.removesuffix(",")
        is_open = before and before.text in ("(", "[", "<")
        if gap and not (is_broken and (is_open or token.text in (")", "]", ">"))):
            line += " "
        line += token.text
        before = token
    return line


def without_ends(tokens):
    """Returns the texts of tokens without commas and semicolons at an end, and without empty
    bodies."""
    texts = " ".join(token.text for token in tokens if token.text != ";")
    return re.sub(r",(?= [)\]}>]|$)|\{ \}", "", texts).split()


class Source:
    """A file of code as it is written: its text, its tokens, where its items begin, and the places
    of what isn't shown of it."""

    def __init__(self, path):
        self.path, self.text, self.tokens = path, text_of(path), tokens_of(path)
        self.code, self.rows = code_of(path), self.text.split("\n")
        self.starts = [token.start for token in self.tokens]
        self.begins = [*IN_A_SOURCE.finditer(self.code)]
        self.gaps = [match.span() for match in NOT_SHOWN.finditer(self.code)]

    def line_at(self, place):
        """Returns the number of the line of a place."""
        return self.text.count("\n", 0, place) + 1

    def first_line(self, begin):
        """Returns the number of the line with which an item begins, or its attributes."""
        return self.line_at(ATTRIBUTES.search(self.code[: begin.start()]).start())

    def tokens_in(self, start, end):
        """Returns the tokens between two places that are shown."""
        first, last = (bisect.bisect_left(self.starts, place) for place in (start, end))
        gaps = [gap for gap in self.gaps if start <= gap[0] < end]
        tokens = self.tokens[first:last]
        return [one for one in tokens if not any(of <= one.start < to for of, to in gaps)]

    def text_in(self, start, end):
        """Returns the text between two places that is shown, without blank lines."""
        pieces, place = [], start
        for gap, after in sorted(gap for gap in self.gaps if start <= gap[0] < end):
            pieces.append(self.text[place:gap])
            place = max(place, after)  # a body may have attributes in it
        rows = "".join([*pieces, self.text[place:end]]).split("\n")
        return [row.rstrip() for row in rows if row.strip()]


class Item:
    """A function with its contract, a trait, a type, an `impl` or a constant, at some lines of a
    file as the kit has read it: its attributes; its head, which precedes the contract or the body;
    and its members, the items in it. `above` is the `impl` or the trait in which it is, and `path`
    its name after that one's. An `impl` has the name of its type, and, as `block`, the one that the
    kit gives to it; `symbol` is the kit's whole name of an item, which `Code` finds. From the
    source come the `///` comment above it, its lines there, from its attributes on, and its text;
    no source has what is derived."""

    def __init__(self, in_file, lines, above):
        self.in_file, self.crate, self.file = in_file, in_file.crate, in_file.file
        self.lines, self.above = lines, above
        self.members, self.comment, self.in_source = [], [], ()
        row = in_file.rows[lines[0] - 1]
        begin = ITEM.fullmatch(row)
        if not begin:
            raise ValueError(f"{self.crate} {self.file} has what isn't known here: {row}")
        self.attributes, self.kind, self.name = begin["attributes"], begin["kind"], begin["name"]
        self.public = bool(begin["public"] or above and above.kind == "trait")
        self.owner, self.trait = (above.name, above.trait) if above else ("", None)
        self.is_derived = "automatically_derived" in (above or self).attributes
        self.of_head = []  # its tokens before the contract or the body
        self.block = None if self.kind == "impl" else self.name
        if self.kind == "impl":
            self.read_impl(self.read, in_file.text)
        self.path = f"{self.owner}::{self.name}" if above else self.name

    @property
    def read(self):
        """Its tokens as the kit has read them, but for attributes and imports."""
        file = self.in_file
        starts = {n: file.starts[n] for n in self.lines}
        for item in (self, *self.members):
            starts[item.lines[0]] += len(item.attributes)
        lines = [n for n in self.lines if not file.rows[n - 1].startswith("    ghost use ")]
        tokens = [token for line in lines for token in file.tokens.get(line, ())]
        return [token for token in tokens if token.start >= starts[token.line]]

    def read_impl(self, tokens, text):
        """Reads the head of an `impl`: its parameters, its trait, its type, its block, its
        bounds."""
        parts, word = {"impl": []}, "impl"
        for token, depth in with_depth(tokens):
            if token.text == "{":
                break
            if not depth and token.text in ("for", "as", "where") and word != "where":
                word = token.text
                parts[word] = []
            elif token.text not in ("unsafe", "impl"):
                parts[word].append(token)
        generics, path = [], parts["impl"]
        if path[0].text == "<":
            size = next(place for place, (_, depth) in enumerate(with_depth(path)) if not depth)
            generics, path = path[1:size], path[size + 1 :]
        if "for" in parts:
            self.trait = re.sub(r"^(?:\w+ ?:: ?)+", "", on_one_line(path, text))
            path = parts["for"]
        of_type = re.match(r"(?:& ?mut )?(?:\w+ ?: ?: ?)*(\w+)", on_one_line(path, text))
        self.name = of_type[1]
        self.block = parts["as"][0].text if "as" in parts else self.block or self.name
        bounds = at_commas(generics), at_commas(parts.get("where", ()))
        self.bounds = [[on_one_line(bound, text) for bound in part] for part in bounds]

    def find_in(self, source, begin, end):
        """Finds the item in a source: it begins there, and the next one at line `end`."""
        self.source, self.in_source = source, range(source.first_line(begin), end)
        tokens = source.tokens_in(begin.start(), len(source.text))
        depth, head, body, is_value = 0, None, None, self.kind in VALUES
        for place, token in enumerate(tokens):
            sign = token.text if token.kind == "Code" else ""
            if not depth and not is_value and (token.kind == "Head" or sign in ("{", ";")):
                head = place if head is None else head
            if self.kind == "fn" and sign == "{" and not depth:
                body = tokens[place - 1].end
            depth += (sign in OPENING) - (sign in CLOSING)
            if not depth and (sign == ";" or sign == "}" and not is_value):
                break
        self.start, self.end = tokens[0].start, token.end
        self.of_head = tokens[: place if head is None else head]
        if body:
            source.gaps.append((body, token.end))
        if self.kind == "impl":
            self.read_impl(self.of_head, source.text)
            for member in self.members:
                member.trait = self.trait

    @property
    def shown(self):
        """Its tokens in the source, but for attributes, imports and bodies."""
        return self.source.tokens_in(self.start, self.end)

    @property
    def value(self):
        """The value of a constant, as the kit has read it."""
        _, _, value = "".join(without_ends(self.read)).partition("=")
        number = COMPUTED.fullmatch(value)
        return number[1] if number else value

    def check(self, values):
        """Fails if the source has other tokens than the kit has read. The kit has these values in
        the place of constants, and a number in that of a sum; it names each `impl`, and leaves out
        the `mut` of a parameter."""
        ours, read = without_ends(self.shown), without_ends(self.read)
        places = zip(["", *ours], ours)
        ours = [one for before, one in places if one != "mut" or before not in ("(", ",")]
        if self.kind == "impl" and "as" in read and ours != read:
            place = read.index(self.block) - 1
            del read[place : place + 2]
        if self.kind == "const" and SUM.fullmatch(value := "".join(ours[ours.index("=") + 1 :])):
            place = ours.index("=") + 1
            ours[place:], read[place:] = [str(eval(value))], [
                self.value
            ]  # of digits and signs alone
        is_same = len(ours) == len(read) and all(
            word == other or other in values.get(word, ()) for word, other in zip(ours, read)
        )
        if not is_same:
            raise ValueError(
                f"{self.source.path} has another {self.path} than the kit has read:\n"
                f"{' '.join(ours)}\n{' '.join(read)}"
            )

    @property
    def head(self):
        """Its head, on one line."""
        if self.is_derived:
            return self.in_file.rows[self.lines[0] - 1][len(self.attributes) :].partition(" {")[0]
        return on_one_line(self.of_head, self.source.text).rstrip(";,").removeprefix("pub ")

    @property
    def clauses(self):
        """Its clauses and ghost members, and those of its members."""
        return [clause for clause in self.in_file.clauses if clause.line in self.lines]

    @property
    def imports(self):
        """The names that its clauses may use because of a `ghost use`, each with its origin."""
        rows = [self.in_file.rows[number - 1] for number in (self.above or self).lines]
        inner = uses_of([row for row in rows if row.startswith("    ghost use ")])
        return {**self.in_file.uses, **inner}

    def code(self):
        """Returns its code, also that in the brackets of clauses."""
        own = [token for line in self.lines for token in self.in_file.tokens.get(line, ())]
        return " ".join(token.text for token in own if token.kind == "Code")

    @property
    def parts(self):
        """The fields of a struct, or the variants of an enum, each on one line."""
        tokens = [*outside_clauses(self.shown[len(self.of_head) + 1 : -1])]
        return [on_one_line(part, self.source.text) for part in at_commas(tokens)]

    @property
    def outline(self):
        """Its head, with the fields of a struct."""
        return f"{self.head} {{ {', '.join(self.parts)} }}" if self.kind == "struct" else self.head

    @property
    def text(self):
        """Its text in the source, without bodies, imports, attributes and blank lines."""
        if self.is_derived:
            raise ValueError(f"{self.path} of {self.crate} is derived: no source has its text")
        first, *rows = self.source.text_in(self.start, self.end)
        return "\n".join([first, *(row.removeprefix(self.indent) for row in rows)])

    @property
    def indent(self):
        return "    " if self.above else ""

    @property
    def tokens(self):
        """The tokens of its clauses, but for the proofs, in an `impl`, of its trait's laws."""
        clauses = [
            clause
            for clause in self.clauses
            if self.kind != "impl" or clause.member not in compiled.laws()
        ]
        return [token for clause in clauses for token in clause.tokens]
