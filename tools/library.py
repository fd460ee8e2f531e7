#!/usr/bin/env python3
"""Writes the contracts in the page of each library, crates/NAME/CALLING.md, as the kit has read
them, with where their words come from, and what these mean if docs/BELIEVED.md doesn't say it.

    tools/library.py            fails if a page isn't as it should be
    tools/library.py --write    writes the pages anew; what stands above the mark is written by hand

Items marked `#[doc(hidden)]` are public only for the crates here, and are left out."""

import re
import sys

sys.dont_write_bytecode = True  # nothing is to be left beside these files

import compiled
import library_words
from claims import code
from items import as_in_a_source
from rattle import Code
from sources import TOP, stale_pages, text_of, write_pages

MARK = "<!-- From here on tools/library.py writes. -->\n"
NOTE = (
    "## Contracts\n\n"
    "`docs/AUDITING.md` says how clauses are read, `docs/LIBRARY.md` what their words mean. The "
    "definitions of these are in [What must be believed](../../docs/BELIEVED.md) or, if only "
    "libraries need them, at the end of their crate's page. A clause without a label stands for "
    "itself. An `impl` that states nothing of its own has the contracts of its trait. A bound "
    "after `where` is that of the `impl`. A derived `Error` is that of `thiserror`, which gives "
    "`Display`, too. A value may be dropped only if its type has `Drop`.\n"
)
DEFINITIONS = (
    "## Definitions\n\n"
    "Those to which contracts of libraries lead, and none of what must be believed of the program."
    "\n"
)


def without_links(comment):
    """Returns a `///` comment as one line, with names in the place of links."""
    return re.sub(r"\[(`[^`]*`)\](?:\([^)]*\))?", r"\1", " ".join(filter(None, comment)))


def first_sentence(comment):
    """Returns the first sentence of a `///` comment."""
    return re.match(r".*?\.(?= [A-Z`]|$)", without_links(comment))[0]


def comments_of_parts(item):
    """Returns the `///` comments of the fields or variants of a type, by their names."""
    rows = text_of(f"{TOP}/crates/{item.crate}/src/{item.file}").split("\n")
    found, comment = {}, []
    for row in [rows[number - 1].strip() for number in item.in_source]:
        part = re.match(r"(?:pub )?(\w+)", row)
        if row == "}":
            break
        if row.startswith("///"):
            comment.append(row[4:])
        elif part:
            found[part[1]] = without_links(comment)
            comment = []
    return found


def part_lines(kind, item, parts):
    """Yields what is said of the fields or variants of a type: their names on a line, or each on
    one below its comment."""
    comments = comments_of_parts(item)
    of_parts = [comments.get(re.match(r"\w+", part)[0]) for part in parts]
    if parts and not any(of_parts):
        yield f"  {kind}: {', '.join(parts)}"
    elif parts:
        yield f"  {kind}:"
        for part, comment in zip(parts, of_parts):
            yield from [f"    // {comment}", f"    {part}"] if comment else [f"    {part}"]


def bounds(block, known=""):
    """Returns the bounds of an `impl` besides those that are known, as a clause."""
    of_parameters, of_where = block.bounds
    found = [bound for bound in of_parameters if re.match(r"\w+: ", bound) and bound not in known]
    found += of_where
    return f" where {', '.join(found)}" if found else ""


def clause_line(clause):
    """Returns a clause on one line, without its brackets."""
    separator = "" if clause.head[-1] in "=:" else ":"
    return f"  {clause.head}{separator} {' '.join(clause.text.strip()[1:-1].split())}"


def is_shown(item, clause):
    """Returns whether a clause of an item is shown: each one of a function, and each ghost member
    of another item that isn't the proof of a law."""
    if item.kind == "fn":
        return not clause.member
    is_proof = item.kind != "trait" and clause.member in compiled.laws()
    return bool(clause.member) and not is_proof


def clauses_shown(item):
    """Returns the clauses of an item that are shown."""
    return [clause for clause in item.clauses if is_shown(item, clause)]


def clause_lines(item):
    """Returns a line for each clause of an item that is shown."""
    return [clause_line(clause) for clause in clauses_shown(item)]


def is_hidden(item):
    """Returns whether an item is public only for the crates here."""
    return "doc ( hidden )" in item.attributes


def calls_of(block):
    """Returns the functions of an `impl` or a trait that aren't hidden."""
    return [member for member in block.members if member.kind == "fn" and not is_hidden(member)]


def function_lines(item, where=""):
    """Yields the lines of a function: its sentence, its head with these bounds, its clauses."""
    yield f"// {first_sentence(item.comment)}" if item.comment else "// As its trait says, and:"
    yield f"{item.head}{where}"
    yield from clause_lines(item)


def lines_of_trait_block(block):
    """Returns the lines of a type's block for a trait: its head, what it states, and those of its
    calls that state something; nothing if it states nothing of its own."""
    lines = clause_lines(block)
    for call in calls_of(block):
        if clauses := clause_lines(call):
            lines += [f"  {line}" for line in [call.head, *clauses]]
    return ["", as_in_a_source(block.head), *lines] if lines else []


class Library:
    """The libraries' items, and which traits their types have."""

    def __init__(self):
        self.code = code()
        self.items = [item for item in self.code.items if not is_hidden(item)]
        self.lines = {}
        for crate, file, path in compiled.read_files():
            lines = [as_in_a_source(line) for line in text_of(path).splitlines()]
            self.lines[crate, file[: -len(".rt")]] = lines
        parts = [part for crate in compiled.LIBRARIES for part in self.parts_shown(crate)]
        reached = library_words.reached_by(parts, clauses_shown)
        self.defined = library_words.by_files(reached)
        self.types_reached = library_words.types_in(reached)

    def exports(self, crate):
        """Yields what the root of a crate exports: the file of each module with the names from
        there, or with None for all of them. First come those that are at the root."""
        root = "\n".join(self.lines[crate, "lib"])
        yield "lib", None
        for module, names in re.findall(r"(?m)^pub use (.*)::(\{.*\}|\w+);$", root):
            if module not in compiled.LIBRARIES:
                yield module.replace("::", "/"), re.findall(r"\w+", names)
        for module in re.findall(r"(?m)^pub mod (\w+);$", root):
            yield module, None

    def passed_on(self, crate):
        """Yields a line for each other library of whose items a crate exports some."""
        for line in self.lines[crate, "lib"]:
            use = re.match(r"pub use (\w+)::(?!.*::)(.*);", line)
            if use and use[1] in compiled.LIBRARIES:
                names = ", ".join(f"`{name}`" for name in re.findall(r"\w+", use[2]))
                yield f"From `{use[1]}`: {names}."

    def types(self, item, name):
        """Returns the types that an item means by a name."""
        named = [other for other in self.items if other.name == name]
        return Code.meant(item, [other for other in named if other.kind in ("struct", "enum")])

    def types_meant(self, item):
        """Returns the type that an item is, or is another name of; in a list."""
        return self.types(item, self.code.types.get(item.name, item.name))

    def blocks(self, item):
        """Returns the blocks of the type that an item is, or is another name of."""
        name, types = self.code.types.get(item.name, item.name), self.types_meant(item)
        blocks = [block for block in self.items if (block.kind, block.name) == ("impl", name)]
        return [block for block in blocks if self.types(block, name) == types]

    def bounds_beside(self, block, item):
        """Returns the bounds of a block besides those of its type; another name has none."""
        return "" if item.kind == "type" else bounds(block, item.head)

    def traits(self, item):
        """Returns the traits of a type, by a derive or by an `impl`; `Model` is shown apart."""
        found = []
        for of_type in self.types_meant(item):
            for line in re.findall(r"derive(?:_where)? \(([^);]*)", of_type.attributes):
                found += re.findall(r"\w+", line)
        for block in self.blocks(item):
            if block.trait not in (None, "Model"):
                types = [part.head for part in block.members if part.kind == "type"]
                members = ", ".join(head.removeprefix("type ") for head in types)
                where = self.bounds_beside(block, item)
                found.append(block.trait + (f"<{members}>" if members else "") + where)
        return list(dict.fromkeys(found))

    def implementers(self, trait):
        """Returns the names of the public types that have a trait. A type with another name that
        is public goes by that."""
        public = [item for item in self.items if item.public]
        types = [item for item in public if item.kind in ("struct", "enum", "type")]
        renamed = [self.code.types[item.name] for item in types if item.kind == "type"]
        found = []
        for item in types:
            names = [re.split(r"\W", name)[0] for name in self.traits(item)]
            if item.name not in renamed and trait.name in names:
                found.append(item.name)
        return found

    def type_lines(self, item):
        """Yields what is said of a type besides its sentence: its parts, its traits, its view, its
        public calls, and what its blocks for traits state."""
        fields = [part.removeprefix("pub ") for part in item.parts if part.startswith("pub ")]
        yield item.head
        if item.kind == "struct":
            yield from part_lines("fields", item, fields)
        if item.kind == "enum":
            yield from part_lines("variants", item, item.parts)
        if traits := self.traits(item):
            yield f"  traits: {', '.join(traits)}"
        yield from clause_lines(item)
        blocks = self.blocks(item)
        for block in blocks:
            if block.trait == "Model":
                yield from clause_lines(block)
        for block in blocks:
            if block.trait is None:
                for call in calls_of(block):
                    if call.public and call.comment:
                        yield ""
                        yield from function_lines(call, self.bounds_beside(block, item))
        for block in blocks:
            is_derived = "automatically_derived" in block.attributes
            if block.trait not in (None, "Model") and not is_derived:
                yield from lines_of_trait_block(block)

    def trait_lines(self, item):
        """Yields what is said of a trait besides its sentence, and then its calls."""
        yield item.head
        yield from (f"  {member.head}" for member in item.members if member.kind == "type")
        yield from clause_lines(item)
        if types := self.implementers(item):
            yield f"  implemented by: {', '.join(types)}"
        for call in calls_of(item):
            yield ""
            yield from function_lines(call)

    def exported_items(self, crate):
        """Yields each item that a crate exports, and the path before its name."""
        for file, names in self.exports(crate):
            path = f"{file}::" if names is None and file != "lib" else ""
            for item in self.items:
                is_there = (item.crate, item.file) == (crate, f"{file}.rt")
                is_documented = item.public and item.comment
                if is_there and is_documented and (names is None or item.name in names):
                    yield item, path

    def sections(self, crate):
        """Yields the sections of a crate's page, each with its title, its sentence and its lines:
        the functions and constants, and then each type and trait."""
        functions, others = [], []
        for item, path in self.exported_items(crate):
            if item.kind in ("fn", "const", "static"):
                sentence, head, *clauses = function_lines(item)
                functions += ["", sentence, head.replace(item.name, path + item.name, 1), *clauses]
            else:
                lines = self.trait_lines(item) if item.kind == "trait" else self.type_lines(item)
                others.append((path + item.name, first_sentence(item.comment), [*lines]))
        if functions:
            yield "### Functions and constants", "", functions[1:]
        for name, sentence, lines in sorted(others):
            yield f"### `{name}`", sentence, lines

    def parts_shown(self, crate):
        """Yields each item of whose clauses a crate's page shows some."""
        for item, _ in self.exported_items(crate):
            yield item
            if item.kind == "trait":
                yield from calls_of(item)
            for block in self.blocks(item) if item.kind in (*library_words.TYPES, "type") else ():
                if block.trait is not None and "automatically_derived" not in block.attributes:
                    yield block
                calls = calls_of(block)
                yield from (call for call in calls if block.trait or call.public and call.comment)

    def words(self, crate):
        """Yields the paragraphs that say where the words of a crate's page come from."""
        items = [item for item, _ in self.exported_items(crate)]
        types = {
            library_words.place_of_type(one) for one in items if one.kind in library_words.TYPES
        }
        types |= self.types_reached.get(crate, set())
        words = library_words.words_of(self.parts_shown(crate), clauses_shown)
        yield from library_words.where_from(crate, words, types)

    def definitions(self, crate):
        """Yields the definitions that callers need and that docs/BELIEVED.md doesn't have, with the
        names of their files."""
        for file, definitions in self.defined.get(crate, {}).items():
            yield f"{crate}/specs/{file}.antt", library_words.text_of_definitions(definitions)

    def contracts(self, crate):
        """Returns the generated part of a crate's page."""
        parts = [NOTE, *(line + "\n" for line in (*self.words(crate), *self.passed_on(crate)))]
        for title, sentence, lines in self.sections(crate):
            parts.append(f"{title}\n")
            if sentence:
                parts.append(f"{sentence}\n")
            parts.append("\n".join(["```text", *lines, "```\n"]))
        if definitions := [*self.definitions(crate)]:
            parts.append(DEFINITIONS)
        for file, text in definitions:
            parts.append(f"### `{file}`\n")
            parts.append(f"```text\n{text}\n```\n")
        return "\n".join(parts)


def page_of(crate):
    """Returns the path of a library's page."""
    return f"crates/{crate}/CALLING.md"


def by_hand(crate):
    """Returns the part of a library's page that is written by hand."""
    return text_of(page_of(crate)).split(MARK)[0]


def pages():
    """Returns the texts that the pages should have, by their paths."""
    library, found = Library(), {}
    for crate in compiled.LIBRARIES:
        found[page_of(crate)] = by_hand(crate) + MARK + "\n" + library.contracts(crate)
    return found


def main(words):
    """Compares the pages, or writes them, and fails with a line for each that is stale."""
    if words not in ([], ["--write"]):
        sys.exit(__doc__)
    stale = stale_pages(pages())
    if words:
        write_pages(stale)
        stale = {}
    sys.exit("\n".join(f"{path} is stale: run tools/library.py --write" for path in stale) or 0)


if __name__ == "__main__":
    try:
        main(sys.argv[1:])
    except ValueError as error:
        sys.exit(f"library.py: {error}")
