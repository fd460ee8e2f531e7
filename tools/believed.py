#!/usr/bin/env python3
"""Writes what a reader has to believe: docs/BELIEVED.md, and its sizes in docs/PROMISES.md; and
docs/LAWS.md, what follows from it.

    tools/believed.py            fails if a page isn't as it should be
    tools/believed.py --write    writes the pages anew

A plan, tools/believed.md or tools/laws.md, is what is written of a page by hand. A line of it that
begins with `@` says what belongs there: after the marks of claims, the paths of files, or of things
in files. tools/kit_words.txt explains the kit's words.

Either command fails if a contract that callers see leads to a definition in a folder specs/private/
of a crate, or if none leads to one outside of these folders; if a definition outside of them has
the name of another, or of one of the kit's; if other words are explained than are used; or if
something belongs to no line of a plan, or nothing to a path there."""

import functools
import itertools
import re
import sys
import textwrap

sys.dont_write_bytecode = True  # nothing is to be left beside these files

import resolved
import words
from claims import cited, claims, code, computed, declared, misplaced, shown, specs, summary
from claims import wrong_words
from items import Item
from library import first_sentence
from sources import dependencies, stale_pages, text_of, with_part, write_pages

PLANS = {"docs/BELIEVED.md": "believed.md", "docs/LAWS.md": "laws.md"}


def is_item(thing):
    """Returns whether a thing is an item of the code, and not a definition."""
    return isinstance(thing, Item)


def file_of(thing):
    """Returns the file of a definition or an item, as the pages name it."""
    if is_item(thing):
        return f"{thing.crate}/src/{thing.file}"
    return f"{thing.module.crate}/specs/{thing.module.file}.antt"


def place_of(thing):
    """Returns what sorts things: items before definitions, and then the lowest crate's first."""
    file = file_of(thing)
    crate = list(dependencies()).index(file.split("/")[0])
    return not is_item(thing), crate, file, thing.lines[0] if is_item(thing) else thing.place


@functools.lru_cache(maxsize=None)
def printed():
    """Returns the things that the pages print, definitions and items, each with the mark of the
    first claim that reaches it."""
    found = {}
    for claim in claims():
        for thing in [*claim.items, *claim.reached, *(claim.apart & computed().keys())]:
            found.setdefault(thing, claim.mark)
    found.update({law: found[definition] for definition, law in computed().items()})
    return {thing: found[thing] for thing in sorted(found, key=place_of)}


@functools.lru_cache(maxsize=None)
def needs(thing):
    """Returns what a reader has to know of the things that the pages print, to understand one. A
    type is one with its view."""
    if not is_item(thing):
        found = specs().references(thing) | {*declared(specs().ends[thing])}
        return found & printed().keys() - {thing}
    whole = [thing]
    if thing.kind in ("struct", "enum") or thing.trait == "Model":
        of_name = [item for item in code().called if item.name == thing.name]
        whole += [item for item in of_name if item.crate == thing.crate]
    found = cited(whole).union(*map(code().named, whole))
    if thing.kind == "type":
        found |= {item for item in code().called if re.search(rf"\b{item.name}\b", thing.text)}
    return (found & printed().keys()) - {*whole}


def in_reading_order(things):
    """Returns the things of a chapter as they come, but each after those that it needs. The
    definitions of a file stay together."""
    together, found = {}, []
    for thing in sorted(things, key=lambda thing: not is_item(thing)):
        together.setdefault(thing if is_item(thing) else file_of(thing), []).append(thing)
    left = [*together.values()]
    while left:
        later = {thing for group in left for thing in group}
        ready = [group for group in left if set().union(*map(needs, group)) & later <= {*group}]
        next_one = (ready or left)[0]
        left.remove(next_one)
        found += next_one
    return found


def text_of_thing(thing):
    """Returns what a page prints of a definition, or of an item with the first sentence of its
    comment, unless the item is a call of a type. Of a computed definition that is its signature."""
    if is_item(thing):
        is_call = thing.above and thing.above.kind == "impl"
        says = first_sentence(thing.comment) if thing.comment and not is_call else ""
        above = [f"// in {thing.above.head}"] if thing.above else []
        return "\n".join(
            [*(f"// {line}" for line in textwrap.wrap(says, 117)), *above, shown(thing)]
        )
    if law := computed().get(thing):
        until = itertools.takewhile(lambda line: not line.startswith(f"{thing.name} "), thing.lines)
        return "\n".join([*until, f"-- the law {law.name} says what this gives; it is computed"])
    return "\n".join(thing.lines)


@functools.lru_cache(maxsize=None)
def kit_words(thing):
    """Returns the kit's words in a thing, each with its end; those of its code have none."""
    found = dict.fromkeys(re.findall(r"\brt::\w+", thing.text) if is_item(thing) else ())
    for name in re.findall(r"[A-Z]\w+", thing.text) if is_item(thing) else ():
        if thing.in_file.imports.get(name, set()) - dependencies().keys():
            found[name] = None
    pairs = words.of_sources(specs(), [] if thing in computed() else [thing])
    return found | {word: end for word, end in pairs if not resolved.is_of_ours(end)}


def words_of_kit():
    """Returns the words of the kit in what is printed that have an end, each with it."""
    pairs = {pair for thing in printed() for pair in kit_words(thing).items()}
    return words.with_one_end({(word, end) for word, end in pairs if end})


@functools.lru_cache(maxsize=None)
def explained_words():
    """Returns the lines of tools/kit_words.txt, each with the words that it explains."""
    lines = text_of("tools", "kit_words.txt").splitlines()
    return {line: re.findall(r"(?:^|, )([^\s,]+)", line.partition(" : ")[0]) for line in lines}


def unexplained(used, known):
    """Returns a line for each word of the kit that isn't explained once if it is used."""
    wrong = {*used} ^ {*known} | {word for word in known if known.count(word) > 1}
    return [f"{word}: tools/kit_words.txt has to explain it once if it is used" for word in wrong]


def normal(path):
    """Returns a path that is the same for a file of definitions and one of code."""
    file, _, name = re.sub(r"/(?:src|specs)(?=/)|\.rt\b|\.antt\b", "", path).partition(".")
    return ".".join([file.replace("_", "").lower(), name]).rstrip(".")


@functools.lru_cache(maxsize=None)
def ambiguous():
    """Returns the names that mean several things in the definitions that are printed."""
    return words.ambiguous(specs(), [thing for thing in printed() if not is_item(thing)])


def shortened(path):
    """Returns what a path of a `use` line leads to, without the modules on the way."""
    *_, last = path[2].removesuffix(".TheVariants").replace(".TheVariants.", "::").split(".")
    return f"{last} of {path[1]}"


def block(language, texts, between="\n\n"):
    """Returns a block of a page that has these texts."""
    return f"```{language}\n{between.join(texts)}\n```"


class Page:
    """A page: the lines of its plan; for each that begins with `@ `, the things that belong there;
    the number of each thing's chapter; and what is known, by pages before and then by this one. A
    thing belongs to the longest of the paths with which its own begins, among those of its mark."""

    def __init__(self, lines, things, known):
        self.lines, self.things, self.chapters, self.known, paths = lines, {}, {}, known, []
        self.titles = [line[3:] for line in lines if re.match(r"## \d", line)]
        for line in lines:
            if line[3:] in self.titles:
                chapter = int(line[3:].partition(".")[0])
            elif line.startswith("@ "):
                marks, _, of_line = line[2:].partition(": ")
                paths += [(normal(path), marks.split(), chapter, []) for path in of_line.split()]
                self.things[line] = paths[-len(of_line.split()) :]
        for thing in things:
            own, mark = normal(f"{file_of(thing)}.{thing.name}"), printed()[thing]
            of_mark = [path for path in paths if mark in path[1]]
            fits = [path for path in of_mark if re.match(rf"{path[0]}(?!\w)", own)]
            if not fits:
                raise ValueError(f"no plan of a page says where {thing.name} of {own} belongs")
            _, _, self.chapters[thing], of_path = max(fits, key=lambda path: len(path[0]))
            of_path.append(thing)
        if spare := [path for path, _, _, of_path in paths if not of_path]:
            raise ValueError(f"nothing belongs to {', '.join(spare)} in a plan of a page")
        for line, of_line in self.things.items():
            self.things[line] = [thing for *_, of_path in of_line for thing in of_path]

    def notes(self, things):
        """Returns what some names in things of one file mean, and which are explained only below
        what is known."""
        lines = words.explained(specs(), things, ambiguous()).removeprefix("-- ").split("\n-- ")
        notes = [
            re.sub(r"Rattle[.-](\w+)[.-]specs\.([\w.]*)", shortened, line) for line in lines if line
        ]
        later = set().union(*map(needs, things)) - self.known - {*things}
        for chapter in sorted({self.chapters[thing] for thing in later}):
            names = sorted(thing.name for thing in later if self.chapters[thing] == chapter)
            notes.append(f"explained only below, in chapter {chapter}: {', '.join(names)}")
        return "\n".join(f"{'//' if is_item(things[0]) else '--'} {note}" for note in notes)

    def chapter(self, things):
        """Yields the paragraphs of a line of the plan: the kit's words that are new in it, and its
        things."""
        old, new = (set().union(*map(kit_words, some)) for some in (self.known, things))
        explained = explained_words().items()
        lines = [line for line, of_line in explained if new & {*of_line} and not old & {*of_line}]
        if lines:
            yield "Of the kit:"
            yield block("text", lines, "\n")
        for is_code, run in itertools.groupby(in_reading_order(things), is_item):
            texts_of_code = []
            for file, of_file in itertools.groupby(run, file_of):
                of_file = [*of_file]
                texts = [*filter(None, [self.notes(of_file)]), *map(text_of_thing, of_file)]
                self.known.update(of_file)
                if is_code:
                    texts_of_code += [f"//// {file}", *texts]
                else:
                    head = " ".join(line.removeprefix("-- ") for line in of_file[0].module.head)
                    yield from filter(None, [f"### {file}", head, block("text", texts)])
            if texts_of_code:
                yield block("rust", texts_of_code)

    def text(self):
        """Returns the text of the page."""
        anchors = [re.sub(r"[^\w -]", "", title.lower()).replace(" ", "-") for title in self.titles]
        contents = [f"- [{title}](#{anchor})" for title, anchor in zip(self.titles, anchors)]
        table = words.table(words_of_kit())
        made = {"@contents": "\n".join(contents), "@sizes": summary(), "@kit": table}
        for line, of_line in self.things.items():
            made[line] = "\n\n".join(self.chapter(of_line))
        return "\n".join(made.get(line, line) for line in self.lines) + "\n"


def pages():
    """Returns the texts that the pages should have, by their paths."""
    known, found = set(), {}
    for path, plan in PLANS.items():
        of_laws = "LAWS" in path
        things = [thing for thing, mark in printed().items() if (mark == "law") == of_laws]
        found[path] = Page(text_of("tools", plan).splitlines(), things, known).text()
    if hidden := {*printed()} - known:
        raise ValueError(f"{[thing.name for thing in hidden]} is believed, and printed nowhere")
    found["docs/PROMISES.md"] = with_part(text_of("docs", "PROMISES.md"), "believed", summary())
    return found


def wrong():
    """Returns a line for each thing to be changed in what is believed, or in what explains it."""
    used = {word for thing in printed() for word in kit_words(thing)}
    known = [word for of_line in explained_words().values() for word in of_line]
    return misplaced() + wrong_words() + unexplained(used, known)


def main(asked):
    """Compares the pages, or writes them, and fails with a line for each thing to be changed."""
    if asked not in ([], ["--write"]):
        sys.exit(__doc__)
    stale = stale_pages(pages())
    if asked:
        write_pages(stale)
        stale = {}
    not_written = [f"{path} is stale: run tools/believed.py --write" for path in stale]
    sys.exit("\n".join(wrong() + not_written) or 0)


if __name__ == "__main__":
    try:
        main(sys.argv[1:])
    except ValueError as error:
        sys.exit(f"believed.py: {error}")
