"""The words of the clauses on a library's page: where each comes from, and the definitions to which
they lead and that docs/BELIEVED.md doesn't have."""

import re

import resolved
from claims import believed, cited, code, computed, specs
from words import explained

# A module of ours, as the kit calls it: its crate, and its path below `specs`.
OF_OURS = re.compile(r"Rattle-(\w+)-specs\.(.*)")
# What the kit has made of a type: its file and its name; what follows is the type or its variants.
OF_A_TYPE = re.compile(r"(declared(?:\.[a-z]\w*)*)\.((?!The[A-Z])[A-Z]\w*)(?:\.TheVariants)?")
PRELUDE = "Rattle.std.specs.Prelude"
TYPES = ("struct", "enum")


def words_of(parts, clauses_of):
    """Returns the words in the clauses of items, each with the path of the `use` line that brings
    it in and its end."""
    found = {}
    for part in parts:
        for clause in clauses_of(part):
            for word, end in specs().words(clause.tokens, part.imports).items():
                path, _ = part.imports[word.split(".")[0]]
                found[word] = path, end
    return found


def place_of(path, name):
    """Returns the module and the name under which a clause finds what a path below `specs` leads to
    by a name; a variant is found beside its type."""
    of_type = OF_A_TYPE.fullmatch(path)
    return of_type.groups() if of_type else (path, name)


def place_of_type(item):
    """Returns the module and the name under which a clause finds a type."""
    file = item.file.removesuffix(".rt")
    return ".".join(["declared", *([] if file == "lib" else file.split("/"))]), item.name


def listed(places):
    """Returns names by their modules, pairs of a module and a name, as a page lists them."""
    modules = {}
    for module, name in sorted(places):
        modules.setdefault(module, []).append(f"`{name}`")
    return "; ".join(f"{', '.join(names)} (`{module}`)" for module, names in modules.items())


def places(crate, words):
    """Returns where words come from, pairs of a module and a name: the words of a crate, below its
    `specs`; and the others, but for those of the Prelude, by the paths that bring them in."""
    own, others = set(), set()
    for word, (path, end) in words.items():
        module, _, name = end.rpartition(".")
        of_ours = OF_OURS.fullmatch(module)
        if of_ours and of_ours[1] == crate:
            own.add(place_of(of_ours[2], name))
        elif resolved.is_of_ours(end):
            above, _, below = path.partition(".specs.")
            below, name = place_of(below, word)
            others.add((f"{above}.specs.{below}", name))
        elif path != PRELUDE:
            others.add((path, word))
    return own, others


def where_from(crate, words, types):
    """Yields the paragraphs that say where the words of a crate's page and these types come
    from."""
    own, others = places(crate, words)
    own |= types
    defined = {place for place in own if not place[0].startswith("declared")}
    if defined:
        yield f"Words, below `Rattle.{crate}.specs`: {listed(defined)}."
    if declared := own - defined:
        yield f"Types and constants, below `Rattle.{crate}.specs`: {listed(declared)}."
    if others:
        yield f"Words of others: {listed(others)}."


def reached_by(parts, clauses_of):
    """Returns the definitions to which the clauses of items lead."""
    named = set()
    for part in parts:
        for clause in clauses_of(part):
            named |= specs().named(clause.tokens, part.imports)
    held = {definition: cited([law]) for definition, law in computed().items()}
    return specs().reached(named, held)


def by_files(definitions):
    """Returns those of some definitions that docs/BELIEVED.md doesn't have, by the crates and files
    in which they are."""
    files = {}
    for module in specs().modules.values():
        of_file = [one for one in module.definitions.values() if one in definitions - believed()]
        if of_file:
            files.setdefault(module.crate, {})[module.file] = of_file
    return files


def types_in(definitions):
    """Returns the types of the code in definitions, by their crates: the module and the name of
    each."""
    types, found = [item for item in code().items if item.kind in TYPES], {}
    known = {(item.crate, *place_of_type(item)) for item in types}
    for end in set().union(*(specs().ends[definition] for definition in definitions)):
        of_ours = OF_OURS.fullmatch(end.rpartition(".")[0])
        of_type = of_ours and OF_A_TYPE.fullmatch(of_ours[2])
        if of_type and (of_ours[1], *of_type.groups()) in known:
            found.setdefault(of_ours[1], set()).add(of_type.groups())
    return found


def text_of_definitions(definitions):
    """Returns the text of definitions of one file, and what each name there means that isn't what
    it is called."""
    names = explained(specs(), definitions, set())
    return "\n\n".join(filter(None, [names, *("\n".join(one.lines) for one in definitions)]))
