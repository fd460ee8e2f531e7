"""The words in what is believed: where each ends that the kit defines. A text is read by its own
imports, and compared with what the kit has resolved: each word has to mean what it seems to, and no
definition may rest on a word of the kit that it doesn't have. What isn't so is an error."""

import re

import resolved
from definitions import origins_in

# What the kit adds by itself to what a definition says: types, the cases that a pattern stands for,
# that records are equal, and `tt`, which no file imports.
ADDED = re.compile(
    r"Prim\.(?:Id|J|refl|tt|Unit|⊥|¬◌|Native\.Nat\.ℕ|Native\.String\.String)"
    r"|Rattle-core-specs\.Bool\.⊤"
    r"|mathlib\.Core\.(?:Bool\.(?:Bool|true|false)|List\.Defs\.(?:List|\[\]|◌∷◌|List\.\w+))"
    r"|lib\.IntN\.(?:ℤ|negsuc)|mir\.Syntax\.Width|denote\.Struct\.Field\.bool-field"
    r"|Rattle-\w+-specs\.declared\.(?:[\w.]+\.TheVariants\.\w+|[\w.]+\.Ghosts)"
)
# What it adds to a contract besides: all of its logic, and what it has made of types.
ADDED_TO_CONTRACTS = re.compile(
    r"(?:Prim|base|contract|denote|mir|prog|seplogic|types)\..*"
    r"|mathlib\.Core\.(?:Path\.(?:refl|◌≡◌)|Logic\.(?:◌⊎◌|inl|inr))"
    r"|Rattle-\w+-specs\.(?:contracts|declared)\..*"
)
# A module of definitions of a crate.
OF_A_CRATE = re.compile(r"Rattle-(\w+)-specs\.(.*)")


def is_added(end, in_contract):
    """Returns whether the kit adds what has this end by itself."""
    return ADDED.fullmatch(end) or in_contract and ADDED_TO_CONTRACTS.fullmatch(end)


def of_sources(specs, sources):
    """Returns the imported words in definitions and in clauses of items, pairs of a word and its
    end."""
    found = set()
    for source in sources:
        found |= {*specs.words(source.tokens, source.imports).items()}
    return found


def misread(specs, name, words, ends):
    """Yields a line for each word that doesn't mean what it seems to. The words are those that a
    text imports, pairs of a word and its end; the kit has found these ends. Of a constructor in a
    pattern it has the type."""
    found = specs.of_ends(ends)
    for word, end in sorted(words):
        if resolved.is_of_ours(end):
            is_found = specs.of_end(end) in {*found, None}
        else:
            is_found = {end, resolved.TYPES.get(end)} & ends
        if not is_found:
            yield f"{name}: {word} seems to be {end}, which the kit hasn't found there"


def unnamed(name, words, ends, in_contract):
    """Yields a line for each end that the kit has found, and that no word of the text has."""
    for end in sorted(ends - {end for _, end in words}):
        if not resolved.is_of_ours(end) and not is_added(end, in_contract):
            yield f"{name} rests on {end}, which its text doesn't name"


def with_one_end(words):
    """Returns the words of the kit among some, pairs of a word and its end, each with its end.
    Fails if one has several."""
    found = {}
    for word, end in sorted(words):
        if not resolved.is_of_ours(end):
            if found.setdefault(word, end) != end:
                raise ValueError(f"{word} ends in {found[word]} and in {end}")
    return found


def table(words):
    """Returns a table of words, each with the module in which it ends, and its name there if it is
    another one."""
    rows = ["|word|crate|module|its name there|", "|---|---|---|---|"]
    for word, end in sorted(words.items()):
        module, name = resolved.parts(end)
        of_crate = OF_A_CRATE.fullmatch(module)
        crate, module = of_crate.groups() if of_crate else ("", module)
        its_name = "" if name == word.split(".")[-1] else f"`{name}`"
        shown = word.replace("|", "\\|")
        rows.append(f"|`{shown}`|{crate}|`{module}`|{its_name}|")
    return "\n".join(rows)


def ambiguous(specs, definitions):
    """Returns the names that mean several things in definitions."""
    meanings = {}
    for definition in definitions:
        meanings.setdefault(definition.name, set()).add(definition.end)
        for name, origin in origins_in(definition).items():
            meanings.setdefault(name, set()).add(specs.end_of(*origin))
    return {name for name, ends in meanings.items() if len(ends) > 1}


def explained(specs, sources, ambiguous):
    """Returns a line for each name in definitions or items of one file that means another name, or
    a module, or that is ambiguous."""
    origins, lines = {}, []
    for source in sources:
        origins.update(origins_in(source))
    for name, (module, original) in sorted(origins.items()):
        end, meant = specs.end_of(module, original), f"{module}.{original}" if original else module
        is_passed_on = original and end.rpartition(".")[2] != original or ".TheVariants." in end
        if resolved.is_of_ours(end) and is_passed_on:
            meant = (
                end  # by way of a file that passes it on, under another name or without its type
            )
        if name in ambiguous or meant.rpartition(".")[2] != name:
            lines.append(f"-- here {name} is {meant}")
    return "\n".join(lines)


def names_of_kit(specs, code):
    """Returns the names of the kit that our definitions and clauses import, and those that its
    Prelude has, each with its end."""
    origins = [origin for module in specs.modules.values() for origin in module.imports.values()]
    origins += [origin for item in code.items for origin in item.imports.values()]
    found = dict(resolved.passed_on("Rattle-std.specs.Prelude")[0])
    for path, name in origins:
        if name and not resolved.is_of_ours(specs.end_of(path, name)):
            found[name] = specs.end_of(path, name)
    return found


def defined_twice(specs, code, believed):
    """Returns a line for each definition that is believed, or that isn't in a folder
    specs/private/, and has the name of another, or of one of the kit's that is used."""
    owners, lines = names_of_kit(specs, code), []
    for module in specs.modules.values():
        for name, definition in module.definitions.items():
            if definition in believed or not module.file.startswith("private/"):
                owner = owners.setdefault(name, definition.end)
                if owner != definition.end:
                    lines.append(f"{owner} and {definition.end} have one name: rename one")
    return lines
