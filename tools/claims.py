"""What a reader has to believe: what the contracts of the program say, and what follows from it.

What a contract says of a value is said in words that others give a meaning: the clauses of the
traits that bound the function's parameters, and the views of their types. So these count, with the
types and constants of the code that are named, and the definitions that all of them reach. A
definition that is computed, and that a law holds against a relation, need not be believed: the
law's definitions count in its place, and it, with what it alone reaches, apart.

Lines are counted with the comments above a definition, and without blank ones, heads of files, and
those that say how an operator binds. What the kit's own libraries define isn't counted."""

import collections
import functools
import re

import compiled
import resolved
import words
from definitions import Specs
from rattle import Code

# What is believed: a function's crate and name, and what the pages call it.
CLAIMS = [
    ("digests", "run", "The headline"),
    ("digests", "command", "The program"),
    ("digests", "program", "What `main` calls"),
]
# Each definition that is computed, and the law that holds it against a relation.
COMPUTED = {"parse_line": "parse_is_grammar", "form_of": "one_form"}

# What some items make a reader believe: their mark, by which the plans of the pages know it; the
# items of the code, these and those that they reach; the definitions; and those that need not be.
Claim = collections.namedtuple("Claim", "mark items reached apart")


# The items of the code, and the definitions, each read once.
code = functools.lru_cache(maxsize=None)(Code)
specs = functools.lru_cache(maxsize=None)(Specs)


def ends_in(items):
    """Returns the ends that the contracts, types and traits that items are mention, and their
    members."""
    parts = [part for item in items for part in (item, *item.members)]
    return set().union(*(resolved.contracts().get(part.symbol, ()) for part in parts))


def declared(ends):
    """Returns the types and constants of the code to which ends lead, and what these name in
    turn."""
    found = []
    for end in sorted(ends, key=lambda end: end.rpartition(".")):
        found += code().declared(end)
    return list(dict.fromkeys(found))


def cited(items):
    """Returns the definitions that the clauses of items name."""
    return specs().of_ends(ends_in(items))


@functools.lru_cache(maxsize=None)
def computed():
    """Returns the definitions that are computed, each with its law."""
    found = {}
    for name, law_name in COMPUTED.items():
        (law,) = [item for item in code().laws() if item.name == law_name]
        modules = [module for module in specs().modules.values() if module.crate == law.crate]
        (of_name,) = [module.definitions[name] for module in modules if name in module.definitions]
        found[of_name] = law
    return found


def made_by_main(claimed):
    """Returns what runs before and after `command`, and the blocks in which the types there, and
    those of the claims and the laws, implement the traits, without what is claimed or a law."""
    symbols = []
    for caller in compiled.around_command().values():
        symbols += [caller.name, *caller.named]
    known = [*claimed, *code().laws()]
    found = [*map(code().of_symbol, symbols), *code().blocks(known)]
    return [item for item in dict.fromkeys(found) if item and item not in known]


@functools.lru_cache(maxsize=None)
def claims():
    """Returns the headline, the program and what `main` calls; what `main` makes; and the laws."""
    functions = [code().function(crate, name) for crate, name, _ in CLAIMS]
    parts = {name: [function] for (_, name, _), function in zip(CLAIMS, functions)}
    parts.update(main=made_by_main(functions), law=code().laws())
    held = {definition: cited([law]) for definition, law in computed().items()}
    found, earlier = [], set()
    for mark, part in parts.items():
        contracts = [item for function in part for item in code().reached(function)]
        everything = specs().reached(cited(contracts))
        reached = specs().reached(cited(contracts), held) - held.keys()
        ordered = sorted(reached, key=lambda definition: (definition.module.name, definition.place))
        ends = set().union(*(specs().ends[definition] for definition in ordered))
        items = dict.fromkeys(contracts + declared(ends_in(contracts)) + declared(ends))
        found.append(Claim(mark, [*items], reached, everything - reached - earlier))
        earlier |= everything
    return found


@functools.lru_cache(maxsize=None)
def with_views():
    """Returns the items to whose views contracts lead. Of another type that has one, definitions
    know only of what type its value is."""
    functions = [code().function(crate, name) for crate, name, _ in CLAIMS]
    functions += [*made_by_main(functions), *code().laws()]
    return {item for function in functions for item in code().reached(function)}


def shown(item):
    """Returns the text of an item without its view, if that need not be believed."""
    if item.trait != "Model" or item in with_views():
        return item.text
    return re.sub(r"(?s)(ghost Value = [^;]*;\n).*", r"\1}", item.text)


def believed():
    """Returns the definitions that are believed."""
    return set().union(*(claim.reached for claim in claims()))


def not_printed(by_symbol):
    """Returns a line for each contract, type or trait that what is believed mentions, and that
    isn't among these items, by their symbols, or their members."""
    items = [item for items in by_symbol.values() for item in items]
    printed = {part.symbol for item in items for part in (item, *item.members)}
    seen = [item for item in items if shown(item) == item.text]
    ends = ends_in(seen).union(*(specs().ends[definition] for definition in believed()))
    symbols = {end: code().symbol_at(end) for end in ends}
    return [
        f"{end} is believed, and printed nowhere"
        for end, symbol in sorted(symbols.items())
        if symbol and symbol not in printed
    ]


def wrong_words():
    """Returns a line for each word in what is believed that doesn't mean what it seems to."""
    by_symbol = {}
    for item in dict.fromkeys(item for claim in claims() for item in claim.items):
        by_symbol.setdefault(item.symbol, []).append(item)
    for item in code().items:
        for name, origin in item.imports.items():
            specs().check(name, *origin)
    lines = words.defined_twice(specs(), code(), believed()) + not_printed(by_symbol)
    texts = [(one.end, [one], specs().found_with(one) | {one.end}, False) for one in believed()]
    texts += [(symbol, items, ends_in(items), True) for symbol, items in by_symbol.items()]
    for name, of_text, ends, in_contract in sorted(texts, key=lambda text: text[0]):
        found = words.of_sources(specs(), of_text)
        lines += words.misread(specs(), name, found, ends)
        if not resolved.has_proofs():  # which mention more
            lines += words.unnamed(name, found, ends, in_contract)
    return lines


def seen_by_callers():
    """Returns the definitions to which a contract leads that callers see."""
    public_types = {item.name for item in code().items if item.public}
    cited_there = set()
    for item in code().items:
        parts = [item] if item.trait or item.kind != "impl" else item.members
        for part in parts:
            if part.public or part.trait and part.name in public_types:
                proofs = [token for clause in part.clauses for token in clause.tokens]
                cited_there |= cited([part]) | specs().named(proofs, part.imports)
    return specs().reached(cited_there)


def misplaced():
    """Returns a line for each definition of a library in a folder specs/private/ to which a
    contract leads that callers see, and for each other one to which none does. The lemmas of a
    trait's law aren't definitions."""
    seen, lines = seen_by_callers(), []
    for module in specs().modules.values():
        if module.crate not in compiled.LIBRARIES:
            continue
        is_private = module.file.startswith("private/")
        for definition in module.definitions.values():
            if is_private and definition in seen:
                lines.append(f"{definition.end}: callers see it: take it out of specs/private")
            elif not (is_private or definition in seen or definition.is_lemma):
                lines.append(f"{definition.end}: callers don't see it: put it into specs/private")
    return lines


def summary():
    """Returns the lines that say what the claims come to."""
    lines, apart = [], []
    for (crate, name, title), claim in zip(CLAIMS, claims()):
        in_code = sum(len(shown(item).splitlines()) for item in claim.items)
        in_specs = sum(definition.size for definition in claim.reached)
        lines.append(
            f"- **{title}** (`{name}` of `{crate}`): {in_code + in_specs:,} lines to believe: "
            f"{in_specs:,} of {len(claim.reached)} definitions, "
            f"and {in_code} of clauses, views, types and constants of the code."
        )
        apart += claim.apart
    laws = " and ".join(f"`{law}`" for law in COMPUTED.values())
    size = sum(definition.size for definition in apart)
    return "\n".join(lines) + (
        f"\n\nApart: {len(apart)} definitions, {size} lines, that compute what "
        f"relations say of a line and of a form. By the laws {laws} they need not be believed."
    )
