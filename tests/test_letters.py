"""The names in definitions are as docs/AUDITING.md says: the same thing has the same name, and a
letter only for the head or the rest of a list, a number, a type, or what a λ or the prover adds."""

import re
from types import SimpleNamespace as Made

from believed import is_item, printed
from harness import Case

# Of these types, what a definition calls the only one that it takes, or speaks of.
NAMES = """Algo Algos Behavior Content Counts Event Fault Flag Form Mode Phase Reads Report Settings
    Step Stop Style Tool Verdict World CheckRules:rules CheckSettings:settings EntryValue:listed
    KindValue:kind LabelsValue:labels LineVerdictValue:found ParsedLine:said SourceState:source
    StreamsState:state"""
BINDER = re.compile(r"[({]((?:[a-z]\w* )+): ((?:[^(){}]|\([^()]*\))+)[)}]")
PART = re.compile(r"\((?:[^()]|\([^()]*\))*\)|[^\s()]+")
# In a pattern, what is the head or the rest of a list, or a number.
FITTING = r"\b[a-z] ∷|∷ [a-z]\b|\b(?:Number|Ok|Os|pos|suc|write_byte) [a-z]\b"


def parameters(code, name):
    """Yields what a definition takes or speaks of: pairs of a name, or a pattern, and its type."""
    for names, of_type in BINDER.findall(code):
        yield from ((one, of_type) for one in names.split())
    without = re.sub(r"\{[^{}]*\}", "", code)  # what the prover fills in
    signature, *equations = re.split(rf"\n(?={re.escape(name)} )", without)
    types = re.split(r"\s→\s(?![^(]*\))", signature.partition(" :")[2])
    for equation in equations:
        taken = PART.findall(re.split(r"\s=\s", equation)[0])[1:]
        yield from zip(taken, [one.strip() for one in types if one.strip()])


def wrong(definition):
    """Yields what a definition calls otherwise: letters, and what has a usual name."""
    lines = [line.partition("  --")[0] for line in definition.lines if line[:2] != "--"]
    found = {*parameters("\n".join(lines), definition.name)}
    for pattern, of_type in found:
        letters = re.findall(r"\b[a-z]\b", re.sub(FITTING, "", pattern))
        yield from letters if of_type not in ("ℕ", "ℤ", "_") else ()
    for of_type, _, name in (one.partition(":") for one in NAMES.split()):
        names = {one for one, other in found if other == of_type and re.match("[a-z]", one)}
        yield from names if len(names) == 1 and names != {name or of_type.lower()} else ()
    yield from re.findall(r"\blet ([a-jl-mo-z]) =", "\n".join(lines))  # numbers are k and n there


class Letters(Case):
    of_the_repository = True

    def test_names(self):
        for thing in printed():
            if not is_item(thing) and thing.module.file != "Compression":
                self.assertEqual([*wrong(thing)], [], thing.name)

    def test_other_names(self):
        signature = "abbrev pub f : World → Option World → ℕ"
        for line in ("f w = 0", "f world (Some w) = 0", "f other = 0", "f world = let w = 0"):
            found = {*wrong(Made(name="f", lines=[signature, line]))}
            self.assertEqual(found, {"other" if "other" in line else "w"}, line)
