#!/usr/bin/env python3
"""Finds the promises that nobody misses: `tools/clauses.py [WORD ..]`, after a build.

It empties each clause of a public call, and each field of a record of statements to which such a
clause leads: it puts `⊤` in its place, and checks all crates over what was kept. The promise is
missed if a function isn't proved any more that doesn't have to keep it itself, or that needs it for
something else besides, or a lemma that doesn't conclude it. With words, only those are tried whose
names have one of them. Results are kept in out/clauses as long as no source changes, so a run that
was ended goes on where it stopped. The status is 1 if nobody misses one, or if what the kit says of
one has a form that isn't known."""

import functools
import hashlib
import os
import re
import sys
import tempfile
from concurrent.futures import ThreadPoolExecutor
from pathlib import Path

sys.dont_write_bytecode = True  # nothing is to be left beside these files

import copies
from claims import code, specs
from copies import at_once, copy, put
from items import clauses_in
from sources import TOP, dependencies, text_of, tokens_of
from unproved import conclusion_of, unproved

OUT = Path(TOP, "out", "clauses")
IMPORT = {
    ".rt": "ghost use Rattle.std.specs.Prelude.{⊤};\n",
    ".antt": "use Rattle.std.specs.Prelude.{⊤}\n",
}
IMPORTED = re.compile(r"(?m)^(?:ghost )?use Rattle\.std\..*[{ .]⊤[,}]")
# A record of statements has values as parameters, besides types. Each field is a statement.
STATEMENT = re.compile(r"(?m)^pub record \w+ (?:[({].*: Type 0[)}] )?[({](?!.*: Type 0[)}])")
FIELD = re.compile(r"(?m)^  pub (\w+) : (.*(?:\n      .*)*)")
OPENING, CLOSING = {*"([{"}, {*")]}"}


class Case:
    """A promise that is emptied: its name, such as `sum_lines put_line.behavior`; its file, where
    it stands there, and what is put in its place; the symbols of the functions that have to keep
    it; the words of which it is a part; and the file of who misses it, if it was tried."""

    def __init__(self, name, path, place, replacement, keepers, words=frozenset()):
        self.name, self.path, self.place, self.replacement = name, path, place, replacement
        self.keepers, self.words, self.label = keepers, words, name.rpartition(".")[2]
        self.log = OUT / state() / re.sub(r"\W+", ".", name)

    def first(self):
        """Returns who misses it first, as it was noted, or an empty text."""
        return self.log.read_text("utf-8") if self.log.exists() else ""

    def missed_by(self, functions, lemmas):
        """Returns those of the functions and lemmas that need the promise, and not only to keep
        it themselves."""
        missing = [name for name, other in functions.items() if other or name not in self.keepers]
        for path, line, wants_nothing in lemmas:
            text = self.text() if f"crates/{path}" == self.path else text_of("crates", path)
            row = text.split("\n")[line - 1]
            keeps = re.search(rf"\b{self.label} =", row) and f".{self.label}" not in row
            if not keeps and not wants_nothing and not self.words & conclusion_of(text, line):
                missing.append(f"{path}:{line}")
        return missing

    def text(self):
        """Returns the text of its file without it."""
        text = text_of(self.path)
        text = text[: self.place.start] + self.replacement + text[self.place.stop :]
        if IMPORTED.search(text):
            return text
        line = IMPORT[Path(self.path).suffix]
        return re.sub(r"(?m)^(?=(?:ghost )?use )", line, text, count=1)

    def outcome(self, kept):
        """Returns who misses it first, or `nobody`."""
        said = check(kept, self)
        return [*self.missed_by(*unproved(said)), "nobody"][0]


def public_calls():
    """Returns the public functions, and those of traits, that aren't laws."""
    public = [item for item in code().functions if item.public and item.in_source]
    return [item for item in public if item not in code().laws()]


def keepers_of(call):
    """Returns the symbols of the functions that have to keep what a call promises: it, and those
    that implement it, if it is of a trait."""
    keepers = {call.symbol}
    for item in code().functions:
        if (item.trait, item.name) == (call.owner, call.name):
            keepers.add(item.symbol)
    return keepers


def cases_of_clauses():
    """Yields a case for each clause of a public call."""
    for item in public_calls():
        path = f"crates/{item.crate}/src/{item.file}"
        text, rows = text_of(path), text_of(path).splitlines(keepends=True)
        for clause in clauses_in(tokens_of(os.path.join(TOP, path)), text):
            if clause.label and clause.line in item.in_source:
                start = text.index(clause.text, sum(map(len, rows[: clause.line - 1])))
                place = slice(start, start + len(clause.text))
                name = f"{item.crate} {item.path}.{clause.label}"
                yield Case(name, path, place, "{ ⊤ }", keepers_of(item))


def concluded(tokens):
    """Returns those of a clause's tokens that follow its last arrow outside brackets; none if it
    has `↔`, since each side is then a premise, too."""
    if any(token.text == "↔" for token in tokens):
        return ()
    depth = start = 0
    for place, token in enumerate(tokens, 1):
        depth += (token.text in OPENING) - (token.text in CLOSING)
        if token.text == "→" and not depth:
            start = place
    return tokens[start:]


@functools.lru_cache(maxsize=None)
def definitions():
    """Returns all definitions, each with those to which it leads, but those of its premises. One
    with `↔` leads to itself alone. Another without a single equation has none here, and leads to
    all that it names."""
    modules = specs().modules.values()
    parts = {}
    for definition in (one for module in modules for one in module.definitions.values()):
        places = [place for place, token in enumerate(definition.tokens) if token.text == "="]
        tokens = concluded(definition.tokens[places[0] :]) if len(places) == 1 else ()
        module = definition.module
        parts[definition] = specs().named(tokens, module.imports, module) - {definition}
        if any(token.text == "↔" for token in definition.tokens):
            parts[definition] = {definition}
    return parts


def led_to(item, part, instead=None):
    """Returns the definitions to which this part of what a function ensures leads."""
    clauses = [clause for clause in item.clauses if clause.label]
    named = [specs().named(part(clause.tokens), item.imports) for clause in clauses]
    return specs().reached(set().union(*named), instead)


def cases_of_fields():
    """Yields a case for each field of a record of statements to which a public call leads."""
    named = {item: led_to(item, list) for item in public_calls()}
    promised = {item: led_to(item, concluded, definitions()) for item in code().functions}
    public = set().union(*named.values())
    for definition in sorted(public, key=lambda definition: definition.name):
        block = "\n".join(definition.lines)
        if STATEMENT.search(block):
            path = "crates/{}/specs/{}.antt".format(*definition.file)
            start = text_of(path).index(block)
            keepers = {item.symbol for item in promised if definition in promised[item]}
            for field in FIELD.finditer(block):
                if len(re.findall(rf"(?<![.\w]){field[1]}\b", block.partition("where")[2])) > 1:
                    continue  # it is a value, since others speak of it
                place = slice(start + field.start(2), start + field.end(2))
                name = f"{definition.module.crate} {definition.name}.{field[1]}"
                words = words_with(definition)
                yield Case(name, path, place, "⊤", keepers, words)


@functools.lru_cache(maxsize=None)
def parts():
    """Returns the parts of each definition: all to which it leads, but by premises."""
    return {whole: specs().reached([whole], definitions()) for whole in definitions()}


def words_with(definition):
    """Returns the names of the definitions of which this one is a part."""
    return {whole.name for whole, reached in parts().items() if definition in reached}


def crates():
    """Returns the libraries, and the crates of examples and tests that are libraries."""
    return [name for name in dependencies() if Path(TOP, "crates", name, "src/lib.rt").exists()]


def crates_of_kit():
    """Returns the kit's crates that ours may call."""
    names = dependencies()
    return sorted({name for below in names.values() for name in below if name not in names})


def check(kept, case=None):
    """Checks all crates, without what a case empties, over the work that was kept, which may be of
    older sources. Returns what the kit says. Only the work without a case is kept. The crates are
    sources of a crate that has nothing else, so that nothing is built."""
    with tempfile.TemporaryDirectory(prefix="digests-clauses-") as folder:
        own, sources = Path(folder, "crates", "all"), Path(folder, "sources")
        os.makedirs(own / "src")
        Path(folder, "crates.txt").write_text(f"all: {' '.join(crates_of_kit())}\n", "utf-8")
        (own / "src/lib.rt").write_text("//! Nothing.\n#![tactic(auto)]\n", "utf-8")
        words = ["--jobs", "1" if case else str(at_once())]
        for name in crates():
            target = sources / "crates" / name
            copy(Path(TOP, "crates", name), ["src", "specs", "proofs"], target)
            uses = ",".join(["std", *dependencies()[name]])
            words += ["--lib", f"{name}:{uses}={target}/src/lib.rt"]
        put({case.path: case.text()} if case else {}, sources)
        said, _ = copies.check(own, words, kept, keeps=not case)
        if "\ncrate all: " not in said:
            sys.exit(f"{said}clauses.py: a check broke off")
        return said


@functools.lru_cache(maxsize=None)
def state():
    """Returns a sum of all sources."""
    state = hashlib.sha256()
    for part in ("src", "specs", "proofs"):
        for path in sorted(Path(TOP, "crates").glob(f"*/{part}/**/*.*")):
            state.update(f"{path}\n".encode() + path.read_bytes())
    return state.hexdigest()[:16]


def prove_all(kept):
    """Proves all crates, unless these sources are proved, and keeps the work of it."""
    whole = OUT / state() / "whole"
    if not whole.exists():
        whole.parent.mkdir(parents=True, exist_ok=True)
        said = check(kept)
        if "logic=proved" not in said:
            sys.exit(f"{said}clauses.py: the crates aren't proved")
        whole.write_text(said, "utf-8")


def main(words):
    """Tries the cases that have one of the words, or all, prints who misses each, and returns the
    status."""
    prove_all(OUT / "kept")
    cases = [*cases_of_clauses(), *cases_of_fields()]
    if words:
        cases = [case for case in cases if any(word in case.name for word in words)]

    def attempt(case):
        try:
            case.log.write_text(case.outcome(OUT / "kept"), "utf-8")
            print(f"{case.name}: missed by {case.first()}", flush=True)
        except ValueError as error:
            print(f"{case.name}: not known: {error}", flush=True)

    with ThreadPoolExecutor(at_once()) as pool:
        list(pool.map(attempt, [case for case in cases if not case.first()]))
    tried = [case for case in cases if case.first()]
    unmissed = [case.name for case in tried if case.first() == "nobody"]
    print(
        f"{len(tried)} of {len(cases)} tried. Missed by nobody: {len(unmissed)}",
        *unmissed,
        sep="\n",
    )
    return int(bool(unmissed) or tried != cases)


if __name__ == "__main__":
    if {"-h", "--help"} & {*sys.argv[1:]}:
        sys.exit(print(__doc__))
    sys.exit(main(sys.argv[1:]))
