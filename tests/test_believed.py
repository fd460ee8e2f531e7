"""The pages of what must be believed: nothing is left out, each thing stands below what it uses,
the kit's words are explained, and the examples are proved."""

import re

import claims
from believed import PLANS, Page, file_of, is_item, needs, printed, text_of_thing, unexplained
from definitions import origins_in
from harness import Case
from sources import text_of

BOOK, LAWS = (text_of(path) for path in PLANS)
# The chapters of what `run` reaches, those of what only `command`, `program` and `main` do, and
# those that begin with examples.
OF_RUN, OF_OTHERS, WITH_EXAMPLES = {1, 2, 3, 4, 5, 6, 7, 10, 11}, {8, 9}, {1, 2, 3, 4, 5, 8}
TABLES = {"reason_table", "sigma", "iv", "row_of"}
EXAMPLES = re.compile(
    r"(?s)\nExamples, by the theorems? ([^\n]*?) of `(crates/[\w/.]+)`[^\n]*\n\n"
    r"```text\n(.*?)\n```\n"
)


def chapters():
    """Returns the chapters of the book, by their numbers."""
    parts = re.split(r"(?m)^## (\d+)\. ", BOOK)[1:]
    return {int(number): text for number, text in zip(parts[::2], parts[1::2])}


def chapters_of(text):
    """Returns the numbers of the chapters in which a text stands."""
    return [number for number, of_one in chapters().items() if f"\n{text}\n" in of_one]


class Believed(Case):
    of_the_repository = True

    def test_each_thing_is_printed_once(self):
        """Each definition and item of each claim stands once: a law on the page of laws, unless it
        fixes a computed name, and all else in the book."""
        fixing = {*claims.computed().values()}
        for claim in claims.claims():
            for thing in {*claim.items, *claim.reached}:
                text = f"\n{text_of_thing(thing)}\n"
                is_law = claim.mark == "law" and printed()[thing] == "law" and thing not in fixing
                with self.subTest(thing=thing.name, file=file_of(thing)):
                    counts = (BOOK.count(text), LAWS.count(text))
                    self.assertEqual(counts, (0, 1) if is_law else (1, 0))

    def test_each_thing_stands_below_what_it_uses(self):
        """At most five names are used before they are explained. Where they are used, it is said
        in which chapter that is."""
        places = {thing: BOOK.find(f"\n{text_of_thing(thing)}\n") for thing in printed()}
        early = set()
        for thing, place in places.items():
            for other in needs(thing):
                if place >= 0 and places[other] > place:
                    early.add(other.name)
                    (chapter,) = chapters_of(text_of_thing(other))
                    above = BOOK[BOOK.rfind("```", 0, place) : place]
                    note = rf"explained only below, in chapter {chapter}: .*\b{other.name}\b"
                    self.assertRegex(above, note, thing.name)
        self.assertLessEqual(len(early), 5)
        self.assertEqual(early, {"reason_table", "blake2b", "row_of", "iv", "sigma"})

    def test_chapters(self):
        """What only `command`, `program` and `main` reach is in chapters of its own, and a file of
        definitions is in one chapter, but for tables."""
        of_files = {}
        for thing, mark in printed().items():
            if mark != "law":
                (chapter,) = chapters_of(text_of_thing(thing))
                self.assertIn(chapter, OF_RUN if mark == "run" else OF_OTHERS, thing.name)
                if not is_item(thing) and thing.name not in TABLES:
                    of_files.setdefault(file_of(thing), set()).add(chapter)
        self.assertEqual({file for file, numbers in of_files.items() if len(numbers) > 1}, set())

    def test_variants(self):
        """A variant of a `data` stands behind its type's name, so that no parameter looks like it:
        no definition has the variants of its file, or imports one."""
        types = [thing for thing in printed() if not is_item(thing) and thing.constructors]
        owned = {f"{one.module.checked}.{name}" for one in types for name in one.constructors}
        self.assertNotEqual(owned, set())
        for thing in printed().keys() - claims.computed().keys() - {*types}:
            if not is_item(thing):
                found = {f"{thing.module.checked}.{token.text}" for token in thing.tokens}
                found |= {claims.specs().end_of(*origin) for origin in origins_in(thing).values()}
                self.assertEqual(found & owned, set(), thing.name)

    def test_what_no_plan_has(self):
        """A thing that belongs to no chapter is an error, and so is a path without a thing."""
        things = [thing for thing in printed() if file_of(thing) == "digest_kinds/specs/Kind.antt"]
        lines = ["## 1. Kinds", "@ run: digest_kinds/Kind"]
        self.assertEqual(Page(lines, things, set()).things[lines[1]], things)
        for line, word in (
            ("@ run: digest_kinds/Kin", "KindValue"),
            ("@ run: digest_kinds/Kind.Kind", "KindValue"),
            ("@ command: digest_kinds/Kind", "KindValue"),
            ("@ run: digest_kinds/Kind digest_kinds/Algo", "digestkinds/algo"),
        ):
            with self.subTest(line=line), self.assertRaisesRegex(ValueError, word):
                Page([lines[0], line], things, set())

    def test_words_that_are_explained(self):
        """A word of the kit that is missing is refused, one that is spare, and one that is there
        twice."""
        self.assertEqual(unexplained({"a", "b"}, ["a", "b"]), [])
        for known in (["a"], ["a", "b", "c"], ["a", "b", "b"]):
            self.assertEqual(len(unexplained({"a", "b"}, known)), 1, known)

    def test_examples(self):
        """Each chapter that computes begins with examples, and theorems prove them."""
        found = set()
        for number, chapter in chapters().items():
            for names, path, block in EXAMPLES.findall(chapter):
                theorems = ""
                for name in re.findall(r"`(\w+)`", names):
                    theorems += re.search(rf"(?ms)^{name} :\n(.*?)^unfolding ", text_of(path))[1]
                theorems = " ".join(theorems.split())
                for example in re.split(r"\n(?! )", block):
                    with self.subTest(example=example):
                        self.assertIn(f"({' '.join(example.split())})", theorems)
                found.add(number)
        self.assertEqual(found, WITH_EXAMPLES)

    def test_numbers(self):
        """README says how long the book is, and how much of it is to be believed."""
        lines = BOOK.count("\n")
        to_believe = int(
            re.search(r"`program`.*?: ([\d,]+) lines", claims.summary())[1].replace(",", "")
        )
        said = re.search(r"has some ([\d,]+) lines, of which some ([\d,]+)", text_of("README.md"))
        shown = [int(number.replace(",", "")) for number in said.groups()]
        self.assertEqual(shown, [round(lines, -2), round(to_believe, -2)])
