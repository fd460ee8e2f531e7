"""What a reader takes a word of what is believed for is what the kit has resolved it to. Each case
is a way to make a word mean something else, or to hide what it means."""

from types import SimpleNamespace as Made

import claims
import words
from claims import code, specs
from definitions import Module, imports_of
from harness import Case
from resolved import parts, terms_in
from sources import tokens_of, text_of

# Lines that a file of definitions may not have, each with what the error names.
REFUSED = {
    "use Rattle.sum_engine.specs.private as std": "std is a crate's name",
    "use Rattle.sum_engine.specs.private as Rattle": "Rattle is a crate's name",
    "use Rattle.sum_engine.specs.{private.Judge.verdict_of_hash as sha2}": "sha2 is a crate's name",
    "use std.Bytes.{bytes_eq}": "bytes_eq",
    "use std.Lists.{All}": "All",
    "use std.Options.{IfSome}": "IfSome",
    "use std.Bool.{not}": "not",
    "use std.HLevels.{not}": "not",
    "use others.Bool.{not}": "not",
    "use denote.Builtin.{u8}": "u8",
    "use Rattle.sum_engine.proofs.HashLemmas.{IsHashOf}": "IsHashOf",
    "use Rattle.libc.specs.Fcntl.{fcntl}": "fcntl",
    "pub use Rattle.std.specs.Str.{str_eq_ignore_ascii_case as bytes_eq}": "bytes_eq",
    "use Rattle.std.specs.{List.AllPass as All}": "All",
    "use Rattle.std.specs.Prelude.{IfNone as IfSome}": "IfSome",
    "use Rattle.std.specs.Prelude.{is_some as not}": "not",
    "use Rattle.std.specs.Prelude.{◌||◌ as ◌&&◌}": "◌&&◌",
    "use Rattle.std.specs.Strange.{bytes_eq}": "Rattle.std.specs.Strange",
    "use Rattle.std.specs.Prelude.{strange}": "strange",
    "use Rattle.sum_engine.specs.check.Judge.{strange}": "strange",
    "use Rattle.sum_engine.specs.check.Strange.{judge}": "Rattle.sum_engine.specs.check.Strange",
    "open Rattle.std.specs.Prelude": "open",
}
KIT = "Rattle-core-specs.Str"
ENGINE = "Rattle-sum_engine-specs"
OURS = f"{ENGINE}.private.Bytes"


class Names(Case):
    of_the_repository = True

    def assert_refused(self, word, call, *given):
        """Fails unless a call raises a ValueError that has the word."""
        with self.assertRaises(ValueError) as raised:
            call(*given)
        self.assertIn(word, str(raised.exception))

    def import_all(self, line):
        for name, origin in imports_of(line):
            specs().check(name, *origin)

    def test_lines_that_are_refused(self):
        for line, word in REFUSED.items():
            with self.subTest(line=line):
                self.assert_refused(word, self.import_all, line)

    def test_lines_that_are_not(self):
        for line in (
            "use Rattle.std.specs.Prelude.{bytes_eq, All, IfSome, not, ◌&&◌}",
            "use Rattle.std.specs.{Str.str_eq_ignore_ascii_case, Option.ForSome}",
            "use Rattle.sum_settings.specs.declared.settings.Report.TheVariants as reports",
            "pub use Rattle.sum_engine.specs.check.Judge.{judge as judgement}",
        ):
            with self.subTest(line=line):
                self.import_all(line)

    def test_imports_of_code(self):
        """An import of code gives no second name, and leads through a crate that is known."""
        file = code().files[0]
        for first, names, word in (
            ("std", " : : io : : Read as Write ;", "Write"),
            ("std", " as core ;", "core"),
            ("crate", " : : str as text ;", "text"),
            ("strange", " : : str ;", "strange"),
        ):
            with self.subTest(names=names):
                self.assert_refused(word, file.bring_in, first, names)

    def test_a_module_with_the_name_of_a_crate(self):
        path = self.path("Some.antt").decode()
        self.write("Some.antt", "-- Some.\n")
        for file in ("std", "std/Bool", "private/hex", "check/Rattle"):
            with self.subTest(file=file):
                self.assert_refused("is a crate's name", Module, "sum_engine", file, path)

    def test_what_the_kit_has_resolved(self):
        """A word that means something else there is an error, be it the kit's or of ours, and so is
        a word of the kit that the text doesn't have."""
        for word in ("bytes_eq", "All", "IfSome", "not", "◌&&◌", "answer_to"):
            imported, ends = self.user_of(word)
            self.assertEqual([*words.misread(specs(), "some", imported, ends)], [])
            end = dict(imported)[word]
            for other in (f"{KIT}.str_eq_ignore_ascii_case", f"{ENGINE}.check.Judge.verdicts_of"):
                with self.subTest(word=word, other=other):
                    wrong = [*words.misread(specs(), "some", imported, ends - {end} | {other})]
                    line = f"some: {word} seems to be {end}, which the kit hasn't found there"
                    self.assertEqual(wrong[0], line)
        imported, ends = self.user_of("bytes_eq")
        wrong = [
            *words.unnamed("some", imported, {*dict(imported).values(), f"{KIT}.IsAscii"}, False)
        ]
        self.assertEqual(wrong, [f"some rests on {KIT}.IsAscii, which its text doesn't name"])

    def user_of(self, word):
        """Returns the words and the ends of a definition that is believed and has a word, which
        isn't in a pattern."""
        for definition in sorted(claims.believed(), key=lambda one: one.end):
            imported = words.of_sources(specs(), [definition])
            if dict(imported).get(word) in specs().ends[definition]:
                return imported, specs().ends[definition]
        return self.fail(f"no definition has {word}")

    def test_one_end_for_each_word(self):
        ends = {("bytes_eq", f"{KIT}.bytes_eq"), ("bytes_eq", f"{KIT}.str_eq_ignore_ascii_case")}
        self.assert_refused("bytes_eq", words.with_one_end, ends)

    def test_definitions_with_the_name_of_a_word(self):
        """One that is believed may not have the name of a word of the kit, wherever it is."""
        for name in ("bytes_eq", "All", "IfSome", "not"):
            module = Made(file="private/Bytes", imports={})
            definition = Made(name=name, end=f"{OURS}.{name}", module=module)
            module.definitions = {name: definition}
            made = Made(modules={OURS: module})
            lines = words.defined_twice(made, Made(items=[]), [definition])
            with self.subTest(name=name):
                self.assertRegex("\n".join(lines), rf"\.{name} and {OURS}\.{name} have one name")

    def test_names_that_are_explained(self):
        """The page says what a name means if it isn't what it is called, also if another file of
        ours has given it that name."""
        judge = f"{ENGINE}.check.Judge"
        for origin, end, line in (
            (("A", "judge"), f"{judge}.judge", ""),
            (("A", "other"), f"{judge}.other", "-- here judge is A.other"),
            (("A", "judge"), f"{judge}.other", f"-- here judge is {judge}.other"),
            (("A", None), "A", "-- here judge is A"),
        ):
            source = Made(tokens=[Made(kind="Antt", text="judge")], imports={"judge": origin})
            made = Made(end_of=lambda *_, end=end: end)
            with self.subTest(origin=origin, end=end):
                self.assertEqual(words.explained(made, [source], ()), line)

    def test_characters(self):
        """No source has a letter that looks like another, or a character that can't be seen."""
        text = text_of("crates", "sum_engine", "specs", "check", "Judge.antt")
        for character in "\u200b\u00ad\u2060\ufe0f\u3164\u202e\u0435\u03bf\u2005":
            for place in (text.index("judge"), text.index("-- ") + 3, len(text)):
                self.write("Some.antt", f"{text[:place]}{character}{text[place:]}")
                with self.subTest(character=character, place=place):
                    code_point = f"U+{ord(character):04X}"
                    self.assert_refused(code_point, tokens_of.__wrapped__, self.some())
        self.write("Some.antt", "-- Some.\nabbrev pub is_λ : ℕ\nis_λ = 1\n")
        self.assert_refused("is_λ", Module, "sum_engine", "check/Some", self.some())

    def some(self):
        return self.path("Some.antt").decode()

    def test_what_the_kit_has_written(self):
        """What can't be read of it is an error."""
        for data in (b"ATB2", b"\x09ATB2\x01\x03abc", b'\x05ATB2\x00\x0e{"derived":1'):
            with self.subTest(data=data):
                with self.assertRaises((ValueError, IndexError)):
                    list(terms_in(data))
        self.assert_refused("strange", specs().owner, OURS, "strange")
        self.assert_refused("strange", specs().of_end, f"{ENGINE}.check.Judge.strange")
        self.assert_refused("strange", specs().of_end, f"{ENGINE}.Strange.strange")
        self.assert_refused("Rattle-strange-specs", parts, "Rattle-strange-specs.Some.some")
