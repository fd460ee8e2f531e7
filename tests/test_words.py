"""The words: the tool's name, options in every spelling, the faults and their order, and the help
and version texts."""

import os

import harness
import options
from harness import BLAKE2B_256_OF_NOTHING, MD5_OF_ABC, NAMES, TOOLS, Case, as_bytes, gnu
from rattle import Code
from reference_words import help_text, meaning
from sources import TOP
from texts import NO_VALUE, NO_VALUE_OF_LETTER, UNKNOWN_TOOL, ambiguous, invalid_length, not_found
from texts import odd_length, unknown_option, value_not_allowed, version


class ToolNames(Case):
    """The first word names the tool, or the name by which the program is called does."""

    def test_unknown_tool(self):
        for words in (
            [],
            ["shasum"],
            [""],
            ["md5"],
            ["MD5SUM"],
            ["md5sum "],
            ["--help"],
            ["md5sums", "a"],
        ):
            with self.subTest(words=words):
                self.expect(words, err=[UNKNOWN_TOOL], status=1)

    def test_links(self):
        for tool, (_, of_nothing, of_abc) in TOOLS.items():
            os.symlink(harness.PROGRAM, self.path(tool))
            for called in (f"./{tool}", os.fsdecode(self.path(tool))):
                ran = self.run_command([called, "a", "e"])
                self.assertEqual(ran, (0, f"{of_abc}  a\n{of_nothing}  e\n".encode(), b""))

    def test_other_links(self):
        """A link is the tool that it is named for, though it points to one of another name."""
        os.symlink(harness.PROGRAM, self.path("b2sum"))
        for name in ("anysum", "md5sum", "other"):
            os.symlink("b2sum", self.path(name))
        for *words, status, out, err in (
            ("./b2sum", "x", 1, [], [not_found("x", "b2sum")]),
            ("./b2sum", "sha1sum", 1, [], [not_found("sha1sum", "b2sum")]),
            ("./anysum", "--version", 0, [version("anysum")], []),
            ("./md5sum", "a", 0, [f"{MD5_OF_ABC}  a"], []),
            ("./other", "a", 1, [], [UNKNOWN_TOOL]),
            ("./other", "md5sum", "a", 0, [f"{MD5_OF_ABC}  a"], []),
        ):
            with self.subTest(words=words):
                self.assertEqual(self.run_command(words), (status, as_bytes(out), as_bytes(err)))


class Texts(Case):
    def test_the_list_of_tools(self):
        """tools/tools.txt has the tools of the code, in its order; GNU has those that it is to
        have, and no other."""
        variants = next(
            item.parts for item in Code().items if (item.kind, item.name) == ("enum", "Tool")
        )
        self.assertEqual(
            *([name.replace("_", "").lower() for name in names] for names in (NAMES, variants))
        )
        for tool, row in options.TOOLS.items():
            with self.subTest(tool=tool):
                self.assertEqual(
                    4 * len(self.run_words([tool]).out.partition(b" ")[0]), row.bits or 0
                )
                if gnu("md5sum"):
                    self.assertEqual(gnu(tool) is not None, row.of_gnu)

    def test_help_and_version(self):
        for tool in NAMES:
            for cut in ("--h", "--help"):
                self.expect([tool, cut], out=help_text(tool))
            for cut in ("--v", "--version"):
                self.expect([tool, cut], out=[version(tool)])
        self.expect("md5sum --help --version", out=help_text("md5sum"))
        self.expect("md5sum --version --help", out=[version("md5sum")])
        self.expect("md5sum a -zc --tag -t --help x", out=help_text("md5sum"))
        self.expect("b2sum -l 12 --version", out=[version("b2sum")])
        self.expect_fault("b2sum -l --help x -l", NO_VALUE_OF_LETTER)


class LongOptions(Case):
    """Faults 1 to 4, and names that are cut short."""

    def test_faults_and_values(self):
        for word, name in (
            ("--foo", "foo"),
            ("--foo=1", "foo"),
            ("--taga", "taga"),
            ("--Tag", "Tag"),
            ("---", "-"),
            ("--é", "é"),
            ("--length", "length"),
            ("--length=8", "length"),
            ("--a\\\n\r=x", "a\\\\\\n\\r"),
        ):
            with self.subTest(name=name):
                self.expect_fault(["md5sum", word, "a"], unknown_option(f"--{name}"))
        self.expect_fault("md5sum --t=1 a", ambiguous("--t"))
        self.expect_fault("md5sum --=x a", ambiguous("--"))
        for word, full in (
            ("--tag=", "tag"),
            ("--ta=1", "tag"),
            ("--help=1", "help"),
            ("--version=", "version"),
            ("--i=x", "ignore-missing"),
            ("--zero=a=b", "zero"),
        ):
            self.expect_fault(["md5sum", word, "a"], value_not_allowed(f"--{full}"))
        self.expect_fault("b2sum e --length", NO_VALUE)
        self.expect_fault("b2sum e -bl", NO_VALUE_OF_LETTER)


class Lengths(Case):
    """Faults 6 and 7."""

    def test_lengths(self):
        for value in ("520", "513", "+8", "", " 8", "8 ", "-8", "0x8", "8.0", "٨", "9" * 50, "a\n"):
            with self.subTest(value=value):
                shown = value.replace("\n", "\\n")
                self.expect_fault(["b2sum", "-l", value, "e"], invalid_length(shown))
                self.expect_fault(["b2sum", f"--length={value}", "e"], invalid_length(shown))
        for value in ("12", "1", "511", "0012"):
            with self.subTest(value=value):
                self.expect_fault(["b2sum", "-l", value, "e"], odd_length(value))
        self.expect(["b2sum", "-l", "0" * 60 + "256", "e"], out=[f"{BLAKE2B_256_OF_NOTHING}  e"])
        self.expect(["b2sum", "-l", "0" * 60, "e"], out=[f"{TOOLS['b2sum'][1]}  e"])
        self.expect("b2sum -l 12 -l 256 e", out=[f"{BLAKE2B_256_OF_NOTHING}  e"])
        self.expect("b2sum -l x --length=256 e", out=[f"{BLAKE2B_256_OF_NOTHING}  e"])
        self.expect_fault("b2sum -l 256 -l 12 e", odd_length("12"))


class Settings(Case):
    """The faults of options that don't go together, whose texts `reference_words` has."""

    def test_faults(self):
        alone = ("ignore-missing", "quiet", "status", "strict", "warn")
        for words in (
            *("md5sum --tag -t a", "md5sum -c -z l", "md5sum -c --tag l", "md5sum -c -b l"),
            *("anysum", *(f"md5sum --{name} a" for name in alone)),
        ):
            tool, *rest = words.split()
            self.assertEqual(self.run_words(words), meaning(tool, rest, b""), words)


class EachByte(Case):
    """Each byte but NUL, which no word can hold."""

    def test_by_the_rules(self):
        """As a word, after one dash and two, before and after `--`, and as a length."""
        os.chdir(self.folder)
        self.addCleanup(os.chdir, TOP)
        for number in range(1, 256):
            byte = bytes([number])
            lines = [[b"-l" + byte], [b"--length=" + byte]]
            for word in (byte, b"-" + byte, b"--" + byte):
                lines += [word], ["--", word], ["-l", word]
            for line in lines:
                expected = meaning("b2sum", [os.fsdecode(word) for word in line], b"abc")
                self.assertEqual(self.run_words(["b2sum", *line], b"abc"), expected, line)


class LaterProcessors(Case):
    of_the_repository = True

    def test_hidden(self):
        """If AVX2 is hidden it ends at once, with a clear message and its own status, before any
        work."""
        program = os.path.join(TOP, "out", "x86-64-v3", "digests")
        if not os.path.exists(program):
            self.skipTest("the program for x86-64-v3 isn't built")
        env = {**os.environ, "GLIBC_TUNABLES": "glibc.cpu.hwcaps=-AVX2"}
        ran = self.run_command([program, "md5sum", "a"], env=env)
        self.assertEqual((ran.status, ran.out), (harness.NOT_FOR_THIS_MACHINE, b""))
        self.assertRegex(ran.err, rb"^this machine lacks a feature of x86-64-v3, [^\n]*\n$")
