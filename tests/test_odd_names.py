"""Names and other words that aren't UTF-8. Such a name is reported with its own bytes, and
everything else is done as without it."""

import errno
import os

import harness
from harness import MD5_OF_NOTHING, MD5_OF_ABC, Case, Ran
from reference_words import help_text
from texts import UNKNOWN_TOOL, cannot_read, invalid_length, ok, unknown_option

NAME = b"r\xe9sum\xe9.txt"


def unread(name, tool="md5sum"):
    """Returns the line about a name that isn't UTF-8."""
    return cannot_read(name, errno.EILSEQ, tool) + b"\n"


class OddNames(Case):
    """A file in Latin-1, which is there and can't be opened."""

    def setUp(self):
        super().setUp()
        self.write(NAME, "abc")

    def test_each_kind_and_place(self):
        for words, out in (
            (["a", NAME, "e"], [f"{MD5_OF_ABC}  a", f"{MD5_OF_NOTHING}  e"]),
            ([NAME, "a"], [f"{MD5_OF_ABC}  a"]),
            (["a", NAME], [f"{MD5_OF_ABC}  a"]),
            ([NAME], b""),
            (["-b", "--", NAME, "a"], [f"{MD5_OF_ABC} *a"]),
        ):
            with self.subTest(words=words):
                self.expect(["md5sum", *words], out=out, err=unread(NAME), status=1)
        os.symlink(harness.PROGRAM, self.path("sha256sum"))
        ran = self.run_command(["./sha256sum", "a", NAME])
        self.assertEqual(
            ran, Ran(1, f"{harness.SHA256_OF_ABC}  a\n".encode(), unread(NAME, "sha256sum"))
        )
        name = b"\xff\\\n\r"
        self.expect(
            ["md5sum", name, "a"], out=[f"{MD5_OF_ABC}  a"], err=unread(b"\xff\\\\\\n\\r"), status=1
        )
        for name in (b"\xff", b"b\xc3", b"\x80", b"\xed\xa0\x80", b"\xc0\xaf", b"d/\xff"):
            with self.subTest(name=name):
                self.expect(
                    ["md5sum", name, "a"], out=[f"{MD5_OF_ABC}  a"], err=unread(name), status=1
                )
        self.write("l", [f"{MD5_OF_ABC}  a"])
        for words in ([NAME, "l"], ["--", NAME, "l"], ["l", NAME]):
            with self.subTest(words=words):
                self.expect(["md5sum", "-c", *words], out=[ok("a")], err=unread(NAME), status=1)

    def test_other_ways(self):
        """It is read through a link, as standard input, and by a descriptor."""
        os.symlink(NAME, self.path("link"))
        ran = self.run_command(
            ["sh", "-c", '"$0" md5sum link - /dev/fd/3 <"$1" 3<"$1"', harness.PROGRAM, NAME]
        )
        self.assertEqual(
            ran,
            Ran(0, f"{MD5_OF_ABC}  link\n{MD5_OF_ABC}  -\n{MD5_OF_ABC}  /dev/fd/3\n".encode(), b""),
        )

    def test_long_names_and_many(self):
        """Names about as long as a page, and one as long as the system passes on."""
        for length in (4095, 4096, 4097, 8193, 131071):
            name = b"\xff" * length
            self.expect(["md5sum", name, "a"], out=[f"{MD5_OF_ABC}  a"], err=unread(name), status=1)
        words = ["md5sum", *["a"] * 50000, NAME, *["a"] * 49998]
        self.expect(words, out=[f"{MD5_OF_ABC}  a"] * 99998, err=unread(NAME), status=1)


class OddWords(Case):
    def test_options(self):
        """A word that begins with a dash and goes on, before the `--` that ends options, is a fault
        in its place."""
        escaped = b"--\\\n\r\xed\xa0\x80", b"--\\\\\\n\\r\xed\xa0\x80"
        same = [
            (word, word)
            for word in (b"-\xff", b"--\xc3", b"-l\xfc", b"-b\x80", b"--length=\xff", b"-8\xc3(")
        ]
        for word, shown in [*same, escaped]:
            for words in (
                [word],
                ["e", word],
                [word, "--help"],
                ["-c", "-z", word, "--foo"],
                ["-l", "12", word, "--"],
            ):
                with self.subTest(words=words):
                    self.expect_fault(["b2sum", *words], unknown_option(shown))
        self.expect_fault(["b2sum", "--foo", b"-\xff"], unknown_option("--foo"))
        self.expect(["md5sum", "--help", b"-\xff"], out=help_text("md5sum"))
        self.expect(
            ["md5sum", "--", b"-\xff", "a"],
            out=[f"{MD5_OF_ABC}  a"],
            err=unread(b"-\xff"),
            status=1,
        )

    def test_lengths_and_tools(self):
        for words in (["-l", b"\xff8"], ["--length", b"\xff8"], ["-b", "-l", b"\xff8", "e"]):
            with self.subTest(words=words):
                self.expect_fault(["b2sum", *words], invalid_length(b"\xff8"))
        self.expect_fault(["b2sum", "-l", b"-\xff", "e"], invalid_length(b"-\xff"))
        for words in (
            [b"\xff"],
            [b"-\xff"],
            [b"md5sum\x80", "a"],
            ["shasum", b"\xff"],
            ["shasum", b"-\xff"],
        ):
            with self.subTest(words=words):
                self.expect(words, err=[UNKNOWN_TOOL], status=1)
        os.symlink(harness.PROGRAM, self.path(b"\xff"))
        ran = self.run_command([b"./\xff", "md5sum", "a"])
        self.assertEqual(ran, Ran(0, f"{MD5_OF_ABC}  a\n".encode(), b""))
