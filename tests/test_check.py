"""Checking: the manifests of each tool, those that can't be read, lines that are read back, and
hostile ones."""

from harness import MD5_OF_ABC, TOOLS, X_MISSING, Case
from reference import NO_TEXT
from texts import NONE_FOUND, bad, failed, improper, not_found, ok, unread, unreadable, wrong

SPECIAL = "q\\\nz"


class Manifests(Case):
    def test_every_tool_checks_its_own(self):
        for tool, (tag, of_nothing, of_abc) in TOOLS.items():
            with self.subTest(tool=tool):
                self.write(
                    "l",
                    [
                        f"{of_abc}  a",
                        f"{tag} (e) = {of_nothing}",
                        f"{of_nothing} *a",
                        f"{of_nothing}0  e",
                    ],
                )
                named = f"{tool}: l: {improper(4, tag)}"
                self.expect(
                    [tool, "-cw", "l"],
                    out=[ok("a"), ok("e"), failed("a")],
                    err=[named, bad(1, tool), wrong(1, tool)],
                    status=1,
                )

    def test_manifests_that_cannot_be_read(self):
        self.expect("md5sum -c --status x", err=[X_MISSING], status=1)
        self.expect("md5sum -c --ignore-missing x", err=[X_MISSING], status=1)
        self.expect(["md5sum", "-c", SPECIAL], err=[not_found("q\\\\\\nz")], status=1)

    def test_standard_input(self):
        self.write("l5", [f"{MD5_OF_ABC}  -"])
        self.expect(
            "md5sum -c l5 l5", stdin="abc", out=[ok("-"), failed("-")], err=[wrong(1)], status=1
        )
        self.expect(
            "md5sum -c - -",
            stdin=[f"{MD5_OF_ABC}  a"],
            out=[ok("a")],
            err=[f"md5sum: standard input: {NONE_FOUND}"],
            status=1,
        )
        self.expect(
            "md5sum -cw - a",
            stdin=["junk", f"{MD5_OF_ABC}  a"],
            out=[ok("a")],
            status=1,
            err=[
                f"md5sum: standard input: {improper(1)}",
                bad(1),
                f"md5sum: a: {improper(1)}",
                f"md5sum: a: {NONE_FOUND}",
            ],
        )


class Lines(Case):
    def test_written_lines_are_read_back(self):
        names = {
            SPECIAL: "\\q\\\\\\nz",
            "a\rb": "\\a\\rb",
            "\\": "\\\\\\",
            "\r": "\\\\r",
            "end\r": "\\end\\r",
            **{name: name for name in ("a", " ", "*", "a)", "x = y", "#", "tab\t", "é")},
        }
        for name in names:
            self.write(name, "abc")
        reports = [ok(shown) for shown in names.values()]
        for tool in TOOLS:
            for style in ("-t", "-b", "--tag"):
                ran = self.run_words([tool, style, *names])
                self.assertEqual((ran.status, ran.err), (0, b""))
                self.expect([tool, "-c", "--strict"], stdin=ran.out, out=reports)
                if style == "--tag":
                    self.expect("anysum -c --strict", stdin=ran.out, out=reports)

    def test_lines_of_zero(self):
        """No line that ends with NUL can be read; but what stands before a newline in a name is a
        line."""
        for words in ("-z a e", "-z a", "-bz a", "-z --tag a"):
            with self.subTest(words=words):
                written = self.run_words(f"md5sum {words}").out
                self.expect(
                    "md5sum -c",
                    stdin=written,
                    err=[f"md5sum: standard input: {NONE_FOUND}"],
                    status=1,
                )
        self.write("a\nb", "abc")
        written = self.run_words(["md5sum", "-z", "a\nb"]).out
        self.expect("md5sum -c", stdin=written, out=[ok("a")], err=[bad(1)])


class Hostile(Case):
    def test_nothing_in_them_and_lines_around_the_buffer(self):
        for content in ("x" * 1000000, "\0" * 1000 + "\n", "   \t\n", "\n" * 100000):
            self.write("h", content)
            self.expect("md5sum -c h", err=[f"md5sum: h: {NONE_FOUND}"], status=1)
        for size in range(8185, 8200):
            with self.subTest(size=size):
                self.expect(
                    "md5sum -c --strict",
                    stdin=["#" * size, f"{MD5_OF_ABC}  a", "", f"{MD5_OF_ABC}  a"],
                    out=[ok("a")] * 2,
                )

    def test_names_of_any_bytes(self):
        """Names are written as they are. A name that isn't UTF-8 can't be read, and is never
        missing."""
        for name in (b"\x1b[31m", b"\xff"):
            self.write(name, "abc")
        self.write(
            "h",
            [
                MD5_OF_ABC.encode() + b"  " + name
                for name in (b"\x1b[31m", b"\x07\x9b", b"\xff", b"a")
            ],
        )
        out = [ok(b"\x1b[31m"), unreadable(b"\x07\x9b"), unreadable(b"\xff"), ok("a")]
        err = [b"md5sum: \x07\x9b: " + NO_TEXT, b"md5sum: \xff: " + NO_TEXT, unread(2)]
        for option in ("--strict", "--ignore-missing"):
            with self.subTest(option=option):
                self.expect(f"md5sum -c {option} h", out=out, err=err, status=1)
