"""What the manual pages and documents say of how GNU coreutils 9.1 check. Most statements are tried
with GNU's tools and with ours. If another version is installed, these tests are skipped."""

import os

import harness
from described import Described
from harness import GNU_TOOLS, MD5_OF_ABC, MD5_OF_NOTHING, as_bytes, gnu
from texts import NONE_FOUND, bad, improper, memory_exhausted, not_found, ok, unread, unreadable


class Checks(Described):
    def test_reports(self):
        """GNU's tools escape a name only if it has a newline."""
        for name, ours, theirs in (
            ("x", "x", "x"),
            ("x y", "x y", "x y"),
            ("x\\y", "\\x\\\\y", "x\\y"),
            ("x\ry", "\\x\\ry", "x\ry"),
            ("x\n\\y", "\\x\\n\\\\y", "\\x\\n\\\\y"),
        ):
            self.write(name, "abc")
            self.write("list", self.run_words(["md5sum", name]).out)
            both = [(0, [ok(shown)], b"") for shown in (ours, theirs)]
            self.expect_both("md5sum -c --strict list", *both)

    def test_forms(self):
        """With GNU's tools the first line that begins with its digits, a blank and more decides for
        all manifests of a call."""
        self.write("one", [f"{MD5_OF_ABC} a"])
        self.write("two", [f"{MD5_OF_ABC}  a"])
        missing = [not_found("' a'"), unread(1)]
        theirs = (1, [ok("a"), unreadable(" a")], missing)
        self.expect_both("md5sum -c one two", (0, [ok("a")] * 2, b""), theirs)
        none = [f"md5sum: one: {NONE_FOUND}"]
        self.expect_both("md5sum -c two one", (0, [ok("a")] * 2, b""), (1, [ok("a")], none))
        for name in ("one", "two"):
            with self.subTest(name=name):
                self.expect_alike(["md5sum", "-c", name], 0, [ok("a")])

    def test_spacing_of_tagged_lines(self):
        """One space or none after the tag, and blanks around the equals sign, are read by both
        tools; GNU's b2sum also takes a tab, a second space or a letter after a tag without a
        length, and a length in octal or hexadecimal."""
        for tool, (tag, of_nothing, _) in GNU_TOOLS.items():
            for line in (
                f"{tag}(e)={of_nothing}",
                f"{tag} (e)= {of_nothing}",
                f"{tag} (e) \t = \t{of_nothing}",
            ):
                self.write("list", [line])
                self.expect_alike([tool, "-c", "--strict", "list"], 0, [ok("e")])
        tag, of_nothing, _ = GNU_TOOLS["b2sum"]
        none = [f"b2sum: list: {NONE_FOUND}"]
        for between in ("\t", "  ", "x "):
            self.write("list", [f"{tag}{between}(e) = {of_nothing}"])
            self.expect_both("b2sum -c list", (1, b"", none), (0, [ok("e")], b""))
        for bits in ("-256 ", "-0256", "-256x"):
            with self.subTest(bits=bits):
                self.write("list", [f"{tag}{bits} (e) = {harness.BLAKE2B_256_OF_NOTHING}"])
                self.expect_alike("b2sum -c list", 1, err=none)
        for bits in ("-0400", "-0x100", "-+256", "- 256"):  # as C reads a number
            with self.subTest(bits=bits):
                self.write("list", [f"{tag}{bits} (e) = {harness.BLAKE2B_256_OF_NOTHING}"])
                self.expect_both("b2sum -c list", (1, b"", none), (0, [ok("e")], b""))

    def test_a_byte_0(self):
        """GNU's tools take a name that isn't escaped, or a tagged line's digits, up to it; of a
        list that was written with `--zero` they check the first file, and answer 0."""
        self.write("b", "other")
        for command in ([harness.PROGRAM, "md5sum"], [gnu("md5sum")]):
            self.write("list", self.run_command([*command, "-z", "a", "b", "e"]).out)
            self.write("b", "changed")
            message = [f"md5sum: list: {text}" for text in (improper(1), NONE_FOUND)]
            self.expect_both("md5sum -c -w --strict list", (1, b"", message), (0, [ok("a")], b""))
        self.write("list", f"{MD5_OF_ABC}  a\0b\n{MD5_OF_NOTHING}  e\n")
        self.expect_both("md5sum -c list", (0, [ok("e")], [bad(1)]), (0, [ok("a"), ok("e")], b""))
        for line in (
            f"MD5 (a\0b) = {MD5_OF_ABC}",
            f"MD5 (a) = {MD5_OF_ABC}\0",
            f"\\MD5 (a) = {MD5_OF_ABC}\0more",
        ):
            self.write("list", [line])
            self.expect_both("md5sum -c -w --strict list", (1, b"", message), (0, [ok("a")], b""))

    def test_a_name_that_hides_what_follows(self):
        """If a list was written with `--zero`, a newline and `#` in a name hide all that follows,
        in both."""
        self.write("a\n#", "abc")
        self.write("list", self.run_words(["md5sum", "-z", "a\n#", "e"]).out)
        self.write("e", "changed")
        self.expect_alike("md5sum -c --strict list", 0, [ok("a")])

    def test_a_line_without_memory(self):
        """GNU's tools take it for the end of the list."""
        none = [f"md5sum: list: {NONE_FOUND}"]
        for lines, out, theirs in (
            (b"", b"", (1, b"", none)),
            ([f"{MD5_OF_ABC}  a"], [ok("a")], (0, [ok("a")], b"")),
        ):
            self.write("list", lines)
            os.truncate(self.path("list"), 1 << 30)
            self.expect_both(
                "md5sum -c --strict list",
                (1, out, [memory_exhausted("md5sum")]),
                theirs,
                preexec_fn=harness.limit("AS", 200 << 20),
            )

    def test_what_other_programs_write(self):
        """Lines as those of `gpg --print-md`, `openssl dgst` and `rhash --bsd` can't be checked; as
        those of `openssl dgst -r`, they can."""
        digits = harness.SHA256_OF_ABC.upper()
        grouped = " ".join(digits[place : place + 8] for place in range(0, 64, 8))
        for line in (
            f"a: {grouped}",
            f"SHA2-256(a)= {harness.SHA256_OF_ABC}",
            f"SHA256   (a) = {harness.SHA256_OF_ABC}",
        ):
            self.write("list", [line])
            none = [f"sha256sum: list: {NONE_FOUND}"]
            self.expect_alike("sha256sum -c list", 1, err=none)
        self.write("list", [f"{harness.SHA256_OF_ABC} *a"])
        self.expect_alike("sha256sum -c --strict list", 0, [ok("a")])

    def test_an_empty_name(self):
        """GNU's tools take some lines for one that lists a file, and fail."""
        for tool, (tag, of_nothing, of_abc) in GNU_TOOLS.items():
            self.write("list", [f"{tag} () = {of_nothing}", f"{of_abc}  a"])
            missing = [not_found("''", tool), unread(1, tool)]
            theirs = (1, [unreadable(""), ok("a")], missing)
            self.expect_both([tool, "-c", "list"], (0, [ok("a")], [bad(1, tool)]), theirs)

    def test_digits_and_a_blank(self):
        """GNU's b2sum takes them for a line with an empty name, which decides how names are
        read."""
        for first in (
            f"{harness.BLAKE2B_256_OF_NOTHING} ",
            f"{harness.BLAKE2B_256_OF_NOTHING}\t",
            "ab ",
        ):
            self.write("list", [first, f"{harness.BLAKE2B_256_OF_NOTHING}  e"])
            missing = [not_found(f"'{name}'", "b2sum") for name in ("", " e")]
            theirs = (1, [unreadable(name) for name in ("", " e")], [*missing, unread(2, "b2sum")])
            self.expect_both("b2sum -c list", (0, [ok("e")], [bad(1, "b2sum")]), theirs)

    def test_lines_that_they_do_not_write(self):
        """GNU's tools read a carriage return as it is in a name after a leading backslash."""
        self.write("q\\\rz", "abc")
        ours = (0, [ok("a")], [bad(1)])
        for line in (f"\\{MD5_OF_ABC}  q\\\\\rz", f"\\MD5 (q\\\\\rz) = {MD5_OF_ABC}"):
            self.write("list", f"{line}\n{MD5_OF_ABC}  a\n")
            self.expect_both("md5sum -c list", ours, (0, [ok("q\\\rz"), ok("a")], b""))
        written = self.run_command(["md5sum", "q\\\rz"], executable=gnu("md5sum")).out
        self.assertEqual(written, f"\\{MD5_OF_ABC}  q\\\\\\rz\n".encode())
        self.write("list", written)
        self.expect_both("md5sum -c list", (0, [ok("\\q\\\\\\rz")], b""), (0, [ok("q\\\rz")], b""))

    def test_statuses(self):
        """Status 0 means the same thing, and is returned in the same cases."""
        self.write("good", [f"{MD5_OF_ABC}  a", f"{MD5_OF_NOTHING}  e"])
        self.write("none", ["#", "", "junk"])
        self.write("damaged", [f"{MD5_OF_ABC}  a", "junk"])
        self.write("some", [f"{MD5_OF_ABC}  a", f"{MD5_OF_ABC}  x"])
        self.write("gone", [f"{MD5_OF_ABC}  x"])
        self.write("wrong", [f"{MD5_OF_ABC}  a", f"{MD5_OF_ABC}  e"])
        for words, status in (
            ("a e", 0),
            ("a x e", 1),
            ("d", 1),
            ("--help", 0),
            ("--version", 0),
            ("--other", 1),
            ("-c good", 0),
            ("-c none", 1),
            ("-c good none", 1),
            ("-c x good", 1),
            ("-c e", 1),
            ("-c damaged", 0),
            ("-c --strict damaged", 1),
            ("-c some", 1),
            ("-c gone", 1),
            ("-c --ignore-missing some", 0),
            ("-c --ignore-missing gone", 1),
            ("-c --ignore-missing good gone", 1),
            ("-c wrong", 1),
            ("-c --ignore-missing wrong", 1),
        ):
            for more in ((), ("--status",), ("--quiet",)) if words.startswith("-c") else ((),):
                ours, theirs = self.ours_and_theirs(["md5sum", *words.split(" "), *more])
                self.assertEqual((ours.status, theirs.status), (status, status), (words, more))

    def test_cksum(self):
        """`cksum -c` reads tagged lines of several algorithms, as `anysum -c` does, and no plain
        ones."""
        lines = [self.run_words([tool, "--tag", "a"]).out for tool in GNU_TOOLS]
        lines += [self.run_words("b2sum -l 256 --tag a").out, f"{MD5_OF_ABC}  a\n".encode()]
        self.write("list", b"".join(lines))
        theirs = self.run_command(["cksum", "-c", "list"], executable=gnu("cksum"))
        ours = self.run_words("anysum -c list")
        wanted = as_bytes([ok("a")] * (len(GNU_TOOLS) + 1))
        self.assertEqual((ours.status, ours.out), (0, wanted))
        self.assertEqual((theirs.status, theirs.out), (ours.status, ours.out))
