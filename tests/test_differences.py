"""What the manual pages and documents say of GNU coreutils 9.1, but for checking. Most statements
are tried with GNU's tools and with ours. If another version is installed, these tests are
skipped."""

import errno
import os
import subprocess

import harness
from described import Described
from harness import MD5_OF_ABC, MD5_OF_NOTHING, WRITE_ERROR, X_MISSING, Ran, as_bytes, gnu
from reference import NO_TEXT
from texts import (
    ambiguous,
    cannot_read,
    fault_lines,
    not_found,
    ok,
    unknown_letter,
    unknown_option,
    unreadable,
    value_not_allowed,
    write_error,
)
from tracing import needs_strace, strace


class Messages(Described):
    def test_quoted_names(self):
        """GNU's tools quote some names in messages as a shell does, as one with a space or a
        control byte."""
        for name, ours, theirs in (
            ("x", "x", "x"),
            ("x y", "x y", "'x y'"),
            ("x\ty", "x\ty", "'x'$'\\t''y'"),
            ("x\ny", "x\\ny", "'x'$'\\n''y'"),
            ("x\\y", "x\\\\y", "'x\\y'"),
        ):
            with self.subTest(name=name):
                both = [(1, b"", [not_found(shown)]) for shown in (ours, theirs)]
                self.expect_both(["md5sum", name], *both)

    def test_the_name_in_front(self):
        """Messages begin with the tool's name; those of GNU's tools with the name by which they
        were called."""
        os.symlink(harness.PROGRAM, self.path("md5sum"))
        for called, wanted in (
            (os.fsdecode(self.path("md5sum")), "md5sum"),
            (gnu("md5sum"), gnu("md5sum")),
        ):
            self.assertEqual(
                self.run_command([called, "x"]), Ran(1, b"", as_bytes([not_found("x", wanted)]))
            )
        # They are so under any name.
        for target, status in ((harness.PROGRAM, 1), (gnu("md5sum"), 0)):
            os.symlink(target, self.path(f"other{status}"))
            self.assertEqual(self.run_command([f"./other{status}", "a"]).status, status)

    def test_reasons(self):
        """GNU's tools don't say why a list can't be read, and at their end a closed standard input
        is one more fault. A name that isn't UTF-8 is a fault only with ours. `test_reasons` has
        what both say alike."""
        ours, theirs = cannot_read("d", errno.EISDIR), "md5sum: d: read error"
        self.expect_both("md5sum -c d", (1, b"", [ours]), (1, b"", [theirs]))
        closed = [cannot_read("-", errno.EBADF), cannot_read("standard input", errno.EBADF)]
        self.expect_both(
            "md5sum a -",
            (1, [f"{MD5_OF_ABC}  a"], closed[:1]),
            (1, [f"{MD5_OF_ABC}  a"], closed),
            stdin=subprocess.DEVNULL,
            preexec_fn=lambda: os.close(0),
        )
        self.write(b"\xff", "abc")
        self.expect_both(
            ["md5sum", b"\xff"],
            (1, b"", b"md5sum: \xff: " + NO_TEXT + b"\n"),
            (0, MD5_OF_ABC.encode() + b"  \xff\n", b""),
        )

    def test_help_and_version(self):
        for option in ("--help", "--version"):
            with self.subTest(option=option):
                ours, theirs = self.ours_and_theirs(["md5sum", option])
                self.assertEqual(
                    (ours.status, ours.err, theirs.status, theirs.err), (0, b"", 0, b"")
                )
                self.assertNotEqual(ours.out, theirs.out)

    def test_unknown_options(self):
        """GNU's tools name those that are possible, and a value, and of a cluster the letter; ours
        the whole word if it isn't UTF-8."""
        cut, possible = ambiguous("--st"), "; possibilities: '--status' '--strict'"
        for words, ours, theirs in (
            ("-c --st a", cut, cut + possible),
            ("-c --st=x a", cut, ambiguous("--st=x") + possible),
            ("--oth=x a", unknown_option("--oth"), unknown_option("--oth=x")),
        ):
            with self.subTest(words=words):
                both = [(1, b"", fault_lines(text)) for text in (ours, theirs)]
                self.expect_both(f"md5sum {words}", *both)
        for word, theirs in (
            (b"-b\xff", unknown_letter(b"\xff")),
            (b"--tag=\xff", value_not_allowed(b"--tag")),
        ):
            both = [(1, b"", fault_lines(text)) for text in (unknown_option(word), theirs)]
            self.expect_both(["md5sum", word, "a"], *both)

    def test_lengths(self):
        """GNU's tool takes blanks or a plus sign before the number."""
        for value in (" 256", "\t256", "+256"):
            with self.subTest(value=value):
                ours, theirs = self.ours_and_theirs(["b2sum", "-l", value, "e"])
                self.assertEqual(
                    (ours.status, theirs.status, theirs.out),
                    (1, 0, f"{harness.BLAKE2B_256_OF_NOTHING}  e\n".encode()),
                )

    def test_several_lengths(self):
        """Only the last length is looked at, and none with `--help` or `--version`; GNU's tool
        refuses others, too."""
        for words in (
            "-l x -l 256 e",
            "-l 7 -l 256 e",
            "-l x --help",
            "-l 7 --help",
            "-l 7 --version",
        ):
            with self.subTest(words=words):
                ours, theirs = self.ours_and_theirs(f"b2sum {words}")
                self.assertEqual(
                    (ours.status, ours.err, theirs.status, theirs.out), (0, b"", 1, b""), words
                )

    def test_standard_input_twice(self):
        """A second `-` is an empty file; GNU's tools read on, and report a fault again."""
        folder = os.open(self.path("d"), os.O_RDONLY)
        self.addCleanup(os.close, folder)
        message = [cannot_read("-", errno.EISDIR)]
        self.expect_both(
            "md5sum - -",
            (1, [f"{MD5_OF_NOTHING}  -"], message),
            (1, b"", message * 2),
            stdin=folder,
        )
        self.expect_alike(
            "md5sum - -", 0, [f"{MD5_OF_ABC}  -", f"{MD5_OF_NOTHING}  -"], stdin=b"abc"
        )

    def test_what_has_no_effect(self):
        """The language changes GNU's quotes, and POSIXLY_CORRECT makes every word after a name one;
        here neither."""
        ran = [
            self.ours_and_theirs("b2sum -l x e", env={**os.environ, "LC_ALL": name})
            for name in ("C", "C.UTF-8")
        ]
        self.assertEqual(ran[0][0], ran[1][0])
        if ran[0][1] != ran[1][1]:  # if that language is there
            self.assertIn("\u2018x\u2019", ran[1][1].err.decode())
        theirs = (1, [f"{MD5_OF_ABC}  a"], [not_found("-b")])
        env = {**os.environ, "POSIXLY_CORRECT": "1"}
        self.expect_both("md5sum a -b", (0, [f"{MD5_OF_ABC} *a"], b""), theirs, env=env)
        self.expect_alike("md5sum a -b", 0, [f"{MD5_OF_ABC} *a"])


class Writing(Described):
    def test_an_output_that_fails(self):
        """An output that fails ends the run here, standard error at its first line, too; GNU's
        tools still read the other files, and name the reason of some faults."""
        full, ours, fault = self.full(), (1, b"", WRITE_ERROR), write_error("md5sum")
        self.expect_both("md5sum a x", ours, (1, b"", [X_MISSING, fault]), stdout=full)
        theirs = (1, b"", [f"{fault}: {os.strerror(errno.ENOSPC)}"])
        self.expect_both("md5sum -z a", ours, theirs, stdout=full)
        self.write("list", [f"{MD5_OF_ABC}  x", f"{MD5_OF_ABC}  a"])
        for how in ({"stderr": full}, {"preexec_fn": lambda: os.close(2)}):
            self.expect_both(
                "md5sum a x e",
                (1, [f"{MD5_OF_ABC}  a"], b""),
                (1, [f"{MD5_OF_ABC}  a", f"{MD5_OF_NOTHING}  e"], b""),
                **how,
            )
            theirs = (1, [unreadable("x"), ok("a")], b"")
            self.expect_both("md5sum -c list", (1, b"", b""), theirs, **how)

    def test_a_reader_that_goes_away(self):
        """A write error with status 1; GNU's tools are ended by a signal."""
        for words in ("md5sum a", "md5sum --help"):
            reads, writes = os.pipe()
            os.close(reads)
            with os.fdopen(writes, "wb") as pipe:
                self.expect_both(words, (1, b"", WRITE_ERROR), (-13, b"", b""), stdout=pipe)

    @needs_strace
    def test_a_loss_that_a_close_tells(self):
        """A loss that only a close tells isn't seen here; GNU's tools see it."""
        for command, status in (([harness.PROGRAM, "md5sum", "a"], 0), ([gnu("md5sum"), "a"], 1)):
            options = ["-P", self.path("out"), "-e", "trace=close", "-e", "inject=close:error=EIO"]
            traced = [strace(), "-qq", "-o", os.devnull, *options, *command]
            ran = self.run_command(traced, stdout=self.opened("out", "wb"))
            left = ran.status, self.read("out"), bool(ran.err)
            self.assertEqual(left, (status, as_bytes([f"{MD5_OF_ABC}  a"]), status == 1))
