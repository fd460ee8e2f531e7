"""Closed standard streams. A closed standard input is a fault, whichever file gets its descriptor
from the system. A closed output is a write error if there is something to write."""

import errno
import hashlib
import os

import harness
from harness import MD5_OF_NOTHING, MD5_OF_ABC, TOOLS, VERDICTS, WRITE_ERROR, X_MISSING, Case, Ran
from harness import as_bytes, as_words
from texts import UNKNOWN_TOOL, cannot_read, ok, unread, unreadable
from tracing import Traced, needs_strace

FAULT = cannot_read("-", errno.EBADF)


def hostile_manifests():
    """Yields manifests whose entry `-` has the digest of what a reader of the manifest itself would
    still find in it: nothing if the manifest fits into the reading buffer of 8,192 bytes, otherwise
    what follows that."""
    yield as_bytes([f"{MD5_OF_NOTHING}  -"])
    yield as_bytes(["#" * 5000, f"{MD5_OF_NOTHING}  -"])
    for behind in (b"#" + b"t" * 99 + b"\n", b"#\n" * 5000):
        listed = as_bytes([f"{hashlib.md5(behind).hexdigest()}  -"])
        yield listed + b"#" * (8191 - len(listed)) + b"\n" + behind


class Closing(Case):
    def expect_closed(self, *rows):
        """Expects of words, with these streams closed (0 is standard input, 1 standard output, 2
        standard error), a status and what they write to both outputs."""
        for words, streams, status, out, err in rows:
            shut = "".join(f" {number}>&-" if number else " 0<&-" for number in streams)
            ran = self.run_command(
                ["sh", "-c", f'exec "$0" "$@"{shut}', harness.PROGRAM, *as_words(words)]
            )
            self.assertEqual(ran, Ran(status, as_bytes(out), as_bytes(err)), words)


class ClosedInput(Closing):
    def test_alone(self):
        """`md5sum <&-` says that it can't read standard input, under every tool."""
        for tool in TOOLS:
            with self.subTest(tool=tool):
                fault = [cannot_read("-", errno.EBADF, tool)]
                self.expect_closed(*((words, [0], 1, b"", fault) for words in (tool, [tool, "-"])))

    def test_among_others(self):
        """The other operands are read all the same; a second `-` is an empty input, as after any
        other one."""
        self.expect_closed(
            ("md5sum a - e", [0], 1, [f"{MD5_OF_ABC}  a", f"{MD5_OF_NOTHING}  e"], [FAULT]),
            ("md5sum - a -", [0], 1, [f"{MD5_OF_ABC}  a", f"{MD5_OF_NOTHING}  -"], [FAULT]),
            ("md5sum a e", [0], 0, [f"{MD5_OF_ABC}  a", f"{MD5_OF_NOTHING}  e"], b""),
        )

    def test_words_need_no_input(self):
        for words in ("md5sum --help", "md5sum --version", "md5sum --foo", "shasum", []):
            with self.subTest(words=words):
                self.expect_closed((words, [0], *self.run_words(words)))

    def test_as_the_manifest(self):
        """`md5sum -c <&-` can't read its manifest."""
        fault = [cannot_read("standard input", errno.EBADF)]
        self.write("l", [f"{MD5_OF_ABC}  a"])
        self.expect_closed(
            ("md5sum -c", [0], 1, b"", fault),
            ("md5sum -c l - l", [0], 1, [ok("a"), ok("a")], fault),
        )

    def test_listed(self):
        """The entry `-` can't be read; the manifest's own bytes never take its place, whatever
        digest is listed."""
        for manifest in hostile_manifests():
            self.write("l", manifest)
            self.expect_closed(("md5sum -c l", [0], 1, [unreadable("-")], [FAULT, unread(1)]))


@needs_strace
class NothingInItsPlace(Traced):
    def test_nothing_is_opened(self):
        """The first file that is opened is the manifest, and it is opened once."""
        self.write("l", [f"{MD5_OF_ABC}  a", f"{MD5_OF_NOTHING}  -"])
        ran, calls = self.traced(
            "-e trace=openat,open", "md5sum -c l", preexec_fn=lambda: os.close(0)
        )
        self.assertEqual(
            ran, Ran(1, as_bytes([ok("a"), unreadable("-")]), as_bytes([FAULT, unread(1)]))
        )
        opened = [call.split('"')[1] for call in calls]
        own = [name for name in opened if not name.startswith(("/etc/", "/lib", "/usr/"))]
        self.assertEqual(own, ["l", "a"])


class ClosedOutputs(Closing):
    def test_standard_output(self):
        for words in ("md5sum a", "md5sum -z a", "md5sum --help", "md5sum --version"):
            with self.subTest(words=words):
                self.expect_closed((words, [1], 1, b"", WRITE_ERROR))
        self.expect_closed(
            ("md5sum x", [1], 1, b"", [X_MISSING]),
            ("shasum", [1], 1, b"", [UNKNOWN_TOOL]),
            ("md5sum --foo", [1], *self.run_words("md5sum --foo")),
        )

    def test_standard_error_and_several(self):
        """A diagnostic that can't be written makes the status 1, and nothing else needs standard
        error."""
        self.expect_closed(
            ("md5sum a", [2], 0, [f"{MD5_OF_ABC}  a"], b""),
            ("md5sum x", [2], 1, b"", b""),
            ("md5sum a x e", [2], 1, [f"{MD5_OF_ABC}  a"], b""),
            ("md5sum a", [0, 1], 1, b"", WRITE_ERROR),
            ("md5sum", [0, 1], 1, b"", [FAULT]),
            ("md5sum a", [0, 2], 0, [f"{MD5_OF_ABC}  a"], b""),
            ("md5sum", [0, 2], 1, b"", b""),
            ("md5sum a", [0, 1, 2], 1, b"", b""),
            ("md5sum", [0, 1, 2], 1, b"", b""),
        )

    def test_checking(self):
        """A manifest is good if no report was to be written; otherwise there is a write error. What
        was listed isn't written to, and standard input is no file."""
        self.write("good", [f"{MD5_OF_ABC}  a"])
        self.write("l", VERDICTS)
        self.write("input", [f"{MD5_OF_NOTHING}  -"])
        self.expect_closed(
            ("md5sum -c --status good", [1], 0, b"", b""),
            ("md5sum -c --quiet good", [1], 0, b"", b""),
            ("md5sum -c good", [1], 1, b"", WRITE_ERROR),
            ("md5sum -c --status l", [1], 1, b"", [X_MISSING]),
            ("md5sum -c --status good", [0, 1], 0, b"", b""),
            ("md5sum -c --status good", [0, 1, 2], 0, b"", b""),
            ("md5sum -c --status input", [0, 1], 1, b"", [FAULT]),
            ("md5sum -c good", [0, 1, 2], 1, b"", b""),
            ("md5sum -c --status input", [0, 1, 2], 1, b"", b""),
        )
        self.assertEqual(self.read("a"), b"abc")
