"""`strace` makes one read of a run fail. The reads after it would succeed, and the program reports
the fault."""

import errno
import hashlib
import os

from harness import MD5_OF_NOTHING, MD5_OF_ABC, Ran, as_bytes
from reference import OTHER, REASONS
from texts import ok, unread, unreadable
from tracing import Traced, needs_strace

PIECE = 8192  # the most bytes of a read
READS = (
    4  # of a file of two pieces and a part: three that give bytes, and the one that finds the end
)


@needs_strace
class FailedRead(Traced):
    """Each read of one file fails in turn, while the other files can be read, and this one the next
    time."""

    def setUp(self):
        super().setUp()
        content = os.urandom(2 * PIECE + 1)
        self.write("f", content)
        self.line = f"{hashlib.md5(content).hexdigest()}  f"

    def expect_each(self, name, words, outs, err, stdin=os.devnull):
        """Runs `digests` with these words once for each read of this file, which fails: with an
        error of the device, or as one that would have to wait. Neither is the end of the file. Each
        of `outs` belongs to one read."""
        for number in (errno.EIO, errno.EAGAIN):
            error, reason = errno.errorcode[number], REASONS.get(number, OTHER)
            for read, out in enumerate(outs, 1):
                how = {"only": self.path(name), "when": str(read), "stdin": self.opened(stdin)}
                ran, _ = self.failing("read", error, words, **how)
                self.assertEqual(ran, Ran(1, as_bytes(out), err % reason), (words, error, read))

    def test_hashing(self):
        """A part of the file gives no digest."""
        fault = b"md5sum: f: %s\n"
        self.expect_each("f", "md5sum f a f", [[f"{MD5_OF_ABC}  a", self.line]] * READS, fault)
        self.expect_each("f", "md5sum", [b""] * READS, b"md5sum: -: %s\n", stdin="f")

    def test_listed_file(self):
        """A listed file of which a read fails isn't OK, though its digest is right."""
        self.write("l", [self.line, f"{MD5_OF_ABC}  a", self.line])
        reports = [unreadable("f"), ok("a"), ok("f")]
        self.expect_each(
            "f", "md5sum -c l", [reports] * READS, b"md5sum: f: %s\n" + as_bytes([unread(1)])
        )

    def test_list(self):
        """What is whole before the fault is checked, and nothing after it."""
        line = as_bytes([f"{MD5_OF_ABC}  a"])
        lines = 2 * PIECE // len(line) + 1
        self.write("l", line * lines)
        outs = [[ok("a")] * min(read * PIECE // len(line), lines) for read in range(READS)]
        self.expect_each("l", "md5sum -c l", outs, b"md5sum: l: %s\n")
        self.expect_each("l", "md5sum -c", outs, b"md5sum: standard input: %s\n", stdin="l")

    def test_each_read_of_a_run(self):
        """A run whose status is 0 has another one if one of its reads fails, whichever that is: of
        an operand, a list, a listed file or standard input. The first reads are the loader's."""
        self.write("l", [self.line, f"#{'#' * PIECE}", f"{MD5_OF_ABC}  a", f"{MD5_OF_NOTHING}  e"])
        self.write("-l", [f"{MD5_OF_ABC}  a", f"{hashlib.md5(self.read('l')).hexdigest()}  -"])
        for words, stdin in (
            ("sha256sum f a - e f", "f"),
            ("md5sum -c l -- -l", "l"),
            ("md5sum -c l - l", "l"),
            ("md5sum -c --status --ignore-missing l - l", "l"),
        ):
            ran, calls = self.traced("-e trace=read", words, stdin=self.opened(stdin))
            self.assertEqual(ran.status, 0, ran)
            for read in range(1, len(calls) + 1):
                with open(self.path(stdin), "rb") as file:
                    ran, _ = self.failing("read", "EIO", words, when=str(read), stdin=file)
                self.assertIn(ran.status, (1, 127), (words, read, ran))
            self.assertGreater(len(calls), 3 * READS)
