"""System calls that are interrupted again and again, and the number of writes that a run makes. All
of it by `strace`, which makes a call fail."""

import errno
import os

from harness import MD5_OF_NOTHING, MD5_OF_ABC, SHA256_OF_ABC, WRITE_ERROR, X_MISSING, Ran, as_bytes
from texts import cannot_read, ok, unread, unreadable
from tracing import Traced, needs_strace, sizes

FEW = "1..999"  # a thousand interruptions in a row are a fault
ENDLESS = 240  # seconds in which a run that is always interrupted has to end


@needs_strace
class Interrupted(Traced):
    """Each call is tried again, but not for ever."""

    def test_every_write(self):
        """A run of which every write is interrupted ends with status 1, and writes nothing."""
        self.write("l", [f"{MD5_OF_ABC}  a"])
        for words in (
            "md5sum a e",
            "md5sum x",
            "md5sum --help",
            "md5sum --version",
            "md5sum --foo",
            "shasum",
            "md5sum -c l",
        ):
            with self.subTest(words=words):
                ran, calls = self.failing("write,writev", "EINTR", words, timeout=ENDLESS)
                self.assertEqual(ran, Ran(1, b"", b""))
                self.assertLessEqual(len(calls), 2000)

    def test_every_write_to_standard_output(self):
        """A standard output that is always interrupted is a write error, which standard error still
        reports."""
        out = self.path("out")
        self.write("l", [f"{MD5_OF_ABC}  a"])
        for words in (
            "md5sum a e",
            "md5sum -z a",
            "md5sum --help",
            "md5sum --version",
            "md5sum -c l",
        ):
            with self.subTest(words=words):
                ran, calls = self.failing("write,writev", "EINTR", words, only=out, timeout=ENDLESS)
                self.assertEqual(ran, Ran(1, b"", WRITE_ERROR))
                self.assertEqual(len(calls), 1000)

    def test_every_write_to_standard_error(self):
        """The run stops with status 1, and the lines before stand."""
        ran, _ = self.failing(
            "write,writev", "EINTR", "md5sum a x e", only=self.path("err"), timeout=ENDLESS
        )
        self.assertEqual(ran, Ran(1, as_bytes([f"{MD5_OF_ABC}  a"]), b""))

    def test_some_writes(self):
        """Fewer interruptions than a thousand in a row change nothing."""
        lines = as_bytes([f"{MD5_OF_ABC}  a", f"{MD5_OF_NOTHING}  e"])
        for words, status, err in (
            ("md5sum a e", 0, b""),
            ("md5sum x a e", 1, as_bytes([X_MISSING])),
        ):
            with self.subTest(words=words):
                ran, _ = self.failing("write", "EINTR", words, when=FEW, timeout=ENDLESS)
                self.assertEqual(ran, Ran(status, lines, err))
        for when in ("1+2", "2+2", "1+3"):
            with self.subTest(when=when):
                ran, _ = self.failing("write", "EINTR", ["md5sum", *["a", "x"] * 50], when=when)
                self.assertEqual(
                    ran, Ran(1, as_bytes([f"{MD5_OF_ABC}  a"] * 50), as_bytes([X_MISSING] * 50))
                )

    def test_every_read(self):
        """A file or a standard input that can never be read is a fault, and the run goes on with
        the next one."""
        a, e = (os.fsdecode(self.path(name)) for name in "ae")
        ran, calls = self.failing("read", "EINTR", ["md5sum", a, e], only=a, timeout=ENDLESS)
        fault = as_bytes([cannot_read(a, errno.EIO)])
        self.assertEqual(ran, Ran(1, as_bytes([f"{MD5_OF_NOTHING}  {e}"]), fault))
        self.assertLessEqual(len(calls), 1000)
        ran, _ = self.failing(
            "read", "EINTR", "md5sum", only=a, stdin=self.opened("a"), timeout=ENDLESS
        )
        self.assertEqual(ran, Ran(1, b"", as_bytes([cannot_read("-", errno.EIO)])))

    def test_some_reads_and_opens(self):
        """Fewer interruptions than a thousand in a row change nothing. The library tries an opening
        2^64 - 1 times, so no limit is looked for."""
        a = os.fsdecode(self.path("a"))
        ran, _ = self.failing("read", "EINTR", ["sha256sum", a], only=a, when=FEW, timeout=ENDLESS)
        self.assertEqual(ran, Ran(0, as_bytes([f"{SHA256_OF_ABC}  {a}"]), b""))
        ran, calls = self.failing(
            "openat", "EINTR", ["md5sum", a], only=a, when=FEW, timeout=ENDLESS
        )
        self.assertEqual(ran, Ran(0, as_bytes([f"{MD5_OF_ABC}  {a}"]), b""))
        self.assertEqual(len(calls), 1000)


@needs_strace
class Calls(Traced):
    def test_one_write_a_line_on_a_terminal(self):
        """On a terminal, too, a line and its newline aren't written one after the other."""
        shows, writes = self.terminal()
        _, calls = self.traced("-e trace=write,writev", "md5sum a e a", stdout=writes)
        os.close(writes)
        self.assertEqual(sizes(calls, 1), [len(f"{MD5_OF_ABC}  a\n")] * 3)
        self.shown(shows, [f"{MD5_OF_ABC}  a", f"{MD5_OF_NOTHING}  e", f"{MD5_OF_ABC}  a"])

    def test_lines_around_the_buffer(self):
        """A line of up to 8,192 bytes is one write, and what is longer takes as few as can be."""
        rest = len(cannot_read("", errno.ENAMETOOLONG)) + 1
        for length in (300, 2048, 4096, 4097, 8191, 8192, 8193, 16384, 16385, 20000):
            name = "y" * (length - rest)
            ran, calls = self.traced("-e trace=write,writev", ["md5sum", "x", name, "x", "a"])
            whole, behind = divmod(length, 8192)
            short = len(X_MISSING) + 1
            self.assertEqual(
                sizes(calls, 2), [short, *[8192] * whole, *[behind] * (behind > 0), short]
            )
            self.assertEqual(
                ran.err, as_bytes([X_MISSING, cannot_read(name, errno.ENAMETOOLONG), X_MISSING])
            )

    def test_a_million_escapes(self):
        """A line of a manifest with a million escaped characters is written by the buffer, not by
        the character."""
        self.write("l", [f"\\{MD5_OF_ABC}  " + "\\\\" * 1000000, f"{MD5_OF_ABC}  a"])
        ran, calls = self.traced("-e trace=write,writev", "md5sum -c l")
        name = "\\\\" * 1000000
        report = as_bytes([unreadable("\\" + name), ok("a")])
        fault = as_bytes([cannot_read(name, errno.ENAMETOOLONG), unread(1)])
        self.assertEqual(ran.status, 1)
        self.same(ran.out + ran.err, report + fault)
        self.assertLessEqual(len(calls), (len(report) + len(fault)) // 8192 + 4)

    def test_outputs_that_take_nothing(self):
        """`md5sum x 2>/dev/full` tries to report the file and then the write error, and no more.
        `md5sum a a a >/dev/full` tries one line, and reports the write error in one write."""
        for words in ("md5sum x", "md5sum x x x", "md5sum --foo", "shasum"):
            with self.subTest(words=words):
                ran, calls = self.traced("-e trace=write,writev", words, stderr=self.full())
                self.assertEqual(ran.status, 1)
                self.assertLessEqual(len(calls), 2)
        ran, calls = self.traced("-e trace=write,writev", "md5sum a a a", stdout=self.full())
        self.assertEqual((ran, len(calls)), (Ran(1, b"", WRITE_ERROR), 2))
