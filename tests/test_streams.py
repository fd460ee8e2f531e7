"""Standard streams and devices: pipes, terminals, full outputs, readers that go away, limits on
files, and very many operands."""

import errno
import os
import pty
import signal
import subprocess

import harness
from harness import MD5_OF_NOTHING, MD5_OF_ABC, TOOLS, VERDICTS, VERDICTS_ERR, VERDICTS_OUT
from harness import WRITE_ERROR, X_MISSING, Case, Ran, as_bytes, limit
from texts import cannot_read, invalid_length, ok, unknown_option, unread, unreadable, write_error


class StandardInput(Case):
    """Input that comes in pieces, late, or not at all."""

    def test_pieces_and_positions(self):
        started = self.start("sha256sum", stdin=subprocess.PIPE, stdout=subprocess.PIPE)
        for piece in (b"a", b"b", b"c"):
            started.stdin.write(piece)
        out, _ = started.communicate(timeout=harness.RUN_SECONDS)
        self.assertEqual(out, f"{harness.SHA256_OF_ABC}  -\n".encode())
        self.write("f", "xxabc")
        for name, position in (("a", 0), ("f", 2)):
            with self.subTest(name=name):
                file = self.opened(name)
                os.lseek(file.fileno(), position, os.SEEK_SET)
                self.expect("md5sum", stdin=file, out=[f"{MD5_OF_ABC}  -"])

    def test_a_terminal(self):
        """The end that is typed at a terminal is the end: nothing is read after it."""
        shows, writes = pty.openpty()
        self.addCleanup(os.close, shows)
        started = self.start("md5sum - -", stdin=writes, stdout=subprocess.PIPE)
        os.close(writes)
        os.write(shows, b"abc\x04\x04")
        out, _ = started.communicate(timeout=harness.RUN_SECONDS)
        self.assertEqual(out, as_bytes([f"{MD5_OF_ABC}  -", f"{MD5_OF_NOTHING}  -"]))


class BrokenInput(Case):
    def test_a_fault_after_bytes(self):
        fault = cannot_read("-", errno.EIO)
        for content in ("", "abc", "y" * 300, "y" * 9000):
            self.expect(
                "md5sum - a",
                stdin=self.broken_input(content),
                out=[f"{MD5_OF_ABC}  a"],
                err=[fault],
                status=1,
            )
        self.write("l", [f"{MD5_OF_ABC}  -", f"{MD5_OF_ABC}  a"])
        self.expect(
            "md5sum -c l",
            stdin=self.broken_input("abc"),
            out=[unreadable("-"), ok("a")],
            status=1,
            err=[fault, unread(1)],
        )


class Outputs(Case):
    def test_standard_output_full(self):
        full = self.full()
        for words in (
            "md5sum a",
            "md5sum --help",
            "md5sum --version",
            "md5sum -z a e",
            *(f"{tool} a" for tool in TOOLS),
        ):
            with self.subTest(words=words):
                self.expect(words, err=[write_error(words.split()[0])], status=1, stdout=full)
        self.expect("md5sum x", err=[X_MISSING], status=1, stdout=full)

    def test_standard_error_full(self):
        full = self.full()
        self.expect("md5sum a x e", out=[f"{MD5_OF_ABC}  a"], status=1, stderr=full)
        for words in ("md5sum --foo", "shasum", ["md5sum", b"-\xff"]):
            with self.subTest(words=words):
                self.expect(words, status=1, stderr=full)
        self.expect("md5sum a", out=[f"{MD5_OF_ABC}  a"], stderr=full)
        self.expect("md5sum a x", status=1, stdout=full, stderr=full)

    def test_a_reader_that_goes_away(self):
        """A closed pipe is a write error, whether or not the caller ignores the signal for it."""
        words, pipes = ["md5sum", *["a"] * 20000], {
            "stdout": subprocess.PIPE,
            "stderr": subprocess.PIPE,
        }
        for ignored in (False, True):
            started = self.start(words, restore_signals=not ignored, **pipes)
            self.assertEqual(started.stdout.read(10), MD5_OF_ABC[:10].encode())
            started.stdout.close()
            self.assertEqual(started.stderr.read(), WRITE_ERROR)
            self.assertEqual(started.wait(timeout=harness.RUN_SECONDS), 1)


class EachByteTheLast(Case):
    """An output that takes this many bytes and no more: a file of limited size."""

    def run_limited(self, words, size, limited, stdin=b""):
        """Runs with one output (`stdout` or `stderr`) in a file that takes `size` bytes; its signal
        is ignored."""
        with open(self.path("limited"), "wb") as file:
            how = {limited: file, "preexec_fn": limit("FSIZE", size), "restore_signals": False}
            return self.run_words(words, stdin, **how), self.read("limited")

    def test_generating(self):
        ran, out = self.run_limited("sha256sum", 10, "stdout")
        wanted = Ran(1, b"", as_bytes([write_error("sha256sum")]))
        self.assertEqual((ran, out), (wanted, b"e3b0c44298"))
        whole = as_bytes([f"{MD5_OF_ABC}  a", f"{MD5_OF_NOTHING}  e"])
        for size in range(len(whole) + 1):
            with self.subTest(size=size):
                wanted = Ran(1, b"", WRITE_ERROR) if size < len(whole) else Ran(0, b"", b"")
                self.assertEqual(
                    self.run_limited("md5sum a e", size, "stdout"), (wanted, whole[:size])
                )

    def test_a_signal_that_is_not_ignored(self):
        """The signal ends the program, without a message."""
        ran = self.run_words(
            "md5sum a e", stdout=self.opened("limited", "wb"), preexec_fn=limit("FSIZE", 10)
        )
        self.assertEqual(
            (ran, self.read("limited")), (Ran(-signal.SIGXFSZ, b"", b""), b"900150983c")
        )

    def test_checking(self):
        self.write("l", VERDICTS)
        first = as_bytes([ok("a")])
        for size in range(len(VERDICTS_OUT) + 1):
            with self.subTest(size=size):
                err = as_bytes([X_MISSING][: size // len(first)]) + WRITE_ERROR
                wanted = Ran(1, b"", err if size < len(VERDICTS_OUT) else VERDICTS_ERR)
                self.assertEqual(
                    self.run_limited("md5sum -c l", size, "stdout"), (wanted, VERDICTS_OUT[:size])
                )
        for size in range(len(VERDICTS_ERR) + 1):
            with self.subTest(size=size):
                wanted = Ran(1, VERDICTS_OUT if size > len(X_MISSING) else first, b"")
                self.assertEqual(
                    self.run_limited("md5sum -c l", size, "stderr"), (wanted, VERDICTS_ERR[:size])
                )


class Many(Case):
    def test_as_many_words_as_the_system_passes_on(self):
        """Linux passes on a quarter of the stack's limit, a word's bytes, its end and a pointer
        each."""
        count = (os.sysconf("SC_ARG_MAX") - (1 << 16)) // 10
        count = (
            min(count, 200000)
            - sum(len(name) + len(value) + 10 for name, value in os.environ.items()) // 10
        )
        self.expect(["md5sum", *["a"] * count], out=[f"{MD5_OF_ABC}  a"] * count)
        self.expect(["md5sum", *["-b"] * 50000, "a"], out=[f"{MD5_OF_ABC} *a"])

    def test_the_longest_word(self):
        """The system passes on no word that is longer than 131,071 bytes; that one is read,
        whatever it is."""
        name = "y" * 131071
        self.expect(
            ["md5sum", name, "a"],
            out=[f"{MD5_OF_ABC}  a"],
            err=[cannot_read(name, errno.ENAMETOOLONG)],
            status=1,
        )
        self.expect_fault(["md5sum", f"--{name[2:]}"], unknown_option(f"--{name[2:]}"))
        self.expect_fault(["b2sum", "-l", name], invalid_length(name))
        self.expect(
            ["b2sum", "-l", "0" * 131068 + "256", "e"], out=[f"{harness.BLAKE2B_256_OF_NOTHING}  e"]
        )

    def test_open_files_are_closed_again(self):
        """With few descriptors allowed, many files, lists and listed files are read one after the
        other."""
        self.write("l", [f"{MD5_OF_ABC}  a"] * 100)
        for words, out in (
            (["a"] * 100, [f"{MD5_OF_ABC}  a"] * 100),
            (["-c", "--quiet", "--strict", *["l"] * 50], b""),
        ):
            with self.subTest(words=words):
                ran = self.run_command(
                    ["sh", "-c", 'ulimit -n 16; exec "$0" md5sum "$@"', harness.PROGRAM, *words]
                )
                self.assertEqual(ran, Ran(0, as_bytes(out), b""))
