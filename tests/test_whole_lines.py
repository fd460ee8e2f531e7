"""Each line is handed to the system whole. Through a pipe that keeps every write apart, each packet
is one line. If the system takes only a part of a write, or nothing, no byte is lost."""

import errno
import fcntl
import os
import select
import signal
import subprocess

import harness
from harness import MD5_OF_ABC, NAMES, SHA256_OF_ABC, TOOLS, VERDICTS, VERDICTS_ERR, VERDICTS_OUT
from harness import WRITE_ERROR, X_MISSING, Case, Ran, as_bytes, as_words
from reference import line
from reference_words import help_text, meaning
from texts import UNKNOWN_TOOL, cannot_read, fault_lines, improper, ok, unknown_option, unread
from texts import unreadable, version

SPECIAL = "q\\\nz\r"
SET_PIPE_SIZE = 1031  # Python names it from 3.10 on


def lines_of(text, end=b"\n"):
    """Returns the lines of a text, each with its end."""
    return [line + end for line in as_bytes(text).split(end)[:-1]]


def state_of(pid):
    """Returns the state of a process as the system has it: `S` if it waits, `Z` if it has ended."""
    with open(f"/proc/{pid}/stat", "rb") as file:
        return file.read().rpartition(b")")[2].split()[0].decode()


class Packets(Case):
    """A run whose outputs are pipes in which each write of up to 4,096 bytes is a packet, which one
    read takes."""

    def packets(self, words, **how):
        """Runs `digests` with these words: its status, and the packets of both outputs that aren't
        given."""
        ends, got = {}, {"stdout": [], "stderr": []}
        for name in got:
            if name not in how:
                reads, how[name] = os.pipe2(os.O_DIRECT)
                self.addCleanup(os.close, reads)
                ends[reads] = name
        how.setdefault("stdin", subprocess.DEVNULL)
        started = self.start(words, **how)
        for name in ends.values():
            os.close(how[name])
        while ends:
            ready, _, _ = select.select(list(ends), [], [], harness.RUN_SECONDS)
            self.assertTrue(ready, "the run takes too long")
            for reads in ready:
                if packet := os.read(reads, 1 << 16):
                    got[ends[reads]].append(packet)
                else:
                    del ends[reads]
        return started.wait(timeout=harness.RUN_SECONDS), got["stdout"], got["stderr"]

    def expect_packets(self, words, out=(), err=(), status=0, **how):
        """Runs `digests`, and expects that each packet is one of these lines or texts."""
        out, err = ([as_bytes(line) for line in lines] for lines in (out, err))
        self.assertEqual(self.packets(words, **how), (status, out, err), as_words(words)[:9])


class OneWriteALine(Packets):
    def test_every_style(self):
        """Every line comes whole in each style, with a newline at its end or, under -z, with a
        NUL."""
        self.expect_packets("sha256sum", out=[f"{SHA256_OF_ABC}  -\n"], stdin=self.opened("a"))
        self.write(SPECIAL, "abc")
        for tool, (tag, of_nothing, of_abc) in TOOLS.items():
            digests = {
                name: bytes.fromhex(digits)
                for name, digits in (("a", of_abc), ("e", of_nothing), (SPECIAL, of_abc))
            }
            for style, mode in (
                ("-t", "text"),
                ("-b", "binary"),
                ("--tag", "tag"),
                ("-z", "text"),
                ("-zb", "binary"),
                ("-z --tag", "tag"),
            ):
                with self.subTest(style=style):
                    lines = [
                        line(mode, "z" in style, tag, name.encode(), digest)
                        for name, digest in digests.items()
                    ]
                    self.expect_packets([tool, *style.split(), *digests], out=lines)

    def test_help_and_faults_of_the_words(self):
        for tool in NAMES:
            with self.subTest(tool=tool):
                self.expect_packets([tool, "--help"], out=[help_text(tool)])
                self.expect_packets([tool, "--version"], out=[[version(tool)]])
        for words in (["--foo"], ["-\n"], ["--s"], ["--tag=\\"], ["-z", "-c"], [b"-\xff"]):
            with self.subTest(words=words):
                fault = meaning("md5sum", map(os.fsdecode, words), b"")
                self.expect_packets(["md5sum", *words], err=[fault.err], status=1)

    def test_the_programs_own_lines(self):
        """An unknown tool and a write error are one write each."""
        self.expect_packets("shasum", err=[[UNKNOWN_TOOL]], status=1)
        self.expect_packets([], err=[[UNKNOWN_TOOL]], status=1)
        self.expect_packets("md5sum a", err=[WRITE_ERROR], status=1, stdout=self.full())

    def test_a_fault_with_a_long_word(self):
        """The two lines of a fault are one write if both together fit into the buffer."""
        for length in (8192, 8195):
            word = "--" + "x" * (length - len(as_bytes(fault_lines(unknown_option("--")))))
            text = as_bytes(fault_lines(unknown_option(word)))
            packets = [text[start : start + 4096] for start in range(0, length, 4096)]
            self.expect_packets(["md5sum", word], err=packets, status=1)


class OneWriteAReport(Packets):
    def test_all_verdicts(self):
        """Every report comes whole, and all warnings together, under each setting."""
        self.write("l", VERDICTS)
        named = [f"md5sum: l: {improper(3)}"]
        missing, *each = lines_of(VERDICTS_ERR)
        warnings = b"".join(each)
        out = lines_of(VERDICTS_OUT)
        self.expect_packets("md5sum -c l", out=out, err=[missing, warnings], status=1)
        self.expect_packets("md5sum -cw l", out=out, err=[named, missing, warnings], status=1)
        self.expect_packets("md5sum -c --quiet l", out=out[1:], err=[missing, warnings], status=1)
        self.expect_packets("md5sum -c --status l", err=[missing], status=1)
        err = [each[0] + each[2]]
        self.expect_packets("md5sum -c --ignore-missing l", out=[out[0], out[2]], err=err, status=1)
        self.expect_packets(
            "md5sum -c", out=out, err=[missing, warnings], status=1, stdin=self.opened("l")
        )

    def test_a_report_of_20000_bytes(self):
        """A report that is longer than any buffer takes several writes, and the next one begins
        with a new one."""
        name = "y" * 20000
        self.write("l", [f"{MD5_OF_ABC}  a", f"{MD5_OF_ABC}  {name}", f"{MD5_OF_ABC}  a"])
        status, out, err = self.packets("md5sum -c l")
        self.assertEqual((status, out[0], out[-1]), (1, *[as_bytes([ok("a")])] * 2))
        self.same(b"".join(out[1:-1]), [unreadable(name)])
        self.assertLessEqual(len(out[1:-1]), 6)
        self.assertEqual(err[-1], as_bytes([unread(1)]))
        self.same(b"".join(err[:-1]), [cannot_read(name, errno.ENAMETOOLONG)])


class ShortWrites(Case):
    """A pipe that holds one page: the system takes a part of a write, or nothing of it."""

    def small_pipe(self):
        """Returns a pipe that holds a page, and how many bytes that are."""
        reads, writes = os.pipe()
        self.addCleanup(os.close, reads)
        return reads, writes, fcntl.fcntl(writes, SET_PIPE_SIZE, 1)

    def taken_in_parts(self, words, output):
        """Runs `digests` with this output into a small pipe. Whenever it waits inside a write, it
        is stopped and continued: the system then returns what it took so far. Returns the status,
        and everything that came through."""
        reads, writes, size = self.small_pipe()
        started = self.start(
            words, **{"stdout": subprocess.DEVNULL, "stderr": subprocess.DEVNULL, output: writes}
        )
        os.close(writes)
        got = []
        while not got or got[-1]:
            self.until(lambda: state_of(started.pid) in "SZ", "the program waits, or has ended")
            if state_of(started.pid) == "S":
                started.send_signal(signal.SIGSTOP)
                os.waitid(os.P_PID, started.pid, os.WSTOPPED | os.WEXITED | os.WNOWAIT)
                started.send_signal(signal.SIGCONT)
            got.append(os.read(reads, size))
        return started.wait(timeout=harness.RUN_SECONDS), b"".join(got)

    def test_parts_of_lines(self):
        """Lines of 30,000 bytes, and a thousand lines, come through a pipe that holds a page,
        though each write is cut short."""
        name = "y" * 30000
        self.write("l", [f"{MD5_OF_ABC}  {name}", f"{MD5_OF_ABC}  a"] * 3)
        for words, output, status, lines in (
            (
                ["md5sum", *[name, "x"] * 3],
                "stderr",
                1,
                [cannot_read(name, errno.ENAMETOOLONG), X_MISSING] * 3,
            ),
            ("md5sum -c l", "stdout", 1, [unreadable(name), ok("a")] * 3),
            (["md5sum", *["a"] * 1000], "stdout", 0, [f"{MD5_OF_ABC}  a"] * 1000),
        ):
            with self.subTest(words=words):
                ended, got = self.taken_in_parts(words, output)
                self.same(got, lines)
                self.assertEqual(ended, status)

    def test_a_pipe_that_does_not_wait(self):
        """If the output has room for one more line and then reports that it has none, that line is
        there whole, nothing of the next one is, and it is a write error."""
        reads, writes, size = self.small_pipe()
        os.set_blocking(writes, False)
        line = as_bytes([f"{MD5_OF_ABC}  a"])
        filler = b"#" * (size - len(line) - 4)
        self.assertEqual(os.write(writes, filler), len(filler))
        ran = self.run_words("md5sum a a a", stdout=writes)
        os.close(writes)
        self.assertEqual(os.read(reads, size), filler + line)
        self.assertEqual(os.read(reads, size), b"")
        self.assertEqual(ran, Ran(1, b"", WRITE_ERROR))
