"""Each line is there as soon as it is complete. A reader sees it while the program still waits for
the next file. A run that is killed leaves every line that it had completed. In one file, both
outputs are in the order of the run."""

import errno
import mmap
import os
import signal
import subprocess

import harness
from harness import MD5_OF_NOTHING, MD5_OF_ABC, WRITE_ERROR, X_MISSING, Case, as_bytes
from texts import bad, cannot_read, failed, improper, ok, unread, unreadable, wrong


class FirstLines(Case):
    def test_a_line_before_the_next_file_is_there(self):
        """`md5sum a fifo | while read line` shows the first line at once, and so does a terminal.
        The named pipe, which nobody feeds yet, holds the program at the next name, of an operand or
        of a listed file."""
        os.mkfifo(self.path("p"))
        self.write("l", [f"{MD5_OF_ABC}  a", f"{MD5_OF_ABC}  p", f"{MD5_OF_ABC}  a"])
        for words, output, status, first, rest in (
            (
                "md5sum a p e",
                "stdout",
                0,
                [f"{MD5_OF_ABC}  a"],
                [f"{MD5_OF_ABC}  p", f"{MD5_OF_NOTHING}  e"],
            ),
            (
                "md5sum -z a p e",
                "stdout",
                0,
                f"{MD5_OF_ABC}  a\0",
                f"{MD5_OF_ABC}  p\0{MD5_OF_NOTHING}  e\0",
            ),
            ("md5sum -c l", "stdout", 0, [ok("a")], [ok("p"), ok("a")]),
            ("md5sum x p", "stderr", 1, [X_MISSING], b""),
        ):
            for shows, writes in (os.pipe(), self.terminal()):
                started = self.start(words, **{"stdout": subprocess.DEVNULL, output: writes})
                os.close(writes)
                self.shown(shows, first)
                self.assertIsNone(started.poll())
                with self.fed("p") as pipe:
                    pipe.write(b"abc")
                self.assertEqual(started.wait(timeout=harness.RUN_SECONDS), status)
                self.shown(shows, rest)


class Ended(Case):
    def ended_at_the_pipe(self, words, number):
        """Runs `digests` with standard output into the file `out`, and ends it with this signal
        once it waits for the named pipe: what the file then holds."""
        started = self.start(words, stdout=self.opened("out", "wb"))
        with self.fed("p"):
            started.send_signal(number)
            self.assertEqual(started.wait(timeout=harness.RUN_SECONDS), -number)
        return self.read("out")

    def test_after_500_lines(self):
        """A run that is ended after 500 files leaves their 500 lines, or reports."""
        os.mkfifo(self.path("p"))
        self.write("l", [*[f"{MD5_OF_ABC}  a"] * 500, f"{MD5_OF_ABC}  p", f"{MD5_OF_ABC}  a"])
        for number in (signal.SIGTERM, signal.SIGKILL, signal.SIGINT):
            with self.subTest(number=number):
                self.same(
                    self.ended_at_the_pipe(["md5sum", *["a"] * 500, "p", "e"], number),
                    [f"{MD5_OF_ABC}  a"] * 500,
                )
                self.same(self.ended_at_the_pipe("md5sum -c l", number), [ok("a")] * 500)

    def test_at_any_moment(self):
        """A run that is ended while it writes leaves whole lines, and at most one that is cut at
        the end of a page."""
        line = as_bytes([f"{MD5_OF_ABC}  a"])
        for number in (signal.SIGTERM, signal.SIGKILL):
            started = self.start(["md5sum", *["a"] * 50000], stdout=self.opened("out", "wb"))
            self.until(
                lambda: os.path.getsize(self.path("out")) >= 100 * len(line),
                "100 lines are in the file",
            )
            started.send_signal(number)
            started.wait(timeout=harness.RUN_SECONDS)
            out = self.read("out")
            # The system can end a write with the process between two pages.
            if len(out) % mmap.PAGESIZE == 0:
                out = out[: len(out) - len(out) % len(line)]
            self.same(out, line * (len(out) // len(line)))


class OneFile(Case):
    """Both outputs in one file or pipe: the lines have the order in which they came."""

    def expect_together(self, words, lines, status):
        """Expects these lines from both outputs together, in a file and through a pipe."""
        in_file = self.run_words(words, stdout=self.opened("both", "wb"), stderr=subprocess.STDOUT)
        through_pipe = self.run_words(words, stderr=subprocess.STDOUT)
        for ran, got in ((in_file, self.read("both")), (through_pipe, through_pipe.out)):
            self.same(got, lines)
            self.assertEqual(ran.status, status)

    def test_good_and_bad_operands(self):
        """`md5sum a x e d x a 2>&1` reports each file in its place."""
        os.mkdir(self.path("d"))
        lines = [
            f"{MD5_OF_ABC}  a",
            X_MISSING,
            f"{MD5_OF_NOTHING}  e",
            cannot_read("d", errno.EISDIR),
            X_MISSING,
            f"{MD5_OF_ABC}  a",
        ]
        self.expect_together("md5sum a x e d x a", lines, 1)
        self.expect_together(
            ["md5sum", *["a", "x"] * 1000], [f"{MD5_OF_ABC}  a", X_MISSING] * 1000, 1
        )

    def test_checking(self):
        """What a line gives is in its place: for a file that can't be read the diagnostic, then the
        report."""
        os.mkdir(self.path("d"))
        self.write(
            "l",
            [
                f"{MD5_OF_ABC}  a",
                f"{MD5_OF_ABC}  x",
                "junk",
                f"{MD5_OF_ABC}  e",
                f"{MD5_OF_ABC}  d",
                f"{MD5_OF_NOTHING}  e",
            ],
        )
        lines = [
            ok("a"),
            X_MISSING,
            unreadable("x"),
            f"md5sum: l: {improper(3)}",
            failed("e"),
            cannot_read("d", errno.EISDIR),
            unreadable("d"),
            ok("e"),
            bad(1),
            unread(2),
            wrong(1),
        ]
        self.expect_together("md5sum -cw l x l", [*lines, X_MISSING, *lines], 1)


class AfterAFailedWrite(Case):
    """A list is read no further than what was read ahead."""

    def test_a_list_without_end(self):
        ran = self.run_command(
            ["sh", "-c", f"yes '{MD5_OF_ABC}  a' | '{harness.PROGRAM}' md5sum -c -"],
            stdout=self.full(),
        )
        self.assertEqual((ran.status, ran.err), (1, WRITE_ERROR))

    def test_what_the_next_program_finds(self):
        self.write("list", f"{MD5_OF_ABC}  a\n" * 10000)
        manifest = self.opened("list")
        self.expect("md5sum -c -", err=WRITE_ERROR, status=1, stdin=manifest, stdout=self.full())
        self.assertLessEqual(
            os.lseek(manifest.fileno(), 0, os.SEEK_CUR), len(f"{MD5_OF_ABC}  a\n") + 8192
        )
