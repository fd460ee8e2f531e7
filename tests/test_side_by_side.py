"""Parallel runs into one file or one pipe, as when a tree is hashed with all processors: no line is
torn."""

import errno
import hashlib
import os
import shutil
import subprocess
import tempfile

import harness
from harness import Case, as_bytes
from texts import cannot_read, not_found, ok

FILES = 12000


def name_of(number):
    """Returns the name of a file. The names are of many lengths, so that the lines end at every
    place of any buffer."""
    return (
        "./" * (number % 7)
        + "d/../" * (number % 3)
        + f"file-number-{number:05}"
        + "-" * (number % 41)
    )


class SideBySide(Case):
    """Eight runs at a time over 12,000 files."""

    @classmethod
    def setUpClass(cls):
        cls.tree = tempfile.mkdtemp(prefix="digests-tree-")
        cls.addClassCleanup(shutil.rmtree, cls.tree, ignore_errors=True)
        os.mkdir(os.path.join(cls.tree, "d"))
        contents = {name_of(number): str(number).encode() for number in range(FILES)}
        for name, content in contents.items():
            with open(os.path.join(cls.tree, name), "wb") as file:
                file.write(content)
        cls.names = "\0".join(contents).encode()
        cls.lines = sorted(
            f"{hashlib.sha256(content).hexdigest()}  {name}".encode()
            for name, content in contents.items()
        )

    def setUp(self):
        super().setUp()
        self.write("names", self.names)

    def run_script(self, script, left, **how):
        """Runs a script in the tree, which calls the program `$0` for the files named in `$1`, and
        leaves `$2`."""
        words = [harness.PROGRAM, self.path("names"), self.path(left)]
        return self.run_command(["sh", "-c", script, *words], cwd=self.tree, **how)

    def expect_lines(self, got, wanted):
        """Expects these lines in any order: none is torn, missing or duplicated."""
        self.same(sorted(got.splitlines()), sorted(wanted))

    def expect_whole_lines(self, script):
        """Runs a script several times, which leaves the lines of the files: each of them once."""
        for _ in range(5):
            ran = self.run_script(script, "sums")
            self.assertEqual((ran.status, ran.err), (0, b""))
            self.expect_lines(self.read("sums"), self.lines)
            self.expect("sha256sum -c --quiet --strict", stdin=self.opened("sums"), cwd=self.tree)

    def test_into_a_file_and_a_pipe(self):
        """`xargs -P 8 digests sha256sum < names > SUMS` gives every line whole, and so does a pipe
        in its place."""
        for end in ('>"$2"', '| cat >"$2"'):
            self.expect_whole_lines(f'xargs -0 -P 8 -n 1500 "$0" sha256sum <"$1" {end}')

    def test_diagnostics_into_one_file(self):
        """What eight runs say of missing files is there in whole lines, too."""
        missing = as_bytes([name_of(number) + "-missing" for number in range(FILES)])
        self.write("names", missing.replace(b"\n", b"\0"))
        script = 'xargs -0 -P 8 -n 1500 "$0" sha256sum <"$1" 2>"$2"'
        self.run_script(script, "said", stderr=subprocess.DEVNULL)
        wanted = [not_found(name, "sha256sum") for name in missing.splitlines()]
        self.expect_lines(self.read("said"), wanted)

    def expect_together(self, runs, output, size, status, wanted, **how):
        """Runs all of these words at once, with this output into one pipe, which is read this many
        bytes at a time."""
        reads, writes = os.pipe()
        self.addCleanup(os.close, reads)
        started = [self.start(words, **{output: writes}, **how) for words in runs]
        os.close(writes)
        got = b"".join(iter(lambda: os.read(reads, size), b""))
        self.assertEqual(
            [run.wait(timeout=harness.RUN_SECONDS) for run in started], [status] * len(runs)
        )
        self.expect_lines(got, wanted)

    def test_reports_into_one_pipe(self):
        """Eight checks at a time write whole reports into one pipe, from which a slow reader takes
        a page at a time."""
        self.write("l", self.lines)
        wanted = 8 * [ok(line.partition(b"  ")[2]) for line in self.lines]
        runs = [["sha256sum", "-c", self.path("l")]] * 8
        self.expect_together(runs, "stdout", 4096, 0, wanted, folder=self.tree)

    def test_longest_lines_into_one_pipe(self):
        """Linux keeps a write into a pipe together up to 4,096 bytes. Each run has 40 names of
        missing files, of which it says lines of just that size."""
        size = 4096 - len(not_found("")) - 1
        names = [(b"./" * 2000 + b"missing%d" % run).ljust(size, b"x") for run in range(8)]
        wanted = 40 * [not_found(name) for name in names]
        self.expect_together(
            [["md5sum", *[name] * 40] for name in names], "stderr", 1000, 1, wanted
        )

    def test_longest_lines_into_one_file(self):
        """A line of 8,192 bytes is one write, which a file that is appended to takes as a whole. A
        name of that length can't be opened, so the line says that."""
        size = 8192 - len(cannot_read("", errno.ENAMETOOLONG)) - 1
        names = [(b"%d" % run).ljust(size, b"x") for run in range(8)]
        errors = self.opened("errors", "ab")
        started = [self.start(["md5sum", *[name] * 10], stderr=errors) for name in names]
        self.assertEqual([run.wait(timeout=harness.RUN_SECONDS) for run in started], [1] * 8)
        wanted = 10 * [cannot_read(name, errno.ENAMETOOLONG) for name in names]
        self.expect_lines(self.read("errors"), wanted)
