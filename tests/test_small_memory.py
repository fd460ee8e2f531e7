"""Runs with hardly any memory, at every limit between one at which nothing starts and one at which
there is enough: a run does what it should, or says that memory is short; it never does anything
else."""

import os

import harness
from harness import MD5_OF_NOTHING, MD5_OF_ABC, SHA256_OF_ABC, X_MISSING, Case, Ran, as_bytes
from harness import as_words
from reference_words import help_text
from texts import NOT_READ, UNKNOWN_TOOL, failed, fault_lines, memory_exhausted, ok, unknown_option
from texts import version, wrong

STEP = 4  # KiB, a page: no system hands out less
MARGIN = 160  # KiB past the limit at which `--help` works
UNREAD = Ran(1, b"", as_bytes([NOT_READ]))
STOP = as_bytes([memory_exhausted("md5sum")])


class SmallMemory(Case):
    """A limit on the address space, set by the shell, which then becomes the program. The C library
    is asked to take no more from the system than what is wanted, so that each growth meets the
    limit by itself."""

    def limited(self, kibibytes, words):
        """Runs the program under this limit, with "abc" as standard input."""
        command = [
            "sh",
            "-c",
            f'ulimit -v {kibibytes} || exit 125; exec "$0" "$@"',
            harness.PROGRAM,
            *as_words(words),
        ]
        env = {**os.environ, "GLIBC_TUNABLES": "glibc.malloc.top_pad=0"}
        with open(self.path("a"), "rb") as file:
            return self.run_command(command, stdin=file, env=env)

    def first(self, holds, low=256, high=1 << 20):
        """Returns the first limit at which this holds, given that it holds from there on."""
        if not holds(high):
            self.skipTest("the program doesn't start under a limit on its address space here")
        while high - low > STEP:
            middle = (low + high) // (2 * STEP) * STEP
            low, high = (low, middle) if holds(middle) else (middle, high)
        return high

    def limits(self):
        """Returns the limits to try, from one at which the program doesn't start."""
        starts = self.first(lambda limit: self.has_started(self.limited(limit, "sha256sum --help")))
        works = self.first(lambda limit: self.limited(limit, "sha256sum --help").status == 0)
        return range(starts - 2 * STEP, works + MARGIN, STEP)

    @staticmethod
    def has_started(ran):
        """Returns whether the program itself ran: otherwise the shell or the system's loader of
        programs says why not, and the status isn't one of the program's."""
        return ran.status in (0, 1)

    def sweep(self, words, right, *wrongs):
        """Tries every limit: the result is right, or one of the wrongs, or the program didn't
        start. Returns the first limit from which on it was right."""
        first = None
        for limit in self.limits():
            ran = self.limited(limit, words)
            self.assertTrue(
                not self.has_started(ran) or ran in (right, *wrongs),
                (as_words(words)[:9], limit, ran),
            )
            first = (first or limit) if ran == right else None
        self.assertIsNotNone(first, "it works at no limit")
        return first

    def test_standard_input(self):
        """`digests sha256sum < file` gives the digest, or says that memory is short."""
        right = Ran(0, as_bytes([f"{SHA256_OF_ABC}  -"]), b"")
        stopped = Ran(1, b"", as_bytes([memory_exhausted("sha256sum")]))
        first = self.sweep("sha256sum", right, UNREAD, stopped)
        many = self.limited(first, ["sha256sum", *["-t"] * 8000])
        self.assertNotEqual(many, right, "a short run needs as much memory as one of many words")

    def test_help_version_and_faults(self):
        """The texts need no memory besides that for the words, so they never report that it is
        exhausted."""
        for words, status, out, err in (
            ("sha256sum --help", 0, help_text("sha256sum"), b""),
            ("sha256sum --version", 0, [version("sha256sum")], b""),
            ("md5sum --foo", 1, b"", fault_lines(unknown_option("--foo"))),
            ("shasum", 1, b"", [UNKNOWN_TOOL]),
        ):
            self.sweep(words, Ran(status, as_bytes(out), as_bytes(err)), UNREAD)

    def test_files(self):
        """A run over files writes whole lines, and stops where memory is short."""
        lines, missing = [f"{MD5_OF_ABC}  a", f"{MD5_OF_NOTHING}  e"], as_bytes([X_MISSING])
        self.sweep(
            "md5sum a x e",
            Ran(1, as_bytes(lines), missing),
            UNREAD,
            Ran(1, b"", STOP),
            Ran(1, as_bytes(lines[:1]), STOP),
            Ran(1, as_bytes(lines[:1]), missing + STOP),
        )

    def test_checking(self):
        """A check reports whole lines, and never a wrong one."""
        self.write("l", [f"{MD5_OF_ABC}  a", f"{MD5_OF_ABC}  e"])
        reports = [ok("a"), failed("e")]
        self.sweep(
            "md5sum -c l",
            Ran(1, as_bytes(reports), as_bytes([wrong(1)])),
            UNREAD,
            Ran(1, b"", STOP),
            Ran(1, as_bytes(reports[:1]), STOP),
        )


class SmallStack(Case):
    def test_64_kib(self):
        for tool, (_, _, of_abc) in harness.TOOLS.items():
            self.write("l", self.run_words([tool, "--tag", "a"]).out)
            for words, out in (
                ([tool, "a"], f"{of_abc}  a"),
                ([tool, "-c", "l"], ok("a")),
                (["anysum", "-c", "l"], ok("a")),
            ):
                with self.subTest(words=words):
                    script = 'ulimit -s 64 || exit 125; exec env -i "$0" "$@"'
                    ran = self.run_command(["sh", "-c", script, harness.PROGRAM, *words])
                    self.assertEqual(ran, Ran(0, as_bytes([out]), b""), words)
