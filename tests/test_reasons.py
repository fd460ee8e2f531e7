"""Why a file can't be read: the program gives the system's reason wherever it names the file, as
GNU's md5sum does. Only a file that isn't there is missing."""

import errno
import itertools
import os
import pty
import re
import shutil
import stat
import subprocess

import harness
from harness import MD5_OF_ABC, Case, Ran, as_bytes, gnu, text_of
from reference import NOT_FOUND, OTHER, REASONS
from texts import ok, unread, unreadable
from tracing import needs_strace, strace

# Names under which no file can be read, and why; and what the system may say besides.
NAMES = {
    "d": errno.EISDIR,
    "d/": errno.EISDIR,
    "a/": errno.ENOTDIR,
    "a/.": errno.ENOTDIR,
    "a/x": errno.ENOTDIR,
    "loop": errno.ELOOP,
    "loop/x": errno.ELOOP,
    "n" * 300: errno.ENAMETOOLONG,
    "d/" * 3000: errno.ENAMETOOLONG,
    "s": errno.ENXIO,
    "shut": errno.EACCES,
    "closed/x": errno.EACCES,
    "x": errno.ENOENT,
    "d/x": errno.ENOENT,
}
# What an opening or a read may fail by besides: some numbers, EIO, and one that has no text.
FAILURES = (
    errno.EPERM,
    errno.ENOENT,
    errno.ENOMEM,
    errno.EMFILE,
    errno.EAGAIN,
    errno.EUCLEAN,
    errno.ENOKEY,
    errno.ENOTCONN,
    errno.ETIMEDOUT,
    errno.EHOSTDOWN,
    errno.ESTALE,
    errno.EREMOTEIO,
    errno.EIO,
    41,
)


class Reasons(Case):
    """A folder of such names. For root, tools run as a user who may not read everything."""

    def setUp(self):
        super().setUp()
        for name, mode in (("d", 0o755), ("closed", 0)):
            os.mkdir(self.path(name), mode)
        self.addCleanup(os.chmod, self.path("closed"), 0o700)
        os.symlink("loop", self.path("loop"))
        os.mknod(self.path("s"), stat.S_IFSOCK | 0o644)
        self.write("shut", "abc")
        os.chmod(self.path("shut"), 0)
        shutil.copy(harness.PROGRAM, self.path("md5sum"))  # its own folder may be closed to others
        os.chmod(self.path("md5sum"), 0o755)
        self.tools = [self.folder] + ([os.path.dirname(gnu("md5sum"))] if gnu("md5sum") else [])

    def run_tool(self, folder, words, front=(), **how):
        """Runs the md5sum of this folder, by what stands in front."""
        env = {**os.environ, "PATH": folder}
        return self.run_command([*front, "md5sum", *words.split(" ")], env=env, **how)

    def expect_each(self, name, reason, missing=False, opened=False, alike=True, last=b"", **how):
        """Expects this reason of a name that can't be read: as an operand, a list and a listed
        file, with the settings that could hide it. If both tools are `alike`, GNU's says the same,
        and this line at its `last`; but of a list that could be `opened` it says `read error`."""
        fault = f"md5sum: {name}: {reason.decode()}"
        of_list = fault.replace("md5sum: -:", "md5sum: standard input:")
        reports = [unreadable(name), ok("a")]
        self.write("l", [f"{MD5_OF_ABC}  {name}", f"{MD5_OF_ABC}  a"])
        for words, status, out, err in (
            (f"{name} a", 1, [f"{MD5_OF_ABC}  a"], [fault]),
            (f"-c {name}", 1, [], [of_list]),
            (f"-c --status --ignore-missing {name}", 1, [], [of_list]),
            ("-c l", 1, reports, [fault, unread(1)]),
            ("-c --status l", 1, [], [fault]),
            (
                "-c --ignore-missing l",
                *((0, [ok("a")], []) if missing else (1, reports, [fault, unread(1)])),
            ),
        ):
            wanted = Ran(status, as_bytes(out), as_bytes(err))
            ours, *theirs = (
                self.run_tool(folder, words, **how) for folder in self.tools[: 1 + alike]
            )
            self.assertEqual(ours, wanted, words)
            if theirs and (words.endswith((" a", " l")) or not opened):
                self.assertEqual(theirs, [wanted._replace(err=wanted.err + last)], words)

    def test_names(self):
        for name, number in NAMES.items():
            missing, opened = number == errno.ENOENT, number == errno.EISDIR
            self.expect_each(name, REASONS[number], missing, opened, **self.nobody())

    def test_standard_input(self):
        """A directory, a file that is open for writing alone, a pipe and a terminal that have
        nothing yet and don't wait, a terminal whose other side is closed, and a closed standard
        input."""
        pipe, feed = os.pipe()
        shows, terminal = pty.openpty()
        folder, written = os.open(self.folder, os.O_RDONLY), os.open(
            self.path("w"), os.O_WRONLY | os.O_CREAT
        )
        for opened in (pipe, feed, shows, terminal, folder, written):
            os.set_blocking(opened, False)
            self.addCleanup(os.close, opened)
        for stdin, number in (
            (folder, errno.EISDIR),
            (written, errno.EBADF),
            (pipe, errno.EAGAIN),
            (terminal, errno.EAGAIN),
            (self.broken_input(""), errno.EIO),
        ):
            with self.subTest(number=number):
                self.expect_each("-", REASONS.get(number, OTHER), opened=True, stdin=stdin)
        reason = REASONS[errno.EBADF]
        self.expect_each(
            "-",
            reason,
            opened=True,
            last=b"md5sum: standard input: %s\n" % reason,
            stdin=subprocess.DEVNULL,
            preexec_fn=lambda: os.close(0),
        )

    def test_table(self):
        """The definitions have just the C library's texts, and the code is proved to have the
        definitions'. Each line of the table ends with the number whose text is its first."""
        definitions = text_of("crates", "sum_sources", "specs", "Fault.antt")
        quoted = []
        for line in re.search(r"(?s)\nreason_table = (.*?)\n\n", definitions)[1].splitlines():
            self.assertEqual(line.partition("  -- ")[2], str(len(quoted)))
            quoted += re.findall(r'"(.*?)" ∷', line)
        self.assertEqual(
            {number: text.encode() for number, text in enumerate(quoted) if text}
            | {errno.ENOENT: NOT_FOUND, errno.EACCES: REASONS[errno.EACCES]},
            REASONS,
        )

    @needs_strace
    def test_numbers(self):
        """Each number of the system, of an opening and a read; some of them wherever the file is
        named, as GNU's tool says it. A number without a text of its own is an input/output error.
        What is interrupted is tried again: an opening without an end, a read up to a limit."""
        path = os.fsdecode(self.path("f"))
        self.write("f", "abc")
        for number, call in itertools.product(range(1, 141), ("openat", "read")):
            if (number, call) == (errno.EINTR, "openat"):
                continue
            front, opened = [
                strace(),
                "-qq",
                "-o",
                os.devnull,
                "-P",
                path,
                "-e",
                f"trace={call}",
                "-e",
                f"inject={call}:error={number}",
            ], call == "read"
            reason = OTHER if number == errno.EINTR else REASONS.get(number, OTHER)
            ran = self.run_tool(self.folder, path, front)
            self.assertEqual(ran, Ran(1, b"", b"md5sum: %s: %s\n" % (os.fsencode(path), reason)))
            if number in FAILURES:
                self.expect_each(
                    path,
                    reason,
                    missing=number == errno.ENOENT and not opened,
                    opened=opened,
                    alike=reason.decode() == os.strerror(number),
                    front=front,
                )
