"""What the end-to-end tests share: a folder for each test, a run of the program with a time limit,
and the values that the tests expect. The values are published digests, and were not taken from any
output of the program."""

import collections
import datetime
import errno
import functools
import hashlib
import os
import pty
import pwd
import re
import resource
import select
import shutil
import signal
import subprocess
import sys
import tempfile
import time
import tty
import unittest

import options
from sources import text_of
from texts import bad, failed, fault_lines, not_found, ok, unread, unreadable, write_error, wrong

# Set by run.py: the program's absolute path, the seed of the first case at random, and how many
# cases a test tries. Without `--seed` each day has cases of its own.
PROGRAM = ""
SEED = int(f"{datetime.date.today():%Y%m%d}0000")
CASES = 1500

NOT_FOR_THIS_MACHINE = 127  # the status of a program for later processors than the machine's

# These limits end a run or a test that would never end. They are far above what any takes, so that
# no test fails on a machine that halts for a while.
RUN_SECONDS = 600
TEST_SECONDS = 1200
SOON = 60  # for what is there at once

# Each tool's digests of nothing and of "abc", as they were published.
PUBLISHED = {}
for line in text_of("tests", "support", "digests.txt").splitlines():
    tool, of_nothing, of_abc = line.split()
    PUBLISHED[tool] = (of_nothing, of_abc)
# Each tool's tag and published digests; those that GNU has; and all names of tools.
TOOLS = {tool: (row.tag, *PUBLISHED[tool]) for tool, row in options.DIGESTS.items()}
GNU_TOOLS = {tool: row for tool, row in TOOLS.items() if options.TOOLS[tool].of_gnu}
NAMES = list(options.TOOLS)

_, MD5_OF_NOTHING, MD5_OF_ABC = TOOLS["md5sum"]
_, _, SHA256_OF_ABC = TOOLS["sha256sum"]
BLAKE2B_256_OF_NOTHING = "0e5751c026e543b2e8ab2eb06099daa1d1e5df47778f7787faab45cdf12fe3a8"


# What a run left: its status (negative: the signal that ended it) and its two outputs.
Ran = collections.namedtuple("Ran", "status out err")


def as_bytes(text):
    """Returns the bytes of a text, of bytes, or of a list of lines, each of which gets a
    newline."""
    if isinstance(text, bytes):
        return text
    if isinstance(text, str):
        return text.encode()
    return b"".join(as_bytes(line) + b"\n" for line in text)


def as_words(words):
    """Returns the words of one string cut at its spaces, or a list of words as it is."""
    return words.split(" ") if isinstance(words, str) else list(words)


def hasher(tag, content=b"", size=64):
    """Returns Python's own hasher of an algorithm over this content; the size in bytes is for
    BLAKE2b alone."""
    if tag == "BLAKE2b":
        return hashlib.blake2b(content, digest_size=size)
    name = re.sub("[-/]", "_", tag.lower()).replace("sha_", "sha")  # sha512_256 of SHA-512/256
    return hashlib.new(name, content)


@functools.lru_cache
def gnu(tool):
    """Returns the path of GNU coreutils' tool of that name, the first on the PATH, or None if it
    isn't installed."""
    how = {"stdin": subprocess.DEVNULL, "capture_output": True, "timeout": RUN_SECONDS}
    for folder in os.get_exec_path():
        path = shutil.which(tool, path=folder)
        if path and b"GNU coreutils" in subprocess.run([path, "--version"], **how).stdout:
            return path
    return None


# "All verdicts": a manifest that comes to every verdict, and what it writes to both outputs.
VERDICTS = [f"{MD5_OF_ABC}  a", "#c", "junk", f"{MD5_OF_ABC} *x", f"{MD5_OF_ABC}  e"]
VERDICTS_OUT = as_bytes([ok("a"), unreadable("x"), failed("e")])
X_MISSING = not_found("x")
VERDICTS_ERR = as_bytes([X_MISSING, bad(1), unread(1), wrong(1)])
WRITE_ERROR = as_bytes([write_error("md5sum")])


def limit(what, size):
    """Returns what a child does before it becomes the program: limits its memory (`AS`) or a file
    that it writes (`FSIZE`)."""
    return lambda: resource.setrlimit(getattr(resource, f"RLIMIT_{what}"), (size, size))


class TooLong(Exception):
    """A test took longer than its limit. It isn't an error of the system, which tests expect in
    places."""


class Case(unittest.TestCase):
    """A test in a folder of its own, which holds `a` (three bytes, "abc") and `e` (empty), and no
    `x`."""

    def setUp(self):
        self.folder = tempfile.mkdtemp(prefix="digests-test-")
        self.addCleanup(shutil.rmtree, self.folder, ignore_errors=True)
        os.chmod(self.folder, 0o755)
        self.write("a", "abc")
        self.write("e", "")
        signal.signal(signal.SIGALRM, self.too_long)
        signal.alarm(TEST_SECONDS)
        self.addCleanup(signal.alarm, 0)

    def _formatMessage(self, msg, standardMsg):
        """Returns what unittest says of a failed comparison, and the test's short variables: those
        tell the row of a table."""
        frame, row = sys._getframe(1), {}
        while frame:
            if os.path.basename(frame.f_code.co_filename).startswith("test_"):
                for name, value in frame.f_locals.items():
                    if not callable(value) and len(repr(value)) < 200:
                        row.setdefault(name, value)
            frame = frame.f_back
        return super()._formatMessage(msg, standardMsg) + (f"\nwhere {row}" if row else "")

    def too_long(self, *_):
        """Ends the test, or its part, after which others may follow."""
        signal.alarm(SOON)
        raise TooLong(f"a test took longer than {TEST_SECONDS} seconds")

    def path(self, name):
        """Returns the path of a name in the test's folder, as bytes."""
        return os.path.join(os.fsencode(self.folder), as_bytes(name))

    def write(self, name, content):
        """Makes a file in the test's folder, and the folders above it."""
        os.makedirs(os.path.dirname(self.path(name)), exist_ok=True)
        with open(self.path(name), "wb") as file:
            file.write(as_bytes(content))

    def write_command(self, name, text):
        """Makes a command in the folder `commands` of the test's folder."""
        self.write(f"commands/{name}", text)
        os.chmod(self.path(f"commands/{name}"), 0o755)

    def read(self, name):
        """Returns the content of a file in the test's folder."""
        with open(self.path(name), "rb") as file:
            return file.read()

    def run_command(self, command, stdin=b"", **how):
        """Runs a command in the test's folder. `stdin` is what standard input holds, or a file."""
        usual = {
            "cwd": self.folder,
            "stdout": subprocess.PIPE,
            "stderr": subprocess.PIPE,
            "timeout": RUN_SECONDS,
        }
        if isinstance(stdin, (bytes, str, list)):
            usual["input"] = as_bytes(stdin)
        else:
            usual["stdin"] = stdin
        ran = subprocess.run(command, **{**usual, **how})
        return Ran(ran.returncode, ran.stdout or b"", ran.stderr or b"")

    def run_words(self, words, stdin=b"", **how):
        """Runs `digests` with these words in the test's folder."""
        return self.run_command([PROGRAM, *as_words(words)], stdin, **how)

    def expect(self, words, out=b"", err=b"", status=0, stdin=b"", **how):
        """Runs `digests` with these words, and compares both outputs and the status."""
        ran = self.run_words(words, stdin, **how)
        self.assertEqual(ran, Ran(status, as_bytes(out), as_bytes(err)), as_words(words)[:9])

    def ours_and_theirs(self, words, **how):
        """Returns what ours and GNU's tool leave for the same words, the first of which is the
        tool."""
        words = as_words(words)
        ours = self.run_words(words, **how)
        theirs = self.run_command(words, executable=gnu(words[0]), **how)
        return ours, theirs

    def expect_fault(self, words, text):
        """Expects that the words are refused with this text."""
        self.expect(words, err=fault_lines(text, as_words(words)[0]), status=1)

    def start(self, words, folder=None, **how):
        """Starts `digests` with these words in the test's folder or another one; it is ended with
        the test. Pipes to it and from it have no buffers."""
        started = subprocess.Popen(
            [PROGRAM, *as_words(words)], bufsize=0, cwd=folder or self.folder, **how
        )
        self.addCleanup(end, started)
        return started

    def nobody(self):
        """Returns how a command is run by somebody who may not read everything: for root, as the
        user nobody."""
        if os.getuid() != 0:
            return {}
        try:
            nobody = pwd.getpwnam("nobody")
        except KeyError:
            self.skipTest("there is no user nobody")
        return {"user": nobody.pw_uid, "group": nobody.pw_gid, "extra_groups": []}

    def opened(self, name, mode="rb"):
        """Returns a file in the test's folder, which is open until the test ends."""
        file = open(self.path(name), mode)
        self.addCleanup(file.close)
        return file

    def full(self):
        """Returns the device that has no room for a single byte, opened for writing."""
        return self.opened("/dev/full", "wb")

    def disk(self, image, at):
        """Mounts the image of a disk until the test ends; makes it, if it isn't there."""
        if os.getuid() != 0 or shutil.which("mkfs.ext4") is None:
            self.skipTest("only root mounts a disk, which mkfs.ext4 makes")
        if not os.path.exists(self.path(image)):
            self.write(image, bytes(2**25))
            self.assertEqual(self.run_command(["mkfs.ext4", "-q", self.path(image)]).status, 0)
        os.makedirs(at, exist_ok=True)
        if self.run_command(["mount", "-o", "loop", self.path(image), at]).status:
            self.skipTest("no disk can be mounted here")
        self.addCleanup(self.run_command, ["umount", at])

    def terminal(self):
        """Returns a new terminal that changes no byte: the side that shows, and the side that the
        program writes to."""
        shows, writes = pty.openpty()
        tty.setraw(writes)
        self.addCleanup(os.close, shows)
        return shows, writes

    def broken_input(self, content):
        """Returns an input that gives this content and then a fault: the master of a terminal whose
        other side is closed."""
        reads, writes = self.terminal()
        content = as_bytes(content)
        while content:
            content = content[os.write(writes, content) :]
        os.close(writes)
        return reads

    def shown(self, descriptor, text, seconds=SOON):
        """Waits until a terminal or pipe has given as many bytes as the text has, and compares
        them."""
        wanted, got = as_bytes(text), b""
        stop = time.monotonic() + seconds
        while len(got) < len(wanted):
            ready, _, _ = select.select([descriptor], [], [], max(0, stop - time.monotonic()))
            try:
                piece = os.read(descriptor, len(wanted) - len(got)) if ready else b""
            except OSError:  # a terminal whose other side is closed
                piece = b""
            if not piece:
                break
            got += piece
        self.assertEqual(got, wanted)

    def same(self, got, wanted):
        """Compares two long texts, and shows only where they differ: a whole comparison could take
        minutes."""
        got, wanted = as_bytes(got), as_bytes(wanted)
        if got != wanted:
            place = len(os.path.commonprefix([got, wanted]))
            near = slice(max(0, place - 40), place + 80)
            self.fail(
                f"at byte {place} of {len(got)}, {len(wanted)} wanted: "
                f"{got[near]!r} != {wanted[near]!r}"
            )

    def until(self, condition, awaited, seconds=SOON):
        """Waits until the condition holds; the test fails, saying what was awaited, if it doesn't
        in that time."""
        stop = time.monotonic() + seconds
        while not condition():
            self.assertLess(time.monotonic(), stop, f"in {seconds} seconds: {awaited}")
            time.sleep(0.001)

    def fed(self, name):
        """Returns a named pipe, opened for writing once the program has it open for reading. What
        the program does before it comes to that name is then over, and nothing comes until the
        caller writes or closes."""
        opened = []

        def is_read():
            try:
                opened.append(os.open(self.path(name), os.O_WRONLY | os.O_NONBLOCK))
            except OSError as error:
                if error.errno != errno.ENXIO:
                    raise
            return opened

        self.until(is_read, "the program reads the pipe with a name")
        return os.fdopen(opened[0], "wb", buffering=0)


def end(started):
    """Ends a process that a test started."""
    if started.poll() is None:
        started.kill()
    started.wait()
    for stream in filter(None, (started.stdin, started.stdout, started.stderr)):
        stream.close()
