"""Runs under `strace`, which shows a program's system calls and can make them fail."""

import collections
import functools
import itertools
import os
import re
import shutil
import subprocess
import unittest

import harness
from harness import Case, Ran, as_words


@functools.lru_cache
def strace():
    """Returns the path of `strace`, if it is installed and may trace."""
    path = shutil.which("strace")
    trial = [
        path,
        "-qq",
        "-o",
        os.devnull,
        "-e",
        "trace=close",
        "-e",
        "inject=close:error=EIO:when=900..999",
        "true",
    ]
    how = {"stderr": subprocess.DEVNULL, "timeout": harness.RUN_SECONDS}
    return path if path and not subprocess.run(trial, **how).returncode else None


def needs_strace(test):
    """Marks a test, or a class of tests, that runs the program under `strace`."""
    return unittest.skipUnless(strace(), "there is no strace that may trace here")(test)


class Traced(Case):
    """A test that runs the program under `strace`. Its files `out` and `err` take the outputs."""

    def traced(self, options, words, stdin=subprocess.DEVNULL, **how):
        """Runs `digests` with these words under `strace` with these options: what it left, its
        outputs being files, and the calls that the options select, a line each."""
        trace = self.path("trace")
        command = [
            strace(),
            "-qq",
            "-o",
            trace,
            *as_words(options),
            harness.PROGRAM,
            *as_words(words),
        ]
        with open(self.path("out"), "wb") as out, open(self.path("err"), "wb") as err:
            ran = self.run_command(command, stdin, **{"stdout": out, "stderr": err, **how})
        calls = self.read("trace").decode(errors="replace").splitlines()
        return Ran(ran.status, self.read("out"), self.read("err")), calls

    def failing(self, call, error, words, only=None, when="", **how):
        """Runs `digests` under `strace`, which lets this call fail with this error: each time or
        only the times in `when`, for any file or for that of the path `only`."""
        inject = f"inject={call}:error={error}" + (f":when={when}" if when else "")
        options = ["-e", f"trace={call}", "-e", inject]
        if only:
            options += ["-P", os.fsdecode(only)]
        return self.traced(options, words, **how)


def sizes(calls, descriptor):
    """Returns how many bytes each call to write to this descriptor took."""
    written = re.findall(rf"(?m)^writev?\({descriptor},.*= (\d+)$", "\n".join(calls))
    return [int(count) for count in written]


def faults(trace):
    """Returns options that let some calls of a trace fail, or kill the run there: three of each
    kind, if there are as many."""
    counts = collections.Counter(re.findall(r"(?m)^(\w+)\(", trace))
    ends = itertools.cycle(("error=ENOSPC", "signal=KILL", "error=EIO"))
    options = []
    for call, count in counts.items():
        for place in sorted({1, count // 3 + 1, count * 2 // 3 + 1}):
            options.append(f"inject={call}:{next(ends)}:when={place}")
    return options


def each_end(case, calls, command, folder, **how):
    """Runs a command on a folder, to its end and then with each of the faults at these calls, each
    time with the same in the folder: yields the option of `strace`, and what the run left."""
    shutil.copytree(folder, f"{folder} before", symlinks=True)
    traced, options = [strace(), "-qq", "-o", case.path("trace"), "-e"], [f"trace={calls}"]
    for option in options:
        shutil.rmtree(folder)
        shutil.copytree(f"{folder} before", folder, symlinks=True)
        yield option, case.run_command([*traced, option, *command, folder], **how)
        options += faults(case.read("trace").decode()) if len(options) == 1 else []
