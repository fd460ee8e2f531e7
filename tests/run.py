#!/usr/bin/env python3
"""Runs the end-to-end tests of the built program: `run.py [--only WORD] [--seed N] [--cases N]
[PROGRAM..]`.

The tests run the program from the outside, on real files, pipes, terminals and devices; some look
at the repository. Without PROGRAM, the program is this repository's own, for each level for which
it is built. If tests ran, the last line counts them; the status is 1 if one failed, or none
passed."""

import argparse
import collections
import glob
import os
import signal
import subprocess
import sys
import time
import unittest

HERE = os.path.dirname(os.path.realpath(__file__))
# The first of these is tools/, so that no test can take the place of what the tools read, and none
# is there twice: Python itself put the folder of this file first.
FOLDERS = [os.path.join(os.path.dirname(HERE), "tools"), HERE, os.path.join(HERE, "support")]
sys.path[:1] = FOLDERS
sys.dont_write_bytecode = True

import harness  # it is in support/
from sources import TOP


def built_programs():
    """Returns the programs of this repository, the default level's first. Only `./digests` checks
    whether they are stale."""
    return sorted(glob.glob(os.path.join(TOP, "out", "*", "digests")))


def why_not(program):
    """Returns what keeps a program from running on this machine, or nothing."""
    if not (os.path.isfile(program) and os.access(program, os.X_OK)):
        sys.exit(f"run.py: {program} is no program")
    how = {"stdin": subprocess.DEVNULL, "capture_output": True, "timeout": harness.RUN_SECONDS}
    try:
        ran = subprocess.run([program, "md5sum", "--version"], **how)
    except subprocess.TimeoutExpired:
        sys.exit(f"run.py: {program} doesn't end")
    if ran.returncode != harness.NOT_FOR_THIS_MACHINE:
        return ""
    return ran.stderr.decode(errors="replace").strip() or "it doesn't run on this machine"


def tests_below(suite, word, again):
    """Yields the tests of a suite whose full name has the word in it; `again` if they ran over
    another program before: then those that look at the repository more than at the program are left
    out."""
    for test in suite:
        if isinstance(test, unittest.TestSuite):
            yield from tests_below(test, word, again)
        elif word in test.id() and not (again and getattr(test, "of_the_repository", False)):
            yield test


def run_over(program, asked, again):
    """Runs the tests over a program: how many passed, failed and were skipped, or None if none was
    chosen."""
    harness.PROGRAM = program
    harness.gnu.cache_clear()
    started = time.monotonic()
    every = unittest.defaultTestLoader.discover(HERE, pattern="test_*.py")
    chosen = unittest.TestSuite(tests_below(every, asked.only, again))
    if not chosen.countTestCases():
        return None
    print(f"{program}: the seed of what is tried at random is {harness.SEED}", flush=True)
    result = unittest.TextTestRunner(sys.stdout, verbosity=2 if asked.verbose else 1).run(chosen)
    # Once, though several parts of it fail, or its end does.
    failed = {getattr(test, "test_case", test).id() for test, _ in result.failures + result.errors}
    skipped = {test.id() for test, _ in result.skipped} - failed
    for why, count in collections.Counter(why for _, why in result.skipped).items():
        print(f"skipped {count}: {why}")
    counts = [result.testsRun - len(failed) - len(skipped), len(failed), len(skipped)]
    print_counts(program, counts, time.monotonic() - started)
    return counts


def print_counts(title, counts, seconds):
    summary = "{} end-to-end tests passed, {} failed, {} skipped".format(*counts)
    print(f"{title}: {summary}, in {seconds:.0f} s", flush=True)


def take_usual_settings():
    """Makes the tests run under the same settings, whoever calls them: what they start is ended by
    any signal and finds the three streams open, and others may read the files that they make."""
    # A caller, such as nohup, may ignore some signals. What is caught here isn't passed on as
    # ignored. Some tests pass on the two that Python itself ignores.
    for number in signal.valid_signals() - {signal.SIGPIPE, signal.SIGXFSZ}:
        if signal.getsignal(number) is signal.SIG_IGN:
            signal.signal(number, lambda *_: None)
    signal.signal(signal.SIGINT, signal.default_int_handler)
    while (opened := os.open(os.devnull, os.O_RDWR)) < 3:
        os.set_inheritable(opened, True)
    os.close(opened)
    os.umask(0o022)


def main():
    reader = argparse.ArgumentParser(description="Tests the built program from the outside.")
    reader.add_argument(
        "program", nargs="*", help="the program digests; without it, this repository's own"
    )
    reader.add_argument(
        "--only", default="", metavar="WORD", help="run only the tests whose name holds WORD"
    )
    reader.add_argument("--verbose", action="store_true", help="name each test")
    reader.add_argument(
        "--seed", type=int, help="of the first case at random; without it, a new one each day"
    )
    reader.add_argument(
        "--cases", type=int, default=harness.CASES, help=f"cases at random ({harness.CASES})"
    )
    asked = reader.parse_args()
    harness.SEED, harness.CASES = harness.SEED if asked.seed is None else asked.seed, asked.cases
    programs = [os.path.abspath(program) for program in asked.program] or built_programs()
    if not programs:
        sys.exit("run.py: nothing is built: ./digests builds it")
    os.environ["LC_ALL"] = "C"
    take_usual_settings()
    started, counts = time.monotonic(), []
    for program in programs:
        if why := why_not(program):
            print(f"{program}: skipped: {why}", flush=True)
            continue
        counted = run_over(program, asked, again=bool(counts))
        if counted is None and not counts:
            sys.exit(f"run.py: no test's name holds '{asked.only}'")
        counts += [counted] if counted else []
    sums = [sum(column) for column in zip(*counts)] or [0, 0, 0]
    if len(programs) > 1:
        print_counts("in all", sums, time.monotonic() - started)
    sys.exit(1 if sums[1] or not sums[0] else 0)


if __name__ == "__main__":
    main()
