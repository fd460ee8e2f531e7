#!/usr/bin/env python3
"""Measures the built programs beside GNU coreutils and other tools, in one run: `bench/run.py
[--size MIB] [--rounds N] [--only PART].. [--program FILE].. [--no-bare]`.

The program of each level that runs on this machine is measured, or each `--program`, beside GNU's
tools; in the part `hashing` also beside OpenSSL and a bare loop over the kit's digest. What isn't
installed is left out. Times are processor time on one processor, in rounds in which the programs
take turns. A speed is GNU's least time divided by the program's own: 1.00 is as fast as GNU, 2.00
twice as fast. `docs/PERFORMANCE.md` has the tables."""

import argparse
import glob
import os
import platform
import random
import re
import shutil
import subprocess
import sys
import tempfile

HERE = os.path.dirname(os.path.abspath(__file__))
TOP = os.path.dirname(HERE)
sys.dont_write_bytecode = True
sys.path[:0] = [HERE, os.path.join(TOP, "tools"), os.path.join(TOP, "tests", "support")]

import options  # it is in tools
from harness import gnu  # it is in tests/support
from measure import Contender, measure, peak_memory  # it is beside this file

CHECKED = ("md5sum", "sha256sum", "b2sum")
MIB = 1 << 20
GNU, BARE, OPENSSL = "GNU", "kit's loop", "openssl"
LOOPS = os.path.join(HERE, "bare", "main.rt.txt")  # a file named *.rt stands only in a crate


def built_programs():
    """Returns the programs of this repository that run on this machine, by level, built where they
    are stale."""
    if subprocess.run([os.path.join(TOP, "tools", "build")]).returncode:
        sys.exit(1)
    paths = sorted(glob.glob(os.path.join(TOP, "out", "*", "digests")))
    return {path.split(os.sep)[-2]: path for path in paths if works([path, "sha256sum"])}


def built_bare():
    """Returns the bare loops, proved and built in a small repository of their own; None where that
    can't be. That is taken away again: the gate reads no crate and no `.rt` file beside this
    repository's own."""
    program = os.path.join(HERE, "out", "bare")
    if os.path.isfile(program) and os.path.getmtime(program) > os.path.getmtime(LOOPS):
        return program
    if shutil.which("rt") is None:
        return None
    print("run.py: building the bare loops; this takes about a minute", file=sys.stderr)
    shutil.rmtree(os.path.dirname(program), ignore_errors=True)
    os.makedirs(os.path.dirname(program))
    with tempfile.TemporaryDirectory(prefix="digests-bare-") as repository:
        crate = os.path.join(repository, "crates", "bare")
        os.makedirs(os.path.join(crate, "src"))
        shutil.copy(LOOPS, os.path.join(crate, "src", "main.rt"))
        with open(os.path.join(repository, "crates.txt"), "w") as crates:
            crates.write("bare: md5 sha1 sha2\n")
        how = {"stdin": subprocess.DEVNULL, "stdout": subprocess.PIPE, "stderr": subprocess.STDOUT}
        ran = subprocess.run(["rt", "run", "--", "sha256sum"], cwd=crate, **how)
        if ran.returncode:
            sys.stderr.buffer.write(ran.stdout)
            return None
        shutil.copy(os.path.join(crate, "out", "bare"), program)
    return program


def works(words):
    """Returns whether there is such a command and it hashes nothing well."""
    quiet = {"stdin": subprocess.DEVNULL, "capture_output": True}
    return bool(shutil.which(words[0])) and not subprocess.run(words, **quiet).returncode


class Bench:
    """The programs that are compared, a folder for what they work on, and the rows that were
    measured."""

    def __init__(self, asked, folder):
        named = {path: os.path.abspath(path) for path in asked.program or ()}
        self.ours = named or built_programs()
        hashes = not asked.only or "hashing" in asked.only
        self.bare = built_bare() if hashes and not asked.no_bare else None
        with open(LOOPS, encoding="utf-8") as source:
            self.looped = re.findall(r'b"(\w+)" =>', source.read())  # the digests of the kit
        self.rounds, self.size, self.rows = asked.rounds, asked.size, []
        self.folder, self.out = folder, os.path.join(folder, "out")

    def contenders(self, tool, *words, status=0):
        """Ours, and GNU's where it is installed, with the same words."""
        contenders = [
            Contender(name, [path, tool, *words], status=status) for name, path in self.ours.items()
        ]
        return contenders + (
            [Contender(GNU, [tool, *words], gnu(tool), status)] if gnu(tool) else []
        )

    def hashers(self, tool):
        """Returns all contenders that hash standard input as the tool does."""
        contenders = self.contenders(tool)
        if self.bare and tool in self.looped:
            contenders.append(Contender(BARE, [self.bare, tool]))
        words = ["openssl", "dgst", "-blake2b512" if tool == "b2sum" else f"-{tool[:-3]}"]
        return contenders + ([Contender(OPENSSL, words)] if works(words) else [])

    def large(self):
        """Returns a file of the size that was asked for."""
        path = os.path.join(self.folder, "large")
        if not os.path.exists(path):
            with open(path, "wb") as file:
                file.writelines([random.Random(1).randbytes(MIB)] * self.size)
        return path

    def small(self, count):
        """Returns the names of this many files of 100 bytes."""
        names = [f"f{number:05}" for number in range(count)]
        if not os.path.exists(os.path.join(self.folder, names[-1])):
            chance = random.Random(2)
            for name in names:
                with open(os.path.join(self.folder, name), "wb") as file:
                    file.write(chance.randbytes(100))
        return names

    def manifest(self, tool):
        """Returns the tool's manifest of 200,000 lines for 20,000 files."""
        path = os.path.join(self.folder, tool)
        if not os.path.exists(path):
            words = [next(iter(self.ours.values())), tool, *self.small(20000)]
            lines = subprocess.run(
                words, stdout=subprocess.PIPE, cwd=self.folder, check=True
            ).stdout
            with open(path, "wb") as file:
                file.write(lines * 10)
        return path

    def add(self, work, contenders, rounds=None, **how):
        """Measures a piece of work and keeps its row."""
        self.rows.append(
            (work, measure(contenders, rounds or self.rounds, folder=self.folder, **how))
        )


def table(head, rows):
    """Prints a table with these columns."""
    print("\n| " + " | ".join(head) + " |\n|" + "---|" * len(head))
    for row in rows:
        print("| " + " | ".join(row) + " |")


def speed(times, name):
    """Returns how many times as fast as GNU's a program is."""
    return f"{times[GNU].least / times[name].least:.2f}" if GNU in times and name in times else "-"


def print_speeds(bench):
    first, *_ = bench.ours
    names = [
        name
        for name in (*bench.ours, BARE, OPENSSL)
        if any(name in times for _, times in bench.rows)
    ]
    rows = [
        [work, *(speed(times, name) for name in names), f"{times[first].kernel:.0%}"]
        for work, times in bench.rows
    ]
    table(["times as fast as GNU", *names, "the kernel's share"], rows)


def hashing(bench):
    """Measures each tool over standard input."""
    for tool in options.DIGESTS:
        bench.add(f"`{tool}`, {bench.size} MiB", bench.hashers(tool), stdin=bench.large())


def start(bench):
    """Measures a call with nothing to do."""
    for tool, *words in (("sha256sum",), ("md5sum", "/dev/null")):
        bench.add(
            f"`{' '.join([tool, *words])}`, start",
            bench.contenders(tool, *words),
            60 * bench.rounds,
        )


def files(bench):
    """Measures many small files as operands, and manifests of many lines, with output into a
    file."""
    for tool in CHECKED:
        rounds, names = 2 * bench.rounds, bench.small(20000)
        bench.add(
            f"`{tool}`, 20,000 operands",
            bench.contenders(tool, *names),
            2 * rounds,
            stdout=bench.out,
        )
        for words in (("-c",), ("-c", "--status")):
            contenders = bench.contenders(tool, *words, bench.manifest(tool))
            bench.add(
                f"`{tool} {' '.join(words)}`, 200,000 lines", contenders, rounds, stdout=bench.out
            )


def reading(bench):
    """Measures lines that are read for nothing: without an entry, of a file that isn't there, and
    with the longest of names."""
    manifest = os.path.join(bench.folder, "reading")
    chance = random.Random(3)
    digits = [chance.randbytes(32).hex() for _ in range(200000)]
    absent = "".join(f"{digit}  absent/{place}\n" for place, digit in enumerate(digits))
    escaped = f"\\{digits[0]}  " + "\\\\" * (32 * MIB) + "\n"
    for lines, words, rounds, text in (
        ("4,000,000 empty lines", [], 2, "\n" * 4000000),
        ("2,000,000 comments of 32 bytes", [], 2, "# no file's line, thirty-one....\n" * 2000000),
        ("200,000 lines of absent files", ["--ignore-missing"], 2, absent),
        ("one escaped name of 32 MiB", [], 1, escaped),
        ("200,000 bad lines", [], 4, "".join(digit + "..........\n" for digit in digits)),
    ):
        with open(manifest, "w") as file:
            file.write(text)
        words = ["-c", *words, "--status"]
        contenders = bench.contenders("sha256sum", *words, manifest, status=1)
        bench.add(f"`sha256sum {' '.join(words)}`, {lines}", contenders, rounds * bench.rounds)


def memory(bench):
    """Measures the peak of resident memory."""
    with open(os.path.join(bench.folder, "a"), "wb") as file:
        file.write(b"abc")
    rows = []
    for work, tool, words in (
        (f"`sha256sum`, {bench.size} MiB", "sha256sum", [bench.large()]),
        (f"`b2sum`, {bench.size} MiB", "b2sum", [bench.large()]),
        ("`md5sum`, 100,000 operands", "md5sum", ["a"] * 100000),
        ("`md5sum -c`, 200,000 lines", "md5sum", ["-c", bench.manifest("md5sum")]),
    ):
        contenders = bench.contenders(tool, *words)
        peaks = [
            peak_memory(contender, stdout=bench.out, folder=bench.folder)
            for contender in contenders
        ]
        rows.append([work, *(f"{peak / 1e6:.1f}" for peak in peaks)])
    table(["megabytes at most", *(contender.name for contender in contenders)], rows)


PARTS = {"hashing": hashing, "start": start, "files": files, "reading": reading, "memory": memory}


def print_conditions(bench, rounds):
    """Prints what the numbers depend on."""
    (processor,) = os.sched_getaffinity(0)
    with open("/proc/cpuinfo") as file:
        model = next(
            (line.partition(":")[2].strip() for line in file if line.startswith("model name")),
            "unknown",
        )
    print(
        f"{platform.platform()}, {os.cpu_count()} processors ({model}); "
        f"all on processor {processor}"
    )
    print(f"load {os.getloadavg()[0]:.1f} at the start; {rounds} rounds or more")
    if gnu("md5sum"):
        print(subprocess.check_output([gnu("md5sum"), "--version"], text=True).splitlines()[0])
    for name in ([] if shutil.which("openssl") else [OPENSSL]) + ([] if bench.bare else [BARE]):
        print(f"{name}: left out")


def main():
    reader = argparse.ArgumentParser(
        description="Measures the programs beside others.", allow_abbrev=False
    )
    number = {"type": int, "metavar": "N"}
    reader.add_argument(
        "--size", default=256, help="size of the large input in MiB (256)", **number
    )
    reader.add_argument(
        "--rounds", default=5, help="rounds at least, of which the least counts (5)", **number
    )
    reader.add_argument(
        "--only", choices=PARTS, action="append", help="only this part; may be repeated"
    )
    reader.add_argument(
        "--program",
        metavar="FILE",
        action="append",
        help="this program, in place of the two levels'; may be repeated",
    )
    reader.add_argument("--no-bare", action="store_true", help="leave out the bare loops")
    asked = reader.parse_args()
    os.environ["LC_ALL"] = "C"
    with tempfile.TemporaryDirectory(prefix="digests-bench-") as folder:
        bench = Bench(asked, folder)
        os.sched_setaffinity(0, {max(os.sched_getaffinity(0))})
        print_conditions(bench, asked.rounds)
        for name in asked.only or PARTS:
            PARTS[name](bench)
        if bench.rows:
            print_speeds(bench)
        print(f"\nload {os.getloadavg()[0]:.1f} at the end")


if __name__ == "__main__":
    main()
