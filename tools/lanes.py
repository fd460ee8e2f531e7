"""What is taken of the kit beyond the commands of `rt`: the lanes in which its gate proves several
crates at once; how it knows from which sources a library is; where its libraries and its logic are,
and their format; and the tokens that it prints of files. The kit promises none of these names, so
they are those of one kit, and no other file uses them. With another kit there is an error, and
`tools/prove.py` does without lanes."""

import copy
import functools
import glob
import os
import runpy
import shutil
import subprocess

TOP = os.path.dirname(os.path.dirname(os.path.realpath(__file__)))
KIT = "rattle-kit-13f logic dac8208d650f15bf"
# What made the libraries of this kit and those that it makes, as the file `format` in each says.
FORMAT = [
    "rattle rlib",
    "rattle-build antt-checked-81/0.0.0/"
    "src-ec9ed73bcbaa31940a343d5346d7090afb25dbc1abe6f3c42ade4541570dc2a1."
    "bid-cc12b10019437987828b931aec50e86885aaf348",
]
OF_SCRIPT = ("Crate", "Kept", "handles_of", "in_lanes", "need", "rtlib", "share_work")
OF_LIBRARY = ("RATTLE", "crates_below", "guarded", "lock")
OF_CRATE = ("below", "build_rlib", "call", "count", "is_built", "link", "stamp", "words")
OF_KEPT = ("give", "is_built", "key")


class OtherKit(Exception):
    """The kit isn't the one whose names are known."""


@functools.lru_cache(maxsize=None)
def kit():
    """Returns the kit's folder."""
    page = subprocess.run(["rt", "doc"], stdout=subprocess.PIPE, check=True, text=True)
    return os.path.dirname(page.stdout)


def printed_tokens(paths):
    """Returns what the kit prints of the tokens of files: bytes."""
    command = [f"{kit()}/bin/rattle", "fmt", "--tokens", *paths]
    return subprocess.run(command, stdout=subprocess.PIPE, check=True).stdout


@functools.lru_cache(maxsize=None)
def library(crate, is_ours):
    """Returns the folder of what the kit has made of a crate, of ours or its own. Fails if it has
    another format than is known."""
    path = (
        f"{TOP}/crates/{crate}/out/rlib/{crate}.rlib" if is_ours else f"{kit()}/rlibs/{crate}.rlib"
    )
    with open(f"{path}/format", encoding="utf-8") as file:
        made_by = [file.readline().rstrip("\n") for _ in FORMAT]
    if made_by != FORMAT:
        raise ValueError(f"{path} is of {' '.join(made_by)}, whose format isn't known here")
    return path


@functools.lru_cache(maxsize=None)
def crates_of_kit():
    """Returns the crates that the kit has built."""
    return {os.path.basename(path)[: -len(".rlib")] for path in glob.glob(f"{kit()}/rlibs/*.rlib")}


def modules_of_logic():
    """Returns the modules of the kit's logic."""
    paths = glob.glob(f"{kit()}/logic_built/*.oantt")
    return {os.path.basename(path)[: -len(".oantt")] for path in paths}


@functools.lru_cache(maxsize=None)
def script():
    """Returns what the kit's script defines, by name."""
    version = subprocess.check_output(["rt", "version"], text=True).strip()
    if version != KIT:
        raise OtherKit(f"the kit is {version}, not {KIT}")
    defined = runpy.run_path(f"{kit()}/bin/rt")
    rtlib = defined.get("rtlib")
    missing = [name for name in OF_SCRIPT if name not in defined]
    for owner, names in ((rtlib, OF_LIBRARY), (defined.get("Crate"), OF_CRATE)):
        missing += [name for name in names if not hasattr(owner, name)]
    missing += [name for name in OF_KEPT if not hasattr(defined.get("Kept"), name)]
    if missing:
        raise OtherKit(f"the kit's script lacks {', '.join(missing)}")
    rtlib.Crate = defined["Crate"]
    return defined


def crates():
    """Returns the crates as the kit's script sees them, by name."""
    return {crate.name: crate for crate in script()["rtlib"].crates_below(TOP)}


class Lanes:
    """The libraries and the program of crates with these names, which are proved and compiled in
    the kit's lanes. `run` is called for each step, with its name and a call that gets a file for
    what the kit says."""

    def __init__(self, libraries, main, run, on_terminal):
        self.script, known = script(), crates()
        self.rtlib, self.run, self.on_terminal = self.script["rtlib"], run, on_terminal
        self.libraries, self.main = [known[name] for name in libraries], known[main]
        # Whether a check has kept work somewhere, which is then used and kept on. If not, a crate
        # loads of those below their statements alone, without proofs.
        work = [f"{crate.folder}/out/incremental" for crate in self.libraries]
        self.keeps_work = any(os.path.isdir(path) and os.listdir(path) for path in work)
        if self.keeps_work:
            self.script["share_work"](True)
        else:
            self.script["Crate"].allowed = self.script["handles_of"](TOP)
            self.passed = self.script["Kept"](self.libraries)

    def library(self, crate, jobs):
        """Proves a library, and returns 0 or another status. Only if no work is kept: if a gate on
        this machine has proved the same, its library is taken; statements fit only the libraries
        over which they were made."""
        folder, stamp = os.path.dirname(crate.rlib), crate.stamp()
        shutil.rmtree(folder, ignore_errors=True)
        if self.keeps_work:
            return crate.build_rlib(["--jobs", str(jobs)], False)
        os.makedirs(folder)
        is_given = self.passed.give(crate, False, self.passed.key(crate))
        failed = not is_given and self.statements(crate, jobs)
        if not failed and stamp == crate.stamp():
            self.passed.is_built(crate)
            with open(f"{folder}/stamp", "w", encoding="utf-8") as file:  # for rt, which takes it
                file.write(stamp)
        return failed or 0

    def statements(self, crate, jobs):
        """Proves a library, and makes its statements. On a terminal it is checked before it is
        built, which costs a twentieth more: only a check says how far it is."""
        rattle, words = self.rtlib.RATTLE, crate.words(["--jobs", str(jobs)], keeps=False)
        if not self.on_terminal:
            return crate.call(rattle, "build", *words, "--statements", "-o", crate.rlib)
        checked = ["--statements", "--progress", "-o", "out/checked"]
        for_check = ("--logic-built", "--jobs")  # each with the word after it
        words_of_build = [
            word for before, word in zip(["", *words], words) if not {before, word} & {*for_check}
        ]
        build = [*words_of_build, "--crate-checked", "out/checked", "-o", crate.rlib]
        return crate.call(rattle, "check", *words, *checked) or crate.call(rattle, "build", *build)

    def program(self, crate, level, flags, jobs):
        """Compiles the program for a level into `out/LEVEL` of its crate, and returns 0 or another
        status."""
        words = crate.words(["--jobs", str(jobs), *flags], keeps=False)
        words += ["--toolchain", f"{kit()}/toolchain", "--backend", "llvm", "-o", f"out/{level}.o"]
        if self.keeps_work:
            words += ["--incremental", f"out/work-{level}"]  # levels are compiled at once
        failed = crate.call(self.rtlib.RATTLE, "build", *words)
        return failed or crate.link(f"out/{level}.o", f"out/{level}") or 0

    def task(self, step, crate, is_made, make):
        """Returns a task for the lanes, which makes what isn't made, or anew if a library below
        was. Its call returns whether it made something, or None if that failed."""
        waits = [(lower.name, "proof") for lower in crate.below()]

        def call(given, jobs):
            anew = [given[key] for key in waits]
            if None in anew:
                return None
            if is_made(crate) and not any(anew):
                return False

            def run(file):
                own = copy.copy(crate)  # both programs are made of one crate
                own.out = file
                os.makedirs(f"{crate.folder}/out", exist_ok=True)
                return make(own, jobs)

            return True if self.run(step, run) else None

        return waits, crate.count(b"\n"), self.script["need"](crate), call

    def prove(self, levels, is_kept, keep):
        """Proves the libraries, and makes the program for each level, whose flags `levels` has.
        `is_kept(level, stamp)` returns whether that of these sources is there, and
        `keep(level, path, stamp)` keeps a new one. Returns whether all is well."""
        self.rtlib.guarded()  # what it starts ends when this does; the main thread must call it
        self.held = self.rtlib.lock([*self.libraries, self.main])  # until this ends

        def is_built(crate):
            if not crate.is_built():
                return False
            if not self.keeps_work:
                self.passed.is_built(crate)
            return True

        tasks = {}
        for crate in self.libraries:
            tasks[crate.name, "proof"] = self.task(crate.name, crate, is_built, self.library)
        for level, flags in levels.items():

            def make(crate, jobs, level=level, flags=flags):
                stamp = crate.stamp()
                failed = self.program(crate, level, flags, jobs)
                if not failed:
                    keep(level, f"{crate.folder}/out/{level}", stamp)
                return failed

            def is_there(crate, level=level):
                return is_kept(level, crate.stamp())

            tasks[level, "program"] = self.task(level, self.main, is_there, make)
        return None not in self.script["in_lanes"](tasks).values()
