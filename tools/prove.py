#!/usr/bin/env python3
"""Proves what has changed of the program's crates, and compiles the program for each level of
processors into out/LEVEL/digests. `tools/build` calls this, and knows when."""

import hashlib
import shutil
import signal
import subprocess
import sys
from pathlib import Path

sys.dont_write_bytecode = True  # nothing is to be left beside these files

from lanes import Lanes, OtherKit
from progress import Progress, text_if
from sources import TOP, crates_of_program

*LIBRARIES, MAIN = crates_of_program()
LEVELS = {"default": [], "x86-64-v3": ["--cpu", "x86-64-v3"]}
CRATES, OUT = Path(TOP, "crates"), Path(TOP, "out")


def titles():
    """Returns what each step is called."""
    names = {level: f"the program for {level}" for level in LEVELS}
    for number, crate in enumerate(LIBRARIES, 1):
        names[crate] = f"crate {number} of {len(LIBRARIES)}, {crate}"
    return names


def state_of(program, stamp):
    """Returns what is noted beside a program: the stamp of its sources, and its sum."""
    return f"{stamp} {hashlib.sha256(program.read_bytes()).hexdigest()}\n"


def is_kept(level, stamp):
    """Returns whether a level's program is there, as it was made of the sources of this stamp."""
    program = OUT / level / "digests"
    return program.exists() and text_if(OUT / level / "stamp") == state_of(program, stamp)


def keep(level, program, stamp=""):
    """Copies a program into a level's directory, where it appears whole."""
    new = OUT / level / "digests.new"
    shutil.copy(program, new)
    (OUT / level / "stamp").write_text(state_of(new, stamp), "utf-8")
    new.replace(new.with_name("digests"))


def prove_in_turn(progress):
    """Has rt prove one crate after another, and make the programs. Returns whether all is well."""

    def rt(step, crate, *words):
        """Runs `rt` in a crate, as a step."""
        command = ["setpriv", "--pdeathsig", "TERM", "rt", *words]  # it ends when this does
        how = {"cwd": CRATES / crate, "stdin": subprocess.DEVNULL, "stderr": subprocess.STDOUT}
        return progress.run(
            step, lambda file: subprocess.run(command, stdout=file, **how).returncode
        )

    if not all(rt(crate, crate, "lib") for crate in LIBRARIES):
        return False
    for level, options in LEVELS.items():
        if not rt(level, MAIN, "run", *options, "--", "sha256sum"):
            return False
        keep(level, CRATES / MAIN / "out" / MAIN)
    return True


def prove(progress):
    """Proves the crates in the kit's lanes if the kit is known, and otherwise in turn. Returns
    whether all is well."""
    try:
        lanes = Lanes(LIBRARIES, MAIN, progress.run, progress.on_terminal)
    except OtherKit as why:
        print(f"digests: {why}: one crate is proved after another", flush=True)
        return prove_in_turn(progress)
    return lanes.prove(LEVELS, is_kept, keep)


def link_fastest():
    """Links out/digests to the fastest program that runs here."""
    how = {"stdin": subprocess.DEVNULL, "capture_output": True}
    fast = subprocess.run([OUT / "x86-64-v3/digests", "sha256sum"], **how)
    level = "default" if fast.returncode else "x86-64-v3"
    subprocess.run(["ln", "-f", OUT / level / "digests", OUT], check=True)


def main():
    """Builds what is stale."""
    log = OUT / "build.log"
    log.write_text(subprocess.check_output(["rt", "version"], text=True), "utf-8")
    if not prove(Progress(titles(), OUT)):
        sys.exit(f"digests: the build failed; all that the kit said is in {log}")
    link_fastest()


if __name__ == "__main__":
    signal.signal(signal.SIGINT, signal.SIG_DFL)
    main()
