"""Checks in copies, which change nothing here: of crates with other texts in the place of some of
theirs, over what an earlier check has kept. Two copies never wait for each other, and none is below
the repository, where `rt` would find its crates."""

import os
import re
import shutil
import subprocess
import sys
from pathlib import Path

KB_OF_A_CHECK = 3_000_000


def at_once():
    """Returns how many checks run at once: as many as there are processors and memory for."""
    free = int(re.search(r"MemAvailable: *(\d+)", Path("/proc/meminfo").read_text("utf-8"))[1])
    return max(1, min(len(os.sched_getaffinity(0)), free // KB_OF_A_CHECK))


def copy(folder, names, target):
    """Copies what there is of these names below a folder, by hard links if possible."""
    os.makedirs(target, exist_ok=True)
    names = [name for name in names if Path(folder, name).exists()]
    for how in ("-al", "-a"):
        command = ["cp", how, "--parents", *names, target]
        if subprocess.run(command, cwd=folder, stderr=subprocess.DEVNULL).returncode == 0:
            return
    sys.exit(f"{folder} can't be copied to {target}: is there room for it?")


def put(texts, folder):
    """Puts texts, by their paths in a copy, in the place of those there."""
    for path, text in texts.items():
        (folder / path).unlink()  # or the text would change the original, too
        (folder / path).write_text(text, "utf-8")


def check(own, words, kept=None, keeps=False):
    """Checks a crate in a copy, by `rt check` with these words, over the work that was kept in a
    folder, if there is any. With `keeps`, the work of this check takes its place. Returns what the
    kit says, and whether the crate is proved."""
    work = own / "out/incremental"
    if kept and kept.is_dir():
        copy(kept, ["."], work)
    how = {"stdin": subprocess.DEVNULL, "stdout": subprocess.PIPE, "stderr": subprocess.STDOUT}
    ran = subprocess.run(["rt", "check", *words], cwd=own, text=True, errors="replace", **how)
    if keeps and work.is_dir():
        shutil.rmtree(kept, ignore_errors=True)
        shutil.move(work, kept)
    return ran.stdout, ran.returncode == 0
