#!/usr/bin/env python3
"""Makes the checks of libraries that the gate leaves out, after a build: `tools/checks.py [--anew]
[CRATE ..]`. The prover must accept the twins of wrong versions, and no public clause may name a
private field. Without `--anew`, a crate is left out if nothing has changed since it passed.

A twin is an edit, as a wrong version is, with right code in place of the wrong one: the lines
`wrong: ..` and `right: ..` of the wrong version say what is replaced, and by what."""

import fcntl
import hashlib
import os
import re
import shutil
import subprocess
import sys
import tempfile
from concurrent.futures import ThreadPoolExecutor, wait
from pathlib import Path

sys.dont_write_bytecode = True  # nothing is to be left beside these files

import copies
from copies import at_once, copy, put
from sources import TOP, below, crates_of_program

OUT = Path(TOP, "out", "checks")
LIBRARIES = crates_of_program()[:-1]
TWINS_IN_A_CHECK = 16  # at most, if they fit together


def adds_code(edit):
    """Returns whether an edit adds a function, a struct or a call."""
    counts = {}
    for word in ("old", "new"):
        code = "".join(re.findall(f"(?m)^{word}: .*", edit))
        counts[word] = len(re.findall(r"\b(?:fn|struct) |\b[a-z]\w*\(", code))
    return counts["new"] > counts["old"]


def twin_of(path):
    """Returns the twin of a wrong version, or "" if it has none. One that adds code must have
    one."""
    edit, *pairs = re.split(r"(?m)^wrong: (.*)\nright: ?(.*)\n", path.read_text("utf-8"))
    if not pairs and adds_code(edit):
        sys.exit(f"{path} has no twin: add to it the lines `wrong: ..` and `right: ..`")
    for wrong, right in zip(pairs[::3], pairs[1::3]):
        if edit.count(wrong) != 1:
            sys.exit(f"{path} must have this once above the first `wrong: ..`: {wrong}")
        edit = edit.replace(wrong, right)
    return edit if pairs else ""


def twins_of(crate):
    """Returns the twins of a crate's wrong versions, by their names."""
    paths = sorted(Path(TOP, "crates", crate, "must-fail").glob("*.edit"))
    twins = {path.stem: twin_of(path) for path in paths}
    return {name: twin for name, twin in twins.items() if twin}


def texts_after(edit, crate):
    """Returns the texts of the files that an edit changes, by their paths in the crate; nothing if
    it doesn't fit."""
    texts, path, old = {}, "", ""
    for line in edit.split("\n"):
        word, _, rest = line.partition(":")
        if word == "file":
            path = rest.strip()
            texts.setdefault(path, Path(TOP, "crates", crate, path).read_text("utf-8"))
        elif word == "old":
            old = rest[1:]
        elif word == "new":
            if texts[path].count(old) != 1:
                return {}
            texts[path] = texts[path].replace(old, rest[1:])
    return texts


def groups_of(crate, twins):
    """Returns the twins of a crate in groups, each of which fits into one edit, by their names. No
    two of a group write a function of the same name."""

    def functions(edit):
        return {*re.findall(r"\bfn (\w+)", "".join(re.findall("(?m)^new: .*", edit)))}

    def has_room(group, edit):
        joined = "".join(group.values())
        if len(group) == TWINS_IN_A_CHECK or functions(joined) & functions(edit):
            return False
        return texts_after(joined + edit, crate)

    groups = []
    for name, edit in twins.items():
        group = next((group for group in groups if has_room(group, edit)), None)
        if group is None:
            group = {}
            groups.append(group)
        group[name] = edit
    return groups


def copy_crates(names, folder):
    """Makes a repository of these crates alone, with the libraries that were made of them."""
    lines = Path(TOP, "crates.txt").read_text("utf-8").splitlines(keepends=True)
    own_lines = [line for line in lines if line.split(":")[0] in names]
    Path(folder, "crates.txt").write_text("".join(own_lines), "utf-8")
    for name in names:
        target = Path(folder, "crates", name)
        os.makedirs(target)
        copy(Path(TOP, "crates", name), ["src", "specs", "proofs", "out/rlib"], target)


def check(crate, texts, *flags, kept=None):
    """Checks a copy of a crate with these texts in place of its own, over what was kept; if nothing
    was, this check keeps its work. Returns what the kit says, and whether the crate is proved."""
    with tempfile.TemporaryDirectory(prefix="digests-check-") as folder:
        copy_crates([*below(crate), crate], folder)
        own = Path(folder, "crates", crate)
        put(texts, own)
        keeps = kept is not None and not kept.is_dir()
        return copies.check(own, ["--jobs", "1", *flags], kept, keeps)


def is_accepted(crate, edit, kept):
    """Returns whether an edit fits, and the crate is proved with it."""
    texts = texts_after(edit, crate)
    return bool(texts) and check(crate, texts, kept=kept)[1]


def refused(crate, group, kept):
    """Returns a line for each twin of a group that doesn't fit or isn't proved. All are tried at
    once, and then each alone."""
    if is_accepted(crate, "".join(group.values()), kept):
        return []
    names = [name for name, edit in group.items() if not is_accepted(crate, edit, kept)]
    return [f"refused: {name}" for name in names]


def private_fields(crate):
    """Returns what the kit says of a crate whose public clauses name a private field."""
    output, _ = check(crate, {}, "--private-fields", "--only", "")
    return [] if "private fields: 0 found" in output else [output]


def kept_of(crate):
    """Returns where a check of a crate has kept its work or, if none has, where one will."""
    kept = Path(TOP, "crates", crate, "out/incremental")
    if not kept.is_dir():
        kept = OUT / f"{crate}.kept"
        shutil.rmtree(kept, ignore_errors=True)
    return kept


def failures_of(crate, twins, pool):
    """Returns a line for each check of a crate that failed. The first group of twins is tried
    alone, over what was kept, or to keep it. The others are tried at once."""
    kept, tried = kept_of(crate), []
    for group in groups_of(crate, twins):
        tried.append(pool.submit(refused, crate, group, kept))
        wait(tried[:1])
    tried.append(pool.submit(private_fields, crate))
    return [failure for ended in tried for failure in ended.result()]


def state_of(crate):
    """Returns a sum of all that the checks of a crate read, and of the kit."""
    version = subprocess.run(["rt", "version"], stdout=subprocess.PIPE, check=True).stdout
    state = hashlib.sha256(version)
    for name in [*below(crate), crate]:
        for part in ("src", "specs", "proofs", "must-fail"):
            for path in sorted(Path(TOP, "crates", name, part).rglob("*.*")):
                if path.is_file():
                    state.update(f"{path}\n".encode() + path.read_bytes())
    return state.hexdigest()


def main(words):
    """Checks the libraries that the words name, or all, and returns the status."""
    crates = [word for word in words if word != "--anew"] or LIBRARIES[::-1]  # the longest first
    if unknown := set(crates) - set(LIBRARIES):
        sys.exit(f"checks.py: no library of the program is called {' '.join(sorted(unknown))}")
    OUT.mkdir(parents=True, exist_ok=True)
    lock = open(OUT / "lock", "w")  # held until this process ends
    fcntl.flock(lock, fcntl.LOCK_EX)
    states = {crate: state_of(crate) for crate in crates}
    passed = {crate: OUT / f"{crate}.passed" for crate in crates}

    def is_unchanged(crate):
        return passed[crate].exists() and passed[crate].read_text("utf-8") == states[crate]

    changed = [crate for crate in crates if "--anew" in words or not is_unchanged(crate)]
    twins = {crate: twins_of(crate) for crate in changed}
    status = 0
    with ThreadPoolExecutor(at_once()) as pool, ThreadPoolExecutor(len(crates)) as waiting:
        tried = [waiting.submit(failures_of, crate, twins[crate], pool) for crate in changed]
        for crate, ended in zip(changed, tried):
            failures = ended.result()
            outcome = ["failed:", *failures] if failures else ["as they must be"]
            print(f"{crate}: {len(twins[crate])} twins and private fields:", *outcome, flush=True)
            passed[crate].write_text("" if failures else states[crate], "utf-8")
            status = 1 if failures else status
    return status


if __name__ == "__main__":
    if {"-h", "--help"} & {*sys.argv[1:]}:
        sys.exit(print(__doc__))
    sys.exit(main(sys.argv[1:]))
