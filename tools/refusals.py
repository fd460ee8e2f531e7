#!/usr/bin/env python3
"""Regenerates the table of docs/TESTING.md: which clause refuses which wrong version.

    tools/refusals.py         calls `rt must-fail`
    tools/refusals.py FILE    takes a file with the output of that call, of the gate or of `./test`

Each wrong version must begin with a sentence: what it does, and what a user would see."""

import os
import re
import subprocess
import sys

sys.dont_write_bytecode = True  # nothing is to be left beside these files

from gate import outcomes
from rattle import Code
from sources import TOP, dependencies, files, text_of, with_part, write_pages

PAGE = "docs/TESTING.md"
SENTENCE = re.compile(r"[A-Z].*\.\n")
# A goal of a function's own, at a line of the code, whose end may be cut; or in a proof, of the
# function that the folders name. A proof that names a goal which is gone shows nothing.
AT = re.compile(r"note: src/([\w/]+\.rt):(\d+):\d+: [^(]*\(`([^`]*)(`?)")
IN_PROOF = re.compile(
    r"(?:note: )?(?:\./)?proofs/([\w/]+)\.antt:\d+:\d+: error: `([^`]*)`: (?!`goal\.)"
)


def function_of(code, crate, path):
    """Returns the path of the function whose proof is in a file, or the file, if it is a
    lemma's."""
    *folders, file = path.split("/")
    for function in code.functions:
        if function.crate == crate and folders[-1:] == [function.name]:
            of_file = function.file.removesuffix(".rt").split("/")
            above = [function.above.block] if function.above else of_file
            if above in (folders[-2:-1], folders[:-1]):
                return function.path
    return file


def labels_of(code, crate, path):
    """Returns the labels of a function's clauses, and of those that its trait has; `result` for one
    without a label."""
    of_crate = [function for function in code.functions if function.crate == crate]
    own = [function for function in of_crate if function.path == path]
    asked = {(function.trait, function.name) for function in own}
    of_trait = [function for function in code.functions if (function.owner, function.name) in asked]
    labels = {clause.label for function in own + of_trait for clause in function.clauses} - {None}
    if not labels and not of_trait and any(function.trait for function in own):
        return {"result"}  # of a trait of the kit, whose clauses aren't here
    return labels


def goal_of(name, is_whole, labels):
    """Returns what a goal shows: a clause, what a callee requires, the invariant of a loop or a
    type, or a part of the function's proof. None for a clause that isn't one of these labels. The
    end of a name that isn't whole may be cut."""
    if name.startswith("returns"):
        return clause_of(name, is_whole, labels)
    for pattern, text in (
        (r"(\w+)[\w-]*-requires", "what `{}` requires"),
        (r"(?:loop-)?(\w+)-(?:init|preserved)", "loop's `{}`"),
        (r"invariant_of-(\w+)", "the invariant of `{}`"),
        (r"(invariant)", "the {} of its type"),
    ):
        if parts := re.match(pattern, name):
            return text.format(parts[1])
    if not is_whole and "invariant".startswith(name):
        return "the invariant of its type"
    return "its proof"


def clause_of(name, is_whole, labels):
    """Returns the label of the clause that a goal of a return shows, or None if it is none of
    these. A goal doesn't name a clause that stands alone, or that is the only one about this
    return: then it may be any of them."""
    _, marked, label = name.rpartition("-clause-")
    if not marked:
        return " or ".join(sorted(labels)) or None
    if label in labels:
        return label
    longer = [] if is_whole else [known for known in labels if known.startswith(label)]
    return min(longer, default=None)


def function_at(code, crate, file, line):
    """Returns the path of the function that stands at a line of a file, or ""."""
    for function in code.functions:
        if (function.crate, function.file) == (crate, file) and line in function.in_source:
            return function.path
    return ""


def refused_by(code, name, said):
    """Returns the function and the goal that refuse a wrong version, by what the kit says."""
    crate, in_code, in_proof = name.split("/")[0], AT.match(said), IN_PROOF.match(said)
    if in_code:
        file, line, goal, end = in_code.groups()
        function, is_whole = function_at(code, crate, file, int(line)), bool(end)
    elif in_proof:
        path, goal = in_proof.groups()
        function, is_whole = function_of(code, crate, path), True
    else:
        sys.exit(f"{name} isn't refused by a goal that can be read: {said}")
    shown = goal_of(goal, is_whole, labels_of(code, crate, function))
    if not shown:
        sys.exit(f"{name}: {function} has no clause as in {said}")
    return function, shown


def table(refusals):
    """Returns the table: for each function its goals, with the wrong versions that each refuses."""
    rows, code, crates = {}, Code(), list(dependencies())
    for name, said in refusals.items():
        function, goal = refused_by(code, name, said)
        crate, edit = name.split("/")
        rows.setdefault((crate, function), {}).setdefault(goal, []).append(edit)
    lines = ["|crate|function|clause: wrong versions|", "|---|---|---|"]
    for crate, function in sorted(rows, key=lambda row: (crates.index(row[0]), row[1])):
        goals = sorted(rows[crate, function].items())
        cell = "; ".join(f"{goal}: {', '.join(names)}" for goal, names in goals)
        lines.append(f"|{crate}|`{function}`|{cell}|")
    return "\n".join(lines)


def main():
    """Writes the table of the file that is named, or of what the kit says now."""
    edits = {f"{crate}/{name}": path for crate, name, path in files("must-fail", ".edit")}
    if silent := [name for name, path in edits.items() if not SENTENCE.match(text_of(path))]:
        sys.exit(f"{', '.join(silent)}: begin this with a sentence, which says what it does")
    if sys.argv[1:]:
        output = text_of(os.path.abspath(sys.argv[1]))
    else:
        command = ["rt", "must-fail"]
        output = subprocess.run(command, cwd=TOP, stdout=subprocess.PIPE, encoding="utf-8").stdout
    refusals = dict(outcomes(output.splitlines()))
    if wrong := [
        name for name in {**edits, **refusals} if name not in edits or not refusals.get(name)
    ]:
        sys.exit(f"no line of a known form says what refuses {', '.join(wrong)}")
    write_pages({PAGE: with_part(text_of(PAGE), "refusals", table(refusals))})


if __name__ == "__main__":
    main()
