#!/usr/bin/env python3
"""What the kit says of wrong versions. `rt ci | tools/gate.py CHECKS FILE` prints the gate's lines,
with how many of the checks are over, and puts the line that counts all into a file.

The gate counts a refusal by no contract as passed, and no bad edit at all. Here both count as
failed, and so does a line on a wrong version that has no known form."""

import re
import sys
from pathlib import Path

# A line on a wrong version: its name, and what came of it.
LINE = re.compile(
    r"rt: must-fail (?P<name>\w+/[\w.-]+)\.edit: (?P<outcome>.*?)(?: \(\d+ of \d+\))?"
)
# The forms of what came of it: it is refused, by what is said of a place in the crate; or it isn't,
# which the gate counts itself, but for a bad edit.
REFUSED = re.compile(
    r"refused, as it must be: (?P<said>(?:note: )?(?:\./)?(?:src|specs|proofs)/\S*:\d+:\d+: .*)"
)
FAILED = re.compile(r"BAD EDIT: |NOT TRIED: |NOT REFUSED: ")
BAD = re.compile(r"rt: .*: BAD EDIT: ")
CHECKED = re.compile(r"rt: (?:\w+ (?:NOT PROVED|proved)|must-fail )")  # a check is over
CLOSING = re.compile(r"(\d+) passed, (\d+) failed")


def outcomes(lines):
    """Yields what is said of wrong versions: of each its name, such as `sum_lines/NAME`, and what
    the kit says of the place where it is refused; or None, if it isn't refused there or the line
    has another form. Then the name may be the line."""
    for line in lines:
        if line.startswith("rt: must-fail "):
            of_edit = LINE.fullmatch(line)
            refused = of_edit and REFUSED.fullmatch(of_edit["outcome"])
            yield of_edit["name"] if of_edit else line, refused and refused["said"]


def is_counted(line):
    """Returns whether the gate itself counts a line as failed, or `BAD` does."""
    of_edit = LINE.fullmatch(line)
    return of_edit and FAILED.match(of_edit["outcome"])


def main(checks, path):
    """Prints what comes in, and after it the wrong versions that no contract refuses. Returns the
    status: 1 if there is one, if the gate counts one, or if it was broken off."""
    Path(path).unlink(missing_ok=True)
    weak, done, bad, last = [], 0, 0, None
    for line in sys.stdin:
        if last is not None:
            print(last, flush=True)
        last = line.rstrip("\n")
        bad += bool(BAD.match(last))
        weak += [name for name, said in outcomes([last]) if not said and not is_counted(last)]
        if CHECKED.match(last):
            done += 1
            last += f" ({done} of {checks})"
    for name in weak:
        print(f"test: {name} isn't refused by a contract, as far as its line says")
    closing = CLOSING.fullmatch(last or "")
    if not closing:
        print(last)
        return 1
    passed, failed = int(closing[1]) - len(weak), int(closing[2]) + len(weak) + bad
    Path(path).write_text(f"{passed} passed, {failed} failed\n", "utf-8")
    return int(failed > 0)


if __name__ == "__main__":
    sys.exit(main(*sys.argv[1:]))
