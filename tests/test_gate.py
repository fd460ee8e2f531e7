"""What is made of the gate's lines: a wrong version counts as refused only by a line of a known
form."""

import os

from gate import outcomes
from repository import Repository
from sources import TOP

AT = "note: src/a.rt:3:5: the goal (`returns`) isn't proved"
REFUSED = f"refused, as it must be: {AT}"
UNKNOWN = (
    "refused, as it must be (only because a proof file names what the edit took away): x",
    "refused, as it must be (only by a limit of the prover): x",
    "refused, as it must be: the borrow checker says so",
    "refused, as it must be",
    "refused",
    "passed",
)


class Gate(Repository):
    def setUp(self):
        super().setUp()
        self.run_command(["cp", os.path.join(TOP, "test"), self.top])

    def closing(self, *lines, of_gate="{} passed, 0 failed"):
        """Returns the last line of `./test` if the gate prints these lines on wrong versions, and
        closes with the line that counts them."""
        said = "".join(
            f"rt: must-fail low/{number}.edit: {line}\n" for number, line in enumerate(lines)
        )
        self.write_command(
            "rt", f"#!/bin/sh\ncat <<'EOF'\n{said}{of_gate.format(len(lines))}\nEOF\n"
        )
        ran = self.script("test")
        self.assertEqual(ran.status, 1, ran.err)
        return ran.out.decode().splitlines()[-1]

    def test_lines(self):
        for line in UNKNOWN:
            with self.subTest(line=line):
                self.assertEqual(self.closing(line, REFUSED), "1 passed, 1 failed")
        # The gate counts no bad edit, and itself those that aren't refused.
        wanted = "1 passed, 1 failed"
        self.assertEqual(self.closing(REFUSED, "BAD EDIT: x", of_gate="1 passed, 0 failed"), wanted)
        self.assertEqual(self.closing(REFUSED, "NOT REFUSED: x", of_gate=wanted), wanted)

    def test_broken_off(self):
        """The closing line of an earlier run isn't shown again."""
        self.assertEqual(self.closing(UNKNOWN[0]), "0 passed, 1 failed")
        self.assertEqual(self.closing(REFUSED, of_gate="rt: no room"), "rt: no room")

    def test_outcomes(self):
        """What `tools/refusals.py` takes of the lines: the place of a goal, or nothing."""
        rows = [(AT, REFUSED), (AT, f"{REFUSED} (3 of 9)"), *((None, line) for line in UNKNOWN)]
        for said, outcome in rows:
            line = f"rt: must-fail low/a.edit: {outcome}"
            self.assertEqual([*outcomes(["rt: low proved", line])], [("low/a", said)])
        self.assertEqual([*outcomes(["rt: must-fail a"])], [("rt: must-fail a", None)])
