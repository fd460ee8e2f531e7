"""What `tools/clauses.py` makes of the kit's lines on what isn't proved: each has a form that is
known, or is refused."""

from harness import Case
from unproved import conclusion_of, unproved

IN_COPY = "/tmp/x/sources/crates"
SAID = f"""\
so far: fn sum_engine::put: not proved
{IN_COPY}/sum_engine/proofs/put/Answers.antt:6:6: error: `returns`: expected type `x`
  but this has type `y`
{IN_COPY}/sum_engine/proofs/put/Answers.antt:5:5: note: `rw` rewrote the goal
{IN_COPY}/sum_engine/proofs/give/Answers.antt:6:6: error: `put-requires-1`: expected type `x`
{IN_COPY}/sum_engine/proofs/tell/Answers.antt:7:1: error: 1 declaration that depends on `l`, which
{IN_COPY}/sum_engine/proofs/Lemmas.antt:3:9: error: `first`: expected type `x`
{IN_COPY}/sum_engine/specs/Laws.antt:9:3: error: `second`: `Unit {{0}}` (expected)
{IN_COPY}/sum_engine/proofs/Lemmas.antt:5:1: error: 2 declarations that depend on `first`, which
{IN_COPY}/sum_engine/proofs/Lemmas.antt:8:2: error: `clip-x`: give the call less to do: list the
  `grind` broke off: the call's work took more than 10000000 steps
fn sum_engine::put: not proved
fn sum_engine::give: not proved
fn sum_engine::tell: not proved
fn sum_engine::find: not proved: `search` did not prove `returns-clause-found`
fn sum_engine::call: no proof: it calls `sum_engine::put`, which is not proved
fn sum_engine::rest: proved
crate all: modules loaded=3 checked=4
logic=not-proved
"""


class Unproved(Case):
    of_the_repository = True

    def test_known_forms(self):
        """What is only named by something else isn't missed, and needn't be."""
        functions, lemmas = unproved(SAID)
        wanted = dict.fromkeys(("sum_engine::put", "sum_engine::find"), False)
        self.assertEqual(functions, {**wanted, "sum_engine::give": True})
        self.assertEqual(
            lemmas,
            [
                ("sum_engine/proofs/Lemmas.antt", 3, False),
                ("sum_engine/specs/Laws.antt", 9, True),
            ],
        )

    def test_unknown_forms(self):
        for line in (
            "fn sum_engine::put: could not tell",
            "fn sum_engine::put",
            "src/lib.rt:3:4: error[E1]: no such name",
            f"{IN_COPY}/sum_engine/src/lib.rt:3:4: error: `put`: expected type",
            "error: no file",
            "rattle: error: no such function",
            "rattle: no verdict: out of memory",
        ):
            with self.subTest(line=line):
                self.assertRaises(ValueError, unproved, f"{SAID}{line}\n")

    def test_conclusions(self):
        text = "-- A.\nfirst : (a : X) →\n    IsGood a → IsBest a\nfirst a = a\n\nb : X ↔ Y\nb = c"
        self.assertEqual(conclusion_of(text, 4), {"IsBest", "a"})
        self.assertEqual(conclusion_of(text, 7), set())
