"""Recipes that call gpgv or pv, with the real ones: what is signed or not signed, and what can't be
read."""

import os
import random
import shutil

import harness
from harness import as_bytes
from recipes import IMAGE, Row, Rows, Typed, line_of
from texts import failed, ok

BY_PV = {"write by pv", "check by pv"}
# A file that can't be read, or only in part.
ROWS = {
    "missing": Row("rm image.iso", BY_PV),
    "a directory": Row("rm image.iso; mkdir image.iso", BY_PV),
    "a memory whose reads fail": Row("ln -sf /proc/$PPID/mem image.iso", BY_PV),
}


class Signed(Typed):
    """There are two signers, each with keys in a directory of their own. A reader trusts
    the key of the first, has that of the second, and takes whatever comes with a signature."""

    OUT = as_bytes([ok("./-x"), ok("./a b"), ok("./image.iso")])

    def setUp(self):
        super().setUp()
        if None in map(shutil.which, ("gpg", "gpgconf", "gpgv")):
            self.skipTest("gpg, gpgconf or gpgv isn't installed")
        self.make(good=False, more=["a b", "-x"])
        self.put("image.iso", IMAGE)
        os.remove(self.path("here/SUMS.asc"))
        self.lines = self.lines_of_the_tree()
        for name in ("signer", "other", "stranger", "reader"):
            os.mkdir(self.path(name), 0o700)
            self.addCleanup(
                self.run_command, ["gpgconf", "--homedir", self.path(name), "--kill", "all"]
            )
            self.gpg(name, "--quick-generate-key", name, "future-default", "default", "never")
        for name in ("signer", "other"):
            self.gpg("reader", "--import", stdin=self.gpg(name, "--export"))
        self.write("reader/gpg.conf", "auto-key-import\n")
        self.write("reader/signer.gpg", self.gpg("signer", "--export"))
        self.env["GNUPGHOME"] = os.fsdecode(self.path("reader"))
        self.signed = self.gpg("signer", "--clear-sign", stdin=b"".join(self.lines))

    def gpg(self, name, *words, stdin=b""):
        """Returns what gpg writes with the keys of somebody."""
        ran = self.run_command(
            ["gpg", "--homedir", self.path(name), "--batch", "--passphrase", "", *words], stdin
        )
        self.assertEqual(ran.status, 0, ran.err)
        return ran.out

    def rows(self):
        """Yields what mustn't be accepted, though all that is listed is good: a row has its name
        and what SUMS.asc holds."""
        whole = b"".join(self.lines)
        stored = self.gpg("other", "--armor", "--store", stdin=whole)
        yield "by another key that the reader has", self.gpg("other", "--clear-sign", stdin=whole)
        yield "by a key that the reader hasn't", self.gpg("stranger", "--clear-sign", stdin=whole)
        yield "by a key that comes with it", self.gpg(
            "stranger", "--include-key-block", "--clear-sign", stdin=whole
        )
        yield "not signed", whole
        yield "stored without a signature", self.gpg("other", "--store", stdin=whole)
        yield "stored without a signature, as text", stored
        yield "encrypted to the reader", self.gpg(
            "reader", "--recipient", "reader", "--encrypt", stdin=whole
        )
        yield "encrypted", self.gpg(
            "other", "--pinentry-mode", "loopback", "--passphrase", "x", "-c", stdin=whole
        )
        yield "signed, and more stored", self.signed + stored
        yield "stored, and signed", stored + self.signed
        yield "a signature of SUMS", self.gpg("signer", "--armor", "--detach-sign", stdin=whole)
        yield "changed", self.signed.replace(b"./a b", b"./a  b")
        yield "a line less", self.signed.replace(self.lines[0], b"")
        yield "a line more", self.signed.replace(self.lines[0], self.lines[0] * 2)
        yield "signed, with an improper line", self.gpg(
            "signer", "--clear-sign", stdin=whole + b"improper\n"
        )
        yield "signed, and empty", self.gpg("signer", "--clear-sign", stdin=b"")
        yield "empty", b""
        for length in (
            99,
            len(self.signed) // 2,
            self.signed.rindex(b"=") - 9,
            len(self.signed) - 30,
        ):
            yield f"cut off after {length} bytes", self.signed[:length]

    def test_lists(self):
        self.put("SUMS", b"".join(self.lines))
        for row, content in self.rows():
            self.put("SUMS.asc", content)
            for recipe, _, shell in self.each_recipe("check gpg"):
                with self.subTest(recipe=recipe):
                    self.assertEqual(
                        ok(b"") in self.fails(recipe, shell).out,
                        row == "signed, with an improper line",
                        row,
                    )
        for change in ("rm SUMS.asc", "mkdir SUMS.asc"):
            self.run_command(["sh", "-c", change], cwd=self.path("here"))
            for recipe, _, shell in self.each_recipe("check gpg"):
                self.fails(recipe, shell)

    def test_files(self):
        """Only what is signed counts, and each file of it."""
        self.put("SUMS.asc", line_of("sha256sum", b"./nothing", b"") + self.signed + b"improper\n")
        for recipe, _, shell in self.each_recipe("check gpg"):
            self.assertEqual(self.type(recipe, shell)[:2], (0, self.OUT))
            for change in ("echo >>'a b'", "rm 'a b'", "mkdir 'a b'"):
                with self.subTest(change=change):
                    self.run_command(["sh", "-c", change], cwd=self.path("here"))
                    self.assertIn(failed(b"./a b"), self.fails(recipe, shell).out)
            os.rmdir(self.path("here/a b"))
            self.put("a b")

    def test_changes_at_random(self):
        """After a change of some byte, it is accepted only if the same is checked as before."""
        shells = [shell for _, _, shell in self.each_recipe("check gpg")]
        for seed in range(harness.SEED, harness.SEED + harness.CASES // 100):
            chance = random.Random(seed)
            place = chance.randrange(len(self.signed))
            other = chance.choice([b"", b" ", b"\n", b"- ", b"0", bytes([chance.randrange(256)])])
            self.put(
                "SUMS.asc",
                self.signed[:place] + other + self.signed[place + chance.choice([0, 1]) :],
            )
            ran = self.type(self.recipe("check gpg"), chance.choice(shells))
            self.assertTrue(ran.status or ran.out == self.OUT, (seed, ran.out))

    def test_blanks(self):
        """After --clear-sign a name that ends in a blank is another one. After --sign it is the
        same."""
        line = line_of("sha256sum", b"./image.iso ", IMAGE)
        for words, status in (["--clear-sign"], 0), (["--sign"], 1), (["--armor", "--sign"], 1):
            self.put("SUMS.asc", self.gpg("signer", *words, stdin=line))
            for recipe, _, shell in self.each_recipe("check gpg"):
                with self.subTest(recipe=recipe):
                    self.assertEqual(self.type(recipe, shell).status, status)


class Shown(Rows):
    def setUp(self):
        super().setUp()
        if shutil.which("pv") is None:
            self.skipTest("pv isn't installed")
        self.restore("pv")

    def lists(self, recipe, sort):
        """Returns the list of what is read of such a file, which is nothing."""
        return {"image.sum": line_of("sha256sum", b"image.iso", b"")}

    def test_pv(self):
        self.make()
        for recipe, _, shell in self.each_recipe(*BY_PV):
            with self.subTest(recipe=recipe):
                self.assertEqual(self.type(recipe, shell).status, 0)
        self.expect_lines("image.sum", [line_of("sha256sum", b"image.iso", IMAGE)])
        self.try_rows(ROWS)
