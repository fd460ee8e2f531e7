"""Recipes over trees and lists at random: the status is 0 only if Python, which reads list and
files itself, finds that all is good. Trees are new each day, or those of `--seed`; 40 of them are
tried with `--cases 4000`."""

import os
import random
import re
import types

import harness
import reference
from recipes import MADE, Typed, line_of
from sources import TOP
from texts import failed

PIECES = [
    b"a",
    b"b",
    b"-",
    b" ",
    b"\t",
    b"\n",
    b"\r",
    b"\\",
    b"n",
    b"*",
    b"'",
    b'"',
    b"$a",
    b"`",
    b"#",
    b"(",
    b")",
    b"=",
    failed(b""),
    b"SUMS.",
    "é".encode(),
    b"\xff",
]
CONTENTS = [b"", b"abc", b"abc\n", bytes(range(256)) * 40]

# What is put into a list in the place of some of its bytes.
DAMAGE = [
    b"",
    b"\n",
    b" ",
    b"  ",
    b"\\",
    b"*",
    b"\0",
    b"\r\n",
    b"#",
    b"0",
    b"/",
    b"\xff",
    b"\xef\xbb\xbf",
]

STRICT = types.SimpleNamespace(strict=True, ignore_missing=False, report="quiet")


def is_text(name):
    return name.decode(errors="replace").encode() == name


class AtRandom(Typed):
    def setUp(self):
        super().setUp()
        self.command("pv", 'exec cat "$@"')
        self.command("gpgv", "exec cat")  # which accepts any list
        self.addCleanup(os.chdir, TOP)

    def change_a_file(self):
        """Makes, changes or removes a file."""
        parts = [
            b"".join(self.random.choices(PIECES, k=self.random.randint(1, 4))) for _ in range(2)
        ]
        name = self.random.choice([b"image.iso", parts[0], b"/".join(parts)])
        try:
            self.put(name, self.random.choice(CONTENTS))
            if self.random.random() < 0.1:
                os.remove(name)
        except OSError:  # something of another type has this name, or that of the directory
            pass

    def damaged(self, content):
        """Returns a list without some of its bytes, with others, or with lines of other forms."""
        start, lines = self.random.randint(0, len(content)), content.splitlines(keepends=True)
        end = start + self.random.choice([0, 1, 2, 70])
        return self.random.choice(
            [
                content[:start],
                content.removesuffix(b"\n"),
                b"".join(lines[1:]),
                b"".join(reversed(lines)),
                content.replace(b"\n", b"\r\n"),
                content.replace(b"  ", b" "),
                content.replace(b"  ", b" ", 1),
                content.replace(b"\\\\", b"\\"),
                *[content[:start] + self.random.choice(DAMAGE) + content[end:]] * 8,
            ]
        )

    def cases(self):
        """For each seed a tree, and lists of it; and whether both are as the recipes are for
        them."""
        for seed in range(harness.SEED, harness.SEED + harness.CASES // 100):
            self.random = random.Random(seed)
            self.make(good=False)
            os.chdir(self.path("here"))
            self.put("image.iso", self.random.choice(CONTENTS))
            for _ in range(self.random.randint(0, 6)):
                self.change_a_file()
            self.put("image.iso", image := self.random.choice(CONTENTS))
            self.lists = {
                "check by pv": line_of("sha256sum", b"image.iso", image),
                "SUMS": b"".join(self.lines_of_the_tree()),
                "check": b"".join(
                    line_of(tool, b"image.iso", image, True) for tool in ("sha256sum", "b2sum")
                ),
            }
            changes, damages = self.random.choice([(0, 0), (0, 0), (1, 0), (0, 1), (0, 2), (1, 1)])
            for _ in range(damages):
                self.lists = {sort: self.damaged(content) for sort, content in self.lists.items()}
            for _ in range(changes):
                self.change_a_file()
            yield seed, not changes + damages and all(map(is_text, self.files_of_the_tree()))

    def is_good(self, tool, content):
        """Returns whether a list has a line, all are proper, and all files match."""
        self.write("list", content)
        return (
            reference.checked(tool, STRICT, [self.path("list")], reference.World(b"")).status == 0
        )

    def is_done(self, sort):
        """Returns whether all that a recipe of this sort is for is good, or was done."""
        files, listed = self.files_of_the_tree(), self.read("here/SUMS")
        image, texts = files.get(b"./image.iso"), reference.lines(listed)
        if sort.startswith("list"):
            is_whole = sorted(listed.splitlines(keepends=True)) == sorted(self.lines_of_the_tree())
            return is_whole and all(map(is_text, files))
        if sort.startswith("write"):
            made = (
                [line_of("sha256sum", b"image.iso", image)]
                if sort == "write by pv"
                else [line_of(tool, b"image.iso", image, True) for tool in ("sha256sum", "b2sum")]
            )
            return sorted(self.read(f"here/{MADE[sort]}").splitlines(keepends=True)) == sorted(made)
        if sort == "check one":
            lines_of_image = {
                text for text in texts if re.fullmatch(rb"[0-9a-f]*  \./image\.iso", text)
            }
            return lines_of_image == {line_of("sha256sum", b"./image.iso", image)[:-1]}
        if sort == "unlisted":
            lines = [re.fullmatch(rb"(\\?)[0-9a-f]+ [ *](.+)", text, re.DOTALL) for text in texts]
            names = {reference.unescape(line[2]) if line[1] else line[2] for line in lines if line}
            return set(files) <= names and not reference.is_reversed("SHA256", texts)
        if sort == "check by pv":
            return image is not None and self.lists[sort] == line_of(
                "sha256sum", b"image.iso", image
            )
        if sort == "not UTF-8":
            return all(map(is_text, files))
        if sort == "check list of others":
            listed = re.sub(rb"(?m)^SHA2-", b"SHA", re.sub(rb"\A\xef\xbb\xbf", b"", listed))
        return self.is_good(
            "anysum" if sort == "check" else "sha256sum", self.lists.get(sort, listed)
        )

    def test_all(self):
        for seed, is_as_meant in self.cases():
            for recipe, sort, shell in self.each_recipe():
                self.put("SUMS", self.lists["SUMS"])
                if sort in self.lists:
                    self.put(recipe.strip(")").split()[-1], self.lists[sort])
                status = self.type(recipe, shell).status
                self.assertTrue(status or self.is_done(sort), recipe)
                self.assertFalse(status and is_as_meant, recipe)
                for made in filter(self.is_there, MADE.values()):
                    os.remove(made)
