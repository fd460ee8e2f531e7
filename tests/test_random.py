"""Command lines and manifests at random, against the reference: new ones each day, or those of
`--seed`."""

import os
import random
import socket

import harness
import reference
import reference_words
from harness import Case
from sources import TOP

# What names are made of: whatever lines, escapes and words treat specially.
CHARACTERS = [
    "a",
    "b",
    "n",
    "r",
    "0",
    "f",
    "é",
    " ",
    "\t",
    "*",
    "\\",
    "\n",
    "\r",
    "(",
    ")",
    "=",
    "#",
    "-",
]

# Names under which no file can be read.
UNREADABLE = [
    "folder",
    "folder/",
    "folder/x",
    "loop",
    "loop/x",
    "a/",
    "a/x",
    "socket",
    "n" * 256,
    "./" * 2048 + "a",
]

# What is put into lines in place of a few of their bytes.
DAMAGE = [
    b"",
    b" ",
    b"  ",
    b"\t",
    b"\\",
    b"*",
    b"(",
    b")",
    b"=",
    b"#",
    b"\r",
    b"\r\r",
    b"\0",
    b"\xff",
    b"n",
    b"0",
    b"8",
    b"F",
    b"-",
    b"BLAKE2b-",
    b"MD5",
    b"SHA1",
]

WORDS = """\
    -b -c -t -z -w -bz -cw -cq -zl -bl256 -l -l8 -l256 -é --length --length=8 --len --le --l --s
    --st --sta --str --t --te --ta --c --z --w --q --i --b --bin --v --ver --h --he --=x --foo
    --foo=1 --tag= --tag=1 --help=1 --\\ -- - 256 0 512 520 12 0256 +8 ٣ a e x folder
    manifest""".split()
WORDS += [f"--{name}" for name in reference_words.NAMES]
WORDS += ["", "9" * 50, "0" * 30 + "8", "-b\n", "--a\nb", "q\\\nz"]
WORDS += ["\udcff", "r\udce9\n", "-\udcff", "-l\udcfc", "--\udcc3\n"]  # which aren't UTF-8


class AtRandom(Case):
    """Each case is run by the program and by the reference, in a folder of names that are hard to
    write."""

    def setUp(self):
        super().setUp()
        os.chdir(self.folder)
        self.addCleanup(os.chdir, TOP)
        os.mkdir("folder")
        os.symlink("loop", "loop")
        with socket.socket(socket.AF_UNIX) as made:
            made.bind("socket")

    def cases(self):
        """Makes the files of each case. A case depends on its own seed alone, one more than that of
        the case before."""
        for self.seed in range(harness.SEED, harness.SEED + harness.CASES):
            self.random, self.files = random.Random(self.seed), {}
            names = [
                "a",
                "e",
                "-b",
                " a",
                "*a",
                "a)",
                "q\\\nz",
                "a\rb",
                *(self.a_text() for _ in range(8)),
            ]
            for name in [name for name in names if name not in ("-", "manifest")]:
                self.files[name] = self.random.choice(
                    [b"", b"abc", b"q" * self.random.randrange(300)]
                )
                self.write(name, self.files[name])
            yield
            for name in self.files:
                os.remove(name)

    def a_text(self):
        return "".join(self.random.choices(CHARACTERS, k=self.random.randint(1, 5)))

    def a_name(self):
        """Returns the name of a file; now and then standard input, one that can't be read, or one
        that may not be there."""
        if self.random.random() < 0.75:
            return self.random.choice(list(self.files))
        return self.random.choice(["-", self.random.choice(UNREADABLE), "x", self.a_text()])

    def a_line(self, tool):
        """Returns a line of a manifest, mostly right, in some style, and sometimes damaged."""
        if tool == "anysum" or self.random.random() < 0.1:
            tool = self.random.choice(list(harness.TOOLS))
        tag, size = reference.ALGORITHMS[tool]
        if tag == "BLAKE2b" and self.random.random() < 0.5:
            size = self.random.randint(1, 64)
        name = self.a_name()
        content = self.files.get(name, b"") + self.random.choice([b""] * 9 + [b"!"])
        mode = self.random.choice(["text", "binary", "tag", "tag", "reversed"])
        of_content = reference.digest(tag, size, content)
        line = reference.line(mode, False, tag, name.encode(), of_content).removesuffix(b"\n")
        if mode == "reversed":
            line = line.replace(b"  ", b" ", 1)
        if self.random.random() < 0.2:
            line = line.replace(of_content.hex().encode(), of_content.hex().upper().encode())
        for _ in range(self.random.choice([0, 0, 0, 1, 1, 2, 3])):
            start = self.random.randint(0, len(line))
            line = (
                line[:start]
                + self.random.choice(DAMAGE)
                + line[start + self.random.choice([0, 0, 1, 1, 2]) :]
            )
        return line

    def a_manifest(self, tool):
        text = b""
        for _ in range(self.random.randrange(7)):
            other = self.random.choice([b"", b"#c", b"junk", b"\r", b" ", b"\\"])
            text += self.a_line(tool) if self.random.random() < 0.85 else other
            text += self.random.choice([b"\n", b"\n", b"\n", b"\r\n"])
        return text[:-1] if self.random.random() < 0.3 else text

    def compare(self, tool, words):
        """Runs the words over a new manifest and some standard input."""
        manifest = self.a_manifest(tool)
        self.write("manifest", manifest)
        stdin = self.random.choice([b"", b"abc", b"x" * 9000, self.a_manifest(tool)])
        expected = reference_words.meaning(tool, words, stdin)
        again = f"tests/run.py --only {self.id()} --seed {self.seed} --cases 1 {harness.PROGRAM}"
        self.assertEqual(
            self.run_words([tool, *words], stdin), expected, (again, tool, words, manifest, stdin)
        )

    def test_manifests(self):
        for _ in self.cases():
            words = ["-c"]
            words += self.random.sample(
                ["--ignore-missing", "--strict", "-w", "--quiet", "--status"],
                self.random.choice([0, 0, 1, 1, 2]),
            )
            words += self.random.choice(
                [
                    ["manifest"],
                    ["manifest"],
                    ["manifest"] * 2,
                    [],
                    ["-"],
                    [self.random.choice(UNREADABLE), "manifest"],
                    ["manifest", "x", "-"],
                ]
            )
            self.compare(self.random.choice(list(reference.ALGORITHMS)), words)

    def test_words(self):
        for _ in self.cases():
            words = self.random.choices(WORDS + UNREADABLE, k=self.random.randrange(6))
            self.compare(self.random.choice(list(reference.ALGORITHMS)), words)
