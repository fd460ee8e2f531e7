"""The recipes of the manual pages, and a directory in which tests type them."""

import os
import re
import shutil
from typing import NamedTuple

import harness
import reference
from harness import TOOLS, Case, Ran, hasher
from manual import PAGES, sections_of

# What a recipe is for, and how it is known. Each recipe is of one sort.
SORTS = {
    "write": r"^\(set -C; \w+( -l 256)? image\.iso > image\.sum\)$",
    "write two": r" b2sum --tag image\.iso\)",
    "write at once": r"\btee ",
    "write by pv": r"^pv .*image\.iso/' > ",
    "list": r" -exec ",
    "list on all": r" xargs ",
    "check": r"^\w+ -c --strict image\.\w+$",
    "check download": r" --ignore-missing ",
    "check by pv": r"\bcmp - image\.sum",
    "check list": r"^digests \w+ -c --quiet --strict SUMS$",
    "check list on all": r"\bsplit ",
    "check list of others": r"\\xef",
    "check gpg": r"\bgpgv ",
    "check names": r"printf '%b",
    "check one": r"^grep ",
    "unlisted": r" uniq -u ",
    "not UTF-8": r" sed -nz ",
}

# The list that a recipe of such a sort makes.
MADE = {
    "list": "SUMS",
    "list on all": "SUMS",
    "write": "image.sum",
    "write by pv": "image.sum",
    "write two": "image.tagged",
    "write at once": "image.tagged",
}

# What the recipes call besides a tool, `gpgv` and `pv`: without one of these no recipe is typed.
COMMANDS = (
    "cmp",
    "find",
    "grep",
    "mktemp",
    "mv",
    "nproc",
    "rm",
    "sed",
    "sort",
    "split",
    "tee",
    "tr",
    "uniq",
    "wc",
    "xargs",
)

# What bash has, and another shell may not have; and the shells in which all other recipes are
# typed.
OF_BASH, SHELLS = re.compile(r"pipefail|>\("), ("bash", "dash", "zsh")

GOOD = [
    "image.iso",
    "image.iso.old",
    "image.new",
    "SUMS.new",
    "a b",
    " ",
    "-x",
    "*",
    "'\"",
    "\u00e9",
    "new\nline",
    "back\\slash",
    "\\n",
    "end\r",
    "some folder/c",
    "some folder/SUMS",
    "some folder/SUMS.new",
    "some folder/image.iso",
    *(f"many/{number}" for number in range(40)),
]
IMAGE = bytes(range(256)) * 256


def recipes_of(page):
    """Yields the recipes of a page, in its order, each with its sort."""
    for recipe in re.findall(r"(?ms)^\.nf\n(.*?)\n\.fi$", sections_of(page)["EXAMPLES"]):
        sorts = [sort for sort, mark in SORTS.items() if re.search(mark, recipe, re.MULTILINE)]
        if len(sorts) != 1:
            raise ValueError(f"this recipe of {page} has the sorts {sorts}: {recipe}")
        yield recipe, sorts[0]


def commands_of(recipe):
    """Returns the commands that a recipe calls."""
    names = (*COMMANDS, "digests", "anysum", "gpgv", "pv")
    return [name for name in names if re.search(rf"\b{name}\b", recipe)]


def line_of(tool, name, content, tagged=False):
    """Returns the line of a list, as the standards and the page's LINE FORMATS say."""
    tag, _, _ = TOOLS[tool]
    mode = "tag" if tagged else "text"
    return reference.line(mode, False, tag, name, hasher(tag, content).digest())


# The lines of the image by two tools.
BOTH = [line_of(tool, b"image.iso", IMAGE, tagged=True) for tool in ("sha256sum", "b2sum")]


class Typed(Case):
    """A directory in which recipes are typed, which is that for temporary files, too. The commands
    of the program come first on the PATH; scripts may take the place of others there."""

    of_the_repository = True

    def setUp(self):
        super().setUp()
        for command in ("bash", *COMMANDS):
            if shutil.which(command) is None:
                self.skipTest(f"{command} isn't installed")
        for name in PAGES:
            os.makedirs(self.path("commands"), exist_ok=True)
            os.symlink(harness.PROGRAM, self.path(f"commands/{name}"))
        self.env = {
            **os.environ,
            "PATH": os.fsdecode(self.path("commands")) + os.pathsep + os.environ["PATH"],
            "TMPDIR": os.fsdecode(self.path("here")),
        }

    def command(self, name, script):
        """Replaces a command by a script, which calls it as `real`, and others as `usual` and their
        name."""
        path = self.path(f"commands/{name}")
        real = harness.PROGRAM if name in PAGES else shutil.which(name)
        if os.path.lexists(path):
            os.remove(path)
        tool = f" {name}" if name in PAGES and name != "digests" else ""
        usual = f"usual() {{ (PATH='{os.environ['PATH']}' && \"$@\"); }}"
        self.write_command(
            name, f"#!/bin/sh\nreal() {{ '{real}'{tool} \"$@\"; }}\n{usual}\n{script}\n"
        )

    def restore(self, name):
        """Takes a script away again."""
        os.remove(self.path(f"commands/{name}"))
        if name in PAGES:
            os.symlink(harness.PROGRAM, self.path(f"commands/{name}"))

    def replace_gpgv_and_pv(self):
        """Replaces what may not be installed. Other tests have the real ones."""
        self.command("pv", 'exec cat "$@"')
        self.command("gpgv", "exec grep -ax '[0-9a-f]*  ./image.iso'")

    def put(self, name, content="more"):
        """Makes a file in the tree."""
        self.write(os.path.join(b"here", harness.as_bytes(name)), content)

    def make(self, good=True, more=()):
        """Makes a new tree, with the good names or none, and with more. Each file but the image
        holds its own name. A link in the place of the signed list leads to the list."""
        shutil.rmtree(self.path("here"), ignore_errors=True)
        os.mkdir(self.path("here"))
        os.symlink("SUMS", self.path("here/SUMS.asc"))
        for name in GOOD if good else ():
            self.put(name, IMAGE if name == "image.iso" else name)
        for name in more:
            self.put(name)

    def files_of_the_tree(self):
        """Returns the names of all files of the tree except its list, as find gives them, and their
        contents."""
        top, contents = self.path("here"), {}
        for folder, _, names in os.walk(top):
            for path in (os.path.join(folder, name) for name in names):
                if os.path.isfile(path) and not os.path.islink(path):
                    contents[b"." + path[len(top) :]] = self.read(path)
        contents.pop(b"./SUMS", None)
        return contents

    def lines_of_the_tree(self):
        """Returns the lines of a whole list; the image's is the last."""
        files = self.files_of_the_tree()
        names = sorted(files, key=lambda name: (name == b"./image.iso", name))
        return [line_of("sha256sum", name, files[name]) for name in names]

    def is_there(self, name):
        return os.path.exists(self.path(f"here/{name}"))

    def type(self, recipe, shell="bash", **how):
        return self.run_command(
            [shell, "-c", recipe], cwd=self.path("here"), **{"env": self.env, **how}
        )

    def fails(self, recipe, shell="bash", **how):
        """Types a recipe that mustn't pass, and leaves nothing in the tree that wasn't there."""
        before = set(os.listdir(self.path("here")))
        ran = self.type(recipe, shell, **how)
        self.assertGreater(ran.status, 0, recipe)
        self.assertLessEqual(set(os.listdir(self.path("here"))) - before, {b"image.sum"}, recipe)
        return ran

    def passes(self, recipe, out=b"", shell="bash"):
        self.assertEqual(self.type(recipe, shell), Ran(0, out, b""), recipe)

    def each_recipe(self, *sorts, page="digests"):
        """Yields the recipes of a page, of these sorts or of all, with their sorts and with each
        shell that they are for."""
        for recipe, sort in recipes_of(page):
            for shell in filter(shutil.which, SHELLS[:1] if OF_BASH.search(recipe) else SHELLS):
                if sort in sorts or not sorts:
                    yield recipe, sort, shell

    def recipe(self, wanted, page="digests"):
        return next(recipe for recipe, sort in recipes_of(page) if sort == wanted)

    def expect_lines(self, name, wanted):
        """Expects a list of these lines, in any order."""
        self.assertEqual(
            sorted(self.read(f"here/{name}").splitlines(keepends=True)), sorted(wanted)
        )

    def expect_only(self, *made):
        """Expects the good files as they were, these beside them, and nothing else there or in the
        test's folder."""
        contents = self.files_of_the_tree()
        wanted = {
            b"./" + name.encode(): IMAGE if name == "image.iso" else name.encode() for name in GOOD
        }
        self.assertEqual({name: contents.pop(name) for name in wanted}, wanted)
        self.assertLessEqual(set(contents), {f"./{name}".encode() for name in made})
        tops = {name.split("/")[0].encode() for name in (*GOOD, "SUMS", "SUMS.asc", *made)}
        self.assertLessEqual(set(os.listdir(self.path("here"))), tops)
        self.assertEqual(set(os.listdir(self.folder)), {"commands", "here", "a", "e"})


# The list that a recipe reads: SUMS, or its last word.
LIST = re.compile(r"(?s)\bSUMS\b|[^\s)]+(?=\)?\Z)")


class Row(NamedTuple):
    """A case: what a command of the shell changes in a tree in which all is well; the recipes that
    are tried, and those of them that pass; those that fail if the image is changed besides; and
    what is written, if that is compared. The command knows `list`, the list that a recipe makes or
    reads, and `line`, which writes a line of zeros and its word."""

    change: str
    tried: set
    passing: set = frozenset()
    damaged: set = frozenset()
    out: bytes = None


class Rows(Typed):
    """Tests of which each tries the rows of a table, each with each of its recipes in each shell
    that this is for, in a new tree."""

    LINE = f"line() {{ printf '%s\\n' '{'0' * 64}'\"$1\"; }}"

    def setUp(self):
        super().setUp()
        self.replace_gpgv_and_pv()

    def lists(self, recipe, sort):
        """Returns the lists that are in a tree in which all is well, by their names."""
        raise NotImplementedError

    def make_row(self, row, recipe, sort):
        """Makes the tree of a row for a recipe. What this makes is there from before, and anybody
        may write to it."""
        self.make()
        for name, content in self.lists(recipe, sort).items():
            self.put(name, content)
        name = MADE.get(sort) or LIST.search(recipe)[0]
        if sort in MADE:
            self.put(name, "of before")
        change = f"chmod -R a+rwX .; list={name}; {self.LINE}; {row.change}"
        changed = self.run_command(["sh", "-c", change], cwd=self.path("here"))
        self.assertEqual((changed.status, changed.err), (0, b""))

    def try_row(self, row, recipe, sort, shell):
        """Types a recipe: it passes if the row says so. If not, the list of before stays."""
        how = {} if "/mem" in row.change else self.nobody()
        made = f"here/{MADE[sort]}" if sort in MADE and MADE[sort] not in row.change else None
        before = self.read(made) if made and self.is_there(MADE[sort]) else None
        call = self.type if sort in row.passing else self.fails
        ran = call(recipe, shell, **how)
        self.assertEqual(ran.status == 0, sort in row.passing, ran.err)
        self.assertIn(row.out, (None, ran.out))
        self.assertTrue(ran.status < 2 or not row.out)  # a report comes with the status 1
        if before is not None:
            self.assertEqual(self.read(made), before)

    def try_rows(self, rows, page="digests"):
        for case, row in rows.items():
            for recipe, sort, shell in self.each_recipe(*row.tried, page=page):
                with self.subTest(case=case, page=page, sort=sort, shell=shell):
                    self.make_row(row, recipe, sort)
                    self.try_row(row, recipe, sort, shell)
                    if sort in row.damaged:
                        self.put("image.iso", IMAGE[:-1])
                        self.fails(recipe, shell)
        self.run_command(["chmod", "-R", "777", self.path("here")])
