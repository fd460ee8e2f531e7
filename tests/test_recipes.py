"""The commands that the manual pages show. Each recipe and example is typed as it is there, over
trees in which all is well and over others. Its status is 0 only if everything that it is for was
done."""

import os
import re
import shutil

from harness import TOOLS, as_bytes, hasher
from manual import sections_of
from recipes import BOTH, GOOD, IMAGE, MADE, OF_BASH, SHELLS, Typed, line_of, recipes_of
from texts import failed, ok, unreadable

BAD = [
    b"./bad\xff",
    b"./bad\nline\xff",
    b"./\xffnew\nline",
    b"./\xc0\x80",
    b"./\xed\xa0\x80",
    b"./bad\xff folder/a",
]


class Recipes(Typed):
    def setUp(self):
        super().setUp()
        self.replace_gpgv_and_pv()

    def report(self, sort):
        """Returns what a recipe writes if all is well: most say only what doesn't match."""
        names = {
            "check": ["image.iso"] * 2,
            "check gpg": ["./image.iso"],
            "check one": ["./image.iso"],
        }
        return as_bytes([ok(name) for name in names.get(sort, ())])

    def test_shells(self):
        """Each recipe is typed in bash, and in the others unless it says that it is for bash."""
        section = sections_of("digests")["EXAMPLES"]
        for recipe, sort in recipes_of("digests"):
            with self.subTest(recipe=recipe):
                before = " ".join(section.partition(recipe)[0].rpartition(".fi\n")[2].split())
                self.assertEqual("in bash(1)" in before, bool(OF_BASH.search(recipe)), sort)
        missing = [shell for shell in SHELLS if shutil.which(shell) is None]
        if missing:
            self.skipTest(f"no recipe is typed in {' and '.join(missing)}: not installed")

    def test_good_names(self):
        """All recipes, in the page's order: lists are as the standards say, and each check
        passes."""
        self.make()
        os.symlink("c", self.path("here/some folder/link"))  # which no list has, nor a pipe
        os.mkfifo(self.path("here/some folder/pipe"))
        for recipe, sort, shell in self.each_recipe():
            with self.subTest(recipe=recipe):
                self.passes(recipe, self.report(sort), shell)
                if sort.startswith("list"):
                    self.expect_lines(
                        "SUMS",
                        [line_of("sha256sum", *file) for file in self.files_of_the_tree().items()],
                    )
                elif sort.startswith("write"):
                    self.expect_lines(
                        MADE[sort],
                        BOTH
                        if sort == "write at once"
                        else [line_of("sha256sum", b"image.iso", IMAGE)],
                    )
                self.expect_only("image.sum", "image.tagged")

    def test_files_that_cannot_be_read(self):
        """A list without them never gets its name, and a whole one of before stays."""
        self.make()
        self.passes(self.recipe("list"))
        before = self.read("here/SUMS")
        for name in BAD:  # names that aren't UTF-8
            self.put(name)
        for recipe, _, shell in self.each_recipe("list", "list on all"):
            with self.subTest(recipe=recipe):
                self.assertNotEqual(self.fails(recipe, shell).err, b"")
                self.assertEqual(self.read("here/SUMS"), before)
        ran = self.fails(self.recipe("not UTF-8"))
        self.assertEqual(
            (sorted(ran.out.splitlines()), ran.err), (sorted(b"\n".join(BAD).splitlines()), b"")
        )
        self.command("sed", 'export LC_ALL=C; real "$@"')  # which takes any byte for a character
        self.fails(self.recipe("not UTF-8"))
        self.restore("sed")
        for recipe, sort, shell in self.each_recipe("check list", "check list on all", "check one"):
            self.passes(recipe, self.report(sort), shell)
        self.make()
        self.passes(self.recipe("list"))
        more = BAD + [b"./more\nlines", b"./more\\"]
        for name in more:
            self.put(name)
        wanted = sorted(name.replace(b"\\", b"\\\\").replace(b"\n", b"\\n") for name in more)
        ran = self.type(self.recipe("unlisted"))
        self.assertEqual((ran.status, ran.out.splitlines(), ran.err), (1, wanted, b""))

    def test_a_directory_that_looks_like_an_option(self):
        """That for temporary files."""
        self.make()
        os.mkdir(self.path("here/-rf"))
        self.env["TMPDIR"] = "-rf"
        for recipe, sort, shell in self.each_recipe():
            with self.subTest(recipe=recipe):
                self.assertEqual(self.type(recipe, shell)[::2], (0, b""))

    def test_what_is_no_file(self):
        """The page has a command for links, pipes and devices, which no recipe lists or reports,
        even if a link to equal bytes takes the place of a listed file."""
        command = re.search(
            r"find \. [^-]*-type f [^-]*-type d", sections_of("digests")["EXAMPLES"]
        )
        self.make()
        self.passes(self.recipe("list"))
        os.rename(self.path("here/a b"), self.path("here/.moved"))
        os.symlink(".moved", self.path("here/a b"))
        os.symlink("nothing", self.path("here/some folder/link"))
        os.mkfifo(self.path("here/\n"))
        self.passes(self.recipe("check list"))
        self.assertEqual(self.fails(self.recipe("unlisted")).out, b"./.moved\n")
        ran = self.type(f"{command[0]} -print0")
        wanted = [b"", b"./\n", b"./SUMS.asc", b"./a b", b"./some folder/link"]
        self.assertEqual(sorted(ran.out.split(b"\0")), wanted)

    def test_in_zsh(self):
        """A recipe for bash does the same in zsh, also for an image that has as many newlines as
        its list."""
        for image in (b"a\nb\n", IMAGE) if shutil.which("zsh") else ():
            self.make()
            self.put("image.iso", image)
            for recipe, sort in recipes_of("digests"):
                if OF_BASH.search(recipe):
                    with self.subTest(recipe=recipe):
                        self.passes(recipe, shell="zsh")
                        made = self.read(f"here/{MADE.get(sort, 'SUMS')}")
                        self.passes(recipe)
                        self.expect_lines(MADE.get(sort, "SUMS"), made.splitlines(keepends=True))

    def test_names_that_are_lost(self):
        """A command that writes nothing if a name isn't UTF-8, as `tr` of some makers does, or
        leaves out that name, hides no file that isn't listed."""
        all_or_none = "LC_ALL=C.UTF-8 usual grep -aqvxz '.*' input && exit"
        without_it = "LC_ALL=C.UTF-8 usual grep -axz '.*' input >some; usual mv some input"
        self.make()
        self.passes(self.recipe("list"))
        for more in ([b"\xff"], [b"\xff", "planted"]):
            for name in more:
                self.put(name)
            for command, words in (("tr", "*"), ("sed", "-z*")):
                for part in (all_or_none, without_it):
                    self.command(
                        command,
                        f'case "$*" in {words}) ;; *) real "$@"; exit ;; esac\n'
                        f'cd "${{0%/*}}"; usual cat >input; {part}; real "$@" <input',
                    )
                    with self.subTest(command=command, part=part):
                        self.fails(self.recipe("unlisted"))
                self.restore(command)

    def test_names_as_they_are(self):
        """Those of files that don't match, in any locale, and even if they look like reports or
        aren't UTF-8. A line of another form, which the tool doesn't write, makes the status 1."""
        names = [
            *(f"./{name}".encode() for name in GOOD),
            failed(b"./a"),
            unreadable(b"./a"),
            b"./\xe2",
            *BAD,
        ]
        self.make(good=False)
        self.put("SUMS", b"".join(line_of("sha256sum", name, b"") for name in names))
        for locale in ("C", "C.UTF-8"):
            ran = self.type(self.recipe("check names"), env={**self.env, "LC_ALL": locale})
            self.assertEqual((ran.status, ran.out), (1, b"".join(name + b"\0" for name in names)))
        self.command("digests", f"echo {ok('./a')}")
        self.assertEqual(self.fails(self.recipe("check names")).out, b"")

    def test_a_list_of_others(self):
        """A byte-order mark, and each tag of `openssl dgst`, `rhash --bsd` and uutils. Names stay
        as they are."""
        self.make(good=False)
        for name in ("a", "SHA1  (a)", "(a) = SHA2-"):
            for tool, (tag, _, _) in TOOLS.items():
                digest = hasher(tag, name.encode()).hexdigest()
                for front, back in (
                    ("\ufeff", ""),
                    (f"\ufeff{tag}(", ")= "),
                    (f"{tag:5} (".replace("2b", "2"), ") = "),
                    (re.sub("SHA-?(?!1)", "SHA2-", tag).replace("b", "B-512") + "(", ")= "),
                ):
                    line = (
                        f"{front}{name}{back}{digest}\n" if back else f"{front}{digest}  {name}\n"
                    )
                    recipe = self.recipe("check list of others").replace("sha256sum", tool)
                    self.put("SUMS", line)
                    self.put(name, name)
                    self.passes(recipe)
                    self.put(name, "changed")
                    self.assertEqual(self.fails(recipe).out, as_bytes([failed(name)]))

    def test_a_name_within_another(self):
        """One file's check doesn't pass by another whose name holds its own as a line would."""
        self.make(good=False, more=["y  ./image.iso", "x ./image.iso"])
        self.passes(self.recipe("list"))
        self.assertEqual(self.fails(self.recipe("check one")).out, b"")
        self.put("image.iso", IMAGE)
        self.passes(self.recipe("list"))
        self.passes(self.recipe("check one"), as_bytes([ok("./image.iso")]))
