"""What the tests of the script `install` share: a copy of the repository, and a prefix with a space
in its name."""

import os

from harness import GNU_TOOLS, NAMES
from prefix import BASH, CURRENT, FISH, MAN, ZSH
from repository import DEFAULT, OF_A, Repository

ALL, OWN = "--all-names", "--only-own-names"


def paths_of(own_names):
    """Returns the paths at which things are installed."""
    names = ["digests", *(name for name in NAMES if not (own_names and name in GNU_TOOLS))]
    paths = {f"{ZSH}/_digests"}
    for name in ["digests", *NAMES]:
        page = name if name in names else f"digests-{name}"
        paths.add(f"{MAN}/{page}.1")
    for name in names:
        paths |= {f"bin/{name}", f"{BASH}/{name}", f"{FISH}/{name}.fish"}
    return paths


class Install(Repository):
    """`./install PREFIX` and `./install --remove PREFIX`, below a prefix with a space in its
    name."""

    def setUp(self):
        """Makes pages by fewer runs of the program, and has things looked at instead of synced, so
        that a test is short."""
        super().setUp()
        self.change("tools/options.py", "    ran =", "    return '--=' not in words\n    ran =")
        self.write_command("sync", '#!/bin/sh\nshift; for at; do [ -r "$at/." ] || exit; done\n')
        self.build()
        self.prefix = os.path.join(self.folder, "a prefix")

    def installs(self, *words, status=0, **how):
        """Runs `install` for the prefix, and returns what it says."""
        ran = self.script("install", *words, self.prefix, **how)
        self.assertEqual((ran.status, ran.err if status == 0 else ran.out), (status, b""), ran.err)
        return os.fsdecode(ran.out + ran.err)

    def shell(self, command, *words):
        return self.run_command(["sh", "-c", command, *words], cwd=self.prefix).out

    def at(self, path):
        return os.path.join(self.prefix, path)

    def tree(self):
        """Returns what is below the prefix: contents of files, and what links say."""
        contents = {}
        for folder, inner, names in os.walk(self.prefix):
            for path in (os.path.join(folder, name) for name in inner + names):
                if os.path.islink(path):
                    contents[os.path.relpath(path, self.prefix)] = os.readlink(path)
                elif not os.path.isdir(path):
                    contents[os.path.relpath(path, self.prefix)] = self.read(os.fsencode(path))
        return contents

    def theirs(self, *paths):
        for path in paths:
            self.write(self.at(path), "theirs")

    def expect_named(self, paths, *words, **how):
        """Expects that a run fails and names these paths, a line each, below a sentence, which is
        returned."""
        printed, *named = self.installs(*words, status=1, **how).splitlines()
        self.assertEqual(named, sorted(map(self.at, paths)))
        return printed

    def expect_installed(self, level=DEFAULT, own_names=False, theirs=()):
        """Expects that one directory has all, for everyone to read, that a link leads to each
        thing, and that of others there are these."""
        tree, home = self.tree(), f"lib/digests/{os.readlink(self.at(CURRENT))}"
        self.assertRegex(home, r"\Alib/digests/[\d.]+-[0-9a-f]{16}(\.2)?\Z")
        inside = {
            os.path.relpath(path, home): tree.pop(path)
            for path in list(tree)
            if path.startswith(f"{home}/")
        }
        self.assertEqual(
            inside.pop("options").decode(), f"--cpu {level} {OWN if own_names else ALL}\n"
        )
        self.assertEqual(set(inside), paths_of(own_names))
        links = {path: "../" * path.count("/") + f"{CURRENT}/{path}" for path in inside}
        links.update(dict.fromkeys((CURRENT, f"{home}.made"), os.path.basename(home)))
        self.assertEqual(tree, {**links, **{path: b"theirs" for path in theirs}})
        self.assertEqual(inside.pop("bin/digests"), self.read(self.in_top(f"out/{level}/digests")))
        self.assertEqual(
            {link for path, link in inside.items() if path.startswith("bin/")}, {"digests"}
        )
        self.assertEqual(
            self.shell(
                f"find . ! -uid {os.geteuid()} -o -type d ! -perm 755 -o -type f ! -perm 644 "
                "! -path '*/bin/digests' -o -path './lib/*/bin/digests' ! -perm 755"
            ),
            b"",
        )
        self.assertEqual(self.run_command([self.at("bin/digests"), "md5sum", "a"]), OF_A)

    def expect_removed(self, theirs=()):
        """Removes all, and builds nothing; of others, there are these."""
        self.assertEqual((self.installs("--remove"), self.calls), ("", []))
        self.assertEqual(self.tree(), {path: b"theirs" for path in theirs})
        self.assertNotIn("digests", os.listdir(self.at("lib")))
