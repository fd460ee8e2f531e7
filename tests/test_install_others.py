"""What others have where the script `install` puts what is its own."""

import os
import shutil
import tempfile

from installing import ALL, OWN, Install, paths_of
from prefix import CURRENT, FISH, ZSH
from repository import FAST


class Others(Install):
    def test_what_is_in_the_place(self):
        """What others have there, or in the way of a directory, is named, and nothing changes."""
        paths = {path for path in paths_of(False) if path.startswith(("bin/", FISH, ZSH))}
        self.theirs(
            *paths - {"bin/b2sum", "bin/sha1sum"}, "lib/digests/theirs", "share/bash-completion"
        )
        self.shell(
            "mkdir bin/sha1sum; ln -s ../lib/digests/current/bin/digests bin/b2sum; "
            "ln -s no share/man"
        )
        before = self.tree()
        printed = self.expect_named([*paths, "lib/digests", "share/bash-completion", "share/man"])
        self.assertIn("move them, choose another PREFIX, or say --only-own-names:", printed)
        self.assertEqual(self.tree(), before)

    def test_a_directory_of_others(self):
        """A `lib/digests` that this user didn't make there isn't changed, nor are links to it, or
        copies of ours."""
        self.installs()
        other, self.prefix = self.prefix, f"{self.folder}/another"
        elsewhere = f"is really {other}/lib/digests, so PREFIX has to be {other}"
        user = "another user's: run install as"
        for change, why, *paths in (
            ("mkdir -m 700 lib/digests; chown nobody lib/digests", user),
            ('ln -s "$0/lib/digests" lib', elsewhere),
            ('rmdir lib; ln -s "$0/lib" .', elsewhere),
            ("mkdir lib/digests; >lib/digests/x", "these ", "lib/digests"),
            ('cp -rL "$0"/* .', "these ", "lib/digests", *paths_of(False)),
        ):
            os.makedirs(self.at("lib"))
            self.shell(change, other)
            before = self.shell("find -L . -printf '%p %U %m %T@\\n'")  # that of a link's target
            for words in ([], ["--remove"]):
                with self.subTest(words=words):
                    self.assertIn(why, self.expect_named(paths, *words))
                    self.assertEqual(self.shell("find -L . -printf '%p %U %m %T@\\n'"), before)
            shutil.rmtree(self.prefix)

    def test_what_is_called_as_ours(self):
        """What others have in lib/digests stays, even if its name, or a link, looks like ours."""
        self.installs(OWN)
        name = os.readlink(self.at(CURRENT))
        self.installs(ALL)
        called = (name, "new.0123456789abcdef", "../theirs")
        theirs = [f"lib/digests/{folder}/theirs" for folder in called]
        self.theirs(*theirs)
        self.shell("cd lib/digests; ln -s absent absent.made; ln -s .. ...made; ln -s ../theirs x")
        self.shell("cd lib/digests; ln -s ../theirs ../theirs.made; ln -s $0 as.made", name)
        for words in ([], [OWN], [OWN], ["--cpu", FAST], ["--remove"]):
            self.installs(*words)
            self.assertEqual([self.read(self.at(path)) for path in theirs], [b"theirs"] * 3)
        self.theirs("lib/digests/next")
        self.assertIn(f"{self.prefix}/lib/digests", self.installs(status=1))

    def test_what_appears_meanwhile(self):
        """A file of others that appears meanwhile is named, and not overwritten."""
        self.write_command("sync", f"#!/bin/sh\nprintf theirs >'{self.prefix}/bin/md5sum'")
        self.assertIn(f"install: {self.prefix}/bin/md5sum: File exists", self.installs(status=1))
        self.assertEqual(self.tree()["bin/md5sum"], b"theirs")

    def test_what_cannot_be_looked_through(self):
        """Removing names it, and removes all else. A prefix that can't be written to stays as it
        is."""
        os.mkdir(self.prefix, 0o555)
        self.assertIn(
            f"{self.prefix}/lib: Permission denied", self.installs(status=1, **self.nobody())
        )
        changes = "rm -r {0}; echo >{0}", "rm -r {0}; ln -s {0} {0}", "chmod 0 {0}"
        for name, change in [(name, change) for name in ("share", "lib") for change in changes]:
            shutil.rmtree(self.prefix)
            self.installs()
            self.shell(f"{change.format(name)}; chown -Rh nobody .")
            self.expect_named([name], "--remove", **self.nobody())
            self.assertEqual({path for path in self.tree() if not path.startswith(name)}, set())

    def test_directories_elsewhere(self):
        """Directories of links may lie elsewhere, on another disk, too. Links there that lead
        elsewhere stay."""
        with tempfile.TemporaryDirectory(dir="/dev/shm") as other:
            self.installs()
            self.shell('mv bin share "$0" && ln -s "$0"/* .', other)
            self.expect_named(paths_of(False), "--remove")
            self.shell('find "$0" -type l -delete', other)
            for words, count in (([], len(paths_of(False))), (["--remove"], 0)):
                with self.subTest(words=words):
                    self.installs(*words)
                    links = [
                        os.path.join(at, name) for at, _, names in os.walk(other) for name in names
                    ]
                    self.assertEqual((len(links), all(map(os.path.exists, links))), (count, True))
