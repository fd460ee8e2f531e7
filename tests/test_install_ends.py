"""The script `install`, if several run at once, or one is ended before its end."""

import fcntl
import os
import shutil
import subprocess

from installing import ALL, OWN, Install
from prefix import CURRENT, MAN
from repository import DEFAULT, FAST
from tracing import each_end, needs_strace

WAITS = b"install: waiting for another one to end\n"


class Ends(Install):
    def test_two_clones_at_once(self):
        """Each run waits for the others, and the last one's installation is whole."""
        other = f"{self.top} again"
        how = {"env": self.env, "stdout": subprocess.DEVNULL, "stderr": subprocess.PIPE}
        shutil.copytree(self.top, other, symlinks=True, ignore=shutil.ignore_patterns("out"))
        self.run_command([f"{other}/tools/build"], env=self.env)
        commands = [
            [f"{self.top}/install", OWN, "--cpu", DEFAULT],
            [f"{other}/install", ALL, "--cpu", FAST],
        ] * 3
        for run in [subprocess.Popen([*words, self.prefix], **how) for words in commands]:
            self.assertIn(run.communicate()[1], (b"", WAITS))
        fast = os.path.exists(self.at("bin/md5sum"))
        self.expect_installed(FAST if fast else DEFAULT, own_names=not fast)
        handle = os.open(self.prefix, os.O_RDONLY)
        fcntl.flock(handle, fcntl.LOCK_EX)
        with subprocess.Popen([f"{other}/install", "--remove", self.prefix], **how) as run:
            self.assertEqual(run.stderr.readline(), WAITS)
            os.close(handle)
        self.assertEqual((run.returncode, self.tree()), (0, {}))

    @needs_strace
    def test_each_end(self):
        """A call fails, or the run is killed: a command is the old or the new program, and the next
        run ends it. A link that leads to ours stays, whatever it says. Nothing is given another
        owner."""
        for calls, names, *words in (
            ("write,symlink,rename,unlink", ALL, OWN),
            ("unlink,unlinkat", OWN, "--remove"),
            ("symlink,rename,chown", OWN, ALL, "--cpu", FAST),
        ):
            self.prefix = f"{self.folder}/for {words[0]}"
            self.installs(names)
            self.theirs(f"{MAN}/theirs.1", "lib/digests/theirs")
            self.shell(
                f'echo >>{CURRENT}/bin/digests; ln -sfn "$PWD/{CURRENT}/bin/anysum" bin/anysum'
            )
            programs = [
                self.at("bin/anysum"),
                *(self.in_top(f"out/{level}/digests") for level in (DEFAULT, FAST)),
            ]
            old, new, programs = self.tree(), None, list(map(self.read, programs))
            for fault, ran in each_end(
                self, calls, [self.in_top("install"), *words], self.prefix, env=self.env
            ):
                tree = self.tree()
                new = new or tree
                self.assertTrue("inject" in fault if ran.status else tree == new, ran.err)
                if ran.status == 1:
                    self.assertRegex(
                        ran.err,
                        rb"\Ainstall: /.*: (No space left on device|Input/output error)\n\Z",
                    )
                self.assertTrue(tree == old or "write:error" not in fault)
                self.assertIn(tree.get("bin/anysum"), (old["bin/anysum"], None))
                self.assertNotRegex(self.read("trace"), rb"(?m)^\w*chown")
                for path in {*tree, *{*old} & {*new}}:
                    if path.startswith("bin/"):
                        self.assertTrue(self.read(self.at(path)) in programs, path)
                        self.assertTrue(os.access(self.at(path), os.X_OK), path)
                self.assertTrue(
                    tree in (old, new)
                    or self.script("install", *words, self.prefix)
                    and self.tree() == new
                )

    def test_syncing(self):
        """A run whose data may not be on the disk says so, and the next one syncs again."""
        count = f"'{self.folder}/syncs'"
        for number, status in ((1, 1), (2, 1), (2, 1), (9, 0)):
            with self.subTest(number=number):
                self.write("syncs", "")
                self.write_command(
                    "sync", f"#!/bin/sh\necho >>{count}; [ $(wc -l <{count}) -ne {number} ]\n"
                )
                self.assertIn(
                    " is on the disk" if status else "installed for", self.installs(status=status)
                )

    def test_a_power_cut(self):
        """After each run the disks of the prefix and of its `bin` are copied as they are. Last, no
        program may run."""
        os.remove(self.path("commands/sync"))
        self.disk("disk.1", self.path("disk"))
        self.disk("disk.2", self.path("disk/a prefix/bin"))
        for number, words in enumerate(([OWN], ["--cpu", FAST, ALL], ["--remove"])):
            self.prefix = f"{self.folder}/disk/a prefix"
            self.installs(*words)
            tree, self.prefix = self.tree(), f"{self.folder}/{number}/a prefix"
            for part, at in (("1", os.path.dirname(self.prefix)), ("2", self.at("bin"))):
                shutil.copy(self.path(f"disk.{part}"), self.path(f"{number}.{part}"))
                self.disk(f"{number}.{part}", at)
            self.assertEqual(self.tree(), tree)
        self.run_command(["mount", "-o", "remount,noexec", self.path("disk")])
        self.prefix = f"{self.folder}/disk/another"
        self.assertEqual(
            ("noexec" in self.installs(status=1), os.path.exists(self.prefix)), (True, False)
        )
