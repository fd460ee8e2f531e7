"""The script `install`: what it puts below a prefix, keeps there and removes."""

import os
import shutil

from harness import TOOLS, Ran
from installing import ALL, OWN, Install
from prefix import BASH, CURRENT, MAN
from repository import DEFAULT, FAST


class Installed(Install):
    def test_what_is_put_there(self):
        """It is the same whatever the umask, needs no repository, and may be moved. Nobody has to
        listen."""
        for how in ({"stdout": self.full()}, {"preexec_fn": lambda: os.close(1)}):
            self.installs(**how)
            self.expect_removed()
        self.installs(umask=0o077)
        self.prefix = shutil.move(self.prefix, f"{self.folder}/moved")
        self.assertNotIn(
            "first on the PATH", self.installs(PATH=f"{self.prefix}/bin:{self.env['PATH']}")
        )
        self.expect_installed()
        shutil.rmtree(self.top)
        for tool, (_, _, digest) in TOOLS.items():
            with self.subTest(tool=tool):
                self.assertEqual(
                    self.run_command([self.at(f"bin/{tool}"), "a"]),
                    Ran(0, f"{digest}  a\n".encode(), b""),
                )

    def test_each_over_another(self):
        """Names and level stay if nothing is said of them. With own names, nothing is called by
        GNU's."""
        theirs = ["bin/theirs", f"{MAN}/theirs.1", "lib/theirs"]
        self.theirs(*theirs)
        for words, level, own, kept in (
            ("", DEFAULT, False, ""),
            (f"--cpu {FAST} {OWN}", FAST, True, ""),
            ("", FAST, True, f"kept: --cpu {FAST} {OWN}\n"),
            (f"--cpu native {ALL}", FAST, False, ""),
            ("--cpu x86-64-v2", DEFAULT, False, f"kept: {ALL}\n"),
        ):
            printed = self.installs(*words.split())
            self.assertRegex(
                printed, rf"\A{kept}installed for the level {level} in {self.prefix}/lib/digests/2"
            )
            self.expect_installed(level, own, theirs)
            tools = self.read(self.at(f"{BASH}/digests")).splitlines()[-1]
            self.assertEqual((b"md5sum" in tools, "/usr/bin/sha256sum" in printed), (not own,) * 2)
        self.write(self.at(f"{CURRENT}/options"), "--cpu")
        self.assertIn(
            "doesn't say what to keep: say --cpu LEVEL, and ", self.installs(OWN, status=1)
        )
        # As on a machine that lacks a feature of this level.
        self.write("slow", "#!/bin/sh\nexit 127\n")
        self.env["RT_FAST"] = self.path("slow").decode()
        os.remove(self.in_top("out/built"))
        self.build()
        for words, level in ((["--cpu", "native", ALL], DEFAULT), (["--cpu", FAST], FAST)):
            with self.subTest(words=words):
                self.assertIn(f"installed for the level {level} in ", self.installs(*words))
        os.remove(self.in_top("out/built"))
        self.expect_removed(theirs)
        self.assertIn("nothing is installed", self.installs("--remove", status=1))

    def test_what_somebody_changed(self):
        """What was changed in lib/digests is replaced: contents, modes and owners."""
        self.installs()
        for change in (
            "true >bin/digests; touch more",
            "chmod 4755 bin/digests",
            "chmod 700 .",
            "cd share/man/man1; rm md5sum.1; mkfifo md5sum.1",
            "chown nobody bin/digests",
        ):
            with self.subTest(change=change):
                self.shell(f"cd -P {CURRENT}; {change}")
                self.installs()
                self.expect_installed()

    def test_prefixes(self):
        """With DESTDIR everything is below that directory. A prefix may have any bytes, and go
        through links."""
        self.run_command(["sh", "-c", "mkdir -p one/two; ln -s one/two link"])
        for self.prefix, stage in (
            ("link/../p/q", ""),
            (os.fsdecode(b"a \n\xff b"), ""),
            ("/usr", "a stage"),
        ):
            name = self.prefix.replace("link/..", "one")
            self.assertEqual(
                f"/{name}/bin first on the PATH\n" in self.installs(DESTDIR=stage), not stage
            )
            self.prefix = os.path.join(self.folder, stage + name)
            self.expect_installed()
            self.expect_removed()

    def test_wrong_words(self):
        """One line names what is wrong, or missing."""
        for *words, why in (
            ["PREFIX"],
            ["", "PREFIX"],
            ["x", "y", "y"],
            ["-x", "x", "-x"],
            ["--cpu", "o", "x", "'o'"],
            ["--cpu", "x86-64", "x", "no program is built for x86-64: default is for x86-64-v2"],
        ):
            with self.subTest(why=why):
                ran = self.script("install", *words)
                self.assertEqual((ran.status, ran.out, ran.err.count(b"\n")), (2, b"", 1), words)
                self.assertRegex(ran.err.decode(), rf"\Ainstall: .*{why}")
        os.symlink(shutil.which("python3"), self.path("python3"))
        self.assertIn(
            "install: sync, of GNU coreutils, isn't on the PATH",
            self.installs(status=1, PATH=self.folder),
        )
        # As if the processor were too old.
        self.write("slow", "#!/bin/sh\nexit 127\n")
        self.env.update(dict.fromkeys(("RT_PROGRAM", "RT_FAST"), self.path("slow").decode()))
        os.remove(self.in_top("out/built"))
        self.assertEqual(
            ("doesn't run" in self.installs(status=1), os.path.exists(self.prefix)), (True, False)
        )
        self.write("argparse.py", "import os; os.kill(os.getpid(), 2)")  # Ctrl-C at the beginning
        self.assertEqual(
            self.script("install", self.prefix, PYTHONPATH=self.folder), Ran(-2, b"", b"")
        )
