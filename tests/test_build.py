"""Building: `./digests` builds what is stale, and then is the program; what a failed build says and
leaves."""

import os
import re
import shutil
import signal
import subprocess
import sys

from harness import Case, end
from lanes import KIT
from sources import TOP, text_of
from repository import BOTH, DEFAULT, FAST, OF_A, Repository


class Build(Repository):
    def expect_built(self, why, calls=BOTH):
        """Expects that a call builds, and that a second one finds nothing to build. Returns what
        the first one said."""
        ran = self.script("digests", "md5sum", "a")
        self.assertEqual((ran.status, ran.out, self.calls), (0, OF_A.out, calls), (why, ran.err))
        self.assertEqual((self.script("digests", "md5sum", "a"), self.calls), (OF_A, []), why)
        self.assertEqual(
            len({program.split(b" of ")[1] for program in self.programs().values()}),
            1,
            "of the same sources",
        )
        return ran.err.decode()

    def expect_refused(self, message, **env):
        """Expects that nothing is built, run or installed, and that a line says why."""
        for words in (["digests", "md5sum", "a"], ["install", "prefix"]):
            ran = self.script(*words, **env)
            self.assertEqual((ran.status, ran.out, self.calls), (1, b"", []), ran.err)
            self.assertRegex(ran.err.decode(), rf"\Adigests: {message}\n\Z")
        self.assertFalse(os.path.exists(self.path("prefix")))

    def git(self, *words):
        """Runs git in the repository."""
        known = ["-c", "user.name=n", "-c", "user.email=e", "-c", "protocol.file.allow=always"]
        ran = self.run_command(["git", *known, *words], cwd=self.top)
        self.assertEqual(ran.status, 0, ran.err)

    def test_a_first_build(self):
        """A build has a line for each crate, with its time; what rt says is kept. With another kit
        than README's, crates are proved one after another."""
        self.assertIn(f"Proved with `{KIT}`", text_of("README.md"))
        first, second, *lines = self.expect_built("nothing is built").splitlines()
        self.assertEqual(
            first, "digests: proving and building the program; a first build takes some minutes"
        )
        self.assertEqual(
            second, f"digests: the kit is a kit, not {KIT}: one crate is proved after another"
        )
        named = ["crate 1 of 1, low", f"the program for {DEFAULT}", f"the program for {FAST}"]
        self.assertEqual([re.sub(r": \d+ s$", "", line) for line in lines], named)
        self.assertIn(b"\n== low\nrt says: lib\n", self.read(self.in_top("out/build.log")))

    def test_a_changed_source(self):
        ran = self.script("tools/build", RT_EDITS=self.sources[0])
        self.assertEqual(ran.status, 1)
        self.assertTrue(ran.err.endswith(b"a source changed while it was built: build again\n"))
        self.expect_built("a source changed while it was built")
        for path in [*self.sources, self.in_top("crates/low/proofs/incremental/New.antt")]:
            before = self.programs()
            self.put(path, f"another {path}\n")
            self.expect_built(path)
            self.assertFalse(set(before.values()) & set(self.programs().values()), path)
        os.remove(self.sources[0])
        self.expect_built("a source is gone")
        self.put("crates.txt", "low:\ndigests_main: low\n")
        self.expect_built("crates.txt")
        self.change("../commands/rt", "'a kit'", "'a newer kit'")
        self.expect_built("another kit")

    def test_a_newer_version(self):
        """One that is laid over a tree that is built is built anew, though its files are older."""
        newer = self.path("newer").decode()
        self.run_command(["cp", "-R", self.top, newer])
        for number, lay in enumerate(
            (
                'tar -c . | tar -x -C "$0"',
                'cp -a . "$0"',
                "git init -q && git add . && git -c user.name=n -c user.email=e commit -qm n && "
                'git archive HEAD | tar -x -C "$0"',
            )
        ):
            with self.subTest(lay=lay):
                self.write(f"newer/{self.sources[0][len(self.top) + 1:]}", f"newer {number}\n")
                for folder, _, names in os.walk(newer):
                    for name in names:
                        os.utime(os.path.join(folder, name), (1, 1))
                self.build()
                before = self.programs()
                self.assertEqual(self.run_command(["sh", "-c", lay, self.top], cwd=newer).status, 0)
                self.assertIn(b"installed", self.script("install", "prefix").out)
                self.assertEqual(self.calls, BOTH)
                self.assertFalse(set(before.values()) & set(self.programs().values()))
                installed = self.read("prefix/lib/digests/current/bin/digests")
                self.assertEqual(installed.splitlines()[-1], self.programs()[DEFAULT])

    def test_what_cannot_be_asked(self):
        """If it isn't known whether the program is that of the sources, it isn't run."""
        self.build()
        os.mkdir(self.path("bare"))
        os.symlink(sys.executable, self.path("bare/python3"))
        for name in "cat env git grep head readlink sh sha256sum sort stat sync".split():
            os.symlink(shutil.which(name), self.path(f"bare/{name}"))
        bare = f"{self.folder}/commands:{self.folder}/bare"
        self.expect_refused("the sources can't be listed: .*find: not found", PATH=bare)
        denied = "find: 'crates/low/specs': Permission denied"
        find = f'/usr/bin/find "$@"; echo "{denied}" >&2; exit 1'
        sources = f'[ $1 = crates ] || {{ {find}; }}; exec /usr/bin/find "$@"'
        for command, text, message in (
            ("find", find, f"the sources can't be listed: {denied}"),
            ("find", sources, f"the sources can't be read: {denied}"),
            ("sha256sum", "echo no >&2; exit 1", "the sources can't be read: no"),
            ("sort", "exit 1", "the sources can't be sorted"),
        ):
            self.write_command(command, f"#!/bin/sh\n{text}\n")
            self.expect_refused(message)
            os.remove(self.path(f"commands/{command}"))
        self.assertEqual((self.script("digests", "md5sum", "a"), self.calls), (OF_A, []))

    def test_strange_files(self):
        """What rt would read in the place of crates.txt is named, and what isn't a file."""
        for name in ("crates/digests_main/crates.txt", "crates/BUILD.bazel", "MODULE.bazel"):
            path = self.put(name, "digests:\n")
            self.expect_refused(f"{name} isn't a source: remove it")
            os.remove(path)
        for name in ("crates/low/src/A link.antt", "crates/low/src/out/Link.antt", "crates/low/c"):
            os.makedirs(os.path.dirname(self.in_top(name)), exist_ok=True)
            os.symlink("Some.antt", self.in_top(name))
            self.expect_refused(f"{name} isn't a source: remove it")
            os.remove(self.in_top(name))
        self.expect_built("all are removed")

    def test_what_git_has(self):
        """A build that git has is neither run nor built upon, nor what a submodule has."""
        self.build()
        self.git("init", "-q")
        for name in ("out/built", "crates/low/out/rlib/stamp", 'crates/a b/out/"'):
            self.put(name, "")
            self.git("add", "-f", name)
            self.expect_refused("git has .*out/.*, which isn't a source: remove it there")
            self.git("rm", "-qf", name)
        self.run_command(["git", "init", "-q", "other"])
        self.write("other/rlib/stamp", "")
        commit = "git add . && git -c user.name=n -c user.email=e commit -qm other"
        self.run_command(["sh", "-c", commit], cwd=self.path("other"))
        shutil.rmtree(self.in_top("crates/low/out"), ignore_errors=True)
        self.git("submodule", "--quiet", "add", self.path("other").decode(), "crates/low/out")
        self.expect_refused("git has crates/low/out/rlib/stamp, which isn't a source: .*")
        self.git("rm", "-qf", "crates/low/out")
        self.write(self.in_top(".git/HEAD"), "")
        self.expect_refused("git doesn't say what it has: fatal: .*")

    def test_what_an_archive_has(self):
        """Without git, only a directory `out` that a build made here is built upon."""
        self.build()
        copied = self.path("copied").decode()
        self.run_command(["cp", "-a", self.top, copied])
        self.top, own = copied, self.top
        self.expect_refused("out wasn't made here: remove it")
        shutil.rmtree(self.in_top("out"))
        self.expect_refused("crates/digests_main/out wasn't made here: remove it")
        self.top = own
        self.assertEqual((self.script("digests", "md5sum", "a"), self.calls), (OF_A, []))

    def test_a_failed_build(self):
        """A failed build says why, with status 1, every time; the old program is neither run nor
        installed."""
        log = self.in_top("out/build.log")
        end = f"rt: this is why\ndigests: the build failed; all that the kit said is in {log}\n"
        for old in (False, True):
            for fails, step in (
                ("lib low", "crate 1 of 1, low"),
                ("run digests_main", f"the program for {DEFAULT}"),
                ("--cpu", f"the program for {FAST}"),
            ):
                self.write(self.sources[0], f"{old} {fails}\n")
                before = self.programs()
                for words in (
                    ["digests", "md5sum", "a"],
                    ["digests", "md5sum", "a"],
                    ["install", "prefix"],
                ):
                    ran = self.script(*words, RT_FAILS=fails)
                    self.assertEqual((ran.status, ran.out), (1, b""))
                    self.assertIn(f"{step}: failed\n", ran.err.decode())
                    self.assertTrue(ran.err.decode().endswith(end), ran.err)
                self.assertEqual(self.programs().get(FAST), before.get(FAST))
                self.assertFalse(os.path.exists(self.path("prefix")))
            os.utime(self.sources[0], (1, 1))
            self.expect_built("mended, with an older time")

    def test_another_program(self):
        """A program that isn't the one that was built, as after a power cut, is neither run nor
        installed, but built anew."""
        self.build()
        for name in ("out/digests", "out/default/digests", f"out/{FAST}/digests"):
            for text in ("", "#!/bin/sh\necho 0\n"):
                os.remove(self.in_top(name))
                self.put(name, text)
                os.chmod(self.in_top(name), 0o755)
                self.expect_built(name)

    def test_without_the_kit(self):
        """One line says what is missing and where README has it, before anything is proved."""
        os.remove(self.path("commands/rt"))
        folders = [
            folder
            for folder in self.env["PATH"].split(os.pathsep)
            if not os.path.exists(f"{folder}/rt")
        ]
        message = "rt, the command of the Rattle kit, isn't on the PATH: see Set-up in README.md"
        self.expect_refused(message, PATH=os.pathsep.join(folders))

    def test_with_sudo(self):
        """In another's directory nothing is made, before a first build and after a change. What is
        built is installed."""
        if os.getuid() != 0:
            self.skipTest("only root gives a directory to another")
        nobody = self.nobody()
        sudo, whose = {"SUDO_UID": str(nobody["user"])}, f"{nobody['user']}:{nobody['group']}"
        self.run_command(["chown", "-R", whose, self.top])
        message = "build first, without sudo: ./digests"
        self.expect_refused(message, **sudo)
        self.assertFalse(os.path.exists(self.in_top("out")))
        self.build()
        self.assertEqual(self.script("install", self.path("prefix"), **sudo).status, 0)
        shutil.rmtree(self.path("prefix"))
        self.write(self.sources[0], "changed")
        self.expect_refused(message, **sudo)


class HowFar(Repository):
    """A build of two crates, at a terminal. What rt says of each comes through a pipe."""

    def begin(self, **env):
        """Starts a build; returns it, and the pipe of the crate `low`."""
        self.put("crates.txt", "low:\nbeside:\ndigests_main: low beside\n")
        self.put("crates/beside/src/Some.antt", "")
        self.run_command(["mkfifo", "low", "beside"])
        self.screen, writes = self.terminal()
        env = {**self.env, "TERM": "xterm", "RT_PIPES": self.folder, **env}
        started = subprocess.Popen(
            [self.in_top("tools/build")], env=env, stdin=subprocess.DEVNULL, stderr=writes
        )
        os.close(writes)
        self.addCleanup(end, started)
        return started, self.fed("low")

    def expect_shown(self, *texts):
        shown = ""
        while not all(text in shown for text in texts):
            shown += os.read(self.screen, 65536).decode()

    def test_shown(self):
        """The line of a crate that is proved counts its functions. If one fails, no other is
        begun."""
        started, low = self.begin(RT_FAILS="lib beside")
        for far in ("1 of 3 functions", "2 of 3 functions"):
            low.write(f"so far: {far} checked\n".encode())
            self.expect_shown(f"\033[A\033[Kcrate 1 of 2, low: {far}, ")
        low.close()
        beside = self.fed("beside")
        self.expect_shown("\033[A\033[Kcrate 1 of 2, low: ", "crate 2 of 2, beside: ")
        beside.close()
        self.expect_shown("crate 2 of 2, beside: failed\n", "rt: this is why\n")
        self.assertEqual(
            (started.wait(), os.path.exists(self.in_top("crates/low/out/made"))), (1, True)
        )
        self.assertIn(b"== beside: failed\nrt says", self.read(self.in_top("out/build.log")))

    def test_ended(self):
        """After a build was ended, the next one completes."""
        for number in (signal.SIGTERM, signal.SIGKILL):
            self.put("crates/low/src/Some.antt", f"{number}\n")
            started, low = self.begin()
            started.send_signal(number)
            self.assertNotEqual(started.wait(), 0)
            low.close()
            self.build()


class InLanes(Repository):
    """A build of two crates by the kit itself."""

    def setUp(self):
        super().setUp()
        os.remove(self.path("commands/rt"))
        if shutil.which("rt") is None or self.kit_line() != KIT:
            self.skipTest(f"the kit {KIT} isn't here")
        for path in self.sources:
            os.remove(path)
        self.put("crates.txt", "low:\ndigests_main: low\n")
        self.put_low("1")
        main = "#![tactic(auto)]\n\nfn main() {\n    let _ = low::number();\n}\n"
        self.put("crates/digests_main/src/main.rt", main)

    def kit_line(self):
        return subprocess.run(["rt", "version"], stdout=subprocess.PIPE).stdout.decode().strip()

    def put_low(self, number):
        self.put(
            "crates/low/src/lib.rt",
            "//! A crate.\n#![tactic(auto)]\n\nghost use Rattle.std.specs.Prelude.{◌≡◌};\n\n"
            "/// Returns a number.\npub fn number() -> u8\n"
            f"    ensures {{ result ≡ {number} }}\n{{\n    {number}\n}}\n",
        )

    def rt(self, *words):
        ran = self.run_command(["rt", *words], cwd=self.in_top("crates/low"))
        self.assertEqual(ran.status, 0, ran.out)
        return ran.out

    def test_what_lies_there(self):
        """A library that something else has left isn't taken. What a check has kept is used."""
        self.build()
        self.assertIn(b"statements=trusted", self.read(self.in_top("out/build.log")))
        self.put_low("2")
        library = "crates/low/out/rlib/low.rlib/toolchain/mir.json"
        os.remove(self.in_top(library))
        self.put(library, "garbage")
        os.remove(self.in_top("crates/low/out/rlib/stamp"))
        self.build()
        self.assertNotEqual(self.read(self.in_top(library)), b"garbage")
        self.assertIn(b"modules loaded=", self.rt("check"))
        self.put_low("3")
        self.build()
        self.assertIn(b"incremental=trusted", self.read(self.in_top("out/build.log")))

    def test_after_the_gate(self):
        """What the gate has proved isn't proved again, though its library lies there."""
        self.script("tools/guard")
        for crate in ("low", "digests_main"):
            self.run_command(["rt", "fmt"], cwd=self.in_top(f"crates/{crate}"))
        ran = self.run_command(["rt", "ci"], cwd=self.top)
        self.assertEqual(ran.status, 0, ran.out)
        self.build()
        log = self.read(self.in_top("out/build.log"))
        self.assertIn(b"\n== low\n== ", log)


class SameBytes(Case):
    of_the_repository = True

    def test_from_another_folder(self):
        """A build in another environment, over what is kept of the proofs, gives the same."""
        if shutil.which("rt") is None:
            self.skipTest("the command rt of the Rattle kit is not on the PATH")
        names = [os.path.join(TOP, name) for name in ("crates", "crates.txt", "tools", "README.md")]
        self.run_command(["sh", "-c", 'cp -Rl "$@" . 2>/dev/null || cp -R "$@" .', "sh", *names])
        self.run_command(["git", "init", "-q"])  # without it, no build from elsewhere is built upon
        # So that both are compiled anew.
        self.run_command(["sh", "-c", "rm -f crates/digests_main/out/digests_main*"])
        env = {
            **os.environ,
            "HOME": self.folder,
            "TZ": "Asia/Tokyo",
            "USER": "other",
            "SOURCE_DATE_EPOCH": "1",
        }
        ran = self.run_command(["tools/build"], env=env)
        self.assertEqual(ran.status, 0, ran.err)
        for level in (DEFAULT, FAST):
            with self.subTest(level=level):
                ours = os.path.join(TOP, "out", level, "digests")
                self.assertTrue(
                    self.read(f"out/{level}/digests") == self.read(ours),
                    f"{ours} has other bytes: if it is older than its sources, ./digests builds it",
                )
