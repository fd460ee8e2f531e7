"""README: its commands do what it shows, and a stranger who follows it gets to the end; and
commands of PACKAGING."""

import hashlib
import os
import re
import shutil
import socket

import harness
from harness import NAMES, Case, Ran, as_bytes
from manual import PAGES, sections_of
from repository import Repository
from sources import TOP, text_of
from texts import version


def section(title):
    return re.search(rf"(?ms)^## {re.escape(title)}\n(.*?)(?=^## |\Z)", text_of("README.md"))[1]


def commands(title):
    """Returns the commands of a section's blocks, without their comments."""
    return [
        line.split(" # ")[0].strip() for line in re.findall(r"(?m)^    (\S.*)$", section(title))
    ]


class Limits(Case):
    def test_commands(self):
        """Those for a name that isn't UTF-8, and for long records."""
        os.symlink(harness.PROGRAM, self.path("sha256sum"))
        env, record = {**os.environ, "PATH": f"{self.folder}:{os.environ['PATH']}"}, b"a" * 20000
        self.write(b"\xff", record)
        full, empty = socket.socketpair(socket.AF_UNIX, socket.SOCK_SEQPACKET)
        with empty:
            with full:
                full.send(record)
            for command, stdin in zip(
                re.findall(r"`([^`]*sha256sum[^`]*)`", section("Limits")), (b"", empty)
            ):
                with self.subTest(command=command):
                    words = ["bash", "-c", command.replace("FILE", '"$0"'), b"\xff"]
                    ran = self.run_command(words, stdin, env=env)
                    self.assertEqual(
                        ran.out.decode(), f"{hashlib.sha256(record).hexdigest()}  -\n", command
                    )
        folder = os.open(self.folder, os.O_RDONLY)  # of which no read succeeds
        self.addCleanup(os.close, folder)
        for page in (section("Limits"), sections_of("digests")["LIMITS"]):
            command = re.search(r"(?:\([^(`]*)?dd [^`]*?sha256sum\)?", " ".join(page.split()))[0]
            with self.subTest(command=command):
                ran = self.run_command(["bash", "-c", command], folder, env=env)
                self.assertEqual(ran.status, 1)


class Stranger(Repository):
    """A fresh clone, README's commands, an installation, and its end. The kit's command is replaced
    by one that proves nothing."""

    def setUp(self):
        super().setUp()
        shutil.rmtree(self.top)
        git = ["git", "-c", "safe.directory=*", "clone", "-q", "--no-local", TOP, self.top]
        if shutil.which("git") is None or self.run_command(git).status:
            self.skipTest("this folder is no clone of git")
        self.prefix = os.path.join(self.folder, "a prefix")
        self.env["PATH"] = os.path.join(self.prefix, "bin") + os.pathsep + self.env["PATH"]

    def shell(self, command):
        """Runs a command as README shows it."""
        return self.run_command(
            ["sh", "-c", command.replace("PREFIX", f"'{self.prefix}'")], cwd=self.top, env=self.env
        )

    def type_session(self, session):
        """Types the commands of a session, one after another into one shell, and compares what each
        writes to both outputs with what is shown."""
        typed = "".join(
            f"{command}\nshown=$?; printf '\\0'; (exit $shown)\n" for command, _ in session
        )
        shown = [re.sub("(?m)^    ", "", output) for _, output in session]
        self.assertEqual(
            self.shell(f"exec 2>&1\n{typed}").out.decode().split("\0"), [*shown, ""], session
        )

    def test_the_way(self):
        build, test = commands("Set-up")
        self.assertEqual(test, "./test")
        ran = self.shell(build)
        page = self.read(os.path.join(self.top, "README.md"))
        self.assertEqual(
            (ran.status, ran.out.decode()), (0, f"{hashlib.sha256(page).hexdigest()}  README.md\n")
        )
        self.assertIn(b"digests: proving and building the program", ran.err)
        self.assertEqual(self.shell(build).err, b"")
        for block in re.findall(r"(?m)(?:^    .*\n)+", text_of("README.md")):
            self.type_session(re.findall(r"(?m)^    \$ (.*)\n((?:    (?!\$ ).*\n)*)", block))
        self.run_command(["git", "-C", self.top, "clean", "-fdq"])  # what the examples made
        put, away, again = commands("Installing")
        ran = self.shell(put)
        self.assertEqual((ran.status, ran.err, ran.out.count(b"\n")), (0, b"", 2))
        for name in NAMES:
            with self.subTest(name=name):
                self.assertEqual(self.shell(f"{name} --version").out, as_bytes([version(name)]))
        for name in PAGES if shutil.which("man") else ():
            page = self.shell(f"man -w {name}").out.decode().strip()
            self.assertEqual(
                page, os.path.realpath(os.path.join(self.prefix, f"share/man/man1/{name}.1"))
            )
            ran = self.shell(f"MANWIDTH=80 LC_ALL=C.UTF-8 man --warnings -l '{page}'")
            self.assertEqual(
                (ran.status, ran.err, ran.out.split(b"(")[0]), (0, b"", name.upper().encode())
            )
        completions = re.search(r"(?m)^    (\. .*)", text_of("docs", "PACKAGING.md"))[1]
        self.assertEqual(self.shell(f'{again}; bash -c "{completions}"'), Ran(0, b"", b""))
        texts = text_of("README.md") + text_of("docs", "PACKAGING.md")
        for command in {*re.findall(r"`((?:\w+=\w+ )?\./install [^`\n]*)`", texts)} - {put}:
            with self.subTest(command=command):
                self.assertEqual(self.shell(command).err, b"", command)
        self.assertEqual(
            [name for name in NAMES if os.path.exists(f"{self.prefix}/bin/{name}")], ["anysum"]
        )
        self.assertEqual(self.shell("stage/usr/bin/sha256sum README.md && rm -r stage").status, 0)
        self.assertEqual(self.shell(away), Ran(0, b"", b""))
        self.assertEqual([names for _, _, names in os.walk(self.prefix) if names], [])
        self.assertEqual(self.shell("git status --short"), Ran(0, b"", b""))
