"""Recipes of which something goes wrong while they run: a command fails or is killed, a file or the
list changes, there is no space, or the whole run is ended. The status isn't 0, and a list of before
is as it was, or new and whole."""

import os
import pty
import shutil
import signal
import subprocess

from harness import RUN_SECONDS, limit
from recipes import BOTH, IMAGE, MADE, Typed, commands_of, line_of

NAMES = ["image.iso", "a b", "-x", "new\nline", "back\\slash", "some folder/c"]

# What may happen to a command, by a script: it does nothing, or part or all of its work, and then
# fails or is killed.
ENDS = (
    "exit 1",
    "kill -KILL $$",
    'real "$@" | head -c 99; exit 1',
    'real "$@"; exit 1',
    'real "$@"; kill -KILL $$',
)

CHANGES = (
    ': >SUMS; : >image.sum; : >image.tagged; real "$@"',
    'usual rm -f SUMS image.sum image.tagged; real "$@"',
    'usual rm -f image.iso a*; real "$@"',
)

# The recipes that make a list; and those of their commands whose status is lost, because their
# output is looked at, or because all is done before.
UNHEARD = {
    "list": {"rm"},
    "list on all": {"rm", "nproc"},
    "write by pv": {"rm"},
    "write at once": {"rm", "wc", "digests"},
}
CHECKS = (
    "check",
    "check by pv",
    "check gpg",
    "check list",
    "check list on all",
    "check list of others",
    "check names",
    "check one",
    "unlisted",
    "not UTF-8",
)


class Parts(Typed):
    def setUp(self):
        super().setUp()
        self.replace_gpgv_and_pv()
        self.make(good=False, more=NAMES)
        self.put("image.iso", IMAGE)
        self.put("SUMS", b"".join(self.lines_of_the_tree()))
        self.put("image.sum", BOTH[0])
        self.put("image.tagged", BOTH[0])

    def make_bad(self):
        """Makes a tree in which nothing passes a check: the image has changed, a file isn't listed,
        and its name isn't UTF-8."""
        self.put("image.iso", IMAGE[:-1])
        self.put(b"not listed\xff")

    def wanted(self, sort):
        """Returns the lines of the list that a recipe makes."""
        if sort.startswith("list"):
            return self.lines_of_the_tree()
        return BOTH if sort == "write at once" else [line_of("sha256sum", b"image.iso", IMAGE)]

    def expect_old_or_new(self, sort, status):
        """Expects a list that is new and whole; or the one of before, if the status says so."""
        lines = sorted(self.read(f"here/{MADE[sort]}").splitlines(keepends=True))
        good = [sorted(self.wanted(sort))] + ([[b"of before"]] if status else [])
        self.assertIn(lines, good)

    def each_script(self, scripts, *sorts):
        """Yields each recipe of these sorts with each of its commands replaced by each of the
        scripts."""
        for recipe, sort, shell in self.each_recipe(*sorts):
            for command in commands_of(recipe):
                for script in scripts:
                    self.command(command, script)
                    yield recipe, sort, shell, command
                self.restore(command)
                self.replace_gpgv_and_pv()

    def test_a_command_that_makes_a_list(self):
        for recipe, sort, shell, command in self.each_script(ENDS, *UNHEARD):
            self.put(MADE[sort], "of before")
            status = self.type(recipe, shell).status
            self.assertTrue(status or command in UNHEARD[sort], command)
            self.expect_old_or_new(sort, status)

    def test_a_command_of_a_check(self):
        """It fails, or just before it runs, the list is emptied or removed, or a file vanishes."""
        self.make_bad()
        here, saved = self.path("here"), self.path("saved")
        shutil.copytree(here, saved, symlinks=True)
        for recipe, _, shell, command in self.each_script(ENDS + CHANGES, *CHECKS):
            with self.subTest(recipe=recipe):
                self.assertNotEqual(self.type(recipe, shell).status, 0, command)
            shutil.rmtree(here)
            shutil.copytree(saved, here, symlinks=True)

    def test_a_file_that_vanishes(self):
        """It vanishes just before a command runs: a list is of the tree as it was before that, or
        after it."""
        for recipe, sort, shell, command in self.each_script(
            ['usual rm -f "a b"; real "$@"'], "list", "list on all"
        ):
            self.put("a b")
            self.put("SUMS", "of before")
            before = sorted(self.lines_of_the_tree())
            status = self.type(recipe, shell).status
            lines = sorted(self.read("here/SUMS").splitlines(keepends=True))
            self.assertIn(
                lines,
                [[b"of before"]] if status else [before, sorted(self.lines_of_the_tree())],
                command,
            )

    def test_another_run(self):
        """What a run has begun that still runs, or was killed, isn't listed by another one."""
        for recipe, sort, shell in self.each_recipe(*UNHEARD):
            with self.subTest(recipe=recipe):
                before = self.files_of_the_tree()
                for command, script in (("mv", "exit 1"), ("rm", "exit 0")):
                    self.command(command, script)
                self.assertNotEqual(self.type(recipe, shell).status, 0)
                begun = self.files_of_the_tree().keys() - before.keys()
                self.assertEqual(len(begun), 1)
                self.restore("mv")
                self.restore("rm")
                os.remove(self.path("here/SUMS"))
                self.passes(recipe if sort.startswith("list") else self.recipe("list"), shell=shell)
                for path in begun:
                    os.remove(os.path.join(self.path("here"), path))
                self.expect_lines("SUMS", self.lines_of_the_tree())

    def test_what_asks(self):
        """At a terminal, a list that can't be written to is replaced, and no directory stays, even
        if aliases ask."""
        here = self.path("here")
        os.chmod(here, 0o777)
        for recipe, sort, shell in self.each_recipe(*UNHEARD):
            for aliases in ("", "alias rm='rm -i' mv='mv -i'; "):
                self.put(MADE[sort], "of before")
                os.chmod(self.path(f"here/{MADE[sort]}"), 0o444)
                before = sorted(os.listdir(here))
                answers, terminal = map(os.fdopen, pty.openpty(), ("wb", "rb"))
                words = [
                    shell,
                    *["-O", "expand_aliases"] * (shell == "bash"),
                    "-c",
                    f'{aliases}eval "$1"',
                    shell,
                ]
                with answers, terminal:
                    os.write(answers.fileno(), b"n\n" * 9)
                    ran = self.run_command(
                        [*words, recipe], terminal, cwd=here, env=self.env, **self.nobody()
                    )
                self.assertEqual((ran.status, sorted(os.listdir(here))), (0, before), aliases)
                self.expect_old_or_new(sort, status=0)

    def test_no_space(self):
        """There is none for reports, for a list that is copied, or for one that is made."""
        for recipe, _, shell in self.each_recipe("check", "check gpg", "check one"):
            self.fails(recipe, shell, stdout=self.full())
        self.make_bad()
        for recipe, _, shell in self.each_recipe(*CHECKS):
            self.fails(recipe, shell, stdout=self.full())
        os.remove(self.path(b"here/not listed\xff"))
        for recipe, sort, shell in self.each_recipe(*UNHEARD):
            with self.subTest(recipe=recipe):
                self.put(MADE[sort], "of before")
                self.fails(recipe, shell, preexec_fn=limit("FSIZE", 40))
                self.assertEqual(self.read(f"here/{MADE[sort]}"), b"of before")

    def test_the_end_of_a_run(self):
        """A list of before is as it was, and nothing temporary is left, unless nothing could be
        removed any more."""
        here = self.path("here")
        for recipe, sort, shell in self.each_recipe(*UNHEARD):
            command = {"write by pv": "pv", "write at once": "tee"}.get(sort, "find")
            begun = self.path(f"commands/{command}.begun")
            for number in (signal.SIGHUP, signal.SIGINT, signal.SIGTERM, signal.SIGKILL):
                self.command(command, f': >"$0.begun"; exec sleep {RUN_SECONDS}')
                self.put(MADE[sort], "of before")
                before = sorted(os.listdir(here))
                started = subprocess.Popen(
                    [shell, "-c", recipe],
                    cwd=here,
                    env=self.env,
                    start_new_session=True,
                    stderr=subprocess.DEVNULL,
                )
                self.until(lambda: os.path.exists(begun), f"{command} is called by {recipe}")
                self.assertGreater(len(os.listdir(here)), len(before))
                os.killpg(started.pid, number)
                self.assertNotEqual(started.wait(), 0)
                if number != signal.SIGKILL:
                    self.until(
                        lambda: sorted(os.listdir(here)) == before,
                        f"{number} leaves nothing of {recipe}",
                    )
                self.assertEqual(self.read(f"here/{MADE[sort]}"), b"of before")
                os.remove(begun)
