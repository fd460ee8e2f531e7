"""The completions, in real shells: they offer what the program accepts at that place."""

import os
import shutil

import harness
import shells
from harness import NAMES, Case
from options import options_of, takes
from terminal import Terminal


def wanted_options(tool, *before):
    """Returns the options of the tool's help, in all their spellings, that the program takes after
    some words."""
    wanted = set()
    for option in options_of(harness.PROGRAM, tool):
        value = ["8"] if option.value else []
        if takes(harness.PROGRAM, tool, *before, option.words()[0], *value):
            wanted.update(option.words())
    return wanted


class Shell:
    """What holds in each shell. `offered` answers all completions of a line's last word."""

    of_the_repository = True

    def setUp(self):
        super().setUp()
        if shutil.which(self.shell) is None:
            self.skipTest(f"{self.shell} isn't installed")
        for name in ("some", "some more"):
            self.write(f"here/{name}", "")
        texts = shells.completions(harness.PROGRAM, NAMES)
        for name, text in zip(("digests.bash", "digests.fish", "_digests"), texts):
            self.write(name, text)

    def test_options(self):
        """The options that the program takes there. After --check, whether it is offered again is
        up to the shell."""
        again = {"-c", "--check"}
        for tool in ("md5sum", "b2sum", "anysum"):
            for command in (tool, f"digests {tool}"):
                self.assertEqual(self.offered(f"{command} -"), wanted_options(tool), command)
                for before in ("-c", "--che", "some -c"):
                    offered = self.offered(f"{command} {before} -")
                    self.assertEqual(
                        offered - again, wanted_options(tool, "-c") - again, (command, before)
                    )
        self.assertEqual(self.offered("md5sum -wc --st"), {"--status", "--strict"})
        self.assertEqual(self.offered("md5sum --st"), set())

    def test_lengths(self):
        every = {str(bits) for bits in range(8, 513, 8)}
        for command in ("b2sum", "digests b2sum"):
            for words, wanted in (("-l ", every), ("--length=", every), ("--tag -l 25", {"256"})):
                with self.subTest(words=words):
                    self.assertEqual(
                        {word.rpartition("=")[2] for word in self.offered(f"{command} {words}")},
                        wanted,
                        words,
                    )
        self.assertTrue(all(takes(harness.PROGRAM, "b2sum", "-l", bits) for bits in every))

    def test_files_and_tools(self):
        for command in (
            "md5sum ",
            "digests sha1sum ",
            "b2sum -c ",
            "anysum -c ",
            "b2sum -l 8 ",
            "b2sum --length=8 ",
            "md5sum -w some ",
        ):
            with self.subTest(command=command):
                self.assertEqual(self.offered(f"{command}so"), {"some", "some more"}, command)
        self.write("here/-file", "")
        self.assertEqual(self.offered("md5sum -- -"), {"-file"})
        self.assertEqual(self.offered("digests md5sum -- -"), {"-file"})
        for cut in ("", "sha2", "s", "m", "a"):
            self.assertEqual(
                self.offered(f"digests {cut}"),
                {name for name in NAMES if name.startswith(cut)},
                cut,
            )


class Typed(Shell):
    def setUp(self):
        super().setUp()
        self.terminal = Terminal(
            self.shell, self.folder, self.load.format(self.folder), ["digests", *NAMES]
        )
        self.addCleanup(self.terminal.close)

    def offered(self, line):
        """Returns what the line has more than before its last word; a word that stays as it is has
        no completion."""
        before, last = line.split()[1:], ""
        if not line.endswith(" "):
            last = before.pop()
        words = self.terminal.completed(line)
        self.assertEqual(words[: len(before)], before, line)
        return set(words[len(before) :]) - {last}

    def test_separators(self):
        """Each completion is a word of its own, whatever separates words in the user's shell."""
        for separator in ("':'", "$'\\n'"):
            self.terminal.completed(f"IFS={separator}; md5sum so")
            self.assertEqual(self.offered("md5sum -wc --st"), {"--status", "--strict"}, separator)
            self.assertEqual(self.offered("b2sum -l 25"), {"256"}, separator)
            self.assertEqual(self.offered("digests sha2"), {"sha224sum", "sha256sum"}, separator)


class Bash(Typed, Case):
    shell = "bash"
    load = ". '{}/digests.bash'"


class Zsh(Typed, Case):
    shell = "zsh"
    load = "fpath=('{}' $fpath)"


class Fish(Shell, Case):
    shell = "fish"

    def test_values(self):
        """No file is the value of an option, in whatever way it is spelled."""
        for words in (
            "b2sum --length=",
            "b2sum --len=",
            "md5sum --length=",
            "digests anysum --tag=",
        ):
            with self.subTest(words=words):
                self.assertFalse([word for word in self.offered(words) if "some" in word])

    def offered(self, line):
        command = "source $argv[1]/digests.fish; complete -C $argv[2]"
        env = {
            **os.environ,
            "HOME": self.folder,
            "XDG_CONFIG_HOME": self.folder,
            "LC_ALL": "C.UTF-8",
        }
        words = ["fish", "--no-config", "-c", command, self.folder, line]
        ran = self.run_command(words, cwd=self.path("here"), env=env)
        self.assertEqual((ran.status, ran.err), (0, b""))
        return {text.split("\t")[0] for text in ran.out.decode().splitlines()}
