"""The manual pages: what they say of options and of faults is what the program does.
test_recipes.py types what they show."""

import re

import harness
from harness import NAMES, Case
from manual import sections_of
from options import options_of, takes
from reference import REASONS
from texts import bad


class Pages(Case):
    of_the_repository = True

    def test_options(self):
        """Each option of the help is there, except those that anysum never takes; and each group
        has the options that the program takes there."""
        for tool in NAMES:
            helped = set(
                re.findall(
                    rb"(?m)^ {2,6}(?:-\w, )?--([a-z-]+)", self.run_words([tool, "--help"]).out
                )
            )
            parts = re.split(r"Only (with(?:out)?) --check:", sections_of(tool)["OPTIONS"])
            groups = {"": parts[0], **dict(zip(parts[1::2], parts[2::2]))}
            for where, wanted in (
                ("", (True, True)),
                ("without", (True, False)),
                ("with", (False, True)),
            ):
                for long, value in re.findall(
                    r"(?m)^\.TP\n(?:-.*, )?--([a-z-]+)(=?)", groups.get(where, "")
                ):
                    word = f"--{long}=8" if value else f"--{long}"
                    taken = takes(harness.PROGRAM, tool, word), takes(
                        harness.PROGRAM, tool, "-c", word
                    )
                    self.assertEqual(taken, wanted, (tool, word))
                    helped.remove(long.encode())
            self.assertEqual(bool(helped), tool == "anysum", (tool, helped))
            for long in map(bytes.decode, helped):
                self.assertFalse(takes(harness.PROGRAM, tool, "-c", f"--{long}"), (tool, long))
                self.assertIn(f"--{long}", sections_of(tool)["DESCRIPTION"])


class Said(Case):
    """What the program says on standard error is in the DIAGNOSTICS of its page."""

    def marks(self):
        """Returns what a line may be, as patterns: names in capitals are names of others; a reason
        is one of the reference."""
        marks = [
            re.sub(r"\b(?:TOOL|FILE|NAME|N|TAG)\b", ".*", re.escape(mark))
            for mark in re.findall(r"(?m)^\.TP\n(.*)$", sections_of("digests")["DIAGNOSTICS"])
        ]
        return [
            mark.replace("REASON", f"(?:{b'|'.join(REASONS.values()).decode()})") for mark in marks
        ]

    def said_by(self, tool):
        """Returns lines for each diagnostic that can be had without refusing memory or
        permission."""
        tag, digits, _ = harness.TOOLS[tool]
        self.write("list", f"bad\n{tag} (x) = {digits}\n")
        self.write("missing", f"{tag} (x) = {digits}\n")
        runs = [
            ["x"],
            [b"\xff"],
            ["-c", "-w", "list"],
            ["-c", "e"],
            ["-c", "--ignore-missing", "missing"],
            ["--other"],
        ]
        messages = b"".join(self.run_words([tool, *words]).err for words in runs)
        messages += self.run_words(["other"]).err
        messages += self.run_words([tool, "a"], stdout=self.full()).err
        return [
            line
            for line in messages.decode(errors="replace").splitlines()
            if not line.startswith("Try '") and line != bad(1, tool)
        ]

    def test_each(self):
        for tool in harness.TOOLS:
            shown = set()
            for line in self.said_by(tool):
                fitting = [mark for mark in self.marks() if re.fullmatch(mark, line)]
                self.assertNotEqual(fitting, [], line)
                shown.update(fitting)
            missing = [mark for mark in self.marks() if mark not in shown]
            self.assertEqual(
                [re.sub(r"\W", "", mark) for mark in missing],
                [
                    "Inputoutputerror",
                    "memoryexhausted",
                    "digestswordsnotread",
                    "thismachinelacksafeatureofx8664v3",
                ],
            )

    def test_a_line_of_another_form(self):
        """A line of a help that lists no option is named."""
        self.write_command("other", "#!/bin/sh\nprintf 'usage\\n\\n  strange line\\n'\n")
        with self.assertRaisesRegex(SystemExit, "md5sum --help .*: '  strange line'"):
            options_of(self.path("commands/other").decode(), "md5sum")
