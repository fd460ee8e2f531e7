"""Against GNU coreutils, if they are installed: both write the same lines, byte for byte, in every
style, and each verifies the other's manifests."""

import os
import random
import subprocess

import harness
from harness import GNU_TOOLS, Case, as_bytes, gnu
from texts import ok

STYLES = (["-t"], ["-b"], ["--tag"], ["-z"], ["-z", "-b"], ["-z", "--tag"])
NAMES = [
    "a",
    "e",
    " ",
    " lead",
    "trail ",
    "*star",
    "a)",
    "(b",
    "x = y",
    "-dash",
    "--",
    "#",
    "tab\t",
    "\x01",
]
NAMES += ["é", "日本", "d/f", "new\nline", "\n", "both\\\n"]
# In reports of checking, GNU 9.1 escapes a name only if it has a newline; ours escapes these too,
# as lines do.
BACKSLASH_NAMES = ["back\\slash", "\\n", "\\", "d/\\"]


class Beside(Case):
    def setUp(self):
        super().setUp()
        if missing := [tool for tool in GNU_TOOLS if gnu(tool) is None]:
            self.skipTest(f"GNU coreutils has no {missing[0]} here")
        self.names = NAMES
        chance = random.Random(1)
        for i, name in enumerate(self.names + BACKSLASH_NAMES):
            if name not in ("a", "e"):
                self.write(name, chance.randbytes(i * 37))


class SameLines(Beside):
    def test_every_style(self):
        for tool in GNU_TOOLS:
            for style in STYLES:
                for names in (["--", *self.names, *BACKSLASH_NAMES], []):
                    ours, theirs = self.ours_and_theirs(
                        [tool, *style, *names], stdin=b"some bytes\r\n\0"
                    )
                    self.assertEqual((ours, ours.status), (theirs, 0))

    def test_more_than_2_to_the_32_bits(self):
        """A sparse file of 512 MiB and 5 bytes, whose number of bits passes 2^32: all tools in
        parallel, and then, under anysum, all digests once more."""
        with open(self.path("large"), "wb") as file:
            file.truncate((1 << 29) + 5)
        runs, lines = [], []
        for tool in GNU_TOOLS:
            theirs = subprocess.Popen(
                [gnu(tool), "--tag", "large"], cwd=self.folder, stdout=subprocess.PIPE
            )
            self.addCleanup(harness.end, theirs)
            runs.append((self.start([tool, "--tag", "large"], stdout=subprocess.PIPE), theirs))
        for (tag, _, _), both in zip(GNU_TOOLS.values(), runs):
            ours, theirs = (run.communicate(timeout=harness.RUN_SECONDS)[0] for run in both)
            self.assertEqual(ours, theirs)
            self.assertTrue(theirs.startswith(f"{tag} (large) = ".encode()))
            lines.append(theirs)
        self.expect("anysum -c --strict", stdin=b"".join(lines), out=[ok("large")] * len(GNU_TOOLS))


class Verified(Beside):
    def each_manifest(self, styles=STYLES[:3]):
        """Yields each tool, each style that can be checked, and the manifest that GNU's tool writes
        for all files."""
        for tool in GNU_TOOLS:
            for style in styles:
                ran = self.run_command([gnu(tool), *style, "--", *self.names])
                self.assertEqual((ran.status, ran.err), (0, b""), tool)
                yield tool, style, ran.out

    def checks(self, tool, manifest, *options):
        """Returns what ours and theirs say of a manifest."""
        self.write("manifest", manifest)
        return self.ours_and_theirs([tool, "-c", *options, "manifest"])

    def test_untouched(self):
        for tool, style, manifest in self.each_manifest():
            for options in (
                [],
                ["--strict"],
                ["--quiet"],
                ["--status"],
                ["-w"],
                ["--ignore-missing"],
            ):
                with self.subTest(options=options):
                    ours, theirs = self.checks(tool, manifest, *options)
                    self.assertEqual(ours, theirs)
                    self.assertEqual((ours.status, ours.err), (0, b""))

    def test_tags_and_backslashes(self):
        manifest = b"".join(lines for _, _, lines in self.each_manifest([["--tag"]]))
        ran = self.run_words("anysum -c --strict", stdin=manifest)
        self.assertEqual(
            (ran.status, ran.err, ran.out.count(ok(b"") + b"\n")),
            (0, b"", len(GNU_TOOLS) * len(self.names)),
        )
        self.names = BACKSLASH_NAMES
        shown = [ok("\\back\\\\slash"), ok("\\\\\\n"), ok("\\\\\\"), ok("\\d/\\\\")]
        for tool, _, manifest in self.each_manifest():
            with self.subTest(tool=tool):
                ours, theirs = self.checks(tool, manifest, "--strict")
                self.assertEqual(ours, (0, as_bytes(shown), b""))
                self.assertEqual(
                    (theirs.status, theirs.out.count(ok(b"") + b"\n"), theirs.err),
                    (0, len(shown), b""),
                )

    def test_lengths(self):
        for bits in range(8, 513, 8):
            ours, theirs = self.ours_and_theirs(
                ["b2sum", "-l", str(bits), "--tag", "a", "d/f", "new\nline"]
            )
            self.assertEqual(ours, theirs)
            ours, theirs = self.checks("b2sum", theirs.out, "--strict")
            self.assertEqual((ours, ours.status), (theirs, 0))

    def test_files_changed_and_removed(self):
        manifests = list(self.each_manifest())
        self.write("a", "changed")
        os.remove(self.path("*star"))
        self.write("new\nline", "!")
        for tool, _, manifest in manifests:
            for options in (
                [],
                ["--quiet"],
                ["--status"],
                ["--ignore-missing"],
                ["--strict", "-w"],
            ):
                with self.subTest(options=options):
                    ours, theirs = self.checks(tool, manifest, *options)
                    self.assertEqual((ours.status, ours.out), (1, theirs.out))
                    self.assertEqual(
                        (theirs.status, theirs.err.count(b"WARNING")),
                        (1, ours.err.count(b"WARNING")),
                    )

    def test_lines_corrupted_and_reordered(self):
        """Lines in another order, comments, and lines that neither holds to be well formed."""
        chance = random.Random(3)
        for tool, _, manifest in self.each_manifest():
            lines = manifest.splitlines(keepends=True)
            chance.shuffle(lines)
            lines[3:3] = [b"# a comment\n", b"junk\n"]
            lines[9] = (
                lines[9]
                .replace(b"0", b"g")
                .replace(b"1", b"h")
                .replace(b"2", b"i")
                .replace(b"3", b"j")
            )
            lines.append(lines[0].rstrip(b"\n"))
            for options in ([], ["-w"], ["--strict"], ["--status"], ["--strict", "--quiet"]):
                with self.subTest(options=options):
                    ours, theirs = self.checks(tool, b"".join(lines), *options)
                    self.assertEqual(ours, theirs)

    def test_changed_digits(self):
        for tool, style, manifest in self.each_manifest():
            at = manifest.index(b"= ") + 2 if style == ["--tag"] else 0
            digit = b"0" if manifest[at : at + 1] != b"0" else b"1"
            ours, theirs = self.checks(tool, manifest[:at] + digit + manifest[at + 1 :])
            self.assertEqual((ours, ours.status), (theirs, 1))
        lines = self.run_command([gnu("md5sum"), "a", "e"]).out.splitlines(keepends=True)
        manifest = b"".join(line[:32].upper() + line[32:] for line in lines)
        wanted = (0, as_bytes([ok("a"), ok("e")]), b"")
        self.assertEqual(self.checks("md5sum", manifest), (wanted, wanted))

    def test_returns_at_line_ends_and_empty_lines(self):
        """Ours reads what an editor of another system made of a manifest; older versions of theirs
        don't."""
        for tool in GNU_TOOLS:
            with self.subTest(tool=tool):
                lines = self.run_command([gnu(tool), "a", "e", " lead"]).out
                manifest = b"\r\n" + lines.replace(b"\n", b"\r\n") + b"\n\n"
                self.expect(
                    [tool, "-c", "--strict"], stdin=manifest, out=[ok("a"), ok("e"), ok(" lead")]
                )

    def test_names_with_a_carriage_return(self):
        """Newer versions of theirs escape it, as ours does."""
        self.write("a\rb", "abc")
        for tool in GNU_TOOLS:
            theirs = self.run_command([gnu(tool), "a\rb"]).out
            self.expect([tool, "-c", "--strict"], stdin=theirs, out=[ok("\\a\\rb")])
            ours = self.run_words([tool, "a\rb"]).out
            self.expect([tool, "-c", "--strict"], stdin=ours, out=[ok("\\a\\rb")])
            if theirs.startswith(b"\\"):
                self.assertEqual(ours, theirs)
