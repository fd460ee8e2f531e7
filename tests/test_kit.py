"""What the kit writes is read in the forms that are known, and in no other."""

import os
import shutil
from unittest import mock

import compiled
import lanes
from harness import Case
from sources import TOP


class Kit(Case):
    of_the_repository = True

    def test_another_format(self):
        """A library that another kit has made isn't read."""
        for part in range(len(lanes.FORMAT)):
            other = [*lanes.FORMAT]
            other[part] += "2"
            with self.subTest(part=part), mock.patch.object(lanes, "FORMAT", other):
                lanes.library.cache_clear()
                with self.assertRaisesRegex(ValueError, "whose format isn't known here"):
                    compiled.library("ghost_log")
        lanes.library.cache_clear()

    def test_another_kit(self):
        """Nor is its script called."""
        with mock.patch.object(lanes, "KIT", "another kit"):
            lanes.script.cache_clear()
            self.assertRaises(lanes.OtherKit, lanes.script)
        lanes.script.cache_clear()

    def test_other_files(self):
        """A function with another part, or a line of another kind, is refused."""
        with mock.patch.object(compiled, "OF_A_FUNCTION", compiled.OF_A_FUNCTION | {"more"}):
            compiled.records.cache_clear()
            self.assertRaises(ValueError, compiled.records, "ghost_log")
        compiled.records.cache_clear()
        with mock.patch.object(compiled, "KINDS", compiled.KINDS - {"Contract"}):
            self.assertRaises(ValueError, list, compiled.statements())

    def test_help(self):
        """The tools that prove print their help, and call no `rt`."""
        os.symlink(shutil.which("python3"), self.path("python3"))
        for name in ("clauses.py", "checks.py"):
            ran = self.run_command(
                [os.path.join(TOP, "tools", name), "--help"], env={"PATH": self.folder}
            )
            self.assertEqual((ran.status, ran.err), (0, b""))
            self.assertIn(f"`tools/{name} [".encode(), ran.out)
