"""What the tests share of what the manual pages and documents say of GNU coreutils 9.1."""

import os

from harness import Case, Ran, as_bytes, gnu

VERSION = "(GNU coreutils) 9.1"  # what these tests pin


class Described(Case):
    def setUp(self):
        super().setUp()
        for tool in ("md5sum", "b2sum", "cksum"):
            version = (
                self.run_command([gnu(tool), "--version"]).out.decode()
                if gnu(tool)
                else f"no GNU {tool}\n"
            )
            if version.splitlines()[0] != f"{tool} {VERSION}":
                self.skipTest(f"it pins what {VERSION} does, and here is {version.splitlines()[0]}")
        os.mkdir(self.path("d"))

    def expect_both(self, words, ours, theirs, **how):
        """Expects of each a status, what it writes to standard output and, as lines, to standard
        error."""
        wanted = tuple(
            Ran(status, as_bytes(out), as_bytes(err)) for status, out, err in (ours, theirs)
        )
        self.assertEqual(self.ours_and_theirs(words, **how), wanted, words)

    def expect_alike(self, words, status, out=(), err=(), **how):
        self.expect_both(words, (status, out, err), (status, out, err), **how)
