"""A small copy of the repository, in a folder with a space in its name, for tests of building and
installing. The command `rt` is replaced by a script, so that nothing is proved."""

import os

import harness
from harness import MD5_OF_ABC, Case, Ran
from sources import TOP, text_of

DEFAULT, FAST = "default", "x86-64-v3"

# How rt is called by a build of both programs, sorted.
BOTH = ["digests_main run -- sha256sum", f"digests_main run --cpu {FAST} -- sha256sum", "low lib"]

# What `digests md5sum a` comes to.
OF_A = Ran(0, f"{MD5_OF_ABC}  a\n".encode(), b"")


class Repository(Case):
    of_the_repository = True

    def setUp(self):
        super().setUp()
        self.top = os.path.join(self.folder, "the repository")
        os.mkdir(self.top)
        parts = [
            os.path.join(TOP, name)
            for name in ("digests", "install", "CHANGELOG.md", "tools", "completions")
        ]
        self.run_command(["cp", "-R", *parts, self.top])
        self.put("crates.txt", "low: memchr\ndigests_main: low\nexample_some: low\n")
        self.sources = [
            self.put(f"crates/{crate}/{part}/Some.antt", f"{crate} {part}\n")
            for crate in ("low", "digests_main")
            for part in ("src", "specs", "proofs")
        ]
        self.write_command("rt", text_of("tests", "support", "rt.sh"))
        self.env = {
            **os.environ,
            "PATH": f"{self.folder}/commands:{os.environ['PATH']}",
            "RT_NOTES": f"{self.folder}/notes",
            "RT_PROGRAM": harness.PROGRAM,
            "RT_FAST": harness.PROGRAM,
        }

    def in_top(self, name):
        """Returns the path of a name in the repository."""
        return os.path.join(self.top, name)

    def put(self, name, text):
        """Writes a file of the repository, and returns its path."""
        self.write(self.in_top(name), text)
        return self.in_top(name)

    def change(self, name, old, new):
        """Replaces a text in a file of the repository, which has it once."""
        text = self.read(self.in_top(name)).decode()
        self.assertEqual(text.count(old), 1, f"{name} must have this once: {old}")
        self.put(name, text.replace(old, new))

    def script(self, name, *words, stdin=b"", **how):
        """Runs a script of the repository. Names in capitals are for its environment, where `RT_..`
        are for the script in the place of rt; `calls` says how that was called: the crates and the
        words, sorted."""
        self.write("notes", "")
        variables = {key: how.pop(key) for key in list(how) if key.isupper()}
        env = {**self.env, **variables}
        ran = self.run_command([self.in_top(name), *words], stdin, env=env, **how)
        self.calls = sorted(self.read("notes").decode().splitlines())
        return ran

    def build(self, **how):
        """Builds what is stale."""
        ran = self.script("tools/build", **how)
        self.assertEqual((ran.status, ran.out), (0, b""), ran.err)

    def programs(self):
        """Returns the last line of the program of each level that is built, which names the level
        and has a sum of its sources."""
        paths = {level: self.in_top(f"out/{level}/digests") for level in (DEFAULT, FAST)}
        return {
            level: self.read(path).splitlines()[-1]
            for level, path in paths.items()
            if os.path.exists(path)
        }
