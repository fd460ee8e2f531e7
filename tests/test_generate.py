"""Lines that the tools write: digests of standard input and of files, the styles, and names that
aren't there."""

import os

import harness
from harness import MD5_OF_NOTHING, MD5_OF_ABC, SHA256_OF_ABC, TOOLS, X_MISSING, Case, hasher
from texts import not_found


class Digests(Case):
    def test_published_digests(self):
        for tool, (_, of_nothing, of_abc) in TOOLS.items():
            with self.subTest(tool=tool):
                self.expect([tool], out=[f"{of_nothing}  -"])
                self.expect([tool], stdin="abc", out=[f"{of_abc}  -"])
                self.expect([tool, "a", "e"], out=[f"{of_abc}  a", f"{of_nothing}  e"])

    def test_sizes_around_blocks_and_pieces(self):
        """Python's own digests of 17 MB, and of the sizes at which a block, a padding or the
        reading buffer ends."""
        near = [
            base + step
            for base in (56, 64, 112, 128, 256, 8192, 16384, 65536)
            for step in (-1, 0, 1)
        ]
        content = bytes(range(251)) * 70000
        files = {f"n{size}": content[:size] for size in [*near, len(content)]}
        for name, content in files.items():
            self.write(name, content)
        for tool, (tag, *_) in TOOLS.items():
            with self.subTest(tool=tool):
                self.expect(
                    [tool, *files],
                    out=[
                        f"{hasher(tag, content).hexdigest()}  {name}"
                        for name, content in files.items()
                    ],
                )

    def test_lengths_of_blake2b(self):
        full = TOOLS["b2sum"][1]
        self.expect("b2sum -l 0 --tag e", out=[f"BLAKE2b (e) = {full}"])
        for size in (1, 2, 20, 31, 33, 63):
            with self.subTest(size=size):
                digits = hasher("BLAKE2b", b"abc", size).hexdigest()
                self.expect(["b2sum", "-l", str(8 * size), "a"], out=[f"{digits}  a"])
                self.expect(
                    ["b2sum", f"-l{8 * size}", "--tag", "a"],
                    out=[f"BLAKE2b-{8 * size} (a) = {digits}"],
                )


class Operands(Case):
    """Which names are read, in which order, and what a name that can't be read gives."""

    def test_missing_and_empty_names(self):
        self.expect(
            "md5sum a x e",
            out=[f"{MD5_OF_ABC}  a", f"{MD5_OF_NOTHING}  e"],
            err=[X_MISSING],
            status=1,
        )
        self.expect("md5sum x x", err=[X_MISSING, X_MISSING], status=1)
        self.expect(["md5sum", ""], err=[not_found("")], status=1)
        self.expect(["md5sum", "", "a"], out=[f"{MD5_OF_ABC}  a"], err=[not_found("")], status=1)

    def test_dashes_and_files_that_come_twice(self):
        self.expect(
            "md5sum a - e -",
            stdin="abc",
            out=[
                f"{MD5_OF_ABC}  a",
                f"{MD5_OF_ABC}  -",
                f"{MD5_OF_NOTHING}  e",
                f"{MD5_OF_NOTHING}  -",
            ],
        )
        self.write("-", "")
        self.expect("md5sum -", stdin="abc", out=[f"{MD5_OF_ABC}  -"])
        self.expect("md5sum ./-", stdin="abc", out=[f"{MD5_OF_NOTHING}  ./-"])
        self.expect("md5sum a a a", out=[f"{MD5_OF_ABC}  a"] * 3)

    def test_names_behind_two_dashes(self):
        for name in ("-b", "--tag", "--", "-c", "--help"):
            with self.subTest(name=name):
                self.write(name, "abc")
                self.expect(["sha256sum", "--", name], out=[f"{SHA256_OF_ABC}  {name}"])
        self.expect(
            ["sha256sum", "--", "a", "--"], out=[f"{SHA256_OF_ABC}  a", f"{SHA256_OF_ABC}  --"]
        )
        err = [not_found(shown) for shown in ("q\\\\\\nz", "a\\rb")]
        self.expect(["md5sum", "q\\\nz", "a\rb"], err=err, status=1)
        self.expect(["md5sum", "-z", "q\\\nz", "a\rb"], err=err, status=1)

    def test_links(self):
        os.symlink("a", self.path("good"))
        os.symlink("x", self.path("bad"))
        self.expect(
            "md5sum good bad",
            out=[f"{MD5_OF_ABC}  good"],
            err=[not_found("bad")],
            status=1,
        )

    def test_devices_and_pipes(self):
        self.write("d/f", "abc")
        names = ["d/f", "./d/../a", os.fsdecode(self.path("d/f")), "./" * 2000 + "a"]
        self.expect(
            ["md5sum", "/dev/null", *names],
            out=[f"{MD5_OF_NOTHING}  /dev/null", *(f"{MD5_OF_ABC}  {name}" for name in names)],
        )
        os.mkfifo(self.path("p"))
        started = self.start("md5sum p", stdout=-1)
        with self.fed("p") as pipe:
            pipe.write(b"a")
            pipe.write(b"bc")
        self.assertEqual(
            started.communicate(timeout=harness.RUN_SECONDS)[0], f"{MD5_OF_ABC}  p\n".encode()
        )
        self.assertEqual(started.returncode, 0)
