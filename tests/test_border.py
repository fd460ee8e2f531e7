"""What no contract holds: which code may touch the system, and by what; names that are the kit's,
too; destructors; the stack; and where the words of contracts come from. All goes by what the kit
has read and compiled, but for two tokens and for definitions."""

import collections
import glob
import os
import re
from types import SimpleNamespace as Made
from unittest import mock

from claims import code
from compiled import (
    LIBRARIES,
    around_command,
    check_libraries,
    clauses,
    function,
    home,
    callers_of,
    ours,
    reached,
    records,
)
from definitions import taken_names
from harness import Case, Ran
from sources import TOP, code_of, crates_of_program, files, dependencies, text_of, tokens_of


def entries(row, text):
    """Returns what a row of tests/border.txt lists: words or, of a file, what semicolons
    separate."""
    words = text.split()
    return " ".join(words).split("; ") if row.startswith("file ") else words


# The rows of tests/border.txt, each with what it lists.
ROW = re.compile(r"(?m)^([^#\s].*)\n((?:    .*\n)*)")
LISTED = {row: entries(row, text) for row, text in ROW.findall(text_of("tests", "border.txt"))}
PURE = {*LISTED["pure"]}
# The crates of the kit of which a part alone is pure.
IN_PARTS = {name.split("::")[0] for name in PURE if "::" in name}
# The most bytes that a call of `main` may take of the stack, without what is in C.
STACK = 128 * 1024

# The modules whose names a contract or a definition may use: definitions, ours and the kit's, the
# kit's `std`, and one of the kit's logic, which a law's proof uses.
WORDS = re.compile(r"\A(?:Rattle\.(?:\w+\.specs|std)|std\.HLevel)\.")
USE, ELSEWHERE = re.compile(r"\buse\s+([^\s{;]*)"), re.compile(r"\b(?:Rattle|denote|package)\b")


def part_of_kit(name):
    """Returns the crate of a function of the kit or, if a part of the crate alone is pure, the
    module or trait at its top."""
    crate = re.match(r"\w+", name)[0]
    return re.match(r"\w+::\w+", name)[0] if crate in IN_PARTS else crate


def of_kit(function):
    """Returns what a function of ours names of the kit's."""
    return [name for name in function.named if name.split("::")[0] not in LIBRARIES]


def kit_rows():
    """Returns what the libraries call of the kit. No function in C is reached but those that are
    listed, and no thread, lock, or call through a pointer."""
    strange = {"Foreign", "Fork", "Prim", "CallV", "VtMethod"}
    parts = {part_of_kit(name) for caller in ours().values() for name in of_kit(caller)}
    in_c = [name for name in reached(ours()) if function(name).words & strange]
    return {"pure": sorted(parts & PURE), "in_c": sorted(in_c)}


def border_rows():
    """Returns a row for each file that has a function which calls the system, with what stands at
    its margin; one for each function in these files, and each that runs before and after `command`,
    with all that it names; and one of who else names a function in these files."""
    touching = [
        name for name, caller in ours().items() if {*map(part_of_kit, of_kit(caller))} - PURE
    ]
    modules = {home(name) for name in touching}
    border = {name: caller for name, caller in ours().items() if home(name) in modules}
    rows = {"callers": callers_of(border)}
    for file in code().files:
        if file.module in modules:
            rows[f"file {file.crate} {file.file}"] = file.outline
    for name, caller in {**border, **around_command()}.items():
        rows[f"calls {name}"] = caller.named
    return rows


def names_of_kit():
    """Returns the names by which our code means something of the kit's: those that it imports, and
    those of what it calls, each with the type or the module in which that is."""
    crates = {name for crate in crates_of_program() for name in dependencies()[crate]}
    kit = crates - {*LIBRARIES} | {"core", "std"}
    names = set()
    for file in code().files:
        names |= {name for name, origins in file.imports.items() if origins & kit}
    for caller in ours().values():
        for name in of_kit(caller):
            names.update(re.findall(r"\w+", "::".join(name.split("::")[-2:])))
    return names


def names_of_ours():
    """Returns the names of our modules, and of what stands in them."""
    modules = {name for file in code().files for name in file.modules}
    return modules | {item.name for item in code().items if item.kind != "impl"}


def main_rows():
    """Returns a row for each file of the program's own crate, with all of its words."""
    main, rows = crates_of_program()[-1], {}
    for crate, file, path in files("src", ".rt"):
        if crate == main:
            rows[f"main {file}.rt"] = text_of(path).split()
    return rows


def counted(row, rows):
    """Returns how often a row has each name; it also has itself, if it is there."""
    return collections.Counter(["the row", *rows[row]] if row in rows else [])


def differences(listing, listed):
    """Yields how rows differ from those that are listed: for each, a line of what is new, and one
    of what is gone."""
    for row in sorted({*listing, *listed}):
        now, before = counted(row, listing), counted(row, listed)
        for change, names in (("new", now - before), ("gone", before - now)):
            if names:
                yield f"{row}: {change}: {'; '.join(names.elements())}"


class Border(Case):
    of_the_repository = True
    maxDiff = None

    def test_crates(self):
        """The program uses those of the kit's crates that tests/border.txt lists, and no file but
        crates.txt says what a crate uses."""
        below = {name for crate in crates_of_program() for name in dependencies()[crate]}
        kit = {name.split("::")[0] for name in PURE} - {"core", "std_alloc"}  # `std` has these two
        self.assertEqual(below - {*LIBRARIES}, kit | {"thiserror"})  # which is for derives
        lists = []
        for folder in ("", "crates", "crates/*"):
            for name in ("crates.txt", "*.bazel"):
                lists += glob.glob(os.path.join(TOP, folder, name))
        self.assertEqual(lists, [os.path.join(TOP, "crates.txt")])

    def test_rows(self):
        """What tests/border.txt lists, row by row."""
        names = sorted(names_of_ours() & names_of_kit())
        now = {**kit_rows(), **border_rows(), **main_rows(), "names": names}
        if changes := [*differences(now, LISTED)]:
            self.fail("\n".join(["", *changes, "If this is meant, put it into tests/border.txt."]))

    def test_letters(self):
        """Types and traits begin with a capital letter, as whoever reads what is believed
        expects."""
        wrong = [item.symbol for item in code().called if not item.name[0].isupper()]
        self.assertEqual(wrong, [], "rename these")

    def test_names_of_crates(self):
        """No module of the code has the name of a crate, or of a module of the kit's `std`."""
        symbols = [symbol.split("::") for crate in ("core", "std") for symbol in records(crate)]
        of_std = {name for _, name, *_ in symbols}
        modules = {name for file in code().files for name in file.modules}
        self.assertEqual(modules & (taken_names() | of_std), set(), "rename these")

    def test_what_git_has(self):
        """Git has no file where builds keep what they made: a library there could be of other
        sources. And no link leads out of the sources."""
        self.assertEqual(self.run_command(["tools/guard"], cwd=TOP), Ran(0, b"", b""))

    def test_destructors(self):
        """Each is derived. No contract speaks of what a written one does when `main` ends."""
        written = [name for name, function in ours().items() if function.block.endswith("++Drop")]
        self.assertEqual(written, [], "derive these")

    def test_the_stack(self):
        """What the kit's own compiler computes of the program, which it compiles in a copy: a
        number, with a `+` if a function may call itself. No such number is known of what LLVM
        compiles."""
        check_libraries()
        main = f"crates/{crates_of_program()[-1]}"
        script = """cp -R --parents "$0" crates.txt "$1"
            for folder in crates/*/src crates/*/specs crates/*/proofs crates/*/out/rlib; do
                cp -Rl --parents "$folder" "$1" 2>/dev/null || cp -R --parents "$folder" "$1"
            done"""
        self.run_command(["sh", "-c", script, main, self.folder], cwd=TOP)
        command = ["rt", "run", "--backend", "rattle", "--", "sha256sum"]
        ran = self.run_command(command, cwd=self.path(main))
        noted = re.search(rb" stack-bytes=(\d+) ", ran.err)
        self.assertTrue(noted, ran.err[-900:])
        self.assertLessEqual(int(noted[1]), STACK)

    def test_code_that_is_not_seen(self):
        """What the compiled code doesn't tell apart: files that are read as it is made, and raw
        pointers."""
        words = {"unsafe", "extern", "include", "include_bytes", "include_str"}
        for crate, file, path in files("src", ".rt"):
            if crate in LIBRARIES:
                used = words & {token.text for token in tokens_of(path)}
                self.assertEqual(used, set(), f"take these out of {crate}/src/{file}.rt")

    def test_words(self):
        """Contracts and definitions name none of a proof's definitions, which may say anything."""
        for crate, module, text in clauses():
            if text.startswith("{"):
                self.assertNotRegex(text, ELSEWHERE, (crate, module))
            else:
                self.assertRegex(text, WORDS, (crate, module))
        for crate, _, path in files("specs", ".antt"):
            for module in re.findall(USE, code_of(path)):
                self.assertRegex(module, WORDS, path)
            self.assertNotRegex(re.sub(USE, "", code_of(path)), ELSEWHERE, path)


class WaysAround(Case):
    """Ways around the contracts: what the kit would read or compile of each, and the word by which
    a test of the border refuses it."""

    of_the_repository = True

    def assert_refused(self, word, test):
        """Fails unless a test of the border does, and has the word."""
        with self.assertRaises(AssertionError) as raised:
            getattr(Border, test)(Border(test))
        self.assertIn(word, str(raised.exception))

    def test_a_type_that_looks_like_a_call(self):
        """`last`, between a buffer and its sink, is taken for a function of the kit's."""
        symbol = "sum_lines::sinks::last::last"
        last = Made(name="last", kind="struct", symbol=symbol)
        with mock.patch.object(code(), "called", [*code().called, last]):
            self.assert_refused(symbol, "test_letters")
        with mock.patch.object(code(), "items", [*code().items, last]):
            self.assert_refused("names: new: last", "test_rows")

    def test_a_module_that_looks_like_one_of_the_kit(self):
        """`str::from_utf8` is ours, and gives another name."""
        with mock.patch.object(code().files[0], "modules", ["str"]):
            self.assert_refused("'str'", "test_names_of_crates")

    def test_a_read_that_no_log_has(self):
        """A function reads, and puts the log of before back."""
        begin = "sum_sources::system::from_read::FromRead::begin"
        reading = "sum_sources::system::from_read::read_uninterrupted"
        with mock.patch.dict(ours(), {begin: Made(name=begin, named=[reading], block="")}):
            self.assert_refused(f"calls {begin}: new: the row; {reading}", "test_rows")
