"""What documents say of the code: tables, lists, quoted contracts and names, and commands."""

import glob
import os
import re

import believed
import claims
import library
from claims import code, specs
from compiled import LIBRARIES, around_command, clauses, home, ours, reached, symbol
from harness import Case, Ran, as_bytes
from rattle import Code
from sources import TOP, below, dependencies, files, text_of
from test_border import border_rows
from texts import ok


class Documents(Case):
    of_the_repository = True

    def compare(self, pages, command):
        """Compares generated pages with those that are there."""
        for path, wanted in pages.items():
            with self.subTest(page=path):
                self.assertEqual(text_of(path), wanted, f"{path} is stale: run {command}")

    def test_what_is_believed(self):
        self.compare(believed.pages(), "tools/believed.py --write")
        self.assertEqual(believed.wrong(), [])

    def test_what_is_read(self):
        """The clauses, and the names that are imported for them, are those that the kit proves."""
        read = set()
        for file in Code().files:
            read |= {(file.crate, clause.text) for clause in file.clauses}
            for row in file.rows:
                _, _, imported = row.partition("ghost use ")
                if imported:
                    read.add((file.crate, imported[:-1]))
        self.assertEqual(read, {(crate, text) for crate, _, text in clauses()})

    def test_contracts_that_are_quoted(self):
        """docs/PROMISES.md shows the clauses of `run` and of `command` as they are."""
        shown = re.sub(r"(?m)^ +//.*\n|^ +", "", text_of("docs", "PROMISES.md"))
        for name in ("run", "command"):
            text = Code().function("digests", name).text
            contract = re.sub(r"(?m)^ +//.*\n|^ +", "", text[text.index("    ensures") :])
            with self.subTest(function=name):
                self.assertTrue(contract in shown, f"put this into docs/PROMISES.md:\n{contract}")

    def test_theorems(self):
        """docs/PROMISES.md names each theorem once, in brackets, and nothing else stands there."""
        page, there = text_of("docs", "PROMISES.md"), []
        for crate, _, path in files("src", ".rt"):
            if crate == "theorems":
                there += re.findall(r"(?m)^pub fn (\w+)", text_of(path))
        named = []
        for names in re.findall(r"\[(`\w+`(?:, `\w+`)*)\]", page):
            named += re.findall(r"\w+", names)
        self.assertEqual(sorted(named), sorted(there))
        for name in there:
            self.assertEqual(page.count(f"`{name}`"), 1, name)

    def test_where_definitions_are(self):
        """A file of definitions is about the file of code of its name, or it is in the table of
        docs/ARCHITECTURE.md, or its crate's laws are about it."""
        for module in specs().modules.values():
            if module.definitions and not module.file.startswith("private/"):
                folder, _, name = module.file.rpartition("/")
                shown = "grammar" if folder == "grammar" else name
                with self.subTest(crate=module.crate, file=module.file):
                    in_table = f"`{shown}`" in self.exceptions(module.crate)
                    self.assertNotEqual(
                        self.has_code(module), in_table or name.endswith("Laws") and name != "Laws"
                    )

    def exceptions(self, crate):
        """Returns what the table of docs/ARCHITECTURE.md says of the files of a crate."""
        page = text_of("docs", "ARCHITECTURE.md")
        rows = re.findall(r"(?m)^\|((?:`\w+`(?:, )?)+)\|(.*)\|.*\|$", page)
        return "\n".join(files for crates, files in rows if f"`{crate}`" in crates)

    def has_code(self, module):
        """Returns whether a file of definitions is about the file of code of its name: a contract
        there cites one of them, or they are about a type that it declares."""
        path = re.sub("(?<=[a-z0-9])(?=[A-Z])", "_", module.file).lower()
        here = {*module.definitions.values()}
        for item in code().items:
            if (item.crate, item.file) == (module.crate, f"{path}.rt"):
                if here & claims.cited([item, *item.members]):
                    return True
        made = f"Rattle.{module.crate}.specs.declared.{path.replace('/', '.')}."
        return any(f"{origin}.".startswith(made) for origin, _ in module.imports.values())

    def test_what_may_call_what(self):
        """docs/LIBRARY.md says of each library what it may call, and which others these need, as
        crates.txt does."""

        def listed(crates):
            return ", ".join(f"`{crate}`" for crate in crates) or "none"

        rows = re.findall(r"(?m)^\|\[`(\w+)`\].*\|(.*)\|(.*)\|$", text_of("docs", "LIBRARY.md"))
        wanted = []
        for crate in LIBRARIES:
            called = dependencies()[crate]
            others = [other for other in below(crate) if other not in called]
            wanted.append((crate, listed(called), listed(others)))
        self.assertEqual(rows, wanted)

    def test_wrong_versions(self):
        """The table of docs/TESTING.md has each wrong version once, in a row of its crate."""
        rows = re.findall(r"(?m)^\|(\w+)\|`[\w:]+`\|(.*)\|$", text_of("docs", "TESTING.md"))
        named = []
        for crate, goals in rows:
            for names in re.findall(r": ([\w, ]+)", goals):
                named += [(crate, name) for name in names.split(", ")]
        wanted = []
        for path in sorted(glob.glob(os.path.join(TOP, "crates", "*", "must-fail", "*"))):
            crate, _, file = path.split(os.sep)[-3:]
            wanted.append((crate, file.removesuffix(".edit")))
        self.assertEqual(
            sorted(named), sorted(wanted), "run tools/refusals.py: it makes the table anew"
        )

    def test_a_second_audit(self):
        """The commands of docs/AUDITING.md show the theorems, the pages of the libraries, all that
        is outside the crates, and in these the border, its callers, `main`, and what runs before
        and after `command`."""
        commands = re.findall(r"(?m)^    git diff OLD -- (.*)$", text_of("docs", "AUDITING.md"))
        pages = "crates/theorems/src 'crates/*/CALLING.md'"
        self.assertEqual(commands[:2], [pages, ". ':!crates'"])
        ran = self.run_command(["git", "ls-files", *commands[2].split()], cwd=TOP)
        shown = {path for path in ran.out.decode().splitlines() if path.endswith(".rt")}
        rows = border_rows()
        modules = {home(name) for name in (*around_command(), *rows["callers"])}
        wanted = {"crates/digests_main/src/main.rt"}
        for file in code().files:
            if file.module in modules or f"file {file.crate} {file.file}" in rows:
                wanted.add(f"crates/{file.crate}/src/{file.file}")
        self.assertEqual(shown, wanted)

    def test_the_libraries(self):
        """The page of each library has each public call as the kit has read it."""
        self.compare(library.pages(), "tools/library.py --write")

    def test_callers(self):
        """The callers that the pages of libraries show stand, word for word, in crates that the
        gate proves."""
        paths = [path for _, _, path in (*files("src", ".rt"), *files("proofs", ".antt"))]
        sources = [text_of(path) for path in paths]
        for crate in LIBRARIES:
            with self.subTest(library=crate):
                by_hand = library.by_hand(crate)
                shown = re.findall(r"(?ms)^```(?:rust|antt)\n(.*?)^```$", by_hand)
                self.assertTrue(shown, f"{library.page_of(crate)} shows no caller")
                for caller in shown:
                    is_proved = any(caller in source for source in sources)
                    self.assertTrue(is_proved, f"no crate has this:\n{caller}")
        sample = text_of("crates", "example_check", "src", "bytes.rt")
        indented = re.sub(r"(?m)^(?=.)", "    ", sample)
        self.assertTrue(
            indented in text_of("docs", "LIBRARY.md"),
            "put crates/example_check/src/bytes.rt into docs/LIBRARY.md as it is",
        )

    def test_what_wrong_versions_change(self):
        """The way of the program, from `program` on, takes each function that a wrong version
        changes, but for three of what the program doesn't call."""
        code = Code()
        called = {code.of_symbol(name) for name in reached([symbol("digests", "program")], ours())}
        missed = set()
        for crate, name, path in files("must-fail", ".edit"):
            for file, pairs in re.findall(r"file: src/(.*)\n((?:(?!file: ).*\n?)*)", text_of(path)):
                cited = re.findall(r"(?m)^old: (?!//|ghost )(.*)", pairs)
                changed = set()
                for number, line in enumerate(text_of("crates", crate, "src", file).split("\n"), 1):
                    if any(text in line for text in cited):
                        changed.add(number)
                for item in code.functions:
                    is_there = (item.crate, item.file) == (crate, file)
                    if is_there and changed & {*item.in_source} and item not in called:
                        missed.add(name)
        self.assertEqual(missed, {"last_pair_answers", "other_list_told", "taken_is_zero"})

    def test_sums(self):
        """The sums of the newest version in CHANGELOG, if it has any, are those of what is built,
        as docs/PACKAGING.md checks them."""
        newest = re.split(r"(?m)^## ", text_of("CHANGELOG.md"))[1]
        if not os.path.exists(os.path.join(TOP, "out", "x86-64-v3", "digests")):
            self.skipTest("nothing is built")
        packaging = text_of("docs", "PACKAGING.md")
        command = re.search(r"(?m)^    (grep .* CHANGELOG\.md .*)$", packaging)[1]
        self.assertNotIn("digests", command, "the program is checked by another")
        ran = self.run_command(["sh", "-c", command], cwd=TOP)
        if ran.status and "  out/" not in newest:
            self.skipTest("the programs that are built aren't those that CHANGELOG listed last")
        self.assertEqual(
            ran,
            Ran(0, as_bytes([ok("out/default/digests"), ok("out/x86-64-v3/digests")]), b""),
            "what is built is older than its sources, or by another kit than CHANGELOG's: "
            "run ./digests, and put the sums into CHANGELOG.md",
        )
