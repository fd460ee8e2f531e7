"""The paths that pages name, in backticks or as links: each is there, in the crate that its
sentence names."""

import fnmatch
import glob
import os
import re

from harness import Case
from sources import TOP, text_of

PAGES = ("README.md", "CHANGELOG.md", "docs/*.md", "crates/*/CALLING.md")

# What stands for any name; what has a slash and is no path; what an installation has, and what a
# build makes, as its tests say; and what the kit has.
ANY = re.compile(r"\b(?:NAME|C|FILE|f)\b")
NO_PATHS = {"Input/output", "SHA-512/256", "SHA512/256"}
INSTALLED = r"PREFIX|\.\./lib/digests/current/bin/|(lib/digests|current/options|stage/usr)$"
BUILT = r"(\.\./|bench/|crates/\*/)?out(/|$)"
OF_THE_KIT = {
    *("ANTT.md", "CONTRACTS.md", "MODELS.md", "TERMS.md", "Slice.md", "rattle/CRATE/LICENSE*"),
    *("mir.json", "made.json", "lang/src"),
}
ELSEWHERE = re.compile(rf"[/~]|{INSTALLED}|{BUILT}")
IS_PATH = re.compile(r"[\w.*-]*/[\w./*-]*|[\w*-]+\.(?:antt|edit|json|md|py|rt|sh|txt)(?:\.txt)?")


def pages():
    """Returns the pages, but for one that is made of the sources."""
    paths = [path for name in PAGES for path in glob.glob(os.path.join(TOP, name))]
    return sorted({os.path.relpath(path, TOP) for path in paths} - {"docs/BELIEVED.md"})


def there():
    """Returns all files and directories that aren't made by a build."""
    paths = []
    for folder, inner, names in os.walk(TOP):
        inner[:] = [name for name in inner if name not in (".git", "out")]
        paths += [os.path.relpath(os.path.join(folder, name), TOP) for name in inner + names]
    return paths


def paths_in(line):
    """Returns the words that are paths, of those in backticks."""
    words = [word for part in re.findall(r"`([^`]+)`", line) for word in part.split()]
    paths = [word.removeprefix("./") for word in words if word not in OF_THE_KIT | NO_PATHS]
    return [path for path in paths if IS_PATH.fullmatch(path) and not ELSEWHERE.match(path)]


def crates_in(line, page):
    """Returns the crates that a sentence or a row of a table names, or that its page is of."""
    names = {*re.findall(r"`(\w+)\b[^`]*`", line), *re.findall(r"^\|(\w+)\|", line)}
    names.update(re.findall(r"crates/(\w+)/CALLING\.md", page))
    return {name for name in names if os.path.isdir(os.path.join(TOP, "crates", name))}


class Paths(Case):
    of_the_repository = True

    def is_there(self, path, crates):
        """Returns whether a path is there, from the top or any directory of the crates on; if there
        are none, of any crate or outside them."""
        shape = ANY.sub("*", path.rstrip("/"))
        for path_there in self.there:
            crate = re.match(r"crates/(\w+)/", path_there)
            is_whole = fnmatch.fnmatchcase(path_there, shape)
            if is_whole or fnmatch.fnmatchcase(path_there, f"*/{shape}"):
                if is_whole or not crate or not crates or crate[1] in crates:
                    return True
        return False

    def test_all(self):
        self.there, count = there(), 0
        for page in pages():
            text = re.sub(r"(?ms)^```.*?^```$", "", text_of(*page.split("/")))
            for line in re.split(r"\n|(?<=\.) ", text):
                crates = crates_in(line, page)
                for path in paths_in(line):
                    with self.subTest(page=page, path=path):
                        self.assertTrue(self.is_there(path, crates))
                        count += 1
                for link in re.findall(r"\]\(([^)#]+)\)", line):
                    with self.subTest(page=page, link=link):
                        self.assertTrue(
                            os.path.exists(os.path.join(TOP, os.path.dirname(page), link))
                        )
        self.assertGreater(count, 250)
