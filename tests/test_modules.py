"""Which files the tests and the tools are: each module is one file, which git shows as text."""

import importlib.machinery
import os
import sys

from harness import Case
from sources import TOP

# Where tests/run.py looks for modules, in this order. `install` looks in tools/, then at the top.
FOLDERS = ("tools", "tests", "tests/support")
ENDINGS = importlib.machinery.all_suffixes()


def module_of(path):
    """Returns the name of the module that a file or a folder is, or None if it is none. Without a
    file `__init__` a folder hides no module."""
    if os.path.isdir(path):
        inside = [module_of(os.path.join(path, name)) for name in os.listdir(path)]
        return os.path.basename(path) if "__init__" in inside else None
    is_module = any(path.endswith(ending) for ending in ENDINGS)
    return os.path.basename(path).partition(".")[0] if is_module else None


def modules_in(top):
    """Returns the modules that Python finds in the folders of modules below a directory: by their
    names, the paths."""
    by_module = {}
    for folder in (*FOLDERS, ""):
        for name in sorted(os.listdir(os.path.join(top, folder))):
            if module := module_of(os.path.join(top, folder, name)):
                by_module.setdefault(module, []).append(os.path.join(folder, name))
    return by_module


def hidden_in(top):
    """Returns the modules below a directory of which there are two, or that have the name of one of
    Python's own, with their paths."""
    own = getattr(sys, "stdlib_module_names", ())  # from Python 3.10 on
    modules = modules_in(top)
    return {name: paths for name, paths in modules.items() if len(paths) > 1 or name in own}


class Modules(Case):
    of_the_repository = True

    def test_one_file_for_each_module(self):
        self.assertEqual(hidden_in(TOP), {}, "rename these")

    def test_a_module_that_hides_another(self):
        """A second module of one name is found, also as a folder or compiled, and one that has the
        name of one of Python's own."""
        names = ["tools/some.py", "tests/test_some.py", "tests/support/other.py"]
        for name in names:
            self.write(name, "")
        self.assertEqual(hidden_in(self.folder), {})
        for name, module in (
            ("tests/support/some.py", "some"),
            ("tests/support/some/__init__.py", "some"),
            ("tests/other.pyc", "other"),
            ("tests/support/json.py", "json"),
            ("some.py", "some"),
            ("re.py", "re"),
        ):
            with self.subTest(hides=name):
                self.write(name, "")
                self.assertEqual([*hidden_in(self.folder)], [module])
                self.run_command(["rm", "-r", self.path(name.removesuffix("/__init__.py"))])

    def test_where_they_are_found(self):
        """Python looks for modules in tools/ first, and in no folder twice."""
        folders = [os.path.join(TOP, folder) for folder in FOLDERS]
        self.assertEqual(sys.path[: len(folders)], folders)
        for folder in folders:
            self.assertEqual(sys.path.count(folder), 1)
        for name, paths in modules_in(TOP).items():
            if name in sys.modules:
                self.assertEqual(sys.modules[name].__file__, os.path.join(TOP, paths[0]))

    def test_compiled_modules(self):
        """Git has no module that Python has compiled, which would run in place of its source."""
        ran = self.run_command(["git", "ls-files", "*.pyc", "*.pyo", "*.so", "*.pyd"], cwd=TOP)
        self.assertEqual(ran.out, b"", "take these out of git")
