"""The examples of the manual page of each tool. A row is a case: what a command changes in a tree
in which all is well, and which examples then fail."""

import os

from harness import NAMES, as_bytes
from recipes import BOTH, IMAGE, MADE, Row, Rows, line_of
from texts import failed, ok

CHECKING, WRITING = {"check", "check download"}, {"write", "write two"}
GOOD, WRONG = as_bytes([ok("image.iso")]), as_bytes([failed("image.iso")])

# A list that isn't read whole fails, though all that is read matches. No example changes a list
# that is there, and one that fails leaves no part of a list.
ROWS = {
    "all is well": Row("true", CHECKING, CHECKING, CHECKING, GOOD),
    "a byte-order mark": Row(
        r"cp $list new; { printf '\357\273\277'; cat new new; } >$list; rm new", CHECKING, out=GOOD
    ),
    "another's tag": Row("sed -i '1i SHA2-256 (image.iso) = 00' $list", CHECKING, out=GOOD),
    "a changed image": Row("truncate -s -1 image.iso", CHECKING, out=WRONG),
    "an empty list": Row(": >$list", CHECKING, out=b""),
    "an empty list, and nothing else": Row(
        "find . -mindepth 1 -delete; : >$list", CHECKING, out=b""
    ),
    "nothing there": Row("find . -mindepth 1 -delete", CHECKING | WRITING, out=b""),
    "a list of before": Row("true", WRITING),
    "a list of before, and no image": Row("rm image.iso", WRITING),
}


class Examples(Rows):
    def downloaded(self, tool):
        """Returns the lines that come with downloads: of the image, and of another file."""
        by = "b2sum" if tool == "anysum" else tool
        names = (b"image.iso", b"other.iso")
        return [line_of(by, name, IMAGE, tool == "anysum") for name in names]

    def lists(self, recipe, sort):
        if sort not in CHECKING:
            return {}
        return {recipe.split()[-1]: self.downloaded(self.tool)[0]}

    def test_rows(self):
        for self.tool in NAMES:
            self.try_rows(ROWS, self.tool)

    def test_good(self):
        for tool in NAMES:
            lines = self.downloaded(tool)
            self.make()
            wanted = {"anysum": BOTH}.get(tool, lines[:1])
            if tool == "b2sum":
                wanted = [
                    self.run_words(["b2sum", "-l", "256"], IMAGE).out.replace(b"-", b"image.iso")
                ]
            for recipe, sort, shell in self.each_recipe(page=tool):
                with self.subTest(recipe=recipe):
                    if sort == "check download":
                        self.put(recipe.split()[-1], b"".join(lines))
                        self.passes(recipe, as_bytes([ok("image.iso")]), shell)
                        os.remove(self.path(f"here/{recipe.split()[-1]}"))
                    elif sort == "check":
                        self.passes(recipe, as_bytes([ok("image.iso")] * len(wanted)), shell)
                    else:
                        if self.is_there(MADE[sort]):
                            os.remove(self.path(f"here/{MADE[sort]}"))
                        self.passes(recipe, shell=shell)
                        self.expect_lines(MADE[sort], wanted)
                    self.expect_only("image.sum", "image.tagged")

    def test_a_part_of_a_list(self):
        """If the second tool fails, no list is left."""
        for tool in NAMES:
            for recipe, sort, shell in self.each_recipe("write two", page=tool):
                self.make()
                self.command("digests", '[ "$1" != b2sum ] && real "$@"')
                self.fails(recipe, shell)
                self.assertFalse(self.is_there(MADE[sort]))
                self.restore("digests")
