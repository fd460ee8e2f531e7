"""What each recipe that checks or makes a list must do, and what it must refuse. A row is a case:
what a command changes in a tree in which all is well, and which recipes then still pass. Each is
typed in each shell that it is for."""

import itertools

from harness import as_bytes
from recipes import BOTH, IMAGE, SORTS, Row, Rows, line_of
from texts import failed, unreadable

# The recipes that check a whole list; those of them that read lines as any tool writes them; all
# that read SUMS; and those of the image.
WHOLE = {"check list", "check list on all", "check list of others", "check names"}
PLAIN, ONE = WHOLE - {"check list on all"}, {"check one"}
SUMMED = WHOLE - {"check names"}  # those that report what the tool does
OF_SUMS = {*WHOLE, *ONE, "unlisted"}
OF_IMAGE = {"check", "check by pv"}
LISTING, WRITING = {"list", "list on all"}, {"write by pv", "write at once"}

TAGGED = line_of("sha256sum", b"-x", b"-x", tagged=True).decode().strip()
OTHERS_TAG = TAGGED.replace("SHA256 ", "SHA2-256")


def of_list(change, passing=frozenset()):
    """Returns a row of a list that isn't as the recipe "list" writes it, whose last line is the
    image's. Without its line, a changed image isn't noticed."""
    damaged = set() if "$d" in change else OF_SUMS - {"unlisted"}
    return Row(change, OF_SUMS, passing, damaged)


def of_image(change, passing=frozenset()):
    """Returns a row of the lists of the image."""
    return Row(change, OF_IMAGE, passing, passing)


ROWS = {
    "all is well": of_list("true", OF_SUMS),
    "empty": of_list(": >SUMS"),
    "only what is ignored": of_list(r"printf '#\n\n' >SUMS"),
    "cut off in the digits": of_list("truncate -s -40 SUMS"),
    "cut off in a name": of_list("truncate -s -3 SUMS"),
    "without its last newline": of_list("truncate -s -1 SUMS", OF_SUMS),
    "without its last line": of_list("sed -i '$d' SUMS", WHOLE),
    "with CRLF": of_list(r"sed -i 's/$/\r/' SUMS", WHOLE),
    "improper first": of_list("sed -i '1i improper' SUMS", ONE),
    "improper last": of_list("echo improper >>SUMS", ONE),
    "improper and unterminated": of_list("printf improper >>SUMS", ONE),
    "a comment": of_list("echo '# a comment' >>SUMS", PLAIN | ONE),
    "an empty line": of_list("echo >>SUMS", PLAIN | ONE),
    "one space": of_list("sed -i 's|  [.]/| ./|g' SUMS", PLAIN),
    "one space in the first line": of_list("sed -i '1s|  [.]/| ./|' SUMS", ONE),
    "one space in the last line": of_list("line ' -x' >>SUMS", ONE),
    "a tag": of_list(f"echo '{TAGGED}' >>SUMS", WHOLE | ONE),
    "another's tag": of_list(f"echo '{OTHERS_TAG}' >>SUMS", {"check list of others", *ONE}),
    "a byte-order mark": of_list(
        r"sed -i '1s/^/\xef\xbb\xbf/' SUMS", {"check list of others", *ONE}
    ),
    "a byte 0": of_list(r"sed -i 's|  [.]/image[.]iso$|&\x00|' SUMS"),
    "a bad escape": of_list(r"(printf '\\'; line '  ./\x') >>SUMS", {*ONE, "unlisted"}),
    "no name": of_list("line '  ' >>SUMS", ONE),
    "a name of a directory": of_list("line '  ./many' >>SUMS", {*ONE, "unlisted"}),
    "a name of nothing": of_list("line '  ./nothing' >>SUMS", {*ONE, "unlisted"}),
    "a name that isn't UTF-8": of_list("line '  ./\udcff' >>SUMS", {*ONE, "unlisted"}),
    "standard input": of_list("line '  -' >>SUMS", {*ONE, "unlisted"}),
    "of the image": of_image("true", OF_IMAGE),
    "of the image, without its last newline": of_image("truncate -s -1 $list", {"check"}),
    "of the image, with CRLF": of_image(r"sed -i 's/$/\r/' $list", {"check"}),
    "of the image, empty": of_image(": >$list"),
    "of the image, only a comment": of_image("echo '#' >$list"),
    "of the image, cut off": of_image("truncate -s 20 $list"),
    "of the image, with a part of a line": of_image("head -c 9 $list >>$list"),
    "of the image, improper first": of_image("sed -i '1i improper' $list"),
    "of the image, improper and unterminated": of_image("printf improper >>$list"),
    "of the image, twice, with a byte-order mark": of_image(
        r"cat $list >>$list.2; cat $list.2 >>$list; rm $list.2; sed -i '1s/^/\xef\xbb\xbf/' $list"
    ),
    "of the image, another's tag": of_image(f"echo '{OTHERS_TAG}' >>$list"),
    "of the image, a name of nothing": of_image("line '  nothing' >>$list"),
    **{
        f"of the image, only {name}": of_image(f"echo '{line.decode().strip()}' >$list")
        for name, line in (
            ("standard input", line_of("sha256sum", b"-", IMAGE)),
            ("of another name", line_of("sha256sum", b"other", IMAGE)),
        )
    },
    "of another file": Row(
        f"echo '{line_of('sha256sum', b'a b', b'a b').decode().strip()}' >image.sum",
        {"check by pv"},
    ),
    **{
        f"no list: {case}": Row(change, {*OF_SUMS, *OF_IMAGE, "check gpg"}, out=b"")
        for case, change in (
            ("missing", "rm $list"),
            ("a directory", "rm $list; mkdir $list"),
            ("unreadable", "chmod 0 $list"),
        )
    },
    **{
        f"{name!r}, {case}": Row(
            change.replace("$1", f"./{name}"), {*WHOLE, *ONE} if name == "image.iso" else WHOLE
        )
        for (case, change), name in itertools.product(
            (
                ("damaged", 'echo >>"$1"'),
                ("missing", 'rm "$1"'),
                ("a directory", 'rm "$1"; mkdir "$1"'),
                ("unreadable", 'chmod 0 "$1"'),
                ("another's", 'cp SUMS "$1"'),
                ("a link to nothing", 'ln -sf nothing "$1"'),
            ),
            ("image.iso", "new\nline", r"back\slash", "-x", " ", "end\r", "some folder/SUMS"),
        )
    },
    **{
        f"a changed image: {' '.join(tried)}": Row("truncate -s -1 image.iso", tried, out=out)
        for tried, out in (
            ({"check"}, as_bytes([failed("image.iso")] * 2)),
            ({*SUMMED, "check one", "check gpg"}, as_bytes([failed("./image.iso")])),
            ({"check names"}, b"./image.iso\0"),
            ({"check by pv"}, None),
        )
    },
    "a changed file": Row("echo >>./-x", SUMMED, out=as_bytes([failed("./-x")])),
    "a missing file": Row("rm ./-x", SUMMED, out=as_bytes([unreadable("./-x")])),
    "a directory that is closed": Row("mkdir -m 0 more", {*LISTING, "unlisted", "not UTF-8"}),
    "one that can't be read": Row("mkdir -m 333 more", {*LISTING, "unlisted", "not UTF-8"}),
    "one that can't be passed": Row("mkdir more; >more/a; chmod 444 more", LISTING),
    "a file that can't be read": Row(">more; chmod 0 more", LISTING),
    "a file whose name isn't UTF-8": Row(">\udcff", LISTING),
    "a directory in the place of the list": Row("rm SUMS; mkdir SUMS", LISTING),
    "a directory that can't be written to": Row("chmod 555 .", LISTING),
    "an image that can't be read": Row("chmod 0 image.iso", WRITING),
    "no image": Row("rm image.iso", WRITING),
    "a directory in the place of the image": Row("rm image.iso; mkdir image.iso", WRITING),
    "an image whose reads fail": Row("ln -sf /proc/$PPID/mem image.iso", WRITING),
    "nothing there": Row(
        "find . -mindepth 1 ! -name SUMS.asc -delete", {*SORTS} - {"not UTF-8"}, out=b""
    ),
    "nothing there, not even a name": Row(
        "find . -mindepth 1 -delete", {"not UTF-8"}, {"not UTF-8"}
    ),
}


class Lists(Rows):
    def setUp(self):
        super().setUp()
        self.make()
        image = {
            "image.sum": line_of("sha256sum", b"image.iso", IMAGE),
            "image.tagged": b"".join(BOTH),
        }
        for name, content in image.items():
            self.put(name, content)
        self.all_lists = {**image, "SUMS": b"".join(self.lines_of_the_tree())}

    def lists(self, recipe, sort):
        return self.all_lists

    def test_rows(self):
        self.try_rows(ROWS)
