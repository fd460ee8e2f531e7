"""The rules of the tools, implemented a second time: what hashing and checking write and return, by
Python's own means. The words that ask for it are read in `reference_words.py`.

It follows the manual and the decisions in `docs/DECISIONS.md` and knows nothing of the crates: to
agree on a misread rule, both would have to misread it in the same way. Files are those of the
current folder."""

import collections
import errno
import os
import re

import options
from harness import Ran, as_bytes, hasher
from texts import NONE_FOUND, NONE_VERIFIED, bad, failed, improper, ok, unread, unreadable, wrong

# Tool: the tag of its algorithm and the length of its full digest. `anysum` has none of its own.
ALGORITHMS = {tool: (row.tag, (row.bits or 0) // 8) for tool, row in options.TOOLS.items()}
SIZES = {tag: size for tag, size in ALGORITHMS.values() if tag}

NOT_FOUND = os.strerror(errno.ENOENT).encode()
OTHER = os.strerror(errno.EIO).encode()

# The reason of a name that isn't UTF-8.
NO_TEXT = os.strerror(errno.EILSEQ).encode()

# The reasons of Linux's numbers that have a text in the C library. EIO and any number that isn't
# here have `OTHER`.
REASONS = {
    number: os.strerror(number).encode()
    for number in range(1, 141)
    if number != errno.EIO and os.strerror(number) != f"Unknown error {number}"
}


def digest(tag, size, content):
    """Returns the digest of this many bytes, by hashlib."""
    return hasher(tag, content, size).digest()


def escape(name):
    return name.replace(b"\\", b"\\\\").replace(b"\n", b"\\n").replace(b"\r", b"\\r")


def unescape(raw):
    """Returns the name whose escape this is, or None."""
    if re.fullmatch(rb"(?:[^\\\n\r]|\\[\\nr])*", raw, re.DOTALL) is None:
        return None
    return re.sub(
        rb"\\([\\nr])", lambda sign: {b"\\": b"\\", b"n": b"\n", b"r": b"\r"}[sign[1]], raw
    )


def mark(name):
    """Returns the backslash before a name that its escape changes."""
    return b"" if escape(name) == name else b"\\"


def line(mode, zero, tag, name, checksum):
    """Returns the line of a name and its digest."""
    shown, front, end = (name, b"", b"\0") if zero else (escape(name), mark(name), b"\n")
    digits = checksum.hex().encode()
    if mode == "tag":
        bits = b"" if len(checksum) == SIZES[tag] else b"-%d" % (8 * len(checksum))
        return front + tag.encode() + bits + b" (" + shown + b") = " + digits + end
    return front + digits + (b" *" if mode == "binary" else b"  ") + shown + end


def lines(content):
    """Returns the lines of a manifest, without their ends."""
    pieces = content.removesuffix(b"\n").split(b"\n") if content else []
    return [piece.removesuffix(b"\r") for piece in pieces]


def is_ignored(text):
    return not text or text.startswith(b"#")


def plain(tag, text):
    """Returns the parts of a plain line: whether a backslash is in front, the digest, and the tail
    after the blank; or None."""
    parts = re.fullmatch(rb"[ \t]*(\\?)([0-9A-Fa-f]+)[ \t](.+)", text, re.DOTALL)
    if tag is None or parts is None:
        return None
    count = len(parts[2])
    if count % 2 or not (1 <= count // 2 <= 64 if tag == "BLAKE2b" else count // 2 == SIZES[tag]):
        return None
    return bool(parts[1]), bytes.fromhex(parts[2].decode()), parts[3]


def tagged(tag, text):
    """Returns the parts of a tagged line: whether a backslash is in front, the tag, the digest, and
    the name as it stands there; or None."""
    for own, size in SIZES.items() if tag is None else [(tag, SIZES[tag])]:
        bits = rb"(?:-([1-9][0-9]{0,2}))?" if own == "BLAKE2b" else rb"()"
        shape = rb"[ \t]*(\\?)" + own.encode() + bits + rb" ?\((.+)\)[ \t]*=[ \t]*([0-9A-Fa-f]+)"
        parts = re.fullmatch(shape, text, re.DOTALL)
        if parts is None or parts[2] and (int(parts[2]) % 8 or int(parts[2]) > 512):
            continue
        if len(parts[4]) == 2 * (int(parts[2]) // 8 if parts[2] else size):
            return bool(parts[1]), own, bytes.fromhex(parts[4].decode()), parts[3]
    return None


def is_standard(tail):
    """Returns whether a plain line's tail begins with the sign of a mode, before the name."""
    return len(tail) >= 2 and tail[:1] in (b" ", b"*")


def is_reversed(tag, texts):
    """Returns whether the first plain line of a manifest has its name right after the blank."""
    tails = [plain(tag, text)[2] for text in texts if not is_ignored(text) and plain(tag, text)]
    return bool(tails) and not is_standard(tails[0])


def entry(tag, in_reversed, text):
    """Returns the tag, the digest and the name of a line, or None if it is improperly formatted."""
    if tagged(tag, text):
        escaped, own, checksum, raw = tagged(tag, text)
    elif plain(tag, text):
        own = tag
        escaped, checksum, tail = plain(tag, text)
        if not in_reversed and not is_standard(tail):
            return None
        raw = tail if in_reversed else tail[1:]
    else:
        return None
    name = unescape(raw) if escaped else raw
    return None if name is None or b"\0" in name else (own, checksum, name)


# Why a name could not be read, and whether it could not even be opened.
Fault = collections.namedtuple("Fault", "text in_opening")


class World:
    """Standard input, which is given once, and the files of the folder."""

    def __init__(self, stdin):
        self.stdin = stdin

    def answer(self, name):
        """Returns the content under a name, or the fault."""
        if name == b"-":
            given, self.stdin = self.stdin, b""
            return given
        try:
            file = os.open(name.decode(), os.O_RDONLY)
        except UnicodeDecodeError:
            return Fault(NO_TEXT, True)
        except OSError as error:
            return Fault(REASONS.get(error.errno, OTHER), True)
        try:
            return b"".join(iter(lambda: os.read(file, 65536), b""))
        except OSError as error:
            return Fault(REASONS.get(error.errno, OTHER), False)
        finally:
            os.close(file)


def generated(tool, options, names, world):
    """Returns what hashing these names writes and answers."""
    tag, size = ALGORITHMS[tool]
    out, err = [], []
    for name in names:
        answer = world.answer(name)
        if isinstance(answer, Fault):
            err.append(b"%s: %s: %s\n" % (tool.encode(), escape(name), answer.text))
        else:
            checksum = digest(tag, options.size or size, answer)
            out.append(line(options.mode, options.zero, tag, name, checksum))
    return Ran(1 if err else 0, b"".join(out), b"".join(err))


class Manifest:
    """The check of one manifest: what it writes, and whether it is good."""

    def __init__(self, tool, options, name, world):
        self.tool, self.options, self.name, self.world = tool, options, name, world
        self.tag = ALGORITHMS[tool][0]
        shown = b"standard input" if name == b"-" else escape(name)
        self.front = b"%s: %s: " % (tool.encode(), shown)
        self.out, self.err, self.verdicts = [], [], []
        answer = world.answer(name)
        if isinstance(answer, Fault):
            self.err.append(self.front + answer.text + b"\n")
            return
        texts = lines(answer)
        in_reversed = is_reversed(self.tag, texts)
        for number, text in enumerate(texts, 1):
            if not is_ignored(text):
                self.verdicts.append(self.verdict(number, entry(self.tag, in_reversed, text)))
        self.summarise()

    def verdict(self, number, parts):
        """Returns the verdict of a line, and reports it."""
        if parts is None or self.name == parts[2] == b"-":
            if self.options.report == "warn":
                self.err.append(self.front + as_bytes([improper(number, self.tag or "tagged")]))
            return "bad"
        tag, wanted, name = parts
        answer = self.world.answer(name)
        if isinstance(answer, Fault):
            if self.options.ignore_missing and answer.in_opening and answer.text == NOT_FOUND:
                return "missing"
            self.err.append(b"%s: %s: %s\n" % (self.tool.encode(), escape(name), answer.text))
            verdict, report = "unread", unreadable
        elif digest(tag, len(wanted), answer) == wanted:
            verdict, report = "right", ok
        else:
            verdict, report = "wrong", failed
        if self.options.report != "status" and (verdict, self.options.report) != ("right", "quiet"):
            self.out.append(as_bytes([report(mark(name) + escape(name))]))
        return verdict

    def summarise(self):
        """Writes the lines at the manifest's end."""
        if all(verdict == "bad" for verdict in self.verdicts):
            self.err.append(self.front + as_bytes([NONE_FOUND]))
        elif self.options.report != "status":
            for verdict, warning in (("bad", bad), ("unread", unread), ("wrong", wrong)):
                if count := self.verdicts.count(verdict):
                    self.err.append(as_bytes([warning(count, self.tool)]))
            if self.options.ignore_missing and "right" not in self.verdicts:
                self.err.append(self.front + as_bytes([NONE_VERIFIED]))

    def is_good(self):
        harmful = {"wrong", "unread"} | ({"bad"} if self.options.strict else set())
        return "right" in self.verdicts and not harmful & set(self.verdicts)


def checked(tool, options, names, world):
    """Returns what checking these manifests writes and answers."""
    manifests = [Manifest(tool, options, name, world) for name in names]
    out = b"".join(text for manifest in manifests for text in manifest.out)
    err = b"".join(text for manifest in manifests for text in manifest.err)
    return Ran(0 if all(manifest.is_good() for manifest in manifests) else 1, out, err)
