"""The files of the repository, its crates, and the code in a file: the tokens that the prover
reads, which the kit prints."""

import collections
import functools
import glob
import os
import re

import lanes
from lanes import TOP


def text_of(*names):
    """Returns the text of a file, whose path is relative to the top."""
    with open(os.path.join(TOP, *names), encoding="utf-8", newline="") as file:
        return file.read()


def stale_pages(pages):
    """Returns those of some pages, texts by paths, whose file has another text, or isn't there."""

    def is_stale(path):
        return not os.path.exists(os.path.join(TOP, path)) or text_of(path) != pages[path]

    return {path: text for path, text in pages.items() if is_stale(path)}


def write_pages(pages):
    """Writes pages, texts by paths, into their files."""
    for path, text in pages.items():
        with open(os.path.join(TOP, path), "w", encoding="utf-8") as file:
            file.write(text)


def with_part(page, tool, part):
    """Returns the text of a page, with this in place of the part that a tool makes."""
    begin = f"<!-- made by tools/{tool}.py: what stands below -->\n"
    end = "\n<!-- and above this line -->"
    before, _, rest = page.partition(begin)
    _, _, after = rest.partition(end)
    if end not in rest:
        raise ValueError(f"the marks of tools/{tool}.py are missing from its page: put them back")
    return before + begin + part + end + after


def all_reached(first, next_of):
    """Returns the first elements and all that they lead to, in the order in which they are found;
    `next_of` returns what an element leads to directly."""
    reached, left = {}, collections.deque(first)
    while left:
        element = left.popleft()
        if element not in reached:
            reached[element] = None
            left.extend(next_of(element))
    return list(reached)


def dependencies():
    """Returns the crates of crates.txt, in its order, each with those that it may call, the kit's,
    too."""
    lines = re.findall(r"(?m)^(\w+):([^#\n]*)", text_of("crates.txt"))
    return {crate: re.findall(r"[^\s,]+", names) for crate, names in lines}


def below(crate):
    """Returns the crates of the repository that a crate stands on, the lowest first."""
    crates = dependencies()
    reached = all_reached(
        [crate], lambda name: [lower for lower in crates[name] if lower in crates]
    )
    return [name for name in crates if name in reached and name != crate]


def crates_of_program():
    """Returns the crates of the program, the lowest first, and the one of `main` last."""
    return [*below("digests_main"), "digests_main"]


def files(folder, ending):
    """Yields the files with this ending in the folders of this name, such as `src`, of all crates:
    the crate, the path in the folder without the ending, and the path."""
    crates = os.path.join(TOP, "crates")
    pattern = os.path.join(crates, "*", folder, "**", f"*{ending}")
    for path in sorted(glob.glob(pattern, recursive=True)):
        crate, _, file = os.path.relpath(path, crates).split(os.sep, 2)
        yield crate, file[: -len(ending)], path


# A token: its kind (`rattle fmt --help` says which there are), its line, where it starts and ends
# in the text, and itself.
Token = collections.namedtuple("Token", "kind line start end text")
# What the kit prints of a token that isn't a comment: its line, its first byte and the one after
# its last, and its kind.
PRINTED = re.compile(rb"(?m)^(\d+) (\d+) (\d+) (?!Literal \"//)(\w+)")
# What stands between tokens: comments, up to the end of a line.
GAP = re.compile(r"(?:\s|(?://|--)[^\n]*)*")
# What no source has: all but ASCII's characters and some signs. Other characters may look like one
# of these, or like nothing.
STRANGE = re.compile("[^\n -~¬×ΠΣλ₁ℕℤ←→↔∙∥∷≡≢≤⊎⊞⊤⊥⊻⋙◌⟦⟧]")


def printed_tokens(paths):
    """Returns what the kit prints of the tokens of files, by their paths."""
    of_files = re.split(rb"(?m)^file \d+\n", lanes.printed_tokens(paths))[1:]
    if len(of_files) != len(paths):
        raise ValueError("what the kit prints of the tokens of files can't be read")
    return dict(zip(paths, of_files))


@functools.lru_cache(maxsize=None)
def tokens_of_all():
    """Returns what the kit prints of the tokens of each file in `src` and `specs`, and of the code
    that it has read, by the files' paths: printed at once, since each call takes long."""
    paths = [path for _, _, path in (*files("src", ".rt"), *files("specs", ".antt"))]
    paths += glob.glob(os.path.join(TOP, "crates/*/out/rlib/*/lang/src/**/*.rt"), recursive=True)
    return printed_tokens(paths)


@functools.lru_cache(maxsize=None)
def tokens_of(path):
    """Returns the tokens of a file, as the prover reads it, without comments."""
    text = text_of(path)
    if strange := STRANGE.search(text):
        line = text.count("\n", 0, strange.start()) + 1
        raise ValueError(f"in {path} line {line} has the character U+{ord(strange[0]):04X}")
    printed = tokens_of_all().get(path) or printed_tokens([path])[path]
    data = text.encode()
    tokens = []
    byte, place = 0, 0  # how far the text has been read, in bytes and in characters
    for line, start, end, kind in PRINTED.findall(printed):
        gap, token = data[byte : int(start)].decode(), data[int(start) : int(end)].decode()
        if not GAP.fullmatch(gap) or kind == b"Code" and not token.isascii():
            raise ValueError(f"in {path} this can't be read: {gap}{token}")
        place += len(gap)
        tokens.append(Token(kind.decode(), int(line), place, place + len(token), token))
        place += len(token)
        byte = int(end)
    if not GAP.fullmatch(text[place:]):
        raise ValueError(f"in {path} a comment has no end")
    return tokens


def blank(text):
    """Returns a text with spaces for all characters but newlines."""
    return re.sub(r"[^\n]", " ", text)


@functools.lru_cache(maxsize=None)
def code_of(path):
    """Returns the code in a file, or what its definitions say, with spaces for everything else:
    comments, and literals of texts and characters."""
    text, code, place = text_of(path), "", 0
    for token in tokens_of(path):
        if token.kind in ("Code", "Head", "Antt", "End"):
            code += blank(text[place : token.start]) + token.text
            place = token.end
    return code + blank(text[place:])
