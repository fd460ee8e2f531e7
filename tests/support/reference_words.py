"""The rules of the words, implemented a second time: what a command line asks for, and what it then
writes and returns."""

import collections
import os
import re

from harness import Ran, as_bytes
from reference import ALGORITHMS, World, checked, escape, generated
from sources import text_of
from texts import NO_VALUE, NO_VALUE_OF_LETTER, ambiguous, fault_lines, invalid_length, odd_length
from texts import unknown_letter, unknown_option, value_not_allowed, version

NAMES = [
    "binary",
    "check",
    "tag",
    "text",
    "zero",
    "ignore-missing",
    "quiet",
    "status",
    "strict",
    "warn",
    "help",
    "version",
]
LETTERS = {"b": "binary", "c": "check", "t": "text", "z": "zero", "w": "warn"}


class WordFault(Exception):
    """What is wrong with the words."""


def shown(text):
    """Returns what was typed, as a fault shows it."""
    return os.fsdecode(escape(os.fsencode(text)))


class Words:
    """The options, length values and operands of a command line, in their order, up to the first
    fault, `--help` or `--version`, which decides. In a word that isn't UTF-8 a byte is one of
    Python's lone surrogates."""

    def __init__(self, tool, words):
        self.tool, self.rest = tool, list(words)
        self.options, self.lengths, self.operands, self.decided = [], [], [], None
        try:
            while self.rest and self.decided is None:
                self.take(self.rest.pop(0))
        except WordFault as fault:
            self.decided = fault

    def take(self, word):
        if word == "--":
            self.operands, self.rest = self.operands + self.rest, []
        elif word == "-" or not word.startswith("-"):
            self.operands.append(word)
        elif re.search("[\udc80-\udcff]", word):
            raise WordFault(unknown_option(shown(word)))
        elif word.startswith("--"):
            self.take_long(word[2:])
        else:
            self.take_letters(word[1:])

    def take_long(self, text):
        typed, equals, value = text.partition("=")
        names = NAMES + ["length"] if self.tool == "b2sum" else NAMES
        meant = [typed] if typed in names else [name for name in names if name.startswith(typed)]
        if not meant:
            raise WordFault(unknown_option(f"--{shown(typed)}"))
        if len(meant) > 1:
            raise WordFault(ambiguous(f"--{shown(typed)}"))
        if meant == ["length"]:
            self.lengths.append(value if equals else self.next_word(NO_VALUE))
        elif equals:
            raise WordFault(value_not_allowed(f"--{meant[0]}"))
        else:
            self.take_option(meant[0])

    def take_letters(self, letters):
        for place, letter in enumerate(letters, 1):
            if self.tool == "b2sum" and letter == "l":
                self.lengths.append(letters[place:] or self.next_word(NO_VALUE_OF_LETTER))
                return
            if letter not in LETTERS:
                raise WordFault(unknown_letter(shown(letter)))
            self.take_option(LETTERS[letter])

    def take_option(self, name):
        self.options.append(name)
        if name in ("help", "version"):
            self.decided = name

    def next_word(self, fault):
        if not self.rest:
            raise WordFault(fault)
        return self.rest.pop(0)

    def last_of(self, *names):
        """Returns the last of these options that stands among the words, if there is one."""
        given = [option for option in self.options if option in names]
        return given[-1] if given else None


# What the options come to. A size of 0 is the algorithm's own.
Options = collections.namedtuple("Options", "mode zero size report strict ignore_missing")


def size_asked(lengths):
    """Returns the digest's length in bytes by the last length value."""
    if not lengths:
        return 0
    value = lengths[-1]
    if re.fullmatch("[0-9]+", value) is None or int(value) > 512:
        raise WordFault(invalid_length(shown(value)))
    if int(value) % 8:
        raise WordFault(odd_length(shown(value)))
    return int(value) // 8


def options_of(words):
    """Returns what the options come to, or the first of their faults."""
    size = size_asked(words.lengths)
    mode = words.last_of("binary", "text", "tag")
    report = words.last_of("status", "warn", "quiet")

    def has(name):
        return name in words.options

    check = has("check")
    meaningful = "option is meaningful only when verifying checksums"
    for holds, text in (
        (has("tag") and mode == "text", "--tag does not support --text mode"),
        (has("zero") and check, "the --zero option is not supported when verifying checksums"),
        (has("tag") and check, "the --tag option is meaningless when verifying checksums"),
        (
            (has("binary") or has("text")) and check,
            "the --binary and --text options are meaningless when verifying checksums",
        ),
        (has("ignore-missing") and not check, f"the --ignore-missing {meaningful}"),
        (report is not None and not check, f"the --{report} {meaningful}"),
        (has("strict") and not check, f"the --strict {meaningful}"),
        (words.tool == "anysum" and not check, "--check is required"),
    ):
        if holds:
            raise WordFault(text)
    return Options(
        "tag" if has("tag") else mode,
        has("zero"),
        size,
        report,
        has("strict"),
        has("ignore-missing"),
    )


HELP = text_of("tests", "support", "help.txt")


def help_text(tool):
    """Returns the help text of a tool; the line of --length is b2sum's alone."""
    tag, text = ALGORITHMS[tool][0], HELP
    if tag is None:
        text = re.sub("(?m)^Print .*? TAG .*?\\.", "Check checksums of tagged lines.", text)
    if tool != "b2sum":
        text = re.sub("(?m)^.* --length=.*\n", "", text)
    return text.replace("TOOL", tool).replace("TAG", tag or "")


def meaning(tool, words, stdin):
    """Returns what a command line writes and answers, with this on standard input."""
    read = Words(tool, words)
    try:
        if isinstance(read.decided, WordFault):
            raise read.decided
        if read.decided == "help":
            return Ran(0, help_text(tool).encode(), b"")
        if read.decided == "version":
            return Ran(0, as_bytes([version(tool)]), b"")
        options = options_of(read)
    except WordFault as fault:
        return Ran(1, b"", as_bytes(fault_lines(os.fsencode(str(fault)), tool)))
    names = [os.fsencode(operand) for operand in read.operands] or [b"-"]
    does = checked if "check" in read.options else generated
    return does(tool, options, names, World(stdin))
