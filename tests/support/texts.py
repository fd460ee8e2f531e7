"""The texts that the program writes, each in one place. They are those of GNU's tools and of the
manual pages, and none was taken from any output of the program. A text that shows a name or a word
is bytes, if those are."""

import errno
import functools
import os


def filled(text, shown):
    """Returns a text with this in place of its braces."""
    before, _, after = text.partition("{}")
    if isinstance(shown, bytes):
        return before.encode() + shown + after.encode()
    return before + shown + after


# The reports of a listed file, by its name.
ok = functools.partial(filled, "{}: OK")
failed = functools.partial(filled, "{}: FAILED")
unreadable = functools.partial(filled, "{}: FAILED open or read")


def cannot_read(name, number, tool="md5sum"):
    """Returns the line about a file that can't be opened or read, with the C library's text of the
    number of the error."""
    return filled(f"{tool}: {{}}: {os.strerror(number)}", name)


def not_found(name, tool="md5sum"):
    """Returns the line about a file that isn't there."""
    return cannot_read(name, errno.ENOENT, tool)


def improper(number, tag="MD5"):
    """Returns what is said of an improperly formatted line of a list."""
    return f"{number}: improperly formatted {tag} checksum line"


NONE_FOUND = "no properly formatted checksum lines found"
NONE_VERIFIED = "no file was verified"


def warning(one, many, count, tool="md5sum"):
    """Returns the warning for this many lines of a list, or listed files."""
    return f"{tool}: WARNING: {count} {one if count == 1 else many}"


bad = functools.partial(warning, "line is improperly formatted", "lines are improperly formatted")
unread = functools.partial(
    warning, "listed file could not be read", "listed files could not be read"
)
wrong = functools.partial(
    warning, "computed checksum did NOT match", "computed checksums did NOT match"
)

# The faults of words that show what was typed. `reference_words` has the others.
unknown_option = functools.partial(filled, "unrecognized option '{}'")
unknown_letter = functools.partial(filled, "invalid option -- '{}'")
ambiguous = functools.partial(filled, "option '{}' is ambiguous")
value_not_allowed = functools.partial(filled, "option '{}' doesn't allow an argument")
invalid_length = functools.partial(filled, "invalid length: '{}'")
odd_length = functools.partial(filled, "length is not a multiple of 8: '{}'")
NO_VALUE = "option '--length' requires an argument"
NO_VALUE_OF_LETTER = "option requires an argument -- 'l'"


def fault_lines(text, tool="md5sum"):
    """Returns the two lines about a fault of the words."""
    return [filled(f"{tool}: {{}}", text), f"Try '{tool} --help' for more information."]


# What a tool says when it stops, and its version.
memory_exhausted = functools.partial(filled, "{}: memory exhausted")
write_error = functools.partial(filled, "{}: write error")
version = functools.partial(filled, "{} (digests), profile 2")

UNKNOWN_TOOL = "digests: unknown tool"
NOT_READ = "digests: words not read"
