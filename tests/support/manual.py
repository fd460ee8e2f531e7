"""The sections of the manual pages, for the tests of what they say and show."""

import functools
import re

import harness
import pages
from harness import NAMES

PAGES = [*NAMES, "digests"]
made_by = functools.cache(pages.pages)  # each page's name and text, by the program


def sections_of(page):
    """Returns the sections of a page's source, with fonts and spelled signs as plain text."""
    text = re.sub(r"\\f[BIR]|\\%|\\&", "", made_by(harness.PROGRAM)[page])
    for spelled, sign in (
        ("\\-", "-"),
        ("\\(aq", "'"),
        ("\\(ha", "^"),
        ("\\(ti", "~"),
        ("\\ ", " "),
        ("\\e", "\\"),
    ):
        text = text.replace(spelled, sign)
    _, *parts = re.split(r"(?m)^\.SH (.*)\n", text)
    return dict(zip(parts[::2], parts[1::2]))
