"""Manual pages in the macros of man(7). In a text `this` is typed as it is, and {this} is a
placeholder."""

import re
import textwrap

WIDTH = 78


def escaped(text):
    """Returns a text with what roff reads as its own signs written out."""
    for sign, spelled in (
        ("\\", "\\e"),
        ("-", "\\-"),
        ("'", "\\(aq"),
        ("^", "\\(ha"),
        ("~", "\\(ti"),
    ):
        text = text.replace(sign, spelled)
    return text


def inline(text):
    """Returns a text with its marks as changes of the font; hyphens are those of words, except in
    what is typed. A typed word is never broken, which roff must be told where the word begins:
    inside it that sign would be a place to break it."""
    parts = re.split(r"(`[^`]*`|\{[^}]*\})", text)
    for place, part in enumerate(parts):
        if part.startswith("`"):
            parts[place] = "\\fB" + escaped(part[1:-1]).replace(" ", "\\ ") + "\\fR"
        elif part.startswith("{"):
            parts[place] = "\\fI" + escaped(part[1:-1]) + "\\fR"
    return re.sub(r"(?<!\S)(?<!\\ )(?=[(\[]*(?:\\fI\S*)?\\fB)", r"\\%", "".join(parts))


def paragraph(text):
    """Returns a text as lines, each sentence on lines of its own, as roff wants them."""
    sentences = re.split(r"(?<=[.?!]) (?=[A-Z`{])", inline(text).replace("\\ ", "\0"))
    how = {"break_long_words": False, "break_on_hyphens": False}
    return [
        guarded(line.replace("\0", "\\ "))
        for sentence in sentences
        for line in textwrap.wrap(sentence, WIDTH, **how)
    ]


def guarded(line):
    """Returns the line, guarded against being taken for a macro."""
    return "\\&" + line if line[:1] in (".", "'") else line


def item(mark, text, width=""):
    """Returns an item of a list: a mark and its text."""
    return [f".TP {width}".rstrip(), inline(mark), *paragraph(text)]


def bullet(text):
    return [".IP \\(bu 2", *paragraph(text)]


def shown(*commands):
    """Returns lines as they are, indented."""
    return [
        ".PP",
        ".RS 4",
        ".nf",
        *(guarded(escaped(command)) for command in commands),
        ".fi",
        ".RE",
    ]


def section(title, *parts):
    """Returns the lines of a section. A part is a text, or a list of lines of roff."""
    lines = [f".SH {title}"]
    for part in parts:
        if isinstance(part, str):
            lines += ([] if lines[-1].startswith(".SH") else [".PP"]) + paragraph(part)
        else:
            lines += part[1:] if lines[-1].startswith(".SH") and part[0] == ".PP" else part
    return lines


def page(name, date, source, *sections):
    head = ['.\\" Made by tools/pages.py: edit what that reads.']
    head.append(f'.TH {name.upper()} 1 "{date}" "{source}" "User Commands"')
    return "\n".join(head + [line for part in sections for line in part]) + "\n"
