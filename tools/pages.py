"""The manual pages, which `install` makes from the program's own help and the texts in pages/."""

import re
import sys

from options import ALWAYS, DIGESTS, NEVER, TOOLS, WITH_CHECK, WITHOUT_CHECK, options_of
from roff import WIDTH, bullet, escaped, inline, item, page, section, shown
from sources import text_of

DATE = "2026-12-01"  # of the last change of the texts
FEWER = ", or fewer with `--length`"


def version():
    return re.search(r"(?m)^## ([\d.]+)", text_of("CHANGELOG.md"))[1]


def typed(text):
    """Marks everything but the {names} as typed."""
    return re.sub(r"(?:^|(?<=\}))[^{}]+", lambda part: f"`{part[0]}`", text)


def part_of(block):
    """Returns a block of a text, as a part of a section."""
    lines = block.split("\n")
    rest = " ".join(line.strip() for line in lines[1:])
    if block.startswith("- "):
        return bullet(f"{lines[0][2:]} {rest}".strip())
    if block.startswith(("= ", "~ ")):
        return item(typed(lines[0][2:]) if block[0] == "=" else lines[0][2:], rest)
    return shown(*(line[4:] for line in lines)) if block.startswith("    ") else " ".join(lines)


def page_title(name, own):
    """Returns what the page of a tool or of another command is called. Beside GNU's tools, theirs
    have the tools' names."""
    return f"digests-{name}" if own and name in TOOLS and TOOLS[name].of_gnu else name


def page_of(name, own, source, words, made):
    """Returns the page of this name, from its text in pages/, with these words in place of their
    names between two @, and with generated parts."""
    sections, of_gnu = [], name in TOOLS and TOOLS[name].of_gnu
    called = {name, "GNU" if of_gnu else "ours", "own" if own and name != "anysum" else ""}
    text = re.sub(
        r"`(\w+)`\(1\)",
        lambda match: f"`{page_title(match[1], own)}`(1)",
        text_of("tools", "pages", source),
    )
    for block in text.rstrip("\n").split("\n\n")[1:]:
        condition = re.match(r"\[(!?)([\w ]+)\]\n", block)
        if condition and called.isdisjoint(condition[2].split()) != bool(condition[1]):
            continue
        block = re.sub(
            r"@(\w+)@",
            lambda match: words.get(match[1], match[0]),
            block[condition.end() if condition else 0 :],
        )
        if block.startswith("# "):
            sections.append([block[2:]])
        else:
            sections[-1] += (
                made[block[1:-1]] if re.fullmatch("@[A-Z ]+@", block) else [part_of(block)]
            )
    return page(
        page_title(name, own),
        DATE,
        f"digests {version()}",
        *(section(*parts) for parts in sections),
    )


def taken(known, *where):
    """Returns the options of a tool that are taken there."""
    return [option for option in known if option.where in where]


def usage(call, known, *first):
    """Returns a line of the synopsis, broken if it is too long: these words, and these options
    without --help and the like."""
    known = [option for option in known if not option.at_once]
    letters = "".join(option.short for option in known if option.short and not option.value)
    words = [f"[-{letters}]"] if letters else []
    words += [f"[-{option.short} {option.value}]" for option in known if option.value]
    words += [f"[--{option.long}]" for option in known if not option.short]
    lines = [call]
    for word in [*first, *words, "[FILE]..."]:
        if len(lines[-1]) + len(word) >= WIDTH - 8:
            lines.append(" " * len(call))
        lines[-1] += " " + word
    marked = [
        re.sub(r"--?[a-z-]+", r"`\g<0>`", re.sub(r"\b[A-Z]+\b", r"{\g<0>}", line)) for line in lines
    ]
    return [inline(re.sub(f"^{call}", r"`\g<0>`", line)) for line in marked]


def option_item(option, added):
    """Returns an option's names, and what is said about it."""
    value = f" {{{option.value}}}" if option.value else ""
    short = f"`-{option.short}`{value}, " if option.short else ""
    long = f"`--{option.long}`" + (f"`=`{{{option.value}}}" if option.value else "")
    text = re.sub("^with -c: ", "", option.help)
    text = added.get("!" + option.long, f"{text[0].upper()}{text[1:]}.".replace("FILE", "{FILE}"))
    return item(short + long, f"{text} {added.get(option.long, '')}".rstrip())


def see_also(own, *names):
    return [", ".join(f"`{page_title(name, own)}`(1)" for name in names)]


def page_of_tool(tool, own, known, added):
    _, tag, bits, standard = TOOLS[tool]
    name = page_title(tool, own)
    call = name.replace("-", " ")
    *names, last = (f"`--{option.long}`" for option in taken(known, NEVER) or known)
    words = {
        "tool": tool,
        "call": call,
        "tag": tag,
        "standard": standard,
        "bits": str(bits),
        "digits": str((bits or 0) // 4),
        "fewer": FEWER if tool == "b2sum" else "",
        "refused": f"{', '.join(names)} and {last}",
        "tags": ", ".join(f"`{row.tag}`" for row in DIGESTS.values()),
        "SUMS": "CHECKSUMS" if tag is None else f"{tool[:-3].upper()}SUMS",
    }
    writing = [option for option in taken(known, ALWAYS, WITHOUT_CHECK) if option.long != "check"]
    items = [option_item(option, added) for option in taken(known, ALWAYS)]
    for title, where in (
        ("Only without `--check`:", WITHOUT_CHECK),
        ("Only with `--check`:", WITH_CHECK),
    ):
        group = [option_item(option, added) for option in taken(known, where)]
        items += [title, *group] if group else []
    purpose = f"print or check {tag} checksums" if tag else "check lists of tagged checksums"
    return page_of(
        tool,
        own,
        "tool.txt",
        words,
        {
            "NAME": [[f"{escaped(name)} \\- {purpose}"]],
            "OPTIONS": items,
            "SEE ALSO": see_also(own, *(other for other in TOOLS if other != tool)),
            "SYNOPSIS": [
                [
                    ".nf",
                    *(usage(call, writing) if taken(known, WITHOUT_CHECK) else ()),
                    *usage(call, taken(known, WITH_CHECK), "-c"),
                    ".fi",
                ]
            ],
        },
    )


def page_of_program(own):
    """Returns the page of the program that contains all tools."""
    tools, width = [], str(max(map(len, TOOLS)) + 3)
    for tool, row in TOOLS.items():
        text = "checks lists of all these"
        if row.tag:
            fewer = FEWER if tool == "b2sum" else ""
            text = f"{row.tag} ({row.standard}), {row.bits} bits{fewer}"
        tools.append(item(f"`{tool}`", text, width))
    uses = ["`digests` {TOOL} [{OPTION}]... [{FILE}]..."]
    if not own:
        uses.append("{TOOL} [{OPTION}]... [{FILE}]...")
    return page_of(
        "digests",
        own,
        "digests.txt",
        {},
        {
            "NAME": [["digests \\- print or check checksums"]],
            "SYNOPSIS": [[".nf", *map(inline, uses), ".fi"]],
            "TOOLS": [tools[0], [".PD 0"], *tools[1:], [".PD"]],
            "SEE ALSO": see_also(own, *TOOLS, "comm", "find", "grep", "split", "xargs"),
        },
    )


def pages(program, own=False):
    """Returns each page's name and text, from the program's help; `own` without GNU's names."""
    known = {tool: options_of(program, tool) for tool in TOOLS}
    added = re.sub(r"\n +", " ", text_of("tools", "pages", "options.txt").partition("\n\n")[2])
    added = dict(line.split(": ", 1) for line in added.splitlines())
    if unknown := {key.lstrip("!") for key in added} - {
        option.long for options in known.values() for option in options
    }:
        sys.exit(
            f"pages.py: pages/options.txt has a word on no option: {', '.join(sorted(unknown))}"
        )
    made = {
        "digests": page_of_program(own),
        **{tool: page_of_tool(tool, own, known[tool], added) for tool in TOOLS},
    }
    return {page_title(name, own): text for name, text in made.items()}
