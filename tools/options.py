"""The tools, and the options of each as the program has them: its help names them, and it accepts
or refuses them."""

import collections
import functools
import re
import subprocess
import sys

from sources import text_of

LINE = re.compile(
    r"  (?:-(?P<short>\w), |    )--(?P<long>[a-z-]+)(?:=(?P<value>[A-Z]+))? +(?P<help>.*)"
)

# A tool: whether GNU has it; and of its digest, if it has one, the tag, the bits and the standard.
Tool = collections.namedtuple("Tool", "of_gnu tag bits standard", defaults=(None, None, None))

ROWS = [
    line.split(maxsplit=4)
    for line in text_of("tools", "tools.txt").splitlines()
    if not line.startswith("#")
]
TOOLS = {
    name: Tool(owner == "GNU", *(digest and (digest[0], int(digest[1]), digest[2])))
    for name, owner, *digest in ROWS
}
DIGESTS = {name: tool for name, tool in TOOLS.items() if tool.tag}  # those that write one

# Where the program takes an option.
ALWAYS, WITH_CHECK, WITHOUT_CHECK, NEVER = "always", "with check", "without check", "never"
# The same by whether it takes the option alone, and after --check.
PLACES = {
    (True, True): ALWAYS,
    (True, False): WITHOUT_CHECK,
    (False, True): WITH_CHECK,
    (False, False): NEVER,
}


class Option(collections.namedtuple("Option", "short long value help where at_once")):
    """An option: its letter, name and value, what the help says of it, where it is taken, and
    whether the program then answers at once and reads no word after it."""

    def words(self):
        """Returns the words that are this option, without a value."""
        return [f"-{self.short}", f"--{self.long}"] if self.short else [f"--{self.long}"]


def takes(program, tool, *words):
    """Returns whether the program accepts these words, with which it reads nothing but an empty
    standard input."""
    ran = subprocess.run(
        [program, tool, *words], stdin=subprocess.DEVNULL, capture_output=True, text=True
    )
    return "\nTry '" not in ran.stderr


@functools.lru_cache(maxsize=None)
def options_of(program, tool):
    """Returns the options that the help of a tool lists, in its order."""
    helped = subprocess.run(
        [program, tool, "--help"], stdin=subprocess.DEVNULL, stdout=subprocess.PIPE, text=True
    )
    if helped.returncode:
        sys.exit(f"{tool} has no help: status {helped.returncode}")
    options = []
    for line in helped.stdout.splitlines()[2:]:
        row = LINE.fullmatch(line)
        if not row:
            sys.exit(f"{tool} --help has a line that lists no option: {line!r}")
        short, long, value, text = row.groups()
        word = f"--{long}=8" if value else f"--{long}"  # a value is a number of bits
        where = PLACES[takes(program, tool, word), takes(program, tool, "--check", word)]
        at_once = takes(program, tool, word, "--=")
        options.append(Option(short, long, value, text, where, at_once))
    return options


def cuts(option, options):
    """Returns the words that mean a long option: its name, and those prefixes of it that no other
    name has."""
    others = [other.long for other in options if other != option]
    words = []
    for length in range(1, len(option.long) + 1):
        name = option.long[:length]
        if name == option.long or not any(other.startswith(name) for other in others):
            words.append(f"--{name}")
    return words
