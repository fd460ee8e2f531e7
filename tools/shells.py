"""Completions for bash, fish and zsh, of the program and of the tools that are called by their own
names. The shell code is in completions/; the options and tools take the place of @NAME@ there."""

import re

from options import ALWAYS, TOOLS, WITH_CHECK, WITHOUT_CHECK, cuts, options_of
from sources import text_of


def words_of(options):
    return " ".join(word for option in options for word in option.words())


def quoted(text):
    """Returns a text between the quotes of a shell."""
    return "'" + text.replace("'", "'\\''") + "'"


def zsh_option(option):
    """Returns what _arguments gets for an option: what it excludes, its words, its text and its
    value."""
    text = f"[{option.help}]"
    if option.at_once:
        return quoted(f"(- *)--{option.long}{text}")
    if option.value:
        return (
            f"'(-{option.short} --{option.long})'{{-{option.short}+,--{option.long}=}}"
            f"'{text}:bits:('\"$lengths\"')'"
        )
    if option.short:
        return (
            f"'(-{option.short} --{option.long})'{{-{option.short},--{option.long}}}{quoted(text)}"
        )
    return quoted(f"--{option.long}{text}")


def zsh_options(options):
    return "\n".join(f"        {zsh_option(option)}" for option in options)


def fish_option(option, tool):
    """Returns an option of one tool, or of any."""
    state = {WITH_CHECK: " checking", WITHOUT_CHECK: " writing"}.get(option.where, "")
    short = f" -s {option.short}" if option.short else ""
    value = " -x -a '(seq 8 8 512)'" if option.value else ""
    condition = quoted(f"__digests_takes {tool}{state}")
    line = f"    complete -c $name -n {condition}{short} -l {option.long}{value}"
    return f"{line} \\\n        -d {quoted(option.help)}"


def completions(program, names):
    """Returns the texts for bash, fish and zsh, if these tools are called by their own names."""
    common, b2sum = options_of(program, "md5sum"), options_of(program, "b2sum")
    lengths = [option for option in b2sum if option not in common]
    check = next(option for option in common if option.long == "check")
    table = {
        "TOOLS": " ".join(TOOLS),
        "NAMES": " ".join(names),
        "CHECK": "|".join(cuts(check, b2sum)),
        "LENGTH": "|".join(word for option in lengths for word in cuts(option, b2sum)),
        "LENGTHS": words_of(lengths),
        "ZSH_LENGTHS": zsh_options(lengths),
        "FISH": "\n".join(
            [
                *(fish_option(option, "any") for option in common),
                *(fish_option(option, "b2sum") for option in lengths),
            ]
        ),
    }
    for name, where in (("ALWAYS", ALWAYS), ("WITH", WITH_CHECK), ("WITHOUT", WITHOUT_CHECK)):
        options = [option for option in common if option.where == where]
        table.update({name: words_of(options), f"ZSH_{name}": zsh_options(options)})
    texts = [text_of("completions", name) for name in ("digests.bash", "digests.fish", "_digests")]
    return [re.sub(r"@(\w+)@", lambda match: table[match[1]], text) for text in texts]
