"""What is ours below a prefix, which is the working directory: lib/digests/VERSION-SUM, to which
lib/digests/current leads, and links through `current` at the places where others look. All else is
of others, even what we made elsewhere: if it is in the way, it is named, and stays.

Before a run makes the directory lib/digests/NAME, it writes that down, as the link NAME.made, which
says NAME. So a directory is ours by what we wrote and not by how it is called. A link is there
whole or not at all.

Whatever ends a run, `current` leads to a whole directory, the old one or the new one. The next run
completes it."""

import contextlib
import fcntl
import os
import pathlib
import shutil
import subprocess
import sys

HOME, CURRENT, MAN = "lib/digests", "lib/digests/current", "share/man/man1"
BASH, FISH, ZSH = (
    "share/bash-completion/completions",
    "share/fish/vendor_completions.d",
    "share/zsh/site-functions",
)
FOLDERS = ("bin", MAN, BASH, FISH, ZSH)  # those of the links
NEXT = f"{HOME}/next"  # the link that becomes `current`


def say(text, to=1):
    """Writes a line. The status tells what was done, even if nobody takes the line."""
    with contextlib.suppress(OSError):
        os.write(to, os.fsencode(f"{text}\n"))


def link_at(path):
    """Returns what a link says; an empty text if there is none to read."""
    with contextlib.suppress(OSError):
        return os.readlink(path)
    return ""


def note_of(name):
    """Returns the path of the link that says that we made this directory in lib/digests."""
    return f"{HOME}/{name}.made"


def made():
    """Returns the names of the directories in lib/digests that are ours."""
    names = os.listdir(HOME) if can_read(HOME) else []
    said = {link_at(f"{HOME}/{name}") for name in names}
    own = {name for name in said if name.strip(".") and "/" not in name}  # no way out of here
    return {name for name in own if link_at(note_of(name)) == name}


def current():
    """Returns the name of our directory to which `current` leads, if it leads to one."""
    return link_at(CURRENT) if link_at(CURRENT) in made() else None


def is_ours(path):
    """Returns whether a link at this path leads, by whatever way, to the same path in our
    `current`."""
    text, end = link_at(path), f"/current/{path}"
    way = os.path.join(os.path.dirname(path), text[: -len(end)])
    return text.endswith(end) and os.path.realpath(way) == os.path.realpath(HOME)


def can_read(folder):
    return os.access(f"{folder}/.", os.R_OK | os.X_OK)


def in_folders():
    """Returns what is in the directories of the links."""
    return {
        f"{folder}/{name}" for folder in filter(can_read, FOLDERS) for name in os.listdir(folder)
    }


def is_noexec(base):
    """Returns whether lib/digests is, or would be, on a file system that lets no program run."""
    place = pathlib.Path(base, HOME)
    while not place.exists():
        place = place.parent
    return bool(os.statvfs(place).f_flag & os.ST_NOEXEC)


def look(paths):
    """Returns our links; and what isn't ours at these paths, above them or at lib/digests, in which
    case no link is ours."""
    above = set()
    for folder in (HOME, *FOLDERS):
        above.update(map(str, pathlib.Path(folder, "any").parents))
    in_the_way = {path for path in above if os.path.lexists(path) and not can_read(path)}
    present = in_folders()
    links = set(filter(is_ours, present))
    others = in_the_way | present & paths - links
    names = os.listdir(HOME) if can_read(HOME) else []
    if names and not current() and ("current" in names or not made()):
        others.add(HOME)  # where a run that was ended leaves a note, or nothing
    return (set(), others | links) if HOME in others else (links, others)


def lock():
    """Waits until no other run works here. The lock ends with the run."""
    handle = os.open(".", os.O_RDONLY)
    with contextlib.suppress(BlockingIOError):
        return fcntl.flock(handle, fcntl.LOCK_EX | fcntl.LOCK_NB)
    say("install: waiting for another one to end", 2)
    return fcntl.flock(handle, fcntl.LOCK_EX)


def check_place():
    """Ends the run if lib/digests is below another prefix, or another user's."""
    here, real = os.path.abspath(HOME), os.path.realpath(HOME)
    if here != real and os.path.isdir("lib"):
        other = real[: -len(HOME) - 1] or "/" if real.endswith(f"/{HOME}") else "another one"
        sys.exit(f"install: {here} is really {real}, so PREFIX has to be {other}")
    if os.path.isdir(HOME) and os.stat(HOME).st_uid != os.geteuid():
        sys.exit(
            f"install: {here} is another user's: run install as that user, or choose another PREFIX"
        )


def sync():
    """Returns once all is on the disks, of each file system that has a part."""
    if subprocess.run(["sync", "-f", *filter(can_read, (".", HOME, *FOLDERS))]).returncode:
        sys.exit(f"install: {os.getcwd()}: not all is on the disk; run it again")


def tree(folder):
    """Returns what is in a directory: owners, types and modes, links and contents. Nothing else,
    such as a pipe, is opened."""
    with contextlib.suppress(OSError):
        return {
            path.relative_to(folder): (
                path.lstat().st_uid,
                path.lstat().st_mode,
                link_at(path) or path.is_file() and path.read_bytes(),
            )
            for path in [pathlib.Path(folder), *pathlib.Path(folder).rglob("*")]
        }


def write(name, contents):
    """Makes a directory with these contents, by their paths, unless ours has just them; returns its
    name."""
    while os.path.lexists(f"{HOME}/{name}"):  # commands run from it, or it is of others
        name += ".2"
    os.symlink(name, note_of(name))
    try:
        for path, content in contents.items():
            place = pathlib.Path(HOME, name, path)
            os.makedirs(place.parent, exist_ok=True)
            place.symlink_to(content) if isinstance(content, str) else place.write_bytes(content)
        os.chmod(f"{HOME}/{name}/bin/digests", 0o755)
    except OSError:
        shutil.rmtree(f"{HOME}/{name}", ignore_errors=True)
        os.remove(note_of(name))
        raise
    if current() and tree(f"{HOME}/{current()}") == tree(f"{HOME}/{name}"):
        drop(current())
        return current()
    return name


def drop(kept=None):
    """Removes what is ours in lib/digests, but the directory of this name."""
    ours = made()
    if link_at(NEXT) in ours:
        os.remove(NEXT)
    for name in sorted(ours - {kept}):
        path = f"{HOME}/{name}"
        try:
            if os.path.isdir(path) and not os.path.islink(path):
                shutil.rmtree(path)
            os.remove(note_of(name))
        except OSError as error:  # which may name only the last part of a path
            sys.exit(f"install: {os.path.abspath(path)}: {error.strerror}")


def install(name, contents):
    """Puts these contents, bytes of files and what links say, where their paths say, and removes
    what else is ours."""
    paths = {path for path in contents if os.path.dirname(path) in FOLDERS}
    links, others = look(paths)
    if others:
        sys.exit(
            "\n".join(
                [
                    "install: nothing was installed, as these are taken or can't be read; "
                    "move them, choose "
                    "another PREFIX, or say --only-own-names:",
                    *map(os.path.abspath, sorted(others)),
                ]
            )
        )
    for folder in (HOME, *FOLDERS):
        os.makedirs(folder, exist_ok=True)
    drop(current())  # what a run has left that was ended
    name = write(name, contents)
    for path in filter(is_ours, sorted(links - paths)):  # while they still lead to something
        os.remove(path)
    if name != current():
        sync()
        os.symlink(name, NEXT)
        os.rename(NEXT, CURRENT)
    for path in sorted(paths - links):  # this fails if something has appeared there
        os.symlink(
            os.path.relpath(f"{CURRENT}/{path}", os.path.realpath(os.path.dirname(path))), path
        )
    sync()
    drop(current())
    sync()


def remove():
    """Removes what is ours, names what may be, and returns the status. Directories that others may
    use stay."""
    inside = (path for folder in FOLDERS for path in pathlib.Path().glob(f"{HOME}/*/{folder}/*"))
    links, others = look({"/".join(path.parts[3:]) for path in inside})
    if others:
        say(
            "\n".join(
                [
                    "install: these stay, as they may be of others; remove what is yours:",
                    *map(os.path.abspath, sorted(others)),
                ]
            ),
            2,
        )
    elif not links and not os.path.isdir(HOME):
        sys.exit(f"install: nothing is installed in {os.getcwd()}")
    for path in sorted(links):
        os.remove(path)
    sync()
    if can_read(HOME) and HOME not in others:
        if current():
            os.remove(CURRENT)
        drop()
        if not os.listdir(HOME):
            os.rmdir(HOME)
        sync()
    return int(bool(others))
