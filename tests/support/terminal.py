"""A shell at a terminal, as a person types into it: what the keys for completion make of a line."""

import os
import pty
import select
import subprocess
import time

import harness
from sources import text_of

PROMPT = b"ready to type> "
ALL = "\x18a"  # the keys that put all completions into the line

# For each shell: how it is started, and the name of the file that it reads first. That is made of
# the one beside this, in which each of the names is a function that writes its words into a file.
SHELLS = {
    "bash": ("bash --noprofile --rcfile {rc} -i".split(), ".bashrc"),
    "zsh": ("zsh -d -i".split(), ".zshrc"),
}


class Terminal:
    """A shell in a folder, which loads completions by a line of its own; they are for functions of
    these names."""

    def __init__(self, shell, folder, load, names):
        words, rc_name = SHELLS[shell]
        rc = text_of("tests", "support", f"{shell}rc")
        home = os.path.join(folder, "home")
        os.makedirs(home, exist_ok=True)
        self.words = os.path.join(folder, "here", "words")
        rc_path = os.path.join(home, rc_name)
        with open(rc_path, "w", encoding="utf-8") as file:
            file.write(
                rc.format(prompt=PROMPT.decode(), load=load, folder=home, names=" ".join(names))
            )
        env = {
            "PATH": os.environ["PATH"],
            "HOME": home,
            "ZDOTDIR": home,
            "TERM": "dumb",
            "LC_ALL": "C.UTF-8",
        }
        self.master, slave = pty.openpty()
        self.process = subprocess.Popen(
            [word.format(rc=rc_path) for word in words],
            stdin=slave,
            stdout=slave,
            stderr=slave,
            cwd=os.path.join(folder, "here"),
            env=env,
            start_new_session=True,
        )
        os.close(slave)
        self.shown = b""
        self.wait_for(lambda: PROMPT in self.shown)

    def wait_for(self, condition):
        """Reads what the shell shows until it has come so far."""
        end = time.monotonic() + harness.RUN_SECONDS
        while not condition():
            ready, _, _ = select.select([self.master], [], [], 0.02)
            if ready:
                self.shown += os.read(self.master, 65536)
            if time.monotonic() > end:
                raise TimeoutError(self.shown[-1000:])

    def completed(self, line):
        """Completes the end of a line in all ways, and returns the words after its command."""
        if os.path.exists(self.words):
            os.remove(self.words)
        self.shown = b""
        os.write(self.master, f"{line}{ALL}\n".encode())
        self.wait_for(lambda: PROMPT in self.shown and os.path.exists(self.words))
        with open(self.words, encoding="utf-8") as file:
            return file.read().splitlines()

    def close(self):
        harness.end(self.process)
        os.close(self.master)
