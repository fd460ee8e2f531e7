"""What a build prints: a line for each step that has ended. On a terminal, a line for each that
runs follows."""

import os
import re
import threading
import time
from pathlib import Path

NOT_FOR_THIS_MACHINE = 127  # the status of a program for later processors than the machine's


def text_if(path):
    """Returns the text of a file, or "" if there is none."""
    return path.read_text("utf-8", "replace") if path.exists() else ""


class Progress:
    """The steps of a build. `titles` has each by its name, and what it is called; what the kit says
    goes to `build.log` in the folder `out`."""

    def __init__(self, titles, out):
        self.titles, self.out = titles, Path(out)
        self.begun, self.lock = {}, threading.Lock()
        self.back = ""  # what moves a terminal above the lines of the steps that run
        self.on_terminal = os.isatty(1) and os.environ.get("TERM", "dumb") != "dumb"
        if self.on_terminal:
            threading.Thread(target=self.show_running, daemon=True).start()

    def run(self, step, call):
        """Runs a step, and returns whether all is well. `call` gets a file for what the kit
        says."""
        path = self.out / f"{step}.log"
        with open(path, "w", encoding="utf-8", errors="replace") as file:
            self.begun[step] = time.monotonic()
            failed = call(file) not in (0, NOT_FOR_THIS_MACHINE)
            with self.lock, open(self.out / "build.log", "a", encoding="utf-8") as log:
                text = text_if(path)
                if failed:
                    log.write(f"== {step}: failed\n{text}")
                    self.show([self.line(step, "failed"), *text.splitlines(True)[-20:]])
                else:
                    log.write(f"== {step}\n{text}")
                    self.show([self.line(step, self.elapsed(step))])
                del self.begun[step]
        os.remove(path)
        return not failed

    def elapsed(self, step):
        """Returns how long a step has taken so far."""
        return f"{time.monotonic() - self.begun[step]:.0f} s"

    def line(self, step, state):
        """Returns the line of a step that is in this state."""
        return f"{self.titles[step]}: {state}\n"

    def line_so_far(self, step):
        """Returns the line of a step that runs, with how many functions the kit has counted."""
        text = text_if(self.out / f"{step}.log")
        counts = re.findall(r"(?m)^(?:so far: |checked .*, )(\d+ of \d+)", text)
        functions = f"{counts[-1]} functions, " if counts else ""
        return self.line(step, functions + self.elapsed(step))

    def show(self, lines):
        """Prints lines in the place of those of the steps that run."""
        print(self.back + "".join(lines), end="", flush=True)
        self.back = ""

    def show_running(self):
        """Prints the lines of the steps that run, twice a second."""
        while True:
            time.sleep(0.5)
            with self.lock:
                lines = [self.line_so_far(step) for step in list(self.begun)]
                self.show(lines)
                self.back = "\033[A\033[K" * len(lines)
