"""Running commands for the benchmarks: their processor time in interleaved rounds, and the peak of
their memory."""

import collections
import os
import subprocess


class Contender(
    collections.namedtuple("Contender", "name words program status", defaults=(None, 0))
):
    """One of the commands that are compared: a name, its words, the program if the first word isn't
    it, and the status that is wanted of it. What it says on standard error of a status that is
    wanted isn't shown."""

    def start(self, stdin, stdout, folder):
        """Starts it with standard input from the file `stdin` and standard output into the file
        `stdout`."""
        with open(stdin, "rb") as source, open(stdout, "wb") as sink:
            err = subprocess.DEVNULL if self.status else None
            return subprocess.Popen(
                self.words,
                executable=self.program,
                stdin=source,
                stdout=sink,
                stderr=err,
                cwd=folder,
            )


# The least seconds of processor time that one contender took, and how much of all its runs' time
# was the kernel's.
Times = collections.namedtuple("Times", "least kernel")


def run_once(contender, stdin, stdout, folder):
    """Returns the seconds of processor time of one run, and those of them that were the
    kernel's."""
    started = contender.start(stdin, stdout, folder)
    _, status, used = os.wait4(started.pid, 0)
    started.returncode = os.waitstatus_to_exitcode(status)
    if started.returncode != contender.status:
        words = " ".join(contender.words[:6])
        failure = f"{contender.name}: {words} gave the status {started.returncode}"
        raise SystemExit(f"run.py: {failure}")
    return used.ru_utime + used.ru_stime, used.ru_stime


def measure(contenders, rounds, stdin=os.devnull, stdout=os.devnull, folder=None):
    """Returns the times of each contender by name: in each round every one runs once, in turn from
    another one on."""
    runs = {contender.name: [] for contender in contenders}
    for turn in range(rounds):
        first = turn % len(contenders)
        for contender in contenders[first:] + contenders[:first]:
            runs[contender.name].append(run_once(contender, stdin, stdout, folder))
    sums = {name: [sum(seconds) for seconds in zip(*pairs)] for name, pairs in runs.items()}
    return {
        name: Times(min(runs[name])[0], kernel / both if both else 0.0)
        for name, (both, kernel) in sums.items()
    }


def peak_memory(contender, stdin=os.devnull, stdout=os.devnull, folder=None):
    """Returns the peak of resident memory in bytes, of which Linux is asked again and again while
    it runs. What `wait4` says afterwards counts what the process shared with its parent before it
    became the command."""
    program, peak = os.path.realpath(contender.program or contender.words[0]), 0
    while not peak:  # a process that ends very soon may not be seen
        started = contender.start(stdin, stdout, folder)
        while started.poll() is None:
            try:
                if os.readlink(f"/proc/{started.pid}/exe") == program:
                    with open(f"/proc/{started.pid}/status") as file:
                        peak = max(
                            [
                                peak,
                                *(
                                    int(line.split()[1]) * 1024
                                    for line in file
                                    if line.startswith("VmHWM:")
                                ),
                            ]
                        )
            except OSError:  # it has ended
                pass
    return peak
