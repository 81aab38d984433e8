"""What the launcher's scripts share: the crates that the program stands on, and the toolchain's trials of crates."""
import contextlib
import hashlib
import os
import signal
import subprocess
import sys

TOP = os.path.dirname(os.path.dirname(os.path.abspath(__file__)))
PROGRAM = "aire"


def say(text):
    print(f"aire: {text}", file=sys.stderr, flush=True)


def end_by_signals():
    """Has a signal that ends this script end it as a fault would: its folders go, and what it started is ended."""
    for it in (signal.SIGINT, signal.SIGTERM, signal.SIGHUP):
        signal.signal(it, lambda number, _: sys.exit(128 + number))


def crate_lines():
    """The lines of crates.txt by the crate that each is of, in its order, which is lowest first."""
    with open(f"{TOP}/crates.txt", encoding="utf-8") as file:
        lines = [it for it in file.read().splitlines() if ":" in it and not it.startswith("#")]
    return {it.partition(":")[0].split()[0]: it for it in lines}


def below(crate, lines):
    """The crates of this repository that a crate stands on, lowest first, and it itself last."""
    found = {crate}
    for name in reversed(list(lines)):
        if name in found:
            found.update(lines[name].partition(":")[2].split())
    return [it for it in lines if it in found and it != crate] + [crate]


def sources_of(crate):
    """The files of a crate that a trial is built from, in a fixed order."""
    return sorted(f"{at}/{name}" for at, _, names in os.walk(f"{TOP}/crates/{crate}/src") for name in names)


def sum_of_sources(crate):
    """A sum of all that a trial of this crate is built from: the toolchain, and the sources without what only proofs read."""
    lines = crate_lines()
    found = hashlib.sha256(subprocess.run(["rt", "version"], stdout=subprocess.PIPE, check=True).stdout)
    for name in below(crate, lines):
        found.update(f"\n{lines[name]}\n".encode())
        for path in sources_of(name):
            with open(path, "rb") as file:
                found.update(f"\n{path[len(TOP):]}\n".encode() + file.read())
    return found.hexdigest()


def children_of(process):
    """The processes that a process has started and that still run, with their words."""
    with contextlib.suppress(OSError, ValueError):
        with open(f"/proc/{process}/task/{process}/children", encoding="ascii") as file:
            for child in map(int, file.read().split()):
                with open(f"/proc/{child}/cmdline", "rb") as words:
                    yield child, words.read().split(b"\0")


class Trial:
    """A running `rt try`, whose temporary files are in a folder of ours.

    Beside the build it has a check look for names that a proof would refuse, which takes as much of a processor as the build
    does. Nobody reads that here, so it is ended where it is found.
    """

    def __init__(self, crate, words, room, wrote):
        how = {"cwd": f"{TOP}/crates/{crate}", "env": {**os.environ, "TMPDIR": room}, "stdin": subprocess.DEVNULL}
        self.process = subprocess.Popen(["rt", "try", *words], stdout=wrote, stderr=subprocess.STDOUT, **how)
        self.has_check = True

    def is_running(self):
        """Whether it still runs; to be asked a few times a second."""
        for child, words in children_of(self.process.pid) if self.has_check else ():
            if os.path.basename(words[0]) == b"rattle" and words[1:2] == [b"check"]:
                self.has_check = False
                with contextlib.suppress(OSError):
                    os.kill(child, signal.SIGKILL)
        return self.process.poll() is None

    def end(self):
        """Ends it where it runs, waits until its files are gone, and returns its status."""
        if self.process.poll() is None:
            self.process.terminate()
        return self.process.wait()
