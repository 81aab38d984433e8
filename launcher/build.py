"""Proves and builds the program, by the gate's own command, side by side and on a copy of the crates that it stands on, without
their wrong bodies. Where the toolchain keeps on the machine what `rt ci` proved, neither this nor the gate proves it again.
"""
import os
import re
import shutil
import subprocess
import sys
import tempfile
import time

from toolchain import PROGRAM, TOP, below, crate_lines, end_by_signals, say

LAST_LINES = 40
MADE = f"crates/{PROGRAM}/out/{PROGRAM}"


def copy_crates(to):
    """Copies the program's crates to a repository of their own, and returns their names."""
    lines = crate_lines()
    names = below(PROGRAM, lines)
    for name in names:
        shutil.copytree(f"{TOP}/crates/{name}", f"{to}/crates/{name}", ignore=shutil.ignore_patterns("out", "must-fail"))
    with open(f"{to}/crates.txt", "w", encoding="utf-8") as file:
        file.write("".join(f"{lines[name]}\n" for name in names))
    shutil.copyfile(f"{TOP}/HANDLES", f"{to}/HANDLES")
    # a copy within another repository is one of its own
    os.mkdir(f"{to}/.git")
    return names


class Telling:
    """Tells how far it is by the lines of `rt ci`, which has those that it says of a crate stand before the crate's verdict.

    A crate that the toolchain kept from an earlier run has a verdict of its own, with toolchains that keep any."""

    def __init__(self, total):
        self.total, self.ended, self.began, self.lines = total, 0, time.monotonic(), []

    def tell(self, crate, how=""):
        passed = int(time.monotonic() - self.began)
        say(f"{self.ended} of {self.total}, {passed // 60} min {passed % 60} s: {crate}{how}")

    def hear(self, line):
        verdict = re.fullmatch(r"rt: (\w+) (proved|NOT PROVED|is kept)(:.*)?", line)
        if line.startswith("== "):
            self.lines = []
        if not verdict:
            self.lines.append(line)
            return
        crate, word, why = verdict.groups()
        if word == "NOT PROVED":
            say(f"{crate} could not be built{why or ':'}")
            print("".join(f"{it}\n" for it in self.lines[-LAST_LINES:] if not why), end="", file=sys.stderr, flush=True)
        else:
            self.ended += 1
            self.tell(crate, ", proved before" if word == "is kept" else "")
        self.lines = []


def prove(tree, telling):
    """Runs the gate in the copy, and returns whether it passed."""
    how = {"stdin": subprocess.DEVNULL, "stdout": subprocess.PIPE, "stderr": subprocess.STDOUT, "errors": "replace"}
    with subprocess.Popen(["rt", "ci"], cwd=tree, **how) as proving:
        try:
            for line in proving.stdout:
                telling.hear(line.rstrip("\n"))
        except BaseException:
            proving.terminate()
            raise
    return proving.returncode == 0


def main():
    end_by_signals()
    tree = tempfile.mkdtemp(prefix="aire-build-")
    try:
        began = time.time()
        names = copy_crates(tree)
        say(f"proving and building {len(names)} crates from their sources")
        telling = Telling(len(names))
        if not prove(tree, telling) or not os.path.exists(f"{tree}/{MADE}"):
            say("the program could not be built:")
            print("\n".join(telling.lines[-LAST_LINES:]), file=sys.stderr)
            return 1
        os.makedirs(os.path.dirname(f"{TOP}/{MADE}"), exist_ok=True)
        shutil.copyfile(f"{tree}/{MADE}", f"{TOP}/{MADE}.new")
        os.chmod(f"{TOP}/{MADE}.new", 0o755)
        # it is as old as the copy: what was changed meanwhile is newer
        os.utime(f"{TOP}/{MADE}.new", (began, began))
        os.replace(f"{TOP}/{MADE}.new", f"{TOP}/{MADE}")
        telling.tell("built")
    finally:
        shutil.rmtree(tree, ignore_errors=True)
    return 0


if __name__ == "__main__":
    sys.exit(main())
