#!/usr/bin/env python3
"""Runs a script again and again, each time with another allocation refused: what is printed is the same, or ends for want of memory.

    bench/no_memory.py WORLD SCRIPT [EVERY]     EVERY: of so many allocations one is tried, the first, 1 where none is given

WORLD is a world file or a name as @posts. Of the allocations it tries each, or one in EVERY, beginning with the first. A run
fits where its status and bytes are those of the run in which none is refused, or where its status is 6 and its bytes are the
first of those and then `no memory`. It prints how many runs ended so and so, and each that didn't fit; its status is 1 where
there is one. It needs a C compiler, `cc`, and the program built.
"""
import os
import subprocess
import sys
import tempfile

HERE = os.path.dirname(os.path.abspath(__file__))
PROGRAM = os.path.join(HERE, "..", "crates", "aire", "out", "aire")
LAST = b"no memory\n"


def run(words, refused, folder):
    """Gives the status and the bytes of a run in which the allocation of this number is refused."""
    fault = {
        "LD_PRELOAD": os.path.join(folder, "no_memory.so"),
        "ALLOCATIONS": os.path.join(folder, "allocations"),
        "REFUSED": str(refused),
    }
    ended = subprocess.run(
        [PROGRAM, "run", *words], stdout=subprocess.PIPE, env=fault, check=False
    )
    return ended.returncode, ended.stdout


def allocations(folder):
    """Gives how many allocations the last run that came to its end had."""
    name = os.path.join(folder, "allocations")
    if not os.path.exists(name):
        sys.exit("no allocation was counted: the program doesn't take its memory from the C library that is loaded with it")
    with open(name, encoding="utf-8") as it:
        return int(it.read())


def is_lacking(whole, told):
    """Tells whether a run printed the first bytes of the whole and then that there is no memory."""
    status, printed = told
    return status == 6 and printed.endswith(LAST) and whole[1].startswith(printed[: -len(LAST)])


def try_all(words, every, folder):
    """Prints what became of the runs, and gives how many didn't fit."""
    whole = run(words, 0, folder)
    count = allocations(folder)
    same = lacking = wrong = 0
    for refused in range(1, count + 1, every):
        told = run(words, refused, folder)
        if told == whole:
            same += 1
        elif is_lacking(whole, told):
            lacking += 1
        else:
            wrong += 1
            print(f"allocation {refused}: status {told[0]}, {told[1][-200:]!r}", flush=True)
    print(f"{' '.join(words)}: status {whole[0]}, {len(whole[1])} bytes, {count} allocations, one in {every} refused")
    print(f"    {lacking} runs ended with status 6, {same} with the same bytes, {wrong} otherwise")
    return wrong


def main():
    if len(sys.argv) not in (3, 4):
        sys.exit(__doc__)
    if not os.access(PROGRAM, os.X_OK):
        sys.exit("the program isn't built yet; ./aire build does it")
    words, every = sys.argv[1:3], int(sys.argv[3]) if len(sys.argv) == 4 else 1
    with tempfile.TemporaryDirectory() as folder:
        source, made = os.path.join(HERE, "no_memory.c"), os.path.join(folder, "no_memory.so")
        subprocess.run(["cc", "-O2", "-fno-builtin", "-shared", "-fPIC", "-o", made, source], check=True)
        sys.exit(1 if try_all(words, every, folder) else 0)


if __name__ == "__main__":
    main()
