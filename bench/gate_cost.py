#!/usr/bin/env python3
"""Prints each crate's processor minutes in a run of the gate: its proof, its tests, and its wrong bodies. And what a change costs.

    bench/gate_cost.py [COMMAND ..]     COMMAND: what is run and watched, `rt ci` where none is given
    bench/gate_cost.py --watch PROCESS  watches what this process has started, until it ends or the script is told to (SIGTERM)
    bench/gate_cost.py --cones          runs nothing, and prints what a change costs by the table of bench/README.md

A change of a crate has the gate prove it anew, and each crate above it: their number, and their minutes with tests and wrong
bodies, are printed by crate, and below them the longest path by proofs alone: each crate on it waits for the one before.

A run is watched so: it looks at the running provers four times a second and adds up the processor time that each has used, with the
processes that it started, by the crate and by what it was started for: `proof` is the crate alone, `tests` the crate with its tests,
`edits` a wrong body or the check that its crate's wrong bodies begin with, where it has any in the gate. A prover that ends between two
looks loses a quarter of a second. The gate tells by `--watch` what it cost.
A toolchain that keeps what it proved has to be told to prove all: `bench/gate_cost.py rt ci --anew`.
"""
import os
import re
import signal
import subprocess
import sys
import time

TOP = os.path.dirname(os.path.dirname(os.path.abspath(__file__)))
TICKS = os.sysconf("SC_CLK_TCK")
KINDS = ("proof", "tests", "edits")


def processes():
    """Gives, by process, its words and what its /proc/stat tells behind its name."""
    found = {}
    for name in os.listdir("/proc"):
        if not name.isdigit():
            continue
        try:
            with open(f"/proc/{name}/cmdline", "rb") as it:
                words = it.read().decode(errors="replace").split("\0")
            with open(f"/proc/{name}/stat", encoding="utf-8", errors="replace") as it:
                found[int(name)] = words, it.read().rsplit(")", 1)[1].split()
        except (OSError, IndexError):
            pass
    return found


def is_prover(words):
    return os.path.basename(words[0]) == "rattle" and "--crate-name" in words


def provers(of):
    """Gives (process, crate, kind, seconds) of each prover that a process or one below it has started and that runs now."""
    found, ticks = processes(), {}
    for name, (words, told) in found.items():
        if not is_prover(words):
            continue
        # what a prover starts counts for it, while it runs and once it was waited for
        above, first = name, name
        while above in found and above != of:
            first = above if is_prover(found[above][0]) else first
            above = int(found[above][1][1])
        if above == of:
            ticks[first] = ticks.get(first, 0) + sum(map(int, told[11:15]))
    for first, used in ticks.items():
        words, told = found[first]
        crate = words[words.index("--crate-name") + 1]
        # a program without wrong bodies is proved by such a check too
        is_edit = words[1] == "check" and os.path.isdir(f"{TOP}/crates/{crate}/must-fail")
        kind = "edits" if is_edit else "tests" if "--test" in words else "proof"
        # the start time keeps two processes of one number apart
        yield (first, told[19]), crate, kind, used / TICKS


def crates_of():
    """The crates of crates.txt with those that each names, lowest first."""
    with open(f"{TOP}/crates.txt", encoding="utf-8") as file:
        return {name: below.split() for name, below in re.findall(r"^(\w+)[^:\n]*:(.*)$", file.read(), re.M)}


def table_of_readme():
    """By crate the minutes of its proof and of all that the gate does for it, as bench/README.md has them."""
    with open(f"{TOP}/bench/README.md", encoding="utf-8") as file:
        cells = [[it.strip() for it in line.split("|")[1:-1]] for line in file if re.match(r"\| `\w+`.*\|$", line)]
    rows = {row[0].split("`")[1]: row[1:] for row in cells if len(row) == 5}
    return {crate: (float(row[0] or 0), float(row[3] or 0)) for crate, row in rows.items()}


def longest_paths(crates, minutes):
    """By crate the minutes of the longest path up to it, of crates each of which waits for the one before, and that path."""
    longest = {}
    for crate, named in crates.items():
        before = max((longest[it] for it in named if it in longest), default=(0.0, ()))
        longest[crate] = before[0] + minutes.get(crate, 0.0), (*before[1], crate)
    return longest


def cones(crates, minutes):
    """Prints what a change of each crate has proved anew, and the longest path."""
    above = {crate: {crate} for crate in crates}
    for crate in reversed(list(crates)):
        for it in crates[crate]:
            if it in crates:
                above[it] |= above[crate]
    print("| Crate | Crates | Minutes |\n|---|---|---|")
    for crate in crates:
        print(f"| `{crate}` | {len(above[crate])} | {sum(minutes[it][1] for it in above[crate] if it in minutes):.1f} |")
    lacking = [it for it in crates if it not in minutes]
    if lacking:
        print(f"without minutes: {', '.join(lacking)}")
    longest = longest_paths(crates, {crate: row[0] for crate, row in minutes.items()})
    path = max(longest.values(), default=(0.0, ()))
    print(f"longest path: {path[0]:.1f} minutes, of {', '.join(path[1])}")


def watch(of, is_running):
    """Prints by crate what the provers used that a process has started, once it runs no more."""
    seen = {}
    began = time.monotonic()
    while is_running():
        for process, crate, kind, seconds in provers(of):
            seen[process] = (crate, kind, max(seconds, seen.get(process, (crate, kind, 0.0))[2]))
        time.sleep(0.25)
    costs = {}
    for crate, kind, seconds in seen.values():
        costs.setdefault(crate, dict.fromkeys(KINDS, 0.0))[kind] += seconds / 60
    order = list(crates_of())
    print("| Crate | Proof | Tests | Wrong bodies | All |\n|---|---|---|---|---|")
    for crate in sorted(costs, key=lambda it: order.index(it) if it in order else len(order)):
        row = costs[crate]
        print(f"| `{crate}` | " + " | ".join(f"{row[it]:.1f}" for it in KINDS) + f" | {sum(row.values()):.1f} |")
    sums = [sum(row[it] for row in costs.values()) for it in KINDS]
    print("| all | " + " | ".join(f"{it:.1f}" for it in sums) + f" | {sum(sums):.1f} |")
    longest = longest_paths(crates_of(), {crate: row["proof"] for crate, row in costs.items()})
    print(f"longest path: {max(longest.values(), default=(0.0, ()))[0]:.1f} minutes")
    passed = (time.monotonic() - began) / 60
    print(f"{passed:.1f} minutes by the clock, on {len(os.sched_getaffinity(0))} processors", flush=True)


def main():
    if sys.argv[1:] == ["--cones"]:
        cones(crates_of(), table_of_readme())
        return 0
    if len(sys.argv) == 3 and sys.argv[1] == "--watch":
        told = []
        signal.signal(signal.SIGTERM, lambda number, _: told.append(number))
        watch(int(sys.argv[2]), lambda: not told and os.path.exists(f"/proc/{sys.argv[2]}"))
        return 0
    ran = subprocess.Popen(sys.argv[1:] or ["rt", "ci"])
    watch(ran.pid, lambda: ran.poll() is None)
    return ran.returncode


if __name__ == "__main__":
    sys.exit(main())
