"""Runs all that a test says, without the proofs: scripts over the program, the pages, and the crates of tests by `rt try --test`.

    launcher/test.py [--without-crates] [PROGRAM]     PROGRAM: what is tested; where none is given, a build for a trial

Several run side by side, as many as there are processors and at least two. Each is told as it ends, by the last line that it
printed, with the seconds that it took by the clock and of a processor, and one that failed by all that it printed. The last line
is `N passed, M failed`.
"""
import os
import resource
import subprocess
import sys
import tempfile
import time

from toolchain import TOP, Trial, below, crate_lines, end_by_signals, sources_of

# Scripts that are given the program, and those that need none.
OVER_PROGRAM = ["cases/check", "cases/check-served", "cases/check-rehearsals", "examples/check", "examples/check-serve", "examples/check-launcher"]
ALONE = ["docs/check-theorems", "docs/check-pages", "bench/measure"]
# Crates whose tests take longer than their build.
LONG = ["ground_tests"]
# In how many seconds the tests of a crate have to end, while others run beside them.
SECONDS = "600"


def used():
    """The seconds of a processor that all took that this script started and that ended."""
    found = resource.getrusage(resource.RUSAGE_CHILDREN)
    return found.ru_utime + found.ru_stime


class Script:
    """A running script."""

    def __init__(self, words, wrote):
        self.process = subprocess.Popen(words, cwd=TOP, stdin=subprocess.DEVNULL, stdout=wrote, stderr=subprocess.STDOUT)

    def is_running(self):
        return self.process.poll() is None

    def end(self):
        """Ends it where it runs, and returns its status."""
        if self.is_running():
            self.process.terminate()
        return self.process.wait()


class Test:
    """What is run: `start` is given a file to print to and a folder, and gives what runs."""

    def __init__(self, name, start, needs_program=False):
        self.name, self.start, self.needs_program = name, start, needs_program

    def begin(self):
        self.began = time.monotonic()
        self.room = tempfile.TemporaryDirectory(prefix="aire-test-")
        self.wrote = open(f"{self.room.name}/wrote", "w+b")
        self.running = self.start(self.wrote, self.room.name)

    def has_ended(self):
        """Whether it runs no more; notes then what it took of a processor."""
        before = used()
        if self.running.is_running():
            return False
        self.used = round(used() - before)
        return True

    def end(self):
        """Ends it where it runs, and notes its status, the lines that it printed and the seconds that it took."""
        self.status = self.running.end()
        self.wrote.seek(0)
        self.lines = self.wrote.read().decode(errors="replace").splitlines()
        self.wrote.close()
        self.room.cleanup()
        self.seconds = round(time.monotonic() - self.began)

    def tell(self):
        took = f"{self.seconds} s, {self.used} of a processor"
        if self.status == 0:
            print(f"{self.name}: {self.lines[-1] if self.lines else 'passed'} ({took})", flush=True)
        else:
            print(f"{self.name} FAILED, with status {self.status} ({took}):", flush=True)
            print("".join(f"    {line}\n" for line in self.lines), end="", flush=True)


def has_tests(crate):
    for path in sources_of(crate):
        with open(path, encoding="utf-8") as file:
            if "#[test]" in file.read():
                return True
    return False


def crates_of_tests():
    """The crates that have tests, those first that take longest: whose tests do, or that most is compiled for."""
    lines = crate_lines()

    def size(crate):
        return sum(os.path.getsize(path) for name in below(crate, lines) for path in sources_of(name))

    return sorted(filter(has_tests, lines), key=lambda it: (it in LONG, size(it)), reverse=True)


class Tests:
    """All tests, which are run a few at a time."""

    def __init__(self, program, with_crates):
        self.program, self.waiting, self.running, self.ended = program, [], [], []
        if not program:
            self.waiting.append(Test("a build for a trial", self.building))
        for name in OVER_PROGRAM:
            self.waiting.append(Test(name, lambda wrote, _, name=name: Script([name, self.program], wrote), needs_program=True))
        for name in ALONE:
            self.waiting.append(Test(name, lambda wrote, _, name=name: Script([name], wrote)))
        for crate in crates_of_tests() if with_crates else ():
            words = ["--test", "--seconds", SECONDS]
            self.waiting.append(Test(crate, lambda wrote, room, crate=crate: Trial(crate, words, room, wrote)))

    @staticmethod
    def building(wrote, _):
        return Script([sys.executable, "-B", "launcher/trial.py"], wrote)

    def begin_next(self):
        """Begins what stands first among those that can, and returns whether there was one."""
        test = next((it for it in self.waiting if self.program or not it.needs_program), None)
        if test:
            self.waiting.remove(test)
            self.running.append(test)
            test.begin()
        return test is not None

    def end(self, test):
        self.running.remove(test)
        self.ended.append(test)
        test.end()
        test.tell()
        if test.start == self.building:
            if test.status == 0:
                self.program = test.lines[-1]
            else:
                lost = [it for it in self.waiting if it.needs_program]
                print(f"without a program there is no {', '.join(it.name for it in lost)}", flush=True)
                self.waiting = [it for it in self.waiting if it not in lost]

    def run(self, lanes):
        """Runs them, and returns the names of those that failed."""
        try:
            while self.waiting or self.running:
                while len(self.running) < lanes and self.begin_next():
                    pass
                for test in [it for it in self.running if it.has_ended()]:
                    self.end(test)
                time.sleep(0.2)
        finally:
            for test in self.running:
                test.end()
        return [it.name for it in self.ended if it.status != 0]


def main(words):
    end_by_signals()
    with_crates = words[:1] != ["--without-crates"]
    program = next(iter(words[0 if with_crates else 1 :]), None)
    tests = Tests(program and os.path.realpath(program), with_crates)
    failed = tests.run(max(2, len(os.sched_getaffinity(0))))
    if failed:
        print(f"failed: {', '.join(failed)}")
    print(f"{len(tests.ended) - len(failed)} passed, {len(failed)} failed")
    return 1 if failed else 0


if __name__ == "__main__":
    sys.exit(main(sys.argv[1:]))
