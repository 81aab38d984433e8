#!/usr/bin/env python3
"""A storm over loopback: clients post questions to the three services of @posts, an operator cancels a tenth of them meanwhile, and
connections between the services are cut at random (cut.c). Once the audit says legal, each cancelled question has to be dead and
gone at both services that had it, and each other one alive and there; and in the end each answer has its receipt. With KEEP each service
folds by itself all but so many of its requests meanwhile, and one question in a hundred is cancelled, soon after it came: what is cancelled
when it is nearly folded may be folded already at a service that it called, which then holds its part of the repair for good.

    drills/storm.py [PROGRAM [POSTS [CLIENTS [CUT_ONE_IN [SEED [KEEP]]]]]]
"""
import json
import os
import queue
import random
import re
import struct
import subprocess
import sys
import tempfile
import threading
import time

from served import PROGRAM, TOP, Served, exchange, request, told

LEGAL_WITHIN = 120
AUDIT_EACH = 2
ENTRY = re.compile(r"^\w+/(\d+) v\d+ (alive|dead|folded) r\d+ (\S+) \S+ (\S+) = (\S+)", re.M)


def built_in(name):
    """The text of a program that comes with `aire`."""
    with open(f"{TOP}/crates/world_file/src/programs.rt", encoding="utf-8") as file:
        return re.search(rf'const {name.upper()}: &str =\s*r#"(.*?)"#;', file.read(), re.S)[1]


def world(keep):
    def service(name):
        rules = "allow any any any /\n"
        folds = {"keep": keep} if keep else {}
        return {**folds, "name": name, "program": built_in(name), "rules": rules, "secret": f"secret of {name}", "console": f"console of {name}", "workers": 8}

    return {"services": [service(name) for name in ("oauth", "askbot", "dpaste")]}


def preload(folder, one_in, seed):
    """The environment in which one of so many connections that the program opens is cut."""
    subprocess.run(["cc", "-shared", "-fPIC", "-O2", "-o", f"{folder}/cut.so", f"{TOP}/drills/cut.c", "-ldl"], check=True)
    return {**os.environ, "LD_PRELOAD": f"{folder}/cut.so", "CUT_ONE_IN": str(one_in), "CUT_SEED": str(seed), "CUT_TOLD": f"{folder}/cuts"}


def cuts(folder):
    """How many connections the program opened, and how many of them were cut."""
    with open(f"{folder}/cuts", "rb") as file:
        return struct.unpack("=2q", file.read())


class Storm:
    def __init__(self, served, posts, clients, seed, part):
        """A part of the questions is cancelled."""
        self.served, self.posts, self.clients, self.seed, self.part = served, posts, clients, seed, part
        self.asked = {}  # by question: the number of its entry at askbot
        self.statuses = {}  # how many were answered so at first
        self.cancelled = set()
        self.late = 0  # how many cancellations came when their question was folded
        self.audits = []  # how long each took
        self.unheard = 0  # how many of them got no reply
        self.orders = queue.Queue()
        self.ended = threading.Event()
        self.faults = []

    def post(self, client):
        draw = random.Random(f"{self.seed} {client}")
        for place in range(client, self.posts, self.clients):
            question = f"q{place}"
            sent = request("POST", f"/post/u{client}/k{client}/{question}", f"text {place}".encode(), Aire_Who=f"u{client}")
            try:
                reply = exchange(self.served.ports["askbot"], sent)
            except OSError as fault:
                self.faults.append(f"{question}: {fault!r}")
                continue
            number = re.search(rb"Aire-Request-Id: askbot/(\d+)", reply)
            if number is None:
                self.faults.append(f"{question}: {told(reply) or 'no reply'}")
                continue
            status, _ = told(reply)
            self.statuses[status] = self.statuses.get(status, 0) + 1
            self.asked[question] = int(number[1])
            if draw.random() < self.part:
                self.orders.put(question)

    def cancel(self):
        """Cancels what it is told of, until it is told None."""
        while (question := self.orders.get()) is not None:
            fields = {"id": self.asked[question], "token": f"no-{question}"}
            status, reply = self.served.ask("askbot", "cancel", fields)
            if status == 200:
                self.cancelled.add(question)
            elif reply.get("refused") == "tooold":
                self.late += 1
            else:
                self.faults.append(f"the order to cancel {question}: {status} {reply}")
        self.ended.set()

    def watch(self):
        """Asks for an audit now and then, until all is cancelled."""
        while not self.ended.wait(AUDIT_EACH):
            self.audit()

    def audit(self):
        """The verdict, or None where the audit got no reply within its connection's time."""
        begun = time.monotonic()
        status, reply = self.served.ask("oauth", "audit")
        self.audits.append(time.monotonic() - begun)
        verdict = reply.get("text")
        if status is None:
            self.unheard += 1
        elif not verdict or not verdict.startswith(("legal", "unsettled")):
            self.faults.append(f"an audit: {status} {reply}")
        return verdict

    def rage(self):
        operators = [threading.Thread(target=it) for it in (self.cancel, self.watch)]
        clients = [threading.Thread(target=self.post, args=(n,)) for n in range(self.clients)]
        for it in (*operators, *clients):
            it.start()
        for it in clients:
            it.join()
        self.orders.put(None)
        for it in operators:
            it.join()

    def settle(self):
        """How long it took until the audit said legal, or, where audits get no reply, until all is as it has to be; or None."""
        begun = time.monotonic()
        while time.monotonic() - begun < LEGAL_WITHIN:
            if self.audit() == "legal\n" or self.unheard and not self.differences():
                return time.monotonic() - begun
            time.sleep(0.2)
        return None

    def text(self, service, report, faults):
        """A report, or nothing where there is no reply within its connection's time, which is a fault."""
        text = self.served.ask(service, report)[1].get("text")
        if text is None:
            faults.append(f"the {report} of {service}: no reply")
        return text or ""

    def differences(self):
        """Where rows or entries that are alive aren't those of the questions that weren't cancelled."""
        differences = []
        wanted = sorted(self.asked.keys() - self.cancelled)
        alive = {service: [it for it in ENTRY.findall(self.text(service, "log", differences)) if it[1] == "alive" or it[1] == "folded" and it[4] != "410"] for service in ("askbot", "dpaste")}
        found = {
            "rows of askbot": re.findall(r"^posts (\S+) ", self.text("askbot", "rows", differences), re.M),
            "rows of dpaste": re.findall(r"^pastes (\S+) ", self.text("dpaste", "rows", differences), re.M),
            "entries of askbot": [path.rpartition("/")[2] for _, _, _, path, status in alive["askbot"] if status == "200"],
            "entries of dpaste": [path.rpartition("/")[2] for _, _, _, path, status in alive["dpaste"] if status == "200"],
        }
        for what, some in found.items():
            if sorted(some) != wanted:
                lacks, beside = set(wanted) - set(some), set(some) - set(wanted)
                differences.append(f"{what}: {len(some)} and not {len(wanted)}; {sorted(lacks)[:3]} lack, {sorted(beside)[:3]} are beside")
        numbers = {int(number) for number, _, _, _, _ in alive["askbot"]}
        if numbers != {self.asked[question] for question in wanted}:
            differences.append(f"{len(numbers)} entries of askbot are alive, and not those of {len(wanted)} questions")
        return differences


def main(program, posts, clients, one_in, seed, keep):
    with tempfile.TemporaryDirectory() as folder:
        served = Served(program, world(keep), folder, preload(folder, one_in, seed))
        try:
            for n in range(clients):
                exchange(served.ports["oauth"], request("PUT", f"/token/u{n}", f"k{n}".encode(), Aire_Who=f"u{n}"))
            storm = Storm(served, posts, clients, seed, 0.01 if keep else 0.1)
            begun = time.monotonic()
            storm.rage()
            raged = time.monotonic() - begun
            settled = storm.settle()
            if settled is None:
                storm.faults.append(f"not legal within {LEGAL_WITHIN} s: {storm.audit()}")
                storm.faults += [f"{name} held: {storm.text(name, 'notices', [])}" for name in served.ports]
            else:
                storm.faults += storm.differences()
            folds = storm.text("askbot", "log", []).count(" folded ") if keep else 0
            begun = time.monotonic()
            status, out = served.stop()
            ended = time.monotonic() - begun
        finally:
            served.kill()
        opened, cut = cuts(folder)
    receipts = {name: int(count) for name, count in re.findall(r"(\w+) receipts (\d+)", out)}
    if (status, receipts.get("askbot"), out.splitlines()[-1:]) != (0, len(storm.asked), ["legal"]):
        storm.faults.append(f"it ended with status {status} and {out!r}")
    for fault in storm.faults[:20]:
        print(fault)
    print(f"{len(storm.asked)} of {posts} posts answered in {raged:.1f} s, by status at first {json.dumps(storm.statuses)}; {len(storm.cancelled)} cancelled, {storm.late} too late; {folds} folded at askbot; {cut} of {opened} connections cut")
    print(f"settled {settled and round(settled, 1)} s after the last, {out.splitlines()[-1:]} {ended:.1f} s after the stop, {len(storm.audits)} audits, {max(storm.audits):.1f} s at most, {storm.unheard} without a reply; receipts {json.dumps(receipts)}; {len(storm.faults)} faults")
    return 1 if storm.faults else 0


if __name__ == "__main__":
    words = sys.argv[1:] + [PROGRAM, "4000", "16", "20", "1", "0"][len(sys.argv) - 1:]
    sys.exit(main(words[0], *map(int, words[1:6])))
