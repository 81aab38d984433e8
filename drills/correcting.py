#!/usr/bin/env python3
"""A storm over loopback in whose middle programs change. Clients post questions to the three services of @posts, every second of them without
a token, which a switch for tests lets in, and connections between the services are cut at random (cut.c). Meanwhile an operator deploys
another program at dpaste from now on, corrects that of oauth for the past, so that the switch is passed over, and that of askbot, so that
posts are kept in another form. Once the audit says legal, each question without a token has to be refused and gone at both services that
had it, and each other one kept in the new form; a paste has the form of the program that it is under; and each answer has its receipt.

    drills/correcting.py [PROGRAM [POSTS [CLIENTS [CUT_ONE_IN [SEED]]]]]
"""
import json
import re
import sys
import tempfile
import threading
import time

from served import PROGRAM, Served, exchange, request
from storm import ENTRY, LEGAL_WITHIN, Storm, built_in, cuts, preload, world

PROGRAMS = re.compile(r"^program (\d+) entries (\d+) flights (\d+)", re.M)


def changed(name, old, new):
    """The program of a service that comes with `aire`, with one thing in it changed."""
    text = built_in(name)
    if text.count(old) != 1:
        sys.exit(f"drills/correcting.py: {name}'s program has `{old}` {text.count(old)} times")
    return text.replace(old, new)


# What is asked of whom, once so many parts of a hundred of the posts were answered.
CHANGES = [
    (30, "dpaste", "deploy", {"token": "angle", "program": changed("dpaste", "path(2) = body", 'path(2) = ("<" ++ (body ++ ">"))')}),
    (45, "oauth", "rehearse", {"number": 1, "program": changed("oauth", 'if (d = "on") { reply 200 path(2); }', "")}),
    (50, "oauth", "correct", {"token": "switch", "number": 1, "program": changed("oauth", 'if (d = "on") { reply 200 path(2); }', "")}),
    (70, "askbot", "correct", {"token": "mark", "number": 1, "program": changed("askbot", "path(4) = body", 'path(4) = (body ++ "!")')}),
]


class Correcting(Storm):
    """A storm without cancellations, with changes of programs in its middle."""

    def change(self):
        for part, service, word, fields in CHANGES:
            while len(self.asked) * 100 < part * self.posts and not self.ended.is_set():
                time.sleep(0.01)
            status, reply = self.served.ask(service, word, fields)
            as_wanted = status == 200 or word == "rehearse" and reply.get("refused") == "notidle"
            if not as_wanted:
                self.faults.append(f"{word} at {service}: {status} {reply}")

    def rage(self):
        operators = [threading.Thread(target=it) for it in (self.change, self.watch)]
        clients = [threading.Thread(target=self.post, args=(n,)) for n in range(self.clients)]
        for it in (*operators, *clients):
            it.start()
        for it in clients:
            it.join()
        operators[0].join(LEGAL_WITHIN)
        self.ended.set()
        operators[1].join()

    def differences(self):
        """Where rows or answers aren't those of the questions that came with a token, or forms not those of their program."""
        found = []
        wanted = sorted(question for question in self.asked if int(question[1:]) % self.clients % 2 == 0)
        posts = re.findall(r"^posts (\S+) (.*)$", self.text("askbot", "rows", found), re.M)
        pastes = re.findall(r"^pastes (\S+) (.*)$", self.text("dpaste", "rows", found), re.M)
        logged = {path.rpartition("/")[2]: status for _, _, _, path, status in ENTRY.findall(self.text("askbot", "log", found))}
        if logged != {question: "200" if question in set(wanted) else "403" for question in self.asked}:
            found.append(f"askbot logged {sorted(logged.values()).count('200')} posts as answered 200, and not {len(wanted)}")
        if sorted(posts) != [(question, f"text {question[1:]}!") for question in wanted]:
            found.append(f"rows of askbot: {len(posts)}, {sum(text[-1:] == '!' for _, text in posts)} of them in the new form, and not {len(wanted)}")
        if sorted(question for question, _ in pastes) != wanted:
            found.append(f"rows of dpaste: {len(pastes)} and not {len(wanted)}")
        if any(text.strip("<>") != f"text {question[1:]}" for question, text in pastes):
            found.append("a paste has neither form")
        under = {int(number): int(entries) for number, entries, _ in PROGRAMS.findall(self.text("dpaste", "programs", found))}
        new = sum(text.startswith("<") for _, text in pastes)
        if sum(under.values()) != len(ENTRY.findall(self.text("dpaste", "log", found))) or not 0 < new <= under.get(2, 0) or len(pastes) - new > under.get(1, 0):
            found.append(f"{new} of {len(pastes)} pastes have the new form, where programs have {under}")
        for service, numbers in (("oauth", [2]), ("askbot", [2])):
            if [int(number) for number, _, _ in PROGRAMS.findall(self.text(service, "programs", found))] != numbers:
                found.append(f"{service} has other programs in use than {numbers}")
        return found


def prepare(served, clients):
    """Tokens of every second client, and the switch."""
    for n in range(0, clients, 2):
        exchange(served.ports["oauth"], request("PUT", f"/token/u{n}", f"k{n}".encode(), Aire_Who=f"u{n}"))
    exchange(served.ports["oauth"], request("PUT", "/cfg/debug", b"on", Aire_Who="root"))


def main(program, posts, clients, one_in, seed):
    with tempfile.TemporaryDirectory() as folder:
        served = Served(program, world(0), folder, preload(folder, one_in, seed))
        try:
            prepare(served, clients)
            storm = Correcting(served, posts, clients, seed, 0)
            begun = time.monotonic()
            storm.rage()
            raged = time.monotonic() - begun
            settled = storm.settle()
            if settled is None:
                storm.faults.append(f"not legal within {LEGAL_WITHIN} s: {storm.audit()}")
                storm.faults += [f"{name} held: {storm.text(name, 'notices', [])}" for name in served.ports]
            else:
                storm.faults += storm.differences()
            status, out = served.stop()
        finally:
            served.kill()
        opened, cut = cuts(folder)
    if status != 0 or out.splitlines()[-1:] != ["legal"] or f"askbot receipts {len(storm.asked)}\n" not in out:
        storm.faults.append(f"it ended with status {status} and {out!r}")
    for fault in storm.faults[:20]:
        print(fault)
    print(f"{len(storm.asked)} of {posts} posts answered in {raged:.1f} s, by status at first {json.dumps(storm.statuses)}; {cut} of {opened} connections cut")
    print(f"settled {settled and round(settled, 1)} s after the last, {len(storm.audits)} audits, {max(storm.audits, default=0):.1f} s at most; {len(storm.faults)} faults")
    return 1 if storm.faults else 0


if __name__ == "__main__":
    words = sys.argv[1:] + [PROGRAM, "4000", "16", "20", "1"][len(sys.argv) - 1:]
    sys.exit(main(words[0], *map(int, words[1:5])))
