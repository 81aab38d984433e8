#!/usr/bin/env python3
"""Serves @posts again and again, each time with another allocation refused, while two clients post and an operator cancels: a run
ends as it has to, or for want of memory.

    drills/no_memory.py [PROGRAM [EVERY [POSTS]]]

Of so many allocations (EVERY, 97) one is tried, the first among them. Each client sets a token and sends so many posts (POSTS,
5), the second of which is cancelled. Whoever is told `nomemory`, or gets no reply, sends the same once more, the operator who
asks for the verdict and who stops among them. A run fits where its status is 0, the verdict legal, no cancelled post and no paste of
one is there and every other is, but for those whose call a repair put before its user's token at `oauth`; or where its status is 6 and its last
line `no memory`; or where it is 8 and `worker not started`, since the C library had no memory for a thread, or 7 and `door fault`, since a
door couldn't be opened without it. How many ended so and so is printed,
and each that didn't fit; the status is 1 where there is one. It needs a C compiler, `cc`, and the program built.
"""
import json
import os
import subprocess
import sys
import tempfile
import time
from concurrent.futures import ThreadPoolExecutor

from served import PROGRAM, TOP, body_of, console, exchange, free_ports, request, told

TRIES = 20
PATIENCE = 20
LAST = "no memory\n"
UNSTARTED = "worker not started\n"
UNOPENED = "door fault\n"
USERS = ("ann", "bob")
UNESCAPED = {"\\\\": "\\", "\\n": "\n", "\\r": "\r"}


class Gone(Exception):
    """The program ended, or answers no more."""


def world(program):
    """A world file's value with the services of @posts, whose programs are read from a dump, at free ports."""
    dump = subprocess.run([program, "run", "@posts", "-"], input="dump\n", stdout=subprocess.PIPE, text=True, check=True).stdout
    names = [line[8:] for line in dump.splitlines() if line.startswith("service ")]
    texts = [line[8:] for line in dump.splitlines() if line.startswith("program ")]
    services = []
    for name, text, port in zip(names, texts, free_ports(len(names))):
        for spelled, meant in UNESCAPED.items():
            text = text.replace(spelled, meant)
        services.append({
            "name": name, "program": text, "rules": "allow any any any /\n", "secret": "s", "console": "c",
            "door": f"127.0.0.1:{port}", "workers": 2,
        })
    return {"services": services}


class Run:
    """One run of the program, in which the allocation of this number is refused, and none where it is 0."""

    def __init__(self, program, given, folder, refused):
        self.ports = {it["name"]: int(it["door"].rsplit(":", 1)[1]) for it in given["services"]}
        self.counted = os.path.join(folder, "allocations")
        path = os.path.join(folder, "world.json")
        with open(path, "w", encoding="utf-8") as file:
            json.dump(given, file)
        fault = {"LD_PRELOAD": os.path.join(folder, "no_memory.so"), "ALLOCATIONS": self.counted, "REFUSED": str(refused)}
        self.running = subprocess.Popen(
            [program, "serve", path], stdout=subprocess.PIPE, stderr=subprocess.DEVNULL, text=True, env=fault
        )

    def send(self, name, sent):
        """The reply to these bytes, which are sent until it is one that isn't for want of memory."""
        for _ in range(TRIES):
            if self.running.poll() is not None:
                raise Gone
            try:
                reply = exchange(self.ports[name], sent, shut=False, patience=PATIENCE)
            except TimeoutError as slow:
                raise ValueError(f"no reply within {PATIENCE} seconds to {sent!r}") from slow
            except OSError:
                reply = b""
            if reply and told(reply) != (503, "nomemory"):
                return reply
            time.sleep(0.1)
        raise Gone

    def operate(self, name, word, fields=None):
        """The JSON of what an operator is replied."""
        reply = self.send(name, console(name, b"c", word, json.dumps(fields or {}).encode()))
        return json.loads(body_of(reply))

    def post(self, user, posts):
        """A token and posts of this user, of which one is cancelled. Gives the names of the others."""
        self.send("oauth", request("PUT", f"/token/{user}", b"k", Aire_Who=user))
        for number in range(posts):
            sent = request("POST", f"/post/{user}/k/{user}{number}", b"text", Aire_Who=user)
            reply = self.send("askbot", sent)
            if number == 1:
                # A reply that didn't come may have been lost behind its commit: then there is the same post once more.
                log = self.operate("askbot", "log")["text"].splitlines()
                for line in log:
                    if f"/post/{user}/k/{user}1 " in line:
                        entry = int(line.split(" ")[0].split("/")[1])
                        self.operate("askbot", "cancel", {"token": f"{user}{entry}", "id": entry})
            # Where memory lacked for the call to oauth, it is answered that the user isn't known, and repaired later.
            if told(reply) not in ((200, None), (403, None)):
                raise ValueError(f"{sent!r} was answered {reply!r}")
        return {f"{user}{number}" for number in range(posts) if number != 1}

    def settled(self):
        """Waits for the verdict, and tells which posts and pastes there are."""
        for _ in range(1000):
            if self.operate("askbot", "audit")["text"] == "legal\n":
                break
            time.sleep(0.01)
        rows = self.operate("askbot", "rows")["text"], self.operate("dpaste", "rows")["text"]
        return [{line.split(" ")[1] for line in text.splitlines() if line != "none"} for text in rows]

    def early(self):
        """How many calls of each user stand before its token at `oauth`, and found none. A live call for which memory lacked is
        made by a repair later, and comes to stand where its caller saw it last, which may be before the token."""
        counts = dict.fromkeys(USERS, 0)
        waiting = set(USERS)
        for line in self.operate("oauth", "log")["text"].splitlines():
            for user in tuple(waiting):
                if f" PUT /token/{user} " in line:
                    waiting.discard(user)
                elif f" GET /verify/{user}/k = 403" in line and " alive " in line:
                    counts[user] += 1
        return counts

    def end(self):
        """The status and the output, once it is stopped."""
        try:
            self.operate("oauth", "stop")
        except Gone:
            pass
        try:
            out, _ = self.running.communicate(timeout=PATIENCE)
        except subprocess.TimeoutExpired:
            self.running.kill()
            out, _ = self.running.communicate()
        return self.running.returncode, out


def wait_listening(run):
    """Waits until all services listen; raises Gone where the program ended before."""
    for name in run.ports:
        for _ in range(200):
            if run.running.poll() is not None:
                raise Gone
            try:
                exchange(run.ports[name], b"", patience=PATIENCE)
                break
            except OSError:
                time.sleep(0.05)


def visit(run, posts):
    """What clients and operators do. Gives why that isn't as it has to be, or None."""
    wait_listening(run)
    with ThreadPoolExecutor(2) as clients:
        wanted = set().union(*clients.map(lambda user: run.post(user, posts), USERS))
    found = run.settled()
    if found == [wanted, wanted]:
        return None
    missing, early = wanted - found[0], run.early()
    if found == [wanted - missing] * 2 and all(sum(it.startswith(user) for it in missing) <= early[user] for user in USERS):
        return None
    return f"{found} are there, and not {wanted}"


def outcome(program, given, folder, refused, posts):
    """How a run ended: `whole`, `lacking`, `unstarted`, `unopened`, or what is wrong."""
    run = Run(program, given, folder, refused)
    gone = False
    try:
        fault = visit(run, posts)
    except Gone:
        gone = True
    except (ValueError, KeyError, OSError) as why:
        fault = repr(why)
    status, out = run.end()
    if status == 6 and out.endswith(LAST):
        return "lacking"
    if status == 8 and out.endswith(UNSTARTED):
        return "unstarted"
    if status == 7 and out.endswith(UNOPENED):
        return "unopened"
    if gone:
        fault = "it was gone before the stop"
    if fault or status != 0 or not out.endswith("legal\n"):
        return f"status {status}, {out[-200:]!r}, {fault}"
    return "whole"


def main(program, every, posts):
    counts = {"whole": 0, "lacking": 0, "unstarted": 0, "unopened": 0}
    wrong = 0
    with tempfile.TemporaryDirectory() as folder:
        source, made = os.path.join(TOP, "bench", "no_memory.c"), os.path.join(folder, "no_memory.so")
        subprocess.run(["cc", "-O2", "-fno-builtin", "-shared", "-fPIC", "-o", made, source], check=True)
        given = world(program)
        first = outcome(program, given, folder, 0, posts)
        if first != "whole":
            sys.exit(f"with all memory: {first}")
        with open(os.path.join(folder, "allocations"), encoding="ascii") as file:
            count = int(file.read())
        for refused in range(1, count + 1, every):
            ended = outcome(program, given, folder, refused, posts)
            if ended in counts:
                counts[ended] += 1
            else:
                wrong += 1
                print(f"allocation {refused}: {ended}", flush=True)
    print(f"some {count} allocations, one in {every} refused: {counts['lacking']} runs ended with status 6, {counts['unstarted']} with status 8, {counts['unopened']} with status 7, {counts['whole']} as with all memory, {wrong} otherwise")
    return 1 if wrong else 0


if __name__ == "__main__":
    words = sys.argv[1:]
    sys.exit(main(words[0] if words else PROGRAM, int(words[1]) if len(words) > 1 else 97, int(words[2]) if len(words) > 2 else 5))
