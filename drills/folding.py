#!/usr/bin/env python3
"""Asks a guestbook that folds by itself (`keep`) far more often than a log has room for: each request is to be answered, and none may wait
long because of a fold. After each tenth of them it tells how long they waited and how much memory the service has; that grows by
what is kept of each request, and by nothing else. In the end a request far behind the line is too old to be undone, and the last one isn't.

    drills/folding.py [PROGRAM [REQUESTS [CLIENTS [KEEP]]]]

More than twice KEEP requests are to be asked.
"""
import itertools
import json
import multiprocessing
import sys
import tempfile
import time

from served import PROGRAM, TOP, Served, exchange, request, told

PARTS = 10
# how many keys the requests put, and how long one may wait, in seconds
KEYS, LONG = 5000, 0.05


def sent(place):
    """Every second request signs, the others read."""
    if place % 2:
        return request("POST", "/sign/tuesday", f"text {place}".encode(), Aire_Who=f"k{place % KEYS}")
    return request("GET", "/count/monday")


def times(port, places):
    """How long each of these requests waited for its whole reply, in seconds, and how many replies were no 200."""
    waited, other = [], 0
    for place in places:
        begun = time.monotonic()
        other += told(exchange(port, sent(place))) != (200, None)
        waited.append(time.monotonic() - begun)
    return waited, other


def ask_all(port, pool, clients, first, count):
    """The same of so many requests, which the clients ask beside one another."""
    found = pool.starmap(times, [(port, range(first + client, first + count, clients)) for client in range(clients)])
    return sorted(itertools.chain(*(it[0] for it in found))), sum(it[1] for it in found)


def judge(served, requests, keep):
    """What isn't as it has to be once so many were asked."""
    faults = []
    for number, wanted in ((requests - 2 * keep, 409), (requests, 200)):
        status, reply = served.ask("guestbook", "cancel", {"id": number, "token": f"no-{number}"})
        if status != wanted:
            faults.append(f"the order to cancel {number}: {status} {reply}")
    for _ in range(100):
        verdict = served.ask("guestbook", "audit")[1].get("text")
        if verdict == "legal\n":
            return faults
        time.sleep(0.2)
    return [*faults, f"the audit says {verdict!r}"]


def main(program, requests, clients, keep):
    with open(f"{TOP}/examples/guestbook.json", encoding="utf-8") as file:
        world = json.load(file)
    world["services"][0]["keep"] = keep
    long, other, part = 0, 0, requests // PARTS
    with tempfile.TemporaryDirectory() as folder, multiprocessing.Pool(clients) as pool:
        served = Served(program, world, folder)
        try:
            port, before = served.ports["guestbook"], served.memory()
            for turn in range(PARTS):
                waited, more = ask_all(port, pool, clients, turn * part, part)
                now = served.memory()
                middle, late = waited[len(waited) // 2], waited[len(waited) * 99 // 100]
                print(f"{(turn + 1) * part} requests: {1000 * middle:.1f} ms in the middle, {1000 * late:.1f} ms at the 99th percentile, {1000 * waited[-1]:.1f} ms at most; {now / 1e6:.1f} MB, {(now - before) / part:.0f} bytes more a request", flush=True)
                long, other, before = long + sum(it > LONG for it in waited), other + more, now
            faults = judge(served, PARTS * part, keep)
            status, out = served.stop()
        finally:
            served.kill()
    if (status, out) != (0, f"guestbook receipts {PARTS * part}\nlegal\n"):
        faults.append(f"it ended with status {status} and {out!r}")
    print(*faults, sep="\n", end="\n" if faults else "")
    print(f"{other} of {PARTS * part} replies were no 200, {long} came after more than {1000 * LONG:.0f} ms; {len(faults)} faults")
    return 1 if faults or other else 0


if __name__ == "__main__":
    words = sys.argv[1:] + [PROGRAM, "1000000", "4", "1000"][len(sys.argv) - 1:]
    sys.exit(main(words[0], *map(int, words[1:])))
