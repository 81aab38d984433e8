#!/usr/bin/env python3
"""Opens connections to a served guestbook that send nothing, or half a head, and asks beside them: each request is to be answered,
and how long they waited is told beside the same with no such connection.

    drills/silent.py [PROGRAM [CONNECTIONS [REQUESTS]]]
"""
import json
import socket
import sys
import tempfile
import time

from served import PROGRAM, TOP, Served, allow_files, exchange, request, told


def times(port, count):
    """How long each of so many requests waited for its whole reply, in seconds, and how many replies were no 200."""
    waited, other = [], 0
    for _ in range(count):
        begun = time.monotonic()
        other += told(exchange(port, request("GET", "/count/monday"))) != (200, None)
        waited.append(time.monotonic() - begun)
    return sorted(waited), other


def say(what, waited):
    middle, late = waited[len(waited) // 2], waited[len(waited) * 99 // 100]
    print(f"{what}: {1000 * middle:.1f} ms in the middle, {1000 * late:.1f} ms at the 99th percentile, {1000 * waited[-1]:.1f} ms at most")


def main(program, connections, requests):
    connections = min(connections, allow_files(2 * connections + 100) - 100)
    with open(f"{TOP}/examples/guestbook.json", encoding="utf-8") as file:
        world = json.load(file)
    with tempfile.TemporaryDirectory() as folder:
        served = Served(program, world, folder)
        held = []
        try:
            port = served.ports["guestbook"]
            alone, other = times(port, requests)
            for place in range(connections):
                conn = socket.create_connection(("127.0.0.1", port), timeout=30)
                if place % 2:
                    conn.sendall(b"GET /count/monday HTTP/1.1\r\n")
                held.append(conn)
            beside, more = times(port, requests)
            begun = time.monotonic()
            status, _ = served.stop()
            ended = time.monotonic() - begun
        finally:
            served.kill()
            for conn in held:
                conn.close()
    say("alone", alone)
    say(f"beside {connections} that are silent", beside)
    print(f"{other + more} of {2 * requests} replies were no 200; status {status}, {ended:.2f} s from the stop to the end")
    return 1 if other + more or status else 0


if __name__ == "__main__":
    words = sys.argv[1:]
    sys.exit(main(words[0] if words else PROGRAM, int(words[1]) if len(words) > 1 else 1000, int(words[2]) if len(words) > 2 else 500))
