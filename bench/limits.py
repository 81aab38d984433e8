#!/usr/bin/env python3
"""Takes the program to its limits by scripts and world files, and tells of each whether it stands where the documents say.

    bench/limits.py [PROGRAM]

100,000 requests to one service, the next of which is refused; a body of 65,536 bytes, and one more; a journal's weight; sixteen services,
and one more; 10,000 programs, and one more. Its status is 1 where one is elsewhere. It takes some seconds, and needs the program built.
"""
import json
import os
import subprocess
import sys
import tempfile

HERE = os.path.dirname(os.path.abspath(__file__))
PROGRAM = os.path.join(HERE, "..", "crates", "aire", "out", "aire")
NOTES = 'route PUT "/n/*" { put notes path(2) = body; reply 200 ""; }'


def ran(program, world, script):
    """The status and the lines of a run; `world` is a word, or the value of a world file."""
    with tempfile.TemporaryDirectory() as folder:
        if not isinstance(world, str):
            value, world = world, os.path.join(folder, "world.json")
            with open(world, "w", encoding="utf-8") as file:
                json.dump(value, file)
        ended = subprocess.run([program, "run", world, "-"], input=script.encode(), stdout=subprocess.PIPE, check=False)
    return ended.returncode, ended.stdout.decode().splitlines()


def world_of(count, **more):
    """A world file's value with so many services."""
    services = []
    for number in range(count):
        services.append({
            "name": f"s{number}", "program": NOTES, "rules": "allow any any any /\n", "secret": "s", "console": "c",
            "door": f"127.0.0.1:{9000 + number}", "workers": 1, **more,
        })
    return {"services": services}


def puts(service, count, body="x"):
    return "".join(f"ask {service} ann PUT /n/k{number % 1000} {body}\n" for number in range(count))


def entries(program):
    told = ran(program, "@notes", puts("notes", 100_001) + "audit\n")
    return told[0] == 0 and len(told[1]) == 100_002 and told[1][-3:] == ["notes/100000 = 200", "notes refused full 100000", "legal"]


def entries_that_orders_make(program):
    order = "create notes t ann - - ann PUT /n/z y\n"
    told = ran(program, "@notes", puts("notes", 99_999) + order + order.replace(" t ", " u "))
    return told[0] == 0 and told[1][-2:] == ["notes ordered t notes/100000 rule 1", "notes refused full 100000"]


def bodies(program):
    long = ran(program, "@notes", puts("notes", 1, "x" * 65_536))
    longer = ran(program, "@notes", puts("notes", 1, "x" * 65_537))
    return long == (0, ["notes/1 = 200"]) and longer == (3, ["script refused line 1 number 3"])


def weights(program):
    # Such a request weighs 137: a row of 64 with the 5 bytes of its path, 1 of its body and 3 of its user, and a row of 64
    # for its answer.
    told = ran(program, world_of(1, weight=1000), puts("s0", 1) * 9)
    lines = [f"s0/{number} = 200" for number in range(1, 9)] + ["s0 refused full 1096"]
    return told == (0, lines)


def services(program):
    told = ran(program, world_of(16), puts("s15", 1) + "audit\n")
    return told == (0, ["s15/1 = 200", "legal"]) and ran(program, world_of(17), "") == (3, ["world refused 5"])


def programs(program):
    deploys = "".join(f"deploy s0 t{number} ann\n" for number in range(2, 10_001))
    more = "deploy s0 t ann\ncorrect s0 1 t ann\nrehearse s0 1 ann\ncorrect s0 10001 t ann\nrules s0 t ann allow any any any /\ndeploy s0 t10000 ann\n"
    told = ran(program, world_of(1), deploys + more)
    wanted = ["s0 refused full 10000"] * 3 + ["s0 refused nosuchprogram 10001", "s0 ordered t rules rule 1", "s0 ordered t10000 program:10000 rule 1"]
    return told[0] == 0 and told[1][-7:] == ["s0 ordered t10000 program:10000 rule 1", *wanted]


def main(program):
    missed = 0
    for limit in (entries, entries_that_orders_make, bodies, weights, services, programs):
        is_there = limit(program)
        missed += not is_there
        print(f"{limit.__name__.replace('_', ' ')}: {'as documented' if is_there else 'ELSEWHERE'}", flush=True)
    return 1 if missed else 0


if __name__ == "__main__":
    sys.exit(main(sys.argv[1] if len(sys.argv) > 1 else PROGRAM))
