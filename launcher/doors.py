"""Tells by its status whether the services of a world file listen on loopback alone: 0 if so, 1 if not, and then by a line
which doesn't, and 2 if the file isn't JSON.

    launcher/doors.py WORLD
"""
import ipaddress
import json
import os
import sys


def is_loopback(door):
    host, _, _ = str(door).rpartition(":")
    try:
        return ipaddress.ip_address(host[1:-1] if host.startswith("[") else host).is_loopback
    except ValueError:
        # a name, which may stand for any address
        return False


def main(path):
    others = []

    def note(pairs):
        # each door of an object that names one twice
        service = dict(pairs)
        others.extend((service.get("name"), door) for field, door in pairs if field == "door" and not is_loopback(door))
        return service

    if not os.path.isfile(path):
        # what is read once can't be read again by the program
        print(f"{path} is no plain file")
        return 1
    try:
        with open(path, encoding="utf-8") as file:
            json.load(file, object_pairs_hook=note)
    except OSError as fault:
        print(f"{path}: {fault.strerror}")
        return 1
    except (ValueError, RecursionError):
        return 2
    if others:
        print("{} is to listen at {}".format(*others[0]))
    return 1 if others else 0


if __name__ == "__main__":
    sys.exit(main(sys.argv[1]))
