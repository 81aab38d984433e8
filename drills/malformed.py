#!/usr/bin/env python3
"""Sends requests that are no good, drawn by a seed, to the two services of a shop and its bank, and one in fifty that is good: each
is answered by the table of docs/FORMATS.md, or gets no answer where it has none, and the program goes on. In the end it is
told how much memory the program had before and after.

    drills/malformed.py [PROGRAM [COUNT [SEED]]]
"""
import random
import string
import sys
import tempfile
from concurrent.futures import ThreadPoolExecutor

from served import PROGRAM, Served, exchange, request, seal_of, told

LETTERS = string.ascii_letters.encode()
SHOP = 'route PUT "/flag" { put flags "on" = body; reply 200 ""; }\n'
BANK = 'route POST "/pay/*" { put paid path(2) = body; reply 200 ("ok " ++ body); }\n'


def world():
    def service(name, program, secret):
        rules = "allow any any any /\n"
        return {"name": name, "program": program, "rules": rules, "secret": secret, "console": "c", "workers": 4}

    return {"services": [service("shop", SHOP, "s"), service("bank", BANK, "t")]}


def letters(draw, least, most):
    return bytes(draw.choice(LETTERS) for _ in range(draw.randint(least, most)))


def flag(body=b"1", **fields):
    return request("PUT", "/flag", body, **fields)


def with_head(line, *fields):
    return b"\r\n".join([line, *fields]) + b"\r\n\r\n"


# Each is drawn with what it is to be answered: a status and a word, or None for none.
def cut_head(draw):
    return letters(draw, 1, 400), None

def cut_body(draw):
    return with_head(b"PUT /flag HTTP/1.1", b"Content-Length: %d" % draw.randint(2, 65536)) + b"1", None

def nothing(_):
    return b"", None

def long_head(draw):
    return b"GET /flag HTTP/1.1\r\nX: " + letters(draw, 1, 1) * draw.randint(16384, 30000), (400, "headlong")

def no_head(draw):
    return letters(draw, 1, 400) + b"\r\n\r\n", (400, "head")

def many_fields(draw):
    return with_head(b"GET /flag HTTP/1.1", *[b"X%d: y" % n for n in range(draw.randint(65, 300))]), (400, "head")

def control_byte(draw):
    return with_head(b"GET /flag HTTP/1.1", b"X: a" + draw.choice([b"\x00", b"\x01", b"\x7f"]) + b"b"), (400, "head")

def no_path(draw):
    target = draw.choice([b"flag", b"http://shop/flag", b"*", b"/fl\xc3\xa4g", b"/" + letters(draw, 1024, 2000)])
    return with_head(b"PUT " + target + b" HTTP/1.1"), (400, "head")

def other_version(draw):
    return with_head(b"GET /flag HTTP/" + draw.choice([b"2.0", b"0.9", b"1.2", b"1", b"x"])), (400, "head")

def other_method(draw):
    method = draw.choice([b"HEAD", b"PATCH", b"OPTIONS", b"get", b"CONNECT", letters(draw, 5, 12)])
    return with_head(method + b" /flag HTTP/1.1"), (501, "method")

def coded(draw):
    coding = draw.choice([b"chunked", b"gzip", b"identity", b""])
    return with_head(b"PUT /flag HTTP/1.1", b"Transfer-Encoding: " + coding) + b"1\r\nx\r\n0\r\n\r\n", (501, "coding")

def ill_length(draw):
    length = draw.choice([b"-1", b"+1", b"1x", b"0x1", b"1 1", b"9" * 20, b"1,1", letters(draw, 1, 9)])
    return with_head(b"PUT /flag HTTP/1.1", b"Content-Length: " + length) + b"1", (400, "length")

def two_lengths(draw):
    n = draw.randint(1, 9)
    return with_head(b"PUT /flag HTTP/1.1", b"Content-Length: %d" % n, b"Content-Length: %d" % (n + 1)) + b"1" * 9, (400, "length")

def long_body(draw):
    n = draw.choice([65537, 65538, 10**6, 10**18, draw.randint(65537, 10**9)])
    return with_head(b"PUT /flag HTTP/1.1", b"Content-Length: %d" % n) + b"1" * draw.randint(0, 70000), (413, "body")

def no_text(draw):
    return flag(letters(draw, 0, 99) + draw.choice([b"\xff", b"\xc3", b"\xed\xa0\x80", b"\xf5"])), (400, "text")

def no_kind(draw):
    path = "/aire/" + draw.choice(["response", "repair/1", "console/", "console/logs", "x", "console/audit/1"])
    return request(draw.choice(["POST", "PUT", "GET"]), path), (400, "kind")

def other_method_of_a_kind(draw):
    path = draw.choice(["/aire/repair", "/aire/notify", "/aire/fetch", "/aire/console/stop", "/aire/console/log"])
    return request(draw.choice(["GET", "PUT", "DELETE"]), path, b"{}"), (400, "kind")

def ill_user(draw):
    return flag(Aire_Who=draw.choice(["a b", "x" * 65, ""])), (400, "bad")

def two_users(_):
    return with_head(b"PUT /flag HTTP/1.1", b"Aire-Who: ann", b"Aire-Who: ann", b"Content-Length: 0"), (400, "bad")

def call_without_fields(draw):
    return flag(Aire_Response_Id=f"bank/{draw.randint(1, 9)}"), (400, "missing")

def operator_without_fields(draw):
    return request("POST", "/aire/console/" + draw.choice(["stop", "log", "cancel"]), b"{}"), (400, "missing")

def repair_without_fields(draw):
    return request("POST", draw.choice(["/aire/repair", "/aire/notify", "/aire/fetch"])), (400, "missing")

def unsealed_stop(draw):
    seal = draw.choice(["0" * 64, seal_of(b"s", b"POST /aire/console/stop\nAire-Dest: shop\nAire-Who: root\n\n{}")])
    return request("POST", "/aire/console/stop", b"{}", Aire_Dest="shop", Aire_Who="root", Aire_Seal=seal), (403, "seal")

def ill_seal(draw):
    return request("POST", "/aire/console/stop", b"{}", Aire_Dest="shop", Aire_Who="root", Aire_Seal=draw.choice(["x", "0" * 63, "A" * 64])), (400, "bad")

def stop_of_another(draw):
    return request("POST", "/aire/console/stop", b"{}", Aire_Dest=draw.choice(["bank", "no"]), Aire_Who="root", Aire_Seal="0" * 64), (400, "bad")

def unsealed_call(draw):
    fields = {
        "Aire_From": "bank", "Aire_Dest": "shop", "Aire_Response_Id": f"bank/{draw.randint(1, 9)}",
        "Aire_Notifier_URL": "http://127.0.0.1:1/aire/notify", "Aire_Who": "ann", "Aire_Chain": "bank",
    }
    return flag(**fields, Aire_Seal=draw.choice(["0" * 64, "f" * 64])), (403, "seal")


DRAWN = [
    cut_head, cut_body, nothing, long_head, no_head, many_fields, control_byte, no_path, other_version, other_method, coded, ill_length,
    two_lengths, long_body, no_text, no_kind, other_method_of_a_kind, ill_user, two_users, call_without_fields, operator_without_fields,
    repair_without_fields, unsealed_stop, ill_seal, stop_of_another, unsealed_call,
]


def drawn(seed, place):
    draw = random.Random(f"{seed} {place}")
    if place % 50 == 0:
        return "good", flag(), (200, None)
    made = draw.choice(DRAWN)
    return (made.__name__, *made(draw))


def main(program, count, seed):
    faults = {}

    def send(place):
        name, sent, wanted = drawn(seed, place)
        try:
            found = told(exchange(port, sent))
        except (OSError, ValueError, UnicodeDecodeError) as fault:
            found = repr(fault)
        if found != wanted:
            faults.setdefault(name, (place, found, wanted))

    with tempfile.TemporaryDirectory() as folder:
        served = Served(program, world(), folder)
        try:
            port = served.ports["shop"]
            with ThreadPoolExecutor(8) as senders:
                warm = count // 10
                list(senders.map(send, range(warm)))
                before = served.memory()
                list(senders.map(send, range(warm, count)))
                after = served.memory()
            status, out = served.stop()
        finally:
            served.kill()
    for name, (place, found, wanted) in sorted(faults.items()):
        print(f"{name}, request {place}: {found}, and not {wanted}")
    good = len(range(0, count, 50))
    if (status, out) != (0, f"shop receipts {good}\nbank receipts 0\nlegal\n"):
        faults["end"] = None
        print(f"it ended with status {status} and {out!r}")
    print(f"{count} requests, {good} of them good, {len(faults)} kinds with a fault; memory {before:,} bytes after a tenth, {after:,} in the end")
    return 1 if faults else 0


if __name__ == "__main__":
    words = sys.argv[1:]
    sys.exit(main(words[0] if words else PROGRAM, int(words[1]) if len(words) > 1 else 10_000, words[2] if len(words) > 2 else "1"))
