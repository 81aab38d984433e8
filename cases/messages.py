"""Messages as bytes, as files of served cases write them: requests and replies, their lengths and their seals."""
import hashlib
import hmac
import json
import re

# The fields of messages between services, in the order in which they are sealed, and those that each kind of message has.
FIELDS = "From Dest Request-Id Response-Id Notifier-URL Repair Version Answer-Version Who Method Path Request-Who Chain Before After Refused"
SET = "From Dest Response-Id Repair Version Who Before After"
KINDS = {
    "/aire/repair": f"{SET} Method Path Request-Who Chain",
    "/aire/notify": "From Dest Request-Id Response-Id Repair Answer-Version Who",
    "/aire/fetch": "From Dest Response-Id Answer-Version",
    "/aire/console/": "Dest Who",
    "/": "From Dest Response-Id Notifier-URL Who Chain",
}
PHRASES = {200: "OK", 202: "Accepted", 400: "Bad Request", 403: "Forbidden", 404: "Not Found", 409: "Conflict", 410: "Gone", 413: "Payload Too Large"}
PHRASES.update({299: "", 501: "Not Implemented", 504: "Gateway Timeout", 507: "Insufficient Storage", 508: "Loop Detected"})
# Words of refusals behind which a number stands.
NUMBERED = ("full", "notyet", "gone", "denied", "unknown", "nosuchrequest", "notoutside", "nosuchprogram", "program", "rules", "tooold", "notquiet", "untimely")


class Malformed(Exception):
    """A file that isn't of the form."""


def joined(lines, end):
    """The bytes of lines, each with this end. Those that begin with % have bytes by number and repetitions, and may lack their end."""
    text = bytearray()
    for line in lines:
        if not line.startswith("%"):
            text += line.encode() + end
            continue
        line, times = line[1:], 1
        repeated = re.match(r"repeat (\d+) ", line)
        if repeated:
            line, times = line[repeated.end() :], int(repeated[1])
        ends = not line.endswith("\\")
        odd = re.sub(rb"\\x([0-9a-f]{2})", lambda made: bytes([int(made[1], 16)]), (line if ends else line[:-1]).encode())
        text += odd * times + (end if ends else b"")
    return bytes(text)


def parted(lines):
    """The lines of a head, and the bytes of the body, None where the head isn't whole."""
    if "" not in lines:
        return lines, None
    at = lines.index("")
    body = joined(lines[at + 1 :], b"\n")
    whole = lines[at + 1 :] and not (lines[-1].startswith("%") and lines[-1].endswith("\\"))
    return lines[:at], body[:-1] if whole else body


def fields_of(head):
    """The first line of a head, and its fields; of two the first counts."""
    lines = joined(head, b"\n").decode("utf-8", "replace").split("\n")
    return lines[0], dict(reversed([line.split(": ", 1) for line in lines[1:] if ": " in line]))


def seal_of(secret, first, names, fields, body):
    told = [f"Aire-{name}: {fields[f'Aire-{name}']}\n" for name in FIELDS.split() if name in names and f"Aire-{name}" in fields]
    sealed = f"{first}\n{''.join(told)}\n".encode() + body
    return hmac.new(secret.encode(), sealed, hashlib.sha256).hexdigest()


def request_seal(world, head, body):
    """The seal of a request: by the console's secret of the service that it is for, or by that of its sender."""
    line, fields = fields_of(head)
    first, path = line.rpartition(" ")[0], line.split(" ")[1]
    names = next(KINDS[prefix] for prefix in KINDS if path.startswith(prefix)).split()
    if fields.get("Aire-Repair") == "delete":
        names = SET.split()
    if path.startswith("/aire/console/"):
        secret = world.service(fields["Aire-Dest"])["console"]
    else:
        secret = world.service(fields["Aire-From"])["secret"]
    return seal_of(secret, first, names, fields, body)


def request_of(world, lines, swaps):
    """The bytes of a request. `*` stands for its length and for its seal."""
    text = "\n".join(lines)
    for swap in swaps:
        old, _, new = swap.replace("|", "\n").partition(" => ")
        if old not in text:
            raise Malformed(f"`{old}` isn't in the request")
        text = text.replace(old, "" if new == "gone" else new, 1)
    head, body = parted(world.with_doors(text).split("\n"))
    if "Content-Length: *" in head:
        head[head.index("Content-Length: *")] = f"Content-Length: {len(body)}"
    if "Aire-Seal: *" in head:
        head[head.index("Aire-Seal: *")] = f"Aire-Seal: {request_seal(world, head, body or b'')}"
    return joined(head, b"\r\n") + (b"" if body is None else b"\r\n" + body)


def reply_of(world, lines, came):
    """The bytes that are wanted. `*` stands for the length, for the seal, and in other fields for what came there."""
    head, body = parted([world.with_doors(line) for line in lines])
    body = body or b""
    _, fields = fields_of(came.partition(b"\r\n\r\n")[0].decode("utf-8", "replace").split("\r\n"))
    for i, line in enumerate(head):
        name, _, value = line.partition(": ")
        if line == "Content-Length: *":
            head[i] = f"{name}: {len(body)}"
        elif value == "*" and name != "Aire-Seal":
            head[i] = f"{name}: {fields.get(name, '*')}"
    if "Aire-Seal: *" in head:
        first, told = fields_of(head)
        seal = seal_of(world.service(told["Aire-From"])["secret"], re.search(r" (\d+)", first)[1], FIELDS.split(), told, body)
        head[head.index("Aire-Seal: *")] = f"Aire-Seal: {seal}"
    return joined(head, b"\r\n") + b"\r\n" + body


def reply_lines(status, fields, kind, body):
    """A reply as a service writes it."""
    lines = [f"HTTP/1.1 {status} {PHRASES[status]}", *fields, f"Content-Type: {kind}", f"Content-Length: {len(body.encode())}", "Connection: close", ""]
    return lines + body.split("\n")


def plain_reply(status, field, body=""):
    return reply_lines(status, [field], "text/plain; charset=utf-8", body)


def console_reply(status, body):
    """What an operator is replied. A refusal's word stands beside its JSON."""
    told, fields = json.loads(body), []
    if "refused" in told:
        number = f" {told['number']}" if told["refused"] in NUMBERED else ""
        fields = [f"Aire-Refused: {told['refused']}{number}"]
    return reply_lines(status, fields, "application/json", body)
