"""A world that `aire serve` serves for a drill: its ports, what is asked of it as bytes, what its operators send, and its end."""
import hashlib
import hmac
import json
import os
import resource
import socket
import subprocess

TOP = os.path.dirname(os.path.dirname(os.path.abspath(__file__)))
PROGRAM = f"{TOP}/crates/aire/out/aire"
PATIENCE = 30
# Receipts are compared with journals after a stop, which takes long where there are many.
PATIENCE_AT_END = 600


def allow_files(count):
    """Lets this process, and those that it starts, have this many files and connections open, or as many as the system allows."""
    _, most = resource.getrlimit(resource.RLIMIT_NOFILE)
    wanted = count if most == resource.RLIM_INFINITY else min(count, most)
    resource.setrlimit(resource.RLIMIT_NOFILE, (wanted, most))
    return wanted


def free_ports(count):
    held = [socket.socket() for _ in range(count)]
    try:
        for it in held:
            it.bind(("127.0.0.1", 0))
        return [it.getsockname()[1] for it in held]
    finally:
        for it in held:
            it.close()


def exchange(port, sent, shut=True, patience=PATIENCE):
    """The bytes that come back of these. With `shut` the side that sends is closed behind them."""
    with socket.create_connection(("127.0.0.1", port), timeout=patience) as conn:
        try:
            conn.sendall(sent)
            if shut:
                conn.shutdown(socket.SHUT_WR)
        except (BrokenPipeError, ConnectionResetError):
            pass  # It was answered before all was sent.
        got = b""
        while True:
            more = conn.recv(65536)
            if not more:
                return got
            got += more


def told(reply):
    """The status of a reply and its `Aire-Refused` or None, or None of no reply."""
    if not reply:
        return None
    head = reply.split(b"\r\n\r\n", 1)[0].decode().split("\r\n")
    fields = dict(line.split(": ", 1) for line in head[1:])
    return int(head[0].split(" ")[1]), fields.get("Aire-Refused")


def body_of(reply):
    return reply.split(b"\r\n\r\n", 1)[1]


def request(method, path, body=b"", **fields):
    head = f"{method} {path} HTTP/1.1\r\nHost: here\r\n"
    head += "".join(f"{name.replace('_', '-')}: {it}\r\n" for name, it in fields.items())
    return head.encode() + b"Content-Length: %d\r\n\r\n" % len(body) + body


def seal_of(secret, sealed):
    return hmac.new(secret, sealed, hashlib.sha256).hexdigest()


def console(service, secret, word, body=b"{}", who="root"):
    """An operator's request as bytes."""
    path = f"/aire/console/{word}"
    sealed = f"POST {path}\nAire-Dest: {service}\nAire-Who: {who}\n\n".encode() + body
    return request("POST", path, body, Aire_Dest=service, Aire_Who=who, Aire_Seal=seal_of(secret, sealed))


class Served:
    """The services of a world that a program serves, from when all listen until they are stopped."""

    def __init__(self, program, world, folder, environment=None):
        """`world` is a world file's value; its doors get free ports."""
        self.services = world["services"]
        self.ports = {}
        for service, port in zip(self.services, free_ports(len(self.services))):
            service["door"] = f"127.0.0.1:{port}"
            self.ports[service["name"]] = port
        path = f"{folder}/world.json"
        with open(path, "w", encoding="utf-8") as file:
            json.dump(world, file)
        self.running = subprocess.Popen(
            [program, "serve", path], stdout=subprocess.PIPE, stderr=subprocess.PIPE, text=True, env=environment
        )
        for _ in self.services:
            line = self.running.stderr.readline()
            if " listens at " not in line:
                raise SystemExit(f"it doesn't listen: {line!r}{self.running.stderr.read()!r}")

    def memory(self):
        """How many bytes of memory the program has."""
        with open(f"/proc/{self.running.pid}/statm", encoding="ascii") as file:
            return int(file.read().split()[1]) * resource.getpagesize()

    def ask(self, name, word, fields=None, who="root"):
        """The status and the JSON of what an operator's request is replied, or None and {} where the connection was closed without a reply."""
        secret = next(it["console"] for it in self.services if it["name"] == name).encode()
        sent = console(name, secret, word, json.dumps(fields or {}).encode(), who)
        reply = exchange(self.ports[name], sent, shut=False)
        return (told(reply)[0], json.loads(body_of(reply))) if reply else (None, {})

    def stop(self):
        """The status and the output, once an operator has stopped it."""
        self.ask(self.services[0]["name"], "stop")
        out, _ = self.running.communicate(timeout=PATIENCE_AT_END)
        return self.running.returncode, out

    def kill(self):
        if self.running.poll() is None:
            self.running.kill()
            self.running.wait()
