"""A proxy between services that are served over loopback: what one sends to another comes to the proxy, which lets it pass, cuts it,
keeps it back or repeats it, as a case says."""
import os
import re
import shutil
import socket
import subprocess
import threading

HERE = os.path.dirname(os.path.abspath(__file__))
WAYS = ("whole", "cut", "unanswered", "twice", "late")


def fields_in(head):
    return dict(line.split(": ", 1) for line in head.decode("utf-8", "replace").split("\r\n")[1:] if ": " in line)


def named(message):
    """The kind of a message, which call it is about and which version, as `fetch shop/1 a2`; or None where it is no message of a repair."""
    head = message.partition(b"\r\n\r\n")[0]
    path, fields = head.split(b" ", 2)[1].decode(), fields_in(head)
    if not path.startswith("/aire/"):
        return None
    version = f"a{fields['Aire-Answer-Version']}" if "Aire-Answer-Version" in fields else f"v{fields.get('Aire-Version')}"
    return f"{path[6:]} {fields.get('Aire-Response-Id')} {version}"


def replied(reply):
    """The status of a reply, and behind it the version that it speaks of, or its refusal: `410 a2`, `404 unknown 4`."""
    head = reply.partition(b"\r\n\r\n")[0]
    fields = fields_in(head)
    told = fields.get("Aire-Refused")
    if not told:
        told = f"a{fields['Aire-Answer-Version']}" if "Aire-Answer-Version" in fields else f"v{fields.get('Aire-Version')}"
    return f"{head.split(b' ', 2)[1].decode()} {told}"


def read_whole(conn):
    """A request's bytes, or None where they ended before it did."""
    got = b""
    while True:
        head, ended, body = got.partition(b"\r\n\r\n")
        if ended and len(body) >= int(fields_in(head).get("Content-Length", 0)):
            return got
        more = conn.recv(65536)
        if not more:
            return None
        got += more


def read_all(conn):
    got = b""
    while more := conn.recv(65536):
        got += more
    return got


def compiler():
    """The words of a compiler: the toolchain's own, else the system's."""
    rt = shutil.which("rt")
    own = rt and os.path.join(os.path.dirname(os.path.realpath(rt)), "../toolchain/bin/clang")
    if own and os.access(own, os.X_OK):
        return [own, "-fuse-ld=lld"]
    found = shutil.which("cc") or shutil.which("clang")
    if not found:
        raise OSError("there is no compiler, which a proxy wants: neither the toolchain's nor cc")
    return [found]


class Proxy:
    """Stands before each service of a world: which messages came through, which were kept back, and how the next ones fare."""

    def __init__(self, folder, patience):
        self.library, self.patience = f"{folder}/detour.so", patience
        self.lock, self.listeners = threading.Lock(), []
        self.ways, self.kept, self.came = {}, {}, {}
        subprocess.run([*compiler(), "-shared", "-fPIC", "-O2", "-nostdlib", "-o", self.library, f"{HERE}/detour.c"], check=True)

    def stand(self, doors):
        """Stands before these doors, each a service's name and its port, and gives the environment of the program that has them."""
        self.close()
        detours = []
        for name, port in doors:
            listener = socket.create_server(("127.0.0.1", 0))
            self.listeners.append(listener)
            detours.append(f"{port}={listener.getsockname()[1]}")
            threading.Thread(target=self.listen, args=(listener, name, port), daemon=True).start()
        return {**os.environ, "LD_PRELOAD": self.library, "DETOURS": ",".join(detours)}

    def listen(self, listener, name, port):
        while True:
            try:
                conn, _ = listener.accept()
            except OSError:
                return
            threading.Thread(target=self.pass_on, args=(conn, name, port), daemon=True).start()

    def way_of(self, name, message):
        """How this message fares, the next that is named so: as the first way that is left for it, and those behind the last as that one."""
        with self.lock:
            ways = self.ways.get((name, message), ["whole"])
            return ways.pop(0) if len(ways) > 1 else ways[0]

    def pass_on(self, conn, name, port):
        with conn:
            try:
                conn.settimeout(self.patience)
                message = read_whole(conn)
                way = self.way_of(name, named(message)) if message else "cut"
                if way == "late":
                    with self.lock:
                        self.kept.setdefault(name, []).append((port, message))
                if way in ("cut", "late"):
                    return
                reply = self.bring(name, port, message)
                if way == "twice":
                    self.bring(name, port, message)
                if way != "unanswered":
                    conn.sendall(reply)
            except OSError:
                pass  # who waits for the reply finds its connection closed

    def bring(self, name, port, message):
        """Brings a message to a service, and gives what is replied."""
        with socket.create_connection(("127.0.0.1", port), timeout=self.patience) as asking:
            asking.sendall(message)
            reply = read_all(asking)
        if reply and (what := named(message)):
            with self.lock:
                self.came.setdefault(name, []).append(f"{what} -> {replied(reply)}")
        return reply

    def set_ways(self, line):
        """Of a line `NAME KIND CALL VERSION WAY..`; whether it is one."""
        made = re.fullmatch(r"(\w+) (\w+ \S+ [av]\d+) (.+)", line)
        if not made or not all(way in WAYS for way in made[3].split(" ")):
            return False
        with self.lock:
            self.ways[(made[1], made[2])] = made[3].split(" ")
        return True

    def has_kept(self, name):
        with self.lock:
            return bool(self.kept.get(name))

    def deliver(self, name):
        """Brings to a service what was kept back from it. The replies go to nobody."""
        with self.lock:
            kept = self.kept.pop(name, [])
        for port, message in kept:
            self.bring(name, port, message)

    def came_to(self, name):
        """Which messages of a repair came to a service, and what was replied."""
        with self.lock:
            return list(self.came.get(name, []))

    def forget(self, name):
        with self.lock:
            self.came[name] = []

    def close(self):
        for listener in self.listeners:
            listener.close()
        self.listeners.clear()
