"""Clients that say nothing, take nothing, or send a byte a second: the part `slow` of tests/serve/run.

The next client waits ten seconds behind one of them, and a minute at most; the log tells of each."""

import socket
import threading
import time

import host as hosts
from host import make
from parts import HOST, KEY


def slow(part):
    store = part.path("slow.docs")
    make(part.program, store, f"new-project {HOST} en main public {KEY}", f"push {HOST} {KEY} k0 branch main")
    with part.serve(store, 100, "--log") as server:
        page = {"path": "a", "type": "text/plain", "text": "x" * 1048576}
        pages = [{**page, "path": name} for name in "abc"]
        server.post("/_/upload", HOST, KEY, {"key": "u", "language": "en", "version": "main", "pages": pages})
        with socket.create_connection(("127.0.0.1", server.port)):
            begun = time.monotonic()
            part.same("a request behind a client that says nothing", server.get("/", HOST)[0], 302)
            part.check("it waits ten seconds", 9 < time.monotonic() - begun < 13, time.monotonic() - begun)
        with socket.socket() as deaf:
            deaf.setsockopt(socket.SOL_SOCKET, socket.SO_RCVBUF, 4096)
            deaf.connect(("127.0.0.1", server.port))
            deaf.sendall(hosts.get_bytes("/en/main/a", HOST))
            begun = time.monotonic()
            part.same("a request behind a client that takes nothing", server.get("/", HOST)[0], 302)
            part.check("it waits some ten seconds", time.monotonic() - begun < 25, time.monotonic() - begun)
        with socket.create_connection(("127.0.0.1", server.port)) as drip:
            threading.Thread(target=drops, args=(drip,), daemon=True).start()
            begun = time.monotonic()
            part.same("a request behind a client that sends a byte a second", server.get("/", HOST)[0], 302)
            part.check("it waits a minute at most", time.monotonic() - begun < 65, time.monotonic() - begun)
        told = [line.split()[0] for line in server.told_at_last().splitlines()[2:]]
        # (where the system's own buffers take the whole page, it counts as sent)
        deaf_one = "200" if told[3:4] == ["200"] else "Write"
        part.same("--log tells of them", told, ["200", "Read", "302", deaf_one, "302", "Read", "302"])


def drops(connection):
    """A head that comes a byte a second."""
    try:
        for place in range(120):
            connection.sendall(b"GET /"[place : place + 1] or b"a")
            time.sleep(1)
    except OSError:
        pass
