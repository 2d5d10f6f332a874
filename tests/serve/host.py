"""The program over a file, and its server on 127.0.0.1: for tests/serve/run and bench."""

import contextlib
import json
import os
import select
import signal
import socket
import subprocess
import sys
import threading
import time
from pathlib import Path

sys.path.insert(0, str(Path(__file__).resolve().parent.parent.parent / "tools"))

from checks import BUILT, ROOT, Broken  # noqa: E402, F401

# Seconds for one command, for a server until it listens, and for one reply, which may have to wait a minute.
TIME_LIMIT = 90


def ask(port, data, time_limit=TIME_LIMIT, ends=False):
    """Sends the bytes over a connection of their own, or so many as are taken where the client ends there; gives all that comes back."""
    with socket.create_connection(("127.0.0.1", port), timeout=time_limit) as connection:
        if not ends:
            connection.sendall(data)
            return b"".join(iter(lambda: connection.recv(65536), b""))
        with contextlib.suppress(OSError):
            connection.sendall(data)
            connection.shutdown(socket.SHUT_WR)
        return received(connection)


def received(connection):
    """All that comes over a connection; a reset behind it does not count."""
    pieces = []
    with contextlib.suppress(ConnectionError):
        while piece := connection.recv(65536):
            pieces.append(piece)
    return b"".join(pieces)


def free_port():
    with socket.socket() as one:
        one.bind(("127.0.0.1", 0))
        return one.getsockname()[1]


def get_bytes(target, host):
    return f"GET {target} HTTP/1.1\r\nHost: {host}\r\n\r\n".encode()


def post_bytes(target, host, key, value):
    body = json.dumps(value).encode()
    head = f"POST {target} HTTP/1.1\r\nHost: {host}\r\nDocs-Key: {key}\r\nContent-Length: {len(body)}\r\n\r\n"
    return head.encode() + body


def read_reply(data):
    """The status and the body of a whole reply; None for one that was cut."""
    head, end, body = data.partition(b"\r\n\r\n")
    lines = head.split(b"\r\n")
    lengths = [int(line.split()[1]) for line in lines if line.lower().startswith(b"content-length:")]
    if not end or lengths != [len(body)]:
        return None
    return int(lines[0].split()[1]), body


def message(store, kind, sent):
    """A message to the server of this file, whose name there is its device and its number."""
    about = os.stat(store)
    return f"docs_host 2 {about.st_dev}:{about.st_ino}\n{kind}\n".encode() + sent + b"\xff"


def words_message(store, *words):
    return message(store, "words", "\0".join(words).encode())


class Server:
    """`docs_host serve`, from when it listens, run by the words `under`; the lines of its standard error go to a file."""

    def __init__(self, program, store, count, errors, words=(), before=None, under=(), more=None):
        self.errors = Path(errors)
        start = time.monotonic()
        with open(errors, "wb") as told:
            self.process = subprocess.Popen(
                [*under, program, "serve", "--store", store, "--count", str(count), *words],
                stdin=subprocess.DEVNULL,
                stdout=subprocess.PIPE,
                stderr=told,
                env={**os.environ, **(more or {})},
                preexec_fn=before,
                restore_signals=before is None,
            )
        self.line = self.first_line()
        self.seconds_to_listen = time.monotonic() - start
        word, _, place = self.line.partition(" ")
        if word != "listening" or not place.startswith("127.0.0.1:"):
            self.kill()
            raise Broken(f"serve printed {self.line!r}, and told {self.told()!r}")
        self.port = int(place.removeprefix("127.0.0.1:"))

    def first_line(self):
        line, end = b"", time.monotonic() + TIME_LIMIT
        while not line.endswith(b"\n") and time.monotonic() < end:
            if select.select([self.process.stdout], [], [], 0.5)[0]:
                piece = os.read(self.process.stdout.fileno(), 1)
                if not piece:
                    break
                line += piece
        return line.decode().rstrip("\n")

    def told(self):
        return self.errors.read_text(errors="replace")

    def told_at_last(self):
        """What is told once no more comes: the line of a connection is told after its client has its reply."""
        told, before = self.told(), None
        while told != before:
            time.sleep(0.5)
            told, before = self.told(), told
        return told

    def get(self, target, host):
        return read_reply(ask(self.port, get_bytes(target, host)))

    def post(self, target, host, key, value):
        return read_reply(ask(self.port, post_bytes(target, host, key, value)))

    def kill(self, number=signal.SIGKILL):
        """Ends the server, this process alone, and gives its exit status."""
        if self.process.poll() is None:
            self.process.send_signal(number)
        return self.wait()

    def wait(self):
        status = self.process.wait(TIME_LIMIT)
        self.process.stdout.close()
        return status

    def __enter__(self):
        return self

    def __exit__(self, *_):
        self.kill()


class Pushes(threading.Thread):
    """Pushes tags one after another until a connection fails; knows which were asked for and which were answered.

    As long as `again` is true, a push whose connection fails is asked for again."""

    def __init__(self, server, host, key, first=0, again=False):
        super().__init__(daemon=True)
        self.server, self.host, self.key, self.next, self.again = server, host, key, first, again
        self.asked, self.answered, self.wrong = [], [], None

    def run(self):
        while True:
            name = f"1.0.{self.next}"
            self.next += 1
            self.asked.append(name)
            reply = self.push(name)
            while reply is None and self.again:
                reply = self.push(name)
            if reply is None:
                return
            if reply[0] != 200:
                self.wrong = reply
                return
            self.answered.append(name)

    def push(self, name):
        try:
            return self.server.post("/_/push", self.host, self.key, {"key": "k", "kind": "tag", "ref": name})
        except OSError:
            return None


def versions(server, host):
    """The slugs that /_/versions names."""
    reply = server.get("/_/versions", host)
    if reply is None or reply[0] != 200:
        raise Broken(f"/_/versions: {reply}")
    return {version["slug"] for version in json.loads(reply[1])["versions"]}


def run(program, *words, stdin=""):
    """One run of the program; its input and its outputs are texts."""
    return subprocess.run([program, *words], input=stdin, capture_output=True, encoding="utf-8", timeout=TIME_LIMIT)


def command(program, store, line):
    """A command that has to be done: what it prints."""
    ended = run(program, *line.split(), "--store", store)
    if ended.returncode != 0:
        raise Broken(f"{line}: status {ended.returncode}, {ended.stdout!r}, {ended.stderr!r}")
    return ended.stdout.rstrip("\n")


def make(program, store, *lines):
    """A new file, and commands on it."""
    ended = run(program, "init", store)
    if ended.returncode != 0:
        raise Broken(f"init: status {ended.returncode}, {ended.stderr!r}")
    for line in lines:
        command(program, store, line)
