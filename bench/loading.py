"""Clients and a server in C, nginx, and what a process takes: for bench/serve and bench/calls.

gcc makes what stands in bench/load, in a temporary folder."""

import os
import shutil
import socket
import subprocess
import time
from contextlib import contextmanager
from pathlib import Path
from typing import NamedTuple

from host import Broken
from making import Missing

LOAD = Path(__file__).resolve().parent / "load"

# Seconds for all that a client is told to ask, and for a server until it listens.
LONGEST, PATIENCE = 600, 10


def compiled(room, name):
    """A program of bench/load."""
    if not shutil.which("gcc"):
        raise Missing("there is no gcc, which makes the clients")
    program = room / name
    subprocess.run(["gcc", "-O2", "-Wall", "-o", program, LOAD / f"{name}.c"], check=True)
    return program


# ---- clients


class Span(NamedTuple):
    """When a client began and ended, and the longest that a request took, in seconds; and how many requests it made."""

    begun: float
    ended: float
    done: int
    longest: float


def get_request(target, host):
    return f"GET {target} HTTP/1.1\r\nHost: {host}\r\nConnection: close\r\n\r\n".encode()


def write_requests(path, requests):
    """Writes a file of requests for clients; gives its path."""
    with open(path, "wb") as out:
        for request in requests:
            out.write(b"%d\n" % len(request) + request)
    return path


class Asking(NamedTuple):
    """What clients ask for: a file of requests, and what each reply has to be. A size of -1 is any."""

    requests: Path
    status: int = 200
    size: int = -1


class Client:
    """A client that asks one server so often; with a seed at random, and with a count of 0 until it is ended."""

    def __init__(self, program, port, asking, count, seed=0):
        words = [program, port, count, seed, asking.requests, asking.status, asking.size]
        pipe = subprocess.PIPE
        self.process = subprocess.Popen([str(word) for word in words], stdin=pipe, stdout=pipe, stderr=pipe, encoding="utf-8")
        if self.process.stdout.readline() != "ready\n":
            raise Broken(self.process.communicate()[1])

    def begin(self):
        self.process.stdin.write("\n")
        self.process.stdin.flush()
        return self

    def end(self):
        """Waits until it has asked so often; gives its span."""
        told, wrong = self.process.communicate(timeout=LONGEST)
        if self.process.returncode:
            raise Broken(wrong)
        begun, ended, done, longest = (int(word) for word in told.split())
        return Span(begun / 1e9, ended / 1e9, done, longest / 1e9)


def rate(program, port, asking, count, clients=1, is_random=False):
    """Requests a second by so many clients at once, which share the count."""
    several = [Client(program, port, asking, count // clients, number + 1 if is_random else 0) for number in range(clients)]
    for it in several:
        it.begin()
    spans = [it.end() for it in several]
    return sum(it.done for it in spans) / (max(it.ended for it in spans) - min(it.begun for it in spans))


# ---- processes


def told_of(pid, name):
    """A line of what the system tells of a process, in MB."""
    for line in Path(f"/proc/{pid}/status").read_text().splitlines():
        if line.startswith(name + ":"):
            return int(line.split()[1]) * 1024 / 1e6
    return 0


def resident(pids):
    return sum(told_of(pid, "VmRSS") for pid in pids)


def most_resident(pids):
    """The most since `forget_most`, or since they began."""
    return sum(told_of(pid, "VmHWM") for pid in pids)


def forget_most(pids):
    for pid in pids:
        Path(f"/proc/{pid}/clear_refs").write_text("5")


def spent(pids):
    """Seconds of processor time of processes with one thread each."""
    return sum(int(Path(f"/proc/{pid}/schedstat").read_text().split()[0]) for pid in pids) / 1e9


# ---- other servers


@contextmanager
def other_server(words, port):
    """A server that is not ours, from when it listens on the port; gives its process's number."""
    process = subprocess.Popen([str(word) for word in words], stdin=subprocess.PIPE, stdout=subprocess.DEVNULL)
    try:
        wait_for(process, port)
        yield process.pid
    finally:
        process.terminate()
        process.wait(PATIENCE)
        process.stdin.close()


def wait_for(process, port):
    end = time.monotonic() + PATIENCE
    while True:
        try:
            return socket.create_connection(("127.0.0.1", port)).close()
        except OSError:
            if process.poll() is not None or time.monotonic() > end:
                raise Broken(f"{process.args[0]} does not listen") from None
            time.sleep(0.05)


@contextmanager
def nginx(room, port, what):
    """nginx with one worker, whose number it gives; `what` says what it does with a request."""
    conf, log = room / f"nginx-{port}.conf", room / "nginx.log"
    temp = " ".join(f"{kind}_temp_path {room}/{kind}-{port};" for kind in ("client_body", "proxy", "fastcgi", "uwsgi", "scgi"))
    user = "user root;" if os.getuid() == 0 else ""
    conf.write_text(
        f"""{user} worker_processes 1; daemon off; pid {room}/nginx-{port}.pid; error_log {log};
events {{ worker_connections 512; }}
http {{ access_log off; sendfile on; tcp_nopush on; {temp} client_max_body_size 4m; types {{ text/html html; }}
  server {{ listen 127.0.0.1:{port}; location / {{ {what} }} }} }}
"""
    )
    with other_server(["nginx", "-e", log, "-c", conf], port) as master:
        [worker] = Path(f"/proc/{master}/task/{master}/children").read_text().split()
        yield int(worker)
