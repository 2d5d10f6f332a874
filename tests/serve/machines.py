"""Machines that are network namespaces on one switch, for tests/serve/run: each has an address, and processes of its own."""

import contextlib
import ctypes
import http.client
import os
import subprocess
import threading
import time
from pathlib import Path

from host import Broken

NEW_NET = 0x40000000
TIME_LIMIT = 90


def ip(*words):
    ended = subprocess.run(["ip", *words], stdin=subprocess.DEVNULL, capture_output=True, encoding="utf-8")
    if ended.returncode:
        raise Broken(f"ip {' '.join(words)}: {ended.stderr}")


class Switch:
    """A namespace with a bridge, and the machines on it, which all end behind the block."""

    def __init__(self, part):
        self.part, self.name, self.machines = part, f"docs{os.getpid()}switch", []

    def __enter__(self):
        ip("netns", "add", self.name)
        ip("-n", self.name, "link", "add", "bridge", "type", "bridge")
        ip("-n", self.name, "link", "set", "bridge", "up")
        return self

    def __exit__(self, *_):
        for machine in self.machines:
            machine.end()
        for name in [*(machine.space for machine in self.machines), self.name]:
            with contextlib.suppress(Broken):
                ip("netns", "delete", name)

    def machine(self, name, address):
        machine = Machine(self, name, address)
        self.machines.append(machine)
        machine.make()
        return machine


class Machine:
    def __init__(self, switch, name, address):
        self.switch, self.name, self.address, self.processes = switch, name, address, []
        self.space, self.room = f"docs{os.getpid()}{name}", switch.part.room / name

    def make(self):
        self.room.mkdir()
        self.room.chmod(0o755)
        ip("netns", "add", self.space)
        ip("-n", self.switch.name, "link", "add", self.name, "type", "veth", "peer", "name", "eth0", "netns", self.space)
        ip("-n", self.switch.name, "link", "set", self.name, "master", "bridge", "up")
        ip("-n", self.space, "addr", "add", f"{self.address}/24", "dev", "eth0")
        for device in ("eth0", "lo"):
            ip("-n", self.space, "link", "set", device, "up")

    def unplug(self):
        """The machine is gone for all others."""
        ip("-n", self.switch.name, "link", "set", self.name, "down")

    def plug(self):
        ip("-n", self.switch.name, "link", "set", self.name, "up")

    def words(self, *words):
        return ["ip", "netns", "exec", self.space, *words]

    def run(self, *words, stdin=""):
        return subprocess.run(self.words(*words), input=stdin, capture_output=True, encoding="utf-8", timeout=TIME_LIMIT)

    def begin(self, *words):
        """A process of the machine, whose lines go to a file that is named for it."""
        with open(self.room / f"{Path(words[0]).name}.log", "ab") as told:
            given = {**os.environ, "HOME": str(self.room)}
            process = subprocess.Popen(self.words(*words), stdin=subprocess.DEVNULL, stdout=told, stderr=told, env=given)
        self.processes.append(process)
        return process

    def told(self, name):
        return (self.room / f"{name}.log").read_text(errors="replace")

    def end(self):
        for process in self.processes:
            process.terminate()
        for process in self.processes:
            try:
                process.wait(10)
            except subprocess.TimeoutExpired:
                process.kill()
                process.wait()


def within(machine, work):
    """Does work in a thread that is on the machine, with all threads and processes that it begins; raises what it raised."""
    wrong = []

    def enter():
        with open(f"/run/netns/{machine.space}", "rb") as space:
            if ctypes.CDLL(None, use_errno=True).setns(space.fileno(), NEW_NET):
                wrong.append(Broken(f"setns: {os.strerror(ctypes.get_errno())}"))
                return
        try:
            work()
        except (Broken, OSError, subprocess.TimeoutExpired) as error:
            wrong.append(error)

    thread = threading.Thread(target=enter)
    thread.start()
    thread.join()
    if wrong:
        raise wrong[0]


class Reply:
    def __init__(self, status, headers, body):
        self.status, self.headers, self.body = status, headers, body


def fetch(address, host, target="/en/main/index.html", port=80, method="GET", body=None, **shown):
    """The reply to one request; status 0 where none came."""
    connection = http.client.HTTPConnection(address, port, timeout=TIME_LIMIT)
    try:
        lines = {name.replace("_", "-"): value for name, value in shown.items()}
        connection.request(method, target, body, {"Host": host, "Connection": "close", **lines})
        reply = connection.getresponse()
        return Reply(reply.status, reply.headers, reply.read())
    except (OSError, http.client.HTTPException) as error:
        return Reply(0, {}, str(error).encode())
    finally:
        connection.close()


class Reader(threading.Thread):
    """Reads an address again and again until it is ended, and counts the statuses; knows the longest wait."""

    def __init__(self, *asked, pause=0.02, **more):
        super().__init__(daemon=True)
        self.asked, self.more, self.pause = asked, more, pause
        self.statuses, self.longest, self.over = {}, 0, False
        self.start()

    def run(self):
        while not self.over:
            begun = time.monotonic()
            status = fetch(*self.asked, **self.more).status
            self.longest = max(self.longest, time.monotonic() - begun)
            self.statuses[status] = self.statuses.get(status, 0) + 1
            time.sleep(self.pause)

    def ended(self):
        self.over = True
        self.join(TIME_LIMIT)
        return self.statuses


def wait_until(what, seconds=60):
    """How many seconds it took until something held."""
    begun = time.monotonic()
    while not what():
        if time.monotonic() - begun > seconds:
            raise Broken(f"it does not hold after {seconds} seconds")
        time.sleep(0.05)
    return time.monotonic() - begun
