"""A server that is stopped and goes on, as for a copy of its file: the part `holds` of tests/serve/run.

Nothing is cut: not what comes in pieces, what goes out, what is done beside it, nor what waits; and a hold takes nothing of the count."""

import contextlib
import os
import random
import signal
import socket
import subprocess
import threading
import time
from pathlib import Path

import host as hosts
from host import Broken, get_bytes, make, post_bytes, read_reply
from parts import HOST, KEY

# How often a server is held while four clients ask.
HOLDS, CLIENTS = 300, 4

# Seconds of a hold; and of one that is longer than a read or a write may wait.
SHORT, LONG = 0.003, 11

# Holds of a server that waits: more than the accepts in a row that may fail.
WAITING_HOLDS = 60

# Lines of a script, and of a list.
LINES, RECORDS = 400, 100

LARGE = "".join(random.Random(1).choices("abcdefgh\n", k=1048576))


@contextlib.contextmanager
def held(process):
    """Stops a process for as long as the block runs."""
    process.send_signal(signal.SIGSTOP)
    try:
        until_stopped(process.pid)
        yield
    finally:
        process.send_signal(signal.SIGCONT)


def until_stopped(pid):
    end = time.monotonic() + hosts.TIME_LIMIT
    while Path(f"/proc/{pid}/stat").read_text().rsplit(")", 1)[1].split()[0] != "T":
        if time.monotonic() > end:
            raise Broken("the server does not stop")
        time.sleep(0.0005)


def hold(server, seconds=SHORT, times=1):
    """Stops the server and lets it go on, a few times; what it waits for has begun before, and goes on behind each."""
    for _ in range(times):
        time.sleep(0.01)
        with held(server.process):
            time.sleep(seconds)
    time.sleep(0.01)


class Holding(threading.Thread):
    """Holds a server again and again until it is told to end."""

    def __init__(self, server, most=10**9):
        super().__init__(daemon=True)
        self.server, self.most, self.count, self.ends = server, most, 0, threading.Event()

    def run(self):
        while self.count < self.most and not self.ends.is_set():
            time.sleep(random.uniform(0, 2 * SHORT))
            with held(self.server.process):
                time.sleep(random.uniform(0, 2 * SHORT))
            self.count += 1

    def __enter__(self):
        self.start()
        return self

    def __exit__(self, *_):
        self.ends.set()
        self.join()


def holds(part):
    store = part.path("holds.docs")
    make(part.program, store, f"new-project {HOST} en main public {KEY}", f"push {HOST} {KEY} k0 branch main")
    with part.serve(store, 1000000, "--log") as server:
        stored(part, server)
        halves(part, server)
        slow_reader(part, server)
        uploads(part, server)
        beside(part, server, store)
        long_holds(part, server)
        crowd(part, server)
        told = {line.split()[0] for line in server.told_at_last().splitlines()[1:]}
        part.same("the log tells of whole replies and of orders that are done", told, {"Begins", "200", "Done"})
    waiting(part, store)


def value_of(name, text):
    pages = [{"path": name, "type": "text/plain", "text": text}]
    return {"key": name, "language": "en", "version": "main", "pages": pages}


def stored(part, server):
    for name, text in (("small", "small"), ("large", LARGE)):
        part.same(f"the {name} page is stored", server.post("/_/upload", HOST, KEY, value_of(name, text))[0], 200)


def over_holds(server, connection, data, size, seconds=SHORT, times=1):
    """What comes back to these bytes, which are sent in pieces of this size, with holds behind each."""
    # (a server that cut the request takes no more of it)
    with connection, contextlib.suppress(OSError):
        for place in range(0, len(data), size):
            connection.sendall(data[place : place + size])
            hold(server, seconds, times)
        connection.shutdown(socket.SHUT_WR)
        return hosts.received(connection)
    return b""


def request_over_holds(server, *sent):
    """The status and the body of the whole reply to a request that is sent so; None where it was cut."""
    connection = socket.create_connection(("127.0.0.1", server.port), timeout=hosts.TIME_LIMIT)
    return read_reply(over_holds(server, connection, *sent))


def halves(part, server):
    """A request that comes in pieces."""
    request = get_bytes("/en/main/small", HOST)
    for pieces in (2, 5, len(request)):
        size = -(-len(request) // pieces)
        reply = request_over_holds(server, request, size, SHORT, 3)
        part.same(f"a request in {pieces} pieces, with three holds behind each", reply, (200, b"small"))
    silent = socket.create_connection(("127.0.0.1", server.port), timeout=hosts.TIME_LIMIT)
    hold(server, times=50)
    reply = read_reply(over_holds(server, silent, request, len(request)))
    part.same("a request that begins behind fifty holds", reply, (200, b"small"))


def slow_client(server):
    """A client that has asked for the large page, and takes little of it at a time."""
    connection = socket.socket()
    connection.setsockopt(socket.SOL_SOCKET, socket.SO_RCVBUF, 4096)
    # (by larger segments the server's system would give it a buffer that takes the whole page)
    connection.setsockopt(socket.IPPROTO_TCP, socket.TCP_MAXSEG, 536)
    connection.settimeout(hosts.TIME_LIMIT)
    connection.connect(("127.0.0.1", server.port))
    connection.sendall(get_bytes("/en/main/large", HOST))
    return connection


def slow_reader(part, server):
    """A large reply, which the client takes in small pieces."""
    pieces = []
    with slow_client(server) as connection, contextlib.suppress(OSError):
        while piece := connection.recv(8192):
            pieces.append(piece)
            if len(pieces) % 4 == 0:
                # (of a write that waits the first hold leaves a part, and the next ones nothing)
                hold(server, times=3)
    reply = read_reply(b"".join(pieces))
    part.check(f"a reply of 1 MiB in {len(pieces)} pieces, read over holds", reply == (200, LARGE.encode()), len(pieces))


def upload(server, name):
    try:
        reply = server.post("/_/upload", HOST, KEY, value_of(name, LARGE))
    except OSError as error:
        return error
    return reply and reply[0]


def uploads(part, server):
    """An upload of which each piece is followed by holds, and a client that sends it without a pause."""
    data = post_bytes("/_/upload", HOST, KEY, value_of("pieces", LARGE))
    reply = request_over_holds(server, data, 50_000, SHORT, 2)
    part.same("an upload in pieces, with two holds behind each", reply and reply[0], 200)
    with Holding(server) as holding:
        replies = [upload(server, f"flow-{number}") for number in range(20)]
    part.same("twenty uploads over holds", replies, [200] * 20)
    part.check("there were holds meanwhile", holding.count > 5, holding.count)
    for name in ("pieces", "flow-0", "flow-19"):
        part.check(f"{name} is stored whole", server.get(f"/en/main/{name}", HOST) == (200, LARGE.encode()), name)


def beside(part, server, store):
    """A command, a script, an import and a list beside the server; and a message that comes in pieces."""
    lines = "".join(f"push {HOST} {KEY} s{number} tag 1.0.{number}\n" for number in range(LINES))
    wanted = "".join(f"made 1.0.{number} inactive shown public\n" for number in range(LINES))
    with Holding(server) as holding:
        asked = [part.program, "script", "--store", store]
        ended = subprocess.run(asked, input=lines, capture_output=True, encoding="utf-8", timeout=hosts.TIME_LIMIT)
    part.same(f"a script of {LINES} lines over holds", (ended.returncode, ended.stdout, ended.stderr), (0, wanted, ""))
    part.check("there were holds meanwhile", holding.count > 5, holding.count)
    place = part.path("redirects.csv")
    Path(place).write_text("".join(f"exact,301,no,/m{number},/n\n" for number in range(RECORDS)))
    with Holding(server):
        for number in range(20):
            made = hosts.run(part.program, "push", HOST, KEY, f"c{number}", "tag", f"2.0.{number}", "--store", store)
            part.same("a command over holds", made.stdout, f"made 2.0.{number} inactive shown public\n")
        ended = hosts.run(part.program, "import", HOST, place, "--store", store)
        part.same("an import over holds", (ended.returncode, ended.stderr), (0, ""))
        for words, count in ((("list-versions", HOST), LINES + 21), (("list-redirects", HOST), RECORDS)):
            ended = hosts.run(part.program, *words, "--store", store)
            part.same(f"{words[0]} over holds", ended.stdout.splitlines()[:1], [f"listed {count}"])
    message_in_pieces(part, server, store)


def message_in_pieces(part, server, store):
    sent = hosts.words_message(store, "push", HOST, KEY, "pieces", "tag", "3.0.0")
    client = socket.socket(socket.AF_UNIX)
    client.settimeout(hosts.TIME_LIMIT)
    client.connect(f"{store}.control")
    answer = over_holds(server, client, sent, 10, SHORT, 3)
    part.same("a message in pieces, with three holds behind each", answer, b"made 3.0.0 inactive shown public\nend 0\n")


def long_holds(part, server):
    """Holds that are longer than a read or a write may wait."""
    request = get_bytes("/en/main/small", HOST)
    reply = request_over_holds(server, request, len(request) // 2 + 1, LONG)
    part.same(f"a request in two pieces, with a hold of {LONG} seconds behind each", reply, (200, b"small"))
    with slow_client(server) as connection:
        hold(server, times=3)
        hold(server, LONG)
        reply = read_reply(hosts.received(connection))
    part.check(f"a reply of 1 MiB over a hold of {LONG} seconds", reply == (200, LARGE.encode()))


class Client(threading.Thread):
    """Asks for one page after another, without a pause, until it is told to end; knows what was not the whole right reply.

    Each request comes in two pieces, so that the server has to wait for the second."""

    def __init__(self, server, replies, ends):
        super().__init__(daemon=True)
        self.server, self.replies, self.ends, self.count, self.wrong = server, replies, ends, 0, []

    def run(self):
        while not self.ends.is_set():
            name, wanted = self.replies[self.count % len(self.replies)]
            try:
                reply = self.ask(get_bytes(f"/en/main/{name}", HOST))
            except OSError as error:
                reply = error
            self.count += 1
            if reply != (200, wanted):
                self.wrong.append((name, str(reply)[:80]))

    def ask(self, request):
        with socket.create_connection(("127.0.0.1", self.server.port), timeout=hosts.TIME_LIMIT) as connection:
            connection.setsockopt(socket.IPPROTO_TCP, socket.TCP_NODELAY, 1)
            connection.sendall(request[:20])
            connection.sendall(request[20:])
            return read_reply(hosts.received(connection))


def crowd(part, server):
    """Clients that ask without a pause, for small pages and large ones."""
    ends, replies = threading.Event(), [("small", b"small")] * 9 + [("large", LARGE.encode())]
    clients = [Client(server, replies, ends) for _ in range(CLIENTS)]
    for client in clients:
        client.start()
    with Holding(server, HOLDS) as holding:
        holding.join(hosts.TIME_LIMIT)
    ends.set()
    for client in clients:
        client.join(hosts.TIME_LIMIT)
    part.same("all holds were made", holding.count, HOLDS)
    count, wrong = sum(it.count for it in clients), [it for client in clients for it in client.wrong]
    print(f"    {count} requests of {CLIENTS} clients over {HOLDS} holds", flush=True)
    part.check("each has its whole reply", count > HOLDS and not wrong, len(wrong), wrong[:5])


def waiting(part, store):
    """Holds of a server that waits take nothing of its count, and it answers behind them."""
    for socket_beside in (True, False):
        place = store if socket_beside else without_socket(part, store)
        with part.serve(place, 3, "--log") as server:
            for number in range(3):
                hold(server, times=WAITING_HOLDS)
                reply = server.get("/en/main/small", HOST)
                part.same(f"request {number + 1} behind {WAITING_HOLDS} holds of one that waits", reply, (200, b"small"))
            part.same("then its count is over", server.wait(), 0)


def without_socket(part, store):
    """The file under a name that is too long for a control socket."""
    folder = part.path("x" * 100)
    os.mkdir(folder)
    place = os.path.join(folder, "holds.docs")
    os.rename(store, place)
    return place
