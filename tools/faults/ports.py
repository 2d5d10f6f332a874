"""Ports: requests, scripts and messages that come byte by byte, are cut, or whose reads and writes fail, at each place; and input without end."""

import socket
import struct
import subprocess
import tempfile
import threading
from pathlib import Path

from common import SCRIPTS, STORE, TIME_LIMIT, Ended, Script, Worlds, copy_store, hosts, make_base, new_folder

HOST, KEY = "docs.test", "wkey-1"

# The most reads that are made.
MOST_READS = 100_000

# What has no end, here.
MANY = 10_000_000

PROJECT = f"""new-project {HOST} en main public {KEY}
push {HOST} {KEY} k0 branch main
upload {HOST} {KEY} u0 main en a text/plain a
add-rule {HOST} 1 tag all activate
"""


def post(target, body, spaces=0):
    """A request, with so many spaces behind its body's object."""
    body = body.encode() + b" " * spaces
    return f"POST {target} HTTP/1.1\r\nHost: {HOST}\r\nDocs-Key: {KEY}\r\nContent-Length: {len(body)}\r\n\r\n".encode() + body


def push(spaces=0):
    return post("/_/push", '{"key":"k1","kind":"tag","ref":"1.0.0"}', spaces)


def upload():
    page = '{"path":"b.html","type":"text/html","base64":"PGgxPg=="}'
    return post("/_/upload", '{"key":"u1","language":"en","version":"main","pages":[%s]}' % page)


def get():
    return f"GET /en/main/a HTTP/1.1\r\nHost: {HOST}\r\n\r\n".encode()


def feed(connection, data, piece):
    """Sends the bytes, each piece as a packet of its own, which a read gets alone; as long as it is read."""
    try:
        for at in range(0, len(data), piece):
            connection.send(data[at : at + piece])
    except OSError:
        pass
    connection.close()


def run(part, words, data, folder, piece=4096, fails=False, **environment):
    """A run whose input comes in such pieces, and ends, or fails where it would end: a socket is closed with bytes unread."""
    ours, theirs = socket.socketpair(socket.AF_UNIX, socket.SOCK_SEQPACKET)
    if fails:
        theirs.send(b"unread")
    feeding = threading.Thread(target=feed, args=(ours, data, piece))
    feeding.start()
    preload = {"LD_PRELOAD": part.library, **environment} if environment else {}
    with tempfile.TemporaryFile() as sink:
        process = subprocess.Popen([part.program, *words], stdin=theirs, stdout=sink, stderr=subprocess.PIPE, cwd=folder, env=preload)
        theirs.close()
        try:
            told = process.communicate(timeout=TIME_LIMIT)[1]
        finally:
            process.kill()
            process.wait()
        feeding.join()
        sink.seek(0)
        return Ended(process.returncode, sink.read(), told)


def fault(err):
    """The fault that is told last of all, but for its sentence."""
    lines = err.splitlines()
    return lines[-2] if len(lines) > 1 else b""


class Desk:
    """A file with a project, and runs over copies of it."""

    def __init__(self, part, base, folder, words):
        self.part, self.base, self.folder, self.words = part, base, folder, words
        self.worlds = Worlds(part)
        self.before = self.worlds.of(base)

    def run(self, data, *more, **environment):
        """A run over the file as it began: how it ended, and the rows that it leaves."""
        copy_store(self.base, self.folder)
        ended = run(self.part, self.words, data, self.folder, *more, **environment)
        return ended, self.worlds.of(self.folder)


# ---- requests


def request(part, desk, name, data):
    """A request in pieces, and at each place a cut, a read that fails, a write that fails, and one that takes nothing."""
    whole, after = desk.run(data)
    part.check(f"{name}: whole", whole.status == 0 and whole.out.startswith(b"HTTP/1.1 200 ") and not whole.err, whole)
    for piece in (1, 2, 7, 64):
        seen = desk.run(data, piece)
        part.check(f"{name}: in pieces of {piece}", seen == (whole, after), seen)
    for count in range(len(data)):
        (ended, world) = desk.run(data[:count])
        good = ended.status == 0 and ended.out.startswith(b"HTTP/1.1 400 ") and not ended.err
        part.check(f"{name}: cut behind {count} bytes", good and world == desk.before, ended)
        (ended, world) = desk.run(data[:count], 1, True)
        good = ended.status == 4 and not ended.out and fault(ended.err) == b"fault Read"
        part.check(f"{name}: a read fails behind {count} bytes", good and world == desk.before, ended)
    writes(part, desk, name, data, whole, lambda _: [after], 4)


def writes(part, desk, name, data, whole, worlds, status):
    """A byte a write; and at each byte of the output a write that fails, and one that takes nothing. The rows are those that stand."""
    seen = desk.run(data, PUT_MOST="1")
    part.check(f"{name}: a byte a write", seen[0] == whole and seen[1] in worlds(whole.out), seen)
    for count in range(len(whole.out)):
        for what, variables in (("fails", {"PUT_ROOM": str(count)}), ("takes nothing", {"PUT_MOST": "1", "PUT_NONE": str(count + 1)})):
            ended, world = desk.run(data, **variables)
            good = ended.status == status and ended.out == whole.out[:count] and fault(ended.err) == b"fault Write"
            part.check(f"{name}: a write {what} behind {count} bytes", good and world in worlds(ended.out), ended)


def many_reads(part, desk):
    """100,000 reads of a byte bring a request, and no more are made."""
    whole, after = desk.run(push())
    spaces = MOST_READS - len(push(MOST_READS // 2)) + MOST_READS // 2
    seen = desk.run(push(spaces), 1)
    part.check(f"{MOST_READS:,} reads", len(push(spaces)) == MOST_READS and seen == (whole, after), seen)
    ended, world = desk.run(push(spaces + 1), 1)
    good = ended.status == 4 and not ended.out and fault(ended.err) == b"fault TooManyTurns"
    part.check("one more", good and world == desk.before, ended)


def without_end(part, desk):
    """Heads that go on and on are refused, and not read to their end."""
    for what, data in (
        ("a line", b"a" * MANY),
        ("a target", b"GET /" + b"a" * MANY),
        ("a value", b"GET / HTTP/1.1\r\nHost: " + b"a" * MANY),
        ("lines", b"GET / HTTP/1.1\r\n" + b"A: b\r\n" * (MANY // 6)),
        ("empty lines", b"\r\n" * (MANY // 2)),
    ):
        for piece in (65536, 7):
            ended, world = desk.run(data, piece)
            good = ended.status == 0 and ended.out.startswith(b"HTTP/1.1 431 ") and not ended.err and world == desk.before
            part.check(f"{what} without end, in pieces of {piece}", good, ended)


# ---- scripts


def script(part, base, folder, path):
    """A script over a file: at each place a read or a write that fails, and a write that takes nothing."""
    lines = Script(part, path, base)
    desk = Desk(part, base, folder, lines.words)
    whole, name = lines.whole[0], lines.name
    for piece in (1, 7):
        seen = desk.run(lines.data, piece)
        part.check(f"{name}: in pieces of {piece}", seen == lines.whole, seen)
    for count in range(0, len(lines.data), 1 if part.wants_all else 7):
        ended, world = desk.run(lines.data[:count], 7, True)
        good = ended.status == 3 and not ended.out and fault(ended.err) == b"fault Read"
        part.check(f"{name}: a read fails behind {count} bytes", good and world == desk.before, ended)

    def worlds(out):
        told = out.count(b"\n")
        return [lines.world_after(it) for it in (told, told + 1)]

    writes(part, desk, name, lines.data, whole, worlds, 3)


def long_scripts(part, base, folder):
    """99,999 reads of a byte bring a script, behind which one more finds its end; of 100,000 bytes no line runs."""
    desk = Desk(part, base, folder, ["script", "--store", STORE])
    first = f"push {HOST} {KEY} k1 tag 1.0.0\n".encode()
    whole, after = desk.run(first)
    for count, good in ((MOST_READS - 1, True), (MOST_READS, False)):
        ended, world = desk.run(first + b"#" * (count - len(first)), 1)
        if good:
            is_right = (ended, world) == (whole, after) and after != desk.before
        else:
            is_right = ended.status == 3 and not ended.out and fault(ended.err) == b"fault TooManyTurns" and world == desk.before
        part.check(f"a script of {count:,} reads", is_right, ended)


# ---- connections


def talk(port, data, piece, is_reset=False):
    """What a server answers to bytes that come in such pieces, behind which the client ends its writing, or breaks the connection."""
    with socket.create_connection(("127.0.0.1", port), timeout=TIME_LIMIT) as connection:
        connection.setsockopt(socket.IPPROTO_TCP, socket.TCP_NODELAY, 1)
        if is_reset:
            connection.setsockopt(socket.SOL_SOCKET, socket.SO_LINGER, struct.pack("ii", 1, 0))
        for at in range(0, len(data), piece):
            connection.sendall(data[at : at + piece])
        if is_reset:
            return None
        connection.shutdown(socket.SHUT_WR)
        return b"".join(iter(lambda: connection.recv(65536), b""))


def connections(part, base, folder):
    """A server whose clients end or break the connection at each byte of a push makes no version; byte by byte it makes one."""
    copy_store(base, folder)
    whole = push()
    with hosts.Server(part.program, f"{folder}/{STORE}", 1_000_000, f"{folder}/told") as server:
        for count in range(len(whole)):
            reply = talk(server.port, whole[:count], 64)
            part.check(f"a connection that ends behind {count} bytes", reply.startswith(b"HTTP/1.1 400 "), reply)
            talk(server.port, whole[:count], 64, True)
        part.check("no version", hosts.versions(server, HOST) == {"main"}, hosts.versions(server, HOST))
        reply = talk(server.port, whole, 1)
        part.check("a request byte by byte", reply.startswith(b"HTTP/1.1 200 "), reply)
        again = talk(server.port, whole, 4096)
        part.check("and again", again == reply, again)
        part.check("one version", hosts.versions(server, HOST) == {"main", "1.0.0"}, hosts.versions(server, HOST))
        part.check("the server goes on", server.process.poll() is None)


# ---- messages


def say(place, message, piece=4096, most=None):
    """What is answered to these bytes, which come in such pieces; a client that takes so many bytes of it takes no more."""
    with socket.socket(socket.AF_UNIX) as client:
        client.settimeout(TIME_LIMIT)
        client.connect(place)
        for at in range(0, len(message), piece):
            client.sendall(message[at : at + piece])
        client.shutdown(socket.SHUT_WR)
        said = b""
        while most is None or len(said) < most:
            piece = client.recv(65536 if most is None else most - len(said))
            if not piece:
                break
            said += piece
        return said


def leave(place, message):
    """A client that goes behind these bytes."""
    with socket.socket(socket.AF_UNIX) as client:
        client.connect(place)
        client.sendall(message)


def tags(server):
    return hosts.versions(server, HOST) - {"main"}


def cut_messages(part, base, folder):
    """A message that ends, or whose client goes, behind each of its bytes, does nothing; one whose client goes while it is answered is done."""
    copy_store(base, folder)
    store = f"{folder}/{STORE}"
    whole, answer = hosts.words_message(store, "push", HOST, KEY, "k1", "tag", "1.0.0"), b"made 1.0.0 active shown public\nend 0\n"
    with hosts.Server(part.program, f"{folder}/{STORE}", 1_000_000, f"{folder}/told") as server:
        place = f"{folder}/{STORE}.control"
        for count in range(len(whole)):
            said = say(place, whole[:count])
            part.check(f"a message that ends behind {count} bytes", said == b"end 2\n", said)
            leave(place, whole[:count])
        part.check("no version", not tags(server), tags(server))
        said = say(place, whole, 1)
        part.check("a message byte by byte", said == answer, said)
        for count in range(len(answer)):
            said = say(place, hosts.words_message(store, "push", HOST, KEY, f"r{count}", "tag", f"2.0.{count}"), most=count)
            wanted = b"made 2.0.%d active shown public\nend 0\n" % count
            part.check(f"a reader who goes behind {count} bytes", said == wanted[:count], said)
        wanted = {"1.0.0", *(f"2.0.{count}" for count in range(len(answer)))}
        part.check("each of these is done", tags(server) == wanted, tags(server) ^ wanted)
        part.check("the server goes on", server.process.poll() is None)


class Beside:
    """A script, and runs of it beside a server that has the file."""

    def __init__(self, part, base, folder, lines):
        path = Path(folder, "lines.script")
        path.write_bytes(lines)
        self.part, self.base, self.folder = part, base, folder
        self.script, self.worlds = Script(part, path, base), Worlds(part)
        self.before = self.worlds.of(base)

    def run(self, ours, theirs):
        """A run whose calls are bounded so, beside a server whose calls are: how both end, and the rows that they leave."""
        copy_store(self.base, self.folder)
        more = {"LD_PRELOAD": self.part.library, **theirs} if theirs else {}
        with hosts.Server(self.part.program, f"{self.folder}/{STORE}", 1, f"{self.folder}/told", more=more) as server:
            ended = self.part.run(self.script.words, self.script.data, self.folder, **ours)
            status = server.wait()
        return ended, status, self.worlds.of(self.folder)

    def check(self, what, variable, is_server, faults, out, worlds):
        """With a call of one of the two that fails behind so many bytes the run ends with one of these faults."""
        name, bytes_ = variable
        mine = {name: str(bytes_)}
        ended, status, world = self.run({}, mine) if is_server else self.run(mine, {})
        told = fault(ended.err)
        good = ended.status == 3 and ended.out == out and told in faults and status == 0 and world in worlds
        self.part.check(f"{'the server' if is_server else 'the run'} {what} behind {bytes_} bytes", good, (ended, status))


def messages(part, base, folder):
    """A script of one line beside a server: at each byte of its message and of its answer a call of one of both fails; a byte a call."""
    beside = Beside(part, base, folder, f"push {HOST} {KEY} k1 tag 1.0.0\n".encode())
    whole, after = beside.script.whole
    copy_store(base, folder)
    size = len(hosts.message(f"{folder}/{STORE}", "line", beside.script.data.rstrip(b"\n")))
    answer = whole.out + b"end 0\n"
    for name in ("SEND_MOST", "RECV_MOST"):
        for ours, theirs in (({name: "1"}, {}), ({}, {name: "1"})):
            seen = beside.run(ours, theirs)
            part.check(f"a byte a call: {ours or theirs}", seen == (whole, 0, after), seen)
    for count in range(size):
        beside.check("cannot read", ("RECV_ROOM", count), True, (b"fault Read", b"fault Control"), b"", [beside.before])
        beside.check("cannot write", ("SEND_ROOM", count), False, (b"fault Control",), b"", [beside.before])
    for count in range(len(answer)):
        told = b"".join(line for line in answer[:count].splitlines(True) if line.endswith(b"\n"))
        lines = told.count(b"\n")
        worlds = [beside.script.world_after(lines + more) for more in (0, 1)]
        beside.check("cannot write", ("SEND_ROOM", count), True, (b"fault Control",), told, worlds)
        # (the server does no further line whose reader is gone)
        worlds = [beside.script.world_after(done) for done in range(max(lines, 1), len(beside.script.lines) + 1)]
        beside.check("cannot read", ("RECV_ROOM", count), False, (b"fault Control",), told, worlds)
    print(f"  a message of {size} bytes, and its answer of {len(answer)}", flush=True)


def ports(part):
    """Requests and scripts over a file, and connections to a server and to its control socket."""
    with new_folder() as made, new_folder() as empty, new_folder() as folder:
        base = make_base(part, made, PROJECT.encode())
        desk = Desk(part, base, folder, ["answer", "--store", STORE])
        for name, data in (("a page", get()), ("a push", push()), ("an upload", upload())):
            request(part, desk, name, data)
            print(f"  {name}: {len(data)} bytes", flush=True)
        many_reads(part, desk)
        without_end(part, desk)
        script(part, make_base(part, empty), folder, SCRIPTS / "properties.script")
        long_scripts(part, base, folder)
        connections(part, base, folder)
        cut_messages(part, base, folder)
        messages(part, base, folder)
