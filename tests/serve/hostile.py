"""The programs of bin/ against a peer or a folder that is none of ours: the part `hostile` of tests/serve/run.

What bin/publish says of replies without end, or made to mislead; what bin/import-project says of folders that are broken."""

import contextlib
import io
import json
import os
import socket
import sys
import threading
import time
from pathlib import Path
from unittest import mock

from parts import module_of
from publishing import HOST, KEY, pages_of, site_of
from relay import reply_bytes

MIB = 1_048_576


def hostile(part):
    peers(part)
    texts(part)
    folders(part)


def ends(part, what, run, status, *says):
    """How a main function ends that is run here: its status, and what it tells, which is fit for a terminal."""
    told, out = io.StringIO(), io.StringIO()
    with contextlib.redirect_stderr(told), contextlib.redirect_stdout(out):
        try:
            ended = run()
        except Exception as error:  # noqa: BLE001 - that none is raised is what is tested
            ended = repr(error)
    text = told.getvalue()
    missing = [it for it in says if it not in text]
    is_plain = all(line.isprintable() for line in text.replace("\t", " ").splitlines())
    part.check(what, ended == status and not missing and is_plain and len(text) < 20_000, (ended, missing, text[:400]))
    return out.getvalue()


class Peer:
    """Answers each request by what `answer` sends over its connection, which may go on until the other side has enough."""

    def __init__(self, answer):
        self.answer, self.listener = answer, socket.create_server(("127.0.0.1", 0))
        self.url = f"http://127.0.0.1:{self.listener.getsockname()[1]}"

    def serve(self):
        while True:
            try:
                connection, _ = self.listener.accept()
            except OSError:
                return
            threading.Thread(target=self.one, args=(connection,), daemon=True).start()

    def one(self, connection):
        with connection, contextlib.suppress(OSError):
            connection.recv(65536)
            self.answer(connection)
            connection.shutdown(socket.SHUT_WR)
            while connection.recv(65536):
                pass

    def __enter__(self):
        threading.Thread(target=self.serve, daemon=True).start()
        return self

    def __exit__(self, *_):
        self.listener.shutdown(socket.SHUT_RDWR)
        self.listener.close()


def publishes(part, what, folder, answer, status, *says, words=("--push", "tag:v1.0.0"), limit=2):
    """A run of bin/publish against a peer, with another limit of time for a reply."""
    ours = module_of("publish")
    ours.TIME_LIMIT = limit
    with Peer(answer) as peer:
        line = ["publish", str(folder), "--url", peer.url, "--host", HOST, "--lang", "en", "--key", KEY, "--wait", "0.1", *words]
        begun = time.monotonic()
        with mock.patch.object(sys, "argv", line):
            out = ends(part, what, ours.main, status, *says)
        part.check(f"{what}: it ends in time", time.monotonic() - begun < 20 * limit, time.monotonic() - begun)
    return out


def without_end(piece, pause=0):
    def answer(connection):
        while True:
            connection.sendall(piece)
            time.sleep(pause)

    return answer


def begins(data, then):
    def answer(connection):
        connection.sendall(data)
        then(connection)

    return answer


def peers(part):
    """Replies that do not end, are too large, or are cut."""
    folder = site_of(part, "hostile", pages_of("hostile", 2))
    late = "the server gave no whole reply within 2 seconds"
    for what, answer in (
        ("100 Continue without end", without_end(b"HTTP/1.1 100 Continue\r\n\r\n", 0.01)),
        ("a head that trickles", begins(b"HTTP/1.1 200 OK\r\nX: ", without_end(b"a", 0.2))),
        ("a body that trickles", begins(b"HTTP/1.1 200 OK\r\nContent-Length: 100000\r\n\r\n", without_end(b"a", 0.2))),
    ):
        publishes(part, what, folder, answer, 3, late)
    more = "answered with more than 8,388,608 bytes"
    chunk = b"100000\r\n" + bytes(MIB) + b"\r\n"
    for what, answer in (
        ("a body of 9 MiB", lambda it: it.sendall(reply_bytes(200, bytes(9 * MIB)))),
        ("a body without end", begins(b"HTTP/1.1 200 OK\r\n\r\n", without_end(bytes(MIB)))),
        ("chunks without end", begins(b"HTTP/1.1 200 OK\r\nTransfer-Encoding: chunked\r\n\r\n", without_end(chunk))),
    ):
        publishes(part, what, folder, answer, 1, more, "no page was stored", limit=20)
    cut = b"HTTP/1.1 200 OK\r\nContent-Length: 1000000000000000\r\n\r\n{}"
    publishes(part, "a body that is cut", folder, lambda it: it.sendall(cut), 3, "does not answer")
    for what, data in (("no reply", b""), ("no HTTP", b"\x1b[2J\x9b31m\r\n\r\n"), ("lines without end", b"HTTP/1.1 200 OK\r\n" + b"A: b\r\n" * 999)):
        publishes(part, what, folder, lambda it, data=data: it.sendall(data), 3, "does not answer")


def texts(part):
    """Replies whose texts would mislead a reader, or a program."""
    folder = site_of(part, "texts", pages_of("texts", 2))
    version = ["--version", "main"]

    def says(what, status, body, *wanted, words=version, lines=()):
        data = body if isinstance(body, bytes) else json.dumps(body).encode()
        return publishes(part, what, folder, lambda it: it.sendall(reply_bytes(status, data, *lines)), 1, *wanted, words=words)

    says("JSON that is deep", 200, b"[" * 200_000, "answered with status 200")
    says("a number that is long", 200, b'{"refused":' + b"9" * 10_000 + b"}", "answered with status 200")
    says("true for a number", 400, {"refused": True}, "answered with status 400")
    says("an answer of much text", 200, {"answer": "x" * MIB}, "was answered with")
    says("signs for a terminal", 400, "\x1b[31m\u202etxt\x9b\u2028\0".encode(), "\\u202etxt\\x9b\\u2028\\x00")
    push = ("--push", "tag:v1.0.0")
    for slug in ("../main", "a\0", "\ud800", "\u202e", "x" * 200, "", "v1.0.0/..", "V1"):
        answer = {"answer": "made", "slug": slug, "active": True}
        says(f"the slug {ascii(slug)[:20]}", 200, answer, "which is no version", words=push)
    line = "Location: http://other.test/\x9b" + "x" * 5000
    head = f"HTTP/1.1 301 x\r\nContent-Length: 0\r\n{line}\r\n\r\n".encode("latin-1")
    told = "leads on to http://other.test/\\x9bxxx"
    publishes(part, "an address for a terminal", folder, lambda it: it.sendall(head), 1, told, words=version)
    out = says("a summary of it", 403, {"refused": 12}, "refused 12 WrongKey", words=[*version, "--json"])
    summary = json.loads(out)
    wanted = {"status": 1, "refused": 12, "host": HOST, "version": "main", "stored": 0, "pages": 5, "release": None}
    part.same("the summary", {name: summary.get(name) for name in wanted}, wanted)
    part.check("its sentence", summary["error"].startswith("refused 12 WrongKey"), summary)


# ---- exports that are broken


def export_of(part, name, lines, pages="", more=()):
    """A folder with right sums, as bin/export would leave it of such lines."""
    exporting = module_of("export")
    root = Path(part.path(name))
    (root / "pages").mkdir(parents=True)
    script = lines if isinstance(lines, bytes) else "".join(f"{line}\n" for line in lines).encode(errors="surrogatepass")
    (root / exporting.SCRIPT).write_bytes(script)
    (root / exporting.PAGES).write_bytes(pages if isinstance(pages, bytes) else pages.encode())
    for path in more:
        with open(os.path.join(os.fsencode(root), path), "wb"):
            pass
    (root / exporting.SUMS).write_bytes(exporting.sums_of(root).encode(errors="surrogateescape"))
    return root


def folders(part):
    importing = module_of("import-project")
    project = f"new-project {HOST} en main public <write-key>"
    form = "is of another form than bin/export writes"

    def imports(what, root, status, *says):
        line = ["import-project", str(root), "--store", part.path("none.db"), "--key", KEY, "--program", part.program]
        with mock.patch.object(sys, "argv", line):
            ends(part, what, importing.main, status, *says, "nothing was changed")
        part.check(f"{what}: no file was made", not os.path.exists(part.path("none.db")))

    imports("no folder", part.path("nowhere"), 2, "No such file or directory")
    digest = "0" * 64
    for name, lines, pages in (
        ("nothing", [], ""),
        ("no project", [f"add-lang {HOST} de"], ""),
        ("another word", [project, f"serve --store {HOST}"], ""),
        ("JSON that is cut", [project, '["push", "docs.test"'], ""),
        ("JSON that is deep", [project, "[" * 100_000 + "]" * 100_000], ""),
        ("JSON of numbers", [project, "[1, 2]"], ""),
        ("JSON of nothing", [project, "[]"], ""),
        ("JSON of lists", [project, '[["push"]]'], ""),
        ("JSON of an object", [project, '[{"push": 1}]'], ""),
        ("a NUL in JSON", [project, f'["add-rule", "{HOST}", "1", "tag", "re:\\u0000", "hide"]'], ""),
        ("half a character in JSON", [project, f'["add-rule", "{HOST}", "1", "tag", "re:\\ud800", "hide"]'], ""),
        ("a NUL", [project, f"add-lang {HOST} d\0e"], ""),
        ("no UTF-8", project.encode() + b"\n\xff\xfe\n", ""),
        ("half a character", [project, f"add-lang {HOST} \ud800"], ""),
        ("a push without a key", [project, f"push {HOST} k branch main"], ""),
        ("a page without a body", [project], f"{digest}\tmain\ten\ttext/html\tindex.html\n"),
        ("a body elsewhere", [project], "../../etc/passwd\tmain\ten\ttext/html\tindex.html\n"),
        ("a page without a path", [project], f"{digest}\tmain\ten\n"),
        ("pages that are no UTF-8", [project], b"\xff\n"),
    ):
        imports(name, export_of(part, f"folder of {name}", lines, pages), 1, form)
    odd = export_of(part, "folder of odd names", [], more=[b"pages/\xff\x9b"])
    imports("a name that is no UTF-8", odd, 1, form)
    changed = export_of(part, "changed", [project])
    (changed / "project.script").write_text(f"{project}\nadd-lang {HOST} de\n")
    imports("a folder that was changed", changed, 1, "other sums than SHA256SUMS says")
    signs = export_of(part, "\x1b[31m\u202e", [project])
    (signs / "more").write_text("x")
    imports("a name for a terminal", signs, 1, "\\x1b[31m\\u202e")
