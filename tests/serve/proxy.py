"""nginx in front of two servers, by the configuration of `docs/operations.md`: the part `proxy` of tests/serve/run.

Each host gets its own pages, redirects and uploads, up to 4 MiB; clients that say nothing keep nobody waiting."""

import random
import socket
import time
from pathlib import Path

import fronts
import host as hosts
import publishing
from curl import Curl
from host import Server, make
from parts import KEY, need


def proxy(part):
    need("nginx")
    need("curl")
    text = (hosts.ROOT / "docs" / "operations.md").read_text().split("```nginx\n")[1].split("```")[0]
    first, second = part.path("first.docs"), part.path("second.docs")
    for store, name in ((first, "docs.example.org"), (second, "a.team.example")):
        make(part.program, store, f"new-project {name} en main public {KEY}", f"push {name} {KEY} k0 branch main")
    with part.serve(first, 1000, "--log") as one, Server(part.program, second, 1000, part.path("told-2")) as two:
        port = hosts.free_port()
        for old, new in (("8101", one.port), ("8102", two.port), ("8080", port)):
            text = text.replace(old, str(new))
        with fronts.nginx(part, text, port):
            through(part, Curl(port), one)


def through(part, curl, one):
    for name, text in (("docs.example.org", "one"), ("a.team.example", "two")):
        page = '{"path":"a b.html","type":"text/html","text":"%s"}' % text
        upload = '{"key":"u","language":"en","version":"main","pages":[%s]}' % page
        reply = curl("/_/upload", "-H", f"Docs-Key: {KEY}", "-d", upload, host=name)
        part.same(f"an upload to {name}", reply[::2], (200, b'{"answer":"stored","pages":1}'))
        part.same(f"a page of {name}", curl("/en/latest/a%20b.html", host=name)[::2], (200, text.encode()))
    part.same("a redirect", curl("/?q=1", host="a.team.example")[1].get("Location"), "/en/latest/?q=1")
    part.same("another host", curl("/", host="other.example")[::2], (404, b"404 Not Found\n"))
    large = Path(part.path("large"))
    large.mkdir()
    for name in "abcd":
        (large / name).write_bytes(random.Random(name).randbytes(1048576))
    ended = publishing.once(large, publishing.url_of(curl), host="docs.example.org")
    part.check("bin/publish of 4 MiB", ended.returncode == 0 and "stored 4 pages in 2 uploads" in ended.stderr, ended)
    part.same("a page of 1 MiB", curl("/en/main/d", host="docs.example.org")[2], (large / "d").read_bytes())
    idle = [socket.create_connection(("127.0.0.1", curl.port)) for _ in range(5)]
    for connection in idle[1:]:
        connection.sendall(b"GET /en/main/a HTTP/1.1\r\nHost: docs.example.org\r\n")
    begun = time.monotonic()
    part.same("a page behind clients that say nothing", curl("/en/main/a", host="docs.example.org")[0], 200)
    part.check("it does not wait", time.monotonic() - begun < 5, time.monotonic() - begun)
    for connection in idle:
        connection.close()
