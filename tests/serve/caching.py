"""What browsers and nginx keep, by deploy/nginx.conf and deploy/Caddyfile: the part `caching` of tests/serve/run.

A second view of a site of MkDocs, counted in bytes; nothing kept that a pass opened; pages while the program is away; a rate."""

import concurrent.futures
import http.client
import json
import re
import time
from pathlib import Path

import browser
import fronts
from host import TIME_LIMIT, free_port, run
from publishing import Project, ends, once, site_of
from recipes import DEPLOY, HOST, PASS

AGES = {"s.css": "max-age=600", "s.js": "max-age=600", "p.svg": "max-age=3600", "f.woff2": "max-age=604800"}
OTHERS = ["index.html", "search.json", "feed.xml"]


def caching(part):
    texts = {name: f"/* {name} */\n" * 50 for name in [*AGES, *OTHERS]}
    project = Project(part, "caching.docs", HOST)
    folder = site_of(part, "site", texts)
    with project.serve() as server:
        told = commands(part, project, f"add-rule {HOST} 1 tag all activate", f"add-pass {HOST} {PASS}")
        part.same("a rule and a pass", told, "ok\nok\n")
        for name in ("branch:main", "tag:next"):
            ended = once(folder, f"http://127.0.0.1:{server.port}", "--push", name, host=HOST, version=())
            ends(part, f"{name} is published", ended, 0, "none differs")
        told = commands(part, project, f"make-private {HOST} next", f"grant {HOST} {PASS} next")
        part.same("a private version", told, "ok\nok\n")
    for front in (Nginx(part), Caddy(part)):
        if fronts.has(part, front.name, "stands in front"):
            with front.started():
                with project.serve("--log", "--port", str(front.behind)) as server:
                    kept_by_type(part, front)
                    nothing_of_a_pass(part, front, server)
                    read_back(part, front, folder)
                    second_view(part, front)
                    before_away(part, front)
                if front.name == "nginx":
                    away(part, front, project)
            if front.name == "nginx":
                with project.serve("--port", str(front.behind)), front.started():
                    rate(part, front)


def commands(part, project, *lines):
    """What commands print that are sent to the server."""
    return run(part.program, "script", "--store", project.store, stdin="".join(f"{line}\n" for line in lines)).stdout


def fetch(port, target, shown=None, body=None):
    """The status, the header lines and the body of a reply; a body is posted."""
    connection = http.client.HTTPConnection("127.0.0.1", port, timeout=TIME_LIMIT)
    try:
        lines = dict([shown.split(": ", 1)] if shown else [], Host=HOST, Connection="close")
        connection.request("POST" if body else "GET", target, body, lines)
        reply = connection.getresponse()
        return reply.status, reply.headers, reply.read()
    finally:
        connection.close()


class Front:
    """What stands in front of a server, by its file in deploy/."""

    def __init__(self, part):
        self.part, self.port, self.behind = part, free_port(), free_port()


class Nginx(Front):
    name = "nginx"

    def started(self):
        site = (DEPLOY / "nginx.conf").read_text().replace("listen 80;", f"listen 127.0.0.1:{self.port};")
        return fronts.nginx(self.part, fronts.of_sites(self.part, site.replace("8101", str(self.behind))), self.port)


class Caddy(Front):
    name = "caddy"

    def started(self):
        site = (DEPLOY / "Caddyfile").read_text().replace(f"\n{HOST} {{", f"\nhttp://{HOST}:{self.port} {{")
        return fronts.caddy(self.part, site.replace("8101", str(self.behind)), self.port)


def kept_by_type(part, front):
    """What a browser is told to keep."""
    for name in [*AGES, *OTHERS]:
        status, lines, _ = fetch(front.port, f"/en/main/{name}")
        part.same(f"{front.name}: for how long {name} is kept", (status, lines.get("Cache-Control")), (200, AGES.get(name)))
        part.check(f"{front.name}: by whom {name} is read", {"Cookie", "Docs-Pass"} <= varies(lines), lines)
    for target in ("/en/main/none.css", "/", "/_/versions"):
        _, lines, _ = fetch(front.port, target)
        part.same(f"{front.name}: {target} is not kept", lines.get("Cache-Control"), None)
    _, lines, body = fetch(front.port, "/en/main/s.css", "Accept-Encoding: gzip")
    packed = lines.get("Content-Encoding"), "Accept-Encoding" in varies(lines), len(body) < 200
    part.same(f"{front.name}: a style sheet is packed, and varies by that", packed, ("gzip", True, True))


def varies(lines):
    return set(re.split(r",\s*", ", ".join(lines.get_all("Vary", []))))


def nothing_of_a_pass(part, front, server):
    """A reply to a request with a pass, also a wrong one, is kept by nobody, and is nobody else's."""
    for shown in (f"Docs-Pass: {PASS}", f"Cookie: other=1; docs_pass={PASS}", "Docs-Pass: none"):
        for name in [*AGES, *OTHERS, "none.css"]:
            for version in ("main", "next"):
                _, lines, _ = fetch(front.port, f"/en/{version}/{name}", shown)
                said = f"{front.name}: {version}/{name}, with {shown.split(':')[0]}"
                part.same(said, lines.get("Cache-Control"), "private, no-store")
    for name in AGES:
        target = f"/en/next/{name}"
        opened = [fetch(front.port, target, f"Docs-Pass: {PASS}")[0], fetch(front.port, target)[0]]
        part.same(f"{front.name}: {name} with a pass and without", opened, [200, 404])
    if front.name != "nginx":
        return
    begun = server.told_at_last().count("GET /en/main/s.css ")
    for _ in range(5):
        fetch(front.port, "/en/main/s.css", f"Docs-Pass: {PASS}")
    part.same("nginx: with a pass the program is asked", server.told_at_last().count("GET /en/main/s.css ") - begun, 5)


def read_back(part, front, folder):
    """bin/publish sees what it stored, and not what was there a moment ago."""
    (folder / "index.html").write_text("new\n")
    fetch(front.port, "/en/main/index.html")
    ended = once(folder, f"http://127.0.0.1:{front.port}", "--wait", "20", host=HOST, version=("--version", "main"))
    ends(part, f"{front.name}: it is published again", ended, 0, "none differs")


def before_away(part, front):
    """A page without a pass and one that a pass opened are read, a second before the program is gone."""
    for target, shown in (("/en/main/index.html", None), ("/en/next/index.html", f"Docs-Pass: {PASS}")):
        part.same(f"{front.name}: {target}", fetch(front.port, target, shown)[0], 200)
    time.sleep(1.5)


def away(part, front, project):
    """What was read while the program ran is read while it does not; what a pass opened is not."""
    part.same("nginx: while the program is away", fetch(front.port, "/en/main/index.html")[::2], (200, b"new\n"))
    part.same("nginx: with a pass meanwhile", fetch(front.port, "/en/main/index.html", f"Docs-Pass: {PASS}")[0], 502)
    part.same("nginx: what a pass opened, meanwhile", fetch(front.port, "/en/next/index.html")[0], 502)
    project.command(f"make-private {HOST} main")
    part.same("nginx: made private meanwhile, it stays", fetch(front.port, "/en/main/index.html")[0], 200)
    with project.serve("--port", str(front.behind)):
        time.sleep(1.5)
        part.same("nginx: until the program is back", fetch(front.port, "/en/main/index.html")[0], 404)
        part.same("nginx: it is public again", commands(part, project, f"publish {HOST} main"), "ok\n")
        time.sleep(1.5)
        part.same("nginx: then it is read", fetch(front.port, "/en/main/index.html")[0], 200)
    for file in Path(part.path("replies")).rglob("*"):
        if file.is_file():
            file.unlink()
    part.same("nginx: what it has is gone with its files", fetch(front.port, "/en/main/index.html")[0], 502)


def second_view(part, front):
    """A browser fetches the page anew, and styles, scripts, pictures and fonts not."""
    if not browser.program() or not fronts.has(part, "mkdocs", "makes a site with scripts and styles"):
        part.skip("no second view")
        return
    root = site_of(part, "mkdocs", {"mkdocs.yml": "site_name: Kettle\n", "docs/index.md": "# Kettle\n\nWater.\n"})
    ended = run("mkdocs", "build", "--quiet", "--config-file", root / "mkdocs.yml", "--site-dir", root / "site")
    part.check("mkdocs build", ended.returncode == 0, ended)
    (root / "site" / "index.html").rename(root / "site" / "start.html")
    ended = once(root / "site", f"http://127.0.0.1:{front.port}", host=HOST, version=("--version", "main"))
    ends(part, f"{front.name}: the site of MkDocs", ended, 0, "none differs")
    (part.room / front.name).mkdir()
    with browser.Page(HOST, front.port, part.room / front.name) as page:
        first, second = (page.view(f"http://{HOST}/en/main/start.html") for _ in range(2))
    for what, (paths, size) in (("first", first), ("second", second)):
        print(f"    {front.name}: the {what} view fetches {len(paths)} files, {size} bytes", flush=True)
    part.check(f"{front.name}: the first view fetches all", len(first[0]) >= 8 and first[1] > 80_000, first)
    part.check(f"{front.name}: the second view", len(second[0]) <= 3 and second[1] <= 10_000, second)


def rate(part, front):
    """Uploads from one address wait for their turn, then are refused; reads do neither."""
    body = json.dumps({"key": "k", "version": "main", "language": "en", "pages": []})

    def post(_):
        begun = time.monotonic()
        return fetch(front.port, "/_/upload", body=body)[0], time.monotonic() - begun, begun

    with concurrent.futures.ThreadPoolExecutor(60) as pool:
        replies = list(pool.map(post, range(60)))
        begun = time.monotonic()
        reads = set(pool.map(lambda _: fetch(front.port, "/en/main/s.css")[0], range(200)))
        part.check("nginx: reads do not wait", reads == {200} and time.monotonic() - begun < 5, reads)
    statuses, waits, begun = zip(*replies)
    # (for each quarter of a second until the last came, one more has its turn; who is refused is told so at once)
    came = [start + (wait if status == 503 else 0) for status, wait, start in replies]
    late = 4 * (max(came) - min(begun))
    part.check("nginx: of 60 bodies at once", 40 <= statuses.count(403) <= 45 + late, (sorted(statuses), late))
    part.same("nginx: others get 503", set(statuses), {403, 503})
    part.check("nginx: they wait their turn", 8 < max(waits) < 14, max(waits))
