"""What bin/publish stores and says, and what a browser finds then: the part `publish` of tests/serve/run.

Sites that are stored, repeated, stopped, refused, changed; searches in two documentations; the steps of `publish.md`."""

import os
import pty
import random
import re
import shutil
import signal
import subprocess
import threading
import time
from pathlib import Path

import browser
import host as hosts
from host import command, make
from parts import module_of
from relay import Relay, reply_bytes

SITE = hosts.ROOT / "examples" / "site"
TOOL = hosts.ROOT / "bin" / "publish"
DOCS = hosts.ROOT / "docs"
HOST, KEY, PASS = "docs.test", "wkey-1", "reader-7"
LIMIT = 1_048_576

# The documentation packages of Debian, with a search whose results a page counts.
PYTHON = Path("/usr/share/doc/python3.11/html")
MKDOCS = Path("/usr/share/doc/mkdocs/html")


def publish(part):
    store = part.path("publish.docs")
    make(part.program, store, f"new-project {HOST} en main public {KEY}", f"push {HOST} {KEY} k0 branch main")
    with part.serve(store, 1_000_000) as server:
        for test in (example, again, stopped, refused, left_out, changed, told, differing, waited):
            test(part, server)
        scripts(part, server)
        packages(part, server)
    for test in (types, documents, pushes, private, away, readme, github, gitlab, rollback, private_recipe):
        test(part)


# ---- sites, and calls of the tool


def site_of(part, name, texts):
    """A folder with a file for each path."""
    root = Path(part.path(name))
    for path, text in texts.items():
        file = root / path
        file.parent.mkdir(parents=True, exist_ok=True)
        file.write_bytes(text if isinstance(text, bytes) else text.encode())
    return root


def copy_of(part, name, there):
    """A copy of a folder, with files in place of links."""
    root = Path(part.path(name))
    for place, _, names in os.walk(there, followlinks=True):
        within = root / os.path.relpath(place, there)
        within.mkdir(parents=True)
        for file in names:
            if os.path.isfile(os.path.join(place, file)):
                shutil.copyfile(os.path.join(place, file), within / file)
    return root


def pages_of(what, count, first=0):
    """A start page, and pages that say what they are of."""
    pages = {"index.html": f"<h1>{what}</h1>\n", "404.html": f"none in {what}\n", "s.css": f"/* {what} */\n"}
    for number in range(first, first + count):
        pages[f"p/{number}.html"] = f"<p>{number} of {what}</p>\n"
    return pages


def line_of(folder, url, *words, version=("--version", "main"), key=KEY, host=HOST):
    return [TOOL, folder, "--host", host, "--lang", "en", "--url", url, "--key", key, *version, *words]


def url_of(server):
    return f"http://127.0.0.1:{server.port}"


def once(folder, url, *words, **more):
    """One run of the tool."""
    line = line_of(folder, url, *words, **more)
    return subprocess.run(line, stdin=subprocess.DEVNULL, capture_output=True, encoding="utf-8", timeout=120)


def upload_page(server, path, media, text):
    """An upload of one page by another than the tool: its status."""
    pages = [{"path": path, "type": media, "text": text}]
    value = {"key": os.urandom(8).hex(), "version": "main", "language": "en", "pages": pages}
    return server.post("/_/upload", HOST, KEY, value)[0]


def last(ended):
    return ended.stderr.splitlines()[-1].removeprefix("publish: ")


def ends(part, what, ended, status, *says):
    """The exit status, and what standard error has."""
    missing = [text for text in says if text not in ended.stderr]
    part.check(what, ended.returncode == status and not missing and not ended.stdout, (missing, ended))


def target(path, version="main"):
    return f"/en/{version}/{path}"


def is_whole(part, what, server, folder, version="main", but=()):
    """Each file of the folder is served as it is."""
    files = [path.relative_to(folder).as_posix() for path in sorted(folder.rglob("*")) if path.is_file()]
    files = [path for path in files if path not in but and not path.startswith(".")]
    wrong = []
    for path in files:
        if server.get(target(path, version), HOST) != (200, (folder / path).read_bytes()):
            wrong.append(path)
    part.check(what, files and not wrong, (len(files), wrong[:5]))


def is_missing(part, what, server, path):
    part.same(what, server.get(target(path), HOST)[0], 404)


# ---- the runs of one version


def example(part, server):
    folder, url = SITE / "folder", url_of(server)
    ended = once(folder, url)
    ends(part, "the example", ended, 0)
    part.same("its last line", last(ended), "stored 5 pages in 1 upload; read back 5 of 5, none differs")
    is_whole(part, "the example, served", server, folder)
    part.same("no folder", once(part.path("none"), url).returncode, 2)
    part.same("no version", once(folder, url, version=()).returncode, 2)
    part.same("an empty folder", once(site_of(part, "empty", {".x": ""}), url).returncode, 2)
    begun = time.monotonic()
    ended = once(folder, "http://127.0.0.1:1", "--wait", "1")
    ends(part, "nobody there", ended, 3, "waiting for it", "waited for 1 second")
    part.check("it waits no longer", time.monotonic() - begun < 5, time.monotonic() - begun)


def again(part, server):
    """A, B, A: each is served whole, though the host has seen the pages of A before."""
    a, b = site_of(part, "again-a", pages_of("A", 600)), site_of(part, "again-b", pages_of("B", 300, 300))
    for what, folder, count in (("A", a, 603), ("B", b, 303), ("A after B", a, 603)):
        ended = once(folder, url_of(server), "--replace")
        read = f"read back {count} of {count}, none differs"
        ends(part, f"{what}, published", ended, 0, f"stored {count} pages in", read)
        is_whole(part, f"{what} is served whole", server, folder)
    ends(part, "B with --replace", once(b, url_of(server), "--replace"), 0)
    is_missing(part, "a page of A is gone then", server, "p/1.html")


def begin(line):
    """The tool, started so that Ctrl-C reaches it also where a shell has this test in the background."""
    return subprocess.Popen(
        line,
        stdin=subprocess.DEVNULL,
        stderr=subprocess.PIPE,
        encoding="utf-8",
        preexec_fn=lambda: signal.signal(signal.SIGINT, signal.default_int_handler),
    )


def told_until(process, said):
    """What a run tells up to a line that says this, or to its end."""
    told = ""
    while said not in told and (line := process.stderr.readline()):
        told += line
    return told


def stop_at(part, server, folder, number, sent, *words):
    """A run that gets a signal while it sends its upload of this number, which the server does not get."""
    process = None

    def instead(path, pages):
        if not pages or len(relay.uploads) + 1 < number:
            return None
        process.send_signal(sent)
        return b""

    with Relay(server.port, instead) as relay:
        process = begin(line_of(folder, relay.url, "--replace", *words))
        told = process.communicate(timeout=60)[1]
    return process.returncode, told, relay.uploads


def stopped(part, server):
    a = site_of(part, "stopped-a", pages_of("A", 600))
    b = site_of(part, "stopped-b", pages_of("B", 1200, 300))
    ends(part, "A before", once(a, url_of(server), "--replace"), 0)
    status, told, uploads = stop_at(part, server, b, 3, signal.SIGINT)
    part.same("B, stopped by Ctrl-C at its third upload", (status, uploads), (130, [256, 256]))
    goes_on = re.search(r"512 of 1,203 pages are stored; .*'--build [0-9a-f]{16}' goes on.*pages may be missing", told)
    part.check("it says how to go on", goes_on, told)
    ended = once(a, url_of(server), "--replace")
    ends(part, "A after that", ended, 0, "stored 603 pages in 3 uploads; read back 603 of 603, none differs")
    is_whole(part, "A is served whole after a B that was stopped", server, a)
    is_missing(part, "and no page of that B", server, "p/1200.html")

    status, told, _ = stop_at(part, server, b, 3, signal.SIGTERM, "--build", "b-7")
    part.check("B, stopped by SIGTERM", status == 130 and "'--build b-7' goes on from here" in told, (status, told))
    with Relay(server.port) as relay:
        ended = once(b, relay.url, "--replace", "--build", "b-7")
        part.same("B again sends what was missing alone", relay.uploads, [256, 256, 179])
        now, before = "stored 691 pages in 3 uploads", "this build had stored 512 pages in 2 uploads before"
        missing, read = "pages were missing since the run that was stopped", "read back 1,203 of 1,203, none differs"
        ends(part, "B again under the same name", ended, 0, f"{now}; {before}; {read}", missing)
        is_whole(part, "B is served whole", server, b)
        ended = once(b, relay.url, "--replace", "--build", "b-7")
        part.same("B once more sends nothing", relay.uploads, [256, 256, 179])
        now, before = "stored 0 pages in 0 uploads", "this build had stored 1,203 pages in 5 uploads before"
        ends(part, "it says so", ended, 0, f"{now}; {before}; {read}")


def refused(part, server):
    """A wrong key, and what else ends a run at once."""
    a = site_of(part, "refused", pages_of("refused", 10))
    with Relay(server.port) as relay:
        begun = time.monotonic()
        ended = once(a, relay.url, key="other")
        says = "refused 12 WrongKey: this is not the project's write key", "no page was stored"
        ends(part, "a wrong key", ended, 1, *says)
        part.check("it ends at once", time.monotonic() - begun < 3, time.monotonic() - begun)
        part.same("it uploads nothing", relay.uploads, [])
    for what, more, says in (
        ("another host", {"host": "other.test"}, "refused 10 NoProject"),
        ("no such version", {"version": ("--version", "9.9")}, "refused 15 NoVersion"),
    ):
        ends(part, what, once(a, url_of(server), **more), 1, says)
    leads_on = reply_bytes(301, b"", "Location: https://docs.test/")
    for what, reply, says in (
        ("a server that leads on", leads_on, "leads on to https://docs.test/"),
        ("a server that takes less", reply_bytes(413), "status 413"),
        ("a server of another kind", reply_bytes(200, b"<html>"), "answered with status 200: <html>"),
    ):
        with Relay(server.port, lambda path, pages: reply) as relay:
            ends(part, what, once(a, relay.url), 1, says)
            part.same(f"{what} is asked once", len(relay.asked), 1)
    part.check("nothing of it is served", server.get(target("index.html"), HOST)[1] != b"<h1>refused</h1>\n")


def left_out(part, server):
    """Files that are left out, and a page of just the limit."""
    over = {
        "over.bin": bytes(LIMIT + 1),
        "over.json": "[" + " " * LIMIT + "]",
        "a.mjs": "export {};" + " " * LIMIT,
        "m.js": "import './x.js';\n" * 70_000,
        "bundle.js": "var a;" + " " * LIMIT + "export{a as b};\n//# sourceMappingURL=bundle.js.map\n",
        "latin.js": "// \xe9".encode("latin-1") * LIMIT,
        "taken.js": " " * (LIMIT + 1),
    }
    kept = {"taken.js.part-b2": "x", "full.bin": random.Random(1).randbytes(LIMIT), **pages_of("large", 2)}
    folder = site_of(part, "large", {**over, **kept})
    os.symlink("full.bin", folder / "link.bin")
    says = [f"left out {name}: " for name in (*over, "link.bin")]
    says += ["over.bin: 1,048,577 bytes; a page has 1,048,576 at most", "m.js: 1,190,000 bytes, and a module"]
    says += ["not UTF-8", "stored 7 pages in 1 upload; read back 7 of 7, none differs; left out 8 files"]
    ends(part, "files that are left out", once(folder, url_of(server)), 1, *says)
    ends(part, "files that may be left out", once(folder, url_of(server), "--allow-left-out"), 0, *says)
    is_whole(part, "a page of 1 MiB, and the others", server, folder, but=(*over, "link.bin"))
    folder = site_of(part, "over", {"over.bin": bytes(LIMIT + 1)})
    ends(part, "only files that are left out", once(folder, url_of(server)), 2, "no file that can be stored")


class Reader(threading.Thread):
    """Reads some pages again and again; knows each status that they had."""

    def __init__(self, server, paths):
        super().__init__(daemon=True)
        self.server, self.paths = server, paths
        self.statuses, self.rounds, self.over = {path: set() for path in paths}, 0, False

    def run(self):
        while not self.over:
            for path in self.paths:
                self.statuses[path].add(self.server.get(target(path), HOST)[0])
            self.rounds += 1

    def __enter__(self):
        self.start()
        return self

    def __exit__(self, *_):
        self.over = True
        self.join(hosts.TIME_LIMIT)


def changed(part, server):
    """A site of 1,000 pages in which ten changed."""
    texts = pages_of("first", 997)
    folder = site_of(part, "changed", texts)
    ends(part, "1,000 pages", once(folder, url_of(server), "--replace"), 0, "stored 1,000 pages")
    first_come = ["index.html", "404.html", "s.css"]
    watched = [*first_come, "p/0.html", "p/500.html", "p/996.html"]
    for what, words in (("without --replace", []), ("with --replace", ["--replace"])):
        site_of(part, "changed", {path: f"{what}\n" for path in list(texts)[:10]})
        with Reader(server, watched) as reader:
            ended = once(folder, url_of(server), *words)
        ends(part, f"ten changed, {what}", ended, 0, "stored 1,000 pages", "read back 1,000 of 1,000, none differs")
        says_how_long = "pages were missing for " in ended.stderr
        part.same(f"{what}: it says for how long pages were missing", says_how_long, bool(words))
        kept = first_come if words else watched
        seen = {path: reader.statuses[path] for path in kept}
        part.check(f"{what}: nothing is missing that is asked for", reader.rounds > 1, reader.rounds)
        part.same(f"{what}: pages that stay", seen, {path: {200} for path in kept})
        is_whole(part, f"{what}: all is served", server, folder)
    small = site_of(part, "small", pages_of("small", 200))
    for _ in range(2):
        with Reader(server, ["index.html", "p/7.html", "s.css"]) as reader:
            ended = once(small, url_of(server), "--replace")
        part.check("one upload with --replace: no word of missing pages", "were missing" not in ended.stderr, ended)
    part.same("one upload with --replace: nothing is missing", set().union(*reader.statuses.values()), {200})


def told(part, server):
    """A terminal has one line that is written anew; what is none has plain lines."""
    folder = site_of(part, "lines", pages_of("told", 600))
    ours, theirs = pty.openpty()
    process = subprocess.Popen(line_of(folder, url_of(server)), stdin=subprocess.DEVNULL, stderr=theirs)
    os.close(theirs)
    written = b""
    try:
        while piece := os.read(ours, 65536):
            written += piece
    except OSError:
        pass  # a terminal without its other end
    os.close(ours)
    part.same("on a terminal", process.wait(60), 0)
    lines = written.decode().splitlines()
    anew = written.count(b"\r\x1b[Kpublish: ")
    good = anew > 3 and lines[-1].startswith("publish: stored 603 pages")
    for text in (b"512 of 603 pages, ", b"600 of 603 pages read back"):
        good = good and b"\r\x1b[Kpublish: " + text in written
    part.check("on a terminal: one line, written anew", good, written)
    ended = once(folder, url_of(server))
    plain = all(line.isprintable() and line.startswith("publish: ") for line in ended.stderr.splitlines())
    part.check("plain lines where there is none", plain and "\npublish: 512 of 603 pages, " in ended.stderr, ended)


def differing(part, server):
    """What is not served as it was stored has a line of its own."""
    a, b = site_of(part, "differing-a", pages_of("A", 9)), site_of(part, "differing-b", pages_of("B", 3))
    ends(part, "A under a name", once(a, url_of(server), "--replace", "--build", "a-1"), 0)
    ends(part, "B over it", once(b, url_of(server), "--replace"), 0)
    ended = once(a, url_of(server), "--replace", "--build", "a-1")
    says = ["differs /en/main/index.html: other bytes are served (11, and 11 were stored)"]
    says += ["differs /en/main/p/8.html: status 404", "read back 12 of 12, 12 differ", "run again with another --build"]
    ends(part, "A under that name again", ended, 1, *says)

    def spoil(path, pages):
        """Another upload of a page, when the one before it is read back."""
        if path == "/en/main/404.html":
            upload_page(server, "index.html", "text/plain", "<h1>A</h1>\n")

    with Relay(server.port, spoil) as relay:
        says = "differs /en/main/index.html: its media type is text/plain, and text/html; charset=utf-8 was stored"
        ends(part, "a media type that is another", once(a, relay.url), 1, says, "read back 12 of 12, 1 differs")
    ended = once(site_of(part, "many", pages_of("many", 2100)), url_of(server))
    ends(part, "a sample of more than 2,000", ended, 0, "read back 2,000 of 2,103, none differs")
    ended = once(part.path("many"), url_of(server), "--verify", "all")
    ends(part, "all of more than 2,000", ended, 0, "read back 2,103 of 2,103")
    ended = once(a, url_of(server), "--verify", "none")
    ends(part, "none", ended, 0, "stored 12 pages in 1 upload; none was read back")


def waited(part, server):
    """A server that cannot answer for a while is asked again, and an upload whose answer was lost is done once."""
    folder = site_of(part, "waited", pages_of("waited", 300))
    replies = [reply_bytes(502), reply_bytes(503, b"503 Service Unavailable\n"), reply_bytes(504)]
    replies += [reply_bytes(503, b'{"refused":23}')]
    with Relay(server.port, lambda path, pages: replies.pop(0) if replies else None) as relay:
        ended = once(folder, relay.url)
        says = ["cannot answer now (502); waiting for it", "(503)", "(504)", "refused 23 Store"]
        ends(part, "a server that is away", ended, 0, *says, "asking again in 0.5 seconds", "again in 4.0 seconds")
        part.same("what was uploaded", relay.uploads, [256, 47])
    with Relay(server.port, lost=1) as relay:
        ended = once(folder, relay.url)
        says = "stored 303 pages in 2 uploads; read back 303 of 303, none differs"
        ends(part, "an answer that was lost", ended, 0, "does not answer", says)
        part.same("it is sent again", relay.uploads, [256, 256, 47])
    with Relay(server.port, lambda path, pages: reply_bytes(503)) as relay:
        ended = once(folder, relay.url, "--wait", "1.2")
        ends(part, "a server that stays away", ended, 3, "waited for 1.2 seconds (--wait)")


# ---- what a browser finds


def scripts(part, server):
    """A script over the limit, in a page and in a worker: the next script finds what it has."""
    if not browser.program():
        part.skip("there is no chromium, so no browser runs scripts in parts")
        return
    folder = site_of(part, "scripts", script_site("first"))
    ended = once(folder, url_of(server), "--replace")
    ends(part, "scripts in parts", ended, 0, "and goes up in 2 parts, with a loader", "none differs")
    with browser.Page(HOST, server.port, part.room) as page:
        runs_scripts(part, page, "first")
        parts = [server.get(target(f"big.js.part-a{number}"), HOST)[1] for number in (1, 2)]
        part.check("each part is text", all(len(data) <= LIMIT and data.decode() for data in parts))
        loader = server.get(target("big.js"), HOST)[1]
        site_of(part, "scripts", script_site("second"))
        ends(part, "another build", once(folder, url_of(server)), 0, "none differs")
        runs_scripts(part, page, "second")
        kept = [server.get(target(f"big.js.part-a{number}"), HOST)[1] for number in (1, 2)]
        part.same("who has the loader of the first build has its parts", kept, parts)
        site_of(part, "scripts", script_site("third"))
        ends(part, "a third build", once(folder, url_of(server)), 0, "none differs")
        runs_scripts(part, page, "third")
        status = upload_page(server, "big.js", "text/javascript", loader.decode())
        part.same("an old loader over new parts", status, 200)
        page.open(f"http://{HOST}{target('index.html')}?stale")
        said = page.wait_for("wrong")
        part.check("it says so", said and "part 1 of 2 is of another build; load the page again" in said, said)


# Its characters have two, three and four bytes, so that parts end within them unless that is looked after.
FILLING = "/* " + "é€𝒳" * 120_000 + " */\n"

# The text of a script is fetched and run without an element of its own, as jQuery does it.
RUN_TEXT = """
var request = new XMLHttpRequest(), one = document.createElement('script');
request.open('GET', 'old.js', false);
request.send();
one.text = request.responseText;
document.head.appendChild(one).parentNode.removeChild(one);
"""


def script_site(build):
    """A page and a worker that go by scripts over the limit."""
    page = f"""<!doctype html><meta charset='utf-8'>
<script>var wrong = '', answer = ''; onerror = text => {{ wrong += text; }};</script>
<script src='big.js' data-kind='odd'></script><script src='small.js'></script>
<script>{RUN_TEXT}</script>
<script>new Worker('lib/work.js').onmessage = event => {{ answer = event.data; }};</script>
"""
    big = f"""\ufeff'use strict';
var first = '{build}';
let second = 'é€𝒳';
const from = document.currentScript.src, kind = document.currentScript.dataset.kind;
{FILLING}
function third() {{ return [first, second].join(' '); }}
class Fourth {{}}
// no line behind this one"""
    small = "var found = [third(), typeof Fourth, kind, from.split('?')[0].split('/').slice(3).join('/')].join(' ');\n"
    return {
        "index.html": page,
        "big.js": big,
        "small.js": small,
        "old.js": f"var old = '{build}';\n{FILLING}",
        "lib/work.js": "importScripts('deep.js'); postMessage(typeof lent + ' ' + deep());\n",
        "lib/deep.js": f"let lent = 1;\n{FILLING}function deep() {{ return '{build}'; }}\n",
    }


def runs_scripts(part, page, build):
    page.open(f"http://{HOST}{target('index.html')}?{build}")
    answer = page.wait_for("answer")
    part.same(f"{build}: the worker's script", answer, f"number {build}")
    wanted = f"{build} é€𝒳 function odd en/main/big.js"
    part.same(f"{build}: the page's script", page.value("found"), wanted)
    part.same(f"{build}: a script without an element", page.value("old"), build)
    part.same(f"{build}: no error", page.value("wrong"), "")


def packages(part, server):
    """Search in the sites of Debian's packages."""
    sphinx = "Number((document.body.innerText.match(/found ([0-9]+) page/) || [])[1])"
    mkdocs = "document.querySelectorAll('#mkdocs-search-results article').length"
    large = ["contents.html", "genindex-all.html", "searchindex.js"]
    for name, there, words, left, address, count in (
        ("python3-doc", PYTHON, ["--allow-left-out"], large, "search.html?q=asyncio", sphinx),
        ("mkdocs-doc", MKDOCS, [], [], "index.html?q=theme", mkdocs),
    ):
        if not there.is_dir():
            part.skip(f"{name} is not installed, so its site is not published")
            continue
        folder = copy_of(part, name, there)
        ended = once(folder, url_of(server), "--replace", *words)
        ends(part, f"{name}", ended, 0, "none differs")
        is_whole(part, f"{name}, served", server, folder, but=left)
        if not browser.program():
            part.skip(f"there is no chromium, so no browser searches {name}")
            continue
        with browser.Page(HOST, server.port, part.room) as page:
            page.open(f"http://{HOST}{target(address)}")
            found = page.wait_for(count)
            print(f"    {name}: {found} results of a search", flush=True)
            part.check(f"{name}: a search finds more than ten pages", found and found > 10, found)


# ---- what the tool knows of the host


def types(part):
    media_of = module_of("publish").media_of
    text = "; charset=utf-8"
    for name, media in (
        ("feed.rss", "application/rss+xml"),
        ("feed.atom", "application/atom+xml"),
        ("sitemap.xml", "application/xml"),
        ("sitemap.xml.gz", "application/gzip"),
        ("api.yaml", "text/plain" + text),
        ("api.YML", "text/plain" + text),
        ("book.toml", "text/plain" + text),
        ("build.log", "text/plain" + text),
        ("a.jsonld", "application/ld+json"),
        ("a.ipynb", "application/x-ipynb+json"),
        ("a.epub", "application/epub+zip"),
        ("a.js.map", "application/json"),
        ("site.webmanifest", "application/manifest+json"),
        ("a.woff2", "font/woff2"),
        ("a.avif", "image/avif"),
        ("a.wasm", "application/wasm"),
        ("a.js", "text/javascript" + text),
        ("a.mjs", "text/javascript" + text),
        ("a.css", "text/css" + text),
        ("a.html", "text/html" + text),
        ("a.svg", "image/svg+xml"),
        ("_sources/a.rst.txt", "text/plain" + text),
        ("objects.inv", "application/octet-stream"),
        ("a.b/LICENSE", "text/plain" + text),
        ("a.unknown", "application/octet-stream"),
    ):
        part.same(f"the media type of {name}", media_of(name, "text"), media)
    part.same("that of a text that is not UTF-8", media_of("a.html", None), "text/html")
    page = "\ufeff\n<!DOCTYPE html>\n<p>"
    part.same("that of a page without a suffix", media_of("about", page), "text/html" + text)
    part.same("that of bytes without a suffix", media_of("about", None), "application/octet-stream")


def rows_of(text, head):
    """The rows of a table of a document, by its head line."""
    lines = text.split(head + "\n", 1)[1].splitlines()[1:]
    end = next((place for place, line in enumerate(lines) if not line.startswith("|")), len(lines))
    return [[cell.strip() for cell in line.strip("|").split(" | ")] for line in lines[:end]]


def documents(part):
    """The tool has the limits and refusals of docs/SCRIPTS.md."""
    ours, text = module_of("publish"), (DOCS / "SCRIPTS.md").read_text()
    limits = {row[0]: row[1] for row in rows_of(text, "| Thing | Limit | Beyond it | Constant |")}
    part.same("the limit of a page", limits["a page"], f"{ours.MOST_PAGE:,} bytes")
    part.same("the most pages of an upload", limits["pages of one upload"], str(ours.MOST_PAGES))
    part.same("the limit of a body", limits["a body"], f"{ours.MOST_BODY:,} bytes")
    part.check("the length of a media type", limits["TYPE"].startswith("1 to 100 bytes"), limits)
    long = [media for media in ours.TYPES.values() if len(media + "; charset=utf-8") > 100]
    part.same("media types that are longer", long, [])
    refusals = rows_of(text, "| Refused | What is wrong | Over HTTP |")
    over_http = {int(number): name for number, name in (row[0].strip("`").split() for row in refusals if row[2])}
    known = {number: name for number, (name, _) in ours.REFUSALS.items()}
    part.same("the refusals of a push or an upload", known, over_http)
    path, key = limits["PATH"], limits["PASS, WKEY; KEY"]
    part.check("the length of a path", f"1 to {ours.MOST_PATH} bytes, no control byte" in path, path)
    part.check("a retry key", "1 to 64 bytes" in key and re.fullmatch("[0-9a-f]{64}", ours.key_of(b"a", b"b")), key)
    by_number = [over_http.get(number) for number in (ours.NO_LANG, ours.INACTIVE, ours.STORE, ours.OUT_OF_MEMORY)]
    part.same("those that it knows by number", by_number, ["NoLang", "Inactive", "Store", "OutOfMemory"])


# ---- what takes an operator


class Project:
    """A project in a file of its own, which is served between commands."""

    def __init__(self, part, store, host=HOST, is_made=True):
        self.part, self.store = part, part.path(store)
        if is_made:
            make(part.program, self.store, f"new-project {host} en main public {KEY}")

    def command(self, line):
        return command(self.part.program, self.store, line)

    def serve(self, *words):
        return self.part.serve(self.store, 1_000_000, *words)


def pushes(part):
    folder = SITE / "folder"
    project = Project(part, "pushes.docs")

    def push(name, *words, version=()):
        with project.serve() as server:
            return once(folder, url_of(server), "--push", name, *words, version=version)

    says = "push of the branch main: made main, active", "stored 5 pages in 1 upload"
    ends(part, "a push of the default branch", push("branch:main"), 0, *says)
    says = "push of the branch main: main is known", "stored 5 pages in 1 upload"
    ends(part, "the push again", push("branch:main"), 0, *says)
    ended = push("tag:v1.0.0", "--build", "7")
    ends(part, "a push of a tag", ended, 1, "made v1.0.0, inactive", "refused 17 Inactive", "no page was stored")
    says = f"docs_host activate {HOST} v1.0.0", f"docs_host add-rule {HOST} 1 tag semver activate"
    ends(part, "it says what an operator has to do", ended, 1, *says)
    project.command(f"activate {HOST} v1.0.0")
    says = "stored 5 pages in 1 upload; read back 5 of 5, none differs"
    ends(part, "the same call then", push("tag:v1.0.0", "--build", "7"), 0, says)
    project.command(f"add-rule {HOST} 1 tag semver activate")
    ends(part, "a push of a tag with a rule", push("tag:v2.0.0"), 0, "made v2.0.0, active", "pages were missing for")
    ended = push("branch:Feature/X", version=("--version", "other"))
    says = "the version of the branch Feature/X is feature-x, and not other"
    ends(part, "another version than the push's", ended, 1, says)
    ends(part, "a branch whose slug is taken", push("branch:V2.0.0"), 1, "refused 16 SlugTaken")
    part.same("a push of neither", push("2.0").returncode, 2)


def private(part):
    folder = SITE / "folder"
    project = Project(part, "private.docs")
    for line in (f"push {HOST} {KEY} k0 branch main", f"make-private {HOST} main", f"add-pass {HOST} {PASS}"):
        project.command(line)
    with project.serve() as server:
        says = "where the version is private, this takes a pass that opens it: --pass"
        ended = once(folder, url_of(server))
        ends(part, "a private version without a pass", ended, 1, says)
        part.same("it names one page", ended.stderr.count("differs "), 1)
        ends(part, "with a pass that does not open it", once(folder, url_of(server), "--pass", PASS), 1, says)
        ends(part, "unread", once(folder, url_of(server), "--verify", "none"), 0, "none was read back")
    project.command(f"grant {HOST} {PASS} main")
    project.command(f"add-redirect {HOST} 1 exact 301 /en/main/index.html https://elsewhere.test/ --force")
    with project.serve() as server:
        ended = once(folder, url_of(server), "--pass", PASS)
        says = "differs /en/main/index.html: status 301, which leads to https://elsewhere.test/"
        ends(part, "with the pass, and a redirect before a page", ended, 1, says, "read back 5 of 5, 1 differs")
    project.command(f"drop-redirect {HOST} 1")
    with project.serve() as server:
        ends(part, "with the pass", once(folder, url_of(server), "--pass", PASS), 0, "read back 5 of 5, none differs")


def away(part):
    """A server that is stopped for twenty seconds in the middle."""
    project = Project(part, "away.docs")
    project.command(f"push {HOST} {KEY} k0 branch main")
    folder = site_of(part, "away", pages_of("away", 1200))
    words = ("--port", str(hosts.free_port()))
    with project.serve(*words) as first:
        process = begin(line_of(folder, url_of(first), "--replace"))
        lines = [process.stderr.readline() for _ in range(2)]
        first.kill(signal.SIGTERM)
    time.sleep(20)
    with project.serve(*words) as second:
        rest = process.communicate(timeout=60)[1]
        part.check("it had begun", "512 of 1,203 pages" in lines[1], lines)
        good = process.returncode == 0 and "waiting for it" in rest
        good = good and "read back 1,203 of 1,203, none differs" in rest
        part.check("a server that is stopped for twenty seconds", good, (process.returncode, rest))
        is_whole(part, "all is served then", second, folder)


# ---- README, and the recipes of docs/publish.md


def readme(part):
    """The lines of README that serve and publish the example, as they stand there but for the port."""
    below = (hosts.ROOT / "README.md").read_text().split("## A site in a browser\n")[1]
    lines = re.search(r"(?:^    .*\n)+", below, re.MULTILINE)[0].replace("8080", str(hosts.free_port()))
    room = Path(part.path("readme"))
    room.mkdir()
    for name, place in (("docs_host", part.program), ("examples", hosts.ROOT / "examples"), ("bin", hosts.ROOT / "bin")):
        (room / name).symlink_to(place)
    script = f"{lines}./docs_host get localhost / --store site.db\nkill $!\n"
    given = {"cwd": room, "capture_output": True, "encoding": "utf-8", "timeout": hosts.TIME_LIMIT}
    ended = subprocess.run(["bash", "-e", "-c", script], stdin=subprocess.DEVNULL, **given)
    part.check("README: a site in a browser", ended.returncode == 0 and "read back 5 of 5, none differs" in ended.stderr, ended)
    part.check("README: the site's address", "\n302 /en/latest/ 0\n" in ended.stdout, ended.stdout)
    part.check("README: in five lines", len(lines.splitlines()) == 5, lines)


def block_of(title, language, document="publish.md"):
    """The blocks of a language below a title of a document."""
    below = (DOCS / document).read_text().split(f"## {title}\n")[1].split("\n## ")[0]
    return [block.split("```")[0] for block in below.split(f"```{language}\n")[1:]]


def steps_of(recipe, mark):
    """The shell steps of a recipe: what stands behind the mark, or below it where that is `|`."""
    lines, steps = recipe.splitlines(), []
    for place, line in enumerate(lines):
        text = line.strip()
        if not text.startswith(mark):
            continue
        depth = len(line) - len(line.lstrip())
        rest = text.removeprefix(mark).strip()
        below = []
        for other in lines[place + 1 :]:
            if other.strip() and len(other) - len(other.lstrip()) <= depth:
                break
            below.append(other)
        steps.append("\n".join(below) if rest == "|" else rest)
    return steps


# It stands for MkDocs: the site is the folder `docs` of the place where it runs.
BUILDER = '#!/bin/sh\n[ "$1 $2" = "build --site-dir" ] && rm -rf "$3" && cp -r docs "$3"\n'


class Recipe:
    """A repository with documentation, and a project; each shell step runs in the repository."""

    def __init__(self, part, name, is_made=True):
        self.part = part
        self.repository, self.programs = Path(part.path(name)), Path(part.path(f"{name}-bin"))
        self.programs.mkdir()
        (self.repository / "bin").mkdir(parents=True)
        self.project = Project(part, f"{name}/docs.db", "docs.example.org", is_made)
        for program, text in (("mkdocs", BUILDER), ("pip", "#!/bin/sh\n")):
            self.stand_in(program, text)
        os.symlink(part.program, self.programs / "docs_host")
        shutil.copy(TOOL, self.repository / "bin" / "publish")
        self.given = {"PATH": f"{self.programs}:{os.environ['PATH']}", "DOCS_KEY": KEY, "HOME": part.path(".")}

    def stand_in(self, program, text):
        """A program that stands for another."""
        (self.programs / program).write_text(text)
        (self.programs / program).chmod(0o755)

    def write(self, text):
        for name in ("index.html", "guide/index.html"):
            page = self.repository / "docs" / name
            page.parent.mkdir(parents=True, exist_ok=True)
            page.write_text(f"{text}\n")

    def shell(self, step, typed="", **given):
        line, given = ["bash", "-e", "-c", step], {**self.given, **given}
        texts = {"input": typed, "capture_output": True, "encoding": "utf-8"}
        return subprocess.run(line, cwd=self.repository, env=given, timeout=60, **texts)

    def steps(self, what, steps, **given):
        """Runs the steps of a job one after another, and gives how the last one ended."""
        with self.project.serve() as server:
            for step in steps:
                ended = self.shell(step, DOCS_URL=url_of(server), **given)
                self.part.check(f"{what}: {step.strip().splitlines()[0].strip()}", ended.returncode == 0, ended)
        return ended

    def serves(self, what, text, *addresses, words=()):
        with self.project.serve() as server:
            for address in addresses:
                head = "".join(f"{line}\r\n" for line in ("Host: docs.example.org", *words))
                reply = hosts.read_reply(hosts.ask(server.port, f"GET {address} HTTP/1.1\r\n{head}\r\n".encode()))
                self.part.same(f"{what}: {address}", reply, (200, f"{text}\n".encode()))


def rule_first(part, recipe):
    for step in block_of("A rule first", "sh"):
        ended = recipe.shell(step)
        part.check("the rule", (ended.returncode, ended.stdout) == (0, "ok\n"), ended)


def github(part):
    recipe = Recipe(part, "github")
    rule_first(part, recipe)
    steps = steps_of(block_of("GitHub Actions", "yaml")[0], "- run:")
    part.same("the steps of GitHub Actions", len(steps), 3)

    def build(kind, name, number, text):
        recipe.write(text)
        given = {"REF_TYPE": kind, "REF_NAME": name, "RUN_ID": number, "RUN_ATTEMPT": "1"}
        given = {f"GITHUB_{word}": text for word, text in given.items()}
        return recipe.steps(f"GitHub, {kind} {name}", steps, **given)

    ends(part, "GitHub: a branch", build("branch", "main", "1", "first"), 0, "made main, active", "stored 2 pages")
    ended = build("tag", "v1.2.0", "2", "released")
    ends(part, "GitHub: a tag", ended, 0, "made v1.2.0, active", "read back 2 of 2, none differs")
    ends(part, "GitHub: the branch again", build("branch", "main", "3", "second"), 0, "main is known", "stored 2 pages")
    recipe.serves("GitHub", "second", "/en/main/", "/en/latest/guide/")
    recipe.serves("GitHub", "released", "/en/v1.2.0/", "/en/stable/guide/")


def gitlab(part):
    recipe = Recipe(part, "gitlab")
    rule_first(part, recipe)
    # A runner runs the lines of `script` in one shell.
    script = "\n".join(steps_of(block_of("GitLab CI", "yaml")[0].split("script:\n")[1], "- "))

    def build(number, text, tag="", branch=""):
        recipe.write(text)
        of = {"CI_COMMIT_TAG": tag} if tag else {"CI_COMMIT_BRANCH": branch}
        return recipe.steps(f"GitLab, {tag or branch}", [script], CI_JOB_ID=number, **of)

    read = "read back 2 of 2, none differs"
    ends(part, "GitLab: a branch", build("1", "first", branch="main"), 0, "made main, active", read)
    ends(part, "GitLab: a tag", build("2", "released", tag="v1.2.0"), 0, "made v1.2.0, active", read)
    recipe.serves("GitLab", "first", "/en/main/", "/en/latest/guide/")
    recipe.serves("GitLab", "released", "/en/v1.2.0/", "/en/stable/guide/")


def rollback(part):
    if not shutil.which("git"):
        part.skip("there is no git, so no commit is rolled back")
        return
    recipe = Recipe(part, "rollback")
    recipe.project.command(f"push docs.example.org {KEY} k0 branch main")
    as_one = "git -c user.name=a -c user.email=a@docs.test"

    def commit(text):
        recipe.write(text)
        ended = recipe.shell(f"git init -q; git add docs; {as_one} commit -qm '{text}'; git rev-parse HEAD")
        part.same(f"a commit, {text}", ended.returncode, 0)
        return ended.stdout.strip()

    old, publishing = commit("old"), block_of("Pages that are gone", "sh")
    (recipe.repository / "docs" / "added.html").write_text("added\n")
    commit("new")
    recipe.steps("the newer commit", publishing)
    recipe.serves("the newer commit", "new", "/en/main/", "/en/main/guide/")
    recipe.serves("the newer commit", "added", "/en/main/added.html")
    recipe.steps("a rollback", block_of("A rollback", "sh"), COMMIT=old)
    recipe.serves("a rollback", "old", "/en/main/", "/en/main/guide/")
    with recipe.project.serve() as server:
        status = server.get("/en/main/added.html", "docs.example.org")[0]
        part.same("a rollback: what came later is gone", status, 404)


def private_recipe(part):
    recipe = Recipe(part, "next")
    recipe.given["DOCS_PASS"] = PASS
    recipe.write("next")
    operator, build = block_of("A private version", "sh")
    ended = recipe.shell(operator)
    part.check("a private version: the operator", ended.returncode == 0 and ended.stdout.count("ok\n") == 4, ended)
    ended = recipe.steps("a private version", [build])
    ends(part, "a private version: the build", ended, 0, "next is known", "read back 2 of 2, none differs")
    recipe.serves("a private version", "next", "/en/next/", words=[f"Docs-Pass: {PASS}"])
    with recipe.project.serve() as server:
        part.same("a private version: without a pass", server.get("/en/next/", "docs.example.org")[0], 404)
