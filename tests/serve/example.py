"""The example site, published and read: the part `site` of tests/serve/run.

`examples/site/run` prints the page; after `bin/publish` a browser shows the site, and fetches its style and its picture."""

import os
import shutil
import subprocess
from pathlib import Path

import browser
import publishing
from host import make
from parts import HOST, KEY
from publishing import SITE


def site(part):
    given = {**os.environ, "DOCS_HOST": part.program}
    ended = subprocess.run([SITE / "run"], env=given, capture_output=True, encoding="utf-8", timeout=120)
    wanted = (SITE / "folder" / "guide" / "index.html").read_text()
    part.check("examples/site/run", ended.returncode == 0 and ended.stdout.endswith(wanted), ended)
    store = part.path("site.docs")
    make(part.program, store, f"new-project {HOST} en main public {KEY}", f"push {HOST} {KEY} k0 branch main")
    with part.serve(store, 1000, "--log") as server:
        ended = publishing.once(SITE / "folder", publishing.url_of(server))
        part.check("bin/publish", ended.returncode == 0, ended)
        browse(part, server)


def browse(part, server):
    if not browser.program():
        part.skip("there is no chromium, so no browser reads the site")
        return
    words = [*browser.words(HOST, server.port, part.room), "--virtual-time-budget=5000"]

    def once(*more):
        told = len(server.told())
        try:
            line = [*words, *more, f"http://{HOST}/en/latest/"]
            ended = subprocess.run(line, stdin=subprocess.DEVNULL, capture_output=True, timeout=60)
        except subprocess.TimeoutExpired:
            return b"(no end after 60 seconds)", server.told_at_last()[told:]
        return ended.stdout, server.told_at_last()[told:]

    page, lines = once("--dump-dom")
    part.check("the browser's page", b"<h1>Kettle</h1>" in page, page)
    for name in ("/en/latest/_static/style.css", "/en/latest/_static/kettle.svg"):
        part.check(f"the browser fetched {name}", any(line.startswith(f"200 GET {name} ") for line in lines.splitlines()), lines)
    picture = part.path("picture.png")
    _, lines = once(f"--screenshot={picture}")
    drawn = Path(picture).read_bytes() if os.path.exists(picture) else b""
    part.check("the browser's picture", drawn.startswith(b"\x89PNG") and len(drawn) > 2000, (len(drawn), lines))
    if os.environ.get("KEEP_PICTURE"):
        shutil.copy(picture, os.environ["KEEP_PICTURE"])
