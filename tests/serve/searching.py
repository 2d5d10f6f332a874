"""Search in sites whose index is over the limit of a page: the part `searching` of tests/serve/run.

Each site has 250 pages, is made by its builder, and is searched in a browser: from the host, and as the plain files that it is."""

import functools
import http.server
import json
import os
import random
import shutil
import subprocess
import threading

import browser
from host import make
from parts import Skip
from publishing import HOST, KEY, LIMIT, ends, once, site_of, target, upload_page, url_of

PAGES = 250
# How long a browser may take to read an index.
SECONDS = 300
WORDS = ["needle", "haystack", "bodo"]

# Which builder is run with which words, and how a page is asked and what it has found then.
MATERIAL = "Number((document.querySelector('.md-search-result__meta').innerText.match(/^([0-9]+) match/) || [])[1])"
MKDOCS = "document.querySelectorAll('#mkdocs-search-results article').length"
SPHINX = "Number((document.body.innerText.match(/found ([0-9]+) page/) || [])[1])"
BUILDERS = {
    "MkDocs": ("mkdocs", "build -q -f mkdocs.yml --site-dir", "index.html", MKDOCS, "search/search_index.json"),
    "Material": ("mkdocs", "build -q -f material.yml --site-dir", "index.html", MATERIAL, "search/search_index.json"),
    "Sphinx": ("sphinx-build", "-q -b html .", "search.html", SPHINX, "searchindex.js"),
}


def searching(part):
    if not browser.program():
        raise Skip("there is no chromium")
    store = part.path("search.docs")
    make(part.program, store, f"new-project {HOST} en main public {KEY}", f"push {HOST} {KEY} k0 branch main")
    source = site_of(part, "source", dict(source_of()))
    with part.serve(store, 1_000_000) as server:
        joiner(part, server)
        for name in BUILDERS:
            searches(part, server, source, name)
    large(part, store)


def source_of():
    """The texts of a documentation of many words."""
    chance = random.Random(1)
    syllables = [a + b for a in "bcdfghklmnprstvz" for b in "aeiou"]
    known = ["".join(chance.choices(syllables, k=chance.randint(2, 4))) for _ in range(6000)]
    for number in range(PAGES):
        lines = [" ".join(chance.choices(known, k=100)) for _ in range(11)]
        marks = ["needle"] * (number % 3 == 0) + ["haystack"] * (number == 7) + ["bodo"] * (number % 40 == 1)
        name = f"p{number}" if number else "index"
        # (the index of Sphinx has each word of a page once)
        yield f"docs/{name}.md", "\n\n".join([f"# Page {number}", *lines[:4], *marks, ""])
        yield f"{name}.rst", "\n\n".join([":orphan:", f"Page {number}\n========", *lines, *marks, ""])
    yield "conf.py", "project = 'x'\nexclude_patterns = ['docs']\nsuppress_warnings = ['toc']\n"
    yield "mkdocs.yml", "site_name: x\ntheme: mkdocs\n"
    yield "material.yml", "site_name: x\ntheme: {name: material, font: false}\n"


class Plain(http.server.SimpleHTTPRequestHandler):
    """Plain files."""

    def log_message(self, *_):
        pass


def results_of(part, port, page, count, kept):
    """How many results each word has, for a browser with a memory of this name: both sites have the same addresses."""
    found, room = [], part.room / kept
    room.mkdir(exist_ok=True)
    for word in WORDS:
        with browser.Page(HOST, port, room) as there:
            there.open(f"http://{HOST}{target(page)}?q={word}")
            found.append(there.wait_for(count, SECONDS))
    return found


def plain_results(part, folder, page, count):
    """The same of the files as they are."""
    root = part.room / "plain" / folder.name
    (root / "en").mkdir(parents=True)
    os.symlink(folder, root / "en" / "main")
    with http.server.ThreadingHTTPServer(("127.0.0.1", 0), functools.partial(Plain, directory=str(root))) as plain:
        threading.Thread(target=plain.serve_forever, daemon=True).start()
        found = results_of(part, plain.server_address[1], page, count, f"plain-{folder.name}")
        plain.shutdown()
    return found


def searches(part, server, source, name):
    program, words, page, count, index = BUILDERS[name]
    folder = part.room / name
    if not shutil.which(program):
        return part.skip(f"there is no {program}, so no site of {name} is searched")
    built = subprocess.run([program, *words.split(), folder], cwd=source, capture_output=True, encoding="utf-8", timeout=900)
    if built.returncode:
        return part.skip(f"{program} builds no site of {name}: {built.stderr.strip().splitlines()[-1:]}")
    part.check(f"{name}: the index is over the limit", (folder / index).stat().st_size > LIMIT)
    wanted = plain_results(part, folder, page, count)
    ended = once(folder, url_of(server), "--replace")
    ends(part, f"{name} is published", ended, 0, f"{index} has ", "What makes it smaller: ", "none differs")
    first = ended.stderr.partition(" pages, ")[0]
    part.check(f"{name}: what makes it smaller is said before a page goes up", "What makes it smaller: " in first, ended.stderr)
    found = results_of(part, server.port, page, count, f"served-{name}")
    print(f"    {name}: {(folder / index).stat().st_size:,} bytes; results {found}, over plain files {wanted}", flush=True)
    part.check(f"{name}: there are results", all(wanted), wanted)
    part.same(f"{name}: as many results as over plain files", found, wanted)


# ---- what joins an index

# A script that reads the index in each way: its length, or why it failed.
READER = """'use strict';
var told = {}, strict = (function () { return this === undefined; })();
function tell(name, size) { told[name] = size; }
fetch('search/search_index.json').then(r => r.json()).then(it => tell('fetch', it.docs.length), e => tell('fetch', e.message));
fetch(new Request('other/search_index.json')).then(r => r.text()).then(it => tell('small', it));
for (const kind of ['', 'text', 'json', 'blob', 'arraybuffer']) {
  const request = new XMLHttpRequest();
  request.open('GET', new URL('search/search_index.json', location));
  request.responseType = kind;
  request.addEventListener('load', () => {
    const it = request.response;
    tell('xhr ' + kind, request.status + ' ' + (it.size || it.byteLength || it.length || it.docs.length));
  });
  request.send();
}
new Worker('search/worker.js').onmessage = event => tell('worker', event.data);
"""

# As MkDocs' worker reads it: by its bare name.
WORKER = """
const request = new XMLHttpRequest();
request.addEventListener('load', () => postMessage(request.status + ' ' + JSON.parse(request.responseText).docs.length));
request.open('GET', 'search_index.json');
request.send();
"""
READS = 8


def index_site(build, count):
    docs = [{"location": f"{number}/", "title": build, "text": "é€𝒳 " * 60} for number in range(count)]
    text = json.dumps({"config": {}, "docs": docs}, ensure_ascii=False)
    page = "<!doctype html><meta charset=utf-8><script src=assets/javascripts/bundle.1.min.js></script>"
    files = {"index.html": page, "search/search_index.json": text, "other/search_index.json": "7"}
    return files | {"assets/javascripts/bundle.1.min.js": READER, "search/worker.js": WORKER}


def joiner(part, server):
    """An index in parts, which a script reads in each way that there is."""
    kept = None
    for build, count in (("first", 6000), ("second", 7000)):
        site = index_site(build, count)
        folder = site_of(part, "index", site)
        ended = once(folder, url_of(server))
        parts = -(-len(site["search/search_index.json"].encode()) // LIMIT)
        says = f"goes up in {parts} parts, joined by assets/javascripts/bundle.1.min.js and search/worker.js"
        ends(part, f"{build}: an index in parts", ended, 0, says, "none differs")
        with browser.Page(HOST, server.port, part.room) as page:
            page.open(f"http://{HOST}{target('index.html')}?{build}")
            page.wait_for(f"Object.keys(told).length == {READS}", SECONDS)
            told = json.loads(page.value("JSON.stringify(told)"))
            size = len(site["search/search_index.json"].encode())
            text = len(site["search/search_index.json"].encode("utf-16-le")) // 2
            wanted = {"fetch": count, "small": "7", "xhr ": f"200 {text}", "xhr text": f"200 {text}"}
            wanted |= {"xhr json": f"200 {count}", "xhr blob": f"200 {size}", "xhr arraybuffer": f"200 {size}"}
            wanted |= {"worker": f"200 {count}"}
            part.same(f"{build}: what the script reads", told, wanted)
            part.same(f"{build}: the script is strict", page.value("strict"), True)
        first = server.get(target("search/search_index.json.part-a1"), HOST)
        kept = kept or first
        part.same(f"{build}: who has the first index has its parts", first, kept)
    old = server.get(target("search/search_index.json"), HOST)[1].decode()
    once(site_of(part, "index", index_site("third", 8000)), url_of(server))
    once(site_of(part, "index", index_site("fourth", 9000)), url_of(server))
    part.same("an old index over new parts", upload_page(server, "search/search_index.json", "application/json", old), 200)
    with browser.Page(HOST, server.port, part.room) as page:
        page.open(f"http://{HOST}{target('index.html')}?old")
        said = page.wait_for("told.fetch", SECONDS)
        part.check("it says so", "is of another build; load the page again" in str(said), said)


def large(part, store):
    """An index that no known script reads, and pages over the limit, with what in them is large."""
    text = "<p>some text\n" * 90_000
    picture = '<img src="data:image/png;base64,' + "A" * (LIMIT + 1) + '">\n'
    files = {
        "index.html": "<p>one\n",
        "search/search_index.json": "[" + " " * LIMIT + "]",
        "search/worker.js": "// reads nothing\n",
        "text.html": text,
        "deep/picture.html": f"<h1>one</h1>\n{picture}",
        "script.html": f"<p>\n<script>{'var x;' * 200_000}</script>\n<style>{'a{}' * 100}</style>",
        "svg.htm": f"<svg>{'<path d=1/>' * 100_000}</svg>",
    }
    with part.serve(store, 1_000_000) as server:
        ended = once(site_of(part, "too-large", files), url_of(server))
    smaller = "no script that is known reads it. What makes it smaller: in mkdocs.yml, 'indexing: sections' or"
    says = [f"left out search/search_index.json: 1,048,578 bytes; a page has {LIMIT:,} at most, and {smaller}"]
    says += [f"left out text.html: 1,170,000 bytes; a page has {LIMIT:,} at most; of them 900,000 are text, 270,000 are tags"]
    says += [" are pictures and other data within addresses (the largest piece has 1,048,599, in line 2)"]
    says += ["of them 1,200,017 are scripts (the largest piece has 1,200,017, in line 2), 315 are styles"]
    says += ["of them 1,100,011 are pictures as <svg>", "left out 5 files"]
    ends(part, "pages over the limit", ended, 1, *says)
