"""Files that the program itself makes, and the words of a bench: what the programs of bench/ share."""

import argparse
import os
import re
import shutil
import subprocess
import sys
from pathlib import Path
from typing import NamedTuple

import host as hosts
from host import Broken, Server

HOST, KEY = "docs.test", "wkey-1"

# The most bytes of a script, the most pages of an upload, and the most bytes of their texts.
MOST_SCRIPT, MOST_PAGES, MOST_TEXT = 1_000_000, 250, 3_000_000


class Size(NamedTuple):
    """What a file has. The other projects have so many redirects each."""

    versions: int = 10
    pages: int = 10
    others: int = 10
    redirects: int = 10
    passes: int = 0
    others_redirects: int = 0
    defaults: int = 0


class Missing(Exception):
    """A tool that is not installed."""


def say(line):
    print(f"bench: {line}", file=sys.stderr, flush=True)


# ---- scripts


def check_printed(printed):
    """Each line that was printed is an answer."""
    wrong = re.search(r"^(usage|refused|failed).*$", printed, re.MULTILINE)
    if wrong:
        raise Broken(f"a line printed {wrong[0]!r}")


def run_lines(program, store, lines, under=()):
    """Runs lines of a script, beside a server where one has the file, and gives what was told on standard error."""
    words = [*under, program, "script", "--store", store]
    text = "".join(f"{line}\n" for line in lines)
    ended = subprocess.run(words, input=text, capture_output=True, encoding="utf-8")
    if ended.returncode:
        raise Broken(f"a script ended with {ended.returncode}: {ended.stderr[-300:]!r}")
    check_printed(ended.stdout)
    return ended.stderr


def in_scripts(lines):
    """The lines in lists, each of which is a script of its own."""
    script, length = [], 0
    for line in lines:
        if length + len(line) + 1 > MOST_SCRIPT:
            yield script
            script, length = [], 0
        script.append(line)
        length += len(line) + 1
    yield script


def redirect_lines(host, first, last):
    return (f"add-redirect {host} {place} exact 302 /moved/{place} /en/latest/" for place in range(first, last + 1))


def page_redirect_lines(count, force):
    """Redirects that are tried at each path, and fit none that is asked."""
    flag = " --force" if force else ""
    return (f"add-redirect {HOST} {place} page 302 /gone/{place}.html /index.html{flag}" for place in range(1, count + 1))


def project_lines(host, versions):
    """A project with so many active versions: `main`, and releases, the last of which comes first, since none is above it."""
    yield f"new-project {host} en main public {KEY}"
    yield f"push {host} {KEY} k branch main"
    yield f"add-rule {host} 1 tag all activate"
    yield from (f"push {host} {KEY} k tag 1.0.{number}" for number in reversed(range(versions - 1)))
    yield f"drop-rule {host} 1"


def pass_lines(host, count, slug):
    for number in range(count):
        yield f"add-pass {host} reader-{number}"
        yield f"grant {host} reader-{number} {slug}"


def lines_of(size):
    """The lines that make a file, without its pages."""
    yield from project_lines(HOST, size.versions)
    yield from redirect_lines(HOST, 1, size.redirects)
    yield from pass_lines(HOST, size.passes, "main")
    yield from (f"set-default {HOST} 1.0.{number}" for number in range(size.defaults))
    for number in range(size.others):
        yield f"new-project p{number}.test en main public {KEY}"
        yield from redirect_lines(f"p{number}.test", 1, size.others_redirects)


# ---- pages


def text_of(size):
    return ("<p>A line of a page.</p>\n" * (size // 25 + 1))[:size]


def names(count):
    """The paths of so many pages."""
    return [f"p{number:06}.html" for number in range(count)]


def same_pages(count, size):
    """So many pages with one text of this size."""
    text = text_of(size)
    return [(name, text) for name in names(count)]


def upload_value(slug, pages, **more):
    """What the body of an upload of these pages says, each a path and a text; its retry key is made of the first path."""
    listed = [{"path": path, "type": "text/html", "text": text} for path, text in pages]
    return {"key": pages[0][0].replace("/", "-"), "language": "en", "version": slug, "pages": listed, **more}


def in_uploads(pages):
    """The pages in lists, each of which has room in an upload."""
    lot, length = [], 0
    for page in pages:
        if len(lot) == MOST_PAGES or length + len(page[1]) > MOST_TEXT:
            yield lot
            lot, length = [], 0
        lot.append(page)
        length += len(page[1])
    if lot:
        yield lot


def upload(server, slug, pages):
    """Stores the pages of a version."""
    for lot in in_uploads(pages):
        reply = server.post("/_/upload", HOST, KEY, upload_value(slug, lot))
        if reply is None or reply[0] != 200:
            raise Broken(f"an upload: {reply}")


# ---- files


def make_store(program, room, name, lines, *uploads):
    """A file made by these lines, with these pages of each slug; gives its path."""
    store = str(room / name)
    hosts.make(program, store)
    with Server(program, store, 1_000_000, room / "told") as server:
        for script in in_scripts(lines):
            run_lines(program, store, script)
        for slug, pages in uploads:
            upload(server, slug, pages)
    # an opening writes back what the server has left in its log, so that the file alone can be copied
    run_lines(program, store, [])
    return store


def make_file(program, room, name, size):
    """A file of this size, whose `stable` is its last release; gives its path."""
    say(f"{name}: {size.versions:,} versions, {size.pages:,} pages, {size.others:,} other projects, {size.passes:,} passes")
    pages = [(path, f"<p>{path}</p>\n") for path in names(size.pages)]
    return make_store(program, room, name, lines_of(size), ("main", pages), (stable_of(size), [("index.html", "<p>stable</p>\n")]))


def stable_of(size):
    return f"1.0.{size.versions - 2}"


def place_for_files():
    """A folder in memory where that has room, since each line of a script waits for a disk; else None, for the usual one."""
    memory = Path("/dev/shm")
    return memory if memory.is_dir() and shutil.disk_usage(memory).free > 2_000_000_000 else None


# ---- words


def read_words(document, parts):
    """The words of a bench: `program`, `quick` and `parts`, those that were named, or all."""
    name = f"bench/{Path(sys.argv[0]).name}"
    parser = argparse.ArgumentParser(prog=name, description=document, formatter_class=argparse.RawDescriptionHelpFormatter)
    parser.add_argument("--program", metavar="PATH", default=hosts.BUILT, type=Path)
    parser.add_argument("--quick", action="store_true")
    parser.add_argument("parts", metavar="PART", nargs="*", help=", ".join(parts))
    given = parser.parse_args()
    for part in given.parts:
        if part not in parts:
            parser.error(f"there is no part {part}")
    if not os.access(given.program, os.X_OK):
        parser.error(f"there is no program {given.program}; tools/build makes one")
    given.program, given.parts = str(given.program.resolve()), given.parts or list(parts)
    return given


def run(main):
    """Runs a bench; gives its exit status."""
    try:
        return main()
    except (Broken, Missing) as error:
        say(str(error))
        return 2 if isinstance(error, Missing) else 1
