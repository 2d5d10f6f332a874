"""Damage that an opening does not see, and what is rescued of a damaged file: the part `damage` of tests/serve/run.

A byte, a page of zeros, two pages exchanged, an older page: what is served then, and what `operations.md` gives back."""

import shutil
import subprocess
from pathlib import Path

from host import ROOT, Server, command, make, run

HOST, KEY = "docs.test", "wkey-1"

# The bytes of a page of the file, and of one that spreads over several of them.
PAGE, LONG = 4096, 9000


def upload(server, key, letters):
    """Pages whose text is one letter again and again."""
    pages = [{"path": name, "type": "text/plain", "text": letter * LONG} for name, letter in letters.items()]
    return server.post("/_/upload", HOST, KEY, {"key": key, "language": "en", "version": "main", "pages": pages})


def last_page(data, letter):
    """Where the last page of the file begins that a text of this letter spreads over: none comes behind it."""
    begins = bytes(4) + letter.encode() * 8
    [place] = [place for place in range(0, len(data), PAGE) if data[place:].startswith(begins)]
    return place


def with_page(data, place, page):
    return data[:place] + page + data[place + PAGE :]


def damage(part):
    store = part.path("whole.docs")
    make(part.program, store, f"new-project {HOST} en main public {KEY}", f"push {HOST} {KEY} k0 branch main")
    stored = []
    for key, letters in (("u1", {"a": "a", "b": "b"}), ("u2", {"a": "c"})):
        with part.serve(store) as server:
            part.same(f"the upload {key}", upload(server, key, letters)[0], 200)
        command(part.program, store, f"get {HOST} /")
        stored.append(Path(store).read_bytes())
    old, now = stored
    unseen(part, old, now)
    rescued(part, now)


def unseen(part, old, now):
    """A page of zeros, two pages exchanged, an older page: the file opens, and another text is served."""
    first, second, before = last_page(now, "c"), last_page(now, "b"), last_page(old, "a")
    pages = [now[place : place + PAGE] for place in (first, second)]
    exchanged = with_page(with_page(now, first, pages[1]), second, pages[0])
    for what, data, ends in (
        ("a page of zeros", with_page(now, first, bytes(PAGE)), b"\0"),
        ("two pages exchanged", exchanged, b"b"),
        ("an older page", with_page(now, first, old[before : before + PAGE]), b"a"),
    ):
        path = part.path(f"{what.replace(' ', '-')}.docs")
        Path(path).write_bytes(data)
        part.same(f"{what}: it opens", run(part.program, "get", HOST, "/", "--store", path).returncode, 0)
        with Server(part.program, path, 10, part.path("told")) as server:
            status, text = server.get("/en/main/a", HOST)
        part.same(f"{what}: what is served", (status, len(text), text[:1], text[-1:]), (200, LONG, b"c", ends))


def rescued(part, whole):
    """The commands of docs/operations.md over a file with a byte changed, and over one with a page overwritten."""
    if not shutil.which("sqlite3"):
        part.skip("there is no sqlite3, which reads a damaged file")
        return
    text = (ROOT / "docs" / "operations.md").read_text().split("## A damaged file\n")[1]
    lines = [line for line in text.splitlines() if line.startswith("    ")][:2]
    part.check("the commands that rescue", "sqlite3" in lines[0] and "docs_host" in lines[1], lines)
    last = last_page(whole, "c")
    for what, data in (
        ("a byte changed", whole[: last + 9] + b"d" + whole[last + 10 :]),
        ("a page overwritten", with_page(whole, root_of(part, whole, "used"), b"\xff" * PAGE)),
    ):
        room = Path(part.path(what.replace(" ", "-")))
        room.mkdir()
        (room / "docs.db").write_bytes(data)
        ended = run(part.program, "get", HOST, "/", "--store", str(room / "docs.db"))
        part.check(f"{what}: it is refused", ended.returncode == 3 and "it is damaged" in ended.stderr, ended)
        script = "\n".join(lines).replace("docs_host", part.program)
        ended = subprocess.run(["bash", "-c", script], cwd=room, capture_output=True, encoding="utf-8", timeout=60)
        part.check(f"{what}: what is rescued opens", ended.returncode == 0 and ended.stdout.endswith("404 - 14\n"), ended)
        part.same(f"{what}: it has no sums", (room / "rescued.db").read_bytes()[20], 0)
        with Server(part.program, str(room / "rescued.db"), 10, part.path("told")) as server:
            part.same(f"{what}: it is served", server.get("/en/main/b", HOST), (200, b"b" * LONG))


def root_of(part, data, table):
    """Where the first page of a table begins."""
    path = part.path("looked-at.docs")
    Path(path).write_bytes(data)
    words = ["sqlite3", "-readonly", path, f"SELECT rootpage FROM sqlite_schema WHERE name = '{table}'"]
    return (int(subprocess.run(words, capture_output=True, encoding="utf-8", timeout=60).stdout) - 1) * PAGE
