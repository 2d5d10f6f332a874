"""Single commands and a script over a file, by their exit statuses and what they print: the part `words` of tests/serve/run.

Words that are none get the usage; a script that runs again answers the same, and a request is answered over the file."""

from host import make, run
from parts import HOST, KEY


def words(part):
    store = part.path("words.docs")
    make(part.program, store)
    for line, printed, status in (
        (f"new-project {HOST} en main public {KEY}", "ok\n", 0),
        (f"new-project {HOST} en main public {KEY}", "refused 11 ProjectTaken\n", 1),
        (f"get {HOST} /", "404 - 14\n", 0),
        (f"get {HOST} x", "bad target\n", 1),
        (f"push {HOST} {KEY} k0 branch main", "made main active shown public\n", 0),
        (f"push {HOST} other k0 branch main", "refused 12 WrongKey\n", 1),
        (f"get {HOST} /", "302 /en/latest/ 0\n", 0),
    ):
        ended = run(part.program, *line.split(), "--store", store)
        part.same(line, (ended.stdout, ended.returncode), (printed, status))
    for line in (
        f"get {HOST} /",
        f"drop-rule {HOST} x --store {store}",
        "serve --count 1",
        f"serve --store {store} --count x",
        f"serve --store {store} --count 4294967296",
        f"serve --store {store}",
        f"nothing --store {store}",
        "init",
    ):
        ended = run(part.program, *line.split())
        part.check(f"usage: {line}", ended.returncode == 2 and ended.stdout == "" and ended.stderr != "", ended)
    lines = f"# a script\nget {HOST} /\npush {HOST} {KEY} k1 tag 1.0.0\nserve --store x --count 1\n"
    printed = "302 /en/latest/ 0\nmade 1.0.0 inactive shown public\nusage\n"
    for what in ("a script over a file", "the script again"):
        ended = run(part.program, "script", "--store", store, stdin=lines)
        part.same(what, (ended.stdout, ended.returncode), (printed, 0))
    ended = run(part.program, "answer", "--store", store, stdin=f"GET / HTTP/1.1\r\nHost: {HOST}\r\n\r\n")
    part.check("answer over a file", ended.returncode == 0 and "Location: /en/latest/" in ended.stdout, ended)
