"""The veil: a private version, and other projects, change no byte of what a caller gets who may not see them.

Each request is answered over two files, one of which has them and one has not. Then each allocation of some requests is refused.
"""

from common import STORE, make_base, new_folder, show
from memory import answers, judge_request, sweep_run

# What both files have. The pass `ended` was live at the first second of 1970 alone.
SEEN = b"""new-project docs.test en main public wkey-1
add-lang docs.test fr
push docs.test wkey-1 k1 branch main
push docs.test wkey-1 k2 tag 1.0.0
activate docs.test 1.0.0
upload docs.test wkey-1 k1 main en index.html text/html main
upload docs.test wkey-1 k2 1.0.0 en index.html text/html one
upload docs.test wkey-1 k3 1.0.0 en guide/index.html text/html guide
set-default docs.test main
add-redirect docs.test 1 page 302 /old/* /guide/
add-redirect docs.test 2 exact 301 /en/9.0.0/* /en/stable/:splat
add-pass docs.test idle
add-pass docs.test ended --until 1
add-pass docs.test reader
"""

# What one has besides: the highest release, a default, pages and a page for what is missing, all private; and another host.
UNSEEN = b"""push docs.test wkey-1 k9 tag 2.0.0
make-private docs.test 2.0.0
activate docs.test 2.0.0
upload docs.test wkey-1 k8 2.0.0 en index.html text/html secret
upload docs.test wkey-1 k9 2.0.0 en guide/index.html text/html secret-guide
upload docs.test wkey-1 k7 2.0.0 en 404.html text/html secret-404
upload docs.test wkey-1 k6 2.0.0 fr index.html text/html secret-fr
set-default docs.test 2.0.0
grant docs.test reader 2.0.0
grant docs.test ended 2.0.0
new-project other.test en main public wkey-2
push other.test wkey-2 k1 branch main
upload other.test wkey-2 k1 main en index.html text/html other
add-pass other.test stranger
"""

# Pages of the private version, what is missing in it, its bare address, names that could stand for it, and what lists versions.
TARGETS = (
    "/en/2.0.0/",
    "/en/2.0.0/index.html",
    "/en/2.0.0/guide/",
    "/en/2.0.0/guide",
    "/en/2.0.0/missing.html",
    "/en/2.0.0/old/page",
    "/en/2.0.0",
    "/fr/2.0.0/",
    "/de/2.0.0/",
    "/2.0.0/",
    "/2.0.0",
    "/en/stable/",
    "/en/stable/guide/",
    "/en/stable/missing.html",
    "/en/latest/",
    "/en/9.0.0/guide/",
    "/fr/stable/",
    "/",
    "/en/",
    "/guide/",
    "/page/guide/",
    "/missing",
    "/robots.txt",
    "/_/versions",
)

# No pass, one of no project, one of another project, one that opens nothing, one that has ended, and what is no pass.
PASSES = (None, "unknown", "stranger", "idle", "ended", "no pass")

# The requests of which each allocation is refused.
SWEPT = (
    ("/en/2.0.0/guide/", None),
    ("/en/2.0.0/guide/", "ended"),
    ("/en/2.0.0/missing.html", None),
    ("/en/2.0.0", None),
    ("/en/stable/guide/", "idle"),
    ("/", None),
    ("/robots.txt", "idle"),
    ("/_/versions", None),
)


def request(method, target, shown):
    own = f"Docs-Pass: {shown}\r\n" if shown else ""
    return f"{method} {target} HTTP/1.1\r\nHost: docs.test\r\n{own}\r\n".encode()


def asked(part, folder, data):
    return part.run(["answer", "--store", STORE], data, folder)


def veil(part):
    """Requests over a file with what a caller may not see, and over one without it."""
    with new_folder() as whole, new_folder() as seen:
        make_base(part, whole, SEEN + UNSEEN)
        make_base(part, seen, SEEN)
        for method in ("GET", "HEAD"):
            for target in TARGETS:
                for shown in PASSES:
                    data = request(method, target, shown)
                    one, other = asked(part, whole, data), asked(part, seen, data)
                    part.check(f"{method} {target} with {shown or 'no pass'}", one == other and other.status == 0, (one, other))
        # Who may see it gets it, so that there is something to tell.
        for target, body in (("/en/2.0.0/", b"secret"), ("/en/2.0.0/guide/", b"secret-guide"), ("/en/stable/guide/", b"secret-guide")):
            ended = asked(part, whole, request("GET", target, "reader"))
            part.check(f"{target} with a pass that opens it", ended.out.endswith(b"\r\n\r\n" + body), ended)
        for target, shown in SWEPT:
            name = f"{target} with {shown or 'no pass'}"
            show(name, sweep_run(part, name, answers(request("GET", target, shown)), whole, judge_request))
