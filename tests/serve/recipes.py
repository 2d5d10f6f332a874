"""The recipes of docs/recipes.md, run as they stand there: the part `recipes` of tests/serve/run.

Rules and a job, cookies in nginx and Caddy, moves from elsewhere, held requests, copies of a held server, the unit."""

import base64
import json
import re
import shutil
import socket
import subprocess
import threading
import time
from pathlib import Path

import browser
import fronts
import host as hosts
from host import Pushes, free_port, run, versions
from publishing import DOCS, KEY, Project, Recipe, begin, block_of, ends, line_of, once, site_of, told_until, url_of
from relay import Relay, reply_bytes

HOST, PASS, PASSWORD = "docs.example.org", "reader-7", "sesame"
DEPLOY = hosts.ROOT / "deploy"

# How often a server is held and copied.
SNAPSHOTS = 20

READ = "read back 2 of 2, none differs"


def recipes(part):
    for recipe in (project, behind_nginx, behind_caddy, mike, netlify, read_the_docs):
        recipe(part)
    for recipe in (held_by_caddy, away_behind_nginx, not_found, snapshots, unit):
        recipe(part)


# ---- what the recipes have in common


def blocks(title, language):
    return block_of(title, language, "recipes.md")


def done(recipe, what, step, **given):
    """A step that has to end with 0."""
    ended = recipe.shell(step, **given)
    recipe.part.check(what, ended.returncode == 0, ended)
    return ended


def fetch(port, target, *lines, method="GET"):
    """The status, the header lines and the body of a reply."""
    head = "".join(f"{line}\r\n" for line in (f"{method} {target} HTTP/1.1", f"Host: {HOST}", "Connection: close", *lines))
    head, _, body = hosts.ask(port, f"{head}\r\n".encode()).partition(b"\r\n\r\n")
    first, *rest = head.decode("latin-1").split("\r\n")
    return int(first.split()[1]), dict(line.split(": ", 1) for line in rest), body


def leads_to(server, target):
    """Where a reply leads."""
    return fetch(server.port, target)[1].get("Location")


def site(part, name, text, paths=("index.html",)):
    return site_of(part, name, {path: f"{text}\n" for path in paths})


def publish_versions(part, project, folders):
    """Pushes each version and stores a folder in it, once a rule is there."""
    project.command(f"add-rule {HOST} 1 tag all activate")
    with project.serve() as server:
        for name, folder in folders.items():
            ended = once(folder, url_of(server), "--push", name, version=(), host=HOST)
            part.check(f"{name} is published", ended.returncode == 0, ended)


# ---- a project that a CI publishes


def project(part):
    recipe = Recipe(part, "project", is_made=False)
    rules, job, default = blocks("A project that a CI publishes", "sh")
    done(recipe, "the rules", rules)
    for number, (ref, status, says) in enumerate(
        (
            ("branch:main", 0, "made main, active"),
            ("tag:v1.0.0", 0, "made v1.0.0, active"),
            ("tag:v2.0.0-rc.1", 0, "made v2.0.0-rc.1, active"),
            ("branch:release/1.x", 0, "made release-1.x, active"),
            ("tag:nightly", 1, "made nightly, inactive"),
        )
    ):
        recipe.write(ref)
        with recipe.project.serve() as server:
            ended = recipe.shell(job, DOCS_URL=url_of(server), REF=ref, RUN=f"run-{number}")
        ends(part, f"the job of {ref}", ended, status, says, *([] if status else [READ]))
    with recipe.project.serve() as server:
        part.same("what is named", versions(server, HOST), {"main", "v1.0.0", "release-1.x"})
        part.same("/ before", leads_to(server, "/"), "/en/latest/")
    recipe.serves("a pre-release is served", "tag:v2.0.0-rc.1", "/en/v2.0.0-rc.1/")
    done(recipe, "the default", default)
    with recipe.project.serve() as server:
        part.same("/ then", leads_to(server, "/"), "/en/stable/")
    recipe.serves("the highest release", "tag:v1.0.0", "/en/stable/")


# ---- private documentation in a browser


PRIVATE = "Private documentation in a browser"


class Private:
    """A project with the private version `next`, and what the recipe says of its readers."""

    def __init__(self, part, name):
        self.part, self.recipe = part, Recipe(part, name)
        self.project = self.recipe.project
        folders = {f"{kind}:{slug}": site(part, f"{name}-{slug}", slug) for kind, slug in (("branch", "main"), ("tag", "next"))}
        publish_versions(part, self.project, folders)
        self.project.command(f"make-private {HOST} next")
        self.passes, self.passwords, self.wrong_password = blocks(PRIVATE, "sh")
        done(self.recipe, f"{name}: the pass", self.passes)

    def reads(self, what, port):
        """Through what stands in front: who has no cookie, how one is got, and what it opens."""
        part, nothing = self.part, fetch(port, "/en/9.9.9/")
        part.same(f"{what}: next without a cookie is as a version that is not there", fetch(port, "/en/next/"), nothing)
        part.same(f"{what}: so it is with a wrong one", fetch(port, "/en/next/", "Cookie: docs_pass=reader-8")[::2], nothing[::2])
        status, lines, body = fetch(port, "/en/main/")
        part.same(f"{what}: what is public", (status, body, lines.get("Cache-Control")), (200, b"main\n", None))
        part.check(f"{what}: it depends on the cookie", "Cookie" in lines.get("Vary", ""), lines)
        for given in ((), login("alice", "wrong"), login("bob", PASSWORD)):
            status, lines, _ = fetch(port, "/_/login", *given)
            part.same(f"{what}: no password", (status, lines.get("Set-Cookie")), (401, None))
        cookie = self.cookie(what, port, "/_/login", *login("alice", PASSWORD))
        part.same(f"{what}: the cookie", cookie, f"docs_pass={PASS}")
        for target, given in (("/en/next/", f"Cookie: other=1; {cookie}"), ("/en/next/", f"Docs-Pass: {PASS}")):
            status, lines, body = fetch(port, target, given)
            wanted = 200, b"next\n", "private, no-store"
            part.same(f"{what}: next by {given}", (status, body, lines.get("Cache-Control")), wanted)
        named = [json.loads(fetch(port, "/_/versions", *it)[2])["versions"] for it in ((), (f"Cookie: {cookie}",))]
        part.same(f"{what}: what a menu is told", [[it["slug"] for it in some] for some in named], [["main"], ["main", "next"]])
        part.same(f"{what}: the cookie of a logout", self.cookie(what, port, "/_/logout"), "docs_pass=")

    def cookie(self, what, port, target, *lines):
        """The cookie that a reply sets, whose attributes are right."""
        status, lines, _ = fetch(port, target, *lines)
        self.part.same(f"{what}: {target} leads to the start", (status, lines.get("Location")), (303, "/"))
        value, *attributes = lines.get("Set-Cookie", "").split("; ")
        good = {"Path=/", "Secure", "HttpOnly", "SameSite=Lax"} <= set(attributes)
        self.part.check(f"{what}: what the cookie of {target} may", good, attributes)
        return value

    def tells_everybody(self, what, port):
        """The trap: a cookie comes with a wrong password."""
        _, lines, _ = fetch(port, "/_/login", *login("alice", "wrong"))
        self.part.check(f"{what}: a cookie before the password", PASS in lines.get("Set-Cookie", ""), lines)


def login(name, password):
    words = base64.b64encode(f"{name}:{password}".encode()).decode()
    return (f"Authorization: Basic {words}",)


def behind_nginx(part):
    if not fronts.has(part, "nginx", "puts a cookie into the header") or not fronts.has(part, "openssl", "makes the passwords"):
        return
    private, file = Private(part, "nginx"), part.path("docs.passwd")
    passwords = private.passwords.replace("/etc/nginx/docs.passwd", file).replace("-g www-data ", "")
    done(private.recipe, "nginx: the passwords", passwords, typed=f"{PASSWORD}\n")
    # (its workers may be another user, who may not read what this one wrote)
    Path(file).chmod(0o644)
    whole, trap = blocks(PRIVATE, "nginx")
    port = free_port()
    with private.project.serve() as server:

        def through(text):
            text = text.replace("listen 80;", f"listen 127.0.0.1:{port};").replace("8101", str(server.port))
            return fronts.nginx(part, fronts.of_sites(part, text.replace("/etc/nginx/docs.passwd", file)), port)

        with through(whole):
            private.reads("nginx", port)
            ended = private.recipe.shell(private.wrong_password, DOCS_URL=f"http://127.0.0.1:{port}")
            part.same("nginx: the check by hand prints nothing", (ended.stdout, ended.returncode), ("", 1))
        good = re.search(r"    location = /_/login \{.*?\n    \}\n", whole, re.DOTALL)[0]
        always = trap.replace("return 303 /;", "proxy_pass http://127.0.0.1:8101/;").replace('Lax";', 'Lax" always;')
        for what, wrong in (("nginx, by `return`", trap), ("nginx, by `always`", always)):
            with through(whole.replace(good, wrong)):
                private.tells_everybody(what, port)
                ended = private.recipe.shell(private.wrong_password, DOCS_URL=f"http://127.0.0.1:{port}")
                part.check(f"{what}: the check by hand prints it", PASS in ended.stdout, ended)


def behind_caddy(part):
    if not fronts.has(part, "caddy", "puts a cookie into the header"):
        return
    private = Private(part, "caddy")
    hashed = run("caddy", "hash-password", stdin=f"{PASSWORD}\n").stdout.strip()
    [whole] = blocks(PRIVATE, "caddyfile")
    port = free_port()
    with private.project.serve() as server:

        def through(text):
            text = text.replace("HASH", hashed).replace("8101", str(server.port))
            return fronts.caddy(part, text.replace(f"{HOST} {{", f"http://{HOST}:{port} {{", 1), port)

        with through(whole):
            private.reads("Caddy", port)
        with through(whole.replace("\troute {", "\thandle {").replace("docs_pass={pass_of_user}", f"docs_pass={PASS}")):
            private.tells_everybody("Caddy, without `route`", port)


# ---- from elsewhere


def repository_of(recipe, what, *steps):
    """Makes the recipe's folder a repository, by steps in which `commit` commits all."""
    own = "git config user.name test; git config user.email test@docs.test"
    commit = "commit() { git add --all . ':!docs.db*' ':!bin'; git commit -qm commit --allow-empty; }"
    done(recipe, what, "\n".join(("git init -q -b main", own, commit, *steps)))


def mike(part):
    if not fronts.has(part, "git", "has a branch of mike"):
        return
    recipe = Recipe(part, "from-mike")
    named = [{"version": "2.0", "title": "2.0", "aliases": ["latest"]}, {"version": "1.0", "title": "1.0", "aliases": []}]
    for version in ("1.0", "2.0"):
        folder = recipe.repository / version
        (folder / "guide").mkdir(parents=True)
        for path in ("index.html", "guide/index.html"):
            (folder / path).write_text(f"{version}\n")
    (recipe.repository / "latest").symlink_to("2.0")
    (recipe.repository / "versions.json").write_text(json.dumps(named))
    back = "git checkout -q --orphan main; git rm -rfq --cached .; rm -rf 1.0 2.0 latest versions.json; commit"
    repository_of(recipe, "a branch of mike", "git checkout -q -b gh-pages; commit", back)
    rule, publish, moves, brought = blocks("From mike", "sh")
    done(recipe, "mike: the rule", rule)
    ended = recipe.steps("mike", [publish])
    part.same("mike: versions that are stored", ended.stderr.count(READ), 2)
    done(recipe, "mike: the moves", moves)
    ended = done(recipe, "mike: the import", brought)
    part.same("mike: what is brought", ended.stdout, "added 3\nok\nok\n")
    recipe.serves("mike", "1.0", "/en/1.0/", "/en/1.0/guide/")
    recipe.serves("mike", "2.0", "/en/2.0/guide/")
    with recipe.project.serve() as server:
        for old, status, new in (
            ("/1.0/guide/", 301, "/en/1.0/guide/"),
            ("/latest/guide/", 302, "/en/2.0/guide/"),
            ("/2.0/", 301, "/en/2.0/"),
            ("/", 302, "/en/2.0/"),
        ):
            reply = fetch(server.port, old)
            part.same(f"mike: {old}", (reply[0], reply[1].get("Location")), (status, new))
        part.same("mike: no stable of such names", json.loads(fetch(server.port, "/_/versions")[2])["aliases"], [])
        part.same("mike: no versions.json", fetch(server.port, "/en/versions.json")[0], 404)


def awk_of(name):
    """The line of docs/SCRIPTS.md that makes a list of a file."""
    [line] = [line for line in (DOCS / "SCRIPTS.md").read_text().splitlines() if line.startswith("    ") and name in line and "awk" in line]
    return line


NETLIFY = """# moved
/old/*      /en/latest/:splat
/home       /en/latest/   302
/blog/*     https://blog.test/:splat  301!
/app/*      /index.html   200
/*          /de/:splat    302   Language=de
/store id=:id  /blog/:id  301
"""


def netlify(part):
    recipe = Recipe(part, "netlify")
    recipe.project.command(f"push {HOST} {KEY} k0 branch main")
    (recipe.repository / "_redirects").write_text(NETLIFY)
    texts = {"index.html": "start\n", "guide/index.html": "guide\n", "about.html": "about\n"}
    shutil.move(site_of(part, "netlify-site", texts), recipe.repository / "site")
    with recipe.project.serve() as server:
        ended = once(recipe.repository / "site", url_of(server), host=HOST)
        part.check("Netlify: the site", ended.returncode == 0, ended)
    left, names = blocks("From Netlify", "sh")
    done(recipe, "Netlify: the list", awk_of("_redirects"))
    ended = done(recipe, "Netlify: what is left out", left)
    part.same("Netlify: lines that are left out", ended.stdout.splitlines(), NETLIFY.splitlines()[4:])
    ended = done(recipe, "Netlify: the names", names)
    part.same("Netlify: what is brought", ended.stdout, "added 6\n")
    with recipe.project.serve() as server:
        for old, new in (
            ("/old/guide/", "/en/latest/guide/"),
            ("/home", "/en/latest/"),
            ("/blog/x", "https://blog.test/x"),
            ("/guide/", "/en/latest/guide/"),
            ("/about.html", "/en/latest/about.html"),
            ("/", "/en/latest/"),
        ):
            part.same(f"Netlify: {old}", leads_to(server, old), new)
        part.same("Netlify: a page that is missing", fetch(server.port, "/none")[0], 404)
        part.same("Netlify: one in the version", fetch(server.port, "/en/latest/none")[0], 404)
    for redirect, printed in (
        ("exact 301 /* /en/latest/:splat", "ok"),
        ("exact 301 /news/:year /en/latest/:year", "ok"),
        ("exact 301 /a/*/b /c", "refused 7 BadRedirect"),
    ):
        ended = run(part.program, "add-redirect", HOST, "1", *redirect.split(), "--store", recipe.project.store)
        part.same(f"Netlify: {redirect}", ended.stdout, f"{printed}\n")
    with recipe.project.serve() as server:
        longer = leads_to(server, "/en/latest/none")
        part.same("Netlify: a redirect of all lengthens the address", longer, "/en/latest/en/latest/none")
        part.check("Netlify: a placeholder fits nothing", leads_to(server, "/news/2024") != "/en/latest/2024")


# As the site tells them, without fields that are not read.
READ_THE_DOCS = {
    "count": 2,
    "results": [
        {
            "type": kind,
            "from_url": old,
            "to_url": new,
            "http_status": 302,
            "force": False,
            "enabled": True,
        }
        for kind, old, new in (("page", "/install.html", "/setup/"), ("exact", "/old/*", "/en/latest/:splat"))
    ],
}


def read_the_docs(part):
    if not fronts.has(part, "git", "has tags to build"):
        return
    recipe = Recipe(part, "from-rtd")
    recipe.project.command(f"add-rule {HOST} 1 tag semver activate")
    repository_of(recipe, "a repository", *(tagged(it) for it in ("v1.0.0", "v1.1.0")))
    publish, rest = blocks("From Read the Docs", "sh")
    ended = recipe.steps("Read the Docs", [publish])
    part.same("Read the Docs: versions that are stored", ended.stderr.count("read back 1 of 1, none differs"), 2)
    recipe.serves("Read the Docs", "v1.0.0", "/en/v1.0.0/")
    recipe.serves("Read the Docs", "v1.1.0", "/en/v1.1.0/", "/en/stable/")
    done(recipe, "Read the Docs: what a rule does not say", rest)
    (recipe.repository / "redirects.json").write_text(json.dumps(READ_THE_DOCS))
    done(recipe, "Read the Docs: the list", awk_of("redirects.json"))
    ended = done(recipe, "Read the Docs: the import", f"docs_host import {HOST} list.csv --store docs.db")
    part.same("Read the Docs: what is brought", ended.stdout, "added 2\n")
    with recipe.project.serve() as server:
        part.same("Read the Docs: what is named", versions(server, HOST), {"v1.1.0"})
        for old, new in (("/", "/en/stable/"), ("/en/stable/install.html", "/en/stable/setup/"), ("/old/x", "/en/latest/x")):
            part.same(f"Read the Docs: {old}", leads_to(server, old), new)


def tagged(name):
    return f"mkdir -p docs; echo {name} > docs/index.html; commit; git tag {name}"


# ---- while a server restarts


RESTART = "While a server restarts"


def filled(part, name):
    project = Project(part, name, HOST)
    project.command(f"push {HOST} {KEY} k0 branch main")
    return project


PUSH = hosts.post_bytes("/_/push", HOST, KEY, {"key": "k1", "kind": "tag", "ref": "1.0"})


def status_of(port, request):
    """The status of a reply over a connection that ends behind it."""
    return int(hosts.ask(port, request.replace(b"\r\n\r\n", b"\r\nConnection: close\r\n\r\n", 1)).split()[1])


def cuts_connections(part, site, port, behind):
    """What Caddy makes of a connection that ends before its reply, as where the server is killed then."""
    asked = []

    def answer(listener, replies):
        for reply in replies:
            with listener.accept()[0] as connection:
                asked.append(connection.recv(65536).split()[0])
                connection.sendall(reply)

    get, whole = hosts.get_bytes("/", HOST), reply_bytes(200)
    with fronts.caddy(part, site, port):
        for what, request, replies, status in (("a push", PUSH, [b""], 502), ("a get", get, [b"", b"", whole], 200)):
            asked.clear()
            with socket.create_server(("127.0.0.1", behind)) as listener:
                threading.Thread(target=answer, args=(listener, replies), daemon=True).start()
                part.same(f"Caddy: {what} that is cut", status_of(port, request), status)
            part.same(f"Caddy: how often {what} is asked", len(asked), len(replies))


def held_by_caddy(part):
    if not fronts.has(part, "caddy", "holds requests"):
        return
    [block] = blocks(RESTART, "caddyfile")
    ours = [line.strip() for line in (DEPLOY / "Caddyfile").read_text().splitlines()]
    part.same("lines that deploy/Caddyfile has not", [line for line in block.splitlines() if line.strip() not in ours], [])
    port, behind, project = free_port(), free_port(), filled(part, "held.docs")
    site = f"http://{HOST}:{port} {{\n{block.replace('8101', str(behind))}}}\n"
    cuts_connections(part, site, port, behind)
    folder = site_of(part, "held", {f"p{number}.html": "x" * 9000 for number in range(600)})
    with fronts.caddy(part, site, port):
        asked = {"a get": hosts.get_bytes("/", HOST), "a push": PUSH}
        replies = {}

        def ask(what):
            replies[what] = status_of(port, asked[what])

        waiting = [threading.Thread(target=ask, args=(what,)) for what in asked]
        for one in waiting:
            one.start()
        time.sleep(2)
        part.same("Caddy: no answer while no server is there", replies, {})
        words = ("--port", str(behind))
        with project.serve(*words) as server:
            for one in waiting:
                one.join(hosts.TIME_LIMIT)
            part.same("Caddy: the answers once it is there", replies, {"a get": 302, "a push": 200})
            publishing = begin(line_of(folder, f"http://127.0.0.1:{port}", host=HOST))
            reader = Reader(port)
            time.sleep(0.5)
            server.kill()
        time.sleep(1)
        with project.serve(*words):
            told = publishing.communicate(timeout=hosts.TIME_LIMIT)[1]
            part.check("Caddy: a publish through a restart", publishing.returncode == 0 and "read back 600 of 600" in told, told)
            part.same("Caddy: pages through a restart", (reader.ended(), reader.count > 10), ({302}, True))


class Reader(threading.Thread):
    """Asks for `/` again and again; knows each status."""

    def __init__(self, port):
        super().__init__(daemon=True)
        self.port, self.statuses, self.count, self.over = port, set(), 0, False
        self.start()

    def run(self):
        while not self.over:
            self.statuses.add(fetch(self.port, "/")[0])
            self.count += 1

    def ended(self):
        self.over = True
        self.join(hosts.TIME_LIMIT)
        return self.statuses


def away_behind_nginx(part):
    if not fronts.has(part, "nginx", "tells that the server is away"):
        return
    [block] = blocks(RESTART, "nginx")
    port, behind, project = free_port(), free_port(), filled(part, "away.docs")
    text = (DEPLOY / "nginx.conf").read_text().replace("listen 80;", f"listen 127.0.0.1:{port};")
    before, end, after = text.rpartition("}")
    text = f"{before}{block}{end}{after}"
    with fronts.nginx(part, fronts.of_sites(part, text.replace("8101", str(behind))), port):
        status, lines, body = fetch(port, "/en/latest/")
        part.same("nginx: while no server is there", (status, lines.get("Retry-After"), lines["Content-Type"]), (503, "2", "text/html"))
        part.check("nginx: the page comes back by itself", b"http-equiv=refresh content=2" in body, body)
        publishing = begin(line_of(site(part, "away", "away"), f"http://127.0.0.1:{port}", host=HOST))
        says = "cannot answer now (503); waiting for it"
        told = told_until(publishing, says)
        with project.serve("--port", str(behind)):
            told += publishing.communicate(timeout=hosts.TIME_LIMIT)[1]
            good = publishing.returncode == 0 and says in told
            part.check("nginx: a publish waits", good, told)
            part.same("nginx: a page then", fetch(port, "/")[0], 302)
    own = reply_bytes(503, b'{"refused":23}')
    with Relay(behind, lambda path, pages: own) as relay:
        with fronts.nginx(part, fronts.of_sites(part, text.replace("8101", str(relay.server_address[1]))), port):
            part.same("nginx: a 503 of the program", fetch(port, "/en/other/")[::2], (503, b'{"refused":23}'))
            part.same("nginx: what it has is shown in its place", fetch(port, "/")[0], 302)


# ---- the 404 page of MkDocs


def not_found(part):
    if not fronts.has(part, "mkdocs", "makes a 404 page"):
        return
    title = "The 404 page of MkDocs"
    [setting], [job] = blocks(title, "yaml"), blocks(title, "sh")
    recipe = Recipe(part, "mkdocs")
    (recipe.programs / "mkdocs").unlink()
    recipe.write("# Kettle")
    for page in recipe.repository.glob("docs/**/*.html"):
        page.rename(page.with_suffix(".md"))
    (recipe.repository / "docs" / "versions.js").write_text((DEPLOY / "versions.js").read_text())
    menu = "extra_javascript: [versions.js]\n"
    given = recipe.project, recipe.repository / "site"
    recipe.project.command(f"push {HOST} {KEY} k0 branch main")
    for what, settings, step, begins in (
        ("without site_url", menu, "mkdocs build --site-dir site", "/"),
        ("without the variable", menu + setting, "mkdocs build --site-dir site", "/en/latest/"),
        ("as the recipe says", menu + setting, job, "/en/main/"),
    ):
        (recipe.repository / "mkdocs.yml").write_text(f"site_name: Kettle\n{settings}")
        done(recipe, f"MkDocs: {what}", step, SLUG="main")
        styles = missing_page_styles(part, *given)
        good = styles and all(link.startswith(begins) for link, _ in styles)
        part.check(f"MkDocs, {what}: links of the 404 page begin with {begins}", good, styles)
        wanted = {404} if begins == "/" else {200}
        part.same(f"MkDocs, {what}: its styles", {status for _, status in styles}, wanted)
    shows_menu(part, *given)


def missing_page_styles(part, project, folder):
    """The style sheets of the page that a missing page is answered with, each with the status that it has."""
    with project.serve() as server:
        ended = once(folder, url_of(server), host=HOST)
        part.check("MkDocs: it is published", ended.returncode == 0, ended)
        status, _, body = fetch(server.port, "/en/main/none/below/")
        part.same("MkDocs: a missing page", status, 404)
        links = re.findall(r'<link href="(/[^"]*)" rel="stylesheet"', body.decode())
        return [(link, fetch(server.port, link)[0]) for link in links]


def shows_menu(part, project, folder):
    if not browser.program():
        part.skip("there is no chromium, so no browser shows the menu in a site of MkDocs")
        return
    with project.serve() as server, browser.Page(HOST, server.port, part.room) as page:
        page.open(f"http://{HOST}/en/main/guide/")
        shown = page.wait_for("document.querySelector('#docs-versions-menu').shadowRoot.querySelector('summary').innerText")
        part.same("MkDocs: the menu is in the page", shown, "main")


# ---- snapshots as backups


def snapshots(part):
    [script] = blocks("Snapshots as backups", "sh")
    recipe, copy = Recipe(part, "snapshots"), Path(part.path("backups"))
    recipe.project.command(f"add-rule {HOST} 1 tag all activate")
    script = script.replace("/var/lib/docs_host", str(recipe.repository)).replace("/var/backups/docs_host", str(copy))
    with recipe.project.serve() as server:
        recipe.stand_in("systemctl", f"#!/bin/sh\necho {server.process.pid}\n")
        # (a request that is being read when the server is held is cut)
        pushes = Pushes(server, HOST, KEY, again=True)
        pushes.start()
        sizes = []
        for number in range(SNAPSHOTS):
            before, begun = set(pushes.answered), time.monotonic()
            ended = recipe.shell(script)
            sizes.append(time.monotonic() - begun)
            part.same(f"snapshot {number}", (ended.stdout, ended.returncode), ("404 - 14\n", 0))
            [folder] = copy.iterdir()
            there = versions_of(part, str(folder / "docs.db"))
            part.check(f"snapshot {number} has all that was answered", before <= there, sorted(before - there)[:5])
            part.check(f"snapshot {number} has no more than was asked for", there <= set(pushes.asked), len(there))
            shutil.rmtree(folder)
        part.check("the server goes on", more_is_answered(pushes) and pushes.wrong is None, pushes.wrong)
        pushes.again = False
    pushes.join(hosts.TIME_LIMIT)
    print(f"    {SNAPSHOTS} snapshots, {len(pushes.answered)} pushes answered, none lost", flush=True)
    recipe.stand_in("systemctl", "#!/bin/sh\necho 0\n")
    part.check("no server to hold", recipe.shell(script).returncode != 0)


def more_is_answered(pushes):
    before, end = len(pushes.answered), time.monotonic() + hosts.TIME_LIMIT
    while len(pushes.answered) == before and time.monotonic() < end:
        time.sleep(0.05)
    return len(pushes.answered) > before


def versions_of(part, store):
    """What /_/versions names in a file that nobody serves."""
    with hosts.Server(part.program, store, 1, part.path("told-of-copy")) as server:
        return versions(server, HOST)


# ---- a hardened unit


def unit(part):
    if not fronts.has(part, "systemd-analyze", "judges the unit file"):
        return
    [line] = blocks("A hardened unit", "sh")
    ended = subprocess.run(["bash", "-c", line], cwd=hosts.ROOT, capture_output=True, encoding="utf-8", timeout=60)
    found = re.search(r"Overall exposure level for docs_host.service: ([0-9.]+) (\w+)", ended.stdout)
    part.check("a hardened unit", found and found[2] in ("OK", "SAFE", "PERFECT"), ended)
    told = re.search(r"`Overall exposure level for docs_host.service: ([0-9.]+ \w+)` \(systemd (\d+)\)", (DOCS / "recipes.md").read_text())
    now = run("systemd-analyze", "--version").stdout.split()[1]
    if now == told[2]:
        part.same("its number", f"{found[1]} {found[2]}", told[1])
    else:
        part.skip(f"its number is that of systemd {told[2]}, and this is {now}")
