"""Releases without a gap: the part `staging` of tests/serve/run.

What readers of `stable` miss while a release is published, in the plain way and staged; the recipe's steps; what --stage refuses."""

import re
import threading
import time

import host as hosts
from publishing import KEY, Project, Recipe, block_of, ends, line_of, once, pages_of, site_of, url_of
from relay import Relay

HOST = "docs.example.org"
PAGES = 300
# The last of them is in the last upload.
READ = ["index.html", "p/0.html", "p/99.html"]


def staging(part):
    for test in (plain, staged, refused, stopped):
        test(part)


class Reader(threading.Thread):
    """Reads some pages below `stable` again and again, as who shows no pass; counts the reads and those that found none."""

    def __init__(self, server):
        super().__init__(daemon=True)
        self.server, self.reads, self.missing, self.seen, self.over = server, 0, 0, [], False

    def run(self):
        while not self.over:
            for path in READ:
                status, text = self.server.get(f"/en/stable/{path}", HOST)
                self.reads += 1
                self.missing += status != 200
                release = re.search(r"v\d\.\d\.\d", text.decode())
                if release and release[0] not in self.seen[-1:]:
                    self.seen.append(release[0])

    def wait(self, reads):
        """Waits until so many reads more are done."""
        end, wanted = time.monotonic() + hosts.TIME_LIMIT, self.reads + reads
        while self.reads < wanted and time.monotonic() < end:
            time.sleep(0.01)

    def __enter__(self):
        self.start()
        return self

    def __exit__(self, *_):
        self.over = True
        self.join(hosts.TIME_LIMIT)


def slowly(path, pages):
    """A line so slow that there are reads between two uploads."""
    time.sleep(0.3 if pages else 0)


def plain(part):
    """The way without --stage, for comparison."""
    project = Project(part, "plain.docs", HOST)
    project.command(f"add-rule {HOST} 1 tag semver activate")
    with project.serve() as server:
        first = site_of(part, "plain-1", pages_of("v1.0.0", PAGES))
        ends(part, "a first release", once(first, url_of(server), "--push", "tag:v1.0.0", version=(), host=HOST), 0)
        second = site_of(part, "plain-2", pages_of("v1.1.0", PAGES))
        with Relay(server.port, slowly) as relay, Reader(server) as reader:
            ended = once(second, relay.url, "--push", "tag:v1.1.0", version=(), host=HOST)
            reader.wait(10)
    print(f"    the plain way: {reader.missing} of {reader.reads} reads found no page", flush=True)
    ends(part, "a second release in the plain way", ended, 0, "pages were missing for")
    part.check("the plain way: pages are missing meanwhile", reader.missing, reader.reads)


def blocks():
    return block_of("A release without a gap", "sh", "recipes.md")


def staged(part):
    """The recipe, with a reader all the time."""
    recipe = Recipe(part, "staged")
    rules, job, show, release, take_back, rollback = blocks()
    done(recipe, "the rules", rules)

    def write(name):
        site_of(part, "staged/docs", pages_of(name, PAGES))

    def run(name, number):
        return recipe.shell(job, DOCS_URL=relay.url, TAG=name, RUN=number, **team)

    team = {}
    with recipe.project.serve() as server, Relay(server.port, slowly) as relay:
        write("v1.0.0")
        ended = run("v1.0.0", "1")
        says = ["made v1.0.0, active, private", "stored 303 pages in 2 uploads; none was read back", "v1.0.0 is staged"]
        staged_as(part, "a first release", ended, "v1.0.0", *says)
        part.same("it is missing", server.get("/en/v1.0.0/", HOST)[0], 404)
        done(recipe, "the first release", release, TAG="v1.0.0", TEAM="none", check=False)
        part.same("it is there", server.get("/en/stable/p/7.html", HOST)[0], 200)
        write("v1.1.0")
        with Reader(server) as reader:
            staged_as(part, "a second release", run("v1.1.0", "2"), "v1.1.0", "none was read back")
            done(recipe, "it is shown", show, TAG="v1.1.0", TEAM="team-1")
            part.check("the team reads it", with_pass(server, "team-1").endswith(b"<p>7 of v1.1.0</p>\n"))
            team["DOCS_PASS"] = "team-1"
            ended = run("v1.1.0", "2")
            says = "stored 0 pages", "this build had stored 303 pages", "read back 303 of 303, none differs"
            staged_as(part, "the call again, with the pass", ended, "v1.1.0", *says)
            before = list(reader.seen)
            done(recipe, "the release", release, TAG="v1.1.0", TEAM="team-1")
            reader.wait(30)
            then = list(reader.seen)
            ended = run("v1.1.0", "2")
            ends(part, "the call once more", ended, 1, "v1.1.0 is public, and --stage is for a private version", "make-private")
            done(recipe, "it is taken back", take_back, TAG="v1.1.0")
            reader.wait(30)
            back = list(reader.seen)
            rolls_back(part, recipe, server, rollback)
            reader.wait(30)
        print(f"    staged: {reader.missing} of {reader.reads} reads found no page", flush=True)
        part.same("staged: no page is missing", reader.missing, 0)
        part.same("before the release readers see the first", before, ["v1.0.0"])
        part.same("then the second", then, ["v1.0.0", "v1.1.0"])
        part.same("and the first again", back, ["v1.0.0", "v1.1.0", "v1.0.0"])


def rolls_back(part, recipe, server, rollback):
    """Two releases more, and back to the first at one moment."""
    for name in ("v1.1.0", "v1.2.0"):
        if name == "v1.2.0":
            recipe.project.command(f"push {HOST} {KEY} other tag {name}")
            ended = once(site_of(part, "third", pages_of(name, PAGES)), url_of(server), version=("--version", name), host=HOST)
            part.same("a third release is stored, and cannot be read back", ended.returncode, 1)
        recipe.project.command(f"publish {HOST} {name}")
    part.same("the third release", text_of(server), b"<p>7 of v1.2.0</p>\n")
    done(recipe, "the rollback", rollback)
    part.same("the first release again", text_of(server), b"<p>7 of v1.0.0</p>\n")


def text_of(server):
    return server.get("/en/stable/p/7.html", HOST)[1]


def with_pass(server, shown):
    return hosts.ask(server.port, f"GET /en/stable/p/7.html HTTP/1.1\r\nHost: {HOST}\r\nDocs-Pass: {shown}\r\n\r\n".encode())


def done(recipe, what, step, check=True, **given):
    ended = recipe.shell(step, **given)
    recipe.part.check(what, not check or ended.returncode == 0, ended)
    return ended


def staged_as(part, what, ended, name, *says):
    """A run that ends well, names no missing page, and prints the line that releases the version."""
    missing = [text for text in says if text not in ended.stderr]
    good = ended.returncode == 0 and not missing and "were missing" not in ended.stderr
    part.check(what, good, (missing, ended))
    part.same(f"{what}: the line", ended.stdout, f"docs_host publish {HOST} {name} --store FILE\n")


def refused(part):
    """What is public, or has no rule, is told before anything is stored."""
    project = Project(part, "refused.docs", HOST)
    project.command(f"push {HOST} {KEY} k0 branch main")
    folder = site_of(part, "refused", pages_of("refused", 3))

    def stage(*words, version=()):
        with project.serve() as server, Relay(server.port) as relay:
            ended = once(folder, relay.url, "--stage", *words, version=version, host=HOST)
        part.same(f"nothing is uploaded, {words or version}", relay.uploads, [])
        return ended

    public = "main is public, and --stage is for a private version", f"docs_host make-private {HOST} main", "no page was stored"
    ends(part, "a public version", stage(version=("--version", "main")), 1, *public)
    project.command(f"hide {HOST} main")
    ends(part, "a hidden one", stage(version=("--version", "main")), 1, *public)
    rule = f'"docs_host add-rule {HOST} 1 tag semver private --store FILE"'
    ends(part, "a tag without a rule", stage("--push", "tag:v1.0.0"), 1, "v1.0.0 is public", rule)
    project.command(f"add-rule {HOST} 1 tag all private")
    rule = f'"docs_host add-rule {HOST} 1 tag semver activate --store FILE"'
    ends(part, "an inactive one", stage("--push", "tag:v1.1.0"), 1, "refused 17 Inactive", rule)
    names = {"tag:nightly": "'re:^nightly$'", "branch:release/1.x": "'re:^release/1\\.x$'", "branch:a<b": "'re:^a<b$'"}
    for name, pattern in names.items():
        kind, _, ref = name.partition(":")
        with project.serve() as server:
            ended = once(folder, url_of(server), "--push", name, version=(), host=HOST)
        line = f"docs_host add-rule {HOST} 1 {kind} {pattern} activate --store FILE"
        ends(part, f"{name}, inactive", ended, 1, "refused 17 Inactive", line)
        words = line.removeprefix("docs_host ").replace("FILE", project.store).replace("'", "").split()
        part.same(f"{name}: its rule is taken", hosts.run(part.program, *words).stdout, "ok\n")
        project.command(f"gone {HOST} {re.sub('[^a-z0-9.-]', '-', ref)}")
        with project.serve() as server:
            ended = once(folder, url_of(server), "--push", name, "--verify", "none", version=(), host=HOST)
        ends(part, f"{name}, with its rule", ended, 0, "active", "stored 6 pages")


def stopped(part):
    """A run that was stopped does not say that pages are missing; one with --replace says for whom they were."""
    project = Project(part, "stopped.docs", HOST)
    for line in (f"add-rule {HOST} 1 tag semver activate", f"add-rule {HOST} 2 tag semver private"):
        project.command(line)
    folder = site_of(part, "stopped", pages_of("v1.0.0", PAGES))
    words = ("--push", "tag:v1.0.0", "--stage")
    with project.serve() as server:
        with Relay(server.port, lambda path, pages: b"" if len(relay.uploads) == 1 and pages else None) as relay:
            ended = once(folder, relay.url, *words, "--build", "1", "--wait", "1", version=(), host=HOST)
        part.check("a run that stays unanswered", ended.returncode == 3 and "may be missing" not in ended.stderr, ended)
        staged_as(part, "the call again", once(folder, url_of(server), *words, "--build", "1", version=(), host=HOST), "v1.0.0")
        line = line_of(folder, url_of(server), "--replace", "--stage", version=("--version", "v1.0.0"), host=HOST)
        ended = hosts.subprocess.run(line, capture_output=True, encoding="utf-8", timeout=120)
        says = "pages were missing to those whose pass opens it for"
        part.check("with --replace it says for whom pages were missing", not ended.returncode and says in ended.stderr, ended)
