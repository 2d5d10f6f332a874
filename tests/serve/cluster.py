"""The configurations of deploy/cluster as they stand, on nine machines: the part `cluster` of tests/serve/run.

Each machine is a network namespace: two fronts, two caches, three stores, readers, an operator. Thirty projects. A program that is
killed and comes back; machines that are gone; a project that moves; a version that is made private; how much a second."""

import os
import re
import shutil
import signal
import socket
import subprocess
import time
from pathlib import Path

import fronts
import host as hosts
from machines import Reader, Switch, fetch, wait_until, within
from parts import KEY, Skip, need
from publishing import line_of, site_of, told_until

DEPLOY = hosts.ROOT / "deploy" / "cluster"
PASS = "reader-7"

FRONTS = {"front1": "10.77.0.11", "front2": "10.77.0.12"}
CACHES = {"cache1": "10.77.0.21", "cache2": "10.77.0.22"}
STORES = {"store1": "10.77.0.31", "store2": "10.77.0.32", "store3": "10.77.0.33"}
FRONT, SECOND = FRONTS.values()
INNER, CACHE_PORT, STORE_PORT = 8100, 8102, 8101

# How many projects there are; for how many seconds a cache keeps a reply, and a request waits, by the files.
PROJECTS, KEPT, WAIT = 30, 5, 20

# Seconds for an export or an import.
LONG = 900

TEXT = "A-line-of-a-page." * 240
PAGE = "/en/main/index.html"


def host_of(number):
    return f"p{number}.example.org"


def cluster(part):
    if os.getuid():
        raise Skip("only root makes machines of namespaces")
    for tool in ("ip", "haproxy", "varnishd", "caddy"):
        need(tool)
    part.room.chmod(0o755)
    with Switch(part) as switch:
        plan = Cluster(part, switch)
        within(plan.reader, lambda: plan.all())


class Cluster:
    def __init__(self, part, switch):
        self.part, self.programs, self.stopped, self.longest_stop = part, {}, {}, 0
        self.machines = {name: switch.machine(name, place) for name, place in {**FRONTS, **CACHES, **STORES}.items()}
        self.reader = switch.machine("reader", "10.77.0.100")
        self.map = {host_of(number): f"store{number % 3 + 1}" for number in range(PROJECTS)}
        self.masters = {}

    def all(self):
        self.start()
        for test in (self.everywhere, self.passes, self.purges, self.made_private, self.killed, self.gone, self.rates, self.moved):
            begun, self.longest_stop = time.monotonic(), 0
            test()
            print(f"    {test.__name__}: {time.monotonic() - begun:.0f} seconds", flush=True)

    # the machines

    def start(self):
        empty = self.part.path("empty.docs")
        hosts.make(self.part.program, empty)
        for name in STORES:
            shutil.copy(empty, self.store(name))
            self.serve(name)
            machine = self.machines[name]
            (machine.room / "Caddyfile").write_text((DEPLOY / "store.Caddyfile").read_text().replace("10.77.0.31", machine.address))
            machine.begin("caddy", "run", "--config", machine.room / "Caddyfile", "--adapter", "caddyfile")
            lines = [line for host, there in self.map.items() if there == name for line in lines_of(host)]
            self.command(name, *lines)
        for name in CACHES:
            machine = self.machines[name]
            words = ["-F", "-j", "none", "-n", machine.room / "varnish", "-s", "malloc,128m", "-a", f":{CACHE_PORT}"]
            machine.begin("varnishd", *words, "-f", DEPLOY / "varnish.vcl")
        for name in FRONTS:
            room = self.machines[name].room
            text = (DEPLOY / "haproxy.cfg").read_text().replace("/etc/haproxy", str(room)).replace("/run/haproxy", str(room))
            (room / "haproxy.cfg").write_text(text)
            shutil.copy(DEPLOY / "may-purge.lst", room)
        self.write()
        for name in FRONTS:
            self.masters[name] = self.machines[name].begin("haproxy", "-W", "-f", self.machines[name].room / "haproxy.cfg")
        for place in FRONTS.values():
            wait_until(lambda: fetch(place, host_of(0)).status == 200, hosts.TIME_LIMIT)
        wait_until(lambda: all(row[17] == "UP" for row in self.stats("caches").values()), hosts.TIME_LIMIT)
        time.sleep(3)

    def store(self, name):
        return str(self.machines[name].room / "docs.db")

    def serve(self, name):
        """Begins the program of a store, and waits until it listens."""
        machine = self.machines[name]
        words = ["serve", "--store", self.store(name), "--count", "4294967295", "--port", str(STORE_PORT), "--log"]
        log = machine.room / f"{Path(self.part.program).name}.log"
        before = log.read_text(errors="replace").count("listening") if log.exists() else 0
        self.programs[name] = machine.begin(self.part.program, *words)
        wait_until(lambda: log.read_text(errors="replace").count("listening") > before, hosts.TIME_LIMIT)
        if name in self.stopped:
            self.longest_stop = max(self.longest_stop, time.monotonic() - self.stopped.pop(name))

    def kill(self, name):
        self.programs[name].kill()
        self.programs[name].wait()
        self.stopped[name] = time.monotonic()

    def only(self, what, seen, wanted):
        """Readers got nothing else; where the program was away for longer than requests wait, they were told so, too."""
        away = {502, 503, 504} if self.longest_stop > WAIT - 3 else set()
        if away:
            print(f"    (a program was away for {self.longest_stop:.0f} seconds, and requests wait for {WAIT})", flush=True)
        self.part.same(what, set(seen) - away, wanted)

    def asked(self, name, line):
        """How often the program of a store was asked."""
        return self.machines[name].told(Path(self.part.program).name).count(line)

    def command(self, name, *lines):
        """Commands beside the server of a store."""
        ended = hosts.run(self.part.program, "script", "--store", self.store(name), stdin="".join(f"{it}\n" for it in lines))
        told = [line for line in ended.stdout.splitlines() if line.startswith(("refused", "usage", "failed"))]
        if ended.returncode or told:
            raise hosts.Broken(f"{lines[:2]}: {told[:3]}, {ended.stderr[-300:]}")

    def write(self, moving=()):
        """The files of both fronts, and what has them read anew."""
        before = {name: self.worker(name) for name in self.masters}
        for name in FRONTS:
            room = self.machines[name].room
            (room / "stores.map").write_text("".join(f"{host} {store}\n" for host, store in self.map.items()))
            (room / "moving.lst").write_text("".join(f"{host}\n" for host in moving))
            if name in self.masters:
                self.masters[name].send_signal(signal.SIGUSR2)
        if self.masters:
            wait_until(lambda: all(self.worker(name) != number for name, number in before.items()))
            time.sleep(3)

    def publish(self, host, folder, *words, front=FRONT):
        line = line_of(folder, f"http://{front}", *words, host=host)
        return subprocess.run(line, stdin=subprocess.DEVNULL, capture_output=True, encoding="utf-8", timeout=hosts.TIME_LIMIT)

    # what is tried

    def everywhere(self):
        """Each project is read through each front, and a second time from a cache."""
        part = self.part
        for place in FRONTS.values():
            replies = [fetch(place, host_of(number)) for number in range(PROJECTS)]
            right = [reply.status == 200 and reply.body.decode() == f"{host_of(number)}{TEXT}" for number, reply in enumerate(replies)]
            part.check(f"{PROJECTS} projects through {place}", all(right), [reply.status for reply in replies])
        wait_until(lambda: fetch(FRONT, host_of(1)).status == 200)
        before = self.asked("store2", f"GET {PAGE}")
        ages = [fetch(place, host_of(1)).status for place in (FRONT, SECOND) * 5]
        part.same("a page, ten times at once", set(ages), {200})
        more = self.asked("store2", f"GET {PAGE}") - before
        part.check("its store is asked once or twice", more <= 2, more)
        part.same("a host that no store has", fetch(FRONT, "none.example.org").status, 404)
        reply = fetch(FRONT, host_of(1), "/en/main/s.css", Accept_Encoding="gzip")
        seen = reply.status, reply.headers.get("Cache-Control"), reply.headers.get("Content-Encoding")
        part.same("a style sheet", seen, (200, "max-age=600", "gzip"))
        part.same("a page is not kept by browsers", fetch(FRONT, host_of(1)).headers.get("Cache-Control"), None)

    def passes(self):
        """A request with a pass, or with the cookie of one, meets no cache, and leaves nothing in one."""
        part, host = self.part, host_of(0)
        shown = [{"Docs_Pass": PASS}, {"Cookie": f"a=1; docs_pass={PASS}"}]
        before = self.asked("store1", f"GET {PAGE} ")
        for one in shown * 3:
            reply = fetch(FRONT, host, PAGE, **one)
            part.same("with a pass", (reply.status, reply.headers.get("Cache-Control")), (200, "private, no-store"))
        # (a line is told after its client has the reply)
        wait_until(lambda: self.asked("store1", f"GET {PAGE} ") - before >= 6)
        part.same("how often the store is asked", self.asked("store1", f"GET {PAGE} ") - before, 6)
        for one in shown:
            opened = fetch(FRONT, host, "/en/next/index.html", **one)
            part.same(f"a private page by {list(one)}", (opened.status, opened.body), (200, b"next"))
        for place in FRONTS.values():
            part.same("without it", fetch(place, host, "/en/next/index.html").status, 404)
        for place in CACHES.values():
            direct = fetch(place, host, "/en/next/index.html", CACHE_PORT, Docs_Pass=PASS).status
            part.check("a cache that is asked with a pass", direct in (200, 404), direct)
            part.same("it keeps nothing of that", fetch(place, host, "/en/next/index.html", CACHE_PORT).status, 404)

    def purges(self):
        """bin/publish empties the caches: what it stored is read at once."""
        part, host = self.part, host_of(3)
        folder = site_of(part, "purged", {"index.html": "first\n", "s.css": "/* */"})
        words = [word for place in CACHES.values() for word in ("--purge", f"http://{place}:{CACHE_PORT}")]
        for given, what in ((words, "by each cache"), (["--purge", f"http://{FRONT}"], "through a front")):
            seen = []
            for text in ("second\n", "third\n"):
                fetch(FRONT, host)
                (folder / "index.html").write_text(text)
                ended = self.publish(host, folder, *given, "--verify", "none")
                seen.append(fetch(SECOND, host).body.decode() == text)
                part.check(f"published, {what}", ended.returncode == 0 and "was not emptied" not in ended.stderr, ended)
            part.same(f"read at once, {what}", seen, [True, True])
        (folder / "index.html").write_text("fourth\n")
        fetch(FRONT, host)
        ended = self.publish(host, folder, "--verify", "none")
        late = wait_until(lambda: fetch(FRONT, host).body == b"fourth\n")
        print(f"    without a purge it is read after {late:.1f} seconds", flush=True)
        part.check("without one, after some seconds", late <= KEPT + 1, late)
        (folder / "index.html").write_text("fifth\n")
        ended = self.publish(host, folder)
        part.check("read back without one", ended.returncode == 0 and "none differs" in ended.stderr, ended)

    def made_private(self):
        """How long a cache has a version that was made private."""
        part, host = self.part, host_of(6)
        for is_purged in (False, True):
            fetch(FRONT, host)
            self.command("store1", f"make-private {host} main")
            if is_purged:
                lines = (hosts.ROOT / "docs" / "operations.md").read_text().splitlines()
                [line] = [line.strip() for line in lines if line.strip().startswith("for cache in ")]
                ended = hosts.run("sh", "-c", line.replace("docs.example.org", host))
                part.same("the caches are emptied, by the line of the document", (ended.stdout, ended.returncode), ("200 OK" * 2, 0))
            late = wait_until(lambda: fetch(FRONT, host).status == 404)
            print(f"    made private, {'with' if is_purged else 'without'} a purge: read for {late:.1f} seconds more", flush=True)
            part.check("it is read for", late <= (0.5 if is_purged else KEPT + 1), late)
            self.command("store1", f"publish {host} main")
            wait_until(lambda: fetch(FRONT, host).status == 200)
        # while its store is away it stays, as it was read before, until the caches are emptied
        fetch(FRONT, host)
        self.command("store1", f"make-private {host} main")
        self.kill("store1")
        wait_until(lambda: self.is_away("store1"))
        part.same("made private, and then its store is away", fetch(FRONT, host).status, 200)
        purged = {fetch(it, host, "/", CACHE_PORT, "PURGE").status for it in CACHES.values()}
        part.same("the caches are emptied meanwhile", purged, {200})
        waiting = Reader(FRONT, host)
        time.sleep(3)
        self.serve("store1")
        wait_until(lambda: waiting.statuses)
        self.only("then it waits for the store, and is not there", waiting.ended(), {404})
        self.command("store1", f"publish {host} main")

    def is_away(self, name):
        return self.stats(name)[name][17].startswith("DOWN")

    def told_by(self, name, asked):
        """What the HAProxy of a front tells."""
        with socket.socket(socket.AF_UNIX) as one:
            one.connect(str(self.machines[name].room / "admin.sock"))
            one.sendall(f"{asked}\n".encode())
            return hosts.received(one).decode()

    def worker(self, name):
        """The process of a front that answers: another one once its files are read anew."""
        return re.search(r"^Pid: (\d+)$", self.told_by(name, "show info"), re.M)[1]

    def stats(self, backend):
        """What the first front counts of the servers of a backend, by the columns of HAProxy."""
        said = self.told_by("front1", f"show stat {backend} 4 -1")
        rows = [line.split(",") for line in said.splitlines()[1:] if line]
        return {row[1]: row for row in rows}

    def cache_of(self, host):
        """The cache that has the replies of a host."""
        before = {name: row[7] for name, row in self.stats("caches").items()}
        fetch(FRONT, host)
        [name] = [name for name, row in self.stats("caches").items() if row[7] != before[name]]
        return name

    def killed(self):
        """A program is killed, and comes back five seconds later: no reader and no CI is told of it."""
        part = self.part
        folder = site_of(part, "killed", {"index.html": "again\n"})
        fetch(FRONT, host_of(0))
        readers = {
            "what a cache has": Reader(FRONT, host_of(0)),
            "what it has not": Reader(SECOND, host_of(3), "/en/main/s.css?1", Cache_Control="no-cache"),
            "with a pass": Reader(FRONT, host_of(9), Docs_Pass=PASS),
            "another store": Reader(SECOND, host_of(1), Docs_Pass=PASS),
        }
        time.sleep(1)
        self.kill("store1")
        publishing = subprocess.Popen(line_of(folder, f"http://{SECOND}", host=host_of(12)), stderr=subprocess.PIPE, encoding="utf-8")
        time.sleep(5)
        self.serve("store1")
        told = publishing.communicate(timeout=hosts.TIME_LIMIT)[1]
        part.check("a publish meanwhile", publishing.returncode == 0 and "none differs" in told, told)
        time.sleep(1)
        for what, reader in readers.items():
            self.only(f"killed and back: {what}", reader.ended(), {200})
            print(f"    killed and back: {what}: {sum(reader.statuses.values())} reads, the longest {reader.longest:.1f} seconds", flush=True)
        part.check("another store does not wait", readers["another store"].longest < 3, readers["another store"].longest)

    def moved(self):
        """A project moves from one store to another by one line, while it is read."""
        part, host = self.part, host_of(2)
        readers = [Reader(FRONT, host), Reader(SECOND, host, Docs_Pass=PASS), Reader(FRONT, host, "/en/next/index.html", Docs_Pass=PASS)]
        begun = time.monotonic()
        self.write(moving=[host])
        part.same("a push meanwhile", fetch(FRONT, host, "/_/push", method="POST", body="{}", Docs_Key=KEY).status, 503)
        folder, programs = part.path("export"), hosts.ROOT / "bin"
        given = {**os.environ, "DOCS_HOST": self.part.program, "DOCS_KEY": KEY}
        self.kill("store3")
        words = [programs / "export", host, folder, "--store", self.store("store3")]
        exporting = subprocess.Popen(words, env=given, stderr=subprocess.PIPE, encoding="utf-8")
        told = told_until(exporting, "it may be served again")
        self.serve("store3")
        told += exporting.communicate(timeout=LONG)[1]
        part.check("the export", exporting.returncode == 0, told)
        self.kill("store2")
        words = [programs / "import-project", folder, "--store", self.store("store2")]
        ended = subprocess.run(words, env=given, capture_output=True, encoding="utf-8", timeout=LONG)
        self.serve("store2")
        part.same("the import", (ended.returncode, ended.stderr[-300:] if ended.returncode else ""), (0, ""))
        self.map[host] = "store2"
        self.write()
        print(f"    a project moved in {time.monotonic() - begun:.0f} seconds", flush=True)
        time.sleep(KEPT + 1)
        before = self.asked("store2", host), self.asked("store3", host)
        time.sleep(2)
        more = self.asked("store2", host) - before[0], self.asked("store3", host) - before[1]
        part.check("the new store is asked, the old one not", more[0] > 0 and more[1] == 0, more)
        for reader in readers:
            self.only("moved: what readers got", reader.ended(), {200})
            print(f"    moved: {sum(reader.statuses.values())} reads, the longest {reader.longest:.1f} seconds", flush=True)
        folder = site_of(part, "moved", {"index.html": "moved\n"})
        ended = self.publish(host, folder)
        part.check("it is published there", ended.returncode == 0 and "none differs" in ended.stderr, ended)

    def gone(self):
        """Machines that are gone, one after another."""
        part = self.part
        for name in ("cache1", "cache2"):
            readers = [Reader(FRONT, host_of(number)) for number in range(6)]
            time.sleep(1)
            self.machines[name].unplug()
            time.sleep(5)
            self.machines[name].plug()
            time.sleep(3)
            statuses = [reader.ended() for reader in readers]
            part.same(f"{name} is gone, and back", {status for one in statuses for status in one}, {200})
            print(f"    {name} gone: the longest read {max(reader.longest for reader in readers):.1f} seconds", flush=True)
        for name in CACHES:
            self.machines[name].unplug()
        wait_until(lambda: all(row[17].startswith("DOWN") for row in self.stats("caches").values()))
        part.same("both caches are gone: the stores are asked", {fetch(FRONT, host_of(number)).status for number in range(6)}, {200})
        for name in CACHES:
            self.machines[name].plug()
        wait_until(lambda: all(row[17] == "UP" for row in self.stats("caches").values()))
        # (each cache has just asked it, too)
        for number in range(12):
            fetch(SECOND, host_of(number), Cache_Control="no-cache")
        self.machines["front1"].unplug()
        part.same("front1 is gone: the next reads", {fetch(SECOND, host_of(number), Cache_Control="no-cache").status for number in range(6)}, {200})
        if fronts.has(part, "curl", "tries the second address of a name"):
            begun = time.monotonic()
            both = f"{host_of(1)}:80:{FRONT},{SECOND}"
            words = ["curl", "--silent", "--output", "/dev/null", "--write-out", "%{http_code}", "--connect-timeout", "4"]
            ended = subprocess.run([*words, "--resolve", both, f"http://{host_of(1)}{PAGE}"], capture_output=True, encoding="utf-8")
            part.same("front1 is gone: by a name with two addresses", ended.stdout, "200")
            print(f"    front1 gone: a read by both addresses {time.monotonic() - begun:.1f} seconds", flush=True)
        time.sleep(3)
        part.same("front1 is gone: the caches ask front2", {fetch(SECOND, host_of(number)).status for number in range(6)}, {200})
        self.machines["front1"].plug()
        time.sleep(3)
        for place in FRONTS.values():
            [fetch(place, host_of(number)) for number in range(15)]
        self.machines["store3"].unplug()
        wait_until(lambda: self.is_away("store3"))
        by_store = {name: [host for host, there in self.map.items() if there == name][:3] for name in STORES}
        seen = {name: {fetch(FRONT, host).status for host in some} for name, some in by_store.items()}
        part.same("store3 is gone: what was read before", seen, {name: {200} for name in STORES})
        begun = time.monotonic()
        missing = fetch(FRONT, by_store["store3"][0], PAGE, Docs_Pass=PASS).status
        print(f"    store3 gone: with a pass {missing} after {time.monotonic() - begun:.0f} seconds", flush=True)
        part.same("store3 is gone: with a pass", missing, 503)
        self.machines["store3"].plug()
        wait_until(lambda: not self.is_away("store3"))
        part.same("store3 is back", fetch(FRONT, by_store["store3"][0], PAGE, Docs_Pass=PASS).status, 200)

    def rates(self):
        """Requests a second: a store alone, and through one and two caches; each by as many runs of wrk at once."""
        if not fronts.has(self.part, "wrk", "asks much a second"):
            return
        by_cache = {}
        for host in self.map:
            by_cache.setdefault(self.cache_of(host), []).append(host)
        print(f"    hosts by cache: {', '.join(f'{name} {len(some)}' for name, some in sorted(by_cache.items()))}", flush=True)
        self.part.same("each cache has some of the hosts", set(by_cache), set(CACHES))
        [one, *_], [two, *_] = by_cache.values()
        figures = {}
        for what, places in (
            ("the program alone, a connection for each request", [("store1", "127.0.0.1", STORE_PORT, host_of(0))]),
            ("a store with its Caddy", [("reader", STORES["store1"], STORE_PORT, host_of(0))]),
            ("one cache", [("reader", CACHES["cache1"], CACHE_PORT, host_of(0))]),
            ("two caches", [("reader", place, CACHE_PORT, host_of(0)) for place in CACHES.values()]),
            ("one front and one cache", [("reader", FRONT, 80, one)]),
            ("two fronts and two caches", [("reader", FRONT, 80, one), ("reader", SECOND, 80, two)]),
        ):
            figures[what] = sum(self.rate(places))
            print(f"    {what}: {figures[what]:,.0f} requests a second of a page of 4 KB", flush=True)
        self.part.check("all were answered", all(figures.values()), figures)

    def rate(self, places):
        began = []
        for name, place, port, host in places:
            machine = self.machines.get(name, self.reader)
            words = ["wrk", "--threads", "1", "--connections", "8", "--duration", "5s", "--header", f"Host: {host}"]
            line = machine.words(*words, f"http://{place}:{port}{PAGE}")
            began.append(subprocess.Popen(line, stdout=subprocess.PIPE, encoding="utf-8"))
        for process in began:
            said = process.communicate(timeout=hosts.TIME_LIMIT)[0]
            found = re.search(r"Requests/sec: *([0-9.]+)", said)
            self.part.check("no reply but 200", found and "Non-2xx" not in said, said)
            yield float(found[1]) if found else 0


def lines_of(host):
    """A project with a page of 4 KB, a private version, and a pass that opens it."""
    yield f"new-project {host} en main public {KEY}"
    yield f"add-rule {host} 1 tag all activate"
    yield f"push {host} {KEY} k0 branch main"
    yield f"push {host} {KEY} k1 tag next"
    yield f"upload {host} {KEY} u0 main en index.html text/html {host}{TEXT}"
    yield f"upload {host} {KEY} u1 main en s.css text/css {TEXT}"
    yield f"upload {host} {KEY} u2 next en index.html text/html next"
    yield f"make-private {host} next"
    yield f"add-pass {host} {PASS}"
    yield f"grant {host} {PASS} next"
