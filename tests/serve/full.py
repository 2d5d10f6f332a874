"""A disk that takes no more, for which a limit on the size of files stands: the part `full` of tests/serve/run.

Uploads are refused, reads are answered, and the file is opened again, up to the count, but not for each of uploads in a row; a file
that is lost ends the server. Where root runs it, a file system of a few MB is full, too, and the server says so."""

import os
import resource
import signal
import subprocess
import threading
import time

import host as hosts
from host import make
from parts import HOST, KEY, MISSING

REFUSED = (503, b'{"refused":23}')


def full(part):
    """A limit on the size of files stands for the disk. It is lifted for the next start."""
    store = filled(part, "full.docs")
    stored = []
    with part.serve(store, 2000, before=limited_to(2_000_000)) as server:
        refusals, in_turn, answers = fill_disk(server, stored)
        part.check("uploads are refused, three in turn at last", stored and in_turn == 3, (len(stored), in_turn))
        part.same("each with a 503", set(refusals), {REFUSED})
        part.same("a read beside each upload is answered", set(answers), {302})
        replies = [server.get(f"/en/main/{name}", HOST) for name in stored]
        part.check("what was stored before is read meanwhile", all(reply and reply[0] == 200 for reply in replies), len(stored))
        told = server.told_at_last().splitlines()
        openings = told.count(again(store))
        part.check("the file is opened again, for each at most", 0 < openings <= len(refusals), (openings, len(refusals)))
        part.same("and served each time", told.count(f"docs_host: serving {store}, projects: 1"), openings + 1)
        part.same("no fault is told", [line for line in told if line.startswith("fault")], [])
        part.same("and nothing ends the server", server.process.poll(), None)
    with part.serve(store) as server:
        replies = [server.get(f"/en/main/{name}", HOST) for name in stored]
        part.check("what was stored before is there", stored and all(reply and reply[0] == 200 for reply in replies), len(stored))
        part.same("and a push works again", server.post("/_/push", HOST, KEY, {"key": "k", "kind": "tag", "ref": "1.0"})[0], 200)
    in_a_row(part)
    rest_of_count(part)
    lost_file(part)
    if os.geteuid() == 0:
        full_file_system(part)


def again(store, why=""):
    return f"docs_host: the store failed{why}; opening {store} again"


def in_a_row(part):
    """Uploads behind a fault cost no opening each; what is no POST, or a second without one, brings the opening."""
    store = filled(part, "row.docs")
    with part.serve(store, before=limited_to(2_000_000)) as server:
        until_refused(server)
        part.same("nine more in a row are refused", [upload_one(server, f"row{number}.html") for number in range(9)], [REFUSED] * 9)
        openings = server.told_at_last().splitlines().count(again(store))
        part.check("and cost no opening each", openings <= 1, openings)
        part.same("a read behind them is answered", (server.get("/", HOST) or [None])[0], 302)
        openings = server.told_at_last().splitlines().count(again(store))
        part.check("over the file, which was opened", openings >= 1, openings)
        # (the opening took the log in, so that some may have room again)
        part.same("uploads are refused once more", until_refused(server)[-1], REFUSED)
        time.sleep(3)
        part.same("after a while without any the file is open again", server.told_at_last().splitlines().count(again(store)), openings + 1)


def full_file_system(part):
    """A file system of 3 MB, which takes no more: the server says so."""
    room = part.path("small")
    os.mkdir(room)
    if subprocess.run(["mount", "-t", "tmpfs", "-o", "size=3m", "tmpfs", room], stderr=subprocess.DEVNULL).returncode:
        print("    (no file system may be mounted here)", flush=True)
        return
    try:
        store = filled(part, "small/full.docs")
        with part.serve(store) as server:
            part.same("an upload that meets a full file system", until_refused(server)[-1], REFUSED)
            part.same("a read after it", (server.get("/", HOST) or [None])[0], 302)
            told = server.told_at_last().splitlines()
            part.check("the sentence says that the disk is full", again(store, ", since the disk is full") in told, told)
    finally:
        subprocess.run(["umount", room], check=True)


def filled(part, name):
    store = part.path(name)
    make(part.program, store, f"new-project {HOST} en main public {KEY}", f"push {HOST} {KEY} k0 branch main")
    return store


def limited_to(size):
    def limited():
        signal.signal(signal.SIGXFSZ, signal.SIG_IGN)
        resource.setrlimit(resource.RLIMIT_FSIZE, (size, size))

    return limited


def upload_one(server, name):
    page = {"path": name, "type": "text/html", "text": "x" * 20000}
    return server.post("/_/upload", HOST, KEY, {"key": name, "language": "en", "version": "main", "pages": [page]})


def until_refused(server):
    """What came of uploads, the last of which was not done."""
    replies = []
    while len(replies) < 500 and (not replies or replies[-1] and replies[-1][0] == 200):
        replies.append(upload_one(server, f"p{len(replies)}.html"))
    return replies


def fill_disk(server, stored):
    """Uploads until three in turn are refused, and a read beside each; what came of those, and of these."""
    refusals, in_turn, answers = [], 0, []
    for number in range(500):
        reader = threading.Thread(target=lambda: answers.append((server.get("/", HOST) or [None])[0]))
        reader.start()
        name = f"p{number}.html"
        reply = upload_one(server, name)
        reader.join(hosts.TIME_LIMIT)
        if reply and reply[0] == 200:
            stored.append(name)
            in_turn = 0
        else:
            refusals.append(reply)
            in_turn += 1
        if in_turn == 3:
            break
    return refusals, in_turn, answers


def rest_of_count(part):
    """The rest of a count is served behind a fault, and no more; a fault at the last connection is opened after, too."""
    with part.serve(filled(part, "counted.docs"), before=limited_to(2_000_000)) as server:
        number = len(until_refused(server))
    for more in (5, 0):
        store = filled(part, f"counted-{more}.docs")
        with part.serve(store, number + more, before=limited_to(2_000_000)) as server:
            part.same(f"{more} before the end of the count an upload is refused", until_refused(server)[number - 1 :], [REFUSED])
            part.same("the others are answered", [server.get("/", HOST)[0] for _ in range(more)], [302] * more)
            part.same("it is done, as its file was found good", server.wait(), 0)
            told = server.told().splitlines()
            last = [again(store), f"docs_host: serving {store}, projects: 1"]
            part.same("and it told of the fault", told[-2:], last)


def lost_file(part):
    """A file that is not there any more does not open again, also where the fault met the last connection."""
    count = 1000
    for what in ("that is lost", "that is lost, at the last connection"):
        store = filled(part, f"lost-{count}.docs")
        with part.serve(store, count, before=limited_to(500_000)) as server:
            os.remove(store)
            count = len(until_refused(server))
            part.same(f"a file {what}, does not open again: status 3", server.wait(), 3)
            told = server.told().splitlines()
            part.check("and a sentence says why", told[-2] == "fault Store" and store in told[-1] and MISSING in told[-1], told)
