"""The moment: a pass opens a private page before its end and not from then on, whichever word asks, and by the clock alone."""

import time
from pathlib import Path

from common import STORE, make_base, new_folder
from host import Server, ask

# A private page, and a pass that ends at this second; `idle` has ended long before it.
END = 2_000_000_000
PRIVATE = b"""new-project docs.test en main private wkey-1
push docs.test wkey-1 k1 branch main
upload docs.test wkey-1 k2 main en index.html text/html secret
add-pass docs.test reader --until %d
grant docs.test reader main
add-pass docs.test idle --until 5
grant docs.test idle main
"""

TARGET = "/en/main/index.html"
OPEN, SHUT = b"200 - 6\n", b"404 - 14\n"


def request(name):
    return f"GET {TARGET} HTTP/1.1\r\nHost: docs.test\r\nDocs-Pass: {name}\r\n\r\n".encode()


def asks(part, name, folder, **environment):
    """What each word says of the page to who shows this pass: whether it is open."""
    get = f"get docs.test {TARGET} --pass {name}"
    store = ["--store", STORE]
    yield "get", part.run([*get.split(), *store], folder=folder, **environment).out, (OPEN, SHUT)
    yield "script", part.run(["script", *store], get.encode(), folder, **environment).out, (OPEN, SHUT)
    reply = part.run(["answer", *store], request(name), folder, **environment).out
    yield "answer", reply[9:12], (b"200", b"404")


def judge(part, name, is_open, folder, what, **environment):
    for word, said, (yes, no) in asks(part, name, folder, **environment):
        part.check(f"{word}, {what}", said == (yes if is_open else no), said)


def is_served(server, name):
    return ask(server.port, request(name))[9:12] == b"200"


def by_a_set_clock(part, folder):
    """A clock that is set: to the last second of the pass and to its end, for each word and for a server that runs on."""
    clock = Path(folder, "clock")
    preload = {"CLOCK_FILE": str(clock)}
    for seconds, is_open in ((END - 1, True), (END, False), (4, True)):
        clock.write_text(str(seconds))
        judge(part, "reader", is_open, folder, f"at {seconds}", **preload)
        judge(part, "idle", seconds < 5, folder, f"at {seconds}, the other pass", **preload)
    # a word that gives the moment does not ask the clock
    clock.write_text(str(END))
    given = f"get docs.test {TARGET} --pass reader --now {END - 1} --store {STORE}"
    part.check("get with --now", part.run(given.split(), folder=folder, **preload).out == OPEN)
    more = {"LD_PRELOAD": part.library, **preload}
    with Server(part.program, f"{folder}/{STORE}", 100, f"{folder}/errors", more=more) as server:
        for seconds, is_open in ((END - 1, True), (END, False), (END - 1, True), (4, True)):
            clock.write_text(str(seconds))
            part.check(f"serve at {seconds}", is_served(server, "reader") == is_open)
            part.check(f"serve at {seconds}, the other pass", is_served(server, "idle") == (seconds < 5))


def by_the_clock(part, folder):
    """The clock of the machine: a pass that ends while the server runs."""
    end = int(time.time()) + 3
    for line in (f"add-pass docs.test brief --until {end}", "grant docs.test brief main"):
        part.must([*line.split(), "--store", STORE], folder=folder)
    judge(part, "brief", True, folder, "before its end")
    judge(part, "idle", False, folder, "which has ended")
    with Server(part.program, f"{folder}/{STORE}", 100, f"{folder}/errors") as server:
        part.check("serve before the end", is_served(server, "brief") or time.time() >= end)
        part.check("serve, a pass that has ended", not is_served(server, "idle"))
        time.sleep(max(0, end - time.time()))
        part.check("serve at the end", not is_served(server, "brief"))
    judge(part, "brief", False, folder, "from its end on")


def clock(part):
    """A pass that ends, before its end and from then on, over a file and a server."""
    with new_folder() as folder:
        make_base(part, folder, PRIVATE % END)
        by_a_set_clock(part, folder)
        by_the_clock(part, folder)
