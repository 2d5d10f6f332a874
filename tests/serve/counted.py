"""A server that ends by itself: the part `counted` of tests/serve/run.

It answers as many connections as were ordered, ends with 0, and leaves a file on which the next command goes on."""

from host import command, make
from parts import HOST, KEY


def counted(part):
    """It ends by itself, and the file is whole then."""
    store = part.path("counted.docs")
    make(part.program, store, f"new-project {HOST} en main public {KEY}", f"push {HOST} {KEY} k0 branch main")
    with part.serve(store, 3) as server:
        replies = [server.get("/", HOST) for _ in range(3)]
        part.same("three replies", [reply and reply[0] for reply in replies], [302] * 3)
        part.same("the exit status after the last", server.wait(), 0)
    part.same("the next command", command(part.program, store, f"push {HOST} {KEY} k1 branch main"), "known main")
    with part.serve(store, 0) as server:
        part.same("the exit status of none to answer", server.wait(), 0)
