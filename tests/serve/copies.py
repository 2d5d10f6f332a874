"""Copies of a file with its log and without it, behind a server that was ended by a signal: the part `copies` of tests/serve/run.

The file alone lacks what only its log has, until a command has run on it; two servers serve two files."""

import os
import shutil
import signal
from pathlib import Path

from host import Server, command, make
from parts import HOST, KEY


def copies(part):
    store, other = part.path("first.docs"), part.path("other.docs")
    make(part.program, store, f"new-project {HOST} en main public {KEY}", f"push {HOST} {KEY} k0 branch main")
    with part.serve(store) as server:
        part.same("a push", server.post("/_/push", HOST, KEY, {"key": "k1", "kind": "tag", "ref": "1.0"})[0], 200)
        part.same("the end by SIGTERM", server.kill(signal.SIGTERM), -signal.SIGTERM)
    known, made = "known 1.0", "made 1.0 inactive shown public"
    shutil.copy(store, other)
    part.same("the file without its log lacks the push", command(part.program, other, f"push {HOST} {KEY} k2 tag 1.0"), made)
    log = Path(store + "-wal")
    before = log.stat().st_size
    command(part.program, store, f"get {HOST} /")
    print(f"    the log: {before:,} bytes after the kill, {log.stat().st_size if log.exists() else 0} after a command")
    os.remove(other)
    Path(other + "-wal").unlink(missing_ok=True)
    shutil.copy(store, other)
    part.same("the file alone after a command has it", command(part.program, other, f"push {HOST} {KEY} k2 tag 1.0"), known)
    with part.serve(store) as first, Server(part.program, other, 100, part.path("told-2")) as second:
        part.same("two programs on two files", [first.get("/", HOST)[0], second.get("/", HOST)[0]], [302, 302])
