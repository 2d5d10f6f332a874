"""A file that a server has open: the part `openers` of tests/serve/run.

No other program opens it or changes it, and the server goes on; a port that is taken is told."""

import shutil
import socket
import subprocess

from host import make, run
from parts import HOST, KEY, is_fault, sha


def openers(part):
    store = part.path("openers.docs")
    make(part.program, store, f"new-project {HOST} en main public {KEY}", f"push {HOST} {KEY} k0 branch main")
    with part.serve(store) as server:
        part.same("the first", server.get("/", HOST)[0], 302)
        before = sha(store)
        for words in (
            ["serve", "--store", store, "--count", "1"],
            ["answer", "--store", store],
            ["init", store],
        ):
            ended = run(part.program, *words)
            is_fault(part, f"{words[0]} while serve runs", ended, store, "Store", "another program has it open")
        part.same("the file after these", sha(store), before)
        part.same("the first goes on", server.get("/", HOST)[0], 302)
        if shutil.which("sqlite3"):
            words = ["sqlite3", "-readonly", store, "SELECT count(*) FROM project"]
            ended = subprocess.run(words, capture_output=True, encoding="utf-8")
            part.check("sqlite3 while serve runs", ended.returncode != 0 and "locked" in ended.stderr, ended)
        else:
            part.skip("there is no sqlite3 that would read a file which is open")
    port_taken(part, store)


def port_taken(part, store):
    with socket.socket() as other:
        other.bind(("127.0.0.1", 0))
        other.listen()
        port = other.getsockname()[1]
        ended = run(part.program, "serve", "--store", store, "--count", "1", "--port", str(port))
        lines = ended.stderr.splitlines()
        good = ended.returncode == 3 and ended.stdout == "" and "fault Bind" in lines and "the port is taken" in lines[-1]
        part.check("a port that is taken", good, (ended.returncode, lines))
