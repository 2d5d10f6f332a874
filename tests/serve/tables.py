"""The file in the hands of a plain `sqlite3`: the part `tables` of tests/serve/run.

It reads all our tables, with the log too, and changes nothing by it; a file that it wrote or copied is not opened any more."""

import shutil
import subprocess

from host import command, make, run
from parts import CHANGED, DAMAGED, HOST, KEY, is_fault, need, sha

# Our tables, as README and docs call what they hold.
TABLES = "holds lang meta page pass pick project redirect rule used version".split()


def tables(part):
    sqlite = need("sqlite3")
    store = part.path("tables.docs")
    make(part.program, store, f"new-project {HOST} en main public {KEY}", f"push {HOST} {KEY} k0 branch main")

    def outside(*words):
        return subprocess.run([sqlite, *words], capture_output=True, encoding="utf-8", timeout=60)

    before = sha(store)
    dump = outside("-readonly", store, ".dump").stdout
    for name in TABLES:
        part.check(f"sqlite3 dumps the table {name}", f"CREATE TABLE {name} " in dump, dump)
    part.check("sqlite3 reads a row", f"INSERT INTO project VALUES('{HOST}','en','main','{KEY}',0);" in dump, dump)
    part.same("sqlite3 finds it sound", outside("-readonly", store, "PRAGMA integrity_check").stdout, "ok\n")
    part.same("the file that was read, unchanged", sha(store), before)
    part.same("a read after that", run(part.program, "get", HOST, "/", "--store", store).stdout, "302 /en/latest/ 0\n")
    source, copy = part.path("source.docs"), part.path("copy.docs")
    for what, words, path, told in (
        ("a write by sqlite3", "UPDATE project SET private = 1", source, DAMAGED),
        ("VACUUM INTO by sqlite3", f"VACUUM INTO '{copy}'", copy, CHANGED),
        (".backup by sqlite3", f".backup '{copy}'", copy, CHANGED),
    ):
        for old in [*part.room.glob("source.docs*"), *part.room.glob("copy.docs*")]:
            old.unlink()
        shutil.copy(store, source)
        outside(source, words)
        is_fault(part, f"after {what}", run(part.program, "get", HOST, "/", "--store", path), path, "Store", told)
    read_with_log(part, outside)


def read_with_log(part, outside):
    """A plain read of a file whose server was killed: sqlite3 may copy the log into the file."""
    store = part.path("killed.docs")
    make(part.program, store, f"new-project {HOST} en main public {KEY}")
    with part.serve(store) as server:
        part.same("a push", server.post("/_/push", HOST, KEY, {"key": "k1", "kind": "tag", "ref": "1.0"})[0], 200)
    part.same("sqlite3 reads what the log has", outside(store, "SELECT slug FROM version").stdout, "1.0\n")
    part.same("a push after that", command(part.program, store, f"push {HOST} {KEY} k2 tag 1.0"), "known 1.0")
