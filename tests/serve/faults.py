"""Files that are none of ours, are damaged, or may not be opened: the part `faults` of tests/serve/run.

Each is refused with a sentence that says why, and stays as it was; what `init` makes is its owner's alone."""

import os
import random
import shutil
import subprocess
from pathlib import Path

import host as hosts
from host import command, make, run
from parts import DAMAGED, EMPTY, FORBIDDEN, HOST, KEY, MISSING, NO_DATABASE, is_fault, sha

# The most bytes of a log that has nothing in it.
LOG_HEAD = 41


def turned(data, place, bit):
    return data[:place] + bytes([data[place] ^ 1 << bit]) + data[place + 1 :]


def faulty_files(part, whole):
    """Files that a command has to refuse, by what they are, with what it says of them."""
    rows = [
        ("a text file", b"# Notes\n\nThese are no records.\n" * 40, NO_DATABASE),
        ("an empty file", b"", EMPTY),
        ("a file of one byte", b"x", EMPTY),
        ("a truncated file", whole[: len(whole) // 2], DAMAGED),
        ("a file cut within its first page", whole[:1000], DAMAGED),
    ]
    chance = random.Random(7)
    for place in [chance.randrange(100, len(whole)) for _ in range(10)]:
        rows.append((f"a bit turned at byte {place}", turned(whole, place, chance.randrange(8)), DAMAGED))
    for number, (what, data, says) in enumerate(rows):
        path = part.path(f"faulty-{number}.docs")
        Path(path).write_bytes(data)
        yield what, path, says


def faults(part):
    store = part.path("whole.docs")
    make(part.program, store, f"new-project {HOST} en main public {KEY}", f"push {HOST} {KEY} k0 branch main")
    for number in range(20):
        command(part.program, store, f"upload {HOST} {KEY} u{number} main en p{number}.html text/html {'x' * 2000}")
    whole = Path(store).read_bytes()
    for what, path, says in faulty_files(part, whole):
        before = sha(path)
        is_fault(part, what, run(part.program, "get", HOST, "/", "--store", path), path, "Store", says)
        is_fault(part, f"serve of {what}", run(part.program, "serve", "--store", path, "--count", "0"), path, "Store", says)
        part.same(f"{what}, unchanged", sha(path), before)
        left = [it for it in part.room.iterdir() if it.name.startswith(Path(path).name + "-") and it.stat().st_size > LOG_HEAD]
        part.same(f"{what}, no more than an empty log beside it", left, [])
    paths(part, store)
    unreadable(part, whole)
    inits(part, store)
    owners(part)
    unopened(part, whole)


def paths(part, store):
    folder = part.path("folder.docs")
    os.mkdir(folder)
    pipe = part.path("pipe.docs")
    os.mkfifo(pipe)
    absent = part.path("absent.docs")
    nowhere = part.path("nowhere/file.docs")
    for what, path, says in (
        ("a folder", folder, "it is a folder"),
        ("a pipe", pipe, "the system does not open it"),
        ("a path that is not there", absent, MISSING),
        ("a path in no folder", nowhere, MISSING),
    ):
        is_fault(part, what, run(part.program, "get", HOST, "/", "--store", path), path, "Store", says)
    part.check("no file was made", not os.path.exists(absent) and not os.path.exists(nowhere))
    link = part.path("link.docs")
    os.symlink(store, link)
    part.same("a symbolic link", run(part.program, "get", HOST, "/", "--store", link).stdout, "302 /en/latest/ 0\n")


def mode_of(path):
    return oct(os.stat(path).st_mode & 0o777)


def owners(part):
    """What init makes is its owner's alone, whatever the umask, and so is the log."""
    for mask in (0, 0o022, 0o077):
        path, before = part.path(f"owned-{mask}.docs"), os.umask(mask)
        try:
            make(part.program, path, f"new-project {HOST} en main public {KEY}")
            part.same(f"the mode under the umask {mask:o}", mode_of(path), "0o600")
            with part.serve(path):
                part.same(f"that of the log under the umask {mask:o}", mode_of(path + "-wal"), "0o600")
        finally:
            os.umask(before)


def unopened(part, whole):
    """What the store wants of a file and of what stands beside it: each has a sentence, and nothing is changed."""
    path, elsewhere = part.path("alone.docs"), part.path("elsewhere")
    Path(path).write_bytes(whole)
    for what, stands, makes, says in (
        ("a hard link", path + "-again", lambda it: os.link(path, it), "it has a second name (a hard link)"),
        ("a stray journal", path + "-journal", lambda it: Path(it).write_bytes(b"a journal"), "a rollback journal"),
        ("a linked log", path + "-wal", lambda it: os.symlink(elsewhere, it), "its log, whose name ends in -wal, is a link"),
        ("a folder as the log", path + "-wal", os.mkdir, "is no file"),
    ):
        if os.path.exists(path + "-wal"):
            os.remove(path + "-wal")
        makes(stands)
        is_fault(part, what, run(part.program, "get", HOST, "/", "--store", path), path, "Store", says)
        part.same(f"{what}, unchanged", Path(path).read_bytes(), whole)
        (os.rmdir if os.path.isdir(stands) else os.remove)(stands)
    part.same("without them it opens", run(part.program, "get", HOST, "/", "--store", path).returncode, 0)
    if not shutil.which("sqlite3"):
        part.skip("there is no sqlite3 that would write to a file")
        return
    subprocess.run(["sqlite3", path, "CREATE TABLE other (x)"], check=True, capture_output=True, timeout=hosts.TIME_LIMIT)
    ended = run(part.program, "get", HOST, "/", "--store", path)
    is_fault(part, "a file that sqlite3 wrote to", ended, path, "Store", "by its header another SQLite wrote to it")


def unreadable(part, whole):
    path = part.path("unreadable.docs")
    Path(path).write_bytes(whole)
    as_other = []
    if os.getuid() == 0:
        if not shutil.which("setpriv"):
            part.skip("root reads every file, and there is no setpriv to be another user")
            return
        os.chmod(part.room, 0o755)
        as_other = ["setpriv", "--reuid=65534", "--regid=65534", "--clear-groups"]
        if run(*as_other, part.program, "--help").returncode != 0:
            part.skip("root reads every file, and another user may not run the program where it stands")
            return
    for what, mode, says in (
        ("a file without leave to read", 0o000, FORBIDDEN),
        ("a file without leave to write", 0o444, "it may not be read and written by this user"),
    ):
        os.chmod(path, mode)
        ended = run(*as_other, part.program, "get", HOST, "/", "--store", path)
        is_fault(part, what, ended, path, "Store", says)
    os.chmod(path, 0o600)
    part.same("the file without leave, unchanged", Path(path).read_bytes(), whole)


def inits(part, store):
    taken = "there is something in it already"
    text, nowhere, empty = part.path("text.docs"), part.path("nowhere/file.docs"), part.path("empty.docs")
    Path(text).write_text("text\n")
    before = sha(store)
    is_fault(part, "init of a file that is there", run(part.program, "init", store), store, "NotOurs", taken)
    is_fault(part, "init of a text file", run(part.program, "init", text), text, "NotOurs", taken)
    is_fault(part, "init in no folder", run(part.program, "init", nowhere), nowhere, "Store", "the system does not open it")
    part.same("the file that was there, unchanged", sha(store), before)
    part.same("the text file, unchanged", Path(text).read_text(), "text\n")
    Path(empty).write_bytes(b"")
    part.same("init of an empty file", run(part.program, "init", empty).returncode, 0)
    part.same("a read of it", run(part.program, "get", HOST, "/", "--store", empty).stdout, "404 - 14\n")
