"""What the parts of tests/serve/run have in common: their checks, and what the program says of a file that it does not open."""

import hashlib
import importlib.machinery
import importlib.util
import shutil
from pathlib import Path

from host import ROOT, Server

from checks import Checks, Skip

HOST, KEY = "docs.test", "wkey-1"

DAMAGED, EMPTY, NO_DATABASE = "it is damaged", "nothing is in it", "it does not begin as an SQLite database"
CHANGED = "by its header another SQLite wrote to it"
MISSING, FORBIDDEN = "there is no such file", "it may not be read and written by this user"


class Part(Checks):
    """The checks of one part, and the folder that it works in."""

    counts_skipped = True

    def __init__(self, program, room):
        super().__init__()
        self.program, self.room = program, room

    def path(self, name):
        return str(self.room / name)

    def serve(self, store, count=1000, *words, before=None):
        return Server(self.program, store, count, self.path("told"), words, before)


def need(tool):
    found = shutil.which(tool)
    if not found:
        raise Skip(f"there is no {tool}")
    return found


def module_of(name, folder="bin"):
    """A program of a folder as a module of its own, whose numbers a test may change."""
    loader = importlib.machinery.SourceFileLoader(f"of_{folder}", str(ROOT / folder / name))
    module = importlib.util.module_from_spec(importlib.util.spec_from_loader(loader.name, loader))
    loader.exec_module(module)
    return module


def sha(path):
    return hashlib.sha256(Path(path).read_bytes()).hexdigest()


def is_fault(part, what, ended, store, name, says):
    """Status 3, nothing on standard output, `fault NAME` on the first line of standard error, and a sentence on the second."""
    lines = ended.stderr.splitlines()
    good = ended.returncode == 3 and ended.stdout == "" and len(lines) == 2
    good = good and lines[0] == f"fault {name}" and store in lines[1] and says in lines[1]
    part.check(f"{what}: fault {name}, {says}", good, (ended.returncode, ended.stdout, ended.stderr))
