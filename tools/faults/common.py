"""What the parts of tools/faults share: runs of the program with calls that fail, the files that these leave, and what counts."""

import os
import re
import shutil
import sqlite3
import subprocess
import sys
import tempfile
from contextlib import closing
from pathlib import Path

HERE = Path(__file__).resolve().parent
SCRIPTS = HERE / "scripts"
sys.path[:0] = [str(HERE.parent.parent / "tests" / "serve"), str(HERE.parent)]

import host as hosts  # noqa: E402, F401
from casefiles import WORDS, read_case  # noqa: E402, F401
from checks import ROOT, TIME_LIMIT, Broken, Checks, Ended, run  # noqa: E402, F401

# The name of the file in the folder of a run, and the most bytes of a log that has nothing in it.
STORE, EMPTY_LOG = "records.db", 41

# A sentence for people about a line of a script.
SENTENCE = re.compile(rb"^docs_host: line \d+: (.*)\n", re.M)

# What a line prints that met a fault of the store, and one that found no memory.
STORE_FAILED = (b"refused 23 Store", b"failed store")
NO_MEMORY = (b"refused 24 OutOfMemory", b"failed memory")


def build_library(folder):
    """The library of faults.c, built by the toolchain's compiler, or by the one of the machine where there is none."""
    library = Path(folder) / "faults.so"
    rt = shutil.which("rt")
    own = Path(os.path.realpath(rt)).parent.parent / "toolchain" / "bin" / "clang" if rt else None
    if own and own.is_file():
        words = [own, "-nostdlib", "-fuse-ld=lld"]
    else:
        words = [os.environ.get("CC", "cc")]
    subprocess.run([*words, "-O1", "-shared", "-fPIC", "-o", library, HERE / "faults.c"], check=True)
    return str(library)


def place_for_files():
    """A folder in memory where there is one, since each run makes its files anew."""
    memory = Path("/dev/shm")
    return memory if memory.is_dir() and shutil.disk_usage(memory).free > 1_000_000_000 else None


def new_folder():
    return tempfile.TemporaryDirectory(dir=place_for_files())


class Part(Checks):
    """The program, the library, and what a part has counted."""

    most_shown = 10

    def __init__(self, program, library, wants_all):
        super().__init__()
        self.program, self.library, self.wants_all = program, library, wants_all

    def note(self, what, verdict, ended, counts):
        """Counts what came of a run by its verdict, which is wrong behind a '-'."""
        is_good = not verdict.startswith("-")
        counts[verdict if is_good else "wrong"] += 1
        self.check(what, is_good, f"{verdict[2:]}: {ended}")
        if self.failed > 10 * self.most_shown:
            raise Broken("too many are wrong")

    def run(self, words, data=b"", folder=None, **environment):
        """A run with these variables, under the library where there are some."""
        return run([self.program, *words], data, folder, {"LD_PRELOAD": self.library, **environment} if environment else {})

    def must(self, words, data=b"", folder=None):
        ended = self.run(words, data, folder)
        if ended.status:
            raise Broken(f"{' '.join(words)}: {ended}")
        return ended

    def world(self, folder, store=STORE):
        """All rows of a file, as the program opens it; what is told where it does not."""
        opened = self.run(["get", "none.test", "/", "--store", store], folder=folder)
        if opened.out != b"404 - 14\n":
            return opened.err.decode(errors="replace")
        with closing(sqlite3.connect(f"file:{folder}/{store}?mode=ro", uri=True)) as file:
            names = [name for [name] in file.execute("SELECT name FROM sqlite_schema WHERE type = 'table' ORDER BY name")]
            return {name: sorted(map(repr, file.execute(f'SELECT * FROM "{name}"'))) for name in names}


def copy_store(here, there):
    """Copies a file and its log to another folder, where they take the place of those that are there."""
    for name in (STORE, f"{STORE}-wal"):
        Path(there, name).unlink(missing_ok=True)
        if Path(here, name).exists():
            shutil.copyfile(Path(here, name), Path(there, name))


class Worlds:
    """The rows of files, each of which is opened once."""

    def __init__(self, part):
        self.part, self.known = part, {}

    def of(self, folder):
        key = tuple(bytes_of(Path(folder, name)) for name in (STORE, f"{STORE}-wal"))
        if key not in self.known:
            with new_folder() as own:
                copy_store(folder, own)
                self.known[key] = self.part.world(own)
        return self.known[key]


def bytes_of(path):
    """What a file has; nothing where there is none, or a log that is too short to have a change in it."""
    data = path.read_bytes() if path.exists() else b""
    return b"" if path.name.endswith("-wal") and len(data) <= EMPTY_LOG else data


def printing_lines(data):
    """The lines of a script that print something, each with its end: a last one without an LF may end with a CR, which is its own."""
    lines = re.findall(rb"[^\n]*\n|[^\n]+", data)
    lines = [line if line.endswith(b"\n") else line + b" \n" for line in lines]
    return [line for line in lines if line.strip() and not line.startswith(b"#")]


class Script:
    """A script over memory, or over a file: what its lines print, and the rows that its first so many lines leave."""

    def __init__(self, part, path, base=None):
        self.part, self.base, self.name = part, base, path.stem
        self.lines = printing_lines(read_case(path).data)
        self.words = ["script", "--store", STORE] if base else ["script"]
        self.known = {}
        self.whole = self.part_of(self.lines)
        self.said = self.whole[0].out.splitlines(keepends=True)
        if self.whole[0].status or len(self.said) != len(self.lines):
            raise Broken(f"{path.name}: {self.whole[0]}")

    @property
    def data(self):
        return b"".join(self.lines)

    def part_of(self, lines):
        """What these lines do from the base: how they end, and the rows that they leave."""
        data = b"".join(lines)
        if data not in self.known:
            with new_folder() as folder:
                if self.base:
                    copy_store(self.base, folder)
                ended = self.part.run(self.words, data, folder)
                self.known[data] = ended, self.part.world(folder) if self.base else None
        return self.known[data]

    def without(self, numbers):
        """What the script does without the lines of these numbers."""
        return self.part_of([line for number, line in enumerate(self.lines) if number not in numbers])

    def world_after(self, count):
        """The rows after the first so many lines."""
        return self.part_of(self.lines[:count])[1]


def make_base(part, folder, script=None):
    """A new file in a folder, with what a script makes, closed."""
    part.must(["init", STORE], folder=folder)
    if script:
        part.must(["script", "--store", STORE], script, folder)
    return folder


def make_old(folder):
    """A file of schema 1, as an earlier program made it."""
    with closing(sqlite3.connect(f"{folder}/{STORE}")) as file:
        file.executescript((ROOT / "tests" / "commands" / "old_files.sql").read_text())
    return folder


def show(name, counts):
    print(f"  {name}: {sum(counts.values()):,}: " + ", ".join(f"{count:,} {what}" for what, count in sorted(counts.items())), flush=True)


def sentences(err):
    """The sentences about lines, without their numbers, and the rest of what was told."""
    return SENTENCE.findall(err), SENTENCE.sub(b"", err)
