"""What the tools that try the program share: their words, a run, how what came differs from what is wanted, and the count.

Each shows on standard output what failed, and tells on standard error how far it has come. Its last line is 'N passed, M failed',
which .ci/run adds up.
"""

import argparse
import contextlib
import difflib
import itertools
import os
import re
import subprocess
import sys
import threading
import time
from pathlib import Path
from typing import NamedTuple

ROOT = Path(__file__).resolve().parent.parent
BUILT = ROOT / "crates" / "docs_host" / "out" / "docs_host"

# Seconds for one run of the program.
TIME_LIMIT = 120

# (by it a run that is to be over memory, or over a file that it lacks, would be over the records of whoever calls)
os.environ.pop("DOCS_STORE", None)

# The most lines of a difference that are shown, and the most characters of each; the most characters of what was seen.
MOST_LINES, MOST_CHARACTERS, MOST_SEEN = 16, 120, 600


class Broken(Exception):
    """Something that should not be, behind which nothing more can be said."""


class Skip(Exception):
    """What is wanted, and is not there."""


# ---- words


def program_at(path):
    """The program at a path, wherever it is run."""
    if not (os.path.isfile(path) and os.access(path, os.X_OK)):
        raise argparse.ArgumentTypeError(f"there is no program {path}; tools/build makes one")
    return os.path.realpath(path)


def above_zero(text):
    if not text.isdecimal() or int(text) < 1:
        raise argparse.ArgumentTypeError(f"{text} is no number above 0")
    return int(text)


class Words(argparse.ArgumentParser):
    """The words of a tool: --program, by default the one that is built, --help, which prints the tool's own text, and what is added."""

    def __init__(self, text):
        self.text = text.strip()
        usage = re.search(r"^usage: (.*?)\n\n", self.text, re.M | re.S)[1]
        super().__init__(prog=usage.split()[0], usage=usage, allow_abbrev=False)
        self.add_argument("--program", metavar="PATH", default=str(BUILT), type=program_at)

    def format_help(self):
        return f"{self.text}\n"

    def chosen(self, parts, names):
        """Those of the parts that are named, or all."""
        for name in names:
            if name not in parts:
                self.error(f"there is no part {name}; there are {', '.join(parts)}")
        return {name: part for name, part in parts.items() if not names or name in names}


# ---- a run


class Ended(NamedTuple):
    """How a run ended: its exit status, and what it wrote on both outputs; None where nothing is said of that."""

    status: int
    out: bytes = None
    err: bytes = None


def run(words, data=b"", folder=None, env=None):
    """A run of the program that gets these bytes."""
    ended = subprocess.run(words, input=data, capture_output=True, cwd=folder, env=env, timeout=TIME_LIMIT)
    return Ended(ended.returncode, ended.stdout, ended.stderr)


# ---- how what came differs from what is wanted, as lines: none where it does not


def in_short(line):
    return line if len(line) <= MOST_CHARACTERS else f"{line[:MOST_CHARACTERS]}.. of {len(line)} characters"


def difference(what, wanted, written):
    """How bytes differ from those that are wanted."""
    if wanted == written:
        return []
    sides = [[repr(line)[2:-1] for line in data.split(b"\n")] for data in (wanted, written)]
    lines = list(difflib.unified_diff(*sides, f"{what} wanted", f"{what} written", "", "", 1, ""))
    shown = [in_short(line) for line in lines[:MOST_LINES]]
    if shown != lines:
        at = len(os.path.commonprefix([wanted, written]))
        shown.append(f".. {len(lines)} lines; from byte {at} on {wanted[at:][:40]} is wanted, and {written[at:][:40]} written")
    return shown


def compared(wanted, written):
    """How a run differs from one that is wanted."""
    faults = [] if wanted.out is None else difference("output", wanted.out, written.out)
    faults += [] if wanted.err is None else difference("standard error", wanted.err, written.err)
    if written.status != wanted.status:
        told = "" if wanted.err is not None else f": {written.err[-200:]!r}"
        faults.append(f"exit status {written.status}, and not {wanted.status}{told}")
    return faults


def below(head, faults):
    """These lines with one in front of them."""
    return [head, *faults] if faults else []


def first_of(wanted, written):
    """The first line that differs: its place from 0, and both; a line that is not there is None. None where no line differs."""
    lines = enumerate(itertools.zip_longest(wanted, written))
    return next(((place, *both) for place, both in lines if both[0] != both[1]), None)


def answered(asked, first):
    """How the answers to lines differ, by the first that does."""
    place, *both = first
    line = asked[place].decode(errors="replace") if place < len(asked) else "(there is no such line)"
    return [f"line {place + 1} of {len(asked)}: {line}", *difference("answer", *(b"(none)" if it is None else it for it in both))]


# ---- the count


def tell_progress(done, count):
    """Tells at each tenth of the way how far a tool has come."""
    if done * 10 // count > (done - 1) * 10 // count:
        print(f"{Path(sys.argv[0]).name}: {done:,} of {count:,}", file=sys.stderr, flush=True)


class Checks:
    """What is checked, counted. What failed is shown, or the first so many of it."""

    most_shown = None

    # Whether the last line says how many were skipped.
    counts_skipped = False

    def __init__(self):
        self.passed = self.failed = self.skipped = 0
        self.lock = threading.Lock()

    def check(self, what, good, *seen):
        """Counts a check; with one that failed it shows what was seen, a line each."""
        with self.lock:
            self.passed, self.failed = self.passed + bool(good), self.failed + (not good)
            if not good and (self.most_shown is None or self.failed <= self.most_shown):
                print(f"    FAILED {what}:", *(str(it)[:MOST_SEEN] for it in seen), sep="\n        " if seen[1:] else " ", flush=True)

    def same(self, what, seen, wanted):
        self.check(what, seen == wanted, f"{seen!r}, and not {wanted!r}")

    def skip(self, what):
        self.skipped += 1
        print(f"    skipped: {what}", flush=True)

    @contextlib.contextmanager
    def going_on(self, name):
        """Counts under a name what cannot be checked, or breaks; what comes behind goes on."""
        try:
            yield
        except Skip as why:
            self.skip(f"{name}: {why}")
        except (Broken, OSError, subprocess.TimeoutExpired) as error:
            self.check(name, False, error)

    def judge(self, cases, judge):
        """Counts cases, each by its name, which `judge` judges: how it differs, as lines."""
        cases = list(cases)
        for number, (name, case) in enumerate(cases, 1):
            with self.going_on(name):
                faults = judge(case)
                self.check(name, not faults, *faults)
            tell_progress(number, len(cases))

    def run_part(self, name, part, own):
        """Runs a part, which counts by checks of its own; these are added."""
        print(name, flush=True)
        begun = time.monotonic()
        with own.going_on(name):
            part(own)
        print(f"  {own.counts()}, in {time.monotonic() - begun:.0f} seconds", flush=True)
        self.passed, self.failed, self.skipped = self.passed + own.passed, self.failed + own.failed, self.skipped + own.skipped

    def counts(self):
        return f"{self.passed} passed, {self.failed} failed" + (f", {self.skipped} skipped" if self.counts_skipped else "")

    def end(self):
        """Prints the last line; the exit status."""
        print(self.counts())
        return 1 if self.failed else 0
