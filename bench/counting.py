"""A server under callgrind, whose instructions are counted from when it listens: for bench/growth and bench/uploads."""

import re
import subprocess

import host as hosts

# What counts instructions, and writes no file of them.
COUNTING = ["valgrind", "--tool=callgrind", "--callgrind-out-file=/dev/null"]


class CountedServer:
    """A server under callgrind."""

    def __init__(self, program, store, room):
        self.server = hosts.Server(program, store, 1_000_000, room / "told", under=[*COUNTING, "--instr-atstart=no"])
        self.control("-i", "on")

    def control(self, *words):
        words = ["callgrind_control", *words, str(self.server.process.pid)]
        ended = subprocess.run(words, stdin=subprocess.DEVNULL, capture_output=True, encoding="utf-8", timeout=300)
        if ended.returncode:
            raise hosts.Broken(f"callgrind_control: {ended.stdout[-300:]!r} {ended.stderr[-300:]!r}")
        return ended.stdout

    def counted(self):
        told = self.control("-e")
        found = re.search(r"Th 1\s+([\d,]+)", told)
        if not found and "Totals:" not in told:
            raise hosts.Broken(f"callgrind_control told no count: {told[-300:]!r}")
        # where nothing was counted yet, no thread is told
        return int(found[1].replace(",", "")) if found else 0

    def __enter__(self):
        return self

    def __exit__(self, *_):
        self.server.kill()


def counted_run(ended):
    """The instructions of a run under `COUNTING` that has ended, by what it told on standard error."""
    return int(re.search(r"Collected : (\d+)", ended)[1])
