"""What the tools of the gate ask of the toolchain and of the machine."""
import functools
import importlib.machinery
import importlib.util
import os
import re
import shutil
import sys

BYTES_A_CHECK = 5_000_000_000


def toolchain():
    """The toolchain's own program, as a module: it knows how a crate is checked over the libraries below it."""
    path = os.path.realpath(shutil.which("rt") or sys.exit(f"{sys.argv[0]}: the toolchain is missing: its command 'rt' is not on PATH"))
    loader = importlib.machinery.SourceFileLoader("rt", path)
    module = importlib.util.module_from_spec(importlib.util.spec_from_loader("rt", loader))
    loader.exec_module(module)
    # A crate's stamp is summed from its libraries' stamps, anew for each way down to one, of which the program has tens of
    # thousands: minutes. No source changes while this runs, so each is summed once.
    module.rtlib.Crate.stamp = functools.cache(module.rtlib.Crate.stamp)
    return module


def memory_available():
    with open("/proc/meminfo", encoding="ascii") as it:
        return 1024 * int(re.search(r"MemAvailable:\s+(\d+)", it.read())[1])


def lanes():
    """How many checks go side by side: one a processor, while there are 5 GB of memory for each."""
    return max(1, min(len(os.sched_getaffinity(0)), memory_available() // BYTES_A_CHECK))
