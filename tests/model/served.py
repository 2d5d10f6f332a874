"""A seed over one server: lines go to its control socket and requests to its port, it is killed and started, and its clock is moved."""

import os
import sys
from pathlib import Path

ROOT = Path(__file__).resolve().parent.parent.parent
# (behind this folder, which has a module `requests`, too)
sys.path += [str(ROOT / it) for it in ("tools", "tools/faults", "tests/serve")]

import lines  # noqa: E402
import requests  # noqa: E402
from checks import Ended, below, compared, difference, run  # noqa: E402
from common import build_library, new_folder  # noqa: E402
from host import Server, ask  # noqa: E402

# The moments that the clock of a server is set to: among them the ends of passes, and the seconds before.
MOMENTS = (0, 1, 998, 999, 1000, 1001, 4_000_000_000)

# The most lines that go to a server at once, and how many connections it may answer.
MOST_LINES, MOST_CONNECTIONS = 12, 1_000_000

# How the answer begins to a line that is refused as the words of a run, whose status is 1.
NOT_DONE = (b"refused ", b"bad target")


class Service:
    """A server over the file `f` of a folder, whose clock stands at a second that is given."""

    def __init__(self, program, folder):
        self.program, self.folder, self.clock = program, folder, Path(folder, "clock")
        self.more = {"LD_PRELOAD": build_library(folder), "CLOCK_FILE": str(self.clock)}
        self.set_clock(MOMENTS[-3])
        run([program, "init", "f"], folder=folder)
        self.start()

    def set_clock(self, moment):
        self.moment = moment
        # (a file that is written anew is empty for a while)
        own = Path(f"{self.clock}.new")
        own.write_text(str(moment))
        os.replace(own, self.clock)

    def start(self):
        """Starts a server: behind one that was killed its socket stays, and is taken over."""
        self.begun = self.moment
        self.server = Server(self.program, f"{self.folder}/f", MOST_CONNECTIONS, f"{self.folder}/errors", more=self.more)

    def __enter__(self):
        return self

    def __exit__(self, *_):
        self.server.kill()

    def run(self, words, data=b""):
        """A run beside the server. The file stands behind the first word, since `--` may follow."""
        return run([self.program, words[0], "--store", "f", *words[1:]], data, self.folder)

    def ask(self, request):
        """The reply to a request, behind which the client sends no more."""
        return ask(self.server.port, request, ends=True)


def moment_of(service):
    """The moment of a message or a request: when its connection comes."""
    return service.moment


def words_alone(part, wanted):
    """The words of a line that is alone and is one by its words; None of others."""
    of_lines = lines.lines_of(part[0] + b"\n")
    return of_lines[0] if len(part) == 1 and of_lines and wanted != b"usage\n" else None


def do_lines(service, maker, world, part, with_ends):
    """How the answers differ to lines that go as a script, or where one is alone at times by its words."""
    data = b"".join(line + b"\n" for line in part)
    wanted = lines.run_script(world, data, moment_of(service), with_ends)[0]
    words = words_alone(part, wanted)
    if words and maker.often(0.5):
        status = 1 if wanted.startswith(NOT_DONE) else 0
        return below(f"words: {part[0]!r}", compared(Ended(status, wanted), service.run(words)))
    return below(f"lines: {data!r}", compared(Ended(0, wanted), service.run(["script"], data)))


def do_request(service, maker, world):
    request = maker.request()
    wanted = requests.answer(world, request, moment_of(service))
    return below(f"request: {request!r}", difference("reply", wanted, service.ask(request)))


def do_seed(service, maker, script, with_ends):
    """How the first answers differ that do, to the lines of a script and to requests between them."""
    world, at = {}, 0
    maker.world = world
    while at < len(script):
        size = maker.random.randint(1, MOST_LINES) if maker.often(0.5) else 1
        faults = do_lines(service, maker, world, script[at : at + size], with_ends)
        if not faults and maker.often(0.3):
            faults = do_request(service, maker, world)
        if faults:
            return below(f"over a server, at the moment {service.moment}", faults)
        if maker.often(0.15):
            service.set_clock(maker.one(MOMENTS))
        if maker.often(0.03):
            service.server.kill()
            service.start()
        at += size
    return []


def judge(program, maker, script, with_ends):
    """How the answers to a script and to requests over one server differ, as lines."""
    with new_folder() as folder:
        with Service(program, folder) as service:
            return do_seed(service, maker, script, with_ends)
