"""All scripts of tests/scripts on one desk: first one after another, then line by line in turns; over memory, and over a file."""

import collections
import random
import re

from common import ROOT, STORE, Broken, make_base, new_folder, printing_lines, read_case, sentences

FOLDER = ROOT / "tests" / "scripts"

# The most bytes of a script.
MOST_SCRIPT = 1_000_000

# A host that a project may have.
HOST = re.compile(rb"[a-z0-9]([a-z0-9.-]{0,251}[a-z0-9])?")

# What follows a line's name: options, each of which may have its value behind it, and then the host.
VALUED = (b"--pass", b"--until", b"--now")


class Line:
    """A line under a host of its own, what it prints, and where it is from."""

    def __init__(self, text, printed, name):
        self.text, self.printed, self.name = text, printed, name


def host_at(words):
    """The number of the word that is the line's host, where it has one that a project may have."""
    at = 1
    while at < len(words) and words[at].startswith(b"-"):
        at += 2 if words[at] in VALUED else 1
    return at if at < len(words) and HOST.fullmatch(words[at]) else None


def under(line, name):
    """The line, with a name of its script's own in its host: in front, or in place of its beginning where it would be too long."""
    pieces = re.split(rb"([ \t\r\n]+)", line)
    places = [at for at, piece in enumerate(pieces) if piece.strip(b" \t\r\n")]
    at = host_at([pieces[place] for place in places])
    if at is None:
        return line
    host = pieces[places[at]]
    longer = name + b"." + host
    pieces[places[at]] = longer if len(longer) <= 253 else longer[:253 - 10] + host[-10:]
    return b"".join(pieces)


def cases():
    """The scripts that run to their end."""
    for path in sorted(FOLDER.rglob("*.lines")):
        case = read_case(path)
        if not case.wanted.status:
            yield path.stem, case


def scripts():
    """These, each as its lines and what they print."""
    for stem, case in cases():
        lines, printed = printing_lines(case.data), case.wanted.out.splitlines(keepends=True)
        if len(lines) != len(printed):
            raise Broken(f"{stem}: {len(lines)} lines, and {len(printed)} that are printed")
        yield stem, lines, printed


def told():
    """The sentences that these scripts tell, without the numbers of their lines, and how often."""
    return collections.Counter(it for _, case in cases() for it in sentences(case.wanted.err)[0])


def bundles():
    """The scripts in lists, each with its number; the lines of one list fit into one script."""
    bundle, length = [], 0
    for number, (stem, lines, printed) in enumerate(scripts()):
        size = sum(map(len, lines))
        if bundle and length + size > MOST_SCRIPT:
            yield bundle
            bundle, length = [], 0
        bundle.append((number, stem, lines, printed))
        length += size
    yield bundle


def one_after_another(name, bundle):
    for number, stem, lines, printed in bundle:
        for line, out in zip(lines, printed):
            yield Line(under(line, b"%s%d" % (name, number)), out, stem)


def in_turns(name, seed, bundle):
    """The lines of these scripts, the next one of a script that chance takes, weighted by how many it has left."""
    chance = random.Random(seed)
    rest = [(number, stem, list(reversed(list(zip(lines, printed))))) for number, stem, lines, printed in bundle]
    order = [place for place, (_, _, lines) in enumerate(rest) for _ in lines]
    chance.shuffle(order)
    for place in order:
        number, stem, lines = rest[place]
        line, out = lines.pop()
        yield Line(under(line, b"%s%d" % (name, number)), out, stem)


def run(part, what, script, words, folder):
    ended = part.run(words, b"".join(line.text for line in script), folder)
    printed = ended.out.splitlines(keepends=True)
    if ended.status or len(printed) != len(script):
        part.check(what, False, f"status {ended.status}, {len(printed)} lines of {len(script)}: {ended.err[-300:]!r}")
        return collections.Counter()
    for line, out in zip(script, printed):
        part.same(f"{what}, {line.name}: {line.text[:80]!r}", out, line.printed)
    return collections.Counter(sentences(ended.err)[0])


def together(part):
    """Each line prints what it prints alone."""
    with new_folder() as folder:
        make_base(part, folder)
        # (a desk in memory ends with its script, so each has its scripts whole)
        done = [list(turn) for bundle in bundles() for turn in (one_after_another(b"a", bundle), in_turns(b"b", 1, bundle))]
        wanted = told() + told()
        for where, words in (("memory", ["script"]), ("a file", ["script", "--store", STORE])):
            said = collections.Counter()
            for number, script in enumerate(done):
                said += run(part, f"over {where}, part {number + 1}", script, words, folder)
            part.check(f"over {where}: the sentences", said == wanted, said - wanted, wanted - said)
            print(f"  over {where}: {sum(map(len, done)):,} lines, {sum(said.values()):,} sentences", flush=True)
