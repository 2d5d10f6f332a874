"""Memory: each allocation of a run is refused in turn, in a copy of the program that goes on from there (faults.c)."""

import collections
import os
import re
import subprocess
import tempfile
from pathlib import Path
from typing import NamedTuple

from common import NO_MEMORY, SCRIPTS, STORE, Ended, Script, Worlds, copy_store, make_base, make_old, new_folder, read_case, sentences, show

# What a run tells that ends as memory is out: the sentence names the file where it is one's.
ENDED = re.compile(rb"fault Memory\ndocs_host: [^\n]*\n")

# What is said of a line that found no memory.
WITHOUT_MEMORY = re.compile(rb"memory")

# The reply where memory is out.
UNAVAILABLE = b"HTTP/1.1 503 Service Unavailable\r\n"
NO_MORE = b"\r\n\r\n503 Service Unavailable\n"

# What stands in the files that single runs begin from.
PROJECT = (SCRIPTS / "versions.script").read_bytes()

# The script that the gate runs with two refusals in a row.
TWICE = SCRIPTS / "versions.script"

# Some of all that is listed, and a list to import.
HOST, NOWHERE = "docs.test", "none.test"
LISTED = PROJECT + b"""new-project other.test en main public wkey-2
push docs.test wkey-1 k2 tag 2.0.0
upload docs.test wkey-1 k3 main en a.html text/html a
add-rule docs.test 1 tag all activate
add-redirect docs.test 1 exact 302 /a/* /en/latest/:splat
add-pass docs.test reader-7
grant docs.test reader-7 2.0.0
"""
RECORDS = "exact,301,no,/old/*,/en/latest/:splat\npage,302,yes,/install.html,/setup/install.html\n"
LISTS = [
    ["list-projects"],
    *([f"list-{what}", HOST] for what in ("langs", "versions", "defaults", "rules", "redirects", "passes")),
    ["list-pages", HOST, "main", "en"],
    ["list-seen", HOST, "--pass", "reader-7"],
]

# A run on a host that has no project makes fewer allocations behind its opening.
MOST_BEHIND = 180


class Copy(NamedTuple):
    """What came of a copy, whose allocation of this number was refused."""

    number: int
    ended: Ended


class Run(NamedTuple):
    """Words and input of a run in a folder, and from when on allocations are refused, and up to which."""

    words: list
    data: bytes
    begin: str
    end: str = ""


def copies(part, run, folder, more):
    """What came of each copy of a run, while its files stand in the folder `copy`; and at last the run itself, under the number 0."""
    told, tell = os.pipe()
    wait, go = os.pipe()
    variables = {"LD_PRELOAD": part.library, "COPIES": f"{tell},{wait}", "COPIES_FROM": run.begin, "COPIES_TO": run.end, "STORE": STORE, **more}
    with tempfile.TemporaryFile() as source, tempfile.TemporaryFile() as sink, tempfile.TemporaryFile() as errors:
        source.write(run.data)
        source.seek(0)
        process = subprocess.Popen(
            [part.program, *run.words], stdin=source, stdout=sink, stderr=errors, cwd=folder, env=variables, pass_fds=(tell, wait)
        )
        os.close(tell)
        os.close(wait)
        try:
            with open(told, "rb") as lines:
                while line := lines.readline():
                    number, status, out, err = map(int, line.split())
                    yield Copy(number, Ended(os.waitstatus_to_exitcode(status), lines.read(out), lines.read(err)))
                    os.write(go, b".")
            status = process.wait()
        finally:
            # (a process that ended is left as it is)
            process.kill()
            process.wait()
            os.close(go)
        sink.seek(0)
        errors.seek(0)
        yield Copy(0, Ended(status, sink.read(), errors.read()))


# ---- scripts


def is_told(err, reference):
    """Whether the sentences are those of a run, or fewer where there was no memory for them, but for those of lines without memory."""
    told, rest = sentences(err)
    known = collections.Counter(sentences(reference.err)[0])
    told = collections.Counter(it for it in told if not WITHOUT_MEMORY.search(it))
    return not told - known, rest


def judge_script(script, ended, world):
    """What came of a copy of a script: 'passed', 'gave up', 'ended'; or what is wrong, behind a '-'."""
    whole = script.whole[0]
    tells, rest = is_told(ended.err, whole)
    if ended.status == 3 and ENDED.fullmatch(rest):
        count = ended.out.count(b"\n")
        worlds = [script.world_after(it) for it in (count, count + 1)]
        return "ended" if whole.out.startswith(ended.out) and tells and world in worlds else "- ended otherwise"
    if ended.status or rest:
        return "- a status or a fault"
    said = ended.out.splitlines(keepends=True)
    short = [number for number, line in enumerate(said) if line.strip() in NO_MEMORY]
    reference, left = script.without(short)
    said = [line for number, line in enumerate(said) if number not in short]
    if b"".join(said) != reference.out or world != left or not is_told(ended.err, reference)[0]:
        return "- other lines or rows"
    return "gave up" if short else "passed"


def sweep_script(part, path, base, more):
    script, worlds, counts, verdicts = Script(part, path, base), Worlds(part), collections.Counter(), {}
    with new_folder() as folder:
        if base:
            copy_store(base, folder)
        run = Run(script.words, script.data, "input")
        for number, ended in copies(part, run, folder, more):
            world = worlds.of(Path(folder, "copy") if number else folder) if base else None
            key = ended, repr(world)
            if key not in verdicts:
                verdicts[key] = judge_script(script, ended, world)
            part.note(f"{script.name}, call {number}", verdicts[key], ended, counts)
    return counts


# ---- requests and single runs


def judge_request(ended, world, whole, before, after):
    if ended == whole and world == after:
        return "passed"
    if world not in (before, after):
        return "- other rows"
    if ended.status == 3 and not ended.out and ENDED.fullmatch(ended.err):
        return "ended"
    is_503 = ended.out.startswith(UNAVAILABLE) and ended.out.endswith(NO_MORE) and ended.status == 0 and not ended.err
    return "gave up" if is_503 else "- another reply"


def judge_single(ended, world, whole, before, after):
    if ended == whole and world == after:
        return "passed"
    if ended.status == 3 and ENDED.fullmatch(ended.err):
        good = world in (before, after) and whole.out.startswith(ended.out)
        return "ended" if good else "- ended with other rows"
    good = ended.status == 1 and ended.out.strip() in NO_MEMORY and world == before
    return "gave up" if good else "- another end"


def sweep_run(part, name, run, base, judge, again=None):
    """Refuses each allocation of a run over a file, and then, where `again` is told, runs it once more over what it left."""
    worlds, counts, verdicts = Worlds(part), collections.Counter(), {}
    with new_folder() as folder, new_folder() as plain:
        for one in (folder, plain) if base else ():
            copy_store(base, one)
        before = worlds.of(plain)
        whole = part.run(run.words, run.data, plain)
        after = worlds.of(plain)
        for number, ended in copies(part, run, folder, {}):
            own = Path(folder, "copy") if number else folder
            world = worlds.of(own)
            key = ended, repr(world)
            if key not in verdicts:
                verdicts[key] = judge(ended, world, whole, before, after)
                if again and ended.status == 3 and not again(part, own, run, whole, after):
                    verdicts[key] = "- again it does not do it"
            part.note(f"{name}, call {number}", verdicts[key], ended, counts)
    return counts


def is_done_again(part, folder, run, whole, after):
    """Whether the run, once more, does what it did not do, or finds it done."""
    with new_folder() as own:
        copy_store(folder, own)
        ended = part.run(run.words, run.data, own)
        return (ended == whole or b"something in it already" in ended.err) and part.world(own) == after


def judge_init(ended, world, whole, before, after):
    if ended.status == 3 and ENDED.fullmatch(ended.err):
        return "ended"
    return "passed" if ended == whole and world == after else "- another end"


# ---- single words over a file that is open


def count_of(part, words, base):
    """How many allocations a run makes over a copy of a file."""
    with new_folder() as folder:
        copy_store(base, folder)
        told = part.run(words, b"", folder, MEMORY_COUNT="1").err
    return int(re.search(rb"^allocations (\d+)$", told, re.M)[1])


def behind_opening(part, words, base):
    """A run whose memory is refused from the end of its opening on."""
    nothing = count_of(part, [NOWHERE if word == HOST else word for word in words], base)
    return Run(words, b"", str(nothing - MOST_BEHIND))


def sweep_word(part, words, base):
    """The first allocations that are refused are of the opening, which ends the run."""
    counts = sweep_run(part, words[0], behind_opening(part, words, base), base, judge_single)
    part.check(f"{words[0]}: from its opening on", counts["ended"] > 10, counts)
    show(words[0], counts)


def single_words(part):
    """Each word that lists, and an import, from when the file is open; and the list of the import while it is read."""
    with new_folder() as made, new_folder() as own:
        base = make_base(part, made, LISTED)
        for words in LISTS:
            sweep_word(part, [*words, "--store", STORE], base)
        records = Path(own, "list.csv")
        records.write_text(RECORDS)
        words = ["import", HOST, str(records), "--store", STORE]
        sweep_word(part, words, base)
        begin = count_of(part, ["import", HOST, str(records) + "x", "--store", STORE], base) - 20
        end = count_of(part, ["import", HOST, str(records), "--store", "none.db"], base)
        run = Run(words, b"", str(begin), str(end))
        show("its list", sweep_run(part, "its list", run, base, judge_single))


# ---- what is swept


def upload_request():
    body = b'{"key":"u9","language":"en","version":"main","pages":[{"path":"a.html","type":"text/html","text":"\\u0061\\n"},'
    body += b'{"path":"b.bin","type":"image/png","base64":"AAECAw=="}]}'
    head = b"POST /_/upload HTTP/1.1\r\nHost: docs.test\r\nDocs-Key: wkey-1\r\nContent-Length: %d\r\n\r\n"
    return head % len(body) + body


def push_request():
    body = b'{"key":"k9","kind":"tag","ref":"2.0.0"}'
    head = b"POST /_/push HTTP/1.1\r\nHost: docs.test\r\nDocs-Key: wkey-1\r\nContent-Length: %d\r\n\r\n"
    return head % len(body) + body


def get_request(target):
    return f"GET {target} HTTP/1.1\r\nHost: docs.test\r\n\r\n".encode()


def answers(target):
    return Run(["answer", "--store", STORE], target, "input")


def memory_of(part, path):
    """A case of tests/ or examples/: a script over memory, or a request to the sample."""
    case = read_case(path)
    if case.word == "script":
        show(path.stem, sweep_script(part, path, None, {}))
    else:
        show(path.stem, sweep_run(part, path.stem, Run([case.word], case.data, "input"), None, judge_request))


def memory(part):
    """Scripts over memory, one with two refusals in a row, and requests, lists and an import over a file; with --all scripts over a file, too, and files that are made, opened and migrated."""
    for path in sorted(SCRIPTS.glob("*.script")):
        show(f"{path.stem}, over memory", sweep_script(part, path, None, {}))
    show(f"{TWICE.stem}, and again", sweep_script(part, TWICE, None, {"COPIES_MORE": "1"}))
    with new_folder() as made:
        base = make_base(part, made, PROJECT)
        for name, data in (
            ("a push", push_request()),
            ("an upload", upload_request()),
            ("a page", get_request("/en/main/")),
            ("the versions", get_request("/_/versions")),
        ):
            show(name, sweep_run(part, name, answers(data), base, judge_request))
        single_words(part)
        if part.wants_all:
            memory_at_length(part, base)


def memory_at_length(part, base):
    """All that takes minutes: each line twice refused, and runs from their first allocation on."""
    for path in sorted(SCRIPTS.glob("*.script")):
        for times in ("1", "all"):
            show(f"{path.stem}, and again at {times}", sweep_script(part, path, None, {"COPIES_MORE": times}))
        with new_folder() as empty:
            show(f"{path.stem}, over a file", sweep_script(part, path, make_base(part, empty), {}))
    for name, words in (
        ("an opening", ["get", "docs.test", "/en/main/", "--store", STORE]),
        ("a command", ["push", "docs.test", "wkey-1", "k9", "tag", "2.0.0", "--store", STORE]),
    ):
        show(name, sweep_run(part, name, Run(words, b"", "start"), base, judge_single, is_done_again))
    with new_folder() as nothing, new_folder() as old:
        run = Run(["migrate", STORE], b"", "start")
        show("migrate", sweep_run(part, "migrate", run, make_old(old), judge_single, is_done_again))
        run = Run(["init", STORE], b"", "start")
        show("init", sweep_run(part, "init", run, nothing, judge_init, is_done_again))
