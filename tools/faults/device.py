"""Files: each call that changes one goes wrong in turn, over a real file."""

import collections
import re

from common import SCRIPTS, STORE, STORE_FAILED, Broken, Script, copy_store, make_base, make_old, new_folder, sentences, show

# What happens at a call.
HOW = ("kill", "once", "rest", "half")
KILLED = -9

# What a line prints that is refused by its words alone, and asks no file.
ASKS_NOTHING = re.compile(rb"usage\n|bad target\n|refused ([1-9]|25) ")

# What stands in the file that single runs begin from.
PROJECT = (SCRIPTS / "versions.script").read_bytes()


def calls_of(part, words, data, folder, more):
    """How many calls a run makes."""
    ended = part.run(words, data, folder, CALL_COUNT="1", **more)
    if ended.status:
        raise Broken(f"{words}: {ended}")
    return int(ended.err.split()[-1])


# What a single command tells that met a fault, beside how the run ends.
REFUSED = b"docs_host: the store failed: what became of the command is known when the file is opened again\n"


def is_fault(err):
    """Whether what is told beside sentences about lines is nothing, or a fault of the store."""
    rest = sentences(err)[1].removeprefix(REFUSED).splitlines()
    return not rest or (len(rest) == 2 and rest[0] == b"fault Store" and rest[1].startswith(b"docs_host: "))


def judge_script(script, ended, how, world):
    """Which rows a script has left, 'as told' or 'one more'; or what is wrong, behind a '-'."""
    told = ended.out.splitlines(keepends=True)
    good = next((at for at, line in enumerate(told) if line.strip() in STORE_FAILED), len(told))
    if told[:good] != script.said[:good]:
        return "- other lines"
    behind = zip(told[good:], script.said[good:])
    if not all(line.strip() in STORE_FAILED or (line == said and ASKS_NOTHING.match(line)) for line, said in behind):
        return "- a line behind the fault that does not tell it"
    if ended.status not in ((KILLED,) if how == "kill" else (0, 3)) or not is_fault(ended.err):
        return "- another end"
    if how != "kill" and len(told) != len(script.lines) and ended.status == 0:
        return "- lines are missing"
    if world == script.world_after(good):
        return "as told"
    if good < len(script.lines) and world == script.world_after(good + 1):
        return "one more"
    return "- other rows"


def judge_run(part, words, folder, ended, how, worlds):
    """Which rows a run has left, 'before' or 'after', and whether it does it then, once more."""
    before, after, whole = worlds
    is_refused = ended.status == 1 and ended.out.strip() in STORE_FAILED
    if not (is_refused or ended.status in ((KILLED, 0) if how == "kill" else (0, 3))) or not is_fault(ended.err):
        return "- another end"
    if ended.status == 0 and ended.out != whole.out:
        return "- another answer"
    world = part.world(folder)
    if ended.status == 0 and world != after:
        return "- done, and not there"
    again = part.run(words, folder=folder)
    if again != whole and not (world == after and b"something in it already" in again.err):
        return f"- again it ends with {again}"
    if part.world(folder) != after:
        return "- again it leaves other rows"
    # (a file that init was stopped at has no rows that could be read)
    return "after" if world == after else "before" if before is None or world == before else "- other rows"


def sweep(part, name, words, data, base, more, judge):
    """Each call of a run from a base in turn, in each way."""
    counts = collections.Counter()
    name += ", reads too" if more else ""
    with new_folder() as folder:
        copy_store(base, folder)
        count = calls_of(part, words, data, folder, more)
        for how in HOW:
            for at in range(1, count + 1):
                copy_store(base, folder)
                ended = part.run(words, data, folder, CALL=str(at), CALL_HOW=how, **more)
                part.note(f"{name}, {how} at call {at}", judge(ended, how, folder), ended, counts)
    show(f"{name}, {count} calls", counts)


def sweep_script(part, path, base, more):
    script = Script(part, path, base)
    judge = lambda ended, how, folder: judge_script(script, ended, how, part.world(folder))
    sweep(part, script.name, script.words, script.data, base, more, judge)


def sweep_lost(part, path, base):
    """A test of these tests: a write that is lost, with no word of it, leaves other rows at some call."""
    script, wrong = Script(part, path, base), 0
    with new_folder() as folder:
        copy_store(base, folder)
        count = calls_of(part, script.words, script.data, folder, {})
        for at in range(1, count + 1):
            copy_store(base, folder)
            ended = part.run(script.words, script.data, folder, CALL=str(at), CALL_HOW="lose")
            wrong += judge_script(script, ended, "lose", part.world(folder)).startswith("-")
    part.check("writes that are lost are seen", wrong > 0)
    print(f"  {script.name}, a write that is lost: {count} calls: {wrong} seen", flush=True)


def synced(part, words, data, base, folder, **wrong):
    """How many syncs a run makes, how often something goes out before what was written is synced, and whether anything goes out."""
    copy_store(base, folder)
    ended = part.run(words, data, folder, SYNC_COUNT="1", **wrong)
    found = re.search(rb"^syncs (\d+) early (\d+)$", ended.err, re.M)
    if ended.status or not found:
        raise Broken(f"{words}: {ended}")
    return int(found[1]), int(found[2]), bool(ended.out)


def check_syncs(part, name, words, data, base, least):
    """What a line tells is on the disk when it is told: a program that makes no syncs is seen, too."""
    with new_folder() as folder:
        count, early, _ = synced(part, words, data, base, folder)
        part.check(f"{name}: at least {least} syncs", count >= least, count)
        part.check(f"{name}: nothing goes out before it is synced", early == 0, early)
        count, early, tells = synced(part, words, data, base, folder, SYNC_NONE="1")
        part.check(f"{name}: a program that makes no syncs is seen", count < least and (early > 0 or not tells), (count, early))
    print(f"  {name}: syncs", flush=True)


def sweep_run(part, name, words, base, more, is_new=False):
    """A single run from a base, or one that makes the file."""
    with new_folder() as plain:
        copy_store(base, plain)
        before = None if is_new else part.world(plain)
        whole = part.must(words, folder=plain)
        worlds = before, part.world(plain), whole
    judge = lambda ended, how, folder: judge_run(part, words, folder, ended, how, worlds)
    sweep(part, name, words, b"", base, more, judge)


def device(part):
    """A script over a file, and runs that make, change and migrate one; with --all each script, and reads that fail, too."""
    with new_folder() as nothing, new_folder() as empty, new_folder() as made, new_folder() as old:
        base = make_base(part, empty)
        runs = [
            ("init", ["init", STORE], nothing),
            ("a command", ["push", "docs.test", "wkey-1", "k9", "tag", "2.0.0", "--store", STORE], make_base(part, made, PROJECT)),
            ("migrate", ["migrate", STORE], make_old(old)),
        ]
        for more in [{}, {"CALL_READS": "1"}] if part.wants_all else [{}]:
            for path in sorted(SCRIPTS.glob("*.script")):
                if part.wants_all or path.stem == "versions":
                    sweep_script(part, path, base, more)
            for name, words, begins in runs:
                sweep_run(part, name, words, begins, more, name == "init")
        sweep_lost(part, SCRIPTS / "versions.script", base)
        script = Script(part, SCRIPTS / "versions.script", base)
        accepted = sum(not line.startswith((b"refused", b"usage", b"bad", b"failed")) for line in script.said)
        check_syncs(part, "versions", script.words, script.data, base, accepted // 2)
        for name, words, begins in runs[1:]:
            check_syncs(part, name, words, b"", begins, 1)
