"""What the program was built from: a sum of its text and the toolchain's name, kept beside it by tools/build.

usage: python3 tools/built.py

Exit status: 0 the program is there and was built from the present text, 1 it was not; standard output then says why.
"""
import hashlib
import os
import sys

ROOT = os.path.join(os.path.dirname(os.path.realpath(__file__)), "..")
PROGRAM = os.path.join("crates", "docs_host", "out", "docs_host")
KEPT = f"{PROGRAM}.built"

# The parts of a crate that its library is made from.
PARTS = ("src", "specs", "proofs")


def read(root, name):
    with open(os.path.join(root, name), "rb") as file:
        return file.read()


def version(root=ROOT):
    """The line of the file VERSION, which the program says too."""
    return read(root, "VERSION").decode().strip()


def crates_below(root, name):
    """This crate and each of the repository below it, by crates.txt."""
    rows = [line.partition(":") for line in read(root, "crates.txt").decode().splitlines() if not line.startswith("#")]
    uses = {words.split()[0]: below.split() for words, colon, below in rows if colon}
    found, left = set(), [name]
    while left:
        crate = left.pop()
        if crate in uses and crate not in found:
            found.add(crate)
            left += uses[crate]
    return found


def text_files(root=ROOT):
    """The files that the program is made from, by their paths from the top."""
    found = [name for name in ("crates.txt", "HANDLES") if os.path.isfile(os.path.join(root, name))]
    for crate in crates_below(root, "docs_host"):
        for part in PARTS:
            for place, _, names in os.walk(os.path.join(root, "crates", crate, part)):
                found += [os.path.relpath(os.path.join(place, name), root) for name in names]
    return sorted(found)


def text_sum(root=ROOT):
    """A sum of all that the program is made from, but the toolchain."""
    whole = hashlib.sha256()
    for name in text_files(root):
        data = read(root, name)
        whole.update(f"{name}\0{len(data)}\0".encode() + data)
    return whole.hexdigest()


def toolchain():
    """What `rt version` prints, or None where there is no toolchain."""
    places = [os.path.join(place, "rt") for place in os.get_exec_path()]
    rt = next((it for it in places if os.path.isfile(it) and os.access(it, os.X_OK)), None)
    if not rt:
        return None
    # a kit keeps the line in a file, which is read sooner
    kept = os.path.join(os.path.dirname(os.path.realpath(rt)), "..", "KIT-ID")
    if os.path.isfile(kept):
        return read("", kept).decode().strip()
    import subprocess  # (which takes its time too)

    ended = subprocess.run([rt, "version"], stdin=subprocess.DEVNULL, capture_output=True, encoding="utf-8")
    return ended.stdout.strip()


def program_sum(root=ROOT):
    return hashlib.sha256(read(root, PROGRAM)).hexdigest()


def keep(text, root=ROOT):
    """Writes down that the program beside it was built from the text of this sum, by the present toolchain."""
    lines = f"text {text}\ntoolchain {toolchain()}\nprogram {program_sum(root)}\n"
    part = os.path.join(root, f"{KEPT}.part")
    with open(part, "w", encoding="utf-8") as file:
        file.write(lines)
    os.replace(part, os.path.join(root, KEPT))


def forget(root=ROOT):
    """Takes away what was written down: the program may be another one from here on."""
    if os.path.exists(os.path.join(root, KEPT)):
        os.remove(os.path.join(root, KEPT))


def kept(root=ROOT):
    """What was written down, by its first word; nothing where that cannot be read."""
    try:
        return dict(line.split(" ", 1) for line in read(root, KEPT).decode().splitlines())
    except (OSError, ValueError):
        return {}


def why_not(root=ROOT):
    """Why the program is not taken for one that was built from the present text; None where it is."""
    if not os.access(os.path.join(root, PROGRAM), os.X_OK):
        return "no program is built here"
    said, now = kept(root), toolchain()
    if not said:
        return "nothing says from what text the program was built"
    if said.get("text") != text_sum(root):
        return "the program that is built here is not of the present text"
    # without a toolchain there is none to compare it with, and none that could build
    if now and said.get("toolchain") != now:
        return f"the program was built by another toolchain, {said.get('toolchain')}"
    if said.get("program") != program_sum(root):
        return "the program is another one than was built last"
    return None


def main():
    why = why_not()
    if why:
        print(why)
    return 1 if why else 0


if __name__ == "__main__":
    sys.exit(main())
