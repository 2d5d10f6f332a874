"""The cases of tests/scripts and tests/requests, answered by the model in place of the program."""

import shlex
import sys
import time
from pathlib import Path

sys.path.insert(0, str(Path(__file__).resolve().parent.parent.parent / "tools"))

import casefiles  # noqa: E402
import lines  # noqa: E402
import requests  # noqa: E402
from checks import ROOT, Ended, Skip, below, compared, difference  # noqa: E402
from versions import Unsaid  # noqa: E402

FOLDERS = [ROOT / "tests" / "scripts", ROOT / "tests" / "requests"]


def read_case(path):
    case = casefiles.read_case(path)
    if case.input_fails or case.room is not None:
        raise Skip("readers and writers that fail")
    return case


def judge_script(path):
    """What is wrong with the model's answer to a script, as lines."""
    case = read_case(path)
    written, fault, status = lines.run_script({}, case.data, int(time.time()))
    # (the model tells no sentences)
    told = next((line for line in case.wanted.err.split(b"\n") if line.startswith(b"fault ")), b"")
    return compared(case.wanted._replace(err=told), Ended(status, written, b"fault " + fault if fault else b""))


def judge_request(path):
    case = read_case(path)
    return difference("output", case.wanted.out, requests.answer(requests.sample(), case.data))


def judge_row(world_of, row):
    """What is wrong with the model's reply to the requests of a row of a table, each over a world of its own."""
    for request in row.inputs:
        faults = row.compared(requests.answer(world_of(), request))
        if faults:
            return below(f"{len(request)} bytes", faults)
    return []


def judge_table(path):
    return [fault for row in casefiles.read_table(path) for fault in judge_row(requests.sample, row)]


def judge_commands(path):
    """What is wrong with the model's answers to commands and requests over files, one after another."""
    files, faults, runs = {}, [], casefiles.read_commands(path)
    if any(run.mark == "@" or run.lines["!"] for run in runs):
        raise Skip("files and faults")
    for run in runs:
        if run.mark == "$":
            written = run_command(files, shlex.split(run.text), run.bytes_of("<"))
            found = difference("output", run.bytes_of(">"), written)
        else:
            name, _, request = run.text.partition(" ")
            found = judge_row(lambda: files[name], casefiles.read_row(path, run.number, request, {}))
        faults += below(f"{path.name}:{run.number}:", found)
    return faults


def run_command(files, words, script):
    """What a command over a file prints."""
    if words[0] == "init":
        files[words[1]] = {}
        return b""
    if words[-2:-1] != ["--store"]:
        raise Skip("words of the program")
    if words[0] == "script":
        return lines.run_script(files[words[-1]], script)[0]
    return lines.line_text(files[words[-1]], [word.encode() for word in words[:-2]], 0, True) + b"\n"


JUDGES = {".lines": judge_script, ".http": judge_request, ".requests": judge_table, ".commands": judge_commands}


def said(judge, *what):
    """What a judge says, who skips that of which the model has no word."""
    try:
        return judge(*what)
    except Unsaid as why:
        raise Skip(f"the expression {why}") from why


def judge_all(checks):
    """Judges the cases: each counts once, a table by its file."""
    paths = [it for folder in FOLDERS for it in sorted(folder.rglob("*")) if it.suffix in JUDGES]
    checks.judge(((casefiles.name_of(path), path) for path in paths), lambda path: said(JUDGES[path.suffix], path))
    print(f"{checks.skipped} skipped")
