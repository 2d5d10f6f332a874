"""The Debian package of tools/release --deb: the part `package` of tests/serve/run.

What is in it, what lintian says, manual pages and completion; and, in a machine of its own, what dpkg and systemd do with it:
installed, started, published to, upgraded (with a file that has to be migrated, too), removed, purged."""

import contextlib
import re
import shutil
import sqlite3
import subprocess
import time
from pathlib import Path

import host as hosts
from machine import Machine
from parts import Skip, need

HOST, KEY = "docs.example.org", "wkey-1"
STORE = "/var/lib/docs_host/docs.db"
COMMANDS = ["docs_host", "docs_host-publish", "docs_host-export", "docs_host-import-project"]


def package(part):
    for tool in ("dpkg-deb", "dpkg-shlibdeps"):
        need(tool)
    built = made(part)
    root = content(part, built)
    manuals(part, root)
    completions(part, root)
    judged(part, built)
    try:
        with Machine(part) as machine:
            lives(part, machine, built)
    except Skip as why:
        part.skip(f"dpkg and systemd: {why}")


def once(*words, seconds=900, **more):
    texts = {"stdin": subprocess.DEVNULL, "capture_output": True, "encoding": "utf-8"}
    return subprocess.run([str(word) for word in words], timeout=seconds, **texts, **more)


def made(part):
    """The package of the program under test."""
    ended = once(hosts.ROOT / "tools" / "release", "--program", part.program, "--anyway", "--deb", "--to", part.path("out"))
    path = (ended.stdout.splitlines() or [""])[-1]
    part.check("tools/release --deb", ended.returncode == 0 and re.fullmatch(r".*/docs-host_[\w.~+]+_\w+\.deb", path), ended)
    if ended.returncode:
        raise hosts.Broken(f"there is no package: {ended.stderr}")
    return Path(path)


def content(part, built):
    """What is in it, unpacked."""
    root = Path(part.path("unpacked"))
    part.same("it is unpacked", once("dpkg-deb", "--raw-extract", built, root).returncode, 0)
    part.same("the program, byte for byte", (root / "usr/bin/docs_host").read_bytes(), Path(part.program).read_bytes())
    for name in ("lib/systemd/system/docs_host.service", "usr/lib/sysusers.d/docs_host.conf", "etc/default/docs_host"):
        part.check(f"it has {name}", (root / name).is_file())
    for name in ("copyright", "changelog.gz", "README.Debian", "CHECK", "SCRIPTS.md", "operations.md", "examples/deploy/nginx.conf"):
        part.check(f"it has {name}", (root / "usr/share/doc/docs-host" / name).is_file())
    unit = (root / "lib/systemd/system/docs_host.service").read_text()
    part.check("the unit runs the package's program", "\nExecStart=/usr/bin/docs_host serve " in unit, unit)
    rows = once("dpkg-deb", "--contents", built).stdout.splitlines()
    part.same("all is root's", [row for row in rows if row.split()[1] != "root/root"], [])
    sums = once("md5sum", "--check", "--quiet", "DEBIAN/md5sums", cwd=root)
    part.check("its sums", sums.returncode == 0, sums)
    fields = dict(re.findall(r"^([\w-]+): (.*)$", (root / "DEBIAN/control").read_text(), re.MULTILINE))
    part.check("it asks for its libraries", "libc6 (>= " in fields["Depends"], fields)
    version = (hosts.ROOT / "VERSION").read_text().split()[1]
    part.same("its version", fields["Version"], version.replace("-", "~"))
    for name in COMMANDS[1:]:
        ended = once(root / "usr/bin" / name, "--help")
        part.check(f"{name} --help", ended.returncode == 0 and "usage: " in ended.stdout, ended)
    return root


def words_of(part):
    """The words of the program, as its help lists them."""
    listed = hosts.run(part.program, "--help").stdout.split("Commands:\n")[1].split("\n\n")[0]
    return [line.split()[0] for line in listed.splitlines()]


def manuals(part, root):
    if not shutil.which("man"):
        return part.skip("there is no man, so no manual page is shown")
    for name in COMMANDS:
        ended = once("man", "--warnings", "-E", "UTF-8", "--local-file", root / f"usr/share/man/man1/{name}.1.gz")
        text = re.sub(".\b", "", ended.stdout)
        part.check(f"the manual page of {name}", ended.returncode == 0 and not ended.stderr and f"{name} - " in text, ended.stderr)
        if name == "docs_host":
            missing = [word for word in words_of(part) if f"docs_host {word} " not in text]
            part.same("words that it lacks", missing, [])


ASK = """
complete() { :; }
compopt() { echo "files"; }
. "$1"
COMP_WORDS=("${@:2}") COMP_CWORD=$(($# - 2))
_docs_host
echo "${COMPREPLY[*]}"
"""


def completions(part, root):
    """What bash offers for some lines, and that zsh takes its file."""
    script = root / "usr/share/bash-completion/completions/docs_host"

    def offered(*words):
        return once("bash", "-c", ASK, "ask", script, "docs_host", *words).stdout.strip()

    part.same("all words", offered("").split(), [*words_of(part), "help", "--help", "--version"])
    for words, wanted in (
        (["add-r"], "add-redirect add-rule"),
        (["help", "drop-p"], "drop-pass"),
        (["add-rule", HOST, "1", ""], "branch tag"),
        (["add-rule", "--store", "docs.db", HOST, "1", "t"], "tag"),
        (["add-rule", HOST, "1", "tag", "semver", "p"], "public private"),
        (["add-redirect", HOST, "1", "exact", "30"], "301 302"),
        (["get", HOST, "/", "--"], "--pass --now --store --help"),
        (["get", HOST, "/", "--pass", ""], ""),
        (["nothing", ""], ""),
    ):
        part.same(f"behind {words}", offered(*words), wanted)
    part.same("a file behind --store", offered("get", "--store", str(script)[:-3]), f"files\n{script}")
    part.same("a file of migrate", offered("migrate", str(script)[:-3]), f"files\n{script}")
    if shutil.which("zsh"):
        ended = once("zsh", "-n", root / "usr/share/zsh/vendor-completions/_docs_host")
        part.check("zsh reads its file", ended.returncode == 0 and not ended.stderr, ended)
        text = (root / "usr/share/zsh/vendor-completions/_docs_host").read_text()
        part.same("words that zsh lacks", [word for word in words_of(part) if f"\n  {word}) _arguments " not in text], [])
    else:
        part.skip("there is no zsh, which reads its completion")


def judged(part, built):
    if not shutil.which("lintian"):
        return part.skip("there is no lintian, which judges the package")
    ended = once("lintian", "--allow-root", "--tag-display-limit", "0", built)
    wrong = [line for line in ended.stdout.splitlines() if line.startswith("E: ")]
    part.same("errors of lintian", wrong, [])
    print(f"    lintian: {len(wrong)} errors, {ended.stdout.count('W: ')} warnings", flush=True)


# ---- in a machine


def as_user(machine, *words):
    return machine.run("runuser", "-u", "docs_host", "--", *words)


def install(machine, built):
    """dpkg installs a package: how it ended."""
    shutil.copy(built, machine.path("/root"))
    return machine.run("dpkg", "--install", f"/root/{built.name}")


def is_active(machine):
    return machine.run("systemctl", "is-active", "docs_host").stdout.strip()


def page(machine, port=8101, host=HOST):
    """A page of the service, which may just begin."""
    end = time.monotonic() + hosts.TIME_LIMIT
    line = ["curl", "--silent", "--show-error", "--header", f"Host: {host}", f"http://127.0.0.1:{port}/en/main/"]
    while True:
        ended = machine.run(*line)
        if ended.returncode != 7 or time.monotonic() > end:
            return ended.stdout
        time.sleep(0.2)


def later(part, built, version):
    """The same package under another version."""
    root = Path(part.path(f"as-{version}"))
    once("dpkg-deb", "--raw-extract", built, root)
    for name in ("control", "postinst"):
        file = root / "DEBIAN" / name
        file.write_text(re.sub(r"(?m)^(Version: |version=).*$", rf"\g<1>{version}", file.read_text()))
    path = Path(part.path(f"docs-host_{version}.deb"))
    ended = once("dpkg-deb", "--root-owner-group", "-Znone", "--build", root, path)
    part.check(f"the package {version}", ended.returncode == 0, ended)
    return path


def lives(part, machine, built):
    if not shutil.which("curl"):
        raise Skip("there is no curl")
    installed(part, machine, built)
    upgraded(part, machine, built)
    migrated(part, machine, built)
    removed(part, machine)


def installed(part, machine, built):
    ended = install(machine, built)
    part.check("it is installed", ended.returncode == 0, ended)
    part.same("the service", is_active(machine), "active")
    part.same("it is enabled", machine.run("systemctl", "is-enabled", "docs_host").stdout, "enabled\n")
    page(machine)
    told = machine.run("stat", "--format", "%n %a %U", "/var/lib/docs_host", STORE).stdout.split()
    part.same("the file is its own", told, ["/var/lib/docs_host", "700", "docs_host", STORE, "600", "docs_host"])
    for words in (f"new-project {HOST} en main public {KEY}", f"push {HOST} {KEY} k0 branch main"):
        ended = as_user(machine, "docs_host", *words.split(), "--store", STORE)
        part.check(f"beside the service: {words.split()[0]}", ended.returncode == 0, ended)
    line = ["docs_host-publish", "/usr/share/doc/docs-host/examples/site/folder", "--url", "http://127.0.0.1:8101"]
    ended = machine.run(*line, "--host", HOST, "--lang", "en", "--version", "main", DOCS_KEY=KEY)
    part.check("docs_host-publish", ended.returncode == 0 and "read back 5 of 5, none differs" in ended.stderr, ended)
    part.check("a page is served", "<h1>" in page(machine), page(machine))
    machine.run("systemctl", "stop", "docs_host")
    ended = as_user(machine, "docs_host-export", HOST, "/tmp/export", "--store", STORE)
    part.check("docs_host-export", ended.returncode == 0, ended)
    machine.run("systemctl", "start", "docs_host")


def upgraded(part, machine, built):
    """An upgrade keeps the records and the settings, and runs the new program."""
    settings = machine.path("/etc/default/docs_host")
    settings.write_text(settings.read_text().replace("DOCS_PORT=8101", "DOCS_PORT=8109"))
    before = machine.run("systemctl", "show", "--property", "MainPID", "docs_host").stdout
    ended = install(machine, later(part, built, "99.1"))
    part.check("an upgrade", ended.returncode == 0, ended)
    part.check("it runs anew", machine.run("systemctl", "show", "--property", "MainPID", "docs_host").stdout != before)
    part.check("its page, at the port of the settings", "<h1>" in page(machine, port=8109), page(machine, port=8109))


def old_file(part, machine, store):
    """A file of an earlier program, in place of the service's: its bytes."""
    source, made = hosts.ROOT / "tests" / "commands" / "old_files.sql", Path(part.path("old.db"))
    with contextlib.closing(sqlite3.connect(made)) as database:
        database.executescript(source.read_text())
    machine.run("systemctl", "stop", "docs_host")
    for name in ("", "-wal", "-shm"):
        machine.path(f"{store}{name}").unlink(missing_ok=True)
    shutil.copyfile(made, machine.path(store))
    machine.run("chown", "docs_host:", store)
    return made.read_bytes()


def migrated(part, machine, built):
    """A file of an earlier program is migrated where that was agreed to, and else left as it is."""
    old = old_file(part, machine, STORE)
    ended = install(machine, later(part, built, "99.2"))
    says = "is of an earlier docs_host, and is not migrated" in ended.stderr
    part.check("an upgrade over an old file", ended.returncode == 0 and says, ended)
    part.same("the file is as it was", machine.path(STORE).read_bytes(), old)
    part.same("the service is stopped", is_active(machine), "inactive")
    machine.run("debconf-set-selections", given="docs-host docs-host/migrate boolean true\n")
    ended = install(machine, later(part, built, "99.3"))
    part.check("an upgrade that is agreed to", ended.returncode == 0, ended)
    part.same("the copy", machine.path(f"{STORE}.before-99.3").read_bytes(), old)
    part.same("the service runs", is_active(machine), "active")
    part.same("a page of the old file", page(machine, port=8109, host="docs.test"), "main-page")
    answer = machine.run("debconf-show", "docs-host").stdout
    part.check("it would be asked again", "docs-host/migrate: false" in answer, answer)


def removed(part, machine):
    kept = machine.path(STORE).read_bytes()
    ended = machine.run("dpkg", "--remove", "docs-host")
    part.check("it is removed", ended.returncode == 0 and not machine.path("/usr/bin/docs_host").exists(), ended)
    part.check("the service is stopped", is_active(machine) != "active")
    part.check("the settings stay", machine.path("/etc/default/docs_host").exists())
    ended = machine.run("dpkg", "--purge", "docs-host")
    part.check("it is purged", ended.returncode == 0 and "the records stay in /var/lib/docs_host" in ended.stderr, ended)
    left = [path for path in ("/etc/default/docs_host", "/usr/share/doc/docs-host", "/lib/systemd/system/docs_host.service")]
    part.same("what is left of it", [path for path in left if machine.path(path).exists()], [])
    part.check("the records stay", machine.path(STORE).read_bytes() == kept)
    part.check("no unit is left", machine.run("systemctl", "cat", "docs_host").returncode != 0)
