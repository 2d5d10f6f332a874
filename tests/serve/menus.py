"""The menu of versions, deploy/versions.js, in themes of Sphinx and MkDocs: the part `menus` of tests/serve/run.

Light and dark, what stands in it, its keys, where it leads, and what readers without scripts have. With KEEP_PICTURES=FOLDER the
pictures of docs/pictures are drawn there."""

import base64
import os
import shutil
import subprocess
from pathlib import Path

import browser
import fronts
from host import make, run
from publishing import KEY, block_of, ends, line_of, url_of
from recipes import DEPLOY

TITLE = "A menu of versions"
# Seconds for a site that is built or published.
LONG = 600
ROOT = "document.querySelector('#docs-versions-menu').shadowRoot"
OPEN = f"{ROOT}.querySelector('details').open"
AT = f"({ROOT}.activeElement || {{}}).textContent"
DARK = "document.querySelector('#docs-versions-menu').hasAttribute('data-dark')"
NAMES = "latest stable main v1.10.0 v1.9.0 v1.9.0-rc.1"

TEXT = "Kettle\n======\n\nA kettle makes water hot. Fill it, close the lid, and switch it on: a minute later the water boils.\n\n"
TEXT += "Use\n---\n\nPour the water over the leaves.\n"
PAGES = {"index": TEXT, "guide": "Guide\n=====\n\nHow to fill a kettle.\n"}

# Each theme: how a page is built, what its settings say, how a page is made dark, and how its picture is called.
NO_DARK = "document.body.style.background = '#1d1f23', document.body.style.color = '#ddd'"
THEMES = [
    ("sphinx", "alabaster", "", NO_DARK, "sphinx-light"),
    ("sphinx", "classic", "", NO_DARK, None),
    ("sphinx", "sphinx_rtd_theme", "", NO_DARK, None),
    ("sphinx", "furo", "", "document.body.dataset.theme = 'dark'", "sphinx-dark"),
    ("mkdocs", "mkdocs", "", NO_DARK, "mkdocs"),
    ("mkdocs", "readthedocs", "", NO_DARK, None),
    ("mkdocs", "material", "", "document.body.dataset.mdColorScheme = 'slate'", "material"),
]


def blocks(language):
    return block_of(TITLE, language, "recipes.md")


def menus(part):
    if not browser.program():
        part.skip("there is no chromium, so no browser shows the menu")
        return
    store, sites = part.path("menus.docs"), []
    make(part.program, store)
    for number, theme in enumerate(THEMES):
        if fronts.has(part, {"sphinx": "sphinx-build", "mkdocs": "mkdocs"}[theme[0]], f"builds a site of {theme[1]}"):
            for is_given in (False, True):
                if is_given and theme[1] not in ("alabaster", "mkdocs", "material"):
                    continue
                folder, ended = built(part, theme, is_given)
                if ended.returncode:
                    part.skip(f"{theme[1]} is not there: {ended.stderr[-200:]}")
                    continue
                host = f"{'given' if is_given else 'corner'}-{number}.test"
                sites.append((theme, is_given, host, folder))
    with part.serve(store, 1_000_000) as server:
        lines = "".join(f"{line}\n" for *_, host, _ in sites for line in lines_of(host))
        ended = run(part.program, "script", "--store", store, stdin=lines)
        part.check("the projects", ended.returncode == 0 and "refused" not in ended.stdout, ended)
        for theme, is_given, host, folder in sites:
            for version in ("main", "v1.10.0", "v1.9.0"):
                if version == "v1.9.0":
                    shutil.rmtree(folder / "guide", ignore_errors=True)
                    (folder / "guide.html").unlink(missing_ok=True)
                line = line_of(folder, url_of(server), "--verify", "none", host=host, version=("--version", version))
                ended = subprocess.run(line, stdin=subprocess.DEVNULL, capture_output=True, encoding="utf-8", timeout=LONG)
                ends(part, f"{theme[1]}: {version} is published", ended, 0)
            room = part.room / host
            room.mkdir()
            with browser.Page(host, server.port, room) as page:
                page.ask("Emulation.setDeviceMetricsOverride", width=900, height=420, deviceScaleFactor=1, mobile=False)
                what = f"{theme[1]}, {'in its element' if is_given else 'in the corner'}"
                shown(part, page, what, theme, host, is_given)
                keys(part, page, what, theme, host)
                without_scripts(part, page, what, host, is_given)


def lines_of(host):
    """A project with versions that are public, one that is hidden, and one that no reader sees."""
    yield f"new-project {host} en main public {KEY}"
    yield f"add-rule {host} 1 tag all activate"
    yield f"push {host} {KEY} k0 branch main"
    for number, name in enumerate(("v1.9.0", "v1.10.0", "v1.9.0-rc.1", "v0.1.0", "v2.0.0")):
        yield f"push {host} {KEY} k{number + 1} tag {name}"
    yield f"hide {host} v0.1.0"
    yield f"make-private {host} v2.0.0"


def built(part, theme, is_given):
    """A site of the theme, by the settings of the recipe."""
    kind, name, *_ = theme
    root = Path(part.path(f"{name}-{is_given}"))
    settings = {"python": blocks("python")[0], "yaml": blocks("yaml")[0]}
    sphinx, mkdocs = (block for block in blocks("jinja"))
    script = (DEPLOY / "versions.js").read_text()
    if kind == "sphinx":
        conf = f"project = 'Kettle'\nhtml_theme = '{name}'\n{settings['python']}"
        files = {f"{it}.rst": text for it, text in PAGES.items()} | {"_static/versions.js": script}
        files["index.rst"] += "\n.. toctree::\n\n   guide\n"
        if is_given:
            conf += 'templates_path = ["_templates"]\n'
            files["_templates/layout.html"] = sphinx
        files["conf.py"] = conf
        words = ["sphinx-build", "-q", "-b", "html", root, root / "site"]
    else:
        files = {f"docs/{it}.md": text for it, text in PAGES.items()} | {"docs/versions.js": script}
        own = "  custom_dir: overrides\n" if is_given else ""
        if is_given:
            files["overrides/main.html"] = mkdocs
        if name == "material":
            own += "  font: false\n"
        files["mkdocs.yml"] = f"site_name: Kettle\ntheme:\n  name: {name}\n{own}{settings['yaml']}"
        words = ["mkdocs", "build", "--quiet", "--config-file", root / "mkdocs.yml", "--site-dir", root / "site"]
    for path, text in files.items():
        (root / path).parent.mkdir(parents=True, exist_ok=True)
        (root / path).write_text(text)
    return root / "site", subprocess.run(words, stdin=subprocess.DEVNULL, capture_output=True, encoding="utf-8", timeout=LONG)


def address(theme, host, version, page):
    below = {"index": "", "guide": "guide.html" if theme[0] == "sphinx" else "guide/"}[page]
    return f"http://{host}/en/{version}/{below}"


def shown(part, page, what, theme, host, is_given):
    """What stands in the menu, that nothing stands over it, and that it is light or dark as the page is."""
    page.open(address(theme, host, "latest", "index"))
    part.same(f"{what}: the menu says", page.wait_for(f"{ROOT}.querySelector('summary').innerText"), "latest")
    part.same(f"{what}: it is closed", page.value(OPEN), False)
    inside = page.value("Boolean(document.querySelector('nav.docs-versions #docs-versions-menu'))")
    part.same(f"{what}: where it stands", inside, is_given)
    # (what stands behind a page of classic is dark)
    part.same(f"{what}: on a light page", page.value(DARK), theme[1] == "classic")
    page.value(f"{ROOT}.querySelector('summary').click()")
    names = page.wait_for(f"[...{ROOT}.querySelectorAll('a')].map((it) => it.innerText).join(' ')")
    part.same(f"{what}: what stands in it", names, NAMES)
    part.same(f"{what}: what is marked", page.value(f"{ROOT}.querySelector('a[aria-current]').innerText"), "latest")
    over = "(it => document.elementFromPoint(it.x + it.width / 2, it.y + it.height / 2).id)"
    for place in ("summary", "a:last-child", "li:last-child a"):
        seen = page.value(f"{over}({ROOT}.querySelector('{place}').getBoundingClientRect())")
        part.same(f"{what}: what stands at its {place}", seen, "docs-versions-menu")
    inner = page.value(f"(it => it.x >= 0 && it.y >= 0 && it.right <= innerWidth && it.bottom <= innerHeight)({ROOT}.querySelector('div').getBoundingClientRect())")
    part.same(f"{what}: it is on the screen", inner, True)
    picture(page, theme, is_given, "light")
    page.value(theme[3])
    part.same(f"{what}: on a dark page", page.wait_for(DARK), True)
    picture(page, theme, is_given, "dark")
    page.value("document.body.click()")
    part.same(f"{what}: a click elsewhere closes it", page.value(OPEN), False)


def picture(page, theme, is_given, shade):
    there, name = os.environ.get("KEEP_PICTURES"), theme[4]
    if not there or is_given or not name or ("-" in name and not name.endswith(shade)):
        return
    name = name if "-" in name else f"{name}-{shade}"
    drawn = page.ask("Page.captureScreenshot", format="png")
    Path(there, f"versions-{name}.png").write_bytes(base64.b64decode(drawn["data"]))


def press(page, name, **more):
    codes = {"Enter": 13, "Escape": 27, "End": 35, "Home": 36, "ArrowUp": 38, "ArrowDown": 40, "Tab": 9}
    key = {"key": name, "code": name, "windowsVirtualKeyCode": codes[name], **more}
    if name == "Enter":
        key["text"] = "\r"
    page.ask("Input.dispatchKeyEvent", type="keyDown", **key)
    page.ask("Input.dispatchKeyEvent", type="keyUp", **key)


def keys(part, page, what, theme, host):
    """All of it by the keyboard: found by Tab, opened, gone through, closed, and followed."""
    page.open(address(theme, host, "main", "guide"))
    page.wait_for(f"location.pathname.startsWith('/en/main/') && {ROOT}.querySelector('summary').innerText === 'main'")
    for _ in range(80):
        press(page, "Tab")
        if page.value(AT) == "main":
            break
    part.same(f"{what}: Tab comes to it", page.value(AT), "main")
    press(page, "Enter")
    part.same(f"{what}: Enter opens it", page.wait_for(OPEN, 5), True)
    for key, at in (("ArrowDown", "latest"), ("ArrowDown", "stable"), ("End", "v1.9.0-rc.1"), ("ArrowUp", "v1.9.0"), ("Home", "latest")):
        press(page, key)
        part.same(f"{what}: {key} goes to", page.value(AT), at)
    press(page, "Escape")
    part.same(f"{what}: Escape closes it", [page.value(OPEN), page.value(AT)], [False, "main"])
    for downs, version, there in ((4, "v1.10.0", "guide"), (5, "v1.9.0", "index")):
        for _ in range(downs):
            press(page, "ArrowDown")
        press(page, "Enter")
        wanted = address(theme, host, version, there)
        page.wait_for(f"location.href === '{wanted}' && document.readyState === 'complete' && {ROOT}.querySelector('summary')", 20)
        part.same(f"{what}: Enter leads to", page.value("location.href"), wanted)
        page.value(f"{ROOT}.querySelector('summary').focus()")


def without_scripts(part, page, what, host, is_given):
    page.ask("Emulation.setScriptExecutionDisabled", value=True)
    page.open(f"http://{host}/en/main/")
    count = "document.querySelectorAll('nav.docs-versions a').length"
    links = page.wait_for(f"location.pathname === '/en/main/' && document.readyState === 'complete' && {count}", 5)
    wanted = 2 if is_given else 0
    part.same(f"{what}: links without scripts", links or 0, wanted)
    part.same(f"{what}: no menu without scripts", page.value("document.querySelector('#docs-versions-menu')"), None)
