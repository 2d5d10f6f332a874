"""The world and its steps: crates/dh_world/specs, and the refusals of docs/SCRIPTS.md."""

from dataclasses import dataclass, field, replace
from typing import NamedTuple, Optional

import redirects
import texts
import versions

REFUSALS = {
    1: b"BadHost",
    2: b"BadLang",
    3: b"BadRef",
    4: b"BadPath",
    5: b"BadPage",
    6: b"BadPattern",
    7: b"BadRedirect",
    8: b"BadToken",
    9: b"BadKey",
    10: b"NoProject",
    11: b"ProjectTaken",
    12: b"WrongKey",
    13: b"LangTaken",
    14: b"NoLang",
    15: b"NoVersion",
    16: b"SlugTaken",
    17: b"Inactive",
    18: b"BadPlace",
    19: b"TooMany",
    20: b"PassTaken",
    21: b"NoPass",
    22: b"PatternRefused",
    23: b"Store",
    24: b"OutOfMemory",
    25: b"BadUntil",
}

ALIASES = (b"latest", b"stable")

# What each command on one version that sets a property sets.
PROPERTIES = {
    "activate": {"active": True},
    "hide": {"hidden": True},
    "unhide": {"hidden": False},
    "publish": {"private": False},
    "make-private": {"private": True},
}

MOST_LANGS, MOST_PASSES, MOST_REDIRECTS, MOST_RULES, MOST_PAGES = 30, 1000, 100, 50, 256
MOST_PAGE_BYTES = 1_048_576
MOST_END = 2**63 - 1


class Refused(Exception):
    """A command that changes nothing, by the number of its refusal."""

    def __init__(self, number):
        super().__init__(number)
        self.number = number


class Page(NamedTuple):
    """A page of an upload."""

    path: bytes
    media: bytes
    body: bytes


@dataclass
class Project:
    """A project: versions by slug, pages by slug, language and path, the end of each pass or None, first answers by
    slug, operation and retry key."""

    languages: list
    branch: bytes
    new_private: bool
    wkey: bytes
    versions: dict = field(default_factory=dict)
    pages: dict = field(default_factory=dict)
    defaults: list = field(default_factory=list)
    passes: dict = field(default_factory=dict)
    held: set = field(default_factory=set)
    used: dict = field(default_factory=dict)
    rules: list = field(default_factory=list)
    redirects: list = field(default_factory=list)


class Command(NamedTuple):
    """A change of the project under a host that is asked for: its name, and its arguments by name."""

    host: bytes
    name: str
    values: dict


# ---- what is wrong with the texts of a command


def wrong_texts(name, it):
    """The refusals of the arguments that are no values of their types, in their order."""
    tests = {
        "lang": (texts.is_lang, 2),
        "branch": (texts.is_ref_name, 3),
        "ref": (texts.is_ref_name, 3),
        "slug": (texts.is_slug, 3),
        "rule": (lambda rule: versions.is_allowed(rule.pattern), 6),
        "redirect": (lambda redirect: redirects.first_fault(redirect) is None, 7),
        "wkey": (texts.is_token, 8),
        "pass": (texts.is_token, 8),
        "key": (texts.is_token, 9),
        "until": (lambda end: end is None or end <= MOST_END, 25),
    }
    for argument, value in it.items():
        if argument in tests and not tests[argument][0](value):
            yield tests[argument][1]
        if argument == "ref" and not texts.is_slug(texts.slug_text(value)):
            yield 3
        if argument == "redirects" and any(redirects.first_fault(redirect) for redirect in value):
            yield 7
        if argument == "pages":
            yield from wrong_pages(value)


def wrong_pages(pages):
    """The refusals of an upload's pages: their number, then of each its path, its content, and a path that stands twice."""
    if len(pages) > MOST_PAGES:
        yield 5
    for place, page in enumerate(pages):
        if not texts.is_page_path(page.path):
            yield 4
        if not texts.is_media(page.media) or len(page.body) > MOST_PAGE_BYTES:
            yield 5
        if any(other.path == page.path for other in pages[:place]):
            yield 5


# ---- changes of a project


def at_version(project, slug):
    if slug not in project.versions:
        raise Refused(15)
    return project.versions[slug]


def at_pass(project, word):
    if word not in project.passes:
        raise Refused(21)


def set_first_default(project, name):
    project.defaults = [name] + [other for other in project.defaults if other != name]


def drop_pages(project, slug, lang=None):
    for key in [key for key in project.pages if key[0] == slug and lang in (None, key[1])]:
        del project.pages[key]


def add_lang(project, it):
    if it["lang"] in project.languages:
        raise Refused(13)
    if len(project.languages) >= MOST_LANGS:
        raise Refused(19)
    project.languages.append(it["lang"])
    return ("done",)


def once(project, it, key, change):
    """With the right write key: the first answer under a retry key, or the change, whose answer is then kept."""
    if it["wkey"] != project.wkey:
        raise Refused(12)
    if key not in project.used:
        project.used[key] = change(project, it)
    return project.used[key]


def push(project, it):
    return once(project, it, (texts.slug_text(it["ref"]), "push", it["key"]), push_anew)


def push_anew(project, it):
    slug = texts.slug_text(it["ref"])
    there = project.versions.get(slug)
    if there:
        if (there.kind, there.name) != (it["kind"], it["ref"]):
            raise Refused(16)
        return ("known", slug)
    is_default = it["kind"] == b"branch" and it["ref"] == project.branch
    fresh = versions.Version(slug, it["kind"], it["ref"], is_default, False, project.new_private)
    made, is_chosen = versions.after_rules(project.rules, fresh)
    project.versions[slug] = made
    if is_chosen:
        set_first_default(project, slug)
    return ("made", slug, made.active, made.hidden, made.private)


def upload(project, it):
    return once(project, it, (it["slug"], "upload", it["key"]), upload_anew)


def upload_anew(project, it):
    if not at_version(project, it["slug"]).active:
        raise Refused(17)
    if it["lang"] not in project.languages:
        raise Refused(14)
    if it["replace"]:
        drop_pages(project, it["slug"], it["lang"])
    for page in it["pages"]:
        project.pages[it["slug"], it["lang"], page.path] = (page.media, page.body)
    return ("stored", len(it["pages"]))


def deactivate(project, it):
    project.versions[it["slug"]] = replace(at_version(project, it["slug"]), active=False)
    drop_pages(project, it["slug"])
    return ("done",)


def gone(project, it):
    at_version(project, it["slug"])
    del project.versions[it["slug"]]
    drop_pages(project, it["slug"])
    project.defaults = [name for name in project.defaults if name != it["slug"]]
    project.held = {(word, slug) for word, slug in project.held if slug != it["slug"]}
    return ("done",)


def set_default(project, it):
    if it["slug"] not in ALIASES and not at_version(project, it["slug"]).active:
        raise Refused(17)
    set_first_default(project, it["slug"])
    return ("done",)


def add_at(there, place, item, most):
    if not 1 <= place <= len(there) + 1:
        raise Refused(18)
    if len(there) >= most:
        raise Refused(19)
    there.insert(place - 1, item)
    return ("done",)


def drop_at(there, place):
    if not 1 <= place <= len(there):
        raise Refused(18)
    del there[place - 1]
    return ("done",)


def import_redirects(project, it):
    """Each of the list is added last, unless it is there or stood before in the list; all of them, or none."""
    there = list(project.redirects)
    for redirect in it["redirects"]:
        if redirect not in there:
            there.append(redirect)
    if len(there) > MOST_REDIRECTS:
        raise Refused(19)
    added = len(there) - len(project.redirects)
    project.redirects = there
    return ("added", added)


def add_pass(project, it):
    if it["pass"] in project.passes:
        raise Refused(20)
    if len(project.passes) >= MOST_PASSES:
        raise Refused(19)
    project.passes[it["pass"]] = it["until"]
    return ("done",)


def drop_pass(project, it):
    at_pass(project, it["pass"])
    del project.passes[it["pass"]]
    project.held = {(word, slug) for word, slug in project.held if word != it["pass"]}
    return ("done",)


def set_grant(project, it, change):
    at_version(project, it["slug"])
    at_pass(project, it["pass"])
    change((it["pass"], it["slug"]))
    return ("done",)


def set_property(project, it, property_set):
    project.versions[it["slug"]] = replace(at_version(project, it["slug"]), **property_set)
    return ("done",)


CHANGES = {
    "add-lang": add_lang,
    "push": push,
    "upload": upload,
    "deactivate": deactivate,
    "gone": gone,
    "set-default": set_default,
    "add-rule": lambda p, it: add_at(p.rules, it["place"], it["rule"], MOST_RULES),
    "drop-rule": lambda p, it: drop_at(p.rules, it["place"]),
    "add-redirect": lambda p, it: add_at(p.redirects, it["place"], it["redirect"], MOST_REDIRECTS),
    "drop-redirect": lambda p, it: drop_at(p.redirects, it["place"]),
    "import": import_redirects,
    "add-pass": add_pass,
    "drop-pass": drop_pass,
    "grant": lambda p, it: set_grant(p, it, p.held.add),
    "revoke": lambda p, it: set_grant(p, it, p.held.discard),
}


def step(world, command):
    """Does a command and gives its answer; or `Refused`, and then the world is as it was. The texts come first."""
    name, it = command.name, command.values
    if not texts.is_host_name(command.host):
        raise Refused(1)
    for number in wrong_texts(name, it):
        raise Refused(number)
    project = world.get(command.host)
    if name == "new-project":
        if project:
            raise Refused(11)
        world[command.host] = Project([it["lang"]], it["branch"], it["private"], it["wkey"])
        return ("done",)
    if not project:
        raise Refused(10)
    if name in PROPERTIES:
        return set_property(project, it, PROPERTIES[name])
    return CHANGES[name](project, it)


# ---- what a caller sees


class Caller(NamedTuple):
    """Who reads, and when: the pass that he shows, or None, and the moment in seconds since 1970."""

    shown: Optional[bytes]
    moment: int


@dataclass
class Seen:
    """A project as one caller sees it."""

    languages: list
    versions: list
    pages: dict
    latest: Optional[bytes]
    stable: Optional[bytes]
    redirects: list
    default: Optional[bytes] = None

    def resolved(self, name):
        """The slug that a name stands for, and whether it does so as an alias; None where it stands for nothing."""
        if any(version.slug == name for version in self.versions):
            return name, False
        slug = {b"latest": self.latest, b"stable": self.stable}.get(name)
        return None if slug is None else (slug, True)


def live_pass(project, caller):
    """The caller's pass, where it is one of the project's that has not ended."""
    if caller.shown is None or caller.shown not in project.passes:
        return None
    end = project.passes[caller.shown]
    return caller.shown if end is None or caller.moment < end else None


def is_visible(project, caller, version):
    return version.active and (not version.private or (live_pass(project, caller), version.slug) in project.held)


def seen(world, host, caller):
    """What a caller sees under a host; None where there is no project."""
    project = world.get(host)
    if project is None:
        return None
    visible = [project.versions[slug] for slug in sorted(project.versions)]
    visible = [version for version in visible if is_visible(project, caller, version)]
    slugs = {version.slug for version in visible}
    it = Seen(
        project.languages,
        visible,
        {key: page for key, page in project.pages.items() if key[0] in slugs},
        versions.latest_of(visible, project.branch),
        versions.stable_of(visible),
        project.redirects,
    )
    names = [name for name in [*project.defaults, *ALIASES] if it.resolved(name)]
    it.default = names[0] if names else None
    return it
