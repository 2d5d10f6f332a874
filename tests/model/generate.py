"""Scripts by a seed. They are made beside a model's world, so that most of what is asked for can be done."""

import random

import pools
import texts
import world

# How often a line is of each form; 'get' apart.
WEIGHTS = {
    "push": 16,
    "upload": 12,
    "activate": 8,
    "grant": 7,
    "add-redirect": 10,
    "add-rule": 6,
    "set-default": 5,
    "publish": 4,
    "make-private": 5,
    "hide": 3,
    "add-pass": 5,
    "unhide": 2,
    "deactivate": 2,
    "gone": 4,
    "add-lang": 3,
    "revoke": 2,
    "drop-pass": 3,
    "drop-redirect": 2,
    "drop-rule": 1,
    "new-project": 1,
}

WORDS = {
    "new-project": ("host", "lang", "branch", "privacy", "wkey"),
    "add-lang": ("host", "lang"),
    "push": ("host", "wkey", "key", "kind", "ref"),
    "upload": ("host", "wkey", "key", "slug", "lang", "path", "type", "text"),
    "add-pass": ("host", "new-pass"),
    "drop-pass": ("host", "pass"),
    "grant": ("host", "pass", "slug"),
    "revoke": ("host", "pass", "slug"),
    "drop-redirect": ("host", "place"),
    "add-rule": ("host", "next-place", "kind", "pattern", "action"),
    "drop-rule": ("host", "place"),
}


class Maker:
    """Makes lines over a world that it only looks at."""

    def __init__(self, seed, world, with_ends):
        self.random = random.Random(seed)
        self.world = world
        self.with_ends = with_ends
        self.host = pools.HOSTS[0]
        self.tags = self.random.sample(pools.TAGS, 7)
        self.branches = self.random.sample(pools.BRANCHES, 3)
        self.count = 0
        # Lines that come next.
        self.waiting = []

    def often(self, share):
        return self.random.random() < share

    def one(self, choices):
        return self.random.choice(list(choices))

    def some(self, choices, most):
        return self.random.sample(list(choices), min(most, len(choices)))

    # ---- words

    def project(self):
        return self.world.get(self.host)

    def word(self, what, form=""):
        """A word of this meaning that can be, or at times one of the limits."""
        limits = pools.LIMITS.get(what.removeprefix("new-").removeprefix("next-"), [])
        if limits and self.often(0.04):
            return self.one(limits)
        return getattr(self, "word_" + what.replace("-", "_"))(form)

    def word_host(self, form):
        return self.host

    def word_lang(self, form):
        known = self.project().languages if self.project() else pools.LANGS
        return self.one(known if self.often(0.7) and form != "add-lang" else pools.LANGS + [b"de", b"ja"])

    def word_branch(self, form):
        return self.one([b"main", b"main", b"main", *pools.BRANCHES])

    def word_privacy(self, form):
        return self.one([b"public", b"public", b"private"])

    def word_wkey(self, form):
        project = self.project()
        return project.wkey if project and form != "new-project" and self.often(0.97) else pools.WKEY

    def word_key(self, form):
        if self.often(0.25):
            return self.one(pools.KEYS)
        self.count += 1
        return b"u%d" % self.count

    def word_kind(self, form):
        return self.one([b"branch", b"tag", b"tag"])

    def word_ref(self, form):
        return self.one(self.tags + self.branches)

    def word_slug(self, form):
        project = self.project()
        if project and project.versions and self.often(0.9):
            active = [slug for slug, it in project.versions.items() if it.active]
            return self.one(active if active and form == "upload" and self.often(0.8) else project.versions)
        return self.one([b"latest", b"stable", *(texts.slug_text(name) or b"x" for name in self.tags + self.branches)])

    def word_path(self, form):
        return self.one(pools.FILES if self.often(0.85) else pools.MORE_FILES)

    def word_type(self, form):
        return self.one(pools.MEDIA)

    def word_text(self, form):
        return b"t" * self.random.randint(1, 40)

    def word_new_pass(self, form):
        project = self.project()
        missing = [word for word in pools.PASSES if project and word not in project.passes]
        return self.one(missing if missing and self.often(0.6) else pools.PASSES)

    def word_pass(self, form):
        project = self.project()
        return self.one(project.passes if project and project.passes and self.often(0.9) else pools.PASSES)

    def word_place(self, form):
        project = self.project()
        there = (project.rules if form == "drop-rule" else project.redirects) if project else []
        return b"%d" % self.random.randint(1, max(len(there), 1))

    def word_next_place(self, form):
        project = self.project()
        there = (project.rules if form == "add-rule" else project.redirects) if project else []
        return b"%d" % self.random.randint(1, len(there) + (2 if self.often(0.05) else 1))

    def word_pattern(self, form):
        return self.one([b"all", b"semver", b"re:" + self.one(pools.EXPRESSIONS), b"re:" + self.one(pools.EXPRESSIONS)])

    def word_action(self, form):
        return self.one([b"activate", b"activate", b"hide", b"public", b"private", b"default"])

    # ---- lines

    def line(self):
        """A line as bytes, without its end."""
        if self.waiting:
            return self.waiting.pop(0)
        self.host = self.one(pools.HOSTS)
        if not self.project() and self.often(0.9):
            words = self.command_words("new-project")
        elif self.often(0.42):
            words = self.get_words()
        else:
            words = self.command_words(self.random.choices(list(WEIGHTS), WEIGHTS.values())[0])
        if self.often(0.02):
            words = self.mangled(words)
        return self.one([b" ", b" ", b" ", b"\t", b"  "]).join(words)

    def setup(self):
        """Lines that make a project with versions and pages, in the order in which they can be done."""
        host, key = self.host, pools.WKEY
        privacy = self.one([b"public", b"public", b"private"])
        made = [b"new-project %b en %b %b %b" % (host, self.one([b"main", b"main", b"dev", b"Main"]), privacy, key)]
        made += [b"add-pass %b %b" % (host, word) for word in pools.PASSES[:2]]
        made[-1] += b" --until 1000" * (self.with_ends and self.often(0.7))
        for _ in range(self.one([0, 0, 2, 4])):
            rule = [self.word_kind(""), self.word_pattern(""), self.word_action("")]
            made.append(b" ".join([b"add-rule", host, b"1", *rule]))
        names = [(b"branch", b"main"), *((b"tag", tag) for tag in self.tags[:4]), (b"branch", self.branches[0])]
        for number, (kind, name) in enumerate(names):
            made.append(b"push %b %b s%d %b %b" % (host, key, number, kind, name))
            slug = texts.slug_text(name)
            made += [b"activate %b %b" % (host, slug)] * self.often(0.8)
            files = self.random.sample(pools.FILES, 4)
            for file in files:
                body = b"x" * self.random.randint(1, 60)
                made.append(b"upload %b %b %b %b en %b t %b" % (host, key, file[:3], slug, file, body))
            made += [b"grant %b %b %b" % (host, self.one(pools.PASSES[:2]), slug)] * self.often(0.5)
        if self.often(0.5):
            made.append(b"add-lang %b fr" % host)
            slugs = [texts.slug_text(name) for _, name in names[:3]]
            made += [b"upload %b %b fr %b fr %b t french" % (host, key, slug, self.one(pools.FILES)) for slug in slugs]
        return made

    def command_words(self, form):
        if form == "add-redirect":
            return self.redirect_words()
        words = [self.word(what, form) for what in WORDS.get(form, ("host", "slug"))]
        if form == "upload" and self.often(0.2):
            words.insert(self.random.randint(0, len(words)), b"--replace")
        if form == "add-pass" and self.with_ends and self.often(0.5):
            words += [b"--until", self.word("until")]
        if self.project() and self.often(0.7):
            self.waiting = self.again(form, words)
        return [form.encode(), *words]

    def again(self, form, words):
        """The lines that make what a line removes once more."""
        host, version = self.host, self.project().versions.get(words[-1])
        if form == "drop-pass":
            return [b"add-pass %b %b" % (host, words[-1])]
        if form != "gone" or not version:
            return []
        key, name = self.project().wkey, version.kind + b" " + version.name
        return [b"push %b %b again %b" % (host, key, name), b"activate %b %b" % (host, words[-1])]

    def word_until(self, form):
        return b"%d" % self.random.choice([0, 1, 999, 1000, 1001, 4_000_000_000])

    def word_now(self, form):
        return b"%d" % self.random.choice([0, 1, 998, 999, 1000, 1001, 4_000_000_000])

    def redirect_words(self):
        kind = self.one([b"page", b"page", b"exact", b"exact", b"exact", b"clean-to-html", b"html-to-clean"])
        source, target = b"none", b"none"
        if kind in (b"page", b"exact") or self.often(0.03):
            source = self.word("from", kind)
            target = self.word("to", source)
        words = [self.word("host"), self.word("next-place"), self.word("redirect-kind", kind)]
        words += [self.word("status"), source, target]
        if self.often(0.35):
            words.insert(self.random.randint(0, len(words)), b"--force")
        return [b"add-redirect", *words]

    def word_redirect_kind(self, kind):
        return kind

    def word_status(self, form):
        return self.one([b"301", b"302"])

    def word_from(self, kind):
        return self.one(pools.FROM_PAGE if kind == b"page" else pools.FROM_EXACT)

    def word_to(self, source):
        with_rest = source.endswith(b"*") if self.often(0.95) else True
        return self.one(pools.TO_REST if with_rest and self.often(0.8) else pools.TO)

    def mangled(self, words):
        """The words with one that is missing, that is one too many, or that stands elsewhere."""
        words, place = list(words), self.random.randrange(len(words))
        how = self.random.randrange(5)
        if how == 0:
            del words[place]
        elif how == 1:
            words.insert(place, self.one(pools.MORE_WORDS))
        elif how == 2:
            words.insert(place, words[place])
        elif how == 3:
            self.random.shuffle(words)
        else:
            word = words[place]
            others = [b"#", b"help", b"import", b"migrate", b"get"]
            words[place] = self.one([*others, "\ufeff".encode() + word, word + b"\r", word.upper()])
        return words or [b"#"]

    def get_words(self):
        words = [b"get", self.word("host"), self.word("target")]
        shown = self.shown()
        if shown is not None:
            place = self.random.randint(1, len(words))
            words[place:place] = [b"--pass=" + shown] if self.often(0.3) else [b"--pass", shown]
        if self.with_ends and self.often(0.9 if shown is not None else 0.1):
            words += [b"--now", self.word("now")]
        return words

    def shown(self):
        """A pass that a reader shows, or None."""
        return None if self.often(0.5) else self.word("pass")

    def asked_again(self, made):
        """Reads that were made before, once more: the same, as another caller, or at another moment."""
        reads = [it for it in made[-60:] if it.startswith(b"get ") and b"--pass=" not in it][-8:]
        return [self.asked_otherwise(it) for it in self.some(reads, 2)]

    def asked_otherwise(self, read):
        """A read, at times with another pass or moment in place of its own."""
        words = read.split()
        if len(words) < 3 or self.often(0.4):
            return read
        plain = [it for at, it in enumerate(words) if it not in (b"--pass", b"--now") and words[at - 1] not in (b"--pass", b"--now")]
        shown = self.shown() if self.often(0.8) else None
        plain += [b"--pass", shown] if shown is not None else []
        return b" ".join([*plain, b"--now", self.word("now")] if self.with_ends else plain)

    # ---- targets

    def word_target(self, form):
        target = self.path()
        if self.often(0.12):
            place = self.random.randrange(len(target))
            target = target[:place] + b"%%%02x" % target[place] + target[place + 1 :]
        target += self.one(pools.QUERIES) if self.often(0.25) else b""
        if self.often(0.03):
            target = self.one([b"http://other.test", b"HTTPS://Docs.Test:8", b"http://docs.test:", b"http://a_b"]) + target
        return target

    def path(self):
        """A path, escaped: of a page that may be there, of what redirects compare, or of the host's own."""
        project, chance = self.project(), self.random.random()
        if chance < 0.2:
            return self.one(pools.SYSTEM_PATHS)
        if chance < 0.3:
            return b"/page/" + texts.escaped(self.word_path(""))
        if chance < 0.5 and project and project.redirects:
            return texts.escaped(self.path_of(self.one(project.redirects)))
        if chance < 0.58:
            return self.one(pools.OTHER_PATHS)
        address = b"/" + self.word_lang("") + b"/" + self.name()
        if project and project.pages and self.often(0.5):
            slug, lang, file = self.one(project.pages)
            return b"/" + lang + b"/" + self.one([slug, self.name()]) + b"/" + texts.escaped(file)
        return address if self.often(0.12) else address + b"/" + texts.escaped(self.file())

    def path_of(self, redirect):
        """A path that a redirect may fit."""
        rest = self.one([b"", b"a.html", b"b", b"a/b.html", b"main/a.html", b"x y", b"/x", b"?#", "é".encode()])
        text = redirect.source[:-1] + rest if redirect.source.endswith(b"*") else redirect.source
        if redirect.kind == b"exact":
            return text or b"/"
        return b"/" + self.word_lang("") + b"/" + self.name() + (text or b"/" + self.file())

    def name(self):
        return self.one([b"latest", b"stable", b"latest", self.word_slug("get"), self.word_slug("get"), b"nothing"])

    def file(self):
        file = self.word_path("")
        how = self.random.random()
        if how < 0.15:
            return file.removesuffix(b"index.html")
        if how < 0.3:
            return self.one(pools.OTHER_FILES)
        return file

    def sweep(self):
        """Reads of some pages of each version as each caller, and of the host's own."""
        targets = [b"/", b"/_/versions", b"/robots.txt", b"/page/a.html", b"/en/latest", b"/en/nothing/x"]
        project = self.project()
        if not project:
            return [b"get %b %b" % (self.host, target) for target in targets]
        for _ in range(10):
            targets.append(b"/%b/%b/%b" % (self.one(project.languages), self.name(), texts.escaped(self.file())))
        targets += [b"/%b/%b/%b" % (lang, name, texts.escaped(file)) for name, lang, file in self.some(project.pages, 6)]
        targets += [b"/en/%b/%b" % (name, file) for name in world.ALIASES for file in self.some(pools.FILES, 2)]
        targets += [texts.escaped(self.path_of(redirect)) for redirect in self.some(project.redirects, 6)]
        callers = [b"", *(b" --pass " + word for word in list(project.passes)[:3]), b" --pass other"]
        now = self.one([b" --now 999", b" --now 1000", b""]) if self.with_ends else b""
        return [b"get %b %b%b%b" % (self.host, target, caller, now) for target in targets for caller in callers]

    def full_list(self):
        """Lines that fill a list of a project up to its limit and past it."""
        host, how = self.host, self.random.randrange(4)
        if how == 0:
            return [b"add-lang %b l%d" % (host, number) for number in range(10, 45)]
        if how == 1:
            return [b"add-pass %b p%d" % (host, number) for number in range(1003)]
        most, line = (50, b"add-rule %b %d tag re:x%d hide") if how == 2 else (100, b"add-redirect %b %d exact 301 /f%d /t")
        places = [self.random.randint(1, min(number, most + 2) + 1) for number in range(most + 12)]
        return [line % (host, place, number) for number, place in enumerate(places)]
