"""Words, lines and scripts: docs/SCRIPTS.md, and the specs of crates/dh_lines and crates/dh_script."""

import redirects
import replies
import texts
import versions
import world as worlds

MOST_SCRIPT = 1_048_576


class Usage(Exception):
    """Words that are no line."""


# ---- the words of a line

# The words of each form; those of `redirect` and `rule` stand for several.
REDIRECT, RULE = "redirect-kind status from to", "kind pattern action"
FORMS = {
    "new-project": "host lang branch privacy wkey",
    "add-lang": "host lang",
    "push": "host wkey key kind ref",
    "upload": "host wkey key slug lang path type text",
    "add-pass": "host pass",
    "drop-pass": "host pass",
    "grant": "host pass slug",
    "revoke": "host pass slug",
    "add-redirect": f"host place {REDIRECT}",
    "drop-redirect": "host place",
    "add-rule": f"host place {RULE}",
    "drop-rule": "host place",
    "get": "host target",
}
for version_form in (*worlds.PROPERTIES, "deactivate", "gone", "set-default"):
    FORMS[version_form] = "host slug"

# What each form takes behind `--`, and whether a value follows.
OPTIONS = {"upload": {"replace": False}, "add-redirect": {"force": False}, "get": {"pass": True}}

# The same of passes that end.
OPTIONS_OF_ENDS = {"add-pass": {"until": True}, "get": {"pass": True, "now": True}}


def match_words(words, names, options):
    """The words of a form by name, and its options; `Usage` where they do not fit."""
    places, found, waiting, is_trailing = [], {}, None, False

    def keep(name, value):
        if name in found:
            raise Usage
        found[name] = value

    for word in words:
        if is_trailing or not word.startswith(b"-") or word == b"-":
            if waiting is None:
                places.append(word)
            else:
                keep(waiting, word)
                waiting = None
            continue
        if waiting is not None:
            raise Usage  # an option comes before the value that another one waits for
        if word == b"--":
            is_trailing = True
            continue
        name, mark, value = word.removeprefix(b"--").decode("utf-8").partition("=")
        if not word.startswith(b"--") or name not in options or (mark and not options[name]):
            raise Usage
        if options[name] and not mark:
            waiting = name
        else:
            keep(name, value.encode("utf-8"))
    if waiting is not None or len(places) != len(names):
        raise Usage
    return dict(zip(names, places)), found


# ---- the line that words are


def chosen(word, choices):
    if word not in choices:
        raise Usage
    return word


def number(word, bound):
    found = texts.number_in(word, bound)
    if found is None:
        raise Usage
    return found


def text_meant(word):
    return b"" if word == b"none" else word


def values_of(name, it, options):
    """The arguments of a command, in the order of their checks."""
    if name == "new-project":
        is_private = chosen(it["privacy"], (b"public", b"private")) == b"private"
        return {"lang": it["lang"], "branch": it["branch"], "private": is_private, "wkey": it["wkey"]}
    if name == "upload":
        page = worlds.Page(it["path"], it["type"], it["text"])
        values = {argument: it[argument] for argument in ("wkey", "key", "slug", "lang")}
        return {**values, "replace": "replace" in options, "pages": [page]}
    values = {argument: it[argument] for argument in it if argument != "host"}
    if "kind" in values:
        chosen(values["kind"], (b"branch", b"tag"))
    if "place" in values:
        values["place"] = number(values["place"], 2**32)
    if name == "add-pass":
        values["until"] = number(options["until"], 2**64) if "until" in options else None
    if name == "add-rule":
        return {"place": values["place"], "rule": rule_of(values)}
    if name == "add-redirect":
        return {"place": values["place"], "redirect": redirect_of(values, "force" in options)}
    return values


def rule_of(values):
    pattern = versions.pattern_of(values["pattern"])
    if pattern is None:
        raise Usage
    action = chosen(values["action"], (b"activate", b"hide", b"public", b"private", b"default"))
    return versions.Rule(values["kind"], pattern, action)


def redirect_of(values, is_forced):
    return redirects.Redirect(
        chosen(values["redirect-kind"], redirects.KINDS),
        number(values["status"], 2**16),
        is_forced,
        text_meant(values["from"]),
        text_meant(values["to"]),
    )


# ---- what a line prints


def answer_text(answer):
    what, *more = answer
    if what == "done":
        return b"ok"
    if what == "made":
        slug, active, hidden, private = more
        words = [b"made", slug, b"active" if active else b"inactive"]
        words += [b"hidden" if hidden else b"shown", b"private" if private else b"public"]
        return b" ".join(words)
    return what.encode() + b" " + (more[0] if what == "known" else b"%d" % more[0])


def reply_text(reply):
    location = b"-" if reply.location is None else reply.location
    return b"%d %b %d" % (reply.status, location, len(reply.body))


def read_text(world, it, options, moment):
    """What a line `get` prints: the host counts as it stands, whatever host the target gives."""
    if "now" in options:
        moment = number(options["now"], 2**64)
    target = texts.target_of(it["target"])
    if target is None:
        return b"bad target"
    caller = worlds.Caller(options.get("pass"), moment)
    return reply_text(replies.reply_to(worlds.seen(world, it["host"], caller), target.path, target.query))


def line_text(world, words, moment, with_ends):
    """Does the line that these words are, and gives what it prints."""
    try:
        name = words[0].decode("utf-8")
        if name not in FORMS:
            raise Usage
        options = {**OPTIONS, **(OPTIONS_OF_ENDS if with_ends else {})}.get(name, {})
        it, given = match_words(words[1:], FORMS[name].split(), options)
        if name == "get":
            return read_text(world, it, given, moment)
        answer = worlds.step(world, worlds.Command(it["host"], name, values_of(name, it, given)))
        return answer_text(answer)
    except Usage:
        return b"usage"
    except worlds.Refused as refused:
        return b"refused %d %b" % (refused.number, worlds.REFUSALS[refused.number])


# ---- scripts


def words_of(line):
    """What stands between the spaces and tabs of a line; of a comment nothing."""
    return [] if line[:1] == b"#" else line.replace(b"\t", b" ").split(b" ")


def lines_of(script):
    """The words of each line that has some. A CR counts to a line's end where an LF follows."""
    *whole, last = script.split(b"\n")
    whole = [line[:-1] if line[-1:] == b"\r" else line for line in whole]
    found = [[word for word in words_of(line) if word] for line in [*whole, last]]
    return [words for words in found if words]


def run_script(world, script, moment=0, with_ends=True):
    """What a script prints, the name of its fault or None, and its exit status."""
    if len(script) > MOST_SCRIPT:
        return b"", b"TooLong", 3
    if not texts.is_utf8(script):
        return b"", b"NotText", 3
    return b"".join(line_text(world, words, moment, with_ends) + b"\n" for words in lines_of(script)), None, 0
