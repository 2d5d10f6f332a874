"""Redirects: the specs of crates/dh_redirects, and docs/SCRIPTS.md."""

import re
from typing import NamedTuple, Optional

import texts

KINDS = (b"page", b"exact", b"clean-to-html", b"html-to-clean")
WITH_TEXTS = (b"page", b"exact")
SPLAT = b":splat"

# What stands in To as it was written: 0x21 to 0x7E, but `\`.
SENT_BYTES = frozenset(range(0x21, 0x7F)) - frozenset(b"\\")


class Redirect(NamedTuple):
    """A redirect of a project: From is its source, To its target."""

    kind: bytes
    status: int
    force: bool
    source: bytes
    target: bytes


class Parts(NamedTuple):
    """The parts of a good address that names a file: the name of the version is as it was requested."""

    lang: bytes
    name: bytes
    file: bytes


class Asked(NamedTuple):
    """What redirects are asked for."""

    path: bytes
    query: Optional[bytes]
    parts: Optional[Parts]


# ---- what a redirect may be


def is_path(target):
    return target[:1] == b"/"


def is_absolute(target):
    """`http://` or `https://`, and a host, which no rest may fill."""
    found = re.match(rb"https?://([^/?#]*)", target, re.DOTALL)
    return bool(found) and found[1] != b"" and SPLAT not in found[1]


def is_short_text(text):
    return len(text) <= 512 and not texts.has_control(text)


def first_fault(redirect):
    """The number of the first fault: BadSource 1, EarlyStar 2, BadTarget 3, SplatWithoutStar 4, UnusedText 6, BadStatus 5."""
    source, target = redirect.source, redirect.target
    if redirect.kind in WITH_TEXTS:
        if not is_path(source) or not is_short_text(source):
            return 1
        if b"*" in source[:-1]:
            return 2
        if not is_short_text(target) or not (is_path(target) or is_absolute(target)):
            return 3
        if SPLAT in target and source[-1:] != b"*":
            return 4
    elif source or target:
        return 6
    return None if redirect.status in (301, 302) else 5


# ---- where a redirect leads


def matched(source, text):
    """The rest that From's final `*` stands for; without one From is the whole text."""
    if source[-1:] == b"*":
        front = source[:-1]
        return text[len(front) :] if text.startswith(front) else None
    return b"" if text == source else None


def filled(rest, target):
    """To with the escaped rest for each `:splat`, and each other byte that a location cannot hold escaped."""
    parts = [texts.escape(part, SENT_BYTES) for part in target.split(SPLAT)]
    return texts.escaped(rest).join(parts)


def stem(end, file):
    """What stands before the end of a file, where something does."""
    return file[: -len(end)] if file.endswith(end) and len(file) > len(end) else None


def html_file(file):
    for end in (b"/index.html", b"/"):
        if (front := stem(end, file)) is not None:
            return front + b".html"
    return None


def clean_file(file):
    if file == b"index.html":
        return b""
    for end in (b"/index.html", b".html"):
        if (front := stem(end, file)) is not None:
            return front + b"/"
    return None


def written_by(redirect, asked):
    """To filled, or the address of the changed file, where the redirect fits what is asked."""
    if redirect.kind == b"exact":
        rest = matched(redirect.source, asked.path)
        return None if rest is None else filled(rest, redirect.target)
    if asked.parts is None:
        return None
    version = b"/" + asked.parts.lang + b"/" + asked.parts.name
    if redirect.kind == b"page":
        rest = matched(redirect.source, b"/" + asked.parts.file)
        if rest is None:
            return None
        return (version if is_path(redirect.target) else b"") + filled(rest, redirect.target)
    change = html_file if redirect.kind == b"clean-to-html" else clean_file
    file = change(asked.parts.file)
    return None if file is None else version + b"/" + texts.escaped(file)


def with_query(text, query):
    """The query is put before the first `#`, unless a `?` stands there already."""
    address, mark, fragment = text.partition(b"#")
    if query is None or b"?" in address:
        return text
    return address + b"?" + query + mark + fragment


def is_request(text, asked):
    """The text, as an address, is the request itself."""
    path, mark, query = text.partition(b"#")[0].partition(b"?")
    return texts.unescaped(path) == asked.path and (query if mark else None) == asked.query


def result(redirect, asked):
    """The location to which a redirect leads; None where it does not apply, or leads to the request itself."""
    text = written_by(redirect, asked)
    if text is None:
        return None
    on_site = redirect.kind not in WITH_TEXTS or is_path(redirect.target)
    if on_site:
        text = b"/" + text.lstrip(b"/")
    text = with_query(text, asked.query)
    return None if on_site and is_request(text, asked) else text


def first_result(redirects, asked, forced):
    """Status and location of the first redirect that has a result: of those with force, or of all."""
    for redirect in redirects:
        if redirect.force or not forced:
            location = result(redirect, asked)
            if location is not None:
                return redirect.status, location
    return None


# ---- old redirects


def from_old(redirect):
    """A From that ends in `$rest` gets `*` in its place, and To gets `:splat` at its end."""
    if not redirect.source.endswith(b"$rest"):
        return redirect
    return redirect._replace(source=redirect.source[:-5] + b"*", target=redirect.target + SPLAT)
