"""Lists of old redirects as CSV, and their import: docs/SCRIPTS.md."""

import redirects
import texts
import world as worlds

COMMA, QUOTE, LINE_FEED, CARRIAGE_RETURN = b",", b'"', b"\n", b"\r"


class BadRecord(Exception):
    """A record that is no redirect, by its number from 1."""

    def __init__(self, number):
        super().__init__(number)
        self.number = number


def records_of(text):
    """The records of a CSV text, each by its fields: lines end with LF, CR or CR LF, and an empty line is no record."""
    text = text.removeprefix(b"\xef\xbb\xbf")
    records, fields, value, state = [], [], b"", "record"
    for byte in (text[at : at + 1] for at in range(len(text))):
        if state == "quoted":
            value, state = (value, "quote") if byte == QUOTE else (value + byte, state)
        elif state == "quote" and byte == QUOTE:
            value, state = value + byte, "quoted"
        elif byte == QUOTE and state in ("record", "field"):
            state = "quoted"
        elif byte in (LINE_FEED, CARRIAGE_RETURN):
            if state != "record":
                records.append([*fields, value])
            fields, value, state = [], b"", "record"
        elif byte == COMMA:
            fields, value, state = [*fields, value], b"", "field"
        else:
            value, state = value + byte, "value"
    return records if state == "record" else [*records, [*fields, value]]


def redirect_in(fields):
    """The redirect of a record `kind,status,force,from,to`; None where it is none."""
    if len(fields) != 5 or not all(texts.is_utf8(field) for field in fields):
        return None
    kind, status, force, source, target = fields
    status = texts.number_in(status, 2**16)
    if kind not in redirects.KINDS or status is None or force not in (b"yes", b"no"):
        return None
    return redirects.from_old(redirects.Redirect(kind, status, force == b"yes", source, target))


def list_in(text):
    """The redirects of a list."""
    found = []
    for number, fields in enumerate(records_of(text), 1):
        redirect = redirect_in(fields)
        if redirect is None:
            raise BadRecord(number)
        found.append(redirect)
    return found


def run_import(world, host, text):
    """What an import prints, and its exit status. The list is read before the store."""
    if len(text) > 1_048_576:
        return b"", 3
    try:
        answer = worlds.step(world, worlds.Command(host, "import", {"redirects": list_in(text)}))
    except BadRecord as bad:
        return b"bad record %d\n" % bad.number, 1
    except worlds.Refused as refused:
        return b"refused %d %b\n" % (refused.number, worlds.REFUSALS[refused.number]), 1
    return b"added %d\n" % answer[1], 0
