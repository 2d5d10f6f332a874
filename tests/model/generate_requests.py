"""Requests, lists of old redirects and words that list by a seed, beside a model's world as the lines of scripts are."""

import base64
import json

import generate
import listings
import pools


class Asker(generate.Maker):
    """Makes requests, lists and words that list over a world that it only looks at."""

    # ---- lists of old redirects

    def old_list(self):
        """A list of redirects as CSV, most of whose records are right; some are redirects that are there."""
        project = self.project()
        there, records = [], []
        for it in project.redirects if project else []:
            there.append([it.kind, b"%d" % it.status, b"yes" if it.force else b"no", it.source, it.target])
        for _ in range(self.one([0, 1, 2, 3, 5])):
            records.append(self.record(there + records))
        if self.often(0.05):
            count = self.random.randint(90, 110)
            records += [[b"exact", b"301", b"no", b"/n%d" % number, b"/t"] for number in range(count)]
        end = self.one([b"\n", b"\n", b"\r\n", b"\r", b"\n\n"])
        text = b"".join(self.csv_line(record) + end for record in records)
        text = text.removesuffix(end) if self.often(0.2) else text
        return b"\xef\xbb\xbf" + text if self.often(0.05) else text

    def record(self, there):
        if there and self.often(0.3):
            return list(self.one(there))
        kind, source, target = self.redirect_texts()
        if source.endswith(b"*") and self.often(0.6):
            source, target = source[:-1] + b"$rest", target.replace(b":splat", b"")
        record = [kind, self.word("status"), self.one([b"yes", b"no", b"no"]), source, target]
        if self.often(0.08):
            place = self.random.randrange(5)
            record[place] = self.one([b"maybe", b"\xff", b"", b"x/$rest", b"+301", b"Page", b'a"b', b'"a"b'])
        if self.often(0.02):
            record += [b""]
        return record

    def redirect_texts(self):
        kind, source, target = self.one([b"page", b"exact", b"exact", b"clean-to-html", b"html-to-clean"]), b"", b""
        if kind in (b"page", b"exact"):
            source = self.word("from", kind)
            target = self.word("to", source)
        return kind, source, target

    def csv_line(self, fields):
        return b",".join(b'"' + it.replace(b'"', b'""') + b'"' if self.often(0.2) else it for it in fields)

    # ---- words that list

    def lists(self):
        """The words of all lists of a file, each of a project that is there at most times, and of some of its pages."""
        words = [[b"list-projects"]]
        for name in listings.LISTS:
            words.append([name, self.word("host")])
        pages = words.pop()
        return words + [[*pages, self.word("slug", "upload"), self.word("lang")] for _ in range(3)]

    def lookers(self):
        """Callers of whom it is listed what they see: the pass that each shows, or None, and the moment at which he looks, or None."""
        return [(self.shown(), self.word_now("") if self.with_ends else None) for _ in range(4)]

    # ---- requests

    def request(self):
        """A request as bytes."""
        host = self.host = self.one([*self.world, pools.HOSTS[0]])
        is_post = self.often(0.3)
        method = b"POST" if is_post else self.one([b"GET"] * 8 + [b"HEAD", b"HEAD", b"PUT", b"get", b"POST", b"DELETE"])
        target, body = self.word("target"), None
        if is_post:
            target, body = self.posted()
        name = self.one([b"Host:", b"Host:", b"host:", b"HOST:"])
        lines = [name + self.blanks() + self.host_part(host) + self.blanks()]
        shown = self.shown()
        if shown is not None:
            lines.append(self.one([b"Docs-Pass: ", b"docs-pass:", b"DOCS-PASS:\t"]) + shown)
        if body is not None:
            lines += self.lines_of_body(body)
        lines += [self.one(pools.MORE_FIELDS)] * self.often(0.2)
        self.random.shuffle(lines)
        return self.joined(method, target, self.changed(lines), body or b"")

    def blanks(self):
        return self.one([b" ", b" ", b" ", b"", b"\t", b"  "])

    def host_part(self, host):
        if self.often(0.9):
            return host
        return self.one([host.upper(), host.upper() + b":1", host + b":80", host + b":", host + b".", *pools.HOST_PARTS])

    def changed(self, lines):
        """The lines of a head, at times with one twice, without one, or with one that is none."""
        lines, how = list(lines), self.random.random()
        place = self.random.randrange(len(lines))
        if how < 0.02:
            lines.append(lines[place])
        elif how < 0.04:
            del lines[place]
        elif how < 0.07:
            lines.insert(place, self.one(pools.NO_FIELDS))
        elif how < 0.08:
            lines += [b"A: b"] * (self.random.randint(62, 66) - len(lines))
        return lines

    def joined(self, method, target, lines, body):
        """The bytes of a request, at times with one that is missing, another or more, or cut short."""
        end = self.one([b"\r\n"] * 8 + [b"\n", b"\r\n"])
        version = self.one([b"HTTP/1.1"] * 60 + [b"HTTP/1.0", b"HTTP/2.0", b"HTTP/1.2", b"http/1.1"])
        data = end.join([method + b" " + target + b" " + version, *lines, b"", b""]) + body
        if self.often(0.05):
            data = end + data
        if self.often(0.05):
            data += b"rest"
        if self.often(0.05):
            place = self.random.randrange(len(data))
            change = self.one([b"", b" ", b"\n", b"\r", b"\x00", b":", b"%", b"\xff"])
            data = data[:place] if self.often(0.3) else data[:place] + change + data[place + self.random.randint(0, 1) :]
        return data

    def lines_of_body(self, body):
        length = b"%d" % len(body)
        if self.often(0.1):
            near = [b"%d" % (len(body) + 1), b"%d" % max(len(body) - 1, 0), b"+" + length, b"000" + length]
            length = self.one([*near, b"12x", b"", b"4194304", b"4194305", b"9" * 30, length + b", " + length])
        lines = [self.one([b"Content-Length: ", b"content-length:"]) + length]
        if self.often(0.04):
            lines.append(self.one([b"Transfer-Encoding: chunked", b"transfer-encoding:", b"Content-Length: " + length]))
        if self.often(0.97):
            lines.append(self.one([b"Docs-Key: ", b"docs-key:"]) + self.word("wkey"))
        return lines

    # ---- bodies of POST

    def posted(self):
        """The target of a POST, and its body."""
        is_push = self.often(0.5)
        target = b"/_/push" if is_push else b"/_/upload"
        if self.often(0.1):
            target = self.one(pools.POST_TARGETS)
        fields = self.push_fields() if is_push else self.upload_fields()
        return target, self.body_of(fields)

    def text(self, what, form=""):
        return self.word(what, form).decode("utf-8", "replace")

    def push_fields(self):
        kind, name = self.text("kind"), self.text("ref")
        if self.often(0.05):
            name = self.one(["x y", "a\tb", 'q"\\u', "\u2028", "\U0001f600z", ""])
        return [("key", self.text("key")), ("kind", kind), ("ref", name)]

    def upload_fields(self):
        pages = [self.page_fields() for _ in range(self.one([0, 1, 1, 2, 3]))]
        if self.often(0.02):
            pages = [{"path": f"p{number}", "type": "t", "text": ""} for number in range(self.random.randint(255, 258))]
        fields = [("key", self.text("key")), ("version", self.text("slug", "upload"))]
        fields += [("language", self.text("lang")), ("pages", pages)]
        if self.often(0.4):
            fields.append(("replace", self.one([True, False, False, True, None, 1, "true"])))
        return fields

    def page_fields(self):
        page = {"path": self.text("path"), "type": self.text("type")}
        if self.often(0.5):
            page["text"] = self.one(["", "x" * self.random.randint(1, 30), "é\n\x7f", '"\\', "\x01"])
        if ("text" not in page) if self.often(0.97) else self.often(0.5):
            encoded = base64.b64encode(self.random.randbytes(self.random.randint(0, 9))).decode()
            wrong = [encoded.rstrip("="), encoded + "=", "aGl=", "a-_b", "aGk=\n", " aGk=", "a"]
            page["base64"] = encoded if self.often(0.9) else self.one(wrong)
        return page

    def body_of(self, fields):
        """The bytes of an object, at times with a field twice, without one, with another kind of one, or with more."""
        how = self.random.random()
        fields = list(fields)
        self.random.shuffle(fields)
        place = self.random.randrange(len(fields))
        if how < 0.04:
            del fields[place]
        elif how < 0.08:
            fields.insert(self.random.randint(0, len(fields)), (fields[place][0], self.one([1, None, "k9", [], {}, True])))
        elif how < 0.12:
            fields[place] = (fields[place][0], self.one([1, None, [], {}, 1.5, ["x"]]))
        more = [self.member("more", self.one(pools.MORE_VALUES))] if self.often(0.15) else []
        blank = self.one(["", "", " ", "\n", "\t\r "])
        members = [self.member(name, json.dumps(value, ensure_ascii=self.often(0.5))) for name, value in fields]
        text = blank + "{" + ("," + blank).join(members + more) + "}" + blank
        if self.often(0.04):
            whole = [text + "x", "[" + text + "]", "\ufeff" + text, "null", ""]
            text = self.one([*whole, text[:-1], text.replace('"', "'"), text.replace(":", ": ,", 1)])
        return text.encode("utf-8", "replace")

    def member(self, name, value):
        return json.dumps(name) + ":" + value
