"""What curl gets of a server on 127.0.0.1: for tests/serve/run."""

import subprocess

from host import Broken
from parts import HOST, KEY


class Curl:
    def __init__(self, port):
        self.port, self.asked = port, 0

    def __call__(self, target, *words, host=HOST):
        """The status, the header lines and the body that curl gets."""
        self.asked += 1
        place = f"http://127.0.0.1:{self.port}{target}"
        plain = ["curl", "--silent", "--show-error", "--include", "--max-time", "20", "--path-as-is"]
        ended = subprocess.run([*plain, "-H", f"Host: {host}", *words, place], stdin=subprocess.DEVNULL, capture_output=True)
        head, _, body = ended.stdout.partition(b"\r\n\r\n")
        first, *lines = head.decode("latin-1").split("\r\n")
        if not first:
            raise Broken(f"curl {target}: {ended.stderr.decode().strip()}")
        return int(first.split()[1]), dict(line.split(": ", 1) for line in lines), body

    def post(self, target, body, key=KEY):
        return self(target, "-H", f"Docs-Key: {key}", "--data-binary", body)
