"""A headless browser that reads pages of a server on 127.0.0.1: for tests/serve/run."""

import json
import os
import select
import shutil
import subprocess
import time

from host import Broken

# Seconds for one answer of the browser, and for what a page has to come to.
TIME_LIMIT = 60


def program():
    """The browser, or None."""
    return shutil.which("chromium") or shutil.which("chromium-browser") or shutil.which("google-chrome")


def words(host, port, room):
    """The words of a run in which no name leads anywhere but that of the host."""
    line = [
        program(),
        "--headless=new",
        "--disable-gpu",
        "--no-first-run",
        "--disable-background-networking",
        "--disable-component-update",
        "--disable-sync",
        f"--user-data-dir={room}/browser",
        f"--host-resolver-rules=MAP {host} 127.0.0.1:{port}, MAP * ~NOTFOUND",
        "--window-size=800,600",
    ]
    if os.getuid() == 0:
        line.append("--no-sandbox")
    # A container may have no /dev/shm, and a proxy of the environment is not asked.
    return line + ["--disable-dev-shm-usage", "--no-proxy-server"]


class Page:
    """One page in a browser, which is asked over a pipe while the page runs."""

    def __init__(self, host, port, room):
        ours, theirs = os.pipe(), os.pipe()
        self.answers, self.questions = theirs[0], ours[1]
        move = f'exec 3<&{ours[0]} 4>&{theirs[1]}; exec "$@"'
        line = ["sh", "-c", move, "sh", *words(host, port, room), "--remote-debugging-pipe", "about:blank"]
        quiet = subprocess.DEVNULL
        self.process = subprocess.Popen(line, stdin=quiet, stdout=quiet, stderr=quiet, pass_fds=(ours[0], theirs[1]))
        os.close(ours[0])
        os.close(theirs[1])
        self.number, self.left, self.session, self.events = 0, b"", None, []
        target = self.ask("Target.createTarget", url="about:blank")["targetId"]
        self.session = self.ask("Target.attachToTarget", targetId=target, flatten=True)["sessionId"]

    def ask(self, method, **values):
        self.number += 1
        question = {"id": self.number, "method": method, "params": values}
        if self.session:
            question["sessionId"] = self.session
        os.write(self.questions, json.dumps(question).encode() + b"\0")
        end = time.monotonic() + TIME_LIMIT
        while True:
            message = self.message(end)
            if message.get("id") == self.number:
                if "error" in message:
                    raise Broken(f"{method}: {message['error']}")
                return message["result"]
            if "method" in message:
                self.events.append((message["method"], message["params"]))

    def message(self, end):
        """The next message of the browser."""
        while b"\0" not in self.left:
            if not select.select([self.answers], [], [], max(0, end - time.monotonic()))[0]:
                raise Broken("the browser does not answer")
            piece = os.read(self.answers, 65536)
            if not piece:
                raise Broken("the browser has ended")
            self.left += piece
        first, _, self.left = self.left.partition(b"\0")
        return json.loads(first)

    def open(self, address):
        self.ask("Page.navigate", url=address)

    def value(self, expression):
        """What an expression is in the page; None where it fails, as while a page loads."""
        answer = self.ask("Runtime.evaluate", expression=expression, returnByValue=True)
        return None if "exceptionDetails" in answer else answer["result"].get("value")

    def view(self, address, settled="document.readyState === 'complete'"):
        """Opens a page, and gives what came over the network for it: the paths, and all bytes of head and body.

        What the browser has kept comes from nowhere, and has no byte."""
        self.ask("Network.enable")
        self.events.clear()
        self.open(address)
        self.wait_for(settled)
        before = -1
        while len(self.events) != before:
            before = len(self.events)
            time.sleep(0.7)
            self.value("1")
        urls = {told["requestId"]: told["request"]["url"] for name, told in self.events if name == "Network.requestWillBeSent"}
        ended = [told for name, told in self.events if name == "Network.loadingFinished"]
        fetched = [told for told in ended if told["encodedDataLength"] and told["requestId"] in urls]
        return [urls[told["requestId"]] for told in fetched], sum(int(told["encodedDataLength"]) for told in fetched)

    def wait_for(self, expression, seconds=TIME_LIMIT):
        """The first value of an expression that counts as true, or the last one when the time is over."""
        end = time.monotonic() + seconds
        value = self.value(expression)
        while not value and time.monotonic() < end:
            time.sleep(0.1)
            value = self.value(expression)
        return value

    def __enter__(self):
        return self

    def __exit__(self, *_):
        for end in (self.questions, self.answers):
            os.close(end)
        try:
            self.process.wait(10)
        except subprocess.TimeoutExpired:
            self.process.kill()
            self.process.wait()
