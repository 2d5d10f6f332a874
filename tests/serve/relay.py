"""What stands between bin/publish and a server, so that a test can count, stop and refuse: for tests/serve/run."""

import http.server
import json
import threading

import host as hosts


class Relay(http.server.ThreadingHTTPServer):
    """Hands each request on to a server and its reply back; knows the pages of each upload that was handed on.

    `instead` is asked first, with the path and the number of pages; where it gives bytes, these are
    the reply. Of so many uploads as `lost` says the server's answer is kept back."""

    daemon_threads = True

    def __init__(self, port, instead=lambda path, pages: None, lost=0):
        super().__init__(("127.0.0.1", 0), Handler)
        self.port, self.instead, self.lost = port, instead, lost
        self.uploads, self.asked = [], []
        self.url = f"http://127.0.0.1:{self.server_address[1]}"

    def __enter__(self):
        threading.Thread(target=self.serve_forever, daemon=True).start()
        return self

    def __exit__(self, *_):
        self.shutdown()
        self.server_close()


class Handler(http.server.BaseHTTPRequestHandler):
    def hand_on(self):
        relay = self.server
        body = self.rfile.read(int(self.headers.get("Content-Length", 0)))
        pages = len(json.loads(body)["pages"]) if self.path == "/_/upload" else 0
        relay.asked.append(f"{self.command} {self.path}")
        reply = relay.instead(self.path, pages)
        if reply is None:
            head = f"{self.command} {self.path} HTTP/1.1\n{self.headers}".replace("\n", "\r\n")
            reply = hosts.ask(relay.port, head.encode() + body)
            if pages:
                relay.uploads.append(pages)
            if pages and relay.lost:
                relay.lost, reply = relay.lost - 1, b""
        self.wfile.write(reply)
        self.close_connection = True

    do_GET = do_POST = hand_on

    def log_message(self, *_):
        pass


def reply_bytes(status, body=b"", *lines):
    head = "".join(f"{line}\r\n" for line in (f"HTTP/1.1 {status} x", f"Content-Length: {len(body)}", *lines))
    return head.encode() + b"\r\n" + body
