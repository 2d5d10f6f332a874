"""What stands in front of a server in tests: nginx and Caddy, each by a configuration of deploy/ or of a document."""

import contextlib
import os
import shutil
import socket
import subprocess
import time
from pathlib import Path

from host import Broken

# What a site of Caddy needs in a test: no port for its own use, and no certificates.
GLOBAL = "{\n\tadmin off\n\tauto_https off\n}\n"


def has(part, tool, does):
    """Whether a tool is there; where it is not, what it does is skipped."""
    if shutil.which(tool):
        return True
    part.skip(f"there is no {tool}, which {does}")
    return False


@contextlib.contextmanager
def started(part, words, port):
    """A process that listens there, after at most ten seconds, and that is ended behind the block."""
    said = part.path("said")
    with open(said, "wb") as told:
        given = {**os.environ, "HOME": str(part.room)}
        process = subprocess.Popen(words, stdin=subprocess.DEVNULL, stdout=told, stderr=told, env=given)
    try:
        end = time.monotonic() + 10
        while not is_listening(port):
            if process.poll() is not None or time.monotonic() > end:
                raise Broken(f"{words[0]} did not start: {Path(said).read_text()}")
            time.sleep(0.05)
        yield process
    finally:
        process.terminate()
        process.wait(10)


def is_listening(port):
    try:
        socket.create_connection(("127.0.0.1", port)).close()
        return True
    except OSError:
        return False


def of_sites(part, sites):
    """A whole configuration of nginx with a file of its conf.d; the replies that it keeps go into the part's folder."""
    sites = sites.replace("/var/cache/docs_host_replies", part.path("replies"))
    Path(part.path("sites.conf")).write_text(sites)
    return f"events {{}}\nhttp {{\n    include {part.path('sites.conf')};\n}}\n"


def nginx(part, text, port):
    """nginx by a whole configuration that listens there: what it writes goes into the part's folder."""
    os.chmod(part.room, 0o755)
    own = "".join(f"{kind}_temp_path {part.room}/{kind};" for kind in ("client_body", "proxy", "fastcgi", "uwsgi", "scgi"))
    conf = Path(part.path("nginx.conf"))
    conf.write_text(text.replace("http {\n", f"http {{\n    access_log off; {own}\n", 1))
    more = f"daemon off; pid {part.room}/nginx.pid; error_log {part.room}/nginx.log;" + " user root;" * (os.getuid() == 0)
    words = ["nginx", "-e", part.path("nginx.log"), "-c", conf, "-g", more]
    ended = subprocess.run([*words, "-t"], stdin=subprocess.DEVNULL, capture_output=True, encoding="utf-8", timeout=60)
    part.check("nginx -t", ended.returncode == 0 and "[warn]" not in ended.stderr, ended)
    return started(part, words, port)


def caddy(part, site, port):
    """Caddy with a site that listens there."""
    Path(part.path("Caddyfile")).write_text(GLOBAL + site)
    return started(part, ["caddy", "run", "--config", part.path("Caddyfile"), "--adapter", "caddyfile"], port)
