"""A server that is killed at random moments while it is pushed to: the part `kills` of tests/serve/run.

Of the pushes that were answered none is lost, and nothing is there that was not asked for. SEED repeats a run."""

import os
import random
import time

import host as hosts
from host import Pushes, make, versions
from parts import HOST, KEY

KILLS = 50


def kills(part):
    store = part.path("kills.docs")
    make(part.program, store, f"new-project {HOST} en main public {KEY}", f"add-rule {HOST} 1 tag all activate")
    seed = int(os.environ.get("SEED", time.time()))
    print(f"    SEED={seed}", flush=True)
    chance = random.Random(seed)
    answered, asked, first = set(), set(), 0
    with part.serve(store) as server:
        begun = time.monotonic()
        server.post("/_/push", HOST, "no", {"key": "k", "kind": "tag", "ref": "1"})
        window = max(0.15, 10 * (time.monotonic() - begun))
    for number in range(KILLS):
        server = part.serve(store, 1000000)
        there = versions(server, HOST)
        part.check(f"kill {number}: what was answered is there", answered <= there, sorted(answered - there))
        part.check(f"kill {number}: and nothing that was not asked for", there <= asked, sorted(there - asked))
        pushes = Pushes(server, HOST, KEY, first)
        pushes.start()
        time.sleep(chance.uniform(0, window))
        server.kill()
        pushes.join(hosts.TIME_LIMIT)
        part.check(f"kill {number}: no push was refused", pushes.wrong is None, pushes.wrong)
        first = pushes.next
        answered |= set(pushes.answered)
        asked |= set(pushes.asked)
    with part.serve(store) as server:
        there = versions(server, HOST)
        part.check("after the last kill", answered <= there <= asked, len(there))
        print(f"    {KILLS} kills, {len(answered)} pushes answered, {len(there)} there, none lost", flush=True)
