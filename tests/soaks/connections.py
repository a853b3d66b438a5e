"""Connections one after the other: the hub's memory afterwards is as after the first thousand, and it serves as many in a second
as Redis answers a PING to. (A thread takes memory for its first session, and keeps it. So the first of these connections come at
the same time, one for each thread.)"""

import atexit
import os
import shutil
import subprocess

from hubs import Hub, seen_by

BENCH = f"{os.path.dirname(os.path.dirname(os.path.dirname(os.path.realpath(__file__))))}/bench"
# So many sessions the hub may have at the same time.
SESSIONS = 64
# So many connections come before memory is looked at first, and how many KiB more it may be in the end.
FIRST, MORE_MEMORY = 1_000, 1_024
# It has to serve so many times as many connections as Redis. The short form is beside other tests, and asks for less.
AS_MANY, ROUGHLY = 1, 0.6
# Each server has its turn so often. Its best turn counts, and the best of so many rounds, since others use the processors too.
TURNS, ROUNDS = 10, 3


def compiled(folder):
    """The client in C, or None if there is no compiler."""
    if shutil.which("cc") is None:
        return None
    files = [f"{BENCH}/visit.c", f"{BENCH}/common.c"]
    subprocess.run(["cc", "-O2", "-pthread", *files, "-o", f"{folder}/visit"], check=True)
    return f"{folder}/visit"


class Redis:
    """A server of Redis on a socket of its own."""

    def __init__(self, folder):
        self.path = f"{folder}/redis"
        words = ["--port", "0", "--unixsocket", self.path, "--save", "", "--appendonly", "no", "--dir", folder]
        self.process = subprocess.Popen(["redis-server", *words], stdout=subprocess.DEVNULL)
        atexit.register(self.end)
        seen_by(lambda: os.path.exists(self.path), of=self.process)

    def end(self):
        self.process.kill()
        self.process.wait()


def visit(words):
    """Makes the connections, and returns how many there were in a second."""
    return float(subprocess.run(words, stdout=subprocess.PIPE, check=True, timeout=100).stdout)


def visit_in_turn(client, hub, redis, count):
    """Has the hub and Redis be visited so often in each of their turns, and returns the best of both. Without Redis, its best is 0."""
    ours, theirs = [], [0]
    for _ in range(TURNS):
        ours.append(visit([client, "hub", str(count), hub.path]))
        if redis is not None:
            theirs.append(visit([client, "redis", str(count), redis.path]))
    return max(ours), max(theirs)


def check(program, folder, report, is_long):
    client = compiled(folder)
    if client is None:
        print("soak: there is no C compiler, so connections one after the other are left out")
        return
    count, least = ((100_000 if is_long else 20_000) - FIRST) // TURNS, AS_MANY if is_long else ROUGHLY
    hub = Hub(program, f"{folder}/connections", "--sessions", str(SESSIONS))
    hub.told()
    first = [hub.client() for _ in range(SESSIONS)]
    report.same("connections: a fifodir", first[0].ask("svc web 64 1000 0"), "ok")
    report.same("connections: at the same time", {it.ask("status web") for it in first}, {"ok 0 0 open"})
    for it in first:
        it.close()
    redis = Redis(folder) if shutil.which("redis-server") else None
    visit([client, "hub", str(FIRST - SESSIONS), hub.path])
    memory = hub.status("VmRSS")
    for rounds in range(1, 1 + ROUNDS):
        ours, theirs = visit_in_turn(client, hub, redis, count)
        if ours >= least * theirs:
            break
    grown = hub.status("VmRSS") - memory
    print(f"soak: {FIRST + rounds * TURNS * count} connections one after the other, at best {ours:,.0f} a second; after {FIRST} of them the "
          f"hub had {memory} KiB, and in the end {grown} KiB more", flush=True)
    report.at_most("connections: it grew by KiB", grown, MORE_MEMORY)
    report.same("connections: nothing was told", hub.end(), "")
    if redis is None:
        print("soak: there is no redis-server, so the comparison with Redis is left out")
        return
    redis.end()
    print(f"soak: Redis had at best {theirs:,.0f} a second", flush=True)
    report.add("connections: as many a second as Redis",
               None if ours >= least * theirs else f"{ours / theirs:.2f} times, and {least} is wanted")
