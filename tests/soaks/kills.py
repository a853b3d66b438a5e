"""Clients that are killed at random moments, with subscriptions, listeners, publishers, waits and awaits, while four others
publish and take. Nothing is lost or doubled for the four, and in the end all room is free again."""

import heapq
import os
import random
import re
import signal
import tempfile
import time

from hubs import HANG_UP, PATIENCE, TROUBLE, Client, Hub, seen_by
from soaks.workers import Worker, started

# Four clients publish frames of so many letters: the client's own letter, and the frame's number.
STEADY, FRAME = "ABCD", 8
ALL_BEGUN, ALL_DONE = ([f"{sign}-{letter}" for letter in STEADY] for sign in ("begun", "done"))
# So many clients live at the same time, each for so many seconds at most.
ALIVE, LONGEST_LIFE = 24, 0.03
# A fifodir has room for so many subscriptions and publishers, and a session for so many handles.
ROOM, HANDLES = 1_024, 256
FIFODIRS = {
    "sure": "dir sure 4096 1000000000000", "web": "dir web 64 1000000000000 evict", "own": "dir own 4096 1000000000000",
    "idle": "svc idle 64 1000 0",
}
# What a client that is killed may do before its last line.
FIRST_LINES = ("sub web", "listen web repeat a.*b", "sub sure", "listen sure once Z", "pub own xyz", "pub web ab", "status idle",
               "sub own", "names 0", "take 1 9", "poll 2", "cancel 1")
LAST_LINES = ("wait all up 1000000 idle", "wait any up 1000000 idle idle", "sub idle\nawait 1 1000000", "status web")


def killed_client(path, seed):
    """Is a client that does this and that until it is killed. What it publishes to `sure` are whole frames."""
    dice = random.Random(seed)
    client = Client(path)
    for _ in range(dice.randrange(8)):
        client.send(dice.choice(FIRST_LINES) if dice.random() < 0.8 else f"pub sure V{dice.randrange(10**7):07}")
    client.send(dice.choice(LAST_LINES))
    time.sleep(60)


def kill_clients(path, count):
    """Starts so many clients, some at the same time, and kills each at a random moment. Returns how many had ended before."""
    dice, alive, ended = random.Random(11), [], 0
    for seed in range(count):
        life = dice.random() * LONGEST_LIFE
        heapq.heappush(alive, (time.monotonic() + life, started(lambda seed=seed: killed_client(path, seed))))
        while alive and (len(alive) >= ALIVE or alive[0][0] <= time.monotonic() or seed == count - 1):
            until, victim = heapq.heappop(alive)
            time.sleep(max(0, until - time.monotonic()))
            os.kill(victim, signal.SIGKILL)
            ended += not os.WIFSIGNALED(os.waitpid(victim, 0)[1])
        if seed % 1_000 == 999:
            print(f"soak: {seed + 1} clients were killed", flush=True)
    return ended


class Signs:
    """Files by which the processes tell each other how far they are."""

    def __init__(self, folder):
        self.folder = folder

    def give(self, *words):
        for word in words:
            open(f"{self.folder}/{word}", "x", encoding="ascii").close()

    def are_given(self, *words):
        return all(os.path.exists(f"{self.folder}/{word}") for word in words)

    def wait_for(self, *words):
        seen_by(lambda: self.are_given(*words))


def publish(client, letter, numbers):
    """Publishes the next frame, unless there is no room for it."""
    reply = client.ask(f"pub sure {letter}{len(numbers):07}")
    if reply != "no full":
        numbers.append(int(reply.removeprefix("ok ")))


def take(client, taken):
    """Takes what is pending, and returns whether there was anything."""
    reply = client.ask("take 1 256")
    if reply.startswith("got "):
        taken.append(reply[4:])
    elif reply != "none":
        raise ValueError(f"a take was answered {reply}")
    return reply != "none"


def steady_client(path, letter, signs):
    """Publishes frames and takes everything, until it is over and everything is taken. Returns the reply to its first line,
    the number at which each frame was published, and all that was taken."""
    client, numbers, taken = Client(path), [], []
    subscribed = client.ask("sub sure")
    signs.give(f"begun-{letter}")
    signs.wait_for(*ALL_BEGUN)
    while not signs.are_given("over"):
        publish(client, letter, numbers)
        take(client, taken)
    signs.give(f"done-{letter}")
    while not signs.are_given(*ALL_DONE) or take(client, taken):
        take(client, taken)
    client.close()
    return subscribed, numbers, "".join(taken)


def judge(report, results, total):
    """All four took the same letters, which are all that were published. They are frames: at its number each frame that was
    published, and nothing else but whole frames of killed clients."""
    report.same("kills: the four ended, and each subscribed", [it and it[0] for it in results], ["ok 1"] * len(STEADY))
    if None in results:
        return
    taken = results[0][2]
    report.same("kills: the four took the same", [it[2] == taken for it in results], [True] * len(STEADY))
    report.same("kills: that is all there was", len(taken), total)
    wrong = [(letter, number) for letter, (_, numbers, _) in zip(STEADY, results) for place, number in enumerate(numbers)
             if taken[number:number + FRAME] != f"{letter}{place:07}"]
    report.same("kills: each frame is at its number", wrong, [])
    mine = sum(len(numbers) for _, numbers, _ in results)
    frames = [taken[at:at + FRAME] for at in range(0, len(taken), FRAME)]
    report.same("kills: each once", sum(it[0] in STEADY for it in frames), mine)
    report.same("kills: the others are whole", [it for it in frames if not re.fullmatch(r"[A-DV]\d{7}", it)], [])
    print(f"soak: the four published {mine} frames and the killed clients {len(frames) - mine}, and each of the four took "
          f"{len(taken)} letters", flush=True)


def check_room(hub, report):
    """Sessions, subscriptions and publishers are free, as many as there may be."""
    clients = [hub.client() for _ in range(ROOM)]
    for name in FIFODIRS:
        for client in clients:
            client.send(f"status {name}")
        replies = [client.reply().split()[0] for client in clients]
        report.same(f"kills: publishers of {name}", (replies.count("ok"), len(replies)), (ROOM, ROOM))
        full = clients[:ROOM // HANDLES]
        handles = [client.ask_at_once([f"sub {name}"] * HANDLES) for client in full]
        report.same(f"kills: subscriptions at {name}", sum(it.startswith("ok ") for each in handles for it in each), ROOM)
        report.same(f"kills: and no more at {name}", clients[-1].ask(f"sub {name}"), "no many")
        for client, given in zip(full, handles):
            client.ask_at_once([f"cancel {it.removeprefix('ok ')}" for it in given])
    for client in clients:
        client.close()


def check(program, folder, report, is_long):
    count = 10_000 if is_long else 800
    hub = Hub(program, f"{folder}/kills", "--sessions", str(ROOM), files=4 * ROOM)
    hub.told()
    maker = hub.client()
    report.same("kills: the fifodirs", maker.ask_each(*FIFODIRS.values()), ["ok"] * len(FIFODIRS))
    signs = Signs(tempfile.mkdtemp(dir=folder))
    steady = [Worker(f"{folder}/kills-{it}", lambda it=it: steady_client(hub.path, it, signs)) for it in STEADY]
    signs.wait_for(*ALL_BEGUN)
    begun, descriptors = time.monotonic(), hub.descriptors()
    early = kill_clients(hub.path, count)
    print(f"soak: {count} clients were killed in {time.monotonic() - begun:.0f} s", flush=True)
    report.same("kills: clients that ended by themselves", early, 0)
    # (then nobody publishes but the four)
    report.same("kills: all their sessions have ended", seen_by(lambda: hub.descriptors() <= descriptors), True)
    signs.give("over")
    results = [it.result(time.monotonic() + 2 * PATIENCE) for it in steady]
    judge(report, results, int(maker.ask("status sure").split()[1]))
    maker.close()
    seen_by(lambda: hub.descriptors() <= descriptors - 1 - len(STEADY))
    check_room(hub, report)
    time.sleep(0.5)
    lines = hub.end().splitlines()
    wrong = [it for it in lines if not HANG_UP.fullmatch(it) and not TROUBLE.fullmatch(it)]
    report.same("kills: only hang-ups were told, and fifodirs in trouble", wrong, [])
