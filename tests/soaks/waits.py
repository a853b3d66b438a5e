"""A thousand sessions in a `wait` at once: all have their reply after one `pub`, and what they cost meanwhile is little."""

import time

from hubs import Hub

SESSIONS, WAITS = 1_024, 1_000
# So many files the hub may open: two for each session, and more.
FILES = 4_096
# At most so many KiB of the hub's memory a session.
MEMORY = 120
# A session that waits looks by itself twice a second, and sleeps between. So often a second it may wake at most: a hub that looks
# four times a second wakes it more often. A busy machine wakes nobody more often.
WAKES = 3
# So much of a processor the hub may use at most. What a wake costs is the machine's, and the short form is beside other tests. So
# it only asks that the hub doesn't spin.
SHARE, ROUGHLY = 0.02, 0.25
# How often the cost is measured. The first measure that is low enough counts, since some sessions may begin their wait late.
TRIES = 3


def cost(hub, seconds):
    """How often a second each session wakes, and what part of a processor the hub uses, over so many seconds at least. (It takes a
    while to count the wakes of so many threads. They are counted from the first one's on.)"""
    begun, used, woke = time.monotonic(), hub.processor_time(), hub.switches()
    time.sleep(seconds)
    woke, used = hub.switches() - woke, hub.processor_time() - used
    took = time.monotonic() - begun
    return woke / took / WAITS, used / took


def check_cost(hub, report, is_long):
    """Looks at what the sessions cost while nothing happens."""
    seconds, most = (10, SHARE) if is_long else (3, ROUGHLY)
    for _ in range(TRIES):
        wakes, share = cost(hub, seconds)
        if wakes <= WAKES and share <= most:
            break
    print(f"soak: {WAITS} sessions in a wait for {seconds} s: each woke {wakes:.2f} times a second, and the hub used "
          f"{100 * share:.2f} % of a processor", flush=True)
    report.at_most("waits: wakes a second of each session", round(wakes, 2), WAKES)
    report.at_most("waits: of a processor", round(share, 4), most)


def check(program, folder, report, is_long):
    hub = Hub(program, f"{folder}/waits", "--sessions", str(SESSIONS), files=FILES)
    hub.told()
    other = hub.client()
    report.same("waits: a service", other.ask_each("svc db 64 1000 0", "pub db s"), ["ok", "ok 0"])
    before = hub.status("VmRSS")
    waiters = [hub.client() for _ in range(WAITS)]
    for waiter in waiters:
        waiter.send("wait all up 1000000 db")
    time.sleep(2)
    check_cost(hub, report, is_long)
    memory = hub.status("VmRSS")
    begun = time.monotonic()
    report.same("waits: the letter", other.ask("pub db u"), "ok 1")
    replies = [waiter.reply() for waiter in waiters]
    took = time.monotonic() - begun
    print(f"soak: {WAITS} sessions in a wait: {memory} KiB of memory, {memory - before} of them more than before; all had their reply "
          f"after {1000 * took:.0f} ms", flush=True)
    report.same("waits: all are answered", (len(replies), set(replies)), (WAITS, {"yes 2"}))
    report.at_most("waits: KiB of memory a session", memory / WAITS, MEMORY)
    for waiter in waiters:
        waiter.close()
    report.same("waits: nothing was told", hub.end(), "")
