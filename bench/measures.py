"""What bench/run measures: each measure takes the table, the programs and how often it is repeated."""

import re
import subprocess

from contenders import compare, compare_delays, repeated, run
from example_rows import example_rows
from programs import BENCH, Failed, Missing, say
from servers import server_words
from table import asked_as, counted

KINDS = ["pub", "take", "status", "mixed"]
PARTS = 100
CLIENTS = 16
PARTS_TOGETHER = 10
LINES = 1_000_000
TURNS = 1_900
# At depth 128 so many clients publish, and each sends so many lines before it reads their replies.
DEPTH_CLIENTS = 4
DEPTH = 128
PARTS_DEEP = 40
# So many sessions wait for a message, and so often. A hub's sessions are at most 64, and one of them publishes.
WAITERS = [1, 16, 63]
WAKES = 40
CALLS = 40
# So many take everything that one client publishes, in so many messages of so many letters.
TAKERS = [16, 64]
MESSAGES = {1: 10_000, 256: 2_000}
# What is asked of the letters a second that takers of messages of so many letters have, beside subscribers of Redis.
BESIDE_REDIS = {1: 2.0, 256: 1.0}
# The most takers that a hub has room for: one of its 1,024 sessions publishes. They take so many messages of one letter.
MOST_TAKERS = 1_023
MESSAGES_TO_MOST = 4_000
# So many sessions wait for a service with room for so many letters, while one client publishes to it, so many lines at once. What is
# asked of its letters a second, beside a service for which nobody waits, and how many may be refused as full.
CROWD = 1_000
CROWDS = {(1, 64): (0.3, 0), (128, 4_096): (None, None)}
# So many sessions wait for other services while one client publishes.
WAITS = 60
# So many sessions wait for so many names each, so many seconds.
SLEEPERS = 64
NAMES = [1, 32]
SECONDS = 10
# At most so many KiB of memory a hub has for each session that waits.
MOST_MEMORY = 120
# The lines of `hub_bench record`: for so many subscriptions and bursts of so many letters, the least ratio that is asked.
RECORDS = {(1, 1): 0.5, (4, 1): 0.4, (16, 1): 0.4, (1, 256): None, (4, 256): None, (16, 256): None}
BURSTS = re.compile(r"(\d+) listeners, bursts of (\d+): (\d+) letters a second, through a vector (\d+)")


def plain_words():
    """The words of requests that the plain hub has."""
    found = re.search(r"const WORDS: [^=]*= \[([^\]]*)\]", (BENCH / "plain_hub" / "request.rs").read_text(encoding="utf-8"))
    return set(re.findall(r'"(\w+)"', found[1])) if found else set()


def has_words(row, words):
    """Whether each line of the row that begins with the word of a request begins with one of these. Other lines get one of
    three refusals."""
    pairs = zip(row.given.split(b"\n"), row.replies.split(b"\n"))
    others = {b"no long", b"no text", b"no word"}
    return all(reply in others or line.split(b" ")[0].decode() in words for line, reply in pairs if line or reply)


def check_contenders(table, programs, _rounds):
    """The plain hub is a fair contender where it answers as the proved one does, and the echo where it echoes. The plain hub
    answers the rows that have no other words than its own. The rows of readings have patterns that are none of its small kind."""
    rows = [row for row in example_rows() if "readings" not in row.name]
    what = "the plain Rust hub answers the rows of crates/hub_rows/data"
    try:
        plain = programs.get("plain")
        words = plain_words()
        known = [row for row in rows if has_words(row, words)]
        unlike = [row.name for row in known if answered([plain], row) != row.replies]
        figures = ", ".join(unlike) or ("" if len(known) == len(rows) else f"{len(rows) - len(known)} more have words that it hasn't")
        table.add(what, "all", f"{len(known) - len(unlike)} of {len(known)}", bool(words and known) and not unlike, figures)
    except Missing as why:
        table.lack(what, "all", why)
    what = "the echo gives back the rows of crates/hub_rows/data"
    try:
        echo = [programs.get("layers"), "echo"]
        unlike = [row.name for row in rows if answered(echo, row) != row.given]
        table.add(what, "all", f"{len(rows) - len(unlike)} of {len(rows)}", not unlike, ", ".join(unlike))
    except Missing as why:
        table.lack(what, "all", why)


def answered(words, row):
    return subprocess.run(words, input=row.given, stdout=subprocess.PIPE).stdout


def measure_pipe(table, programs, rounds):
    for kind in KINDS:
        say(f"one request at a time over a pipe: {kind}")

        def words(name, *more, kind=kind):
            return lambda: [programs.get("ask"), "pipe", kind, PARTS, programs.get(name), *more]

        compare(table, rounds, {
            "echo": (f"pipe, {kind}: script / bare proved line echo", 0.8),
            "plain": (f"pipe, {kind}: script / plain Rust hub", 1.0),
        }, {"script": words("hub", "script"), "echo": words("layers", "echo"), "plain": words("plain")})


def measure_feed(table, programs, rounds):
    for kind in KINDS:
        what = f"a million lines, {kind}: user time a line"
        say(what)
        try:
            front = [programs.get("feed"), kind, LINES]
            results = {"script": [*front, programs.get("hub"), "script"]}
            try:
                results["plain"] = [*front, programs.get("plain")]
            except Missing:
                pass
            contenders = {name: lambda words=words: run(words) for name, words in results.items()}
            results = repeated(rounds, contenders)
        except Missing as why:
            table.lack(what, "< 1.50 us", why)
            continue
        users = {name: min(float(words[0]) for words in runs) for name, runs in results.items()}
        figures = ", ".join(f"{name} {user:.2f} us" for name, user in users.items())
        alike = len({words[2] for runs in results.values() for words in runs}) == 1
        if not alike:
            figures += ", and THEIR REPLIES DIFFER"
        table.add(what, "< 1.50 us", f"{users['script']:.2f} us", alike and users["script"] < 1.5, figures)


def over_socket(programs, kind, clients, parts, name, depth=1):
    """The words that measure how many requests a server answers, one at a time. Many at once are for a hub that serves for ever."""
    def found():
        server = server_words(programs, name, clients, forever=depth > 1)
        return [programs.get("ask"), "socket", kind, clients, depth, parts, *server]
    return found


def measure_socket(table, programs, rounds):
    for kind in KINDS:
        say(f"one request at a time over a Unix socket: {kind}")
        contenders = {name: over_socket(programs, kind, 1, PARTS, name) for name in ("serve", "ok_server")}
        asked = {"ok_server": (f"socket, {kind}: serve / C server that answers `ok 1`", 0.9)}
        if kind == "pub":
            contenders["redis"] = over_socket(programs, "redis", 1, PARTS, "redis")
            asked["redis"] = ("socket, pub: serve / Redis' PUBLISH", 1.0)
        compare(table, rounds, asked, contenders)
    for kind, where in (("mixed", "a fifodir each"), ("shared", "`pub` to one fifodir")):
        say(f"{CLIENTS} clients at once: {where}")
        many, one = f"{CLIENTS} clients", "1 client"
        compare(table, rounds, {one: (f"socket, {where}: {many} together / {one}", 1.0)}, {
            many: over_socket(programs, kind, CLIENTS, PARTS_TOGETHER, "serve"),
            one: over_socket(programs, kind, 1, PARTS, "serve"),
        })


def measure_beside(table, programs, rounds):
    what = f"socket, pub: while {WAITS} sessions wait / alone"
    say(what)

    def waited():
        server = server_words(programs, "serve", WAITS + 1)
        return [programs.get("ask"), "beside", "pub", WAITS, 1, PARTS, *server]

    compare(table, rounds, {"alone": (what, 0.95)}, {
        "beside": waited, "alone": over_socket(programs, "pub", 1, PARTS, "serve"),
    })


def measure_depth(table, programs, rounds):
    many = f"socket, depth {DEPTH}, {DEPTH_CLIENTS} clients"
    say(many)
    one, each = "one fifodir", "a fifodir each"
    compare(table, rounds, {each: (f"{many}: {one} / {each}", 0.7)}, {
        one: over_socket(programs, "shared", DEPTH_CLIENTS, PARTS_DEEP, "serve", DEPTH),
        each: over_socket(programs, "own", DEPTH_CLIENTS, PARTS_DEEP, "serve", DEPTH),
    })
    what = f"socket, depth {DEPTH}, pub: serve / "
    compare(table, rounds, {
        "redis": (f"{what}Redis' PUBLISH", 1.5),
        "nats": (f"{what}NATS' PUB, each acknowledged", 1.0),
        "nats-pings": (f"{what}NATS' PUB, a PING behind {DEPTH}", None),
    }, {
        "serve": over_socket(programs, "own", 1, PARTS_DEEP, "serve", DEPTH),
        "redis": over_socket(programs, "redis", 1, PARTS_DEEP, "redis", DEPTH),
        "nats": over_socket(programs, "nats", 1, PARTS_DEEP, "nats", DEPTH),
        "nats-pings": over_socket(programs, "nats-pings", 1, PARTS_DEEP, "nats", DEPTH),
    })


def measure_wake(table, programs, rounds):
    def sessions(kind, name, count):
        return lambda: [programs.get("wake"), kind, count, WAKES, *server_words(programs, name, count + 1)]

    for count in WAITERS:
        what = f"wake, {counted(count, 'waiter')}: `wait` / Redis' SUBSCRIBE"
        contenders = {"serve": sessions("hub", "serve", count), "redis": sessions("redis", "redis", count)}
        compare_delays(table, rounds, what, 1.2, contenders)
    for kind, name, most in (("next", "`next`", 1.2), ("await", "`await`, then `poll`", 1.5)):
        what = f"wake, 1 listener: {name} / Redis' SUBSCRIBE"
        compare_delays(table, rounds, what, most, {"serve": sessions(kind, "serve", 1), "redis": sessions("redis", "redis", 1)})
    fifodir = f"{programs.work}/fifodir"

    def call():
        return [programs.get("wake"), "call", CALLS, *server_words(programs, "serve", CALLS + 1)]

    def listener():
        programs.get("ftrig")
        subprocess.run(["s6-mkfifodir", "-f", fifodir], check=True)
        return [programs.get("wake"), "ftrig", CALLS, fifodir]

    compare_delays(table, rounds, "wake, as processes: `call` / `s6-ftrig-wait`", 1, {"call": call, "s6-ftrig-wait": listener})


def fan_words(programs, name, takers, messages, size):
    """The words by which many take everything that one client publishes. (64 of them and it are more than `serve` has without
    --forever.)"""
    kind = "hub" if name == "serve" else name
    return lambda: [programs.get("fan"), kind, takers, messages, size, *server_words(programs, name, takers + 1, forever=True)]


def measure_fan(table, programs, rounds):
    """One client publishes, and many take everything."""
    for takers in TAKERS:
        for size in MESSAGES:
            what = f"fan-out, {takers} takers, messages of {counted(size, 'letter')}"
            say(what)
            names = ["serve", "redis", "nats", "mosquitto"]
            compare(table, rounds, {
                "redis": (f"{what}: serve / Redis' SUBSCRIBE", BESIDE_REDIS[size]),
                "nats": (f"{what}: serve / NATS' SUB", 1.0),
                "mosquitto": (f"{what}: serve / mosquitto", 1.0),
            }, {name: fan_words(programs, name, takers, MESSAGES[size], size) for name in names})


def measure_many(table, programs, rounds):
    """As many take everything as a hub has room for."""
    what = f"fan-out, {MOST_TAKERS:,} takers, messages of 1 letter"
    say(what)
    names = ["serve", "redis"]
    compare(table, rounds, {"redis": (f"{what}: serve / Redis' SUBSCRIBE", 1.0)},
            {name: fan_words(programs, name, MOST_TAKERS, MESSAGES_TO_MOST, 1) for name in names})


def measure_crowd(table, programs, rounds):
    """One client publishes to a service for which many sessions wait, or nobody."""
    for (depth, room), (least, full) in CROWDS.items():
        at = f"crowd, {CROWD:,} waits, W {room:,}, depth {depth}"
        what, refusals = f"{at}: `pub` / without waits", f"{at}: refused as full"
        say(at)
        try:
            words = {
                name: [programs.get("crowd"), waits, room, depth, *server_words(programs, "serve", CROWD + 1, forever=True)]
                for name, waits in (("with waits", CROWD), ("without", 0))
            }
            results = repeated(rounds, {name: lambda words=words: run(words) for name, words in words.items()})
        except Missing as why:
            table.lack_ratio(what, asked_as(">= {:.2f}", least), why)
            table.lack(refusals, asked_as("{}", full), why)
            continue
        rates = {name: max(float(rate) for rate, _ in runs) for name, runs in results.items()}
        table.add_rate(what, least, *rates.values(), list(rates))
        most = max(int(refused) for _, refused in results["with waits"])
        table.add(refusals, asked_as("{}", full), f"{most:,}", None if full is None else most <= full, "in the worst run")


def measure_turns(table, programs, rounds):
    """Two threads answer each other's letters: a receive of the library, and a mutex with a condition variable."""
    what, most = "library: `receive` / a condition variable, there and back", 1.5
    say(what)
    try:
        words = {"receive": [programs.get("layers"), "turns"], "condvar": [programs.get("turns")]}
        results = repeated(rounds, {name: lambda words=words: run(words) for name, words in words.items()})
    except Missing as why:
        table.lack_ratio(what, f"<= {most:.2f}", why)
        return
    ours, theirs = (min(float(it[0]) for it in results[name]) for name in words)
    table.add_time(what, most, ours, theirs, f"receive {ours:,.0f} ns a round, condvar {theirs:,.0f} ns")


def measure_record(table, programs, rounds):
    """A record by itself. Each run of hub_bench measures it and the same loop over a plain vector, for all rows."""
    say("a record by itself")
    whats = {
        (listeners, burst): f"record, bursts of {counted(burst, 'letter')} to {counted(listeners, 'subscription')}: record / plain vector"
        for listeners, burst in RECORDS
    }
    best = {key: (0, 0) for key in RECORDS}
    try:
        words = [programs.get("layers"), "record"]
        for _ in range(rounds):
            for listeners, burst, *rates in BURSTS.findall(" ".join(run(words))):
                key = int(listeners), int(burst)
                best[key] = tuple(max(pair) for pair in zip(best[key], map(float, rates)))
    except Missing as why:
        for key, least in RECORDS.items():
            table.lack_ratio(whats[key], asked_as(">= {:.2f}", least), why)
        return
    for key, least in RECORDS.items():
        table.add_rate(whats[key], least, *best[key], ("record", "vector"))


def measure_idle(table, programs, rounds):
    for names in NAMES:
        what = f"idle, {SLEEPERS} waits for {counted(names, 'name')} each: processor time / time"
        asked = "<= 1.00 %"
        say(what)

        def words(kind, name, names=names):
            return [programs.get("sleepers"), kind, SLEEPERS, names, SECONDS, 1, *server_words(programs, name, SLEEPERS)]

        try:
            ours = float(run(words("hub", "serve"))[0])
            beside = f", {SLEEPERS} Redis subscribers {float(run(words('redis', 'redis'))[0]) * 100:.2f} %"
        except Failed as why:
            table.lack(what, asked, why)
            continue
        except Missing as why:
            beside = f", {why}"
        table.add(what, asked, f"{ours * 100:.2f} %", ours <= 0.01, f"{SECONDS} s{beside}")


def measure_memory(table, programs, rounds):
    """Memory while many sessions wait, which have sent a line each, or many at once."""
    for lines in (1, DEPTH):
        what = f"memory, {CROWD:,} waits, each after {counted(lines, 'line')}{' at once' * (lines > 1)}: KiB a session"
        asked = f"<= {MOST_MEMORY}"
        say(what)
        try:
            server = server_words(programs, "serve", CROWD, forever=True)
            runs = [run([programs.get("sleepers"), "hub", CROWD, 1, 1, lines, *server]) for _ in range(rounds)]
        except Missing as why:
            table.lack(what, asked, why)
            continue
        most = max(float(kib) for _, kib in runs)
        table.add(what, asked, f"{most:.1f}", most <= MOST_MEMORY, "in the worst run")


def measure_wait(table, programs, rounds):
    what, asked = "a session that waits: processor time / time", "< 1.00 %"
    say(what)
    try:
        words = [programs.get("idle"), TURNS, *server_words(programs, "serve", 1)]
        naps = [programs.get("naps"), TURNS]
        results = repeated(rounds, {"serve": lambda: run(words), "naps": lambda: run(naps)})
    except Missing as why:
        table.lack(what, asked, why)
        return
    best = {name: min((float(share), float(took)) for share, took in runs) for name, runs in results.items()}
    share, took = best["serve"]
    table.add(what, asked, f"{share * 100:.2f} %", share < 0.01,
              f"{TURNS} turns in {took:.2f} s; so many bare naps of 1 ms: {best['naps'][0] * 100:.2f} %")


MEASURES = {
    "rows": check_contenders, "pipe": measure_pipe, "feed": measure_feed, "socket": measure_socket, "beside": measure_beside,
    "depth": measure_depth, "fan": measure_fan, "many": measure_many, "crowd": measure_crowd, "wake": measure_wake,
    "turns": measure_turns, "record": measure_record, "wait": measure_wait, "idle": measure_idle,
    "memory": measure_memory,
}
