"""The clients of a hub under load. Each is a role, which goes from session to session until its time is over, and keeps a log
of what it saw. What a reply has to be whatever the others do is looked at here."""

import time
from collections import Counter, defaultdict

from hubs import Client, seen_by
from soaks.model import code_after, told

# Fifodirs that hold publishers up, and fifodirs that evict; services of both kinds, and whether they report readiness.
PLAIN = {"p0": "4096 1000000000000", "p1": "64 1000000000000", "p2": "4096 1000000000000 evict", "p3": "64 1000000000000 evict"}
SERVICES = {"s0": "64 1000000000000 1", "s1": "64 1000000000000 0", "s2": "8 1000000000000 1 evict",
            "s3": "8 1000000000000 0 evict"}
REPORTS = {name: words.split()[2] == "1" for name, words in SERVICES.items()}
# As many more as a hub may have names. They are small, and come to their ends.
SMALL = [f"t{at}" for at in range(256 - len(PLAIN) - len(SERVICES))]
ROOM, TOTAL = 16, 200
# What a listener waits for: the end of a message whose number ends in 0.
PATTERN = r"0\.*;"
WANTS = ("up", "ready", "down", "finished", "restarted", "restarted-ready")
STATES, WILLS = ("off", "down", "up", "ready", "failed"), ("off", "down", "failed")
NEXT_LETTERS = {"s": "u", "u": "Ud", "U": "d", "d": "D", "D": "u", "x": ""}


def make_line(name):
    """The line that makes a small fifodir."""
    return f"dir {name} {ROOM} {TOTAL}"


class Log:
    """What a client saw."""

    def __init__(self):
        self.requests = self.sessions = self.taken = self.tells = self.wills = 0
        self.faults, self.stretches, self.hits, self.waits, self.listings, self.statuses = [], [], [], [], [], []
        self.messages = defaultdict(list)
        self.made, self.closed = Counter(), Counter()

    def keep(self, name, number, run):
        """Keeps the messages of a run, each of which was published just after the one before it, as one."""
        if run:
            self.messages[name].append((number, "".join(run)))

    def is_one_of(self, line, reply, *wanted):
        """Whether the reply is one of these. If it isn't, that is a fault."""
        if reply not in wanted:
            self.faults.append(f"{reply} to {line}")
        return reply in wanted


class Role:
    """A client that goes from session to session. Each session begins with a new connection."""

    def __init__(self, path, at, dice, until, tenth):
        self.path, self.at, self.dice, self.until, self.tenth = path, at, dice, until, tenth
        self.log, self.handles = Log(), 0

    def work(self):
        while time.monotonic() < self.until:
            self.client, self.handles = Client(self.path), 0
            self.log.sessions += 1
            self.serve()
            self.client.close()
        return self.log

    def goes_on(self, one_in):
        """Whether its session goes on; one time in so many it doesn't."""
        return time.monotonic() < self.until and self.dice.randrange(one_in) > 0

    def ask(self, *lines):
        self.log.requests += len(lines)
        return self.client.ask_at_once(lines)

    def number(self, name):
        """How many events a fifodir has."""
        (reply,) = self.ask(f"status {name}")
        word, number, code, _ = reply.split()
        if word != "ok":
            raise ValueError(f"{reply} to status")
        if name in SERVICES:
            self.log.statuses.append((name, int(number), int(code)))
        return int(number)

    def subscribe(self, line, *refusals):
        """Returns the new handle, which is the next number, or None if the line was refused so."""
        (reply,) = self.ask(line)
        if reply in refusals:
            return None
        self.handles += 1
        self.log.is_one_of(line, reply, f"ok {self.handles}")
        return self.handles

    def publish(self, name, texts, *refusals):
        """Publishes the texts, and returns how many were refused so."""
        replies = self.ask(*[f"pub {name} {text}" for text in texts])
        begun, end, run = 0, -1, []
        for text, reply in zip(texts, replies):
            if not reply.startswith("ok "):
                self.log.is_one_of(f"pub {name} {text}", reply, *refusals)
                continue
            if int(reply[3:]) != end:
                self.log.keep(name, begun, run)
                begun, run = int(reply[3:]), []
            run.append(text)
            end = int(reply[3:]) + len(text)
        self.log.keep(name, begun, run)
        return sum(not it.startswith("ok ") for it in replies)

    def cancel(self, handle):
        self.log.is_one_of("cancel", self.ask(f"cancel {handle}")[0], "ok")


class Publisher(Role):
    """Publishes messages, many lines at once. A message has the publisher's letter and its number."""

    count = 0

    def serve(self):
        name = list(PLAIN)[self.at % len(PLAIN)]
        letter = "ABCEFGHI"[self.at]
        while self.goes_on(one_in=200):
            numbers = range(self.count, self.count + self.dice.randrange(1, 33))
            self.count = numbers.stop
            texts = [f"{letter}{self.tenth}-{number}{'.' * (number % 7)};" for number in numbers]
            if self.publish(name, texts, *["no full"] * (not PLAIN[name].endswith("evict"))):
                time.sleep(0.001)


class Supervisor(Role):
    """Publishes the letters of a service, and now and then one that isn't lawful, or tells where the service is. It is the service's only
    publisher, and leaves it a will."""

    def serve(self):
        name, will = f"s{self.at}", self.dice.choice(("none", *WILLS))
        self.full = [] if SERVICES[name].endswith("evict") else ["no full"]
        self.stage, self.code = "x", int(self.ask(f"status {name}")[0].split()[2])
        # The code alone doesn't show the stage, so it begins with `s`, which may always follow.
        while self.publish(name, ["s"], *self.full):
            time.sleep(0.001)
        self.add("s")
        for state in ("failed", will):
            self.log.is_one_of("will", self.ask(f"will {name} {state}")[0], "ok")
        while self.goes_on(one_in=300):
            self.tell(name) if self.dice.random() < 0.3 else self.send(name)
            time.sleep(self.dice.random() / 100)
        if will != "none":
            self.end_with(name, will)

    def add(self, letters):
        """Keeps what the letters say."""
        for letter in letters:
            self.code = code_after(self.code, letter)
            self.stage = self.stage if letter == "O" else letter

    def tell(self, name):
        """Tells where the service is: what that publishes is the message."""
        state = self.dice.choice(STATES)
        word = told(state, self.stage, self.code)
        (reply,) = self.ask(f"tell {name} {state}")
        if reply.startswith("ok "):
            self.log.keep(name, int(reply[3:]), [word] if word else [])
            self.log.tells += 1
            self.add(word)
        else:
            self.log.is_one_of(f"tell {name} {state}", reply, *self.full)

    def end_with(self, name, state):
        """Ends the session. Its will is the last message, which a next session sees once it has found room."""
        number, word = self.number(name), told(state, self.stage, self.code)
        self.client.close()
        self.client = Client(self.path)
        if word:
            is_told = seen_by(lambda: self.number(name) > number)
            self.log.is_one_of(f"a will {state} of {name}", "told" if is_told else "not told", "told")
            self.log.keep(name, number, [word])
            self.log.wills += 1

    def send(self, name):
        """Publishes some letters."""
        text = self.letters(self.stage)
        if self.dice.random() < 0.1:
            last = (text.replace("O", "") or self.stage)[-1]
            unlawful = self.dice.choice([it for it in "uUdD" if it not in NEXT_LETTERS[last]])
            line = f"pub {name} {text}{unlawful}"
            self.log.is_one_of(line, self.ask(line)[0], f"no unlawful {len(text)}")
        elif not self.publish(name, [text], *self.full):
            self.add(text)

    def letters(self, stage):
        """Some lawful letters after the stage."""
        text = ""
        for _ in range(self.dice.randrange(1, 5)):
            often = NEXT_LETTERS[stage] * 8
            letter = self.dice.choice(often + "sxO") if often else "s"
            text += letter
            stage = stage if letter == "O" else letter
        return text


class Hearer(Role):
    """Hears a fifodir that is no service, by a handle."""

    def hear(self, begin, ask, word, *nothing):
        """Begins, and asks behind each await, or by a next, until it may end or is evicted. The requests have NAME for the fifodir, and HANDLE.
        A reply has this word before what came, and `nothing` is what both say if nothing did. Returns the name, the numbers of events before and after
        it began, and what came, and then the handle, and whether it was evicted."""
        name = self.dice.choice(list(PLAIN))
        before = self.number(name)
        handle = self.subscribe(begin.replace("NAME", name))
        heard = name, before, self.number(name), []
        while self.goes_on(one_in=2_000):
            if self.dice.random() < 0.5:
                woken, reply = "next", self.ask(f"next {handle} 100")[0]
            else:
                woken, reply = self.ask(f"await {handle} 100", ask.replace("HANDLE", str(handle)))
            if reply.startswith(f"{word} "):
                heard[3].append(reply[len(word) + 1 :])
            elif reply == "evicted" and PLAIN[name].endswith("evict"):
                return heard, handle, True
            else:
                self.log.is_one_of(f"await, {ask}", f"{woken}, {reply}", "next, late", *nothing)
        return heard, handle, False


class Taker(Hearer):
    """Subscribes, and takes everything."""

    def serve(self):
        (name, before, after, came), handle, is_evicted = self.hear("sub NAME", "take HANDLE 256", "got", "late, none")
        if is_evicted:
            self.log.is_one_of("take again", self.ask(f"take {handle} 1")[0], "evicted")
        self.log.stretches.append((name, before, after, "".join(came)))
        self.log.taken += len(self.log.stretches[-1][3])
        if self.dice.random() < 0.5:
            self.cancel(handle)


class Listener(Hearer):
    """Listens for a pattern, and polls."""

    def serve(self):
        heard, handle, is_evicted = self.hear(f"listen NAME repeat {PATTERN}", "poll HANDLE", "hit", "late, none", "ok, none")
        if is_evicted:
            self.cancel(handle)
        self.log.hits.append(heard)


class Waiter(Role):
    """Waits for services. It looks at their numbers before and after."""

    def serve(self):
        while self.goes_on(one_in=50):
            names = [self.dice.choice(list(SERVICES)) for _ in range(self.dice.randrange(1, 4))]
            span, want = self.dice.choice(("all", "any")), self.dice.choice(WANTS)
            before = [self.number(name) for name in names]
            (reply,) = self.ask(f"wait {span} {want} {self.dice.choice((0, 5, 50, 200))} {' '.join(names)}")
            self.log.waits.append((span, want, names, before, reply, [self.number(name) for name in names]))


class Visitor(Role):
    """Asks for this and that, of small fifodirs above all, and leaves."""

    def serve(self):
        while self.goes_on(one_in=self.dice.randrange(1, 30)):
            self.dice.choice((self.make, self.use, self.use, self.close, self.list, self.look))()

    def make(self):
        name = self.dice.choice(SMALL)
        line = make_line(name)
        (reply,) = self.ask(line)
        if self.log.is_one_of(line, reply, "ok", "no exists") and reply == "ok":
            self.log.made[name] += 1
        if self.tenth > 0:
            self.log.is_one_of("dir", self.ask(f"dir more{self.at} 1 1")[0], "no many")

    def use(self):
        """Publishes at a small fifodir while somebody subscribes there."""
        name = self.dice.choice(SMALL)
        (reply,) = self.ask(f"status {name}")
        if reply == "no name":
            return
        before = int(reply.split()[1])
        handle = self.subscribe(f"sub {name}", "no closed")
        after = self.number(name)
        text = "".join(self.dice.choices("abcefghijklmnopqrtvwyz", k=self.dice.randrange(1, 10)))
        self.publish(name, [text], "no full", "no spent", "no closed")
        if handle is not None:
            (reply,) = self.ask(f"take {handle} 256")
            letters = reply[4:] if reply.startswith("got ") else ""
            if letters or self.log.is_one_of("take", reply, "none", "end"):
                self.log.stretches.append((name, before, after, letters))
            self.cancel(handle)

    def close(self):
        """Each tenth has its own fifodirs that are closed then."""
        name = self.dice.choice(SMALL[self.tenth::10])
        line = f"close {name}"
        (reply,) = self.ask(line)
        if self.log.is_one_of(line, reply, "ok", "no closed", "no name") and reply == "ok":
            self.log.closed[name] += 1

    def list(self):
        place = self.dice.choice((0, 0, self.dice.randrange(256)))
        (reply,) = self.ask(f"names {place}")
        self.log.listings.append((place, reply.split()[1:]))

    def look(self):
        name = self.dice.choice(list(PLAIN) + list(SERVICES))
        self.number(name)
        (reply,) = self.ask(f"about {name}")
        kind, *made = ("svc", *SERVICES[name].split()) if name in SERVICES else ("dir", *PLAIN[name].split())
        reports = made.pop(2) if kind == "svc" else "0"
        front = f"ok {kind} {reports} {made[0]} {made[1]} {made[2] if made[2:] else 'hold'} "
        more = reply.removeprefix(front).split()
        is_right = reply.startswith(front) and len(more) == 3 and 1 <= int(more[1]) <= sum(ROLES.values()) + 1 and int(more[2]) <= int(made[0])
        self.log.is_one_of(f"about {name}: {reply}", is_right, True)


# How many there are of each role.
ROLES = {Publisher: 8, Supervisor: len(SERVICES), Taker: 20, Listener: 8, Waiter: 12, Visitor: 12}
