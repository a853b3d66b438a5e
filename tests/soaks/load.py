"""A hub at full load: 64 sessions of all words, of clients that come and go. It is judged from outside, tenth by tenth of the
run, when all clients of a tenth have left:

- A `pub` that is accepted names the number of its message, and so does a `tell`. A will is the last message of its session. These fill the fifodir's numbers without gap or overlap,
  over all publishers, up to the number that `status` shows. So they make the fifodir's record.
- What a subscription took, by `take` or `next`, is one stretch of the record, which begins between the numbers that `status` showed before and after
  the `sub`. So are the hits of a listener together, and each hit is the least prefix with a match.
- A `yes` names numbers that the services had during the wait, at which each was as wanted, by its letters so far; a restarted
  service fell before. A `never` had a service that failed for good, and a `late` one that wasn't as wanted.
- Each `status` of a service shows the code of so many letters.
- Each `about` shows what was made, no more events pending than may be, and a publisher for no more than each session.
- Each `names` is a piece of the list of names, which only grows. Of those who make a name just one gets `ok`, and so does one of
  those who close it.
- Each handle is the next number. After an `await` that is `ok`, a `take` has something. Each refusal is one that may be there.

Memory is looked at after each tenth. A thread of the hub keeps the stack of the deepest request that it has served, which is a
`listen`: its pattern is compiled there. So each thread serves one before the first tenth.
"""

import random
import time
from collections import Counter

from hubs import CROWD, TROUBLE, Hub
from soaks import planted
from soaks.clients import PATTERN, PLAIN, REPORTS, ROLES, SERVICES, SMALL, TOTAL, make_line
from soaks.model import Record, hits_fault, wait_fault
from soaks.workers import Worker

TENTHS = 10
# The sessions that the hub may have at the same time: those of the clients, and one of this program.
SESSIONS = sum(ROLES.values()) + 1
# How much more memory the hub may have after any tenth than after the first, in KiB. In a run of less than a minute few clients have
# come and gone by then, and each thread has its largest buffers only later. So there it may have so much more than after the first half.
MORE_MEMORY, ROUGHLY = 512, 1_024
# So many seconds after its tenth a client has handed over what it saw.
PATIENCE = 120


class Books:
    """What is known of the hub between the tenths: its names, and of each the number of its events and their code."""

    def __init__(self, report):
        self.report, self.names, self.ends = report, [], {}
        self.made, self.closed = Counter(), Counter()
        self.totals = Counter()

    def judge(self, client, tenth, logs):
        """Judges what the clients of a tenth saw. `client` is one of its own."""

        def add(what, faults):
            faults = [it for it in faults if it is not None]
            self.report.add(f"load, {tenth}: {what}", f"{len(faults)} faults: {faults[:3]}" if faults else None)

        add("each client ended", [f"number {at}" for at, log in enumerate(logs) if log is None])
        logs = [log for log in logs if log is not None]
        add("replies", [it for log in logs for it in log.faults])
        earlier = len(self.names)
        self.list_names(client, add)
        records = self.records(client, logs, add)
        if records is None:
            return
        add("takes", [f"{name}: {fault}" for log in logs for name, *stretch in log.stretches
                      if (fault := records[name].has_stretch(*stretch))])
        add("hits", [hits_fault(PATTERN, hits) or records[name].has_stretch(before, after, "".join(hits))
                     for log in logs for name, before, after, hits in log.hits])
        add("waits", [wait_fault(records, REPORTS, wait) for log in logs for wait in log.waits])
        add("statuses", [f"{name} has the code {code} at {number}" for log in logs for name, number, code in log.statuses
                         if records[name].code_at(number) != code])
        add("listings", [f"names {place}: {names}" for log in logs for place, names in log.listings
                         if names != self.names[place:place + len(names)] or place + len(names) < earlier])
        self.count(logs)
        if tenth == TENTHS - 1:
            planted.check(self.report, records, logs)

    def make_rest(self, client):
        """Makes what nobody made of the small fifodirs, so that there are as many names as may be."""
        for name in SMALL:
            self.made[name] += client.ask(make_line(name)) == "ok"

    def list_names(self, client, add):
        """The names as they are now, in their order. Those of before are the first."""
        names, more = [], True
        while more:
            more = client.ask(f"names {len(names)}").split()[1:]
            names += more
        add("the names of before", [] if names[:len(self.names)] == self.names else [names])
        self.names = names

    def records(self, client, logs, add):
        """The record of each fifodir in this tenth, or None if there is something wrong with one."""
        found, faults = {}, []
        for log in logs:
            self.made += log.made
            self.closed += log.closed
            faults += [f"the numbers of a client at {name}" for name, its in log.messages.items() if its != sorted(its)]
        for name in self.names:
            _, number, code, state = client.ask(f"status {name}").split()
            record = Record(*self.ends.get(name, (0, 0)))
            faults.append(record.fill([it for log in logs for it in log.messages.get(name, ())], int(number)))
            if name in SERVICES:
                record.count_codes()
            elif name not in PLAIN and int(number) > TOTAL:
                faults.append(f"{name} has {number} events")
            if int(code) != record.codes[-1]:
                faults.append(f"{name} has the code {code}")
            if self.closed[name] != (state == "closed") or self.made[name] != (name not in PLAIN and name not in SERVICES):
                faults.append(f"{name} was made {self.made[name]} times and closed {self.closed[name]} times, and is {state}")
            self.ends[name] = (record.end(), record.codes[-1])
            found[name] = record
        faults = [it for it in faults if it is not None]
        add("records", faults)
        return None if faults else found

    def count(self, logs):
        for log in logs:
            messages = [text for its in log.messages.values() for _, text in its]
            self.totals += Counter(requests=log.requests, sessions=log.sessions, taken=log.taken, waits=len(log.waits), tells=log.tells, wills=log.wills,
                                   hits=sum(len(it[3]) for it in log.hits), letters=sum(map(len, messages)))


def run_tenth(hub, folder, tenth, seconds):
    """Has all clients work for so many seconds, and returns their logs."""
    until = time.monotonic() + seconds
    workers = []
    for role, count in ROLES.items():
        for at in range(count):
            dice = random.Random(f"{role.__name__} {at} {tenth}")
            client = role(hub.path, at, dice, until, tenth)
            workers.append(Worker(f"{folder}/load-{len(workers)}", client.work))
    return [worker.result(until + PATIENCE) for worker in workers]


def have_all_listen(hub, client, report):
    """Has each thread of the hub serve a listener, by as many clients at the same time. `client` is one of them."""
    others = [hub.client() for _ in range(SESSIONS - 1)]
    replies = {it.ask(f"listen {next(iter(PLAIN))} once {PATTERN}") for it in (client, *others)}
    report.same("load: each thread serves a listener", (replies, client.ask("cancel 1")), ({"ok 1"}, "ok"))
    for it in others:
        it.close()


def check(program, folder, report, seconds):
    hub = Hub(program, f"{folder}/load", "--sessions", str(SESSIONS))
    hub.told()
    client = hub.client()
    lines = [f"dir {name} {words}" for name, words in PLAIN.items()] + [f"svc {name} {words}" for name, words in SERVICES.items()]
    report.same("load: the fifodirs", client.ask_each(*lines), ["ok"] * len(lines))
    have_all_listen(hub, client, report)
    books, memory, used, begun = Books(report), [], hub.processor_time(), time.monotonic()
    for tenth in range(TENTHS):
        logs = run_tenth(hub, folder, tenth, seconds / TENTHS)
        books.make_rest(client)
        books.judge(client, tenth, logs)
        memory.append(hub.status("VmRSS"))
        if seconds > 60:
            print(f"soak: after {tenth + 1} of {TENTHS} parts, {time.monotonic() - begun:.0f} s: {dict(books.totals)}; {memory[-1]} KiB",
                  flush=True)
    took, totals = time.monotonic() - begun, books.totals
    print(f"soak: {totals['requests']} requests of {totals['sessions']} sessions in {seconds} s of load, {totals['letters']} letters "
          f"published, {totals['taken']} taken, {totals['hits']} hits, {totals['waits']} waits, {totals['tells']} states and "
          f"{totals['wills']} wills told; the hub used {hub.processor_time() - used:.0f} s of processor time in {took:.0f} s", flush=True)
    print(f"soak: KiB of memory after each tenth: {memory}", flush=True)
    if seconds >= 60:
        report.at_most("load: KiB of memory more than after the first tenth", max(memory) - memory[0], MORE_MEMORY)
    else:
        half = memory[TENTHS // 2 - 1]
        report.at_most("load: KiB of memory more than after the first half", max(memory) - half, ROUGHLY)
    client.close()
    time.sleep(0.2)
    # (a client that connects anew may come while all sessions are taken, and publishers are refused as full)
    report.same("load: no fault was told", [it for it in hub.end().splitlines() if not CROWD.fullmatch(it) and not TROUBLE.fullmatch(it)], [])
