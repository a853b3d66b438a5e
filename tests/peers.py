"""What the tests of the commands share: peers that are no hubs, peers that don't answer, and how a command meets them."""

import contextlib
import errno
import itertools
import os
import socket
import threading
import time

from hubs import PATIENCE, Hub, hub_at, stop


class Peer:
    """A server that is no hub: it answers the first lines of one connection with these bytes, and hangs up. `sent` is all that
    it was sent. A peer that stays doesn't hang up, and counts the connections to it."""

    def __init__(self, path, *replies, stays=False):
        self.listener, self.replies, self.sent = socket.socket(socket.AF_UNIX), replies, b""
        self.stays, self.connections = stays, 1
        self.listener.bind(path)
        self.listener.listen()
        self.thread = threading.Thread(target=self.serve, daemon=True)
        self.thread.start()

    def serve(self):
        try:
            connection, _ = self.listener.accept()
        except OSError:  # (nobody came)
            return
        if not self.stays:
            self.listener.close()
        with connection, connection.makefile("rb") as lines, contextlib.suppress(BrokenPipeError, ConnectionResetError):
            for reply in self.replies:
                self.sent += lines.readline()
                connection.sendall(reply)
            if not self.stays:
                connection.shutdown(socket.SHUT_WR)
            self.sent += lines.read()
        if self.stays:
            self.count()

    def count(self):
        self.listener.setblocking(False)
        with self.listener, contextlib.suppress(OSError):
            while self.listener.accept():
                self.connections += 1

    def all_sent(self):
        """All that it was sent, once its client has ended. A client that didn't come before that comes no more."""
        with contextlib.suppress(OSError):  # (it is closed if the client came)
            self.listener.shutdown(socket.SHUT_RDWR)
        self.thread.join(PATIENCE)
        return self.sent


class Talker:
    """A server that is no hub. It says these pieces to each client, with so many seconds before each, and stays silent then. `taken` is
    how many bytes a client took at most."""

    def __init__(self, path, pieces, pause=0):
        self.path, self.pieces, self.pause, self.taken = path, pieces, pause, 0
        self.listener = socket.socket(socket.AF_UNIX)
        self.listener.bind(path)
        self.listener.listen()
        threading.Thread(target=self.serve, daemon=True).start()

    def serve(self):
        while True:
            threading.Thread(target=self.talk, args=(self.listener.accept()[0],), daemon=True).start()

    def talk(self, connection):
        taken = 0
        with connection, contextlib.suppress(OSError):
            for piece in self.pieces():
                time.sleep(self.pause)
                connection.sendall(piece)
                taken += len(piece)
                self.taken = max(self.taken, taken)
            while connection.recv(65_536):
                pass


def without_room(path):
    """A listener that accepts nobody, and whose queue is full: what has to stay open for that."""
    held = [socket.socket(socket.AF_UNIX)]
    held[0].bind(path)
    held[0].listen(0)
    result = 0
    while result != errno.EAGAIN:
        held.append(socket.socket(socket.AF_UNIX))
        held[-1].setblocking(False)
        result = held[-1].connect_ex(path)
    return held


class Silent:
    """Peers that don't answer, by what they are, each at its path: a stopped hub, one whose sessions are all taken, a listener without
    room, and a peer that sends a byte ten times a second."""

    def __init__(self, program, folder):
        stopped = hub_at(program, f"{folder}/stopped")
        stop(stopped.process.pid)
        taken = Hub(program.path, f"{folder}/taken", "--sessions", "4")
        taken.told()
        self.clients = [taken.client() for _ in range(4)]
        for client in self.clients:
            client.ask("names 0")
        self.room = without_room(f"{folder}/room")
        self.talker = Talker(f"{folder}/talker", lambda: itertools.repeat(b"a"), pause=0.1)
        self.hubs = [stopped, taken]
        self.paths = {"a stopped hub": stopped.path, "a hub whose sessions are all taken": taken.path,
                      "a listener without room": f"{folder}/room", "a peer that dribbles": self.talker.path}

    def end(self):
        for it in [*self.clients, *self.room]:
            it.close()
        for hub in self.hubs:
            hub.end()


def run_at_once(program, cases):
    """Runs commands at the same time. Returns, by the name of each, what it did and how many seconds it took."""
    found = {}

    def run(name, words, path):
        begun = time.monotonic()
        found[name] = program.run(*words, known=path), time.monotonic() - begun

    threads = [threading.Thread(target=run, args=case[:3]) for case in cases]
    for thread in threads:
        thread.start()
    for thread in threads:
        thread.join()
    return found


def check_at_once(program, report, cases):
    """Runs commands at the same time. Each case has a name, the words, the path of the peer, what is wanted, and for how many seconds the
    command runs at least and at most. If a busy machine keeps it or its peer from running for so long, it is run once more, and once
    more after that."""
    found = run_at_once(program, cases)
    for _ in range(2):
        found |= run_at_once(program, [case for case in cases if found[case[0]][1] > case[5]])
    for name, _, _, wanted, least, most in cases:
        result, seconds = found[name]
        report.same(name, result, wanted)
        report.add(f"{name}: its time", None if least <= seconds <= most else f"{seconds:.1f} s, and {least} to {most} s is wanted")


def check_end(program, path, report, name, words, replies, wanted):
    """The command makes one connection, and ends with the last reply though the peer stays."""
    peer = Peer(path, *(f"{reply}\n".encode() for reply in replies), stays=True)
    report.same(name, program.run(*words, known=path), wanted)
    report.same(f"{name}: its requests and connections", (len(peer.all_sent().splitlines()), peer.connections), (len(replies), 1))
    os.unlink(path)
